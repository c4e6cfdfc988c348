//! A symbol of a body. Rules come before tokens in the order, as in a state's edges.

#[derive(Clone, Copy, Debug, Eq, Ord, PartialEq, PartialOrd)]
pub enum Symbol {
    Rule(usize),
    Token(usize),
}

impl Symbol {
    /// Rule r is 2r, token t is 2t+1.
    pub fn from_word(word: u32) -> Self {
        let number = (word / 2) as usize;
        if word % 2 == 0 {
            Symbol::Rule(number)
        } else {
            Symbol::Token(number)
        }
    }

    pub fn word(self) -> u32 {
        match self {
            Symbol::Rule(r) => 2 * r as u32,
            Symbol::Token(t) => 2 * t as u32 + 1,
        }
    }
}
