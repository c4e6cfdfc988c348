//! A grammar block that the library did not refuse.
use crate::{lent, Refusal};

#[derive(Clone, Copy, Debug, PartialEq, Eq)]
pub struct Sizes {
    pub tokens: usize,
    pub rules: usize,
    pub prods: usize,
    pub symbols: usize,
    pub end: usize,
    pub start: usize,
}

#[derive(Clone, Copy, Debug, PartialEq, Eq)]
pub enum Symbol {
    Rule(usize),
    Token(usize),
}

impl Symbol {
    pub fn of(word: u32) -> Symbol {
        let n = word as usize / 2;
        if word % 2 == 0 {
            Symbol::Rule(n)
        } else {
            Symbol::Token(n)
        }
    }

    pub fn word(self) -> u32 {
        match self {
            Symbol::Rule(r) => 2 * r as u32,
            Symbol::Token(t) => 2 * t as u32 + 1,
        }
    }
}

/// The first of the refusals 1 to 6 of any words.
pub fn check(words: &[u32]) -> Result<(), Refusal> {
    Refusal::of(lent::check(words).into()).map_or(Ok(()), Err)
}

#[derive(Clone, Debug)]
pub struct Block {
    words: Vec<u32>,
    sizes: Sizes,
}

impl Block {
    pub fn new(words: Vec<u32>) -> Result<Block, Refusal> {
        check(&words)?;
        let at = |i: usize| words[i] as usize;
        let sizes = Sizes { tokens: at(0), rules: at(1), prods: at(2), symbols: at(3), end: at(4), start: at(5) };
        Ok(Block { words, sizes })
    }

    pub fn words(&self) -> &[u32] {
        &self.words
    }

    pub fn sizes(&self) -> Sizes {
        self.sizes
    }

    /// The rule of a production of the block.
    pub fn rule(&self, p: usize) -> usize {
        self.words[9 + 4 * p] as usize
    }

    /// The right side of a production, as the library hands it out; 18 for an unknown production.
    pub fn body(&self, p: usize) -> Result<Vec<Symbol>, Refusal> {
        let (number, body) = lent::body(&self.words, p);
        Refusal::of(number.into()).map_or(Ok(body.into_iter().map(Symbol::of).collect()), Err)
    }
}
