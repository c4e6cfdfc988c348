//! Names of rules and tokens; without them rule 3 is R3 and token 3 is t3.
use crate::{files::read_text, Fault};
use std::collections::HashMap;
use timkerzal::{Block, Symbol};

#[derive(Default)]
pub struct Names {
    rules: HashMap<usize, String>,
    tokens: HashMap<usize, String>,
}

impl Names {
    /// Lines `token N NAME` and `rule N NAME`; a line that begins with # is a comment.
    pub fn read(path: &str) -> Result<Names, Fault> {
        let mut names = Names::default();
        for (i, line) in read_text(path)?.lines().enumerate() {
            let fault = || format!("{path}: line {}: not 'token N NAME', 'rule N NAME' or a comment", i + 1);
            let words: Vec<&str> = line.split_whitespace().collect();
            let (table, number, name) = match words.as_slice() {
                [] => continue,
                [first, ..] if first.starts_with('#') => continue,
                ["token", number, name] => (&mut names.tokens, number, name),
                ["rule", number, name] => (&mut names.rules, number, name),
                _ => return Err(fault()),
            };
            table.insert(number.parse().map_err(|_| fault())?, name.to_string());
        }
        Ok(names)
    }

    pub fn rule(&self, r: usize) -> String {
        self.rules.get(&r).cloned().unwrap_or_else(|| format!("R{r}"))
    }

    pub fn token(&self, t: usize) -> String {
        self.tokens.get(&t).cloned().unwrap_or_else(|| format!("t{t}"))
    }

    pub fn symbol(&self, x: Symbol) -> String {
        match x {
            Symbol::Rule(r) => self.rule(r),
            Symbol::Token(t) => self.token(t),
        }
    }

    /// Symbols with blanks between them.
    pub fn symbols(&self, symbols: &[Symbol]) -> String {
        symbols.iter().map(|&x| self.symbol(x)).collect::<Vec<_>>().join(" ")
    }

    /// A production, with a dot where an item has one.
    pub fn production(&self, block: &Block, p: usize, dot: Option<usize>) -> String {
        let mut right: Vec<String> = body(block, p).iter().map(|&x| self.symbol(x)).collect();
        if let Some(dot) = dot {
            right.insert(dot, ".".into());
        }
        let right = if right.is_empty() { "(nothing)".into() } else { right.join(" ") };
        format!("{} -> {right}", self.rule(block.rule(p)))
    }
}

/// The right side of a production that the block has.
pub fn body(block: &Block, p: usize) -> Vec<Symbol> {
    block.body(p).expect("a production of the block")
}
