//! The words of a block by their names. Nothing here asks whether the block is good, only that the words are there.

use crate::HEADER;

#[derive(Clone, Copy)]
pub struct Words<'a>(pub &'a [u32]);

impl<'a> Words<'a> {
    pub fn tokens(self) -> usize {
        self.0[0] as usize
    }

    pub fn rules(self) -> usize {
        self.0[1] as usize
    }

    pub fn prods(self) -> usize {
        self.0[2] as usize
    }

    pub fn symbols(self) -> usize {
        self.0[3] as usize
    }

    pub fn end(self) -> usize {
        self.0[4] as usize
    }

    pub fn start(self) -> usize {
        self.0[5] as usize
    }

    pub fn rule(self, p: usize) -> usize {
        self.0[HEADER + 4 * p] as usize
    }

    pub fn first_index(self, p: usize) -> usize {
        self.0[HEADER + 4 * p + 1] as usize
    }

    pub fn length(self, p: usize) -> usize {
        self.0[HEADER + 4 * p + 2] as usize
    }

    pub fn prod_precedence(self, p: usize) -> u32 {
        self.0[HEADER + 4 * p + 3]
    }

    pub fn symbol(self, i: usize) -> u32 {
        self.0[HEADER + 4 * self.prods() + i]
    }

    pub fn token_precedence(self, t: usize) -> u32 {
        self.0[HEADER + 4 * self.prods() + self.symbols() + t]
    }

    /// The right side of production p.
    pub fn body(self, p: usize) -> &'a [u32] {
        let at = HEADER + 4 * self.prods() + self.first_index(p);
        &self.0[at..at + self.length(p)]
    }
}
