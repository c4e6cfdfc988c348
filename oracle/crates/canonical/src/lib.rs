//! Knuth's construction: a state for each different kernel, never merging. Written apart from `trimmed`: sets of numbers
//! in place of bits, rounds in place of a work list, its own FIRST, its own cells. An item is read in two ways: as a map
//! from (production, dot) to tokens, by rule 2, where the tokens may be none; and as Knuth's triple with a token.

mod ahead;
mod automaton;
mod cells;
mod maps;
mod triples;

pub use automaton::{Automaton, Reading, State};
pub use cells::{conflicts, Found};

/// An item without its tokens: production and dot.
pub type Item = (usize, usize);
