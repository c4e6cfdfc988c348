//! An independent recogniser: it counts the derivation trees of a string by dynamic programming over its parts, and
//! gives the one derivation where there is one. It knows no items, no states and no lookahead.

mod chart;
mod check;
mod tree;

pub use chart::{Chart, Count};
pub use check::is_derivation;
