//! What the lines of each list hold: `inputs` puts a case's inputs together, `answer` reads them and works out the rest.

pub mod block;
pub mod body;
pub mod closure;
pub mod firsts;
pub mod graph;
pub mod query;
pub mod run;
pub mod table;

/// The number of a refusal, or 0.
fn number(refusal: Option<u32>) -> u64 {
    refusal.map_or(0, |n| n as u64)
}
