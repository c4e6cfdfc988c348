//! Timkerzal for Rust: the proved static library, called safely. Nothing here decides anything about a grammar: each answer is the library's.
mod block;
mod build;
mod faults;
mod ffi;
pub mod lent;
mod queries;
mod refusal;
mod rooms;
mod run;

pub use block::{check, Block, Sizes, Symbol};
pub use build::{build, build_growing, graph, Built, Conflict, Counts, Declined, Graph, Item, Overlap};
pub use faults::where_it_lies;
pub use queries::{action, cell, core_mark, decode, edge, goto, offered_mark, only_mark, shift_mark, Action};
pub use refusal::Refusal;
pub use rooms::{Rooms, INPUT, ITEMS, RECORDS, STATES, STEPS};
pub use run::{run, Ended, Run, RunRooms, Stopped};
