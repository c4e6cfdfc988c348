//! lrtable 0.15.0 trimmed: `itemset.rs`, `pager.rs` and `statetable.rs` followed statement by statement, with sorted
//! maps in place of hash maps, so that they run in the visiting order of document 01. Each place where the text departs
//! from the crate's is marked `Departure`. Three departures are everywhere and not marked again: `HashMap` is
//! `BTreeMap`; indexes are plain numbers in place of `PIdx<StorageT>` and its like; long functions are cut in pieces.
//!
//! `build`, `lent` and `query` are not from the crate: they are document 01's calls, laid over the port.

mod build;
mod gc;
mod itemset;
mod layout;
mod lent;
mod pager;
mod query;
mod stategraph;
mod statetable;
mod weakly;

pub use build::{build, build_graph, Built, Limits, Refused};
pub use itemset::{Ctx, Itemset};
pub use layout::{item_words, row_words, set_words, GraphRoom, TableRoom, WORDS_OF_ITEM};
pub use lent::{build_graph_in, build_in};
pub use pager::pager_stategraph;
pub use query::{query, Kind};
pub use stategraph::{StIdx, StateGraph};
pub use statetable::{Action, StateTable, StateTableError, StateTableErrorKind};
