//! Document 01's build over the port: the block's refusals, the ranges of the named sizes, then refusals 8 to 12 read
//! off what the port made without limits.

use grammar::{Grammar, MOST_ITEMS, MOST_RECORDS, MOST_STATES};

use crate::pager::pager_stategraph;
use crate::stategraph::StateGraph;
use crate::statetable::{Conflicts, StateTable, StateTableError, StateTableErrorKind};

/// What the caller names: S, I, and the limits of the reduce/reduce and shift/reduce lists.
#[derive(Clone, Copy, Debug, PartialEq)]
pub struct Limits {
    pub states: u64,
    pub items: u64,
    pub reduce_reduce: u64,
    pub shift_reduce: u64,
}

impl Limits {
    /// The largest of everything.
    pub const MOST: Limits =
        Limits { states: MOST_STATES, items: MOST_ITEMS, reduce_reduce: MOST_RECORDS, shift_reduce: MOST_RECORDS };
}

/// A refusal: its number and three values, 0 where it gives none. 11 gives 1, r and the start production for Some(r),
/// and 0, 0 and the reduce for None; 12 gives token, production and state.
#[derive(Clone, Copy, Debug, PartialEq)]
pub struct Refused {
    pub number: u64,
    pub values: [u64; 3],
}

impl Refused {
    pub fn plain(number: u64) -> Self {
        Refused { number, values: [0; 3] }
    }
}

#[derive(Debug)]
pub struct Built {
    pub graph: StateGraph,
    pub table: StateTable,
}

/// The graph alone: refusals 1 to 9.
pub fn build_graph(block: &[u32], states: u64, items: u64) -> Result<StateGraph, Refused> {
    let grm = Grammar::new(block).map_err(|n| Refused::plain(n as u64))?;
    if !graph_in_range(states, items) {
        return Err(Refused::plain(7));
    }
    let graph = pager_stategraph(&grm);
    match graph_room(graph.made(), states, items) {
        Some(number) => Err(Refused::plain(number)),
        None => Ok(graph),
    }
}

/// Graph and tables: refusals 1 to 12.
pub fn build(block: &[u32], limits: Limits) -> Result<Built, Refused> {
    let grm = Grammar::new(block).map_err(|n| Refused::plain(n as u64))?;
    if !lists_in_range(limits) {
        return Err(Refused::plain(7));
    }
    let graph = build_graph(block, limits.states, limits.items)?;
    let table = StateTable::new(&grm, &graph).map_err(|e| table_refusal(&e, limits))?;
    if !lists_fit(&table.conflicts, limits) {
        return Err(Refused::plain(10));
    }
    Ok(Built { graph, table })
}

fn graph_in_range(states: u64, items: u64) -> bool {
    (1..=MOST_STATES).contains(&states) && (1..=MOST_ITEMS).contains(&items)
}

fn lists_in_range(limits: Limits) -> bool {
    limits.reduce_reduce <= MOST_RECORDS && limits.shift_reduce <= MOST_RECORDS
}

/// 8 or 9 at the first state made that does not fit, `made` being the number of kernel items of each.
fn graph_room(made: &[usize], states: u64, items: u64) -> Option<u64> {
    let mut held = 0;
    for (state, &kernel) in made.iter().enumerate() {
        if state as u64 >= states {
            return Some(8);
        }
        held += kernel as u64;
        if held > items {
            return Some(9);
        }
    }
    None
}

/// A list that is too long by now was too long before the walk came to the error.
fn table_refusal(error: &StateTableError, limits: Limits) -> Refused {
    if !lists_fit(&error.conflicts, limits) {
        return Refused::plain(10);
    }
    let pidx = error.pidx as u64;
    match error.kind {
        StateTableErrorKind::AcceptReduceConflict(Some(r_pidx)) => {
            Refused { number: 11, values: [1, r_pidx as u64, pidx] }
        }
        StateTableErrorKind::AcceptReduceConflict(None) => Refused { number: 11, values: [0, 0, pidx] },
        StateTableErrorKind::MixedKinds(tidx, stidx) => {
            Refused { number: 12, values: [tidx as u64, pidx, stidx as u64] }
        }
    }
}

fn lists_fit(conflicts: &Conflicts, limits: Limits) -> bool {
    conflicts.reduce_reduce.len() as u64 <= limits.reduce_reduce
        && conflicts.shift_reduce.len() as u64 <= limits.shift_reduce
}
