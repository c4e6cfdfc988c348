//! From lrtable 0.15.0, src/lib/pager.rs: the collection of unreachable states.

use std::collections::{BTreeMap, BTreeSet};

use grammar::Symbol;

use crate::{itemset::Itemset, stategraph::StIdx};

/// A state's core and closed items.
pub(crate) type Zipped = (Itemset, Itemset);

/// Garbage collect `zip_states` (of `(core_states, closed_state)`) and `edges`. Returns a new pair
/// with unused states and their corresponding edges removed.
pub(crate) fn gc(
    mut states: Vec<Zipped>,
    start_state: StIdx,
    mut edges: Vec<BTreeMap<Symbol, StIdx>>,
) -> (Vec<Zipped>, Vec<BTreeMap<Symbol, StIdx>>) {
    let seen = reached(start_state, &edges);

    if states.len() == seen.len() {
        // Nothing to garbage collect.
        return (states, edges);
    }

    // First iterate over all states, working out what the mapping from seen states to their new
    // offsets is.
    let mut gc_states = Vec::with_capacity(seen.len());
    let mut offsets = Vec::with_capacity(states.len());
    let mut offset = 0;
    for (state_i, zstate) in states.drain(..).enumerate() {
        offsets.push(state_i - offset);
        if !seen.contains(&state_i) {
            offset += 1;
            continue;
        }
        gc_states.push(zstate);
    }

    // We now create new edges where each offset is corrected by looking it up in the offsets list.
    let mut gc_edges = Vec::with_capacity(seen.len());
    for (st_edge_i, st_edges) in edges.drain(..).enumerate() {
        if !seen.contains(&st_edge_i) {
            continue;
        }
        gc_edges.push(st_edges.iter().map(|(&k, &v)| (k, offsets[v])).collect());
    }

    (gc_states, gc_edges)
}

/// All state indexes reachable from the start state.
// Departure: in the crate this stands inside `gc`.
fn reached(start_state: StIdx, edges: &[BTreeMap<Symbol, StIdx>]) -> BTreeSet<StIdx> {
    let mut todo = BTreeSet::new();
    todo.insert(start_state);
    let mut seen = BTreeSet::new();
    while let Some(state_i) = todo.pop_first() {
        seen.insert(state_i);
        todo.extend(edges[state_i].values().filter(|x| !seen.contains(x)));
    }
    seen
}
