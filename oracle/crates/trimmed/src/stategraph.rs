//! From lrtable 0.15.0, src/lib/stategraph.rs: what the other two files use of it.

use std::collections::BTreeMap;

use grammar::Symbol;

use crate::itemset::Itemset;

pub type StIdx = usize;

#[derive(Debug)]
pub struct StateGraph {
    /// A vector of `(core_states, closed_states)` tuples.
    states: Vec<(Itemset, Itemset)>,
    /// For each state in `states`, edges is a map from symbols to state offsets.
    edges: Vec<BTreeMap<Symbol, StIdx>>,
    /// Departure: the number of kernel items of every state ever made, in order.
    made: Vec<usize>,
    /// Departure: the states in the order in which they were closed, numbered as before collection.
    closings: Vec<StIdx>,
}

impl StateGraph {
    pub(crate) fn new(
        states: Vec<(Itemset, Itemset)>,
        edges: Vec<BTreeMap<Symbol, StIdx>>,
        made: Vec<usize>,
        closings: Vec<StIdx>,
    ) -> Self {
        StateGraph { states, edges, made, closings }
    }

    pub fn iter_stidxs(&self) -> std::ops::Range<StIdx> {
        0..self.states.len()
    }

    /// Return an iterator over all closed states in this `StateGraph`.
    pub fn iter_closed_states(&self) -> impl Iterator<Item = &Itemset> {
        self.states.iter().map(|(_, x)| x)
    }

    /// Return the itemset for closed state `stidx`. Panics if `stidx` doesn't exist.
    pub fn closed_state(&self, stidx: StIdx) -> &Itemset {
        let (_, closed_state) = &self.states[stidx];
        closed_state
    }

    /// Return the itemset for core state `stidx`. Panics if `stidx` doesn't exist.
    pub fn core_state(&self, stidx: StIdx) -> &Itemset {
        let (core_states, _) = &self.states[stidx];
        core_states
    }

    pub fn all_states_len(&self) -> usize {
        self.states.len()
    }

    /// Return the edges for state `stidx`. Panics if `stidx` doesn't exist.
    pub fn edges(&self, stidx: StIdx) -> &BTreeMap<Symbol, StIdx> {
        &self.edges[stidx]
    }

    pub fn made(&self) -> &[usize] {
        &self.made
    }

    pub fn closings(&self) -> &[StIdx] {
        &self.closings
    }
}
