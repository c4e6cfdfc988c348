//! The states of either reading: breadth first from the start, one for each different kernel.

use std::collections::{BTreeMap, BTreeSet};

use grammar::{Grammar, Symbol};

use crate::ahead::Ahead;
use crate::maps::Maps;
use crate::triples::Triples;
use crate::Item;

/// A closed state as cells see it: the tokens of each complete production, and the edges.
#[derive(Clone, Debug, PartialEq)]
pub struct State {
    pub complete: BTreeMap<usize, BTreeSet<usize>>,
    pub edges: BTreeMap<Symbol, usize>,
}

#[derive(Clone, Debug, PartialEq)]
pub struct Automaton {
    pub states: Vec<State>,
}

#[derive(Clone, Copy, Debug, PartialEq)]
pub enum Reading {
    Maps,
    Triples,
}

impl Automaton {
    /// The automaton, or none if it has more than `most` states.
    pub fn new(grm: &Grammar, reading: Reading, most: usize) -> Option<Self> {
        match reading {
            Reading::Maps => explore::<Maps>(grm, most),
            Reading::Triples => explore::<Triples>(grm, most),
        }
    }
}

/// What a reading must say of its kernels.
pub(crate) trait Kernel: Clone + Ord {
    fn start(grm: &Grammar) -> Self;
    fn close(&self, grm: &Grammar, ahead: &Ahead) -> Self;
    fn goto(&self, grm: &Grammar, symbol: Symbol) -> Self;
    fn items(&self) -> BTreeSet<Item>;
    fn tokens(&self, item: Item) -> BTreeSet<usize>;
}

fn explore<K: Kernel>(grm: &Grammar, most: usize) -> Option<Automaton> {
    let ahead = Ahead::new(grm);
    let mut kernels = vec![K::start(grm)];
    let mut numbers = BTreeMap::from([(K::start(grm), 0)]);
    let mut states = Vec::new();
    while states.len() < kernels.len() {
        let closed = kernels[states.len()].close(grm, &ahead);
        let mut edges = BTreeMap::new();
        for symbol in behind_dots(grm, &closed) {
            let kernel = closed.goto(grm, symbol);
            let next = kernels.len();
            let number = *numbers.entry(kernel.clone()).or_insert(next);
            if number == next {
                kernels.push(kernel);
            }
            edges.insert(symbol, number);
        }
        states.push(State { complete: complete(grm, &closed), edges });
        if kernels.len() > most {
            return None;
        }
    }
    Some(Automaton { states })
}

fn behind_dots<K: Kernel>(grm: &Grammar, closed: &K) -> BTreeSet<Symbol> {
    closed.items().iter().filter_map(|&(p, d)| grm.prod(p).get(d).copied()).collect()
}

fn complete<K: Kernel>(grm: &Grammar, closed: &K) -> BTreeMap<usize, BTreeSet<usize>> {
    let items = closed.items();
    let done = items.iter().filter(|&&(p, d)| d == grm.prod_len(p));
    done.map(|&(p, d)| (p, closed.tokens((p, d)))).collect()
}
