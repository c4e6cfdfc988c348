//! What a build writes, word by word, and how many words each lent buffer needs.

use grammar::{Grammar, Symbol, Vob, Words};

use crate::build::{Built, Limits};
use crate::itemset::Itemset;
use crate::stategraph::StateGraph;

/// 128 × production + dot, then four words of context.
pub const WORDS_OF_ITEM: usize = 5;

/// The words of items, spans (first item and item count of each state) and edges.
#[derive(Clone, Debug, PartialEq)]
pub struct GraphRoom {
    pub items: Vec<u64>,
    pub spans: Vec<u64>,
    pub edges: Vec<u64>,
}

/// The words of actions, gotos, the four kinds of marks and the two lists.
#[derive(Clone, Debug, PartialEq)]
pub struct TableRoom {
    pub actions: Vec<u64>,
    pub gotos: Vec<u64>,
    pub offered: Vec<u64>,
    pub shifts: Vec<u64>,
    pub core_reduces: Vec<u64>,
    pub reduce_only: Vec<u64>,
    pub reduce_reduce: Vec<u64>,
    pub shift_reduce: Vec<u64>,
}

impl GraphRoom {
    /// The sizes that S and I need, in the order of the fields.
    pub fn needs(w: Words, states: u64, items: u64) -> [u64; 3] {
        [WORDS_OF_ITEM as u64 * items, 2 * states, states * (w.rules() + w.tokens()) as u64]
    }

    /// What a graph writes, without what is zero behind it.
    pub fn of(grm: &Grammar, graph: &StateGraph) -> Self {
        let mut room = GraphRoom { items: Vec::new(), spans: Vec::new(), edges: Vec::new() };
        let mut first = 0;
        for stidx in graph.iter_stidxs() {
            let core = graph.core_state(stidx);
            room.items.extend(item_words(core));
            room.spans.extend([first, core.items.len() as u64]);
            first += core.items.len() as u64;
            room.edges.extend(edge_words(grm, graph, stidx));
        }
        room
    }

    pub fn parts(self) -> Vec<Vec<u64>> {
        vec![self.items, self.spans, self.edges]
    }
}

impl TableRoom {
    /// The sizes that the limits need, in the order of the fields.
    pub fn needs(w: Words, limits: Limits) -> [u64; 8] {
        let (tokens, rules, prods) = (w.tokens() as u64, w.rules() as u64, w.prods() as u64);
        let s = limits.states;
        [s * tokens, s * rules, s * tokens, s * tokens, s * prods, s, 4 * limits.reduce_reduce, 3 * limits.shift_reduce]
    }

    /// What a build writes, without what is zero behind it.
    pub fn of(grm: &Grammar, built: &Built) -> Self {
        let states = built.graph.all_states_len();
        let table = &built.table;
        let records = &table.conflicts;
        TableRoom {
            actions: table.actions.iter().map(|&w| w as u64).collect(),
            gotos: table.gotos.iter().map(|&w| w as u64).collect(),
            offered: marks(&table.state_actions, states * grm.tokens_len()),
            shifts: marks(&table.state_shifts, states * grm.tokens_len()),
            core_reduces: marks(&table.core_reduces, states * grm.prods_len()),
            reduce_only: marks(&table.reduce_states, states),
            reduce_reduce: records
                .reduce_reduce
                .iter()
                .flat_map(|&(t, p, r, s)| [t, p, r, s].map(|x| x as u64))
                .collect(),
            shift_reduce: records.shift_reduce.iter().flat_map(|&(t, p, s)| [t, p, s].map(|x| x as u64)).collect(),
        }
    }

    pub fn parts(self) -> Vec<Vec<u64>> {
        vec![
            self.actions,
            self.gotos,
            self.offered,
            self.shifts,
            self.core_reduces,
            self.reduce_only,
            self.reduce_reduce,
            self.shift_reduce,
        ]
    }
}

/// The four words of a token set.
pub fn set_words(set: &Vob) -> [u64; 4] {
    let mut words = [0; 4];
    for (word, storage) in words.iter_mut().zip(set.iter_storage()) {
        *word = storage;
    }
    words
}

/// The five words of an item.
pub fn row_words(item: (usize, usize), ctx: &Vob) -> [u64; WORDS_OF_ITEM] {
    let [a, b, c, d] = set_words(ctx);
    [(128 * item.0 + item.1) as u64, a, b, c, d]
}

/// The rows of an item set, ascending.
pub fn item_words(items: &Itemset) -> Vec<u64> {
    items.items.iter().flat_map(|(&item, ctx)| row_words(item, ctx)).collect()
}

/// The edges of a state, rules before tokens, each state + 1 or 0.
fn edge_words(grm: &Grammar, graph: &StateGraph, stidx: usize) -> Vec<u64> {
    let edges = graph.edges(stidx);
    let word = |sym: Symbol| edges.get(&sym).map_or(0, |&s| s as u64 + 1);
    let rules = (0..grm.rules_len()).map(|r| word(Symbol::Rule(r)));
    let tokens = (0..grm.tokens_len()).map(|t| word(Symbol::Token(t)));
    rules.chain(tokens).collect()
}

fn marks(bits: &Vob, len: usize) -> Vec<u64> {
    (0..len).map(|i| bits.has(i) as u64).collect()
}
