//! Grammars for the lists: of each set of traits that a build can show, a few.

use std::collections::{BTreeMap, BTreeSet};
use std::sync::OnceLock;

use generate::{families, nearbies, randoms, samples, tinies, Draft};
use grammar::{Grammar, Words};
use trimmed::{pager_stategraph, Action, GraphRoom, Limits, StateGraph, StateTable, StateTableErrorKind, TableRoom};

/// A grammar with exactly the limits that its build needs.
#[derive(Clone, Debug)]
pub struct Known {
    pub block: Vec<u32>,
    pub needs: Limits,
    pub traits: Traits,
}

/// What a build shows.
#[derive(Clone, Debug, Default, PartialEq, Eq, PartialOrd, Ord)]
pub struct Traits {
    /// A state was closed again; one before the last one closed; the same one at once.
    reclosed: bool,
    wrapped: bool,
    at_once: bool,
    pub given_up: bool,
    /// Two states with the same items were kept apart.
    twins: bool,
    empty_context: bool,
    refused: u8,
    reduce_reduce: bool,
    shift_reduce: bool,
    settled: bool,
    removed: bool,
    /// Three actions met in one cell.
    crowded: bool,
}

impl Known {
    pub fn new(block: Vec<u32>) -> Self {
        let grm = Grammar::new(&block).expect("a good block");
        let graph = pager_stategraph(&grm);
        let mut traits = graph_traits(&graph);
        let conflicts = match StateTable::new(&grm, &graph) {
            Ok(table) => {
                table_traits(&table, &mut traits);
                table.conflicts
            }
            Err(error) => {
                traits.refused = match error.kind {
                    StateTableErrorKind::AcceptReduceConflict(None) => 1,
                    StateTableErrorKind::AcceptReduceConflict(Some(_)) => 2,
                    StateTableErrorKind::MixedKinds(..) => 3,
                };
                error.conflicts
            }
        };
        traits.reduce_reduce = !conflicts.reduce_reduce.is_empty();
        traits.shift_reduce = !conflicts.shift_reduce.is_empty();
        traits.crowded = crowded(&conflicts.reduce_reduce, &conflicts.shift_reduce);
        let needs = Limits {
            states: graph.made().len() as u64,
            items: graph.made().iter().sum::<usize>() as u64,
            reduce_reduce: conflicts.reduce_reduce.len() as u64,
            shift_reduce: conflicts.shift_reduce.len() as u64,
        };
        Known { block, needs, traits }
    }

    /// The words of a line of the tables for it.
    pub fn size(&self) -> u64 {
        let w = Words(&self.block);
        let graph: u64 = GraphRoom::needs(w, self.needs.states, self.needs.items).iter().sum();
        let table: u64 = TableRoom::needs(w, self.needs).iter().sum();
        self.block.len() as u64 + graph + table
    }
}

fn graph_traits(graph: &StateGraph) -> Traits {
    let closings = graph.closings();
    let cores: Vec<_> = graph.iter_stidxs().map(|s| graph.core_state(s)).collect();
    let keys: BTreeSet<Vec<_>> = cores.iter().map(|c| c.items.keys().collect()).collect();
    Traits {
        reclosed: closings.len() > graph.made().len(),
        wrapped: closings.windows(2).any(|w| w[1] < w[0]),
        at_once: closings.windows(2).any(|w| w[1] == w[0]),
        given_up: graph.made().len() > graph.all_states_len(),
        twins: keys.len() < cores.len(),
        empty_context: cores.iter().any(|c| c.items.values().any(|ctx| ctx.iter_set_bits().next().is_none())),
        ..Traits::default()
    }
}

fn table_traits(table: &StateTable, traits: &mut Traits) {
    traits.settled = table.settled > 0;
    let error = |&(i, &w): &(usize, &usize)| StateTable::decode(w) == Action::Error && table.state_actions.has(i);
    traits.removed = table.actions.iter().enumerate().find(error).is_some();
}

/// Two records of one cell.
fn crowded(rr: &[(usize, usize, usize, usize)], sr: &[(usize, usize, usize)]) -> bool {
    let mut cells = BTreeSet::new();
    let of_rr = rr.iter().map(|&(t, _, _, s)| (t, s));
    let of_sr = sr.iter().map(|&(t, _, s)| (t, s));
    of_rr.chain(of_sr).any(|cell| !cells.insert(cell))
}

/// The grammars by name, then `each` of every source and set of traits whose lines stay below `size` words.
pub fn chosen(each: usize, size: u64) -> Vec<Known> {
    let [random, family, rare, tiny] = sources();
    let mut all = named();
    all.extend(few(random, each, size));
    all.extend(few(family, each, size));
    all.extend(few(rare, 2 * each, size));
    all.extend(few(tiny, each, size));
    all
}

/// Random grammars, families, grammars near those where a state was given up, tiny grammars.
fn sources() -> &'static [Vec<Known>; 4] {
    static SOURCES: OnceLock<[Vec<Known>; 4]> = OnceLock::new();
    SOURCES.get_or_init(|| {
        let known = |d: Draft| Known::new(d.block());
        let random: Vec<Known> = randoms(1_500).map(known).collect();
        let rare = randoms(1_500).zip(&random).filter(|(_, k)| k.traits.given_up).map(|(d, _)| d).collect();
        let near = nearbies(rare, 300).map(known).filter(|k| k.traits.given_up).collect();
        [random, families(400).map(known).collect(), near, tinies().map(known).collect()]
    })
}

fn few(source: &[Known], each: usize, size: u64) -> Vec<Known> {
    let mut counts: BTreeMap<&Traits, usize> = BTreeMap::new();
    let mut kept = Vec::new();
    for known in source.iter().filter(|k| k.size() <= size) {
        let count = counts.entry(&known.traits).or_default();
        if *count < each {
            *count += 1;
            kept.push(known.clone());
        }
    }
    kept
}

/// Document 01's samples, and the grammar where the two readings of an item part.
pub fn named() -> Vec<Known> {
    let twos = [
        (0, 0),
        (5, 5),
        (6, 6),
        (7, 7),
        (5, 6),
        (5, 0),
        (0, 5),
        (9, 5),
        (5, 9),
        (1, 1),
        (2, 2),
        (3, 3),
        (262_143, 262_143),
    ];
    let mut blocks = vec![samples::g1()];
    blocks.extend(twos.map(|(minus, prod)| samples::g2(minus, prod)));
    blocks.extend([samples::cycle(), samples::cycle_start_last(), samples::not_lalr().block(), samples::readings()]);
    blocks.into_iter().map(Known::new).collect()
}
