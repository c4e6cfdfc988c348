//! Builds with exactly the limits that they need, or a little more, in buffers with words behind the named part.

use generate::{rare, Prng};
use grammar::Words;
use trimmed::{GraphRoom, Limits, TableRoom};

use super::pool::{chosen, Known};
use super::wide;
use crate::calls::{graph, table};

/// What lent words hold before a call.
const FILLS: [u64; 4] = [7, 1, 4_294_967_295, 2];

pub fn fill(rng: &mut Prng) -> u64 {
    rng.pick(&FILLS)
}

/// The lengths that the graph's buffers need, and some words behind.
pub fn graph_lengths(rng: &mut Prng, block: &[u32], states: u64, items: u64) -> [u64; graph::BUFFERS] {
    GraphRoom::needs(Words(block), states, items).map(|n| n + rng.below(4) as u64)
}

/// The same for graph and tables.
pub fn table_lengths(rng: &mut Prng, block: &[u32], limits: Limits) -> [u64; table::BUFFERS] {
    let w = Words(block);
    let graph = GraphRoom::needs(w, limits.states, limits.items);
    let table = TableRoom::needs(w, limits);
    std::array::from_fn(|i| if i < 3 { graph[i] } else { table[i - 3] } + rng.below(3) as u64)
}

pub fn table_case(rng: &mut Prng, block: &[u32], limits: Limits) -> Vec<u64> {
    let lengths = table_lengths(rng, block, limits);
    table::inputs(block, limits, fill(rng), lengths)
}

pub fn graph_case(rng: &mut Prng, block: &[u32], states: u64, items: u64) -> Vec<u64> {
    let lengths = graph_lengths(rng, block, states, items);
    graph::inputs(block, states, items, fill(rng), lengths)
}

/// A little more than a build needs.
fn more(rng: &mut Prng, needs: Limits) -> Limits {
    let mut some = || rng.below(3) as u64;
    Limits {
        states: needs.states + some(),
        items: needs.items + some(),
        reduce_reduce: needs.reduce_reduce + some(),
        shift_reduce: needs.shift_reduce + some(),
    }
}

/// Grammars at the ends of the ranges, and those found by a search.
fn at_the_ends() -> impl Iterator<Item = Known> {
    let rare = [rare::equal_behind_compatible(), rare::closed_again_moves()].concat();
    wide::wide().into_iter().chain(wide::long()).chain(rare).map(Known::new)
}

pub fn graphs() -> Vec<Vec<u64>> {
    let mut rng = Prng::new(7_000);
    let known = chosen(3, 600).into_iter().chain(at_the_ends());
    known
        .map(|k| {
            let limits = if rng.percent(50) { k.needs } else { more(&mut rng, k.needs) };
            graph_case(&mut rng, &k.block, limits.states, limits.items)
        })
        .collect()
}

pub fn tables() -> Vec<Vec<u64>> {
    let mut rng = Prng::new(8_000);
    let known = chosen(4, 800).into_iter().chain(at_the_ends().filter(|k| k.size() < 5_000));
    known
        .map(|k| {
            let limits = if rng.percent(50) { k.needs } else { more(&mut rng, k.needs) };
            table_case(&mut rng, &k.block, limits)
        })
        .collect()
}
