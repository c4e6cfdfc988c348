//! Refusals 1 to 18, each with limits one short and exactly enough.

use generate::Prng;
use grammar::Words;
use trimmed::{GraphRoom, Limits, TableRoom};

use super::pool::{chosen, named, Known};
use super::rooms::{fill, graph_case, graph_lengths, table_case, table_lengths};
use super::{blocks, machine_refused, queries};
use crate::calls::{graph, table};
use crate::list::List;

pub fn refusals() -> Vec<Vec<u64>> {
    let mut rng = Prng::new(9_000);
    let mut all = Vec::new();
    all.extend(of(List::Blocks, blocks::checks().into_iter().skip(30).step_by(37).collect()));
    all.extend(of(List::Bodies, blocks::bodies().into_iter().step_by(5).collect()));
    let known: Vec<Known> = named().into_iter().chain(chosen(1, 260).into_iter().step_by(4)).collect();
    for k in &known {
        all.extend(of(List::Graphs, graph_rooms(&mut rng, k)));
        all.extend(of(List::Tables, table_rooms(&mut rng, k)));
    }
    for k in named().iter().take(2) {
        all.extend(of(List::Tables, ranges(&mut rng, k)));
        all.extend(of(List::Tables, short_buffers(&mut rng, k)));
        all.extend(of(List::Graphs, short_graph_buffers(&mut rng, k)));
    }
    all.extend(of(List::Tables, refused_blocks(&mut rng)));
    all.extend(of(List::Queries, queries::refused()));
    all.extend(of(List::Runs, machine_refused::refused()));
    all
}

/// The number of the call in front.
fn of(list: List, inputs: Vec<Vec<u64>>) -> impl Iterator<Item = Vec<u64>> {
    inputs.into_iter().map(move |line| [vec![list.call_number()], line].concat())
}

/// One state short, one item short, both, and some random sizes below.
fn short_sizes(rng: &mut Prng, needs: Limits) -> Vec<(u64, u64)> {
    let (s, i) = (needs.states, needs.items);
    let mut sizes = vec![(s, i), (s - 1, i), (s, i - 1), (s - 1, i - 1)];
    for _ in 0..2 {
        sizes.push((rng.between(1, s as usize) as u64, rng.between(1, i as usize) as u64));
    }
    sizes.retain(|&(s, i)| s > 0 && i > 0);
    sizes
}

fn graph_rooms(rng: &mut Prng, k: &Known) -> Vec<Vec<u64>> {
    let sizes = short_sizes(rng, k.needs);
    sizes.into_iter().skip(1).map(|(s, i)| graph_case(rng, &k.block, s, i)).collect()
}

/// The same with tables, then the lists one short, and a size out by one in a buffer as well.
fn table_rooms(rng: &mut Prng, k: &Known) -> Vec<Vec<u64>> {
    let mut limits: Vec<Limits> = Vec::new();
    for (states, items) in short_sizes(rng, k.needs) {
        limits.push(Limits { states, items, ..k.needs });
    }
    let (rr, sr) = (k.needs.reduce_reduce, k.needs.shift_reduce);
    for (reduce_reduce, shift_reduce) in [(rr.wrapping_sub(1), sr), (rr, sr.wrapping_sub(1)), (0, sr), (rr, 0)] {
        if reduce_reduce <= rr && shift_reduce <= sr {
            limits.push(Limits { reduce_reduce, shift_reduce, ..k.needs });
        }
    }
    let mut all: Vec<Vec<u64>> = limits.iter().map(|&l| table_case(rng, &k.block, l)).collect();
    all.push(one_short(rng, &k.block, k.needs));
    if k.needs.states > 1 {
        all.push(one_short(rng, &k.block, Limits { states: k.needs.states - 1, ..k.needs }));
    }
    all
}

/// A random buffer one word short.
fn one_short(rng: &mut Prng, block: &[u32], limits: Limits) -> Vec<u64> {
    let mut lengths = table_lengths(rng, block, limits);
    let at = rng.below(9);
    lengths[at] = exact_table(block, limits)[at] - 1;
    table::inputs(block, limits, fill(rng), lengths)
}

/// Named sizes and limits out of range.
fn ranges(rng: &mut Prng, k: &Known) -> Vec<Vec<u64>> {
    let n = k.needs;
    let out = [
        Limits { states: 0, ..n },
        Limits { states: 4_097, ..n },
        Limits { items: 0, ..n },
        Limits { items: 65_537, ..n },
        Limits { reduce_reduce: 65_537, ..n },
        Limits { shift_reduce: 65_537, ..n },
        Limits { states: u32::MAX as u64, items: u32::MAX as u64, ..n },
    ];
    let lengths = table_lengths(rng, &k.block, n);
    out.map(|limits| table::inputs(&k.block, limits, fill(rng), lengths)).to_vec()
}

/// Each buffer exactly long enough, then one word short.
fn short_buffers(rng: &mut Prng, k: &Known) -> Vec<Vec<u64>> {
    let limits = Limits { reduce_reduce: 1, shift_reduce: 1, ..k.needs };
    let exact = exact_table(&k.block, limits);
    let mut all = vec![table::inputs(&k.block, limits, fill(rng), exact)];
    for at in 0..table::BUFFERS {
        let mut lengths = exact;
        lengths[at] -= 1;
        all.push(table::inputs(&k.block, limits, fill(rng), lengths));
    }
    all
}

fn short_graph_buffers(rng: &mut Prng, k: &Known) -> Vec<Vec<u64>> {
    let exact = exact_table(&k.block, k.needs);
    let mut all = Vec::new();
    for at in 0..graph::BUFFERS {
        let mut lengths = [exact[0], exact[1], exact[2]];
        lengths[at] -= 1;
        all.push(graph::inputs(&k.block, k.needs.states, k.needs.items, fill(rng), lengths));
    }
    for (s, i) in [(0, 3), (4_097, 3), (3, 0), (3, 65_537)] {
        let lengths = graph_lengths(rng, &k.block, k.needs.states, k.needs.items);
        all.push(graph::inputs(&k.block, s, i, fill(rng), lengths));
    }
    all
}

fn exact_table(block: &[u32], limits: Limits) -> [u64; table::BUFFERS] {
    let graph = GraphRoom::needs(Words(block), limits.states, limits.items);
    let tables = TableRoom::needs(Words(block), limits);
    std::array::from_fn(|i| if i < 3 { graph[i] } else { tables[i - 3] })
}

/// 1 to 6 come before 7, whatever is lent.
fn refused_blocks(rng: &mut Prng) -> Vec<Vec<u64>> {
    let blocks = blocks::refused();
    let limits = Limits { states: 3, items: 3, reduce_reduce: 0, shift_reduce: 0 };
    let mut all = Vec::new();
    for block in blocks {
        let lengths = [15, 6, 12, 6, 6, 6, 6, 6, 3, 0, 0];
        all.push(table::inputs(&block, limits, fill(rng), lengths));
        all.push(table::inputs(&block, Limits { states: 0, ..limits }, fill(rng), [0; table::BUFFERS]));
    }
    all
}
