//! The build in lent buffers: what is refused before anything is written, what is cleared, what stays.

use grammar::{Grammar, Words};

use crate::build::{build, build_graph, Limits, Refused};
use crate::layout::{GraphRoom, TableRoom};
use crate::stategraph::StateGraph;

/// The graph in the three lent buffers of `GraphRoom`. Gives states and items kept, and the states before collection.
pub fn build_graph_in(block: &[u32], states: u64, items: u64, lent: &mut [Vec<u64>]) -> Result<[u64; 3], Refused> {
    let answer = build_graph(block, states, items);
    if refused_early(&answer) {
        return answer.map(|_| [0; 3]);
    }
    let needs = GraphRoom::needs(Words(block), states, items);
    if short(lent, &needs) {
        return Err(Refused::plain(7));
    }
    clear(lent, &needs);
    let graph = answer?;
    let grm = Grammar::new(block).expect("a good block");
    write(lent, GraphRoom::of(&grm, &graph).parts());
    Ok([graph.all_states_len() as u64, kept_items(&graph), graph.made().len() as u64])
}

/// Graph and tables in the lent buffers of `GraphRoom` and `TableRoom`. Gives states and items kept, the states before
/// collection, the records in each list and the precedence count.
pub fn build_in(block: &[u32], limits: Limits, lent: &mut [Vec<u64>]) -> Result<[u64; 6], Refused> {
    let answer = build(block, limits);
    if refused_early(&answer) {
        return answer.map(|_| [0; 6]);
    }
    let mut needs = GraphRoom::needs(Words(block), limits.states, limits.items).to_vec();
    needs.extend(TableRoom::needs(Words(block), limits));
    if short(lent, &needs) {
        return Err(Refused::plain(7));
    }
    clear(lent, &needs);
    let built = answer?;
    let grm = Grammar::new(block).expect("a good block");
    let mut parts = GraphRoom::of(&grm, &built.graph).parts();
    parts.extend(TableRoom::of(&grm, &built).parts());
    write(lent, parts);
    let table = &built.table;
    Ok([
        built.graph.all_states_len() as u64,
        kept_items(&built.graph),
        built.graph.made().len() as u64,
        table.conflicts.reduce_reduce.len() as u64,
        table.conflicts.shift_reduce.len() as u64,
        table.settled as u64,
    ])
}

/// 1 to 7: no lent memory is changed.
fn refused_early<T>(answer: &Result<T, Refused>) -> bool {
    matches!(answer, Err(r) if r.number <= 7)
}

fn short(lent: &[Vec<u64>], needs: &[u64]) -> bool {
    lent.iter().zip(needs).any(|(buffer, &need)| (buffer.len() as u64) < need)
}

/// The named part of each buffer becomes zero.
fn clear(lent: &mut [Vec<u64>], needs: &[u64]) {
    for (buffer, &need) in lent.iter_mut().zip(needs) {
        buffer[..need as usize].fill(0);
    }
}

fn write(lent: &mut [Vec<u64>], parts: Vec<Vec<u64>>) {
    for (buffer, part) in lent.iter_mut().zip(parts) {
        buffer[..part.len()].copy_from_slice(&part);
    }
}

fn kept_items(graph: &StateGraph) -> u64 {
    graph.iter_stidxs().map(|s| graph.core_state(s).items.len() as u64).sum()
}
