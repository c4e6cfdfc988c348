//! Times `trimmed` on language-like grammars and prints the rows of docs/BENCH.md.

use std::fs;
use std::time::{Duration, Instant};

use generate::{flat, tower};
use grammar::{Grammar, Words};
use trimmed::{build, pager_stategraph, Limits, StateTable};

/// The best of so many runs.
const RUNS: usize = 7;

fn main() {
    println!("| style | productions | tokens | rules | symbols | states | kernel items | closings | records | settled | processor ms | wall ms |");
    println!("|---|---|---|---|---|---|---|---|---|---|---|---|");
    for (style, make) in [("tower", tower as fn(usize) -> Vec<u32>), ("flat", flat)] {
        for count in [100, 300, 500] {
            row(style, &make(count));
        }
    }
}

fn row(style: &str, block: &[u32]) {
    let times: Vec<(u128, u128)> = (0..RUNS).map(|_| time(block)).collect();
    let best = |of: fn(&(u128, u128)) -> u128| times.iter().map(of).min().expect("a run") as f64 / 1e6;
    let built = build(block, Limits::MOST).expect("it builds");
    let w = Words(block);
    let (graph, table) = (&built.graph, &built.table);
    let records = table.conflicts.reduce_reduce.len() + table.conflicts.shift_reduce.len();
    let items: usize = graph.iter_stidxs().map(|s| graph.core_state(s).items.len()).sum();
    println!(
        "| {style} | {} | {} | {} | {} | {} | {items} | {} | {records} | {} | {:.1} | {:.1} |",
        w.prods(),
        w.tokens(),
        w.rules(),
        w.symbols(),
        graph.all_states_len(),
        graph.closings().len(),
        table.settled,
        best(|t| t.0),
        best(|t| t.1)
    );
}

/// Nanoseconds of processor time and on the clock for one build, from builds for at least a third of a second: the
/// processor time is only counted in slices of some milliseconds.
fn time(block: &[u32]) -> (u128, u128) {
    let (spent, from) = (processor(), Instant::now());
    let mut builds = 0;
    while from.elapsed() < Duration::from_millis(333) {
        std::hint::black_box(tables(block));
        builds += 1;
    }
    ((processor() - spent) / builds, from.elapsed().as_nanos() / builds)
}

/// From the block's words to the tables: check, FIRST, graph, collection, cells, marks.
fn tables(block: &[u32]) -> StateTable {
    let grm = Grammar::new(block).expect("a good block");
    let graph = pager_stategraph(&grm);
    StateTable::new(&grm, &graph).expect("tables")
}

/// What this thread has had of a processor, so that other work on the machine counts less; 0 where Linux doesn't say.
fn processor() -> u128 {
    let text = fs::read_to_string("/proc/thread-self/schedstat").unwrap_or_default();
    text.split(' ').next().and_then(|n| n.parse().ok()).unwrap_or(0)
}
