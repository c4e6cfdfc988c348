//! Times the library beside the oracle in one run, and prints the part of docs/BENCH.md between its two marker lines.
use std::fs;
use std::hint::black_box;
use std::time::{Duration, Instant};

use compare::{lengths, needs, Lent};
use generate::{flat, tower};
use grammar::{Grammar, Words};
use machine::Tables;
use trimmed::{pager_stategraph, Limits, StateTable};

/// The best of so many runs.
const RUNS: usize = 5;
const LEAST: Duration = Duration::from_millis(200);
/// Of these lent buffers the words are u64: items, closed, kernel.
const WIDE: [usize; 3] = [0, 12, 13];
const OUTPUTS: usize = 11;

fn main() {
    let blocks: Vec<(&str, Vec<u32>)> = [("tower", tower as fn(usize) -> Vec<u32>), ("flat", flat)]
        .into_iter()
        .flat_map(|(style, make)| [100, 300, 500].map(|count| (style, make(count))))
        .collect();
    let clearing = "with clearing ms | ratio | clearing alone ms | without clearing ms | ratio";
    println!("\n## Builds\n\n| style | productions | rooms | trimmed ms | {clearing} |");
    println!("| --- | --- | --- | --- | --- | --- | --- | --- | --- |");
    blocks.iter().for_each(|(style, block)| builds(style, block));
    println!("\n## Memory of the rooms\n");
    println!("| style | productions | S | I | outputs KiB | work KiB | largest rooms KiB |");
    println!("| --- | --- | --- | --- | --- | --- | --- |");
    blocks.iter().for_each(|(style, block)| memory(style, block));
    let rates = "oracle, million tokens/s | library, million tokens/s | library, million steps/s";
    println!("\n## The machine\n\n| style | productions | tokens | steps | {rates} | time ratio |");
    println!("| --- | --- | --- | --- | --- | --- | --- | --- |");
    blocks.iter().for_each(|(style, block)| runs(style, block));
    println!();
}

/// Each build beside the clearing of the same rooms by itself.
fn builds(style: &str, block: &[u32]) {
    let limits = needs(block);
    let (few, many) = (lengths(block, limits), lengths(block, Limits::MOST));
    let (mut exact, mut largest) = (Lent::zero(&few), Lent::zero(&many));
    let built = |lent: &mut Lent, rooms: Limits| {
        let Limits { states, items, reduce_reduce, shift_reduce } = limits;
        let told = [0, states, items, states, reduce_reduce, shift_reduce];
        assert_eq!(lent.build(block, rooms)[..6], told, "the exact rooms are what the build reports");
    };
    let (mut oracle, mut best) = (f64::MAX, [[f64::MAX; 2]; 3]);
    // All in turn, so that a slow stretch falls on each.
    for _ in 0..RUNS {
        oracle = oracle.min(time(|| tables(block)));
        let now = [
            [time(|| built(&mut exact, limits)), time(|| exact.clear())],
            [time(|| built(&mut Lent::zero(&few), limits)), time(|| Lent::zero(&few).clear())],
            [time(|| built(&mut largest, Limits::MOST)), time(|| largest.clear())],
        ];
        for (best, now) in best.iter_mut().flatten().zip(now.into_iter().flatten()) {
            *best = best.min(now);
        }
    }
    for (rooms, [with, clearing]) in ["exact", "exact, made anew", "largest"].into_iter().zip(best) {
        let timed = |t: f64| format!("{:.2} | {:.3}", t * 1e3, t / oracle);
        println!(
            "| {style} | {} | {rooms} | {:.2} | {} | {:.3} | {} |",
            Words(block).prods(),
            oracle * 1e3,
            timed(with),
            clearing * 1e3,
            timed(with - clearing)
        );
    }
}

/// From the block's words to the tables, as the oracle's own bench has it.
fn tables(block: &[u32]) -> StateTable {
    let grm = Grammar::new(block).expect("a good block");
    StateTable::new(&grm, &pager_stategraph(&grm)).expect("tables")
}

fn memory(style: &str, block: &[u32]) {
    let limits = needs(block);
    let bytes = |limits: Limits| -> Vec<usize> {
        let words = lengths(block, limits);
        words.iter().enumerate().map(|(i, n)| n * if WIDE.contains(&i) { 8 } else { 4 }).collect()
    };
    let kib = |bytes: &[usize]| bytes.iter().sum::<usize>().div_ceil(1024);
    let exact = bytes(limits);
    println!(
        "| {style} | {} | {} | {} | {} | {} | {} |",
        Words(block).prods(),
        limits.states,
        limits.items,
        kib(&exact[..OUTPUTS]),
        kib(&exact[OUTPUTS..]),
        kib(&bytes(Limits::MOST))
    );
}

/// 4,096 tokens: name, operator, name, stop, over and over.
fn runs(style: &str, block: &[u32]) {
    let limits = needs(block);
    let mut lent = Lent::zero(&lengths(block, limits));
    let states = lent.build(block, limits)[1];
    let (actions, gotos) = lent.tables();
    let input = [0, 7, 0, 4].repeat(1024);
    let (mut stack, mut output) = (vec![0; 5000], vec![0; 300_000]);
    let most = 1_000_000;
    let mut library =
        || timkerzal::lent::run(block, states as usize, actions, gotos, &input, most, &mut stack, &mut output);
    let answer = library();
    assert_eq!(answer[..2], [0, 1], "accepted");
    let mut ours = f64::MAX;
    let mut theirs = f64::MAX;
    let (mut stack, mut output) = (vec![0; 5000], vec![0; 300_000]);
    for _ in 0..RUNS {
        ours = ours.min(time(&mut library));
        let tables = Tables { states, actions, gotos };
        theirs = theirs.min(time(|| machine::run(block, tables, &input, most as u64, &mut stack, &mut output)));
    }
    let (tokens, steps) = (input.len() as f64, answer[4] as f64);
    println!(
        "| {style} | {} | {tokens} | {steps} | {:.1} | {:.1} | {:.1} | {:.2} |",
        Words(block).prods(),
        tokens / theirs / 1e6,
        tokens / ours / 1e6,
        steps / ours / 1e6,
        ours / theirs
    );
}

/// Seconds of processor time for one call, from calls for a while: it is only counted in slices of some milliseconds.
fn time<T>(mut call: impl FnMut() -> T) -> f64 {
    let (spent, from) = (processor(), Instant::now());
    let mut calls = 0;
    while calls == 0 || from.elapsed() < LEAST {
        black_box(call());
        calls += 1;
    }
    (processor() - spent) as f64 / 1e9 / f64::from(calls)
}

/// What this thread has had of a core, in nanoseconds, so that other work counts less; Linux says it.
fn processor() -> u64 {
    let text = fs::read_to_string("/proc/thread-self/schedstat").expect("schedstat");
    text.split(' ').next().and_then(|n| n.parse().ok()).expect("a number")
}
