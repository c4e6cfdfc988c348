//! Queries of every kind of table.

use generate::Prng;
use grammar::{Grammar, Words};
use trimmed::{build, Kind, Limits, TableRoom};

use super::{blocks, pool};
use crate::calls::query::{inputs, Asked};

/// Words of real tables, and any words.
pub fn queries() -> Vec<Vec<u64>> {
    let mut rng = Prng::new(10_000);
    let mut all = Vec::new();
    for k in pool::chosen(1, 320) {
        let Ok(built) = build(&k.block, Limits::MOST) else { continue };
        let states = built.graph.all_states_len() as u64;
        let room = TableRoom::of(&Grammar::new(&k.block).expect("a good block"), &built);
        let tables = room.parts();
        let kind = rng.pick(&Kind::ALL);
        let table = &tables[Kind::ALL.iter().position(|&x| x == kind).expect("a kind")];
        let width = kind.width(Words(&k.block));
        for _ in 0..2 {
            let (state, column) = (rng.below(states as usize) as u64, rng.below(width as usize) as u64);
            all.push(inputs(Asked { kind, states, state, column }, &k.block, table));
        }
        let any: Vec<u64> = (0..table.len() + rng.below(3)).map(|_| rng.draw() >> rng.between(32, 63)).collect();
        let (state, column) = (rng.below(states as usize) as u64, rng.below(width as usize) as u64);
        all.push(inputs(Asked { kind, states, state, column }, &k.block, &any));
    }
    all.extend(refused());
    all
}

/// Each kind with a state, a column, a state count or a length one out; refused blocks; the largest state counts.
pub fn refused() -> Vec<Vec<u64>> {
    let block = generate::samples::g2(0, 0);
    let w = Words(&block);
    let mut all = Vec::new();
    for kind in Kind::ALL {
        let width = kind.width(w);
        let table: Vec<u64> = (100..100 + 5 * width).collect();
        let mut ask = |states, state, column, len: u64| {
            all.push(inputs(Asked { kind, states, state, column }, &block, &table[..len as usize]));
        };
        let (full, last) = (5 * width, width - 1);
        ask(5, 4, last, full);
        ask(5, 5, 0, full);
        ask(4, 4, 0, full);
        ask(5, u32::MAX as u64, 0, full);
        ask(5, 4, last, full - 1);
        ask(5, 5, 0, full - 1);
        ask(0, 0, 0, full);
        ask(6, 0, 0, full);
        ask(4_097, 0, 0, full);
        if kind != Kind::ReduceOnly {
            ask(5, 0, width, full);
            ask(5, 0, u32::MAX as u64, full);
            ask(5, 5, width, full);
        }
    }
    for bad in blocks::refused() {
        all.push(inputs(Asked { kind: Kind::Action, states: 0, state: 9, column: 9 }, &bad, &[1, 2, 3]));
    }
    all.extend([4_096, 4_097].map(most_states));
    all
}

/// A reduce-only table of the most states, and one more.
fn most_states(states: u64) -> Vec<u64> {
    let table: Vec<u64> = (0..states).map(|s| (s % 5 == 0) as u64).collect();
    inputs(Asked { kind: Kind::ReduceOnly, states, state: 4_095, column: 0 }, &generate::samples::g1(), &table)
}
