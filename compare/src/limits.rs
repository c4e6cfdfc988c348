//! Limits that a caller may name: exactly enough, more, one short, any below, out of range.
use generate::Prng;
use grammar::Grammar;
use trimmed::{pager_stategraph, Limits, StateTable};

/// Exactly the limits that a good block's build needs, up to where it ends.
pub fn needs(block: &[u32]) -> Limits {
    let grm = Grammar::new(block).expect("a good block");
    let graph = pager_stategraph(&grm);
    let conflicts = match StateTable::new(&grm, &graph) {
        Ok(table) => table.conflicts,
        Err(error) => error.conflicts,
    };
    Limits {
        states: graph.made().len() as u64,
        items: graph.made().iter().sum::<usize>() as u64,
        reduce_reduce: conflicts.reduce_reduce.len() as u64,
        shift_reduce: conflicts.shift_reduce.len() as u64,
    }
}

pub fn chosen(rng: &mut Prng, n: Limits) -> (&'static str, Limits) {
    // Such rooms take some megabytes.
    if rng.below(2000) == 0 {
        return ("largest", Limits::MOST);
    }
    match rng.below(100) {
        0..=34 => ("exact", n),
        35..=59 => ("more", more(rng, n)),
        60..=84 => ("one short", one_short(rng, n)),
        85..=94 => ("below", below(rng, n)),
        _ => ("out of range", out(rng, n)),
    }
}

fn more(rng: &mut Prng, n: Limits) -> Limits {
    let most = rng.pick(&[2, 4, 40]);
    let mut some = || rng.below(most) as u64;
    Limits {
        states: n.states + some(),
        items: n.items + some(),
        reduce_reduce: n.reduce_reduce + some(),
        shift_reduce: n.shift_reduce + some(),
    }
}

/// One of the four, or two at once; a list without records stays as it is.
fn one_short(rng: &mut Prng, mut n: Limits) -> Limits {
    for _ in 0..rng.between(1, 2) {
        match rng.below(4) {
            0 => n.states = n.states.saturating_sub(1),
            1 => n.items = n.items.saturating_sub(1),
            2 => n.reduce_reduce = n.reduce_reduce.saturating_sub(1),
            _ => n.shift_reduce = n.shift_reduce.saturating_sub(1),
        }
    }
    n
}

fn below(rng: &mut Prng, n: Limits) -> Limits {
    let mut upto = |n: u64| rng.below(n as usize + 1) as u64;
    Limits {
        states: upto(n.states).max(1),
        items: upto(n.items).max(1),
        reduce_reduce: upto(n.reduce_reduce),
        shift_reduce: upto(n.shift_reduce),
    }
}

fn out(rng: &mut Prng, mut n: Limits) -> Limits {
    let huge = rng.pick(&[u32::MAX as u64, u64::MAX, 1 << 32, u64::MAX / 5]);
    match rng.below(8) {
        0 => n.states = 0,
        1 => n.states = 4_097,
        2 => n.items = 0,
        3 => n.items = 65_537,
        4 => n.reduce_reduce = rng.pick(&[65_537, huge]),
        5 => n.shift_reduce = rng.pick(&[65_537, huge]),
        6 => n.states = huge,
        _ => n.items = huge,
    }
    n
}
