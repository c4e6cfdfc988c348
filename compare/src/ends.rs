//! Grammars towards the ends of the ranges: long bodies, long chains of rules, many productions.
use generate::{rule, token, Draft, Prng};

pub fn pick(rng: &mut Prng) -> Vec<u32> {
    match rng.below(10) {
        0..=2 => long(rng),
        3..=5 => chain(rng),
        6..=8 => many(rng),
        _ => full(rng),
    }
}

/// A body of up to 64 symbols, rules among them that may be empty.
fn long(rng: &mut Prng) -> Vec<u32> {
    let share = rng.pick(&[0, 10, 80]);
    let length = rng.between(50, 64);
    let body: Vec<u32> = (0..length).map(|_| if rng.percent(share) { rule(2) } else { token(0) }).collect();
    Draft::new(3, 3, &[(1, &body), (2, &[]), (2, &[token(1)])]).block()
}

/// Each rule is the next one: FIRST and nullable take as many rounds.
fn chain(rng: &mut Prng) -> Vec<u32> {
    let rules = rng.pick(&[40, 255, 256]);
    let mut draft = Draft::new(2, rules, &[]);
    draft.prods.extend((1..rules - 1).map(|r| (r, vec![rule(r + 1)], 0)));
    draft.prods.push((rules - 1, if rng.percent(50) { vec![token(0)] } else { vec![] }, 0));
    if rng.percent(50) {
        draft.prods.reverse();
        draft.start = draft.prods.len() as u32 - 1;
    }
    draft.block()
}

/// 8,192 symbols: the start production's one, a body of 63, and 127 of 64.
fn full(rng: &mut Prng) -> Vec<u32> {
    let mut draft = Draft::new(3, 2, &[]);
    let mut body = |length| (0..length).map(|_| token(rng.percent(3) as u32)).collect::<Vec<u32>>();
    draft.prods.push((1, body(63), 0));
    draft.prods.extend((0..127).map(|i| (1, if i < 3 { body(64) } else { vec![token(0); 64] }, 0)));
    draft.block()
}

/// Productions of one rule that begin alike or not at all.
fn many(rng: &mut Prng) -> Vec<u32> {
    let count = rng.pick(&[60, 200, 511]);
    let empty = rng.pick(&[5, 100]);
    let mut draft = Draft::new(256, 2, &[]);
    for _ in 0..count {
        let body = if rng.percent(empty) { vec![] } else { vec![token(rng.below(255) as u32)] };
        draft.prods.push((1, body, 0));
    }
    draft.block()
}
