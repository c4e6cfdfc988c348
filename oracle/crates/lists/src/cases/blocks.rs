//! Blocks good and damaged, and the bodies of their productions.

use generate::{damaged, rule, samples, token, Draft, Prng};

use super::wide;
use crate::calls::{block, body};

/// A grammar with the start production in the middle, an empty body and a rule without production.
fn middle() -> Vec<u32> {
    let mut d = Draft::new(3, 3, &[(1, &[]), (1, &[token(1), rule(1)]), (1, &[rule(2)])]);
    d.prods.swap(0, 1);
    d.start = 1;
    d.prods[2].2 = 6;
    d.token_precs[1] = 6;
    d.block()
}

/// The blocks that a list of damaged ones starts from.
fn bases() -> Vec<Vec<u32>> {
    vec![samples::g1(), samples::g2(5, 5), middle()]
}

/// Good blocks at the ends of the ranges, and the same one past them.
fn ends() -> Vec<Vec<u32>> {
    let lone = |tokens, rules| Draft::new(tokens, rules, &[(1, &[token(0)])]).block();
    let many = |count: usize, body: &[u32]| {
        let prods: Vec<(u32, &[u32])> = (1..count).map(|_| (1, body)).collect();
        Draft::new(2, 2, &prods).block()
    };
    let body = |n| vec![token(0); n];
    let mut all = vec![lone(256, 2), lone(257, 2), lone(2, 256), lone(2, 257), many(512, &[]), many(513, &[])];
    all.extend([
        many(2, &body(64)),
        many(2, &body(65)),
        Draft::new(1, 2, &[]).block(),
        Draft::new(1, 2, &[(1, &[])]).block(),
    ]);
    // 127 bodies of 64 symbols, one of 63, and the start production's one: 8,192 symbols.
    let mut full = Draft::new(2, 2, &[]);
    full.prods.extend((0..127).map(|_| (1, body(64), 0)));
    full.prods.push((1, body(63), 0));
    all.push(full.block());
    full.prods.push((1, body(1), 0));
    all.push(full.block());
    all.extend(wide::wide());
    all
}

/// Two or three words changed at once: which refusal comes first.
fn twice(rng: &mut Prng, base: &[u32]) -> Vec<u32> {
    const VALUES: [u32; 12] = [0, 1, 2, 3, 4, 5, 8, 9, 65, 257, 262_145, u32::MAX];
    let mut changed = base.to_vec();
    for _ in 0..rng.between(2, 3) {
        let at = rng.below(changed.len());
        changed[at] = rng.pick(&VALUES);
    }
    if rng.percent(15) {
        changed.truncate(rng.below(changed.len()));
    }
    changed
}

fn all_blocks() -> Vec<Vec<u32>> {
    let mut rng = Prng::new(5_000);
    let mut all = bases();
    all.extend(ends());
    all.extend(bases().iter().flat_map(|b| damaged(b)));
    for _ in 0..500 {
        let base = rng.below(3);
        all.push(twice(&mut rng, &bases()[base]));
    }
    all
}

pub fn checks() -> Vec<Vec<u64>> {
    all_blocks().iter().map(|b| block::inputs(b)).collect()
}

/// Every production of good blocks, numbers past the last, and some productions of refused blocks.
pub fn bodies() -> Vec<Vec<u64>> {
    let mut all = Vec::new();
    for b in bases().iter().chain(&wide::long()).chain(&wide::wide()[..2]) {
        let prods = b[2] as u64;
        let numbers = (0..prods).chain([prods, prods + 1, u32::MAX as u64]);
        all.extend(numbers.map(|p| body::inputs(b, p)));
    }
    for (i, b) in all_blocks().iter().enumerate().skip(20).step_by(9) {
        if b.len() < 100 {
            all.push(body::inputs(b, [0, 1, 2, 3, 7][i % 5]));
        }
    }
    all
}

/// One block of each refusal, and a short one.
pub fn refused() -> Vec<Vec<u32>> {
    let changed = |at: usize, word: u32| {
        let mut block = samples::g1();
        block[at] = word;
        block
    };
    let mut all = vec![changed(6, 8), changed(0, 0), changed(9, 2), changed(4, 2), changed(18, 3), changed(12, 4)];
    all.push(samples::g1()[..8].to_vec());
    all
}
