//! Kernels to be closed: those of graphs, and made-up ones with contexts of every kind, also empty.

use generate::Prng;
use grammar::{Grammar, Words};
use trimmed::{item_words, pager_stategraph};

use super::{pool, wide};
use crate::calls::closure;

pub fn closures() -> Vec<Vec<u64>> {
    let mut rng = Prng::new(6_000);
    let mut all = Vec::new();
    let known = pool::chosen(1, 700);
    for block in known.into_iter().map(|k| k.block).chain(wide::wide()) {
        all.extend(of_graph(&mut rng, &block));
        all.push(closure::inputs(&block, &made_up(&mut rng, &block)));
    }
    all.extend(wide::bodies_of_rules().iter().take(4).flat_map(|b| of_graph(&mut rng, b)));
    all
}

/// State 0 and one other.
fn of_graph(rng: &mut Prng, block: &[u32]) -> Vec<Vec<u64>> {
    let graph = pager_stategraph(&Grammar::new(block).expect("a good block"));
    let other = rng.below(graph.all_states_len());
    [0, other].map(|s| closure::inputs(block, &item_words(graph.core_state(s)))).to_vec()
}

/// Some items with a dot above 0, ascending, with any contexts.
fn made_up(rng: &mut Prng, block: &[u32]) -> Vec<u64> {
    let w = Words(block);
    let mut rows = Vec::new();
    for p in 0..w.prods() {
        for dot in 1..=w.length(p) {
            if rng.percent(60) {
                rows.push((128 * p + dot) as u64);
                rows.extend(context(rng, w.tokens()));
            }
        }
    }
    rows
}

fn context(rng: &mut Prng, tokens: usize) -> [u64; 4] {
    let mut words = [0; 4];
    let share = rng.pick(&[0, 0, 20, 50, 100]);
    for t in 0..tokens {
        if rng.percent(share) {
            words[t / 64] |= 1 << (t % 64);
        }
    }
    words
}
