//! The grammars that the checks and the lists go through, by the thousand. Every seed stands here.

use crate::{family, nearby, random, shapes, tiny, Draft, Prng, FAMILIES, TINY};

/// So many random grammars of each shape.
pub fn randoms(each: usize) -> impl Iterator<Item = Draft> {
    let kinds = shapes().into_iter().enumerate();
    kinds.flat_map(move |(i, shape)| {
        let mut rng = Prng::new(1_000 + i as u64);
        (0..each).map(move |_| random(&mut rng, &shape))
    })
}

/// So many members of each family around Pager's merging.
pub fn families(each: usize) -> impl Iterator<Item = Draft> {
    (0..FAMILIES).flat_map(move |which| {
        let mut rng = Prng::new(2_000 + which as u64);
        (0..each).map(move |_| family(&mut rng, which))
    })
}

/// All grammars of the tiny sizes.
pub fn tinies() -> impl Iterator<Item = Draft> {
    TINY.into_iter().flat_map(tiny)
}

pub fn all(each_random: usize, each_family: usize) -> impl Iterator<Item = Draft> {
    tinies().chain(randoms(each_random)).chain(families(each_family))
}

/// So many grammars a few changes away from each of the given ones.
pub fn nearbies(of: Vec<Draft>, each: usize) -> impl Iterator<Item = Draft> {
    of.into_iter().enumerate().flat_map(move |(i, draft)| {
        let mut rng = Prng::new(3_000 + i as u64);
        (0..each).map(move |_| nearby(&mut rng, &draft))
    })
}
