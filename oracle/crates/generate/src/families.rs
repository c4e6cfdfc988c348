//! Families around Pager's merging: twins of one core whose contexts cross, states that grow late so that others are
//! closed again or given up, LR(1) but not LALR(1).

use crate::draft::{rule, token, Draft};
use crate::prng::Prng;
use crate::samples::not_lalr;

pub const FAMILIES: usize = 5;

/// A random member of a family, below `FAMILIES`.
pub fn family(rng: &mut Prng, which: usize) -> Draft {
    let draft = match which {
        0 => not_lalr(),
        1 => twins(rng),
        2 => chains(rng),
        3 => late(rng),
        _ => lists(rng),
    };
    draft.shuffled(rng)
}

/// S → before N after, over random pairs: the N all become c, so their states share a core and their contexts cross.
fn twins(rng: &mut Prng) -> Draft {
    let befores = rng.between(2, 3) as u32;
    let afters = rng.between(2, 3) as u32;
    let inners = rng.between(2, 3) as u32;
    let c = token(befores + afters);
    let mut prods: Vec<(u32, Vec<u32>)> = Vec::new();
    for b in 0..befores {
        for n in 0..inners {
            if rng.percent(80) {
                let a = befores + rng.below(afters as usize) as u32;
                prods.push((1, vec![token(b), rule(2 + n), token(a)]));
            }
        }
    }
    let deep = rng.percent(40);
    for n in 0..inners {
        let body = if deep { vec![c, c] } else { vec![c] };
        prods.push((2 + n, body));
    }
    draft(befores + afters + 2, 2 + inners, &prods)
}

/// Right-recursive chains entered with different contexts: states grow after they were closed.
fn chains(rng: &mut Prng) -> Draft {
    let entries = rng.between(2, 3) as u32;
    let links = rng.between(1, 3) as u32;
    let c = token(entries);
    let mut prods = Vec::new();
    for e in 0..entries {
        let to = rule(2 + rng.below(links as usize) as u32);
        let tail = token(rng.below(entries as usize) as u32);
        prods.push((1, if rng.percent(70) { vec![token(e), to, tail] } else { vec![token(e), to] }));
    }
    for l in 0..links {
        let next = rule(2 + rng.below(links as usize) as u32);
        prods.push((2 + l, vec![c, next]));
        prods.push((2 + l, if rng.percent(70) { vec![c] } else { vec![] }));
    }
    draft(entries + 2, 2 + links, &prods)
}

/// Twins whose entries stand behind a chain, so that contexts arrive one after another.
fn late(rng: &mut Prng) -> Draft {
    let (a, b, c) = (token(0), token(1), token(2));
    let mut prods = Vec::new();
    for _ in 0..rng.between(3, 6) {
        let before = rng.pick(&[a, b, c]);
        let after = rng.pick(&[a, b, c]);
        let inner = rule(rng.between(2, 4) as u32);
        let body = match rng.below(4) {
            0 => vec![before, inner, after],
            1 => vec![before, inner],
            2 => vec![inner, after],
            _ => vec![before, before, inner, after],
        };
        prods.push((1, body));
    }
    prods.push((2, vec![c]));
    prods.push((3, vec![c]));
    prods.push((4, vec![c, rng.pick(&[rule(2), rule(3)])]));
    prods.push((4, vec![rng.pick(&[rule(2), rule(3)])]));
    if rng.percent(50) {
        prods.push((2, vec![c, rule(4)]));
    }
    if rng.percent(50) {
        prods.push((3, vec![c, rule(4)]));
    }
    draft(4, 5, &prods)
}

/// Lists of elements with separators, nested: contexts flow through nullable ends.
fn lists(rng: &mut Prng) -> Draft {
    let depth = rng.between(1, 3) as u32;
    let mut prods = Vec::new();
    for d in 0..depth {
        let (list, element) = (1 + d, if d + 1 < depth { rule(2 + d) } else { token(depth) });
        let separator = token(d);
        match rng.below(3) {
            0 => prods.extend([(list, vec![rule(list), separator, element]), (list, vec![element])]),
            1 => prods.extend([(list, vec![element, separator, rule(list)]), (list, vec![element])]),
            _ => prods.extend([(list, vec![rule(list), element, separator]), (list, vec![])]),
        }
    }
    if rng.percent(40) {
        prods.push((depth, vec![token(depth), rule(1), token(depth)]));
    }
    draft(depth + 2, depth + 1, &prods)
}

fn draft(tokens: u32, rules: u32, prods: &[(u32, Vec<u32>)]) -> Draft {
    let lent: Vec<(u32, &[u32])> = prods.iter().map(|(r, b)| (*r, b.as_slice())).collect();
    Draft::new(tokens, rules, &lent)
}
