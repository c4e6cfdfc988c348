//! A grammar a few changes away from another: what is rare in random grammars is less rare near one that shows it.

use crate::draft::{rule, token, Draft};
use crate::prng::Prng;

pub fn nearby(rng: &mut Prng, draft: &Draft) -> Draft {
    let mut near = draft.clone();
    for _ in 0..rng.below(4) {
        change(rng, &mut near);
    }
    if rng.percent(50) {
        return near.shuffled(rng);
    }
    near
}

/// One symbol changed, put in or taken out, or one production put in or taken out; the start production stays.
fn change(rng: &mut Prng, d: &mut Draft) {
    let symbol = symbol(rng, d);
    let p = rng.below(d.prods.len());
    if p == d.start as usize {
        return;
    }
    let at = rng.below(d.prods[p].1.len() + 1);
    match rng.below(5) {
        0 if at < d.prods[p].1.len() => d.prods[p].1[at] = symbol,
        1 if at < d.prods[p].1.len() => {
            d.prods[p].1.remove(at);
        }
        2 if d.prods[p].1.len() < 4 => d.prods[p].1.insert(at, symbol),
        3 if d.prods.len() < 9 => {
            let copy = d.prods[p].clone();
            d.prods.push(copy);
        }
        4 if p > d.start as usize => {
            d.prods.remove(p);
        }
        _ => (),
    }
}

fn symbol(rng: &mut Prng, d: &Draft) -> u32 {
    let start_rule = d.prods[d.start as usize].0;
    loop {
        let r = rng.below(d.rules as usize) as u32;
        let t = rng.below(d.tokens as usize) as u32;
        if rng.percent(50) && r != start_rule {
            return rule(r);
        }
        if t != d.end {
            return token(t);
        }
        if d.tokens == 1 && r != start_rule {
            return rule(r);
        }
    }
}
