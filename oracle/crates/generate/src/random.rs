//! Random grammars of many shapes.

use crate::draft::{rule, token, Draft};
use crate::prng::Prng;

/// What a random grammar may look like. Ranges take in both ends; the rest are chances in a hundred.
#[derive(Clone, Copy, Debug)]
pub struct Shape {
    /// Tokens besides the end token.
    pub tokens: (usize, usize),
    /// Rules besides the start rule.
    pub rules: (usize, usize),
    /// Productions besides the start production.
    pub prods: (usize, usize),
    pub length: usize,
    pub empty: usize,
    /// A body of one rule: unit cycles.
    pub unit: usize,
    /// A symbol is a rule.
    pub rule: usize,
    /// A precedence word is not 0.
    pub precedence: usize,
    /// Every rule gets a production before any gets a second.
    pub covered: bool,
}

/// The shapes that the checks go through.
pub fn shapes() -> Vec<Shape> {
    let plain = Shape {
        tokens: (1, 2),
        rules: (1, 3),
        prods: (1, 6),
        length: 3,
        empty: 12,
        unit: 5,
        rule: 45,
        precedence: 0,
        covered: true,
    };
    vec![
        plain,
        Shape { empty: 35, rules: (2, 4), prods: (3, 8), ..plain },
        Shape { unit: 30, prods: (2, 6), ..plain },
        Shape { covered: false, rules: (2, 4), ..plain },
        Shape { rule: 60, tokens: (1, 3), prods: (2, 7), ..plain },
        Shape { rule: 30, tokens: (2, 3), length: 4, prods: (3, 8), ..plain },
        Shape { precedence: 60, prods: (2, 6), ..plain },
        Shape { precedence: 90, rule: 55, tokens: (1, 3), prods: (3, 7), ..plain },
        Shape { tokens: (0, 1), prods: (0, 4), ..plain },
        Shape { rules: (3, 5), tokens: (2, 3), prods: (5, 10), length: 3, empty: 8, ..plain },
    ]
}

/// A random grammar of a shape.
pub fn random(rng: &mut Prng, shape: &Shape) -> Draft {
    let tokens = rng.between(shape.tokens.0, shape.tokens.1) as u32 + 1;
    let rules = rng.between(shape.rules.0, shape.rules.1) as u32 + 1;
    let count = rng.between(shape.prods.0, shape.prods.1);
    let start = rule(rng.between(1, rules as usize - 1) as u32);
    let mut draft = Draft::new(tokens, rules, &[]);
    draft.prods[0].1 = vec![start];
    for i in 0..count as u32 {
        let of = if shape.covered && i < rules - 1 { i + 1 } else { rng.between(1, rules as usize - 1) as u32 };
        let body = body(rng, shape, tokens, rules);
        let precedence = precedence(rng, shape);
        draft.prods.push((of, body, precedence));
    }
    for t in 0..tokens as usize {
        draft.token_precs[t] = precedence(rng, shape);
    }
    draft.shuffled(rng)
}

fn body(rng: &mut Prng, shape: &Shape, tokens: u32, rules: u32) -> Vec<u32> {
    if rng.percent(shape.empty) {
        return Vec::new();
    }
    if rng.percent(shape.unit) {
        return vec![rule(rng.between(1, rules as usize - 1) as u32)];
    }
    let length = rng.between(1, shape.length);
    (0..length).map(|_| symbol(rng, shape, tokens, rules)).collect()
}

fn symbol(rng: &mut Prng, shape: &Shape, tokens: u32, rules: u32) -> u32 {
    if tokens == 1 || rng.percent(shape.rule) {
        rule(rng.between(1, rules as usize - 1) as u32)
    } else {
        token(rng.below(tokens as usize - 1) as u32)
    }
}

/// Few levels, so that equal ones meet; all three kinds.
fn precedence(rng: &mut Prng, shape: &Shape) -> u32 {
    if !rng.percent(shape.precedence) {
        return 0;
    }
    let level = if rng.percent(5) { 65_535 } else { rng.below(3) as u32 };
    // One kind for each level in most grammars, any kind in the others.
    let kind = if rng.percent(85) { 1 + level % 3 } else { rng.between(1, 3) as u32 };
    4 * level + kind
}
