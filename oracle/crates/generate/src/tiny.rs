//! All grammars of a few tiny sizes.

use crate::draft::{rule, token, Draft};

/// Tokens and rules besides end and start, productions besides the start production, and the longest body.
#[derive(Clone, Copy, Debug)]
pub struct Tiny {
    pub tokens: u32,
    pub rules: u32,
    pub prods: usize,
    pub length: usize,
}

/// The sizes that the checks go through: some nine thousand grammars.
pub const TINY: [Tiny; 4] = [
    Tiny { tokens: 1, rules: 1, prods: 3, length: 3 },
    Tiny { tokens: 2, rules: 1, prods: 3, length: 2 },
    Tiny { tokens: 1, rules: 2, prods: 3, length: 2 },
    Tiny { tokens: 1, rules: 3, prods: 4, length: 1 },
];

/// Every grammar with at most so many productions, their order aside. The start symbol is the first rule.
pub fn tiny(size: Tiny) -> Vec<Draft> {
    let bodies = bodies(size);
    let choices: Vec<(u32, &Vec<u32>)> = (1..=size.rules).flat_map(|r| bodies.iter().map(move |b| (r, b))).collect();
    let mut all = Vec::new();
    let mut picked = Vec::new();
    pick(size, &choices, 0, &mut picked, &mut all);
    all
}

fn pick(size: Tiny, choices: &[(u32, &Vec<u32>)], from: usize, picked: &mut Vec<usize>, all: &mut Vec<Draft>) {
    let prods: Vec<(u32, &[u32])> = picked.iter().map(|&i| (choices[i].0, choices[i].1.as_slice())).collect();
    all.push(Draft::new(size.tokens + 1, size.rules + 1, &prods));
    if picked.len() == size.prods {
        return;
    }
    for i in from..choices.len() {
        picked.push(i);
        pick(size, choices, i, picked, all);
        picked.pop();
    }
}

fn bodies(size: Tiny) -> Vec<Vec<u32>> {
    let symbols: Vec<u32> = (1..=size.rules).map(rule).chain((0..size.tokens).map(token)).collect();
    let mut all = vec![Vec::new()];
    let mut from = 0;
    for _ in 0..size.length {
        let to = all.len();
        for i in from..to {
            for &x in &symbols {
                let mut longer: Vec<u32> = all[i].clone();
                longer.push(x);
                all.push(longer);
            }
        }
        from = to;
    }
    all
}
