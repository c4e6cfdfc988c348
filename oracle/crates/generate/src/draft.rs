//! A grammar before it becomes a block.

use crate::prng::Prng;

/// The words of a rule and of a token in a body.
pub fn rule(r: u32) -> u32 {
    2 * r
}

pub fn token(t: u32) -> u32 {
    2 * t + 1
}

#[derive(Clone, Debug)]
pub struct Draft {
    pub tokens: u32,
    pub rules: u32,
    pub end: u32,
    pub start: u32,
    /// Rule, body, precedence.
    pub prods: Vec<(u32, Vec<u32>, u32)>,
    pub token_precs: Vec<u32>,
}

impl Draft {
    /// Rule 0 is the start rule, its production comes first and names rule 1; the end token is the last one.
    pub fn new(tokens: u32, rules: u32, prods: &[(u32, &[u32])]) -> Self {
        let mut all = vec![(0, vec![rule(1)], 0)];
        all.extend(prods.iter().map(|&(r, body)| (r, body.to_vec(), 0)));
        Draft { tokens, rules, end: tokens - 1, start: 0, prods: all, token_precs: vec![0; tokens as usize] }
    }

    pub fn block(&self) -> Vec<u32> {
        let prods = self.prods.len() as u32;
        let symbols: u32 = self.prods.iter().map(|p| p.1.len() as u32).sum();
        let at = 9 + 4 * prods;
        let mut words = vec![self.tokens, self.rules, prods, symbols, self.end, self.start, 9, at, at + symbols];
        let mut first = 0;
        for (r, body, prec) in &self.prods {
            words.extend([*r, first, body.len() as u32, *prec]);
            first += body.len() as u32;
        }
        words.extend(self.prods.iter().flat_map(|p| p.1.iter().copied()));
        words.extend(&self.token_precs);
        words
    }

    /// The same grammar with rules, tokens and productions numbered otherwise.
    pub fn shuffled(&self, rng: &mut Prng) -> Self {
        let mut rules: Vec<u32> = (0..self.rules).collect();
        let mut tokens: Vec<u32> = (0..self.tokens).collect();
        let mut order: Vec<usize> = (0..self.prods.len()).collect();
        rng.shuffle(&mut rules);
        rng.shuffle(&mut tokens);
        rng.shuffle(&mut order);
        let rename = |x: u32| if x % 2 == 0 { rule(rules[x as usize / 2]) } else { token(tokens[x as usize / 2]) };
        let mut token_precs = vec![0; self.tokens as usize];
        for (t, &prec) in self.token_precs.iter().enumerate() {
            token_precs[tokens[t] as usize] = prec;
        }
        let prods = order.iter().map(|&p| {
            let (r, body, prec) = &self.prods[p];
            (rules[*r as usize], body.iter().map(|&x| rename(x)).collect(), *prec)
        });
        Draft {
            tokens: self.tokens,
            rules: self.rules,
            end: tokens[self.end as usize],
            start: order.iter().position(|&p| p == self.start as usize).unwrap() as u32,
            prods: prods.collect(),
            token_precs,
        }
    }

    /// The same grammar with unused tokens, so that the used ones stand at the given numbers of `tokens` ones.
    pub fn spread(&self, tokens: u32, places: &[u32]) -> Self {
        let rename = |x: u32| if x % 2 == 0 { x } else { token(places[x as usize / 2]) };
        let mut token_precs = vec![0; tokens as usize];
        for (t, &prec) in self.token_precs.iter().enumerate() {
            token_precs[places[t] as usize] = prec;
        }
        Draft {
            tokens,
            end: places[self.end as usize],
            prods: self.prods.iter().map(|(r, b, p)| (*r, b.iter().map(|&x| rename(x)).collect(), *p)).collect(),
            token_precs,
            ..self.clone()
        }
    }
}
