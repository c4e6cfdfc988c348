//! Blocks of every kind that `generate` makes, with and without precedences, small to middling.
use generate::{family, flat, nearby, random, rare, samples, shapes, tinies, tower, Draft, Prng, Shape, FAMILIES};
use grammar::Words;

use crate::ends;

/// Where the tokens of a small grammar stand in wide ones: at the ends of the words of a set.
const PLACES: [u32; 12] = [0, 1, 62, 63, 64, 65, 127, 128, 191, 192, 254, 255];

pub struct Grammars {
    tiny: Vec<Draft>,
    rare: Vec<Draft>,
    shapes: Vec<Shape>,
}

impl Grammars {
    pub fn new() -> Grammars {
        let rare = [rare::equal_behind_compatible(), rare::closed_again_moves()].concat();
        Grammars { tiny: tinies().collect(), rare: rare.iter().map(|b| draft(b)).collect(), shapes: shapes() }
    }

    /// A block, and the name of its kind.
    pub fn pick(&self, rng: &mut Prng) -> (&'static str, Vec<u32>) {
        let (kind, draft) = match rng.below(1000) {
            0..=29 => return ("sample", sample(rng)),
            30..=32 => return ("language", language(rng)),
            33..=37 => return ("at the ends", ends::pick(rng)),
            38..=77 => {
                let shape = middling(rng.below(4));
                ("middling", random(rng, &shape))
            }
            78..=202 => ("tiny", self.tiny[rng.below(self.tiny.len())].clone()),
            203..=402 => {
                let which = rng.below(FAMILIES);
                ("family", family(rng, which))
            }
            403..=502 => {
                let which = rng.below(self.rare.len());
                ("near rare", nearby(rng, &self.rare[which]))
            }
            503..=602 => {
                let base = self.random(rng);
                ("near random", nearby(rng, &base))
            }
            603..=632 => {
                let base = self.random(rng);
                ("wide", wide(rng, &base))
            }
            _ => ("random", self.random(rng)),
        };
        let block = if rng.percent(35) { with_precedences(rng, draft).block() } else { draft.block() };
        (kind, block)
    }

    fn random(&self, rng: &mut Prng) -> Draft {
        let shape = rng.pick(&self.shapes);
        random(rng, &shape)
    }
}

impl Default for Grammars {
    fn default() -> Self {
        Grammars::new()
    }
}

fn sample(rng: &mut Prng) -> Vec<u32> {
    const PRECEDENCES: [u32; 8] = [0, 1, 2, 3, 5, 6, 7, 262_143];
    match rng.below(6) {
        0 => samples::g1(),
        1 => samples::cycle(),
        2 => samples::cycle_start_last(),
        3 => samples::not_lalr().block(),
        4 => samples::readings(),
        _ => samples::g2(rng.pick(&PRECEDENCES), rng.pick(&PRECEDENCES)),
    }
}

fn language(rng: &mut Prng) -> Vec<u32> {
    match rng.below(2) {
        0 => tower(rng.between(20, 100)),
        _ => flat(rng.between(30, 60)),
    }
}

/// Bodies mostly of tokens, so that the graphs stay of some hundred states.
fn middling(which: usize) -> Shape {
    let base = Shape {
        tokens: (3, 9),
        rules: (4, 9),
        prods: (10, 30),
        length: 4,
        empty: 6,
        unit: 8,
        rule: 35,
        precedence: 0,
        covered: true,
    };
    match which {
        0 => base,
        1 => Shape { precedence: 70, ..base },
        2 => Shape { length: 6, rule: 25, ..base },
        _ => Shape { tokens: (20, 60), prods: (20, 50), rules: (6, 15), rule: 30, empty: 3, ..base },
    }
}

fn wide(rng: &mut Prng, base: &Draft) -> Draft {
    let mut places = PLACES;
    rng.shuffle(&mut places);
    let used = &places[..base.tokens as usize];
    base.spread(used.iter().max().expect("a token") + 1, used)
}

/// Few levels, so that equal ones meet.
fn with_precedences(rng: &mut Prng, mut draft: Draft) -> Draft {
    let share = rng.pick(&[30, 60, 100]);
    let one_kind = rng.percent(70);
    let levels = rng.between(1, 3);
    let word = |rng: &mut Prng| {
        let level = rng.below(levels) as u32;
        let kind = if one_kind { 1 + level % 3 } else { rng.between(1, 3) as u32 };
        if rng.percent(share) {
            4 * level + kind
        } else {
            0
        }
    };
    draft.prods.iter_mut().for_each(|p| p.2 = word(rng));
    draft.token_precs.iter_mut().for_each(|p| *p = word(rng));
    draft
}

/// A good block as a draft again.
pub fn draft(block: &[u32]) -> Draft {
    let w = Words(block);
    Draft {
        tokens: w.tokens() as u32,
        rules: w.rules() as u32,
        end: w.end() as u32,
        start: w.start() as u32,
        prods: (0..w.prods()).map(|p| (w.rule(p) as u32, w.body(p).to_vec(), w.prod_precedence(p))).collect(),
        token_precs: (0..w.tokens()).map(|t| w.token_precedence(t)).collect(),
    }
}
