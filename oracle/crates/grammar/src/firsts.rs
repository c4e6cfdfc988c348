//! Nullable and FIRST, the least sets, by rounds over the productions until nothing grows.

use crate::{Grammar, RIdx, Symbol, Vob};

#[derive(Clone, Debug)]
pub struct Firsts {
    firsts: Vec<Vob>,
    epsilons: Vec<bool>,
}

impl Firsts {
    pub fn new(grm: &Grammar) -> Self {
        let mut f = Firsts {
            firsts: vec![Vob::new(grm.tokens_len()); grm.rules_len()],
            epsilons: vec![false; grm.rules_len()],
        };
        loop {
            let mut changed = false;
            for pidx in 0..grm.prods_len() {
                changed |= f.add_prod(grm.prod_to_rule(pidx), grm.prod(pidx));
            }
            if !changed {
                return f;
            }
        }
    }

    /// The tokens that a form derived from the rule may begin with.
    pub fn firsts(&self, ridx: RIdx) -> &Vob {
        &self.firsts[ridx]
    }

    /// Whether the rule derives nothing.
    pub fn is_epsilon_set(&self, ridx: RIdx) -> bool {
        self.epsilons[ridx]
    }

    /// What the body of a production gives its rule; true if the rule's sets grew.
    fn add_prod(&mut self, ridx: RIdx, prod: &[Symbol]) -> bool {
        let mut changed = false;
        for &sym in prod {
            match sym {
                Symbol::Token(tidx) => {
                    return self.firsts[ridx].set(tidx, true) || changed;
                }
                Symbol::Rule(s_ridx) => {
                    let first = self.firsts[s_ridx].clone();
                    changed |= self.firsts[ridx].or(&first);
                    if !self.epsilons[s_ridx] {
                        return changed;
                    }
                }
            }
        }
        changed |= !self.epsilons[ridx];
        self.epsilons[ridx] = true;
        changed
    }
}
