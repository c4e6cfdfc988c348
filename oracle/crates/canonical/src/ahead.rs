//! FIRST and nullable from a search through left ends of forms, one rule at a time.

use std::collections::BTreeSet;

use grammar::{Grammar, Symbol};

pub struct Ahead {
    nullable: Vec<bool>,
    firsts: Vec<BTreeSet<usize>>,
}

impl Ahead {
    pub fn new(grm: &Grammar) -> Self {
        let nullable = nullable(grm);
        let firsts = (0..grm.rules_len()).map(|r| firsts(grm, &nullable, r)).collect();
        Ahead { nullable, firsts }
    }

    /// The tokens that may come first in what `symbols` derive, and whether they derive nothing.
    pub fn of(&self, symbols: &[Symbol]) -> (BTreeSet<usize>, bool) {
        let mut tokens = BTreeSet::new();
        for &symbol in symbols {
            match symbol {
                Symbol::Token(t) => {
                    tokens.insert(t);
                    return (tokens, false);
                }
                Symbol::Rule(r) => {
                    tokens.extend(&self.firsts[r]);
                    if !self.nullable[r] {
                        return (tokens, false);
                    }
                }
            }
        }
        (tokens, true)
    }
}

fn nullable(grm: &Grammar) -> Vec<bool> {
    let mut marks = vec![false; grm.rules_len()];
    // A rule is found within as many rounds as there are rules.
    for _ in 0..grm.rules_len() {
        for p in 0..grm.prods_len() {
            if all_nullable(&marks, grm.prod(p)) {
                marks[grm.prod_to_rule(p)] = true;
            }
        }
    }
    marks
}

fn all_nullable(marks: &[bool], symbols: &[Symbol]) -> bool {
    symbols.iter().all(|s| matches!(s, Symbol::Rule(r) if marks[*r]))
}

/// The tokens at the left end of forms of a rule: the rules that can stand there are walked once each.
fn firsts(grm: &Grammar, nullable: &[bool], rule: usize) -> BTreeSet<usize> {
    let mut tokens = BTreeSet::new();
    let mut seen = BTreeSet::from([rule]);
    let mut todo = vec![rule];
    while let Some(r) = todo.pop() {
        for &p in grm.rule_to_prods(r) {
            let body = grm.prod(p);
            for (i, &symbol) in body.iter().enumerate() {
                if !all_nullable(nullable, &body[..i]) {
                    break;
                }
                match symbol {
                    Symbol::Token(t) => {
                        tokens.insert(t);
                    }
                    Symbol::Rule(left) => {
                        if seen.insert(left) {
                            todo.push(left);
                        }
                    }
                }
            }
        }
    }
    tokens
}
