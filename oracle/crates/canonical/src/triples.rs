//! The second reading, Knuth's own: triples of production, dot and token. An item without a token is none.

use std::collections::BTreeSet;

use grammar::{Grammar, Symbol};

use crate::ahead::Ahead;
use crate::automaton::Kernel;
use crate::Item;

#[derive(Clone, PartialEq, Eq, PartialOrd, Ord)]
pub(crate) struct Triples(BTreeSet<(usize, usize, usize)>);

impl Kernel for Triples {
    fn start(grm: &Grammar) -> Self {
        Triples(BTreeSet::from([(grm.start_prod(), 0, grm.eof_token_idx())]))
    }

    /// For a triple before rule B with rest w and token t: every production of B with every token of FIRST(w t).
    fn close(&self, grm: &Grammar, ahead: &Ahead) -> Self {
        let mut all = self.0.clone();
        let mut todo: Vec<_> = all.iter().copied().collect();
        while let Some((p, d, t)) = todo.pop() {
            let Some(&Symbol::Rule(r)) = grm.prod(p).get(d) else { continue };
            let mut rest = grm.prod(p)[d + 1..].to_vec();
            rest.push(Symbol::Token(t));
            for next in ahead.of(&rest).0 {
                for &q in grm.rule_to_prods(r) {
                    if all.insert((q, 0, next)) {
                        todo.push((q, 0, next));
                    }
                }
            }
        }
        Triples(all)
    }

    fn goto(&self, grm: &Grammar, symbol: Symbol) -> Self {
        let moved = self.0.iter().filter(|(p, d, _)| grm.prod(*p).get(*d) == Some(&symbol));
        Triples(moved.map(|&(p, d, t)| (p, d + 1, t)).collect())
    }

    fn items(&self) -> BTreeSet<Item> {
        self.0.iter().map(|&(p, d, _)| (p, d)).collect()
    }

    fn tokens(&self, item: Item) -> BTreeSet<usize> {
        self.0.iter().filter(|&&(p, d, _)| (p, d) == item).map(|&(_, _, t)| t).collect()
    }
}
