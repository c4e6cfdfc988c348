//! The first reading: a map from items to tokens, which may be none.

use std::collections::{BTreeMap, BTreeSet};

use grammar::{Grammar, Symbol};

use crate::ahead::Ahead;
use crate::automaton::Kernel;
use crate::Item;

#[derive(Clone, PartialEq, Eq, PartialOrd, Ord)]
pub(crate) struct Maps(BTreeMap<Item, BTreeSet<usize>>);

impl Kernel for Maps {
    fn start(grm: &Grammar) -> Self {
        Maps(BTreeMap::from([((grm.start_prod(), 0), BTreeSet::from([grm.eof_token_idx()]))]))
    }

    /// Rounds over all items until a round adds nothing.
    fn close(&self, grm: &Grammar, ahead: &Ahead) -> Self {
        let mut map = self.0.clone();
        loop {
            let before = map.clone();
            for (&(p, d), own) in &before {
                let Some(&Symbol::Rule(r)) = grm.prod(p).get(d) else { continue };
                let (mut tokens, nullable) = ahead.of(&grm.prod(p)[d + 1..]);
                if nullable {
                    tokens.extend(own);
                }
                for &q in grm.rule_to_prods(r) {
                    map.entry((q, 0)).or_default().extend(&tokens);
                }
            }
            if map == before {
                return Maps(map);
            }
        }
    }

    fn goto(&self, grm: &Grammar, symbol: Symbol) -> Self {
        let moved = self.0.iter().filter(|((p, d), _)| grm.prod(*p).get(*d) == Some(&symbol));
        Maps(moved.map(|(&(p, d), tokens)| ((p, d + 1), tokens.clone())).collect())
    }

    fn items(&self) -> BTreeSet<Item> {
        self.0.keys().copied().collect()
    }

    fn tokens(&self, item: Item) -> BTreeSet<usize> {
        self.0[&item].clone()
    }
}
