//! From lrtable 0.15.0, src/lib/itemset.rs.

use std::collections::btree_map::{BTreeMap, Entry};

use grammar::{Firsts, Grammar, PIdx, SIdx, Symbol, Vob};

/// The type of "context" (also known as "lookaheads")
pub type Ctx = Vob;

#[derive(Clone, Debug, PartialEq)]
pub struct Itemset {
    pub items: BTreeMap<(PIdx, SIdx), Ctx>,
}

impl Itemset {
    /// Create a blank Itemset.
    pub fn new(_: &Grammar) -> Self {
        Itemset { items: BTreeMap::new() }
    }

    /// Add an item `(prod, dot)` with context `ctx` to this itemset. Returns true if this led to
    /// any changes in the itemset.
    pub fn add(&mut self, pidx: PIdx, dot: SIdx, ctx: &Ctx) -> bool {
        let entry = self.items.entry((pidx, dot));
        match entry {
            Entry::Occupied(mut e) => e.get_mut().or(ctx),
            Entry::Vacant(e) => {
                e.insert(ctx.clone());
                true
            }
        }
    }

    /// Create a new itemset which is a closed version of `self`.
    pub fn close(&self, grm: &Grammar, firsts: &Firsts) -> Self {
        let mut new_is = self.clone(); // The new itemset we're building up

        // First iterate through the kernel's items and, when these are exhausted, continually iterate
        // over the bitfield of dot-zero items until no new ones have been added.
        let mut keys_iter = self.items.keys(); // The initial todo list
        let mut zero_todos = Vob::new(grm.prods_len()); // Subsequent todos
        let mut new_ctx = Vob::new(grm.tokens_len());
        loop {
            let pidx;
            let dot;
            // Find the next todo item or, if there are none, break the loop.
            match keys_iter.next() {
                Some(&(x, y)) => {
                    pidx = x;
                    dot = y;
                }
                None => {
                    match zero_todos.iter_set_bits().next() {
                        Some(i) => pidx = i,
                        None => break,
                    }
                    dot = 0;
                    zero_todos.set(pidx, false);
                }
            }
            let prod = grm.prod(pidx);
            if dot == grm.prod_len(pidx) {
                continue;
            }
            if let Symbol::Rule(s_ridx) = prod[dot] {
                new_is.new_context(prod, pidx, dot, firsts, &mut new_ctx);
                for ref_pidx in grm.rule_to_prods(s_ridx).iter() {
                    if new_is.add(*ref_pidx, 0, &new_ctx) {
                        zero_todos.set(*ref_pidx, true);
                    }
                }
            }
        }
        new_is
    }

    /// What the item `(pidx, dot)` hands to the productions of the rule behind its dot.
    // Departure: in the crate this stands inside `close`.
    fn new_context(&self, prod: &[Symbol], pidx: PIdx, dot: SIdx, firsts: &Firsts, new_ctx: &mut Ctx) {
        new_ctx.set_all(false);
        let mut nullable = true;
        for sym in prod.iter().skip(dot + 1) {
            match *sym {
                Symbol::Token(s_tidx) => {
                    new_ctx.set(s_tidx, true);
                    nullable = false;
                    break;
                }
                Symbol::Rule(s_ridx) => {
                    new_ctx.or(firsts.firsts(s_ridx));
                    if !firsts.is_epsilon_set(s_ridx) {
                        nullable = false;
                        break;
                    }
                }
            }
        }
        if nullable {
            new_ctx.or(&self.items[&(pidx, dot)]);
        }
    }

    /// Create a new Itemset based on calculating the goto of 'sym' on the current Itemset.
    pub fn goto(&self, grm: &Grammar, sym: &Symbol) -> Self {
        let mut newis = Itemset::new(grm);
        for (&(pidx, dot), ctx) in &self.items {
            let prod = grm.prod(pidx);
            if dot == grm.prod_len(pidx) {
                continue;
            }
            if sym == &prod[dot] {
                newis.add(pidx, dot + 1, ctx);
            }
        }
        newis
    }
}
