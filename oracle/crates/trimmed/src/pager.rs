//! From lrtable 0.15.0, src/lib/pager.rs: the graph of states.

use std::collections::BTreeMap;

use grammar::{Firsts, Grammar, Symbol, Vob};

use crate::{
    gc::gc,
    itemset::Itemset,
    stategraph::{StIdx, StateGraph},
};

/// Create a `StateGraph` from 'grm'.
pub fn pager_stategraph(grm: &Grammar) -> StateGraph {
    let mut pager = Pager::new(grm);
    while pager.todo > 0 {
        debug_assert_eq!(pager.core_states.len(), pager.closed_states.len());
        let state_i = pager.next_todo();
        let new_states = pager.close(state_i);
        for (sym, nstate) in new_states {
            pager.place(state_i, sym, nstate);
        }
    }
    pager.finish()
}

/// The locals of the crate's `pager_stategraph`.
// Departure: a struct, so that the function can be cut in pieces.
struct Pager<'a> {
    grm: &'a Grammar,
    firsts: Firsts,
    /// Closed states which are None are those which require processing; thus closed_states also
    /// implicitly serves as a todo list.
    closed_states: Vec<Option<Itemset>>,
    core_states: Vec<Itemset>,
    edges: Vec<BTreeMap<Symbol, StIdx>>,
    /// Which states are possible weakly compatible matches for a given symbol.
    cnd_rule_weaklies: Vec<Vec<StIdx>>,
    cnd_token_weaklies: Vec<Vec<StIdx>>,
    /// How many None values are there in closed_states?
    todo: usize,
    /// Offset in closed states to start searching for the next todo.
    todo_off: usize,
    /// Departure: the states in the order in which they were closed, for the tests.
    closings: Vec<StIdx>,
}

impl<'a> Pager<'a> {
    fn new(grm: &'a Grammar) -> Self {
        let mut state0 = Itemset::new(grm);
        let mut ctx = Vob::new(grm.tokens_len());
        ctx.set(grm.eof_token_idx(), true);
        state0.add(grm.start_prod(), 0, &ctx);
        Pager {
            grm,
            firsts: grm.firsts(),
            closed_states: vec![None],
            core_states: vec![state0],
            edges: vec![BTreeMap::new()],
            cnd_rule_weaklies: vec![Vec::new(); grm.rules_len()],
            cnd_token_weaklies: vec![Vec::new(); grm.tokens_len() + 1],
            todo: 1,
            todo_off: 0,
            closings: Vec::new(),
        }
    }

    /// state_i is the next item to process: we remember where we last saw a None (todo_off) and
    /// search from that point onwards, wrapping as necessary.
    fn next_todo(&mut self) -> StIdx {
        let state_i = match self.closed_states.iter().skip(self.todo_off).position(Option::is_none) {
            Some(i) => self.todo_off + i,
            None => self.closed_states.iter().position(Option::is_none).unwrap(),
        };
        self.todo_off = state_i + 1;
        self.todo -= 1;
        self.closings.push(state_i);
        state_i
    }

    /// Close a state and work out its gotos, separated out from mutating the states.
    fn close(&mut self, state_i: StIdx) -> Vec<(Symbol, Itemset)> {
        let cl_state = self.core_states[state_i].close(self.grm, &self.firsts);
        // We maintain two lists of which rules and tokens we've seen; when processing a given
        // state there's no point processing a rule or token more than once.
        let mut seen_rules = Vob::new(self.grm.rules_len());
        let mut seen_tokens = Vob::new(self.grm.tokens_len());
        let mut new_states = Vec::new();
        for &(pidx, dot) in cl_state.items.keys() {
            let prod = self.grm.prod(pidx);
            if dot == self.grm.prod_len(pidx) {
                continue;
            }
            let sym = prod[dot];
            match sym {
                Symbol::Rule(s_ridx) => {
                    if seen_rules.has(s_ridx) {
                        continue;
                    }
                    seen_rules.set(s_ridx, true);
                }
                Symbol::Token(s_tidx) => {
                    if seen_tokens.has(s_tidx) {
                        continue;
                    }
                    seen_tokens.set(s_tidx, true);
                }
            }
            let nstate = cl_state.goto(self.grm, &sym);
            new_states.push((sym, nstate));
        }
        self.closed_states[state_i] = Some(cl_state);
        new_states
    }

    /// Find or make the state of a goto, and draw the edge to it.
    fn place(&mut self, state_i: StIdx, sym: Symbol, nstate: Itemset) {
        let mut m = None;
        {
            // Try and compatible match for this state.
            let cnd_states = match sym {
                Symbol::Rule(s_ridx) => &self.cnd_rule_weaklies[s_ridx],
                Symbol::Token(s_tidx) => &self.cnd_token_weaklies[s_tidx],
            };
            // First of all see if any of the candidate states are exactly the same as the new
            // state. This has a correctness aspect: there's no guarantee that the weakly compatible
            // check is reflexive (i.e. a state may not be weakly compatible with itself).
            for cnd in cnd_states.iter().cloned() {
                if self.core_states[cnd] == nstate {
                    self.edges[state_i].insert(sym, cnd);
                    return;
                }
            }
            // No candidate states were equal to the new state, so we need to look for a candidate
            // state which is weakly compatible.
            for cnd in cnd_states.iter().cloned() {
                if self.core_states[cnd].weakly_compatible(&nstate) {
                    m = Some(cnd);
                    break;
                }
            }
        }
        match m {
            Some(k) => self.merge(state_i, sym, k, &nstate),
            None => self.add(state_i, sym, nstate),
        }
    }

    /// A weakly compatible match has been found.
    fn merge(&mut self, state_i: StIdx, sym: Symbol, k: StIdx, nstate: &Itemset) {
        self.edges[state_i].insert(sym, k);
        if self.core_states[k].weakly_merge(nstate) {
            // We only do the simplest change propagation, forcing possibly affected sets to be
            // entirely reprocessed. edges[k] will be completely regenerated, overwriting all
            // existing entries and possibly adding new ones.
            if self.closed_states[k].is_some() {
                self.closed_states[k] = None;
                self.todo += 1;
            }
        }
    }

    /// No match: a new state.
    // Departure: the crate panics here where StorageT is too small; the limits S and I are looked at in `build`, from
    // the sizes of the states in the order in which they were made.
    fn add(&mut self, state_i: StIdx, sym: Symbol, nstate: Itemset) {
        let stidx = self.core_states.len();
        match sym {
            Symbol::Rule(s_ridx) => {
                self.cnd_rule_weaklies[s_ridx].push(stidx);
            }
            Symbol::Token(s_tidx) => {
                self.cnd_token_weaklies[s_tidx].push(stidx);
            }
        }
        self.edges[state_i].insert(sym, stidx);
        self.edges.push(BTreeMap::new());
        self.closed_states.push(None);
        self.core_states.push(nstate);
        self.todo += 1;
    }

    /// Weed out unreachable states and update edges accordingly.
    fn finish(mut self) -> StateGraph {
        debug_assert_eq!(self.core_states.len(), self.closed_states.len());
        // Departure: a merge changes no state's items, so these are the sizes at making.
        let made = self.core_states.iter().map(|x| x.items.len()).collect();
        let (gc_states, gc_edges) = gc(
            self.core_states.drain(..).zip(self.closed_states.drain(..).map(Option::unwrap)).collect(),
            0,
            self.edges,
        );
        StateGraph::new(gc_states, gc_edges, made, self.closings)
    }
}
