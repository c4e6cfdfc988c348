//! The cell rules over an automaton, each cell by itself: what is called for in it, and what that comes to.

use std::collections::BTreeSet;

use grammar::{Grammar, Symbol};

use crate::automaton::{Automaton, State};

/// What all cells together hold.
#[derive(Clone, Copy, Debug, Default, PartialEq)]
pub struct Found {
    pub accept_reduce: usize,
    pub mixed_kinds: usize,
    pub reduce_reduce: usize,
    pub shift_reduce: usize,
    pub settled: usize,
}

impl Found {
    /// Whether two actions meet anywhere, settled or not.
    pub fn any(&self) -> bool {
        *self != Found::default()
    }

    /// Whether a build would finish with both lists empty.
    pub fn finishes_empty(&self) -> bool {
        *self == Found { settled: self.settled, ..Found::default() }
    }
}

pub fn conflicts(grm: &Grammar, automaton: &Automaton) -> Found {
    let mut found = Found::default();
    for state in &automaton.states {
        for token in 0..grm.tokens_len() {
            cell(grm, state, token, &mut found);
        }
    }
    found
}

fn cell(grm: &Grammar, state: &State, token: usize, found: &mut Found) {
    let complete = state.complete.iter().filter(|(_, tokens)| tokens.contains(&token));
    let (accepts, reduces): (BTreeSet<usize>, BTreeSet<usize>) =
        complete.map(|(&p, _)| p).partition(|&p| p == grm.start_prod());
    if !accepts.is_empty() && !reduces.is_empty() {
        found.accept_reduce += 1;
    }
    found.reduce_reduce += reduces.len().saturating_sub(1);
    let Some(&smallest) = reduces.first() else { return };
    if state.edges.contains_key(&Symbol::Token(token)) {
        shift_reduce(grm, token, smallest, found);
    }
}

fn shift_reduce(grm: &Grammar, token: usize, p: usize, found: &mut Found) {
    match (grm.token_precedence(token), grm.prod_precedence(p)) {
        (Some(t), Some(q)) if t.level == q.level && t.kind != q.kind => found.mixed_kinds += 1,
        (Some(_), Some(_)) => found.settled += 1,
        _ => found.shift_reduce += 1,
    }
}
