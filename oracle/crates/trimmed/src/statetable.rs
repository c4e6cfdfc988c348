//! From lrtable 0.15.0, src/lib/statetable.rs.

use std::{cmp::Ordering, collections::BTreeMap};

use grammar::{AssocKind, Grammar, PIdx, Precedence, Symbol, TIdx, Vob};

use crate::stategraph::{StIdx, StateGraph};

#[derive(Clone, Debug, Default)]
pub struct Conflicts {
    pub reduce_reduce: Vec<(TIdx, PIdx, PIdx, StIdx)>,
    pub shift_reduce: Vec<(TIdx, PIdx, StIdx)>,
}

#[derive(Clone, Debug, PartialEq)]
pub enum StateTableErrorKind {
    AcceptReduceConflict(Option<PIdx>),
    /// Departure: the crate panics with "Not supported."
    MixedKinds(TIdx, StIdx),
}

#[derive(Clone, Debug)]
pub struct StateTableError {
    pub kind: StateTableErrorKind,
    pub pidx: PIdx,
    /// Departure: what was recorded before, from which `build` tells refusal 10 from 11 and 12.
    pub conflicts: Conflicts,
}

/// Departure: plain vectors in place of `SparseVec`; no start state, as it is always 0.
#[derive(Clone, Debug)]
pub struct StateTable {
    pub actions: Vec<usize>,
    pub state_actions: Vob,
    pub gotos: Vec<usize>,
    pub core_reduces: Vob,
    pub state_shifts: Vob,
    pub reduce_states: Vob,
    pub conflicts: Conflicts,
    /// Departure: document 01's precedence count.
    pub settled: usize,
}

#[derive(Clone, Copy, Debug, PartialEq)]
pub enum Action {
    /// Shift to state X in the statetable.
    Shift(StIdx),
    /// Reduce production X in the grammar.
    Reduce(PIdx),
    /// Accept this input.
    Accept,
    /// No valid action.
    Error,
}

const SHIFT: usize = 1;
const REDUCE: usize = 2;
const ACCEPT: usize = 3;
const ERROR: usize = 0;

impl StateTable {
    pub fn new(grm: &Grammar, sg: &StateGraph) -> Result<Self, StateTableError> {
        let mut table = StateTable {
            actions: vec![0; grm.tokens_len() * sg.all_states_len()],
            state_actions: Vob::new(sg.all_states_len() * grm.tokens_len()),
            gotos: vec![0; grm.rules_len() * sg.all_states_len()],
            core_reduces: Vob::new(sg.all_states_len() * grm.prods_len()),
            state_shifts: Vob::new(sg.all_states_len() * grm.tokens_len()),
            reduce_states: Vob::new(sg.all_states_len()),
            conflicts: Conflicts::default(),
            settled: 0,
        };
        let mut final_state = None;
        for stidx in sg.iter_stidxs() {
            table.reduces(grm, sg, stidx, &mut final_state)?;
            table.edges(grm, sg, stidx)?;
        }
        assert!(final_state.is_some());
        for stidx in sg.iter_stidxs() {
            table.marks(grm, stidx);
        }
        Ok(table)
    }

    /// Populate reduce and accepts
    fn reduces(
        &mut self,
        grm: &Grammar,
        sg: &StateGraph,
        stidx: StIdx,
        final_state: &mut Option<StIdx>,
    ) -> Result<(), StateTableError> {
        for (&(pidx, dot), ctx) in &sg.closed_state(stidx).items {
            if dot < grm.prod_len(pidx) {
                continue;
            }
            for tidx in ctx.iter_set_bits() {
                self.reduce(grm, stidx, pidx, tidx, final_state)?;
            }
        }
        Ok(())
    }

    fn reduce(
        &mut self,
        grm: &Grammar,
        stidx: StIdx,
        pidx: PIdx,
        tidx: TIdx,
        final_state: &mut Option<StIdx>,
    ) -> Result<(), StateTableError> {
        let off = actions_offset(grm.tokens_len(), stidx, tidx);
        self.state_actions.set(off, true);
        match StateTable::decode(self.actions[off]) {
            Action::Reduce(r_pidx) => {
                if pidx == grm.start_prod() && tidx == grm.eof_token_idx() {
                    return Err(self.error(StateTableErrorKind::AcceptReduceConflict(Some(r_pidx)), pidx));
                }
                // By default, Yacc resolves reduce/reduce conflicts in favour
                // of the earlier production in the grammar.
                match pidx.cmp(&r_pidx) {
                    Ordering::Less => {
                        self.conflicts.reduce_reduce.push((tidx, pidx, r_pidx, stidx));
                        self.actions[off] = StateTable::encode(Action::Reduce(pidx));
                    }
                    Ordering::Greater => self.conflicts.reduce_reduce.push((tidx, r_pidx, pidx, stidx)),
                    Ordering::Equal => (),
                }
            }
            Action::Accept => {
                return Err(self.error(StateTableErrorKind::AcceptReduceConflict(None), pidx));
            }
            Action::Error => {
                if pidx == grm.start_prod() && tidx == grm.eof_token_idx() {
                    assert!(final_state.is_none());
                    *final_state = Some(stidx);
                    self.actions[off] = StateTable::encode(Action::Accept);
                } else {
                    self.actions[off] = StateTable::encode(Action::Reduce(pidx));
                }
            }
            _ => panic!("Internal error"),
        }
        Ok(())
    }

    fn error(&self, kind: StateTableErrorKind, pidx: PIdx) -> StateTableError {
        StateTableError { kind, pidx, conflicts: self.conflicts.clone() }
    }

    fn edges(&mut self, grm: &Grammar, sg: &StateGraph, stidx: StIdx) -> Result<(), StateTableError> {
        let nt_len = grm.rules_len();
        for (&sym, ref_stidx) in sg.edges(stidx) {
            match sym {
                Symbol::Rule(s_ridx) => {
                    // Populate gotos
                    let off = (stidx * nt_len) + s_ridx;
                    debug_assert!(self.gotos[off] == 0);
                    // Since 0 is reserved for no entry, encode states by adding 1
                    self.gotos[off] = *ref_stidx + 1;
                }
                Symbol::Token(s_tidx) => {
                    // Populate shifts
                    let off = actions_offset(grm.tokens_len(), stidx, s_tidx);
                    self.state_actions.set(off, true);
                    match StateTable::decode(self.actions[off]) {
                        Action::Shift(x) => assert!(*ref_stidx == x),
                        Action::Reduce(r_pidx) => {
                            self.resolve_shift_reduce(grm, off, s_tidx, r_pidx, *ref_stidx, stidx)?;
                        }
                        Action::Accept => panic!("Internal error"),
                        Action::Error => {
                            self.actions[off] = StateTable::encode(Action::Shift(*ref_stidx));
                        }
                    }
                }
            }
        }
        Ok(())
    }

    fn resolve_shift_reduce(
        &mut self,
        grm: &Grammar,
        off: usize,
        tidx: TIdx,
        pidx: PIdx,
        stidx: StIdx,          // State we want to shift to
        conflict_stidx: StIdx, // State in which the conflict occured
    ) -> Result<(), StateTableError> {
        let tidx_prec = grm.token_precedence(tidx);
        let pidx_prec = grm.prod_precedence(pidx);
        match (tidx_prec, pidx_prec) {
            (_, None) | (None, _) => {
                // If the token and production don't both have precedences, we use Yacc's default
                // resolution, which is in favour of the shift.
                self.actions[off] = StateTable::encode(Action::Shift(stidx));
                self.conflicts.shift_reduce.push((tidx, pidx, conflict_stidx));
                Ok(())
            }
            (Some(token_prec), Some(prod_prec)) => {
                let Some(action) = settle(token_prec, prod_prec, stidx, pidx) else {
                    return Err(self.error(StateTableErrorKind::MixedKinds(tidx, conflict_stidx), pidx));
                };
                self.actions[off] = StateTable::encode(action);
                self.settled += 1;
                Ok(())
            }
        }
    }

    fn marks(&mut self, grm: &Grammar, stidx: StIdx) {
        let mut nt_depth = BTreeMap::new();
        let mut only_reduces = true;
        for tidx in grm.iter_tidxs() {
            let off = actions_offset(grm.tokens_len(), stidx, tidx);
            match StateTable::decode(self.actions[off]) {
                Action::Reduce(pidx) => {
                    let prod_len = grm.prod(pidx).len();
                    let ridx = grm.prod_to_rule(pidx);
                    nt_depth.insert((ridx, prod_len), pidx);
                }
                Action::Shift(_) => {
                    only_reduces = false;
                    self.state_shifts.set(off, true);
                }
                Action::Accept => {
                    only_reduces = false;
                }
                Action::Error => (),
            }
        }

        let mut distinct_reduces = 0; // How many distinct reductions do we have?
        for &pidx in nt_depth.values() {
            let off = stidx * grm.prods_len() + pidx;
            if self.core_reduces.set(off, true) {
                distinct_reduces += 1;
            }
        }

        if only_reduces && distinct_reduces == 1 {
            self.reduce_states.set(stidx, true);
        }
    }

    pub fn decode(bits: usize) -> Action {
        let action = bits & 0b11;
        let val = bits >> 2;

        match action {
            SHIFT => Action::Shift(val),
            REDUCE => Action::Reduce(val),
            ACCEPT => Action::Accept,
            ERROR => Action::Error,
            _ => unreachable!(),
        }
    }

    pub fn encode(action: Action) -> usize {
        match action {
            Action::Shift(stidx) => SHIFT | (stidx << 2),
            Action::Reduce(ridx) => REDUCE | (ridx << 2),
            Action::Accept => ACCEPT,
            Action::Error => ERROR,
        }
    }
}

/// What two precedences make of a shift to `stidx` and a reduce of `pidx`; none where equal levels have different kinds.
// Departure: the crate leaves the cell as it is where the reduce wins; here the same reduce is written again.
fn settle(token_prec: Precedence, prod_prec: Precedence, stidx: StIdx, pidx: PIdx) -> Option<Action> {
    match token_prec.level.cmp(&prod_prec.level) {
        Ordering::Equal => {
            // Both token and production have the same level precedence, so we need to look
            // at the precedence kind.
            match (token_prec.kind, prod_prec.kind) {
                // Left associativity is resolved in favour of the reduce.
                (AssocKind::Left, AssocKind::Left) => Some(Action::Reduce(pidx)),
                // Right associativity is resolved in favour of the shift.
                (AssocKind::Right, AssocKind::Right) => Some(Action::Shift(stidx)),
                // Nonassociativity leads to a run-time parsing error, so we need to
                // remove the action entirely.
                (AssocKind::Nonassoc, AssocKind::Nonassoc) => Some(Action::Error),
                (_, _) => None,
            }
        }
        // The token has higher level precedence, so resolve in favour of shift.
        Ordering::Greater => Some(Action::Shift(stidx)),
        // The production has higher level precedence and we keep the reduce.
        Ordering::Less => Some(Action::Reduce(pidx)),
    }
}

fn actions_offset(tokens_len: usize, stidx: StIdx, tidx: TIdx) -> usize {
    stidx * tokens_len + tidx
}
