//! The queries of a cell, an action, a goto, an edge and a mark, in tables of whatever words. A goto or an edge is a state and one more, 0 for none.
use crate::lent::{self, Table};
use crate::{Refusal, Symbol};

#[derive(Clone, Copy, Debug, PartialEq, Eq)]
pub enum Action {
    Error,
    Shift(usize),
    Reduce(usize),
    Accept,
}

fn action_of(kind: u32, value: u32) -> Action {
    match kind {
        0 => Action::Error,
        1 => Action::Shift(value as usize),
        2 => Action::Reduce(value as usize),
        _ => Action::Accept,
    }
}

/// The action that any word is read as.
pub fn decode(word: u32) -> Action {
    action_of(word % 4, word / 4)
}

fn ask(table: Table, block: &[u32], states: usize, words: &[u32], s: usize, i: usize) -> Result<u32, Refusal> {
    let [number, word] = lent::query(table, block, states, words, s, i);
    Refusal::of(number.into()).map_or(Ok(word), Err)
}

pub fn cell(block: &[u32], states: usize, actions: &[u32], s: usize, t: usize) -> Result<u32, Refusal> {
    ask(Table::Actions, block, states, actions, s, t)
}

pub fn goto(block: &[u32], states: usize, gotos: &[u32], s: usize, r: usize) -> Result<u32, Refusal> {
    ask(Table::Gotos, block, states, gotos, s, r)
}

pub fn edge(block: &[u32], states: usize, edges: &[u32], s: usize, x: Symbol) -> Result<u32, Refusal> {
    ask(Table::Edges, block, states, edges, s, x.word() as usize)
}

pub fn offered_mark(block: &[u32], states: usize, marks: &[u32], s: usize, t: usize) -> Result<u32, Refusal> {
    ask(Table::Offered, block, states, marks, s, t)
}

pub fn shift_mark(block: &[u32], states: usize, marks: &[u32], s: usize, t: usize) -> Result<u32, Refusal> {
    ask(Table::Shifts, block, states, marks, s, t)
}

pub fn core_mark(block: &[u32], states: usize, marks: &[u32], s: usize, p: usize) -> Result<u32, Refusal> {
    ask(Table::Cores, block, states, marks, s, p)
}

pub fn only_mark(block: &[u32], states: usize, marks: &[u32], s: usize) -> Result<u32, Refusal> {
    ask(Table::Only, block, states, marks, s, 0)
}

pub fn action(block: &[u32], states: usize, actions: &[u32], s: usize, t: usize) -> Result<Action, Refusal> {
    let [number, kind, value] = lent::action(block, states, actions, s, t);
    Refusal::of(number.into()).map_or(Ok(action_of(kind, value)), Err)
}
