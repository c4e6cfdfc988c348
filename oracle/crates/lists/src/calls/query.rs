//! kind, block, states, table, state, column → number, word.

use trimmed::{query, Kind};

use crate::reader::{put, put32, Reader};

/// What is asked of a table with so many states.
#[derive(Clone, Copy)]
pub struct Asked {
    pub kind: Kind,
    pub states: u64,
    pub state: u64,
    pub column: u64,
}

pub fn inputs(asked: Asked, block: &[u32], table: &[u64]) -> Vec<u64> {
    let kind = Kind::ALL.iter().position(|&k| k == asked.kind).expect("a kind");
    let mut line = vec![kind as u64];
    put32(&mut line, block);
    line.push(asked.states);
    put(&mut line, table.iter().copied());
    line.extend([asked.state, asked.column]);
    line
}

pub fn answer(r: &mut Reader) -> Vec<u64> {
    let kind = Kind::ALL[r.number() as usize];
    let block = r.part32();
    let states = r.number();
    let table = r.part();
    let [state, column] = r.numbers();
    match query(kind, &block, states, table, state, column) {
        Ok(word) => vec![0, word],
        Err(number) => vec![number, 0],
    }
}
