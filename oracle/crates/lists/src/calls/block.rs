//! block → number.

use crate::reader::{put32, Reader};

pub fn inputs(block: &[u32]) -> Vec<u64> {
    let mut line = Vec::new();
    put32(&mut line, block);
    line
}

pub fn answer(r: &mut Reader) -> Vec<u64> {
    vec![super::number(grammar::refusal(&r.part32()))]
}
