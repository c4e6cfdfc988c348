//! block, production → number, body.

use crate::reader::{put32, Reader};

pub fn inputs(block: &[u32], p: u64) -> Vec<u64> {
    let mut line = Vec::new();
    put32(&mut line, block);
    line.push(p);
    line
}

pub fn answer(r: &mut Reader) -> Vec<u64> {
    let block = r.part32();
    let p = r.number();
    let mut out = vec![super::number(grammar::body_refusal(&block, p))];
    put32(&mut out, grammar::body(&block, p));
    out
}
