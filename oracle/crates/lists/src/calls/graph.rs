//! block, S, I, fill, three lengths → number; states, items, states before; three whole buffers.

use trimmed::build_graph_in;

use crate::reader::{put, put32, Reader};

pub const BUFFERS: usize = 3;

pub fn inputs(block: &[u32], states: u64, items: u64, fill: u64, lengths: [u64; BUFFERS]) -> Vec<u64> {
    let mut line = Vec::new();
    put32(&mut line, block);
    line.extend([states, items, fill]);
    line.extend(lengths);
    line
}

pub fn answer(r: &mut Reader) -> Vec<u64> {
    let block = r.part32();
    let [states, items, fill] = r.numbers();
    let lengths = r.numbers::<BUFFERS>();
    let mut lent: Vec<Vec<u64>> = lengths.iter().map(|&n| vec![fill; n as usize]).collect();
    let answer = build_graph_in(&block, states, items, &mut lent);
    let mut out = vec![answer.map_or_else(|refused| refused.number, |_| 0)];
    out.extend(answer.unwrap_or([0; 3]));
    lent.into_iter().for_each(|buffer| put(&mut out, buffer));
    out
}
