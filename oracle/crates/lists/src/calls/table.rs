//! block, S, I, two limits, fill, eleven lengths → number and three values; states, items, states before, records in each
//! list, precedence count; eleven whole buffers.

use trimmed::{build_in, Limits};

use crate::reader::{put, put32, Reader};

pub const BUFFERS: usize = 11;

pub fn inputs(block: &[u32], limits: Limits, fill: u64, lengths: [u64; BUFFERS]) -> Vec<u64> {
    let mut line = Vec::new();
    put32(&mut line, block);
    line.extend([limits.states, limits.items, limits.reduce_reduce, limits.shift_reduce, fill]);
    line.extend(lengths);
    line
}

pub fn answer(r: &mut Reader) -> Vec<u64> {
    let block = r.part32();
    let [states, items, reduce_reduce, shift_reduce, fill] = r.numbers();
    let lengths = r.numbers::<BUFFERS>();
    let mut lent: Vec<Vec<u64>> = lengths.iter().map(|&n| vec![fill; n as usize]).collect();
    let answer = build_in(&block, Limits { states, items, reduce_reduce, shift_reduce }, &mut lent);
    let mut out = match answer {
        Ok(_) => vec![0, 0, 0, 0],
        Err(refused) => [vec![refused.number], refused.values.to_vec()].concat(),
    };
    out.extend(answer.unwrap_or([0; 6]));
    lent.into_iter().for_each(|buffer| put(&mut out, buffer));
    out
}
