//! good block → nullable marks of all rules, FIRST words of all rules.

use grammar::Grammar;
use trimmed::set_words;

use crate::reader::{put, put32, Reader};

pub fn inputs(block: &[u32]) -> Vec<u64> {
    let mut line = Vec::new();
    put32(&mut line, block);
    line
}

pub fn answer(r: &mut Reader) -> Vec<u64> {
    let grm = Grammar::new(&r.part32()).expect("a good block");
    let firsts = grm.firsts();
    let mut out = Vec::new();
    put(&mut out, (0..grm.rules_len()).map(|r| firsts.is_epsilon_set(r) as u64));
    put(&mut out, (0..grm.rules_len()).flat_map(|r| set_words(firsts.firsts(r))));
    out
}
