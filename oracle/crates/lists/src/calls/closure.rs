//! good block, kernel rows → closed rows ascending; number of gotos; for each, in order of first sight, its symbol and
//! its kernel rows.

use grammar::{Grammar, Symbol, Vob};
use trimmed::{item_words, Itemset, WORDS_OF_ITEM};

use crate::reader::{put, put32, Reader};

pub fn inputs(block: &[u32], rows: &[u64]) -> Vec<u64> {
    let mut line = Vec::new();
    put32(&mut line, block);
    put(&mut line, rows.iter().copied());
    line
}

pub fn answer(r: &mut Reader) -> Vec<u64> {
    let grm = Grammar::new(&r.part32()).expect("a good block");
    let kernel = kernel_of(&grm, r.part());
    let closed = kernel.close(&grm, &grm.firsts());
    let sights = sights(&grm, &closed);
    let mut out = Vec::new();
    put(&mut out, item_words(&closed));
    out.push(sights.len() as u64);
    for sym in sights {
        out.push(sym.word() as u64);
        put(&mut out, item_words(&closed.goto(&grm, &sym)));
    }
    out
}

fn kernel_of(grm: &Grammar, rows: &[u64]) -> Itemset {
    let mut kernel = Itemset::new(grm);
    for row in rows.chunks(WORDS_OF_ITEM) {
        let mut ctx = Vob::new(grm.tokens_len());
        for t in (0..grm.tokens_len()).filter(|t| row[1 + t / 64] >> (t % 64) & 1 == 1) {
            ctx.set(t, true);
        }
        kernel.add(row[0] as usize / 128, row[0] as usize % 128, &ctx);
    }
    kernel
}

/// The symbols behind dots in order of first sight.
fn sights(grm: &Grammar, closed: &Itemset) -> Vec<Symbol> {
    let mut seen = Vec::new();
    for &(p, d) in closed.items.keys() {
        match grm.prod(p).get(d) {
            Some(sym) if !seen.contains(sym) => seen.push(*sym),
            _ => (),
        }
    }
    seen
}
