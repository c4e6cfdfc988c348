//! Refusals 1 to 6, each test over the whole block before the next.

use crate::{Words, HEADER, MOST_LENGTH, MOST_LEVEL, MOST_PRODS, MOST_RULES, MOST_SYMBOLS, MOST_TOKENS};

/// The number of the refusal, or none.
pub fn refusal(block: &[u32]) -> Option<u32> {
    if short_block(block) {
        return Some(1);
    }
    let w = Words(block);
    if too_large(block) {
        return Some(2);
    }
    if misplaced(w) {
        return Some(1);
    }
    if bad_production(w) {
        return Some(3);
    }
    if bad_start(w) {
        return Some(4);
    }
    if bad_symbol(w) {
        return Some(5);
    }
    if bad_precedence(w) {
        return Some(6);
    }
    None
}

fn short_block(block: &[u32]) -> bool {
    block.len() < HEADER
}

fn too_large(block: &[u32]) -> bool {
    !(1..=MOST_TOKENS).contains(&block[0])
        || !(1..=MOST_RULES).contains(&block[1])
        || !(1..=MOST_PRODS).contains(&block[2])
        || block[3] > MOST_SYMBOLS
}

fn misplaced(w: Words) -> bool {
    let symbols_at = HEADER + 4 * w.prods();
    let precedences_at = symbols_at + w.symbols();
    w.0[6] as usize != HEADER
        || w.0[7] as usize != symbols_at
        || w.0[8] as usize != precedences_at
        || w.0.len() != precedences_at + w.tokens()
}

fn bad_production(w: Words) -> bool {
    // A sum of lengths stops at the first one over 64, so it can't wrap.
    let mut sum = 0;
    for p in 0..w.prods() {
        if w.rule(p) >= w.rules() || w.first_index(p) != sum || w.length(p) > MOST_LENGTH as usize {
            return true;
        }
        sum += w.length(p);
    }
    sum != w.symbols()
}

fn bad_start(w: Words) -> bool {
    if w.end() >= w.tokens() || w.start() >= w.prods() {
        return true;
    }
    let start = w.start();
    if w.length(start) != 1 || w.symbol(w.first_index(start)) % 2 != 0 {
        return true;
    }
    (0..w.prods()).any(|p| p != start && w.rule(p) == w.rule(start))
}

fn bad_symbol(w: Words) -> bool {
    let start_rule = w.rule(w.start());
    (0..w.symbols()).any(|i| {
        let number = (w.symbol(i) / 2) as usize;
        if w.symbol(i) % 2 == 0 {
            number >= w.rules() || number == start_rule
        } else {
            number >= w.tokens() || number == w.end()
        }
    })
}

fn bad_precedence(w: Words) -> bool {
    let bad = |word: u32| word != 0 && (word % 4 == 0 || word / 4 > MOST_LEVEL);
    (0..w.prods()).any(|p| bad(w.prod_precedence(p))) || (0..w.tokens()).any(|t| bad(w.token_precedence(t)))
}
