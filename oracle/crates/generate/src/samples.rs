//! The sample grammars of document 01, and a few more by name.

use crate::draft::{rule, token, Draft};

/// start→E, E→n with n a token.
pub fn g1() -> Vec<u32> {
    vec![2, 2, 2, 2, 1, 0, 9, 17, 19, 0, 0, 1, 0, 1, 1, 1, 0, 2, 1, 0, 0]
}

/// start→E, E→E − E, E→n; minus 0, n 1, end 2; precedences of minus and of the production.
pub fn g2(minus: u32, prod: u32) -> Vec<u32> {
    let mut d = Draft::new(3, 2, &[(1, &[rule(1), token(0), rule(1)]), (1, &[token(1)])]);
    d.token_precs[0] = minus;
    d.prods[1].2 = prod;
    d.block()
}

/// 0 start→S, 1 S→S, 2 S→a.
pub fn cycle() -> Vec<u32> {
    Draft::new(2, 2, &[(1, &[rule(1)]), (1, &[token(0)])]).block()
}

/// 0 S→S, 1 S→a, 2 start→S.
pub fn cycle_start_last() -> Vec<u32> {
    let mut d = Draft::new(2, 2, &[(1, &[rule(1)]), (1, &[token(0)])]);
    d.prods.rotate_left(1);
    d.start = 2;
    d.block()
}

/// start→S, S→aAd | bBd | aBe | bAe, A→c, B→c: LR(1) but not LALR(1).
pub fn not_lalr() -> Draft {
    let (a, b, c, d, e) = (token(0), token(1), token(2), token(3), token(4));
    let (x, y) = (rule(2), rule(3));
    Draft::new(6, 4, &[(1, &[a, x, d]), (1, &[b, y, d]), (1, &[a, y, e]), (1, &[b, x, e]), (2, &[c]), (3, &[c])])
}

/// start→A, A→D b | B C, B→b, D→ε, C without production: the two readings of an item part here.
pub fn readings() -> Vec<u32> {
    let b = token(0);
    Draft::new(2, 5, &[(1, &[rule(4), b]), (1, &[rule(2), rule(3)]), (2, &[b]), (4, &[])]).block()
}
