//! Whether a list of reductions is a rightmost derivation backwards of a string: applied to forms, not to a stack.

use grammar::{Grammar, Symbol};

/// From the start symbol, the last reduction first, each to the rightmost rule of the form.
pub fn is_derivation(grm: &Grammar, reductions: &[u32], word: &[u32]) -> bool {
    let mut form = grm.prod(grm.start_prod()).to_vec();
    for &p in reductions.iter().rev() {
        let Some(at) = form.iter().rposition(|s| matches!(s, Symbol::Rule(_))) else { return false };
        if form[at] != Symbol::Rule(grm.prod_to_rule(p as usize)) {
            return false;
        }
        form.splice(at..at + 1, grm.prod(p as usize).iter().copied());
    }
    form.len() == word.len() && form.iter().zip(word).all(|(s, &t)| *s == Symbol::Token(t as usize))
}
