//! The smallest grammars, in words of their block, where the two readings of canonical LR(1) part.

use canonical::{conflicts, Automaton, Found, Reading};
use checks::{parting, shown, smallest, Parting};
use generate::{all, rule, samples, tiny, token, Draft, Tiny};
use grammar::{Grammar, Symbol};

/// Every grammar of fewer than `words` words, at most 26, with up to three rules besides the start rule.
fn below(words: usize) -> impl Iterator<Item = Draft> {
    let sizes = (1..=3).flat_map(|rules| {
        [
            Tiny { tokens: 0, rules, prods: 1, length: 6 },
            Tiny { tokens: 0, rules, prods: 2, length: 2 },
            Tiny { tokens: 1, rules, prods: 1, length: 5 },
            Tiny { tokens: 1, rules, prods: 2, length: 1 },
            Tiny { tokens: 2, rules, prods: 1, length: 4 },
            Tiny { tokens: 2, rules, prods: 2, length: 0 },
            Tiny { tokens: 3, rules, prods: 1, length: 3 },
        ]
    });
    sizes.flat_map(tiny).filter(move |d| d.block().len() < words)
}

fn found(block: &[u32], reading: Reading) -> Found {
    let grm = Grammar::new(block).unwrap();
    conflicts(&grm, &Automaton::new(&grm, reading, 100).unwrap())
}

/// start→A, A→A A A: 22 words.
#[test]
fn smallest_other_automaton() {
    let block = Draft::new(1, 2, &[(1, &[rule(1), rule(1), rule(1)])]).block();
    assert_eq!(parting(&block), Parting::Automaton);
    let least = smallest(below(26), Parting::Automaton).unwrap();
    println!("{} words: {}", least.len(), shown(&least));
    assert_eq!(least, block);
}

/// start→A, A→A A a A A: 25 words.
#[test]
fn smallest_other_conflict() {
    let a = rule(1);
    let block = Draft::new(2, 2, &[(1, &[a, a, token(0), a, a])]).block();
    assert_eq!(parting(&block), Parting::Conflict);
    assert!(found(&block, Reading::Maps).shift_reduce > 0 && !found(&block, Reading::Triples).any());
    assert_eq!(smallest(below(26), Parting::Conflict), Some(block));
}

/// The smallest with two rules: start→A, A→B A, B→A a. By maps the state behind B A reduces at a and shifts it.
#[test]
fn two_rules_other_conflict() {
    let block = Draft::new(2, 3, &[(1, &[rule(2), rule(1)]), (2, &[rule(1), token(0)])]).block();
    assert_eq!(parting(&block), Parting::Conflict);
    assert!(found(&block, Reading::Maps).shift_reduce > 0 && !found(&block, Reading::Triples).any());
}

/// The grammar of the samples, which has token strings: start→A, A→D b | B C, B→b, D→ε, C without production.
#[test]
fn readings_part_on_a_grammar_with_strings() {
    let block = samples::readings();
    assert_eq!(parting(&block), Parting::Conflict);
    assert_eq!(found(&block, Reading::Maps).shift_reduce, 1);
    assert!(!found(&block, Reading::Triples).any());
}

/// Each grammar on which they part is printed, and has a rule that yields no token string.
#[test]
fn readings_part_only_where_a_rule_yields_nothing() {
    let mut counts = [0; 3];
    for draft in all(200, 100) {
        let block = draft.block();
        let parts = parting(&block);
        counts[parts as usize] += 1;
        if parts != Parting::None {
            println!("{parts:?}: {}", shown(&block));
            assert!(!all_yield(&Grammar::new(&block).unwrap()), "{}", shown(&block));
        }
    }
    println!("{counts:?}");
    assert!(counts[0] > 5_000 && counts[1] > 100 && counts[2] > 10);
}

/// Whether every rule yields a token string.
fn all_yield(grm: &Grammar) -> bool {
    let mut yields = vec![false; grm.rules_len()];
    for _ in 0..grm.rules_len() {
        for p in 0..grm.prods_len() {
            let body = grm.prod(p);
            if body.iter().all(|s| matches!(s, Symbol::Token(_)) || matches!(s, Symbol::Rule(r) if yields[*r])) {
                yields[grm.prod_to_rule(p)] = true;
            }
        }
    }
    yields.iter().all(|&y| y)
}
