//! The crate's `core_reduces` keeps one production for each rule and length; document 01 marks every production reduced in
//! a state's cells. They agree, because two complete items of one rule and one length in one state have equal bodies and
//! equal contexts, so that the smaller production stands in every cell that they share.

use std::collections::BTreeSet;

use generate::{all, nearby, Draft, Prng};
use grammar::Grammar;
use trimmed::{build, pager_stategraph, Action, Limits, StateTable};

/// Grammars with productions that stand there twice among them.
fn grammars() -> impl Iterator<Item = Draft> {
    let mut rng = Prng::new(12_000);
    all(500, 200).flat_map(move |mut draft| {
        let p = draft.prods[rng.below(draft.prods.len())].clone();
        if p.0 != draft.prods[draft.start as usize].0 {
            draft.prods.push(p);
        }
        [nearby(&mut rng, &draft), draft]
    })
}

#[test]
fn core_reduces_are_the_productions_in_the_cells() {
    let (mut states, mut several) = (0, 0);
    for draft in grammars() {
        let block = draft.block();
        let grm = Grammar::new(&block).unwrap();
        let Ok(built) = build(&block, Limits::MOST) else { continue };
        for s in built.graph.iter_stidxs() {
            let cells = &built.table.actions[s * grm.tokens_len()..(s + 1) * grm.tokens_len()];
            let reduced: BTreeSet<usize> = cells.iter().filter_map(|&w| reduced(w)).collect();
            let marked: BTreeSet<usize> =
                (0..grm.prods_len()).filter(|p| built.table.core_reduces.has(s * grm.prods_len() + p)).collect();
            assert_eq!(marked, reduced, "state {s} of {draft:?}");
            let other = cells.iter().any(|w| w % 2 == 1);
            assert_eq!(built.table.reduce_states.has(s), reduced.len() == 1 && !other, "state {s} of {draft:?}");
            states += 1;
            several += (reduced.len() > 1) as usize;
        }
    }
    println!("{states} states, {several} with several productions");
    assert!(states > 50_000 && several > 500);
}

fn reduced(word: usize) -> Option<usize> {
    match StateTable::decode(word) {
        Action::Reduce(p) => Some(p),
        _ => None,
    }
}

#[test]
fn one_rule_and_length_means_one_body_and_context() {
    let mut pairs = 0;
    for draft in grammars() {
        let grm = Grammar::new(&draft.block()).unwrap();
        for closed in pager_stategraph(&grm).iter_closed_states() {
            let complete: Vec<_> = closed.items.iter().filter(|((p, d), _)| *d == grm.prod_len(*p)).collect();
            for (i, ((p, d), ctx)) in complete.iter().enumerate() {
                for ((q, e), other) in &complete[..i] {
                    if d == e && grm.prod_to_rule(*p) == grm.prod_to_rule(*q) {
                        assert_eq!(grm.prod(*p), grm.prod(*q), "{draft:?}");
                        assert_eq!(ctx, other, "{draft:?}");
                        pairs += 1;
                    }
                }
            }
        }
    }
    println!("{pairs} pairs");
    assert!(pairs > 1_000);
}
