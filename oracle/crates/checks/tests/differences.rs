//! The smallest inputs of docs/DIFFERENCES.md, each found again by going through all smaller grammars.

use generate::{rule, tiny, token, Draft, Tiny};
use trimmed::{build, Built, Limits, Refused};

/// Every grammar of at most 27 words with at most one token and two rules besides end and start; with precedences, all
/// tokens are left and all productions right, of one level.
fn small(precedences: bool) -> Vec<Vec<u32>> {
    let sizes = [
        Tiny { tokens: 0, rules: 2, prods: 2, length: 4 },
        Tiny { tokens: 0, rules: 1, prods: 3, length: 0 },
        Tiny { tokens: 1, rules: 2, prods: 1, length: 7 },
        Tiny { tokens: 1, rules: 2, prods: 2, length: 3 },
    ];
    let mut all: Vec<Vec<u32>> = sizes.into_iter().flat_map(tiny).map(|d| mixed(d, precedences).block()).collect();
    all.retain(|b| b.len() <= 27);
    all.sort_by_key(Vec::len);
    all
}

fn mixed(mut draft: Draft, precedences: bool) -> Draft {
    if precedences {
        draft.token_precs.fill(5);
        draft.prods.iter_mut().for_each(|p| p.2 = 6);
    }
    draft
}

fn first(blocks: &[Vec<u32>], shows: impl Fn(Result<Built, Refused>) -> bool) -> Vec<u32> {
    blocks.iter().find(|b| shows(build(b, Limits::MOST))).expect("one shows it").clone()
}

#[test]
fn mixed_kinds() {
    let least = first(&small(true), |r| matches!(r, Err(Refused { number: 12, .. })));
    let block = mixed(Draft::new(2, 2, &[(1, &[rule(1), token(0), rule(1)])]), true).block();
    assert_eq!(
        (least.len(), build(&block, Limits::MOST).unwrap_err()),
        (block.len(), Refused { number: 12, values: [0, 1, 3] })
    );
    assert_eq!(block.len(), 23);
}

#[test]
fn accept_reduce() {
    let least = first(&small(false), |r| matches!(r, Err(Refused { number: 11, .. })));
    let mut draft = Draft::new(1, 2, &[(1, &[rule(1)])]);
    assert_eq!((least.len(), draft.block().len()), (20, 20));
    assert_eq!(build(&draft.block(), Limits::MOST).unwrap_err(), Refused { number: 11, values: [0, 0, 1] });
    draft.prods.swap(0, 1);
    draft.start = 1;
    assert_eq!(build(&draft.block(), Limits::MOST).unwrap_err(), Refused { number: 11, values: [1, 0, 1] });
}

/// The smallest block of all: start→A with nothing of A.
#[test]
fn rooms() {
    let block = Draft::new(1, 2, &[]).block();
    assert_eq!(block.len(), small(false)[0].len());
    let named = |states, items| build(&block, Limits { states, items, ..Limits::MOST }).map(|_| ());
    assert_eq!((named(2, 2), named(1, 2), named(2, 1)), (Ok(()), Err(Refused::plain(8)), Err(Refused::plain(9))));
    assert_eq!(named(1, 1), Err(Refused::plain(8)));
}

#[test]
fn conflict_room() {
    let recorded = |r: Result<Built, Refused>| {
        r.is_ok_and(|b| b.table.conflicts.reduce_reduce.len() + b.table.conflicts.shift_reduce.len() > 0)
    };
    let least = first(&small(false), recorded);
    let block = Draft::new(1, 2, &[(1, &[]), (1, &[])]).block();
    assert_eq!((least.len(), block.len()), (23, 23));
    let none = Limits { reduce_reduce: 0, ..Limits::MOST };
    assert_eq!(build(&block, none).unwrap_err(), Refused::plain(10));
}

/// Three reduces in one cell: both records name the smallest, whatever stood there in between.
#[test]
fn three_reduces() {
    let two_records = |r: Result<Built, Refused>| r.is_ok_and(|b| b.table.conflicts.reduce_reduce.len() > 1);
    let least = first(&small(false), two_records);
    let block = Draft::new(1, 2, &[(1, &[]), (1, &[]), (1, &[])]).block();
    assert_eq!((least.len(), block.len()), (27, 27));
    let built = build(&block, Limits::MOST).unwrap();
    assert_eq!(built.table.conflicts.reduce_reduce, [(0, 1, 2, 0), (0, 1, 3, 0)]);
}
