//! Document 01's sample grammars, to the word.

use generate::samples::{cycle, cycle_start_last, g1, g2, not_lalr};
use grammar::{refusal, Grammar};
use machine::{run, Answer, Ended, Run, Tables};
use trimmed::{build, build_in, Built, GraphRoom, Limits, Refused, TableRoom};

fn built(block: &[u32]) -> Built {
    build(block, Limits::MOST).expect("the sample builds")
}

fn rooms(block: &[u32]) -> (GraphRoom, TableRoom) {
    let b = built(block);
    let grm = Grammar::new(block).unwrap();
    (GraphRoom::of(&grm, &b.graph), TableRoom::of(&grm, &b))
}

#[test]
fn g1_tables() {
    let b = built(&g1());
    let (graph, table) = rooms(&g1());
    assert_eq!(b.graph.all_states_len(), 3);
    assert_eq!(table.actions, [9, 0, 0, 3, 0, 6]);
    assert_eq!(table.gotos, [0, 2, 0, 0, 0, 0]);
    assert!(table.reduce_reduce.is_empty() && table.shift_reduce.is_empty());
    assert_eq!(graph.spans, [0, 1, 1, 1, 2, 1]);
    assert_eq!(graph.edges, [0, 2, 3, 0, 0, 0, 0, 0, 0, 0, 0, 0]);
    assert_eq!(graph.items, [0, 2, 0, 0, 0, 1, 2, 0, 0, 0, 129, 2, 0, 0, 0]);
    assert_eq!(table.offered, [1, 0, 0, 1, 0, 1]);
    assert_eq!(table.shifts, [1, 0, 0, 0, 0, 0]);
    assert_eq!(table.core_reduces, [0, 0, 0, 0, 0, 1]);
    assert_eq!(table.reduce_only, [0, 0, 1]);
}

fn g1_run(input: &[u32], limit: u64) -> (Ended, [u32; 4], [u32; 4]) {
    let tables = Tables { states: 3, actions: &[9, 0, 0, 3, 0, 6], gotos: &[0, 2, 0, 0, 0, 0] };
    let (mut stack, mut output) = ([8; 4], [9; 4]);
    let ended = run(&g1(), tables, input, limit, &mut stack, &mut output);
    (ended, stack, output)
}

#[test]
fn g1_runs() {
    let (ended, stack, output) = g1_run(&[0], 3);
    assert_eq!(ended, Ended { answer: Answer::Accept, run: Run { at: 1, reductions: 1, steps: 3, height: 2 } });
    assert_eq!((stack, output), ([0, 1, 0, 0], [1, 9, 9, 9]));
    let (ended, stack, output) = g1_run(&[], 100);
    assert_eq!(ended, Ended { answer: Answer::Reject(0), run: Run { at: 0, reductions: 0, steps: 1, height: 1 } });
    assert_eq!((stack, output), ([0; 4], [9; 4]));
    let (ended, stack, output) = g1_run(&[1], 100);
    assert_eq!(ended, Ended { answer: Answer::BadToken(0), run: Run::NONE });
    assert_eq!((stack, output), ([8; 4], [9; 4]));
    let (ended, _, output) = g1_run(&[0], 2);
    assert_eq!(ended, Ended { answer: Answer::Refused(16), run: Run { at: 1, reductions: 1, steps: 2, height: 2 } });
    assert_eq!(output, [1, 9, 9, 9]);
}

#[test]
fn g1_refused() {
    assert_eq!(refusal(&g1()), None);
    assert_eq!(refusal(&g1()[..20]), Some(1));
    let mut large = g1();
    large[0] = 257;
    assert_eq!(refusal(&large), Some(2));
}

#[test]
fn g1_state_room() {
    let named = |states| Limits { states, ..Limits::MOST };
    assert_eq!(build(&g1(), named(3)).unwrap().graph.all_states_len(), 3);
    assert_eq!(build(&g1(), named(2)).unwrap_err(), Refused::plain(8));
    let items = |items| Limits { items, ..Limits::MOST };
    assert!(build(&g1(), items(3)).is_ok());
    assert_eq!(build(&g1(), items(2)).unwrap_err(), Refused::plain(9));
}

/// Cell (4, minus), the shift/reduce records, the precedence count and the offered mark.
fn g2_cell(minus: u32, prod: u32) -> (u64, Vec<u64>, usize, u64) {
    let block = g2(minus, prod);
    let b = built(&block);
    assert_eq!(b.graph.all_states_len(), 5);
    let (_, table) = rooms(&block);
    assert!(table.reduce_reduce.is_empty());
    (table.actions[4 * 3], table.shift_reduce, b.table.settled, table.offered[4 * 3])
}

#[test]
fn g2_cells() {
    assert_eq!(g2_cell(0, 0), (13, vec![0, 1, 4], 0, 1));
    assert_eq!(g2_cell(5, 5), (6, vec![], 1, 1));
    assert_eq!(g2_cell(6, 6), (13, vec![], 1, 1));
    assert_eq!(g2_cell(7, 7), (0, vec![], 1, 1));
    assert_eq!(build(&g2(5, 6), Limits::MOST).unwrap_err(), Refused { number: 12, values: [0, 1, 4] });
}

#[test]
fn accept_reduce() {
    assert_eq!(build(&cycle(), Limits::MOST).unwrap_err(), Refused { number: 11, values: [0, 0, 1] });
    assert_eq!(build(&cycle_start_last(), Limits::MOST).unwrap_err(), Refused { number: 11, values: [1, 0, 2] });
}

#[test]
fn not_lalr_has_fourteen_states() {
    let b = built(&not_lalr().block());
    assert_eq!(b.graph.all_states_len(), 14);
    assert!(b.table.conflicts.reduce_reduce.is_empty() && b.table.conflicts.shift_reduce.is_empty());
    assert_eq!(b.table.settled, 0);
}

/// The named part is zero after 8, whole buffers are untouched after 7, and words behind stay after success.
#[test]
fn lent_buffers() {
    let limits = Limits { states: 3, items: 3, reduce_reduce: 0, shift_reduce: 0 };
    let sizes = [15, 6, 12, 6, 6, 6, 6, 6, 3, 0, 0];
    let fresh = || sizes.map(|n| vec![7u64; n + 1]).to_vec();
    let mut lent = fresh();
    assert_eq!(build_in(&g1(), limits, &mut lent), Ok([3, 3, 3, 0, 0, 0]));
    assert!(lent.iter().all(|b| b.last() == Some(&7)));
    let mut lent = fresh();
    lent[5].truncate(5);
    let before = lent.clone();
    assert_eq!(build_in(&g1(), limits, &mut lent), Err(Refused::plain(7)));
    assert_eq!(lent, before);
    let mut lent = fresh();
    assert_eq!(build_in(&g1(), Limits { states: 2, ..limits }, &mut lent), Err(Refused::plain(8)));
    assert_eq!(lent[0], [vec![0; 15], vec![7]].concat());
    assert_eq!(lent[1], [0, 0, 0, 0, 7, 7, 7]);
}
