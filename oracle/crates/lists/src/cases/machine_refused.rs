//! Runs of the machine that are refused, one reason by one, and the ends of its ranges.

use generate::{rule, samples, token, Draft};

use super::blocks;
use super::machine::of_build;
use crate::calls::run::{inputs, Case};

/// G1 on its one string, with exactly enough of everything but a slot and a word.
fn g1() -> Case {
    Case { input: vec![0], limit: 3, stack: 3, output: 2, ..of_build(&samples::g1()).expect("G1 builds") }
}

fn with(change: fn(&mut Case)) -> Case {
    let mut case = g1();
    change(&mut case);
    case
}

/// Room, tokens and steps: refusals 1 to 7 and 13 to 16.
fn refused_cases() -> Vec<Case> {
    let mut all = vec![
        with(|c| c.states = 0),
        with(|c| c.states = 4_097),
        with(|c| c.states = 4),
        with(|c| c.actions.truncate(5)),
        with(|c| c.gotos.truncate(5)),
        with(|c| c.limit = 0),
        with(|c| c.limit = 2),
        with(|c| c.limit = 1_000_000),
        with(|c| c.limit = 1_000_001),
        with(|c| c.stack = 0),
        with(|c| (c.stack, c.input) = (0, vec![1])),
        with(|c| (c.limit, c.input) = (0, vec![0, 1, 2])),
        with(|c| (c.stack, c.output) = (1, 0)),
        with(|c| c.output = 0),
        with(|c| (c.stack, c.output) = (2, 1)),
    ];
    all.extend(blocks::refused().into_iter().map(|block| Case { block, states: 0, input: vec![9], ..g1() }));
    all.extend(damaged_words());
    all.extend(empty_reduces());
    all
}

/// Words that a table should not hold, and words behind or beyond it.
fn damaged_words() -> Vec<Case> {
    vec![
        with(|c| c.actions.extend([1, 2, 3])),
        with(|c| c.actions[0] = 13),
        with(|c| (c.actions[1], c.input) = (1, vec![])),
        with(|c| (c.actions[1], c.input, c.stack) = (1, vec![], 1)),
        with(|c| (c.actions[0], c.stack) = (13, 1)),
        with(|c| c.actions[0] = 3),
        with(|c| c.actions[5] = 2),
        with(|c| (c.actions[5], c.gotos[0]) = (2, 2)),
        with(|c| c.actions[5] = 10),
        with(|c| c.actions[0] = 6),
        with(|c| c.gotos[1] = 0),
        with(|c| c.gotos[1] = 4),
        with(|c| (c.gotos[1], c.output) = (4, 0)),
        with(|c| c.states = 1),
        with(|c| c.states = 2),
        with(|c| c.actions[3] = 4_294_967_295),
        with(|c| c.actions[3] = 4_294_967_292),
    ]
}

/// start→A, A→ε | A a: reductions of length 0 push, so output and stack room are both asked.
fn empty_reduces() -> Vec<Case> {
    let block = Draft::new(2, 2, &[(1, &[]), (1, &[rule(1), token(0)])]).block();
    let base = of_build(&block).expect("it builds");
    let case = |stack, output, limit| Case { input: vec![0, 0], stack, output, limit, ..base.clone() };
    vec![
        case(3, 3, 7),
        case(3, 3, 6),
        case(1, 3, 7),
        case(1, 0, 7),
        case(3, 0, 7),
        case(2, 3, 7),
        case(3, 2, 7),
        case(2, 2, 7),
        case(3, 1, 7),
    ]
}

/// The longest input, and one token more; the most states, and one more.
fn longest() -> Vec<Case> {
    let block = Draft::new(2, 2, &[(1, &[]), (1, &[rule(1), token(0)])]).block();
    let base = of_build(&block).expect("it builds");
    let long = |n| Case { input: vec![0; n], limit: 9_000, stack: 3, output: 4, ..base.clone() };
    let states = |n: usize| {
        let mut case = Case { states: n as u64, input: Vec::new(), limit: 2, stack: 2, output: 1, ..base.clone() };
        case.block = Draft::new(1, 2, &[(1, &[])]).block();
        case.actions = vec![0; n];
        case.gotos = vec![0; 2 * n];
        case.actions[0] = 6;
        case.gotos[1] = 4_096;
        case.actions[4_095] = 3;
        Case { limit: 3, ..case }
    };
    vec![long(4_096), long(4_097), states(4_096), states(4_097)]
}

/// The refusals as lines.
pub fn refused() -> Vec<Vec<u64>> {
    [refused_cases(), longest()].concat().iter().map(inputs).collect()
}
