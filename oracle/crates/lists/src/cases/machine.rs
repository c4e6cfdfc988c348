//! Runs of the machine: real tables with limits exact and one short, damaged tables, and every refusal.

use generate::{samples, token, Draft, Prng};
use grammar::Words;
use machine::{run, Answer, Tables};
use trimmed::{build, Limits};

use super::pool;
use crate::calls::run::{inputs, Case};

pub fn runs() -> Vec<Vec<u64>> {
    let mut rng = Prng::new(11_000);
    let mut all = g1_runs();
    for k in pool::named().into_iter().chain(pool::chosen(1, 420)) {
        let Some(base) = of_build(&k.block) else { continue };
        for input in some_inputs(&mut rng, &base) {
            all.extend(limits(&mut rng, &Case { input, ..base.clone() }));
        }
        for _ in 0..6 {
            all.push(damaged(&mut rng, &base));
        }
    }
    all.extend(long_bodies());
    all.iter().map(inputs).collect()
}

/// Bodies of 5 and of 64 tokens: exactly the room, and one short.
fn long_bodies() -> Vec<Case> {
    let mut all = Vec::new();
    for length in [5, 64] {
        let block = Draft::new(2, 2, &[(1, &vec![token(0); length])]).block();
        let base = of_build(&block).expect("it builds");
        let case = |tokens, stack, limit| Case { input: vec![0; tokens], stack, output: 1, limit, ..base.clone() };
        let steps = length as u64 + 2;
        all.extend([case(length, length + 1, steps), case(length, length, steps), case(length, length + 1, steps - 1)]);
        all.extend([case(length - 1, length + 1, steps), case(length + 1, length + 2, steps + 1)]);
    }
    all
}

/// The tables of a build as a case with much room.
pub fn of_build(block: &[u32]) -> Option<Case> {
    let built = build(block, Limits::MOST).ok()?;
    Some(Case {
        block: block.to_vec(),
        states: built.graph.all_states_len() as u64,
        actions: built.table.actions.iter().map(|&w| w as u32).collect(),
        gotos: built.table.gotos.iter().map(|&w| w as u32).collect(),
        input: Vec::new(),
        limit: 60,
        fill: 9,
        stack: 12,
        output: 12,
    })
}

fn answer(case: &Case) -> (Answer, machine::Run) {
    let tables = Tables { states: case.states, actions: &case.actions, gotos: &case.gotos };
    let (mut stack, mut output) = (vec![0; case.stack], vec![0; case.output]);
    let ended = run(&case.block, tables, &case.input, case.limit, &mut stack, &mut output);
    (ended.answer, ended.run)
}

/// A few strings, accepted ones rather than others.
fn some_inputs(rng: &mut Prng, base: &Case) -> Vec<Vec<u32>> {
    let w = Words(&base.block);
    let tokens: Vec<u32> = (0..w.tokens() as u32).filter(|&t| t as usize != w.end()).collect();
    let mut found = Vec::new();
    let mut others = vec![Vec::new()];
    for _ in 0..300 {
        let length = if tokens.is_empty() { 0 } else { rng.below(6) };
        let input: Vec<u32> = (0..length).map(|_| rng.pick(&tokens)).collect();
        let case = Case { input: input.clone(), ..base.clone() };
        let list = if answer(&case).0 == Answer::Accept { &mut found } else { &mut others };
        if !list.contains(&input) {
            list.push(input);
        }
    }
    found.truncate(2);
    let other = rng.below(others.len());
    found.push(others.swap_remove(other));
    found
}

/// Exactly the steps, stack and output that a run needs, each one short, and a cut somewhere.
fn limits(rng: &mut Prng, case: &Case) -> Vec<Case> {
    let (_, end) = answer(case);
    let stack = (1..=case.stack).find(|&stack| answer(&Case { stack, ..case.clone() }) == answer(case));
    let exact = Case { limit: end.steps, stack: stack.unwrap_or(case.stack), output: end.reductions, ..case.clone() };
    let fill = rng.pick(&[9, 1, u32::MAX]);
    let mut all = vec![Case { stack: exact.stack + 2, output: exact.output + 2, fill, ..exact.clone() }, exact.clone()];
    all.push(Case { limit: exact.limit.saturating_sub(1), ..exact.clone() });
    all.push(Case { stack: exact.stack.max(2) - 1, ..exact.clone() });
    all.push(Case { output: exact.output.saturating_sub(1), ..exact.clone() });
    all.push(Case { limit: rng.below(exact.limit as usize + 1) as u64, fill, ..exact.clone() });
    // Output room is looked at before stack room.
    all.push(Case { output: exact.output.saturating_sub(1), stack: exact.stack.max(2) - 1, ..exact });
    all
}

/// One or two words of the tables changed to any word that means something.
fn damaged(rng: &mut Prng, base: &Case) -> Case {
    let w = Words(&base.block);
    let mut case = base.clone();
    case.input = some_inputs(rng, base).swap_remove(0);
    let (states, prods, start) = (base.states as u32, w.prods() as u32, w.start() as u32);
    for _ in 0..rng.between(1, 2) {
        let actions = [
            0,
            1,
            3,
            4,
            7,
            4 * states + 1,
            4 * (states - 1) + 1,
            4 * prods + 2,
            4 * start + 2,
            u32::MAX,
            u32::MAX - 1,
            u32::MAX - 2,
            u32::MAX - 3,
        ];
        let any_reduce = 4 * rng.below(prods as usize) as u32 + 2;
        let any_shift = 4 * rng.below(states as usize) as u32 + 1;
        let i = rng.below(case.actions.len());
        case.actions[i] = if rng.percent(50) { rng.pick(&actions) } else { rng.pick(&[any_reduce, any_shift]) };
        if rng.percent(40) {
            let i = rng.below(case.gotos.len());
            case.gotos[i] = rng.pick(&[0, 1, states, states + 1, u32::MAX]);
        }
    }
    if rng.percent(30) {
        case.states = rng.between(1, states as usize) as u64;
    }
    Case { limit: rng.between(0, 25) as u64, stack: rng.between(1, 8), output: rng.between(0, 8), ..case }
}

/// Document 01's runs of G1, at every limit.
fn g1_runs() -> Vec<Case> {
    let base = of_build(&samples::g1()).expect("G1 builds");
    let mut all = Vec::new();
    for input in [vec![0], vec![], vec![0, 0], vec![1], vec![0, 1], vec![0, 2], vec![u32::MAX, 1]] {
        for limit in 0..=4 {
            all.push(Case { input: input.clone(), limit, stack: 3, output: 2, ..base.clone() });
        }
    }
    all
}
