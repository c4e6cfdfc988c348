//! Runs of the machine on tables as built and damaged: answer, whole stack, whole output.
use generate::Prng;
use grammar::Words;
use machine::{Answer, Tables};
use trimmed::{build, Limits};

use crate::sentences::input;
use crate::{Counts, Difference, Grammars};

const BUILT: &str = "runs on built tables";

#[derive(Clone, Debug)]
pub struct Run {
    pub block: Vec<u32>,
    pub states: u64,
    pub actions: Vec<u32>,
    pub gotos: Vec<u32>,
    pub input: Vec<u32>,
    pub limit: u64,
    pub stack: usize,
    pub output: usize,
}

impl Run {
    fn tables(&self) -> Tables<'_> {
        Tables { states: self.states, actions: &self.actions, gotos: &self.gotos }
    }
}

pub fn runs(rng: &mut Prng, grammars: &Grammars, counts: &mut Counts) -> Result<(), Difference> {
    let built = loop {
        let (_, block) = grammars.pick(rng);
        if let Some(run) = of_build(block) {
            break run;
        }
    };
    // Two inputs on the tables as they are, then two on damaged ones.
    for _ in 0..2 {
        let mut run = Run { input: input(rng, &built.block, built.tables()), ..built.clone() };
        bounded(rng, &mut run);
        compare(rng, &run, BUILT, counts)?;
    }
    for _ in 0..2 {
        let mut run = built.clone();
        damage(rng, &mut run);
        run.input = input(rng, &run.block, run.tables());
        bounded(rng, &mut run);
        compare(rng, &run, "runs on damaged tables", counts)?;
    }
    Ok(())
}

fn of_build(block: Vec<u32>) -> Option<Run> {
    let built = build(&block, Limits::MOST).ok()?;
    let words = |all: &[usize]| all.iter().map(|&w| w as u32).collect();
    Some(Run {
        states: built.graph.all_states_len() as u64,
        actions: words(&built.table.actions),
        gotos: words(&built.table.gotos),
        input: Vec::new(),
        limit: 400,
        stack: 100,
        output: 400,
        block,
    })
}

/// Step limit, stack and output exactly enough, one short, or any; now and then out of range, or a bad token.
fn bounded(rng: &mut Prng, run: &mut Run) {
    let (mut stack, mut output) = (vec![0; run.stack], vec![0; run.output]);
    let end = machine::run(&run.block, run.tables(), &run.input, run.limit, &mut stack, &mut output).run;
    if rng.percent(60) {
        let short = |rng: &mut Prng, n: usize| n.saturating_sub(rng.percent(20) as usize);
        run.limit = short(rng, end.steps as usize) as u64;
        run.output = short(rng, end.reductions);
        run.stack = rng.between(end.height.max(1), end.height + 4);
    } else if rng.percent(60) {
        run.limit = rng.below(end.steps as usize + 3) as u64;
        run.output = rng.below(end.reductions + 3);
        run.stack = rng.between(1, 12);
    }
    // Several at once show which refusal comes first.
    for _ in 0..rng.pick(&[1, 1, 1, 4]) {
        odd(rng, run);
    }
}

fn odd(rng: &mut Prng, run: &mut Run) {
    match rng.below(60) {
        0 => run.limit = rng.pick(&[1_000_000, 1_000_001, u64::MAX]),
        1 => run.stack = 0,
        2 => run.states = rng.pick(&[0, 4_097, run.states.wrapping_add(1), u64::MAX]),
        3 => drop(run.actions.pop()),
        4 => drop(run.gotos.pop()),
        5 => run.gotos.push(7),
        6..=8 => {
            for _ in 0..rng.between(1, 2) {
                let bad = rng.pick(&[run.block[0], run.block[4], u32::MAX]);
                run.input.insert(rng.below(run.input.len() + 1), bad);
            }
        }
        9 if rng.percent(20) => {
            let length = rng.pick(&[4_096, 4_097]);
            run.input = run.input.iter().copied().cycle().take(length).collect();
        }
        // Tables of as many states as may be, and one more.
        10 if rng.percent(5) && run.block[0] + run.block[1] <= 8 => {
            run.states = rng.pick(&[4_096, 4_097]);
            run.actions.resize(4_097 * run.block[0] as usize, 0);
            run.gotos.resize(4_097 * run.block[1] as usize, 0);
        }
        _ => (),
    }
}

/// Some words of the tables changed, rather to ones that mean something; a smaller state count.
fn damage(rng: &mut Prng, run: &mut Run) {
    let w = Words(&run.block);
    let (states, prods, start) = (run.states as u32, w.prods() as u32, w.start() as u32);
    for _ in 0..rng.pick(&[1, 2, 4, 12]) {
        let some_state = rng.below(states as usize + 2) as u32;
        let some_prod = rng.below(prods as usize + 1) as u32;
        let (a, g) = (rng.below(run.actions.len()), rng.below(run.gotos.len()));
        run.actions[a] = match rng.below(6) {
            0 => rng.draw() as u32,
            1 => rng.pick(&[0, 3, 7, 4, u32::MAX, 4 * start + 2]),
            2 | 3 => 4 * some_state + 1,
            _ => 4 * some_prod + 2,
        };
        if rng.percent(50) {
            let any = rng.draw() as u32;
            run.gotos[g] = rng.pick(&[0, some_state, states, states + 1, u32::MAX, any]);
        }
    }
    if rng.percent(20) {
        run.states = rng.between(1, states as usize) as u64;
    }
}

pub fn compare(rng: &mut Prng, run: &Run, kind: &'static str, counts: &mut Counts) -> Result<(), Difference> {
    let fill = rng.pick(&[9, 1, u32::MAX]);
    let (mut stack, mut output) = (vec![fill; run.stack], vec![fill; run.output]);
    let (mut stack_told, mut output_told) = (stack.clone(), output.clone());
    let (states, limit) = (run.states as usize, run.limit as usize);
    let answer =
        timkerzal::lent::run(&run.block, states, &run.actions, &run.gotos, &run.input, limit, &mut stack, &mut output);
    let end = machine::run(&run.block, run.tables(), &run.input, run.limit, &mut stack_told, &mut output_told);
    let (name, number, place) = match end.answer {
        Answer::Accept => ("accept".to_string(), 0, end.run.at),
        Answer::Reject(place) => ("reject".to_string(), 0, place),
        Answer::BadToken(place) => ("13".to_string(), 13, place),
        Answer::Refused(number) => (number.to_string(), number, end.run.at),
    };
    counts.add(kind, name);
    if kind == BUILT && counts.show == Some(number) {
        counts.shown.push(format!("{run:?} ended at {:?}", end.run));
    }
    let [k, height] = [end.run.reductions, end.run.height].map(|n| n as u64);
    let told = [number, u64::from(end.answer == Answer::Accept), place as u64, k, end.run.steps, height];
    if (answer, &stack, &output) == (told, &stack_told, &output_told) {
        return Ok(());
    }
    Err(format!("run, {run:?}: {answer:?} {stack:?} {output:?}, oracle's {told:?} {stack_told:?} {output_told:?}"))
}
