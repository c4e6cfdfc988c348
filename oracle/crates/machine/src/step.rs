//! One step: one shift, one reduce with its goto, one accept or one error.

use grammar::Words;

use crate::run::{Answer, Tables};

/// Tokens shifted, reductions, steps and the stack's height.
#[derive(Clone, Copy, Debug, PartialEq)]
pub struct Run {
    pub at: usize,
    pub reductions: usize,
    pub steps: u64,
    pub height: usize,
}

impl Run {
    /// A run that never began.
    pub const NONE: Run = Run { at: 0, reductions: 0, steps: 0, height: 0 };
}

pub enum Step {
    On(Run),
    End(Answer, Run),
}

/// A refused step leaves the run, the stack and the output as they stood.
pub fn step(w: Words, tables: Tables, input: &[u32], run: Run, stack: &mut [u32], output: &mut [u32]) -> Step {
    let token = input.get(run.at).map_or(w.end(), |&t| t as usize);
    let state = stack[run.height - 1] as usize;
    let cell = tables.actions[state * w.tokens() + token];
    let value = (cell >> 2) as usize;
    let done = Run { steps: run.steps + 1, ..run };
    match cell & 3 {
        1 => shift(w, tables, token, value, run, stack),
        2 => reduce(w, tables, value, run, stack, output),
        3 if token == w.end() => Step::End(Answer::Accept, done),
        3 => Step::End(Answer::Refused(17), run),
        _ => Step::End(Answer::Reject(run.at), done),
    }
}

/// Checks: table, then stack room.
fn shift(w: Words, tables: Tables, token: usize, to: usize, run: Run, stack: &mut [u32]) -> Step {
    if to as u64 >= tables.states || token == w.end() {
        return Step::End(Answer::Refused(17), run);
    }
    if run.height >= stack.len() {
        return Step::End(Answer::Refused(14), run);
    }
    stack[run.height] = to as u32;
    Step::On(Run { at: run.at + 1, steps: run.steps + 1, height: run.height + 1, ..run })
}

/// Checks: production, stack depth, goto, output room, stack room.
fn reduce(w: Words, tables: Tables, p: usize, run: Run, stack: &mut [u32], output: &mut [u32]) -> Step {
    if p >= w.prods() || p == w.start() {
        return Step::End(Answer::Refused(17), run);
    }
    let length = w.length(p);
    if run.height - 1 < length {
        return Step::End(Answer::Refused(17), run);
    }
    let height = run.height - length;
    let below = stack[height - 1] as usize;
    let goto = tables.gotos[below * w.rules() + w.rule(p)];
    if goto == 0 || goto as u64 > tables.states {
        return Step::End(Answer::Refused(17), run);
    }
    if run.reductions >= output.len() {
        return Step::End(Answer::Refused(15), run);
    }
    if height >= stack.len() {
        return Step::End(Answer::Refused(14), run);
    }
    output[run.reductions] = p as u32;
    stack[height..run.height].fill(0);
    stack[height] = goto - 1;
    Step::On(Run { reductions: run.reductions + 1, steps: run.steps + 1, height: height + 1, ..run })
}
