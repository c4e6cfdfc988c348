//! A whole run: refusals 1 to 7 and 13, then steps until an answer, a refusal or the limit.

use grammar::{refusal, Words, MOST_INPUT, MOST_STATES, MOST_STEPS};

use crate::step::{step, Run, Step};

/// Lent tables: any words.
#[derive(Clone, Copy)]
pub struct Tables<'a> {
    pub states: u64,
    pub actions: &'a [u32],
    pub gotos: &'a [u32],
}

/// How a run ended.
#[derive(Clone, Copy, Debug, PartialEq)]
pub enum Answer {
    Accept,
    /// With the place of the lookahead.
    Reject(usize),
    /// 1 to 7, 14 to 17.
    Refused(u64),
    /// 13, with the first place.
    BadToken(usize),
}

/// The answer, and how the run then stands; nothing stands where it never began.
#[derive(Clone, Copy, Debug, PartialEq)]
pub struct Ended {
    pub answer: Answer,
    pub run: Run,
}

/// Runs the machine on `input`, with the lent stack and output.
pub fn run(block: &[u32], tables: Tables, input: &[u32], limit: u64, stack: &mut [u32], output: &mut [u32]) -> Ended {
    if let Some(number) = refusal(block) {
        return Ended { answer: Answer::Refused(number as u64), run: Run::NONE };
    }
    let w = Words(block);
    if room_short(w, tables, input, limit, stack) {
        return Ended { answer: Answer::Refused(7), run: Run::NONE };
    }
    if let Some(place) = input.iter().position(|&t| bad_token(w, t)) {
        return Ended { answer: Answer::BadToken(place), run: Run::NONE };
    }
    // The stack starts with state 0, and its slots above the height are zero.
    stack.fill(0);
    let mut run = Run { at: 0, reductions: 0, steps: 0, height: 1 };
    while run.steps < limit {
        match step(w, tables, input, run, stack, output) {
            Step::On(next) => run = next,
            Step::End(answer, last) => return Ended { answer, run: last },
        }
    }
    Ended { answer: Answer::Refused(16), run }
}

fn room_short(w: Words, tables: Tables, input: &[u32], limit: u64, stack: &[u32]) -> bool {
    !(1..=MOST_STATES).contains(&tables.states)
        || (tables.actions.len() as u64) < tables.states * w.tokens() as u64
        || (tables.gotos.len() as u64) < tables.states * w.rules() as u64
        || input.len() > MOST_INPUT
        || limit > MOST_STEPS
        || stack.is_empty()
}

fn bad_token(w: Words, token: u32) -> bool {
    token as usize >= w.tokens() || token as usize == w.end()
}
