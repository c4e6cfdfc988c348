//! The machine on tables of whatever words.
use crate::{lent, Refusal, STEPS};
use std::fmt;

/// Step limit, stack slots, and output words.
#[derive(Clone, Copy, Debug, PartialEq, Eq)]
pub struct RunRooms {
    pub steps: usize,
    pub stack: usize,
    pub output: usize,
}

impl RunRooms {
    pub const MOST: RunRooms = RunRooms { steps: STEPS, stack: STEPS + 1, output: STEPS };
}

/// How a run stood at its end: the place of the lookahead, the reductions in order, steps, and the stack.
#[derive(Clone, Debug, PartialEq, Eq)]
pub struct Run {
    pub at: usize,
    pub reductions: Vec<u32>,
    pub steps: usize,
    pub stack: Vec<u32>,
}

#[derive(Clone, Debug, PartialEq, Eq)]
pub enum Ended {
    Accept(Run),
    Reject(Run),
}

/// Why a run has no answer.
#[derive(Clone, Debug, PartialEq, Eq)]
pub enum Stopped {
    /// 1 to 7
    Refused(Refusal),
    /// 13, and the first place
    BadToken(usize),
    /// 14 to 17, and the run as it stood
    Midway(Refusal, Run),
}

impl Stopped {
    pub fn refusal(&self) -> Refusal {
        match self {
            Stopped::Refused(refusal) | Stopped::Midway(refusal, _) => *refusal,
            Stopped::BadToken(_) => Refusal::BadToken,
        }
    }
}

impl fmt::Display for Stopped {
    fn fmt(&self, f: &mut fmt::Formatter) -> fmt::Result {
        write!(f, "{}", self.refusal())?;
        match self {
            Stopped::Refused(_) => Ok(()),
            Stopped::BadToken(place) => write!(f, ": the token at place {place}"),
            Stopped::Midway(_, run) => {
                let (at, k, steps, height) = (run.at, run.reductions.len(), run.steps, run.stack.len());
                write!(
                    f,
                    ": at place {at} after {steps} steps, {k} of them reductions; the stack holds {height} states"
                )
            }
        }
    }
}

impl std::error::Error for Stopped {}

/// The machine on tables of `states` states. Stack and output room past what the most steps can fill is not made.
pub fn run(
    block: &[u32],
    states: usize,
    actions: &[u32],
    gotos: &[u32],
    input: &[u32],
    rooms: RunRooms,
) -> Result<Ended, Stopped> {
    let mut stack = vec![0; rooms.stack.min(RunRooms::MOST.stack)];
    let mut output = vec![0; rooms.output.min(RunRooms::MOST.output)];
    let answer = lent::run(block, states, actions, gotos, input, rooms.steps, &mut stack, &mut output);
    let [number, accepted, at, k, steps, height] = answer.map(|n| n as usize);
    output.truncate(k);
    stack.truncate(height);
    let run = Run { at, reductions: output, steps, stack };
    match Refusal::of(number as u64) {
        None if accepted == 1 => Ok(Ended::Accept(run)),
        None => Ok(Ended::Reject(run)),
        Some(Refusal::BadToken) => Err(Stopped::BadToken(at)),
        Some(refusal) if refusal.number() < 13 => Err(Stopped::Refused(refusal)),
        Some(refusal) => Err(Stopped::Midway(refusal, run)),
    }
}
