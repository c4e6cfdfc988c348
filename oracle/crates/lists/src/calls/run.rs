//! block, states, actions, gotos, input, step limit, fill, stack length, output length → number, place, reductions,
//! steps, height; the whole stack; the whole output.

use machine::{run, Answer, Tables};

use crate::reader::{put32, Reader};

/// The number of a reject, beside those of the refusals.
pub const REJECT: u64 = 100;

#[derive(Clone, Debug)]
pub struct Case {
    pub block: Vec<u32>,
    pub states: u64,
    pub actions: Vec<u32>,
    pub gotos: Vec<u32>,
    pub input: Vec<u32>,
    pub limit: u64,
    pub fill: u32,
    pub stack: usize,
    pub output: usize,
}

pub fn inputs(case: &Case) -> Vec<u64> {
    let mut line = Vec::new();
    put32(&mut line, &case.block);
    line.push(case.states);
    put32(&mut line, &case.actions);
    put32(&mut line, &case.gotos);
    put32(&mut line, &case.input);
    line.extend([case.limit, case.fill as u64, case.stack as u64, case.output as u64]);
    line
}

pub fn answer(r: &mut Reader) -> Vec<u64> {
    let block = r.part32();
    let states = r.number();
    let (actions, gotos, input) = (r.part32(), r.part32(), r.part32());
    let [limit, fill, stack_len, output_len] = r.numbers();
    let mut stack = vec![fill as u32; stack_len as usize];
    let mut output = vec![fill as u32; output_len as usize];
    let tables = Tables { states, actions: &actions, gotos: &gotos };
    let ended = run(&block, tables, &input, limit, &mut stack, &mut output);
    let (number, place) = match ended.answer {
        Answer::Accept => (0, 0),
        Answer::Reject(place) => (REJECT, place as u64),
        Answer::Refused(number) => (number, 0),
        Answer::BadToken(place) => (13, place as u64),
    };
    let run = ended.run;
    let mut out = vec![number, place, run.reductions as u64, run.steps, run.height as u64];
    put32(&mut out, &stack);
    put32(&mut out, &output);
    out
}
