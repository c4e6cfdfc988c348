//! Inputs for tables: token by token, rather those that the machine can shift.
use generate::Prng;
use grammar::Words;
use machine::{run, Answer, Tables};

/// Most of the inputs go on for as long as a few tries find a token, and may stop where the machine accepts.
pub fn input(rng: &mut Prng, block: &[u32], tables: Tables) -> Vec<u32> {
    let w = Words(block);
    let tokens: Vec<u32> = (0..w.tokens() as u32).filter(|&t| t as usize != w.end()).collect();
    let most = if tokens.is_empty() { 0 } else { rng.pick(&[2, 6, 14, 30]) };
    if rng.percent(15) {
        return (0..most.min(8)).map(|_| rng.pick(&tokens)).collect();
    }
    let (mut input, stop) = (Vec::new(), rng.pick(&[10, 40]));
    let (mut stack, mut output) = ([0; 100], [0; 300]);
    let mut tries = 0;
    while input.len() < most && tries < 60 {
        tries += 1;
        input.push(rng.pick(&tokens));
        match run(block, tables, &input, 300, &mut stack, &mut output).answer {
            Answer::Accept if rng.percent(stop) => return input,
            Answer::Reject(place) if place + 1 == input.len() => drop(input.pop()),
            Answer::Accept | Answer::Reject(_) => (),
            _ => break,
        }
    }
    input
}
