//! Files of decimal words: blocks, tokens, tables.
use crate::Fault;
use std::{fs, io::Read};
use timkerzal::{Block, Built};

/// A file as text; - is standard input.
pub fn read_text(path: &str) -> Result<String, Fault> {
    let mut text = String::new();
    let read = match path {
        "-" => std::io::stdin().read_to_string(&mut text).map(|_| ()),
        _ => fs::read_to_string(path).map(|read| text = read),
    };
    read.map(|()| text).map_err(|fault| format!("{path}: {fault}"))
}

/// The decimal words of a file.
pub fn read_words(path: &str) -> Result<Vec<u32>, Fault> {
    words_of(path, &read_text(path)?)
}

fn words_of(path: &str, text: &str) -> Result<Vec<u32>, Fault> {
    let number = |(i, word): (usize, &str)| {
        let digits = word.bytes().all(|b| b.is_ascii_digit());
        let value = word.parse().ok().filter(|_| digits);
        value.ok_or_else(|| format!("{path}: word {i} is '{word}', no decimal number below 2^32"))
    };
    text.split_ascii_whitespace().enumerate().map(number).collect()
}

/// Tables as the machine is lent them.
pub struct Tables {
    pub states: usize,
    pub actions: Vec<u32>,
    pub gotos: Vec<u32>,
}

/// States, tokens and rules; a line of actions for each state; a line of gotos for each state.
pub fn write_tables(path: &str, block: &Block, built: &Built) -> Result<(), Fault> {
    let z = block.sizes();
    let mut text = format!("{} {} {}\n", built.counts.states, z.tokens, z.rules);
    for row in built.action_rows().chunks(z.tokens).chain(built.goto_rows().chunks(z.rules)) {
        let row: Vec<String> = row.iter().map(u32::to_string).collect();
        text += &format!("{}\n", row.join(" "));
    }
    fs::write(path, text).map_err(|fault| format!("{path}: {fault}"))
}

/// What `write_tables` wrote, for the same block's sizes.
pub fn read_tables(path: &str, block: &Block) -> Result<Tables, Fault> {
    let words = read_words(path)?;
    let z = block.sizes();
    let [states, tokens, rules, rest @ ..] = words.as_slice() else {
        return Err(format!("{path}: tables begin with the numbers of states, tokens and rules"));
    };
    if (*tokens as usize, *rules as usize) != (z.tokens, z.rules) {
        return Err(format!(
            "{path}: tables of {tokens} tokens and {rules} rules; the block has {} and {}",
            z.tokens, z.rules
        ));
    }
    let states = *states as usize;
    let need = states * (z.tokens + z.rules);
    if rest.len() != need {
        return Err(format!("{path}: {} words of tables; {states} states need {need}", rest.len()));
    }
    let (actions, gotos) = rest.split_at(states * z.tokens);
    Ok(Tables { states, actions: actions.to_vec(), gotos: gotos.to_vec() })
}
