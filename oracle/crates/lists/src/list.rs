//! The nine lists, their lines and their text.

use crate::calls;
use crate::reader::Reader;

#[derive(Clone, Copy, Debug, Eq, PartialEq)]
pub enum List {
    Blocks,
    Bodies,
    Firsts,
    Closures,
    Graphs,
    Tables,
    Queries,
    Refusals,
    Runs,
}

pub const LISTS: [List; 9] = [
    List::Blocks,
    List::Bodies,
    List::Firsts,
    List::Closures,
    List::Graphs,
    List::Tables,
    List::Queries,
    List::Refusals,
    List::Runs,
];

impl List {
    pub fn file(self) -> &'static str {
        match self {
            List::Blocks => "blocks.txt",
            List::Bodies => "bodies.txt",
            List::Firsts => "firsts.txt",
            List::Closures => "closures.txt",
            List::Graphs => "graphs.txt",
            List::Tables => "tables.txt",
            List::Queries => "queries.txt",
            List::Refusals => "refusals.txt",
            List::Runs => "runs.txt",
        }
    }

    /// Reads a case's inputs and gives every expected number.
    fn answer(self, inputs: &mut Reader) -> Vec<u64> {
        match self {
            List::Blocks => calls::block::answer(inputs),
            List::Bodies => calls::body::answer(inputs),
            List::Firsts => calls::firsts::answer(inputs),
            List::Closures => calls::closure::answer(inputs),
            List::Graphs => calls::graph::answer(inputs),
            List::Tables => calls::table::answer(inputs),
            List::Queries => calls::query::answer(inputs),
            List::Runs => calls::run::answer(inputs),
            List::Refusals => Self::call(inputs.number()).answer(inputs),
        }
    }

    /// The list whose lines a line of the refusals is like.
    fn call(number: u64) -> List {
        [List::Blocks, List::Bodies, List::Graphs, List::Tables, List::Queries, List::Runs][number as usize]
    }

    /// The number that says so.
    pub fn call_number(self) -> u64 {
        (0..6).find(|&n| Self::call(n) == self).expect("a list of calls that refuse")
    }
}

/// The numbers of a line from the inputs of a case, without the count in front.
pub fn line_of(list: List, inputs: &[u64]) -> Vec<u64> {
    let mut reader = Reader::new(inputs);
    let expected = list.answer(&mut reader);
    assert_eq!(reader.so_far().len(), inputs.len(), "inputs left over");
    [inputs, &expected].concat()
}

/// Whether a line says what this oracle says.
pub fn replay(list: List, line: &[u64]) -> bool {
    let mut reader = Reader::new(line);
    let expected = list.answer(&mut reader);
    line[reader.so_far().len()..] == expected
}

pub fn text_of(line: &[u64]) -> String {
    let mut text = line.len().to_string();
    for number in line {
        text.push(' ');
        text.push_str(&number.to_string());
    }
    text.push('\n');
    text
}

/// The numbers of a line of text, behind its count.
pub fn numbers_of(text: &str) -> Vec<u64> {
    let numbers: Vec<u64> = text.split(' ').map(|n| n.parse().expect("a number")).collect();
    assert_eq!(numbers[0] as usize, numbers.len() - 1, "the count of a line");
    numbers[1..].to_vec()
}
