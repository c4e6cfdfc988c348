//! The fourteen lent buffers, filled with a pattern before a call; what the oracle says that they hold after it.
use std::hint::black_box;

use generate::Prng;
use grammar::Words;
use timkerzal::lent::{self, GraphOut, TableOut, Work};
use timkerzal::Rooms;
use trimmed::{build_graph_in, build_in, GraphRoom, Limits, Refused, TableRoom};

pub const BUFFERS: usize = 14;
/// Those of the graph and of the tables; the others are work room.
const OUTPUTS: usize = 11;
const GRAPH: usize = 3;

/// The words that a good block and limits in range need: outputs, then marks, closed and kernel.
pub fn lengths(block: &[u32], limits: Limits) -> [usize; BUFFERS] {
    let w = Words(block);
    let graph = GraphRoom::needs(w, limits.states, limits.items);
    let tables = TableRoom::needs(w, limits);
    let all = graph.into_iter().chain(tables).chain(work(block, limits.states));
    all.map(|n| n as usize).collect::<Vec<_>>().try_into().expect("fourteen")
}

fn work(block: &[u32], states: u64) -> [u64; 3] {
    let w = Words(block);
    [2 * states, 5 * (w.symbols() + w.prods()) as u64, 5 * w.symbols() as u64]
}

pub struct Lent {
    items: Vec<u64>,
    words: [Vec<u32>; 10],
    marks: Vec<u32>,
    closed: Vec<u64>,
    kernel: Vec<u64>,
}

impl Lent {
    pub fn zero(lengths: &[usize; BUFFERS]) -> Lent {
        Lent {
            items: vec![0; lengths[0]],
            words: std::array::from_fn(|i| vec![0; lengths[1 + i]]),
            marks: vec![0; lengths[11]],
            closed: vec![0; lengths[12]],
            kernel: vec![0; lengths[13]],
        }
    }

    /// One word everywhere, small words, or any; none is zero.
    pub fn filled(rng: &mut Prng, lengths: &[usize; BUFFERS]) -> Lent {
        let mut lent = Lent::zero(lengths);
        let kind = rng.below(4);
        let mut word = || match kind {
            0 => 1,
            1 => u64::MAX,
            2 => rng.between(1, 9) as u64,
            _ => rng.draw() | 1 << 31,
        };
        for buffer in [&mut lent.items, &mut lent.closed, &mut lent.kernel] {
            buffer.iter_mut().for_each(|w| *w = word());
        }
        for buffer in lent.words.iter_mut().chain([&mut lent.marks]) {
            buffer.iter_mut().for_each(|w| *w = word() as u32);
        }
        lent
    }

    /// Zero in every word of every buffer, by the loop that the library has; who reads them is not known to the compiler.
    pub fn clear(&mut self) {
        for buffer in [&mut self.items, &mut self.closed, &mut self.kernel] {
            zero(buffer);
        }
        for buffer in self.words.iter_mut().chain([&mut self.marks]) {
            zero(buffer);
        }
    }

    /// All buffers in order, as they stand.
    pub fn all(&self) -> Vec<Vec<u64>> {
        let wide = |words: &Vec<u32>| words.iter().map(|&w| w.into()).collect();
        let mut all = vec![self.items.clone()];
        all.extend(self.words.iter().map(wide));
        all.extend([wide(&self.marks), self.closed.clone(), self.kernel.clone()]);
        all
    }

    /// Actions and gotos.
    pub fn tables(&self) -> (&[u32], &[u32]) {
        (&self.words[2], &self.words[3])
    }

    pub fn build(&mut self, block: &[u32], limits: Limits) -> [u64; 7] {
        let [spans, edges, actions, gotos, offered, shifts, cores, only, rr, sr] = &mut self.words;
        let graph = GraphOut { items: &mut self.items, spans, edges };
        let tables = TableOut { actions, gotos, offered, shifts, cores, only, rr, sr };
        let work = Work { marks: &mut self.marks, closed: &mut self.closed, kernel: &mut self.kernel };
        let rooms = Rooms {
            states: limits.states as usize,
            items: limits.items as usize,
            rr: limits.reduce_reduce as usize,
            sr: limits.shift_reduce as usize,
        };
        lent::build(block, rooms, graph, tables, work)
    }

    pub fn graph(&mut self, block: &[u32], states: u64, items: u64) -> [u64; 4] {
        let [spans, edges, ..] = &mut self.words;
        let graph = GraphOut { items: &mut self.items, spans, edges };
        let work = Work { marks: &mut self.marks, closed: &mut self.closed, kernel: &mut self.kernel };
        lent::graph(block, states as usize, items as usize, graph, work)
    }
}

fn zero<W: From<u8>>(words: &mut [W]) {
    let mut i = 0;
    while i < words.len() {
        words[i] = W::from(0);
        i += 1;
    }
    black_box(words);
}

/// The oracle's answer in the library's words, and all buffers.
pub fn build_told(block: &[u32], limits: Limits, before: Vec<Vec<u64>>) -> (Vec<u64>, Vec<Vec<u64>>) {
    told(block, limits.states, before, OUTPUTS, |lent| build_in(block, limits, lent).map(|n| n.to_vec()), 7)
}

pub fn graph_told(block: &[u32], states: u64, items: u64, before: Vec<Vec<u64>>) -> (Vec<u64>, Vec<Vec<u64>>) {
    told(block, states, before, GRAPH, |lent| build_graph_in(block, states, items, lent).map(|n| n.to_vec()), 4)
}

/// The oracle has no work room: that it is short gives 7 behind 1 to 6; else it is zero after 0 and 8 to 12.
fn told(
    block: &[u32],
    states: u64,
    before: Vec<Vec<u64>>,
    outputs: usize,
    call: impl Fn(&mut [Vec<u64>]) -> Result<Vec<u64>, Refused>,
    words: usize,
) -> (Vec<u64>, Vec<Vec<u64>>) {
    let mut after = before.clone();
    let result = call(&mut after[..outputs]);
    let number = result.as_ref().err().map_or(0, |r| r.number);
    let mut answer = match result {
        Ok(counts) => [vec![0], counts].concat(),
        Err(r) if r.number == 11 => vec![11, r.values[0] * (r.values[1] + 1), r.values[2]],
        Err(r) => [vec![r.number], r.values.to_vec()].concat(),
    };
    answer.resize(words, 0);
    if (1..=7).contains(&number) {
        return (answer, before);
    }
    let named = work(block, states);
    if before[OUTPUTS..].iter().zip(named).any(|(buffer, n)| (buffer.len() as u64) < n) {
        answer.fill(0);
        answer[0] = 7;
        return (answer, before);
    }
    for (buffer, n) in after[OUTPUTS..].iter_mut().zip(named) {
        buffer[..n as usize].fill(0);
    }
    (answer, after)
}
