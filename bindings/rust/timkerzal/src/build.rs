//! The build and the graph alone, with buffers of the sizes named.
use crate::lent::{self, GraphOut, TableOut, Work};
use crate::{Action, Block, Refusal, Rooms, Sizes, Symbol};
use std::fmt;

/// Why there are no tables.
#[derive(Clone, Copy, Debug, PartialEq, Eq)]
pub enum Declined {
    /// 7 to 10
    Refused(Refusal),
    /// 11: accept came to a reduce of `reduce`, or, with none, a reduce of `production` came to accept
    AcceptReduce { reduce: Option<usize>, production: usize },
    /// 12
    MixedKinds { token: usize, production: usize, state: usize },
}

impl Declined {
    pub fn refusal(self) -> Refusal {
        match self {
            Declined::Refused(refusal) => refusal,
            Declined::AcceptReduce { .. } => Refusal::AcceptReduce,
            Declined::MixedKinds { .. } => Refusal::MixedKinds,
        }
    }

    fn of(answer: &[u64; 7]) -> Option<Declined> {
        let at = |i: usize| answer[i] as usize;
        Some(match Refusal::of(answer[0])? {
            Refusal::AcceptReduce => Declined::AcceptReduce { reduce: at(1).checked_sub(1), production: at(2) },
            Refusal::MixedKinds => Declined::MixedKinds { token: at(1), production: at(2), state: at(3) },
            refusal => Declined::Refused(refusal),
        })
    }
}

impl fmt::Display for Declined {
    fn fmt(&self, f: &mut fmt::Formatter) -> fmt::Result {
        write!(f, "{}", self.refusal())?;
        match self {
            Declined::Refused(_) => Ok(()),
            Declined::AcceptReduce { reduce: Some(r), production } => {
                write!(f, ": accept of production {production} came to a reduce of production {r}")
            }
            Declined::AcceptReduce { reduce: None, production } => {
                write!(f, ": a reduce of production {production} came to accept")
            }
            Declined::MixedKinds { token, production, state } => {
                write!(f, ": token {token} and production {production} have one level and two kinds, in state {state}")
            }
        }
    }
}

impl std::error::Error for Declined {}

/// What a build counts: states and items kept, states before collection, records of the two lists, choices by precedence.
#[derive(Clone, Copy, Debug, PartialEq, Eq)]
pub struct Counts {
    pub states: usize,
    pub items: usize,
    pub before: usize,
    pub rr: usize,
    pub sr: usize,
    pub precedence: usize,
}

/// A kernel item with its context, the tokens ascending.
#[derive(Clone, Debug, PartialEq, Eq)]
pub struct Item {
    pub production: usize,
    pub dot: usize,
    pub context: Vec<usize>,
}

/// A shift/reduce conflict: the shift stays.
#[derive(Clone, Copy, Debug, PartialEq, Eq)]
pub struct Conflict {
    pub token: usize,
    pub production: usize,
    pub state: usize,
}

/// A reduce/reduce conflict: the smaller production stays.
#[derive(Clone, Copy, Debug, PartialEq, Eq)]
pub struct Overlap {
    pub token: usize,
    pub kept: usize,
    pub other: usize,
    pub state: usize,
}

/// The states with their kernels and edges.
#[derive(Clone, Debug)]
pub struct Graph {
    pub states: usize,
    pub items_kept: usize,
    pub before: usize,
    pub items: Vec<u64>,
    pub spans: Vec<u32>,
    pub edges: Vec<u32>,
    sizes: Sizes,
}

impl Graph {
    /// The kernel of a state, its items ascending.
    pub fn kernel(&self, s: usize) -> Vec<Item> {
        let (first, count) = (self.spans[2 * s] as usize, self.spans[2 * s + 1] as usize);
        self.items[5 * first..5 * (first + count)].chunks(5).map(item_of).collect()
    }

    /// The edges of a state, rules before tokens.
    pub fn edges_of(&self, s: usize) -> Vec<(Symbol, usize)> {
        let z = &self.sizes;
        let width = z.rules + z.tokens;
        let row = &self.edges[s * width..(s + 1) * width];
        let symbol = |i: usize| if i < z.rules { Symbol::Rule(i) } else { Symbol::Token(i - z.rules) };
        (0..width).filter(|&i| row[i] != 0).map(|i| (symbol(i), row[i] as usize - 1)).collect()
    }
}

fn item_of(words: &[u64]) -> Item {
    let n = words[0] as usize;
    let context = (0..256).filter(|t| words[1 + t / 64] >> (t % 64) & 1 == 1).collect();
    Item { production: n / 128, dot: n % 128, context }
}

/// Graph, tables, marks and conflict lists.
#[derive(Clone, Debug)]
pub struct Built {
    pub counts: Counts,
    pub rooms: Rooms,
    pub graph: Graph,
    pub actions: Vec<u32>,
    pub gotos: Vec<u32>,
    pub offered: Vec<u32>,
    pub shifts: Vec<u32>,
    pub cores: Vec<u32>,
    pub only: Vec<u32>,
    pub reduce_reduce: Vec<Overlap>,
    pub shift_reduce: Vec<Conflict>,
}

impl Built {
    pub fn cell(&self, s: usize, t: usize) -> u32 {
        self.actions[s * self.graph.sizes.tokens + t]
    }

    pub fn action(&self, s: usize, t: usize) -> Action {
        crate::decode(self.cell(s, t))
    }

    pub fn goto(&self, s: usize, r: usize) -> Option<usize> {
        (self.gotos[s * self.graph.sizes.rules + r] as usize).checked_sub(1)
    }

    /// The actions of the states kept, row by row, as the machine is lent them.
    pub fn action_rows(&self) -> &[u32] {
        &self.actions[..self.counts.states * self.graph.sizes.tokens]
    }

    pub fn goto_rows(&self) -> &[u32] {
        &self.gotos[..self.counts.states * self.graph.sizes.rules]
    }
}

/// The build in the rooms named.
pub fn build(block: &Block, rooms: Rooms) -> Result<Built, Declined> {
    let z = block.sizes();
    let mut room = Room::new(&z, rooms)?;
    let mut actions = vec![0; rooms.actions_words(&z)];
    let mut gotos = vec![0; rooms.gotos_words(&z)];
    let mut offered = vec![0; rooms.actions_words(&z)];
    let mut shifts = vec![0; rooms.actions_words(&z)];
    let mut cores = vec![0; rooms.cores_words(&z)];
    let mut only = vec![0; rooms.states];
    let mut rr = vec![0; rooms.rr_words()];
    let mut sr = vec![0; rooms.sr_words()];
    let tables = TableOut {
        actions: &mut actions,
        gotos: &mut gotos,
        offered: &mut offered,
        shifts: &mut shifts,
        cores: &mut cores,
        only: &mut only,
        rr: &mut rr,
        sr: &mut sr,
    };
    let (graph, work) = room.lend();
    let answer = lent::build(block.words(), rooms, graph, tables, work);
    if let Some(declined) = Declined::of(&answer) {
        return Err(declined);
    }
    let [_, states, items, before, rr_count, sr_count, precedence] = answer.map(|n| n as usize);
    let counts = Counts { states, items, before, rr: rr_count, sr: sr_count, precedence };
    let reduce_reduce = rr[..4 * rr_count].chunks(4).map(overlap_of).collect();
    let shift_reduce = sr[..3 * sr_count].chunks(3).map(conflict_of).collect();
    let graph = room.graph(z, states, items, before);
    Ok(Built { counts, rooms, graph, actions, gotos, offered, shifts, cores, only, reduce_reduce, shift_reduce })
}

fn overlap_of(w: &[u32]) -> Overlap {
    Overlap { token: w[0] as usize, kept: w[1] as usize, other: w[2] as usize, state: w[3] as usize }
}

fn conflict_of(w: &[u32]) -> Conflict {
    Conflict { token: w[0] as usize, production: w[1] as usize, state: w[2] as usize }
}

/// The build in rooms that grow up to the limits.
pub fn build_growing(block: &Block) -> Result<Built, Declined> {
    let mut rooms = Rooms::SMALL;
    loop {
        match build(block, rooms) {
            Err(declined) => rooms = rooms.grown(declined.refusal()).ok_or(declined)?,
            made => return made,
        }
    }
}

/// The graph alone; the list rooms are not used.
pub fn graph(block: &Block, rooms: Rooms) -> Result<Graph, Refusal> {
    let z = block.sizes();
    let mut room = Room::new(&z, Rooms { rr: 0, sr: 0, ..rooms }).map_err(Declined::refusal)?;
    let (graph, work) = room.lend();
    let answer = lent::graph(block.words(), rooms.states, rooms.items, graph, work);
    match Refusal::of(answer[0]) {
        Some(refusal) => Err(refusal),
        None => Ok(room.graph(z, answer[1] as usize, answer[2] as usize, answer[3] as usize)),
    }
}

/// The six buffers that both calls are lent.
struct Room {
    items: Vec<u64>,
    spans: Vec<u32>,
    edges: Vec<u32>,
    marks: Vec<u32>,
    closed: Vec<u64>,
    kernel: Vec<u64>,
}

impl Room {
    /// Rooms past the limits are refused before anything is made: the library would say the same.
    fn new(z: &Sizes, rooms: Rooms) -> Result<Room, Declined> {
        let most = Rooms::MOST;
        if rooms.states > most.states || rooms.items > most.items || rooms.rr > most.rr || rooms.sr > most.sr {
            return Err(Declined::Refused(Refusal::RoomShort));
        }
        Ok(Room {
            items: vec![0; rooms.items_words()],
            spans: vec![0; rooms.spans_words()],
            edges: vec![0; rooms.edges_words(z)],
            marks: vec![0; rooms.marks_words()],
            closed: vec![0; Rooms::closed_words(z)],
            kernel: vec![0; Rooms::kernel_words(z)],
        })
    }

    fn lend(&mut self) -> (GraphOut<'_>, Work<'_>) {
        let graph = GraphOut { items: &mut self.items, spans: &mut self.spans, edges: &mut self.edges };
        let work = Work { marks: &mut self.marks, closed: &mut self.closed, kernel: &mut self.kernel };
        (graph, work)
    }

    fn graph(self, sizes: Sizes, states: usize, items_kept: usize, before: usize) -> Graph {
        Graph { states, items_kept, before, items: self.items, spans: self.spans, edges: self.edges, sizes }
    }
}
