//! The oracle's lists (oracle/lists/FORMAT.md), every word of every case, through the static library. Work room is filled too, and must be as it
//! was after 1 to 7, else zero up to its named size and as it was behind.
use std::path::Path;
use timkerzal::lent::{self, GraphOut, Table, TableOut, Work};
use timkerzal::Rooms;

const BEHIND: usize = 3;

/// The numbers of a line, from the front.
struct Line<'a> {
    rest: &'a [u64],
}

impl<'a> Line<'a> {
    fn one(&mut self) -> u64 {
        let (first, rest) = self.rest.split_first().expect("a number");
        self.rest = rest;
        *first
    }

    fn size(&mut self) -> usize {
        self.one() as usize
    }

    fn part(&mut self) -> &'a [u64] {
        let (part, rest) = {
            let n = self.size();
            self.rest.split_at(n)
        };
        self.rest = rest;
        part
    }

    fn words(&mut self) -> Vec<u32> {
        self.part().iter().map(|&w| u32::try_from(w).expect("a word")).collect()
    }

    fn numbers<const N: usize>(&mut self) -> [u64; N] {
        std::array::from_fn(|_| self.one())
    }
}

/// Each line of a list goes to `case`; it must use the line up.
fn replay(name: &str, case: impl Fn(&mut Line)) {
    let path = Path::new(env!("CARGO_MANIFEST_DIR")).join("../../../oracle/lists").join(name);
    let text = std::fs::read_to_string(path).expect("a list");
    for (i, line) in text.lines().enumerate() {
        let numbers: Vec<u64> = line.split(' ').map(|word| word.parse().expect("a number")).collect();
        assert_eq!(numbers[0] as usize, numbers.len() - 1, "{name}, line {}", i + 1);
        let mut line = Line { rest: &numbers[1..] };
        let done = std::panic::catch_unwind(std::panic::AssertUnwindSafe(|| case(&mut line)));
        assert!(done.is_ok() && line.rest.is_empty(), "{name}, line {}", i + 1);
    }
}

fn block_case(line: &mut Line) {
    let block = line.words();
    assert_eq!(u64::from(lent::check(&block)), line.one());
}

fn body_case(line: &mut Line) {
    let (block, p) = (line.words(), line.size());
    let (number, body) = lent::body(&block, p);
    assert_eq!((u64::from(number), body), (line.one(), line.words()));
}

/// Filled work room for any block, and its named sizes.
struct Worked {
    fill: u64,
    marks: Vec<u32>,
    closed: Vec<u64>,
    kernel: Vec<u64>,
}

impl Worked {
    fn new(block: &[u32], states: usize, fill: u64) -> Worked {
        let at = |i: usize| block.get(i).map_or(0, |&w| (w as usize).min(8192));
        let (p, l) = (at(2), at(3));
        let [marks, closed, kernel] = [2 * states.min(5000), 5 * (l + p), 5 * l].map(|n| n + BEHIND);
        Worked { fill, marks: vec![fill as u32; marks], closed: vec![fill; closed], kernel: vec![fill; kernel] }
    }

    fn lend(&mut self) -> Work<'_> {
        Work { marks: &mut self.marks, closed: &mut self.closed, kernel: &mut self.kernel }
    }

    fn left_right(&self, number: u64) {
        let told = |n: usize, i: usize| if (1..=7).contains(&number) || n <= i + BEHIND { self.fill } else { 0 };
        let right = |words: &[u64]| words.iter().enumerate().all(|(i, &w)| w == told(words.len(), i));
        let marks: Vec<u64> = self.marks.iter().map(|&w| w.into()).collect();
        let marks_fill = |i: usize| if told(marks.len(), i) == 0 { 0 } else { u64::from(self.fill as u32) };
        assert!(marks.iter().enumerate().all(|(i, &w)| w == marks_fill(i)), "marks");
        assert!(right(&self.closed) && right(&self.kernel), "closed or kernel");
    }
}

fn graph_case(line: &mut Line) {
    let (block, states, most, fill) = (line.words(), line.size(), line.size(), line.one());
    let mut items = vec![fill; line.size()];
    let mut spans = vec![fill as u32; line.size()];
    let mut edges = vec![fill as u32; line.size()];
    let mut work = Worked::new(&block, states, fill);
    let out = GraphOut { items: &mut items, spans: &mut spans, edges: &mut edges };
    let answer = lent::graph(&block, states, most, out, work.lend());
    assert_eq!(answer, line.numbers());
    assert_eq!((&items[..], spans, edges), (line.part(), line.words(), line.words()));
    work.left_right(answer[0]);
}

fn table_case(line: &mut Line) {
    let block = line.words();
    let rooms = Rooms { states: line.size(), items: line.size(), rr: line.size(), sr: line.size() };
    let fill = line.one();
    let mut items = vec![fill; line.size()];
    let mut lent: [Vec<u32>; 10] = std::array::from_fn(|_| vec![fill as u32; line.size()]);
    let mut work = Worked::new(&block, rooms.states, fill);
    let [spans, edges, actions, gotos, offered, shifts, cores, only, rr, sr] = &mut lent;
    let graph = GraphOut { items: &mut items, spans, edges };
    let tables = TableOut { actions, gotos, offered, shifts, cores, only, rr, sr };
    let answer = lent::build(&block, rooms, graph, tables, work.lend());
    told(&answer, line.numbers());
    assert_eq!(items, line.part());
    for words in &lent {
        assert_eq!(words, &line.words());
    }
    work.left_right(answer[0]);
}

/// The answer of a build against number, three values, and six counts.
fn told(answer: &[u64; 7], expected: [u64; 10]) {
    let [number, a, b, c, counts @ ..] = expected;
    let words = match number {
        0 => [0, counts[0], counts[1], counts[2], counts[3], counts[4], counts[5]],
        11 => [11, if a == 1 { b + 1 } else { 0 }, c, 0, 0, 0, 0],
        _ => [number, a, b, c, 0, 0, 0],
    };
    assert_eq!(*answer, words);
    assert!(number == 0 || counts == [0; 6]);
}

fn query_case(line: &mut Line) {
    use Table::*;
    let kind = line.size();
    let (block, states, words, s, column) = (line.words(), line.size(), line.words(), line.size(), line.size());
    let table = [Actions, Gotos, Offered, Shifts, Cores, Only][kind];
    let [number, word] = lent::query(table, &block, states, &words, s, column);
    if table == Actions {
        assert_eq!(
            lent::action(&block, states, &words, s, column),
            [number, word % 4, if word % 4 % 3 == 0 { 0 } else { word / 4 }]
        );
    }
    assert_eq!([number, word].map(u64::from), line.numbers());
}

fn run_case(line: &mut Line) {
    let (block, states, actions, gotos, input) = (line.words(), line.size(), line.words(), line.words(), line.words());
    let (limit, fill) = (line.size(), line.one() as u32);
    let (mut stack, mut output) = (vec![fill; line.size()], vec![fill; line.size()]);
    let answer = lent::run(&block, states, &actions, &gotos, &input, limit, &mut stack, &mut output);
    let [number, place, k, steps, height] = line.numbers();
    let at = if number == 100 || number == 13 { place } else { answer[2] };
    let refusal = if number == 100 { 0 } else { number };
    assert_eq!(answer, [refusal, u64::from(number == 0), at, k, steps, height]);
    assert_eq!((stack, output), (line.words(), line.words()));
}

#[test]
fn blocks() {
    replay("blocks.txt", block_case);
}

#[test]
fn bodies() {
    replay("bodies.txt", body_case);
}

#[test]
fn graphs() {
    replay("graphs.txt", graph_case);
}

#[test]
fn tables() {
    replay("tables.txt", table_case);
}

#[test]
fn queries() {
    replay("queries.txt", query_case);
}

#[test]
fn runs() {
    replay("runs.txt", run_case);
}

#[test]
fn refusals() {
    replay("refusals.txt", |line| {
        let call = line.size();
        [block_case, body_case, graph_case, table_case, query_case, run_case][call](line);
    });
}
