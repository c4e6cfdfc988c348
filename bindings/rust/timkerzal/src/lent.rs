//! The calls as the library has them: any words, buffers that the caller lends, answers in words (include/timkerzal.h).
use crate::{ffi, Rooms};

/// Outputs of the graph.
pub struct GraphOut<'a> {
    pub items: &'a mut [u64],
    pub spans: &'a mut [u32],
    pub edges: &'a mut [u32],
}

/// Outputs of the tables, marks and lists.
pub struct TableOut<'a> {
    pub actions: &'a mut [u32],
    pub gotos: &'a mut [u32],
    pub offered: &'a mut [u32],
    pub shifts: &'a mut [u32],
    pub cores: &'a mut [u32],
    pub only: &'a mut [u32],
    pub rr: &'a mut [u32],
    pub sr: &'a mut [u32],
}

/// Work room.
pub struct Work<'a> {
    pub marks: &'a mut [u32],
    pub closed: &'a mut [u64],
    pub kernel: &'a mut [u64],
}

pub fn check(block: &[u32]) -> u32 {
    // SAFETY: the pointer and the length are those of a slice.
    unsafe { ffi::timkerzal_check(block.as_ptr(), block.len()) }
}

/// The refusal of a right side or 0, and its symbols.
pub fn body(block: &[u32], p: usize) -> (u32, Vec<u32>) {
    let (at, len) = (block.as_ptr(), block.len());
    // SAFETY: the pointer and the length are those of a slice.
    unsafe {
        let symbols = ffi::timkerzal_body_length(at, len, p);
        let body = (0..symbols).map(|i| ffi::timkerzal_body_symbol(at, len, p, i)).collect();
        (ffi::timkerzal_body_refusal(at, len, p), body)
    }
}

pub fn build(block: &[u32], rooms: Rooms, graph: GraphOut, tables: TableOut, work: Work) -> [u64; 7] {
    let mut answer = [0; 7];
    // SAFETY: each pointer and length are those of a slice; those that are written are lent to us alone.
    unsafe {
        ffi::timkerzal_build(
            block.as_ptr(),
            block.len(),
            rooms.states,
            rooms.items,
            rooms.rr,
            rooms.sr,
            graph.items.as_mut_ptr(),
            graph.items.len(),
            graph.spans.as_mut_ptr(),
            graph.spans.len(),
            graph.edges.as_mut_ptr(),
            graph.edges.len(),
            tables.actions.as_mut_ptr(),
            tables.actions.len(),
            tables.gotos.as_mut_ptr(),
            tables.gotos.len(),
            tables.offered.as_mut_ptr(),
            tables.offered.len(),
            tables.shifts.as_mut_ptr(),
            tables.shifts.len(),
            tables.cores.as_mut_ptr(),
            tables.cores.len(),
            tables.only.as_mut_ptr(),
            tables.only.len(),
            tables.rr.as_mut_ptr(),
            tables.rr.len(),
            tables.sr.as_mut_ptr(),
            tables.sr.len(),
            work.marks.as_mut_ptr(),
            work.marks.len(),
            work.closed.as_mut_ptr(),
            work.closed.len(),
            work.kernel.as_mut_ptr(),
            work.kernel.len(),
            &mut answer,
        );
    }
    answer
}

pub fn graph(block: &[u32], states: usize, items: usize, graph: GraphOut, work: Work) -> [u64; 4] {
    let mut answer = [0; 4];
    // SAFETY: as in `build`.
    unsafe {
        ffi::timkerzal_graph(
            block.as_ptr(),
            block.len(),
            states,
            items,
            graph.items.as_mut_ptr(),
            graph.items.len(),
            graph.spans.as_mut_ptr(),
            graph.spans.len(),
            graph.edges.as_mut_ptr(),
            graph.edges.len(),
            work.marks.as_mut_ptr(),
            work.marks.len(),
            work.closed.as_mut_ptr(),
            work.closed.len(),
            work.kernel.as_mut_ptr(),
            work.kernel.len(),
            &mut answer,
        );
    }
    answer
}

pub fn run(
    block: &[u32],
    states: usize,
    actions: &[u32],
    gotos: &[u32],
    input: &[u32],
    limit: usize,
    stack: &mut [u32],
    output: &mut [u32],
) -> [u64; 6] {
    let mut answer = [0; 6];
    // SAFETY: as in `build`.
    unsafe {
        ffi::timkerzal_run(
            block.as_ptr(),
            block.len(),
            states,
            actions.as_ptr(),
            actions.len(),
            gotos.as_ptr(),
            gotos.len(),
            input.as_ptr(),
            input.len(),
            limit,
            stack.as_mut_ptr(),
            stack.len(),
            output.as_mut_ptr(),
            output.len(),
            &mut answer,
        );
    }
    answer
}

/// The tables that a query may be of.
#[derive(Clone, Copy, Debug, PartialEq, Eq)]
pub enum Table {
    Actions,
    Gotos,
    Edges,
    Offered,
    Shifts,
    Cores,
    Only,
}

/// The refusal or 0, and the word of state s in a column: token, rule, symbol word, production; the reduce-only marks have none.
pub fn query(table: Table, block: &[u32], states: usize, words: &[u32], s: usize, column: usize) -> [u32; 2] {
    let mut answer = [0; 2];
    let (at, len, lent, lent_len) = (block.as_ptr(), block.len(), words.as_ptr(), words.len());
    let asked = match table {
        Table::Actions => ffi::timkerzal_cell,
        Table::Gotos => ffi::timkerzal_goto,
        Table::Edges => ffi::timkerzal_edge,
        Table::Offered => ffi::timkerzal_offered,
        Table::Shifts => ffi::timkerzal_shift,
        Table::Cores => ffi::timkerzal_core,
        Table::Only => {
            // SAFETY: each pointer and length are those of a slice.
            unsafe { ffi::timkerzal_only(at, len, states, lent, lent_len, s, &mut answer) };
            return answer;
        }
    };
    // SAFETY: each pointer and length are those of a slice.
    unsafe { asked(at, len, states, lent, lent_len, s, column, &mut answer) };
    answer
}

/// The refusal or 0, the kind of the action of state s at token t, and its state or production.
pub fn action(block: &[u32], states: usize, actions: &[u32], s: usize, t: usize) -> [u32; 3] {
    let mut answer = [0; 3];
    // SAFETY: each pointer and length are those of a slice.
    unsafe {
        ffi::timkerzal_action(block.as_ptr(), block.len(), states, actions.as_ptr(), actions.len(), s, t, &mut answer)
    };
    answer
}
