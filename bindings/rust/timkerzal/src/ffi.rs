//! The exports, as include/timkerzal.h declares them. A slice is a pointer and a length.
extern "C" {
    pub fn timkerzal_check(block: *const u32, block_len: usize) -> u32;
    pub fn timkerzal_build(
        block: *const u32,
        block_len: usize,
        states: usize,
        items_most: usize,
        rr_most: usize,
        sr_most: usize,
        items: *mut u64,
        items_len: usize,
        spans: *mut u32,
        spans_len: usize,
        edges: *mut u32,
        edges_len: usize,
        actions: *mut u32,
        actions_len: usize,
        gotos: *mut u32,
        gotos_len: usize,
        offered: *mut u32,
        offered_len: usize,
        shifts: *mut u32,
        shifts_len: usize,
        cores: *mut u32,
        cores_len: usize,
        only: *mut u32,
        only_len: usize,
        rr: *mut u32,
        rr_len: usize,
        sr: *mut u32,
        sr_len: usize,
        marks: *mut u32,
        marks_len: usize,
        closed: *mut u64,
        closed_len: usize,
        kernel: *mut u64,
        kernel_len: usize,
        answer: *mut [u64; 7],
    );
    pub fn timkerzal_graph(
        block: *const u32,
        block_len: usize,
        states: usize,
        items_most: usize,
        items: *mut u64,
        items_len: usize,
        spans: *mut u32,
        spans_len: usize,
        edges: *mut u32,
        edges_len: usize,
        marks: *mut u32,
        marks_len: usize,
        closed: *mut u64,
        closed_len: usize,
        kernel: *mut u64,
        kernel_len: usize,
        answer: *mut [u64; 4],
    );
    pub fn timkerzal_run(
        block: *const u32,
        block_len: usize,
        states: usize,
        actions: *const u32,
        actions_len: usize,
        gotos: *const u32,
        gotos_len: usize,
        input: *const u32,
        input_len: usize,
        limit: usize,
        stack: *mut u32,
        stack_len: usize,
        output: *mut u32,
        output_len: usize,
        answer: *mut [u64; 6],
    );
    pub fn timkerzal_body_refusal(block: *const u32, block_len: usize, p: usize) -> u32;
    pub fn timkerzal_body_length(block: *const u32, block_len: usize, p: usize) -> usize;
    pub fn timkerzal_body_symbol(block: *const u32, block_len: usize, p: usize, i: usize) -> u32;
    pub fn timkerzal_action(
        block: *const u32,
        block_len: usize,
        states: usize,
        actions: *const u32,
        actions_len: usize,
        s: usize,
        t: usize,
        answer: *mut [u32; 3],
    );
    pub fn timkerzal_only(
        block: *const u32,
        block_len: usize,
        states: usize,
        marks: *const u32,
        marks_len: usize,
        s: usize,
        answer: *mut [u32; 2],
    );
}

/// The queries of a table by state and column.
macro_rules! queries {
    ($($name:ident),*) => {
        extern "C" {
            $(pub fn $name(
                block: *const u32,
                block_len: usize,
                states: usize,
                table: *const u32,
                table_len: usize,
                s: usize,
                column: usize,
                answer: *mut [u32; 2],
            );)*
        }
    };
}
queries!(timkerzal_cell, timkerzal_goto, timkerzal_edge, timkerzal_offered, timkerzal_shift, timkerzal_core);
