/* Timkerzal for C: an LR(1) table builder and a shift-reduce machine. Link target/staticlib/libtimkerzal.a (sh tools/staticlib).
 *
 * Every call takes any words: nothing is asked of a caller but that each pointer has as many elements as the length behind it says, and that
 * no output overlaps another buffer. What a call promises stands in crates/timkerzal_c/src, and in words in docs/API.md and docs/ROOMS.md.
 * T, R, P, L are tokens, rules, productions and symbols of the block; S and I the states and kernel items that the caller names; N and M the
 * records that the reduce/reduce list and the shift/reduce list have room for. */
#ifndef TIMKERZAL_H
#define TIMKERZAL_H

#include <stddef.h>
#include <stdint.h>

#ifdef __cplusplus
extern "C" {
#endif

/* ---- refusals ---- */
enum timkerzal_refusal {
    TIMKERZAL_OK = 0,
    TIMKERZAL_BAD_HEADER = 1,
    TIMKERZAL_TOO_LARGE = 2,
    TIMKERZAL_BAD_PRODUCTION = 3,
    TIMKERZAL_BAD_START = 4,
    TIMKERZAL_BAD_SYMBOL = 5,
    TIMKERZAL_BAD_PRECEDENCE = 6,
    TIMKERZAL_ROOM_SHORT = 7,
    TIMKERZAL_STATE_ROOM = 8,
    TIMKERZAL_ITEM_ROOM = 9,
    TIMKERZAL_CONFLICT_ROOM = 10,
    TIMKERZAL_ACCEPT_REDUCE = 11,
    TIMKERZAL_MIXED_KINDS = 12,
    TIMKERZAL_BAD_TOKEN = 13,
    TIMKERZAL_STACK_ROOM = 14,
    TIMKERZAL_OUTPUT_ROOM = 15,
    TIMKERZAL_OUT_OF_STEPS = 16,
    TIMKERZAL_BAD_TABLE = 17,
    TIMKERZAL_NO_SUCH = 18
};

/* ---- limits ---- */
#define TIMKERZAL_TOKENS 256u     /* T, 1 at least */
#define TIMKERZAL_RULES 256u      /* R, 1 at least */
#define TIMKERZAL_PRODS 512u      /* P, 1 at least */
#define TIMKERZAL_LENGTH 64u      /* symbols of a right side */
#define TIMKERZAL_SYMBOLS 8192u   /* L */
#define TIMKERZAL_LEVEL 65535u    /* level of a precedence */
#define TIMKERZAL_STATES 4096u    /* S, 1 at least */
#define TIMKERZAL_ITEMS 65536u    /* I, 1 at least */
#define TIMKERZAL_RECORDS 65536u  /* N and M */
#define TIMKERZAL_INPUT 4096u     /* tokens of an input */
#define TIMKERZAL_STEPS 1000000u  /* steps of a run */

/* ---- the block: nine words, productions of four, symbols, token precedences ---- */
#define TIMKERZAL_HEADER 9u
#define TIMKERZAL_DOTS 128u /* an item is DOTS * production + dot */
static inline size_t timkerzal_block_words(size_t T, size_t P, size_t L) { return TIMKERZAL_HEADER + 4 * P + L + T; }
static inline uint32_t timkerzal_rule_symbol(uint32_t r) { return 2 * r; }
static inline uint32_t timkerzal_token_symbol(uint32_t t) { return 2 * t + 1; }
static inline uint32_t timkerzal_left(uint32_t level) { return 4 * level + 1; }
static inline uint32_t timkerzal_right(uint32_t level) { return 4 * level + 2; }
static inline uint32_t timkerzal_nonassoc(uint32_t level) { return 4 * level + 3; }

/* ---- words of each lent buffer: the outputs of build ---- */
static inline size_t timkerzal_items_words(size_t I) { return 5 * I; }
static inline size_t timkerzal_spans_words(size_t S) { return 2 * S; }
static inline size_t timkerzal_edges_words(size_t S, size_t R, size_t T) { return S * (R + T); }
static inline size_t timkerzal_actions_words(size_t S, size_t T) { return S * T; }
static inline size_t timkerzal_gotos_words(size_t S, size_t R) { return S * R; }
static inline size_t timkerzal_offered_words(size_t S, size_t T) { return S * T; }
static inline size_t timkerzal_shifts_words(size_t S, size_t T) { return S * T; }
static inline size_t timkerzal_cores_words(size_t S, size_t P) { return S * P; }
static inline size_t timkerzal_only_words(size_t S) { return S; }
static inline size_t timkerzal_rr_words(size_t N) { return 4 * N; }
static inline size_t timkerzal_sr_words(size_t M) { return 3 * M; }

/* ---- and its work room ---- */
static inline size_t timkerzal_marks_words(size_t S) { return 2 * S; }
static inline size_t timkerzal_closed_words(size_t L, size_t P) { return 5 * (L + P); }
static inline size_t timkerzal_kernel_words(size_t L) { return 5 * L; }

/* ---- a cell, and what it is read as ---- */
enum timkerzal_kind { TIMKERZAL_ERROR = 0, TIMKERZAL_SHIFT = 1, TIMKERZAL_REDUCE = 2, TIMKERZAL_ACCEPT = 3 };
static inline uint32_t timkerzal_cell_kind(uint32_t word) { return word % 4; }
static inline uint32_t timkerzal_cell_value(uint32_t word) { return word / 4; }

/* ---- answers in words: the refusal or 0, then the values ---- */
enum { TIMKERZAL_BUILT = 7, TIMKERZAL_GRAPHED = 4, TIMKERZAL_RAN = 6, TIMKERZAL_FOUND = 2, TIMKERZAL_ACTS = 3 };

/* The refusal of a block: 1 to 6, or 0. */
uint32_t timkerzal_check(const uint32_t *block, size_t block_len);

/* Graph, tables, marks and conflict lists. answer: 0, states, items, states before collection, reduce/reduce records, shift/reduce records,
 * precedence count; or 1 to 10; or 11, r + 1, start production (accept came to a reduce of r); or 11, 0, production (a reduce came to accept);
 * or 12, token, production, state. */
void timkerzal_build(const uint32_t *block, size_t block_len, size_t S, size_t I, size_t N, size_t M,
                     uint64_t *items, size_t items_len, uint32_t *spans, size_t spans_len, uint32_t *edges, size_t edges_len,
                     uint32_t *actions, size_t actions_len, uint32_t *gotos, size_t gotos_len,
                     uint32_t *offered, size_t offered_len, uint32_t *shifts, size_t shifts_len,
                     uint32_t *cores, size_t cores_len, uint32_t *only, size_t only_len,
                     uint32_t *rr, size_t rr_len, uint32_t *sr, size_t sr_len,
                     uint32_t *marks, size_t marks_len, uint64_t *closed, size_t closed_len, uint64_t *kernel, size_t kernel_len,
                     uint64_t answer[TIMKERZAL_BUILT]);

/* The graph alone. answer: 0, states, items, states before collection; or 1 to 9. */
void timkerzal_graph(const uint32_t *block, size_t block_len, size_t S, size_t I,
                     uint64_t *items, size_t items_len, uint32_t *spans, size_t spans_len, uint32_t *edges, size_t edges_len,
                     uint32_t *marks, size_t marks_len, uint64_t *closed, size_t closed_len, uint64_t *kernel, size_t kernel_len,
                     uint64_t answer[TIMKERZAL_GRAPHED]);

/* The machine. Stack and output room are the lent lengths. answer: refusal or 0, 1 for accept and 0 for reject, place of the lookahead,
 * reductions, steps, height of the stack; 14 to 17 give the run as it stood; 13 gives 0 and the place of the token; 1 to 7 give zeros. */
void timkerzal_run(const uint32_t *block, size_t block_len, size_t states, const uint32_t *actions, size_t actions_len,
                   const uint32_t *gotos, size_t gotos_len, const uint32_t *input, size_t input_len, size_t limit,
                   uint32_t *stack, size_t stack_len, uint32_t *output, size_t output_len, uint64_t answer[TIMKERZAL_RAN]);

/* The right side of production p: why it is empty (1 to 6, 18, or 0), its length, its symbol i (0 where there is none). */
uint32_t timkerzal_body_refusal(const uint32_t *block, size_t block_len, size_t p);
size_t timkerzal_body_length(const uint32_t *block, size_t block_len, size_t p);
uint32_t timkerzal_body_symbol(const uint32_t *block, size_t block_len, size_t p, size_t i);

/* The action of state s at token t. answer: refusal or 0, kind, state or production. */
void timkerzal_action(const uint32_t *block, size_t block_len, size_t states, const uint32_t *actions, size_t actions_len, size_t s, size_t t,
                      uint32_t answer[TIMKERZAL_ACTS]);

/* Words of tables and marks. answer: 1 to 7, 18 or 0, and the word. Gotos and edges are state + 1, 0 for none; marks are 0 or 1. */
void timkerzal_cell(const uint32_t *block, size_t block_len, size_t states, const uint32_t *actions, size_t actions_len, size_t s, size_t t,
                    uint32_t answer[TIMKERZAL_FOUND]);
void timkerzal_goto(const uint32_t *block, size_t block_len, size_t states, const uint32_t *gotos, size_t gotos_len, size_t s, size_t rule,
                    uint32_t answer[TIMKERZAL_FOUND]);
void timkerzal_edge(const uint32_t *block, size_t block_len, size_t states, const uint32_t *edges, size_t edges_len, size_t s, size_t symbol,
                    uint32_t answer[TIMKERZAL_FOUND]);
void timkerzal_offered(const uint32_t *block, size_t block_len, size_t states, const uint32_t *marks, size_t marks_len, size_t s, size_t t,
                       uint32_t answer[TIMKERZAL_FOUND]);
void timkerzal_shift(const uint32_t *block, size_t block_len, size_t states, const uint32_t *marks, size_t marks_len, size_t s, size_t t,
                     uint32_t answer[TIMKERZAL_FOUND]);
void timkerzal_core(const uint32_t *block, size_t block_len, size_t states, const uint32_t *marks, size_t marks_len, size_t s, size_t p,
                    uint32_t answer[TIMKERZAL_FOUND]);
void timkerzal_only(const uint32_t *block, size_t block_len, size_t states, const uint32_t *marks, size_t marks_len, size_t s,
                    uint32_t answer[TIMKERZAL_FOUND]);

#ifdef __cplusplus
}
#endif

#endif
