/* The exports called from C by include/timkerzal.h alone: G1 built, run, queried and refused; G2 settled by precedence. Exit status 0: all as expected. */
#include "timkerzal.h"

#include <stdio.h>
#include <stdlib.h>
#include <string.h>

static int faults;

static void same(const char *what, uint64_t found, uint64_t expected) {
    if (found != expected) {
        printf("%s: %llu, not %llu\n", what, (unsigned long long)found, (unsigned long long)expected);
        faults++;
    }
}

/* Every buffer of a build, by the formulas of the header. */
struct rooms {
    size_t S, I, N, M, T, R, P, L;
    uint64_t *items, *closed, *kernel;
    uint32_t *spans, *edges, *actions, *gotos, *offered, *shifts, *cores, *only, *rr, *sr, *marks;
};

static uint32_t *words(size_t n) { return calloc(n + 1, sizeof(uint32_t)); }
static uint64_t *long_words(size_t n) { return calloc(n + 1, sizeof(uint64_t)); }

static struct rooms rooms_for(const uint32_t *block, size_t S, size_t I, size_t N, size_t M) {
    struct rooms r = {S, I, N, M, block[0], block[1], block[2], block[3], 0, 0, 0, 0, 0, 0, 0, 0, 0, 0, 0, 0, 0, 0};
    r.items = long_words(timkerzal_items_words(I));
    r.closed = long_words(timkerzal_closed_words(r.L, r.P));
    r.kernel = long_words(timkerzal_kernel_words(r.L));
    r.spans = words(timkerzal_spans_words(S));
    r.edges = words(timkerzal_edges_words(S, r.R, r.T));
    r.actions = words(timkerzal_actions_words(S, r.T));
    r.gotos = words(timkerzal_gotos_words(S, r.R));
    r.offered = words(timkerzal_offered_words(S, r.T));
    r.shifts = words(timkerzal_shifts_words(S, r.T));
    r.cores = words(timkerzal_cores_words(S, r.P));
    r.only = words(timkerzal_only_words(S));
    r.rr = words(timkerzal_rr_words(N));
    r.sr = words(timkerzal_sr_words(M));
    r.marks = words(timkerzal_marks_words(S));
    return r;
}

static void build(const uint32_t *block, size_t length, struct rooms *r, uint64_t answer[TIMKERZAL_BUILT]) {
    timkerzal_build(block, length, r->S, r->I, r->N, r->M, r->items, timkerzal_items_words(r->I), r->spans, timkerzal_spans_words(r->S),
                    r->edges, timkerzal_edges_words(r->S, r->R, r->T), r->actions, timkerzal_actions_words(r->S, r->T),
                    r->gotos, timkerzal_gotos_words(r->S, r->R), r->offered, timkerzal_offered_words(r->S, r->T),
                    r->shifts, timkerzal_shifts_words(r->S, r->T), r->cores, timkerzal_cores_words(r->S, r->P),
                    r->only, timkerzal_only_words(r->S), r->rr, timkerzal_rr_words(r->N), r->sr, timkerzal_sr_words(r->M),
                    r->marks, timkerzal_marks_words(r->S), r->closed, timkerzal_closed_words(r->L, r->P),
                    r->kernel, timkerzal_kernel_words(r->L), answer);
}

static const uint32_t g1[21] = {2, 2, 2, 2, 1, 0, 9, 17, 19, 0, 0, 1, 0, 1, 1, 1, 0, 2, 1, 0, 0};

static void g1_queries(struct rooms *r) {
    uint32_t found[TIMKERZAL_FOUND], acts[TIMKERZAL_ACTS];
    timkerzal_cell(g1, 21, 3, r->actions, 6, 0, 0, found);
    same("cell", found[1], 9);
    timkerzal_goto(g1, 21, 3, r->gotos, 6, 0, 1, found);
    same("goto", found[1], 2);
    timkerzal_edge(g1, 21, 3, r->edges, 12, 0, timkerzal_token_symbol(0), found);
    same("edge", found[1], 3);
    timkerzal_offered(g1, 21, 3, r->offered, 6, 2, 1, found);
    same("offered mark", found[1], 1);
    timkerzal_shift(g1, 21, 3, r->shifts, 6, 0, 0, found);
    same("shift mark", found[1], 1);
    timkerzal_core(g1, 21, 3, r->cores, 6, 2, 1, found);
    same("core-reduce mark", found[1], 1);
    timkerzal_only(g1, 21, 3, r->only, 3, 2, found);
    same("reduce-only mark", found[1], 1);
    timkerzal_cell(g1, 21, 3, r->actions, 6, 3, 0, found);
    same("no such state", found[0], TIMKERZAL_NO_SUCH);
    timkerzal_action(g1, 21, 3, r->actions, 6, 2, 1, acts);
    same("kind", acts[1], TIMKERZAL_REDUCE);
    same("production", acts[2], 1);
}

static void g1_runs(struct rooms *r) {
    uint32_t token = 0, bad = 1, stack[4], output[4];
    uint64_t ran[TIMKERZAL_RAN];
    timkerzal_run(g1, 21, 3, r->actions, 6, r->gotos, 6, &token, 1, 3, stack, 4, output, 4, ran);
    same("run", ran[0], TIMKERZAL_OK);
    same("accept", ran[1], 1);
    same("reductions", ran[3], 1);
    same("steps", ran[4], 3);
    same("output", output[0], 1);
    timkerzal_run(g1, 21, 3, r->actions, 6, r->gotos, 6, &token, 0, 3, stack, 4, output, 4, ran);
    same("reject", ran[0] + ran[1] + ran[2], 0);
    timkerzal_run(g1, 21, 3, r->actions, 6, r->gotos, 6, &bad, 1, 3, stack, 4, output, 4, ran);
    same("bad token", ran[0], TIMKERZAL_BAD_TOKEN);
    timkerzal_run(g1, 21, 3, r->actions, 6, r->gotos, 6, &token, 1, 2, stack, 4, output, 4, ran);
    same("out of steps", ran[0], TIMKERZAL_OUT_OF_STEPS);
}

static void g1_all(void) {
    static const uint32_t actions[6] = {9, 0, 0, 3, 0, 6}, gotos[6] = {0, 2, 0, 0, 0, 0};
    uint64_t built[TIMKERZAL_BUILT], graphed[TIMKERZAL_GRAPHED];
    struct rooms r = rooms_for(g1, 3, 3, 0, 0);
    same("words of G1", timkerzal_block_words(2, 2, 2), 21);
    same("check", timkerzal_check(g1, 21), TIMKERZAL_OK);
    same("check of 20 words", timkerzal_check(g1, 20), TIMKERZAL_BAD_HEADER);
    same("body", timkerzal_body_refusal(g1, 21, 1), TIMKERZAL_OK);
    same("body's length", timkerzal_body_length(g1, 21, 1), 1);
    same("body's symbol", timkerzal_body_symbol(g1, 21, 1, 0), timkerzal_token_symbol(0));
    same("body of production 2", timkerzal_body_refusal(g1, 21, 2), TIMKERZAL_NO_SUCH);
    timkerzal_graph(g1, 21, 3, 3, r.items, 15, r.spans, 6, r.edges, 12, r.marks, 6, r.closed, 20, r.kernel, 10, graphed);
    same("graph", graphed[0], TIMKERZAL_OK);
    same("states of the graph", graphed[1], 3);
    build(g1, 21, &r, built);
    same("build", built[0], TIMKERZAL_OK);
    same("states", built[1], 3);
    same("actions", memcmp(actions, r.actions, sizeof actions) != 0, 0);
    same("gotos", memcmp(gotos, r.gotos, sizeof gotos) != 0, 0);
    g1_queries(&r);
    g1_runs(&r);
    r.S = 2;
    build(g1, 21, &r, built);
    same("build in two states", built[0], TIMKERZAL_STATE_ROOM);
}

static void g2_all(void) {
    uint32_t g2[29] = {3, 2, 3, 5, 2, 0, 9, 21, 26, 0, 0, 1, 0, 1, 1, 3, 0, 1, 4, 1, 0, 2, 2, 1, 2, 3, 0, 0, 0};
    uint64_t built[TIMKERZAL_BUILT];
    struct rooms r = rooms_for(g2, 8, 16, 1, 1);
    build(g2, 29, &r, built);
    same("records of G2", built[5], 1);
    same("cell without precedence", r.actions[4 * 3], 13);
    same("record", r.sr[0] == 0 && r.sr[1] == 1 && r.sr[2] == 4, 1);
    g2[16] = g2[26] = timkerzal_left(1);
    build(g2, 29, &r, built);
    same("precedence count", built[6], 1);
    same("kind of the cell with left", timkerzal_cell_kind(r.actions[4 * 3]), TIMKERZAL_REDUCE);
    g2[26] = timkerzal_right(1);
    build(g2, 29, &r, built);
    same("mixed kinds", built[0], TIMKERZAL_MIXED_KINDS);
    same("their state", built[3], 4);
}

int main(void) {
    g1_all();
    g2_all();
    printf("samples from C: %d faults\n", faults);
    return faults != 0;
}
