/* The worked example of docs/API.md. Exit status 0: as it says there. */
#include "timkerzal.h"
#include <stdio.h>
#include <string.h>

int main(void) {
    static const uint32_t g1[21] = {2, 2, 2, 2, 1, 0, 9, 17, 19, 0, 0, 1, 0, 1, 1, 1, 0, 2, 1, 0, 0};
    enum { S = 3, I = 3, T = 2, R = 2, P = 2, L = 2 };
    uint64_t items[5 * I], closed[5 * (L + P)], kernel[5 * L], built[TIMKERZAL_BUILT], ran[TIMKERZAL_RAN];
    uint32_t spans[2 * S], edges[S * (R + T)], actions[S * T], gotos[S * R], offered[S * T], shifts[S * T], cores[S * P], only[S], marks[2 * S];
    uint32_t none[1], input[1] = {0}, stack[4], output[4];
    timkerzal_build(g1, 21, S, I, 0, 0, items, 5 * I, spans, 2 * S, edges, S * (R + T), actions, S * T, gotos, S * R, offered, S * T, shifts, S * T,
                    cores, S * P, only, S, none, 0, none, 0, marks, 2 * S, closed, 5 * (L + P), kernel, 5 * L, built);
    timkerzal_run(g1, 21, built[1], actions, S * T, gotos, S * R, input, 1, 1000, stack, 4, output, 4, ran);
    static const uint64_t made[TIMKERZAL_BUILT] = {0, 3, 3, 3, 0, 0, 0}, accepted[TIMKERZAL_RAN] = {0, 1, 1, 1, 3, 2};
    int same = memcmp(built, made, sizeof made) == 0 && memcmp(ran, accepted, sizeof accepted) == 0 && output[0] == 1;
    printf("worked example in C: %s\n", same ? "holds" : "differs");
    return same ? 0 : 1;
}
