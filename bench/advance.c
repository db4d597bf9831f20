// The largest advance in C, by the same design: weights last amount first, costs by surplus, one plain loop a level.
#include <stdint.h>
#include <stdio.h>
#include <stdlib.h>
#include <string.h>
#include <time.h>

#define LONG 8192
#define AMOUNTS 4096
#define ONE (1u << 30)

typedef struct {
    uint32_t lower, upper;
} Pair;

static uint32_t law[AMOUNTS];
static Pair board[LONG], spare[LONG];

static Pair weigh(const uint32_t *weights, size_t amounts, const Pair *costs, uint32_t dropped) {
    uint64_t lower = 0, upper = 0;
    for (size_t i = 0; i < amounts; i++) {
        lower += (uint64_t)weights[i] * costs[i].lower;
        upper += (uint64_t)weights[i] * costs[i].upper;
    }
    Pair pair = {(uint32_t)(lower / ONE), (uint32_t)((upper + (uint64_t)dropped * ONE + (ONE - 1)) / ONE)};
    return pair;
}

__attribute__((noinline)) static int advance(void) {
    uint32_t weights[AMOUNTS];
    Pair costs[AMOUNTS + LONG];
    for (int j = 0; j < AMOUNTS; j++) weights[AMOUNTS - 1 - j] = law[j];
    int known = 0;
    for (int x = 0; x < AMOUNTS - 1 + LONG; x++) {
        int surplus = x + 1 - (AMOUNTS - 1);
        if (surplus <= 0) {
            costs[x].lower = costs[x].upper = ONE;
        } else if (surplus < LONG) {
            costs[x] = board[surplus];
            known++;
        }
    }
    memcpy(spare, board, sizeof board);
    for (int u = 0; u < known; u++) board[u] = weigh(weights, AMOUNTS, costs + u, 0);
    memset(board + known, 0, sizeof(Pair) * (LONG - known));
    return known;
}

int main(int argc, char **argv) {
    int rounds = argc > 1 ? atoi(argv[1]) : 1;
    uint64_t best = UINT64_MAX, terms = 0;
    for (int j = 0; j < AMOUNTS; j++) law[j] = ONE / AMOUNTS;
    for (int r = 0; r < rounds; r++) {
        struct timespec a, b;
        memset(board, 0, sizeof board);
        clock_gettime(CLOCK_MONOTONIC, &a);
        terms = (uint64_t)advance() * AMOUNTS;
        clock_gettime(CLOCK_MONOTONIC, &b);
        uint64_t taken = (uint64_t)(b.tv_sec - a.tv_sec) * 1000000000u + (uint64_t)b.tv_nsec - (uint64_t)a.tv_nsec;
        if (taken < best) best = taken;
    }
    printf("c      %llu ns for %llu terms: %.3f ns a term (level 0: %u %u)\n", (unsigned long long)best,
           (unsigned long long)terms, (double)best / (double)terms, board[0].lower, board[0].upper);
    return 0;
}
