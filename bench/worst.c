/* Looks for rails that open many cases. Usage: worst BUDGET STEPS [SEED]; prints each better rail that it finds. Those of rails.c come from
   worst 20 3000, worst 25 6000 7 and worst 30 1500 5. Build: gcc -O3 -o target/worst bench/worst.c bench/plain.c
   Two outlets {x, x+1} and {x, x+2} cost 1 and 2, three {x, x+1}, {x, x+2}, {x, x+3} cost that pair by pair. Such groups stand side by
   side, and one pair from far left to far right goes around all of them: it costs the same either way against each, which no budget
   pays for in the end. So every case opens both ways until its budget is spent. From there the outlets' numbers and single hoses are
   changed at random, and what opens no fewer cases is kept. */
#include "plain.h"

#include <inttypes.h>
#include <stdio.h>
#include <stdlib.h>
#include <string.h>

enum { OUTLETS = 32, BINS = 64 };

typedef struct { uint64_t outlets[OUTLETS]; } rail;

static uint64_t state;

static uint64_t below(uint64_t limit) {
    state ^= state << 13;
    state ^= state >> 7;
    state ^= state << 17;
    return state % limit;
}

static uint64_t cases(const rail *r, uint64_t budget) {
    uint8_t room[OUTLETS];
    return plain_search(BINS, r->outlets, OUTLETS, budget, room, OUTLETS).cases;
}

static uint64_t bound(uint64_t budget) {
    uint64_t f = 1, next = 2;
    for (; budget > 0; budget--) {
        uint64_t sum = f + next + 1;
        f = next;
        next = sum;
    }
    return f;
}

/* So many groups of three, the others of two, and the pair around them. */
static rail groups(size_t threes) {
    rail r = {{0}};
    size_t o = 0;
    unsigned x = 1;
    while (o < OUTLETS - 2) {
        unsigned size = o < OUTLETS - 2 - 3 * threes ? 2 : 3;
        for (unsigned other = 1; other <= size; other++) r.outlets[o++] = (uint64_t)1 << x | (uint64_t)1 << (x + other);
        x += size;
    }
    r.outlets[o] = 1 | (uint64_t)1 << (x + 1);
    r.outlets[o + 1] = 1 | (uint64_t)1 << (x + 2);
    return r;
}

static void change(rail *r) {
    uint64_t *a = &r->outlets[below(OUTLETS)], *b = &r->outlets[below(OUTLETS)], kept = *a;
    switch (below(4)) {
    case 0:
        *a ^= (uint64_t)1 << below(BINS);
        break;
    case 1: /* one hose to the next bin */
        *a ^= (uint64_t)3 << below(BINS - 1);
        break;
    case 2: /* a takes b's number, and those between move up */
        if (a < b) memmove(a, a + 1, (size_t)(b - a) * sizeof *a);
        else memmove(b + 1, b, (size_t)(a - b) * sizeof *a);
        *b = kept;
        break;
    default:
        *a = *b;
        *b = kept;
    }
}

static void climb(rail r, uint64_t budget, unsigned long steps, uint64_t *best) {
    uint64_t most = cases(&r, budget);
    for (; steps > 0; steps--) {
        rail other = r;
        for (uint64_t changes = 1 + below(3); changes > 0; changes--) change(&other);
        uint64_t opened = cases(&other, budget);
        if (opened < most) continue;
        most = opened;
        r = other;
    }
    if (most <= *best) return;
    *best = most;
    printf("%" PRIu64 " cases of %" PRIu64 ":", most, bound(budget));
    for (size_t o = 0; o < OUTLETS; o++) printf(" 0x%" PRIx64, r.outlets[o]);
    printf("\n");
    fflush(stdout);
}

int main(int argc, char **argv) {
    if (argc < 3) {
        fprintf(stderr, "usage: %s BUDGET STEPS [SEED]\n", argv[0]);
        return 2;
    }
    uint64_t budget = strtoull(argv[1], NULL, 10), best = 0;
    state = argc > 3 ? strtoull(argv[3], NULL, 10) : 1;
    for (size_t threes = 0; threes <= 8; threes += 2) climb(groups(threes), budget, strtoul(argv[2], NULL, 10), &best);
    return 0;
}
