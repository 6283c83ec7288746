/* A rail as an integer program, and what the archive's search takes for it.
   Usage: program            how many rails there are
          program NUMBER     the program of a rail, in CPLEX's format: the least crossings of any order
          program NUMBER t   name, outlets, budget, the number answered, the crossings, and the nanoseconds of a search, the least of many */
#define _POSIX_C_SOURCE 199309L
#include "../include/rail.h"
#include "rails.h"

#include <inttypes.h>
#include <stdio.h>
#include <stdlib.h>
#include <time.h>

static uint64_t now(void) {
    struct timespec t;
    clock_gettime(CLOCK_MONOTONIC, &t);
    return (uint64_t)t.tv_sec * 1000000000 + (uint64_t)t.tv_nsec;
}

static void time_search(const rail *r) {
    uint8_t room[32];
    rail_found found = {0, 0, 0};
    uint64_t least = UINT64_MAX;
    for (uint64_t start = now(), before = start, after; before < start + 200000000; before = after) {
        found = rail_search(r->bins, r->outlets, r->outlets_len, r->budget, room, sizeof room);
        after = now();
        if (after - before < least) least = after - before;
    }
    printf("%s\t%zu\t%" PRIu64 "\t%" PRIu64 "\t%" PRIu64 "\t%" PRIu64 "\n", r->name, r->outlets_len, r->budget, found.number, found.crossings, least);
}

/* x_a_b, for a < b, is 1 where a stands left of b. What b left of a costs is always paid, and the difference where a stands left. */
static void print_costs(const rail *r) {
    uint64_t paid = 0;
    printf("minimize\n crossings:");
    for (size_t a = 0; a < r->outlets_len; a++)
        for (size_t b = a + 1; b < r->outlets_len; b++) {
            uint64_t ab = rail_pair(r->outlets[a], r->outlets[b]), ba = rail_pair(r->outlets[b], r->outlets[a]);
            printf(" %+" PRId64 " x_%zu_%zu\n", (int64_t)ab - (int64_t)ba, a, b);
            paid += ba;
        }
    printf(" + %" PRIu64 " one\n", paid);
}

/* No circle of three: a left of b left of c left of a, or the other way round. */
static void print_transitivity(const rail *r) {
    printf("subject to\n unit: one = 1\n");
    for (size_t a = 0; a < r->outlets_len; a++)
        for (size_t b = a + 1; b < r->outlets_len; b++)
            for (size_t c = b + 1; c < r->outlets_len; c++) {
                printf(" x_%zu_%zu + x_%zu_%zu - x_%zu_%zu <= 1\n", a, b, b, c, a, c);
                printf(" x_%zu_%zu + x_%zu_%zu - x_%zu_%zu >= 0\n", a, b, b, c, a, c);
            }
}

static void print_program(const rail *r) {
    print_costs(r);
    print_transitivity(r);
    printf("binary\n");
    for (size_t a = 0; a < r->outlets_len; a++)
        for (size_t b = a + 1; b < r->outlets_len; b++) printf(" x_%zu_%zu\n", a, b);
    printf("end\n");
}

int main(int argc, char **argv) {
    if (argc == 1) {
        printf("%zu\n", rails());
        return 0;
    }
    rail r = rail_of(strtoul(argv[1], NULL, 10));
    if (argc == 2) print_program(&r);
    else time_search(&r);
    return 0;
}
