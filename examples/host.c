/*
 * Orders the rail of a job sheet, as the drawing office would call the library. Prints one line:
 *   order 1 0 2 crossings 4 cases 2      the outlets from left to right
 *   refused 6 cases 3                    no order within the budget
 *   refused 8                            any other number (see rail.h)
 *
 * Build and run on x86-64, from the repository's top:
 *   (cd crates/rail && rt lib)
 *   gcc -std=c99 -Wall -Wextra -Iinclude -o order_host examples/host.c crates/rail/out/librail.a
 *   ./order_host examples/three.sheet
 */
#include <inttypes.h>
#include <stdio.h>

#include "rail.h"

enum { MOST_OUTLETS = 32, LONGEST_SHEET = 2183 };

int main(int argc, char **argv) {
    uint8_t sheet[LONGEST_SHEET + 1], order[MOST_OUTLETS];
    uint64_t outlets[MOST_OUTLETS];

    FILE *file = argc == 2 ? fopen(argv[1], "rb") : NULL;
    if (!file) {
        fprintf(stderr, "usage: %s SHEET\n", argv[0]);
        return 2;
    }
    size_t length = fread(sheet, 1, sizeof sheet, file); /* one byte more than the longest sheet is enough to refuse */
    fclose(file);

    rail_job job = rail_read(sheet, length, outlets, MOST_OUTLETS);
    if (job.number != 0) {
        printf("refused %" PRIu64 "\n", job.number);
        return 0;
    }
    rail_found found = rail_search(job.bins, outlets, (size_t)job.outlets, job.budget, order, sizeof order);
    if (found.number == 6) {
        printf("refused 6 cases %" PRIu64 "\n", found.cases);
        return 0;
    }
    printf("order");
    for (uint64_t place = 0; place < job.outlets; place++) printf(" %d", order[place]);
    printf(" crossings %" PRIu64 " cases %" PRIu64 "\n", found.crossings, found.cases);
    return 0;
}
