/* Calls the plain C version and the archive on the same inputs, with a mark before and after each call, and checks that they agree.
   Usage: host [short]. A line for each input: what, name, outlets, budget, cases, separated by tabs. `short` leaves out the last rail. */
#include "mark.h"
#include "plain.h"
#include "rails.h"

#include <inttypes.h>
#include <stdio.h>
#include <stdlib.h>
#include <string.h>

enum { LONGEST_SHEET = 7 + 32 * 68 };

static void line(const char *what, const rail *r, uint64_t cases, int agree) {
    printf("%s\t%s\t%zu\t%" PRIu64 "\t%" PRIu64 "\n", what, r->name, r->outlets_len, r->budget, cases);
    if (agree) return;
    printf("the answers differ\n");
    exit(1);
}

static void nothing(void) {
    rail none = {"nothing", 0, 0, 0, {0}, 0};
    mark();
    mark();
    mark();
    line("nothing", &none, 0, 1);
}

static void search(const rail *r) {
    uint8_t plain_room[32] = {0}, room[32] = {0};
    mark();
    rail_found plain = plain_search(r->bins, r->outlets, r->outlets_len, r->budget, plain_room, sizeof plain_room);
    mark();
    rail_found found = rail_search(r->bins, r->outlets, r->outlets_len, r->budget, room, sizeof room);
    mark();
    line("search", r, found.cases, memcmp(&plain, &found, sizeof found) == 0 && memcmp(plain_room, room, sizeof room) == 0);
}

/* Every pair of the rail's outlets. */
static void pair(const rail *r) {
    uint64_t plain = 0, sum = 0;
    mark();
    for (size_t a = 0; a < r->outlets_len; a++)
        for (size_t b = 0; b < r->outlets_len; b++) plain += plain_pair(r->outlets[a], r->outlets[b]);
    mark();
    for (size_t a = 0; a < r->outlets_len; a++)
        for (size_t b = 0; b < r->outlets_len; b++) sum += rail_pair(r->outlets[a], r->outlets[b]);
    mark();
    line("pair", r, 0, plain == sum);
}

/* The order of the outlets' numbers. */
static void count(const rail *r) {
    uint8_t order[32];
    for (uint8_t o = 0; o < 32; o++) order[o] = o;
    mark();
    rail_counted plain = plain_count(r->bins, r->outlets, r->outlets_len, order, r->outlets_len);
    mark();
    rail_counted counted = rail_count(r->bins, r->outlets, r->outlets_len, order, r->outlets_len);
    mark();
    line("count", r, 0, memcmp(&plain, &counted, sizeof counted) == 0);
}

static void write_and_read(const rail *r) {
    uint8_t plain_sheet[LONGEST_SHEET] = {0}, sheet[LONGEST_SHEET] = {0};
    uint64_t plain_outlets[32] = {0}, outlets[32] = {0};
    mark();
    rail_written plain = plain_write(r->bins, r->outlets, r->outlets_len, r->budget, plain_sheet, sizeof plain_sheet);
    mark();
    rail_written written = rail_write(r->bins, r->outlets, r->outlets_len, r->budget, sheet, sizeof sheet);
    mark();
    line("write", r, 0, memcmp(&plain, &written, sizeof written) == 0 && memcmp(plain_sheet, sheet, sizeof sheet) == 0);
    mark();
    rail_job plain_job = plain_read(sheet, written.length, plain_outlets, 32);
    mark();
    rail_job job = rail_read(sheet, written.length, outlets, 32);
    mark();
    line("read", r, 0, memcmp(&plain_job, &job, sizeof job) == 0 && memcmp(plain_outlets, outlets, sizeof outlets) == 0);
}

int main(int argc, char **argv) {
    size_t last = rails() - (argc > 1 && strcmp(argv[1], "short") == 0);
    nothing();
    for (size_t number = 0; number < last; number++) {
        rail r = rail_of(number);
        search(&r);
    }
    for (size_t number = 0; number < rails(); number++) {
        rail r = rail_of(number);
        if (!r.every_call) continue;
        pair(&r);
        count(&r);
        write_and_read(&r);
    }
    return 0;
}
