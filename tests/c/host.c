/* Compares every function of the archive with document 01 on generated inputs, valid and damaged. Usage: host [SEED] */
#include "compare.h"
#include "stack.h"

#include <inttypes.h>
#include <stdio.h>
#include <stdlib.h>
#include <string.h>

static const uint64_t at_limits_of_bins[] = {0, 1, 63, 64, 65, 255, 256, 256 + 4, (uint64_t)1 << 32, UINT64_MAX};
static const uint64_t at_limits_of_budget[] = {0, 1, 30, 31, 254, 255, 256, 256 + 3, (uint64_t)1 << 32, UINT64_MAX};
static const size_t at_limits_of_outlets[] = {0, 1, 4, 31, 32, 33, 256, 256 + 4};

#define ENTRIES(row) (sizeof(row) / sizeof *(row))

static void worked_rails(void) {
    static const struct {
        const char *name;
        job asked;
        rail_found answer;
        uint8_t order[3];
    } rails[] = {
        {"empty", {0, 0, 0, {0}}, {0, 0, 1}, {0}},
        {"bare", {1, 0, 2, {0x0, 0x1}}, {0, 0, 1}, {1, 0}},
        {"swap", {2, 0, 2, {0x2, 0x1}}, {0, 0, 1}, {1, 0}},
        {"twin", {2, 0, 2, {0x3, 0x3}}, {6, 0, 0}, {0}},
        {"twin", {2, 1, 2, {0x3, 0x3}}, {0, 1, 1}, {0, 1}},
        {"fork", {3, 0, 2, {0x5, 0x2}}, {6, 0, 1}, {0}},
        {"fork", {3, 1, 2, {0x5, 0x2}}, {0, 1, 1}, {0, 1}},
        {"trident", {4, 0, 2, {0xd, 0x2}}, {6, 0, 1}, {0}},
        {"trident", {4, 1, 2, {0xd, 0x2}}, {0, 1, 2}, {1, 0}},
        {"three", {4, 3, 3, {0xd, 0x2, 0x9}}, {6, 0, 3}, {0}},
        {"three", {4, 4, 3, {0xd, 0x2, 0x9}}, {0, 4, 2}, {1, 0, 2}},
        {"chain", {4, 1, 3, {0xd, 0x2, 0x4}}, {6, 0, 2}, {0}},
        {"chain", {4, 2, 3, {0xd, 0x2, 0x4}}, {0, 2, 2}, {1, 0, 2}},
    };
    begin_group("the rails worked by hand");
    for (size_t r = 0; r < ENTRIES(rails); r++) {
        uint8_t order[3] = {0};
        rail_found got = try_search(&rails[r].asked, 3, order);
        bool right = memcmp(&got, &rails[r].answer, sizeof got) == 0 && memcmp(order, rails[r].order, 3) == 0;
        if (wrong(right)) printf("%s with budget %" PRIu64 "\n", rails[r].name, rails[r].asked.budget);
        if (got.number == 0) try_count(&rails[r].asked, order, rails[r].asked.outlets_len);
    }
    end_group();
}

static void sheet_of_three(void) {
    static const uint8_t printed[25] = {3, 0, 1, 0, 4, 3, 4, 3, 0, 2, 0, 0, 2, 3, 1, 0, 2, 0, 1, 2, 0, 2, 0, 0, 3};
    const job three = {4, 4, 3, {0xd, 0x2, 0x9}};
    uint8_t sheet[25] = {0};
    uint64_t outlets[3] = {0};
    begin_group("the sheet of three");
    if (wrong(try_write(&three, 25, sheet).length == 25 && memcmp(sheet, printed, 25) == 0)) printf("written\n");
    rail_job read = try_read(printed, 25, 3, outlets);
    bool right = read.bins == 4 && read.outlets == 3 && read.budget == 4 && memcmp(outlets, three.outlets, sizeof outlets) == 0;
    if (wrong(right)) printf("read\n");
    end_group();
}

static void pairs(void) {
    begin_group("pair: any two sets of bins, sparse and dense");
    for (int turn = 0; turn < 5000; turn++) {
        uint64_t a = any(), b = any(), fewer = any(), fewest = any();
        try_pair(a, b);
        try_pair(a & fewer & fewest, b & ~fewer & fewest);
        try_pair(a | fewer, b | fewest);
    }
    for (unsigned x = 0; x < 64; x++)
        for (unsigned y = 0; y < 64; y++) try_pair((uint64_t)1 << x, UINT64_MAX >> y);
    try_pair(UINT64_MAX, UINT64_MAX);
    try_pair(0, UINT64_MAX);
    try_pair(UINT64_MAX, 0);
    end_group();
}

static void orders(void) {
    begin_group("count: orders of rails");
    for (int turn = 0; turn < 4000; turn++) {
        uint8_t order[ROW];
        job j = small_job(MOST_OUTLETS, MOST_BINS);
        random_order(order, j.outlets_len);
        try_count(&j, order, j.outlets_len);
    }
    end_group();
}

/* A gap is an outlet left out: another stands twice, or one that is not on the rail stands instead. */
static void damaged_orders(void) {
    begin_group("count: repeats, gaps, outlets not on the rail, wrong lengths");
    for (size_t n = 1; n <= MOST_OUTLETS; n++)
        for (int turn = 0; turn < 40; turn++) {
            uint8_t order[ROW] = {0};
            job j = random_job(n, below(MOST_BINS + 1));
            random_order(order, n);
            try_count(&j, order, below(n));
            try_count(&j, order, n + 1 + below(3));
            try_count(&j, order, n + 256);
            size_t place = below(n);
            order[place] = (uint8_t)below(n);
            try_count(&j, order, n);
            place = below(n);
            order[place] = (uint8_t)(n + below(256 - n));
            try_count(&j, order, n);
        }
    end_group();
}

static void rails_of_every_size(void) {
    begin_group("search: rails of every size");
    for (size_t n = 0; n <= MOST_OUTLETS; n++)
        for (uint64_t bins = 0; bins <= MOST_BINS; bins++)
            for (int turn = 0; turn < 3; turn++) {
                job j = search_job(n, bins);
                try_search(&j, n + below(4), NULL);
                if (n > 0 && turn == 0) try_search(&j, below(n), NULL);
            }
    end_group();
}

static void full_rails(void) {
    begin_group("search: 32 outlets on 64 bins");
    for (int turn = 0; turn < 400; turn++) {
        job j = search_job(MOST_OUTLETS, MOST_BINS);
        try_search(&j, MOST_OUTLETS, NULL);
    }
    end_group();
}

static void rails_with_answers(void) {
    begin_group("search: small figures side by side, any budget");
    for (int turn = 0; turn < 400; turn++) {
        job j = figures_job(below(MOST_OUTLETS + 1));
        try_search(&j, MOST_OUTLETS, NULL);
    }
    end_group();
}

/* Yes exactly if some order is within the budget: all orders are tried. The order handed over has the crossings returned. */
static void against_all_orders(void) {
    begin_group("search: small rails against all their orders");
    for (int turn = 0; turn < 3000; turn++) {
        uint8_t order[ROW];
        size_t n = below(7);
        job j = search_job(n, 1 + below(10));
        uint64_t least = doc_least(j.outlets, j.outlets_len), budget = j.budget == RAIL_UNWRITTEN ? 0 : j.budget;
        rail_found found = try_search(&j, j.outlets_len, order);
        if (wrong((found.number == 0) == (least <= budget))) printf("the least crossings are %" PRIu64 "\n", least);
        if (found.number == 0 && wrong(try_count(&j, order, j.outlets_len).crossings == found.crossings)) printf("the order's crossings\n");
    }
    end_group();
}

/* Pairs that cost 1 and 2, each on bins of their own, and one pair that no budget pays for: each level of the walk opens both ways. */
static void many_cases(void) {
    begin_group("search: rails that open many cases");
    for (size_t n = 4; n <= 20; n += 2)
        for (uint64_t budget = 0; budget <= 14; budget += 2) {
            job j = {MOST_BINS, budget, n, {0}};
            for (size_t o = 0; o + 2 < n; o++) j.outlets[o] = (o % 2 ? UINT64_C(5) : UINT64_C(3)) << o / 2 * 2;
            j.outlets[n - 2] = UINT64_C(0xf0f) << 40;
            j.outlets[n - 1] = UINT64_C(0x0f0) << 40;
            try_search(&j, n, NULL);
        }
    end_group();
}

static void numbers_at_limits(void) {
    begin_group("search, write, count: every number at and past its limit");
    for (size_t b = 0; b < ENTRIES(at_limits_of_bins); b++)
        for (size_t k = 0; k < ENTRIES(at_limits_of_budget); k++)
            for (size_t o = 0; o < ENTRIES(at_limits_of_outlets); o++) {
                uint8_t order[ROW];
                size_t n = at_limits_of_outlets[o];
                job j = {at_limits_of_bins[b], at_limits_of_budget[k], n, {0}};
                for (size_t outlet = 0; outlet < n; outlet++) j.outlets[outlet] = below(3) ? 0 : (uint64_t)1 << below(2);
                random_order(order, n);
                try_search(&j, n, NULL);
                try_search(&j, n > 0 ? n - 1 : 1, NULL);
                try_search(&j, 0, NULL);
                try_write(&j, LONGEST_SHEET, NULL);
                try_write(&j, 0, NULL);
                try_count(&j, order, n);
                try_count(&j, order, 0);
            }
    end_group();
}

static void hoses_beyond_the_bins(void) {
    begin_group("search, write, count: a hose beyond the bins");
    for (uint64_t bins = 0; bins < MOST_BINS; bins++)
        for (unsigned stray = 0; stray < MOST_BINS; stray++) {
            uint8_t order[ROW];
            job j = random_job(1 + below(MOST_OUTLETS), bins);
            j.outlets[below(j.outlets_len)] |= (uint64_t)1 << stray;
            j.budget = below(4) ? below(4) : 31;
            random_order(order, j.outlets_len);
            if (below(2)) order[0] = 255;
            if (stray >= bins) try_search(&j, below(2) ? j.outlets_len : 0, NULL);
            try_write(&j, below(2) ? LONGEST_SHEET : below(20), NULL);
            try_count(&j, order, j.outlets_len);
        }
    end_group();
}

/* A sheet, read with enough room or too little, and walked over record by record. Taken, it is written again as the same bytes. */
static void try_sheet(const uint8_t *sheet, size_t length, bool every_place) {
    job j = {0, 0, 0, {0}};
    size_t outlets = length > 5 ? sheet[5] : 0;
    size_t rooms[] = {MOST_OUTLETS, outlets, outlets + 1, outlets > 0 ? outlets - 1 : 0, 0};
    rail_job read = try_read(sheet, length, rooms[below(4) ? below(3) : below(5)], j.outlets);
    if (read.number == 0) {
        uint8_t again[LONGEST_SHEET] = {0};
        j.bins = read.bins;
        j.outlets_len = read.outlets;
        j.budget = read.budget;
        if (wrong(try_write(&j, LONGEST_SHEET, again).length == length && memcmp(again, sheet, length) == 0)) printf("another sheet\n");
    }
    rail_record record = try_next(sheet, length, 0);
    while (record.number == 0 && record.kind != 0) record = try_next(sheet, length, record.next);
    for (uint64_t place = 0; every_place && place <= length + 2; place++) try_next(sheet, length, place);
    try_next(sheet, length, UINT64_MAX - below(6));
    try_next(sheet, length, ((uint64_t)1 << 32) + below(length + 1));
}

static void jobs_and_back(void) {
    begin_group("write and read: the same job, the same bytes");
    for (size_t n = 0; n <= MOST_OUTLETS; n++)
        for (int turn = 0; turn < 40; turn++) {
            uint8_t sheet[LONGEST_SHEET];
            job j = random_job(n, below(MOST_BINS + 1));
            rail_written written = try_write(&j, LONGEST_SHEET, sheet);
            if (written.number != 0) continue;
            uint64_t outlets[MOST_OUTLETS] = {0};
            rail_job read = try_read(sheet, written.length, MOST_OUTLETS, outlets);
            bool same = read.bins == j.bins && read.outlets == n && read.budget == j.budget && memcmp(outlets, j.outlets, n * 8) == 0;
            if (wrong(same)) printf("another job\n");
            try_write(&j, written.length, NULL);
            try_write(&j, written.length - 1, NULL);
            try_write(&j, below(written.length), NULL);
            try_sheet(sheet, written.length, n < 6);
        }
    end_group();
}

static size_t sheet_of(job j, uint8_t *sheet) { return doc_write(j.bins, j.outlets, j.outlets_len, j.budget, sheet, LONGEST_SHEET).length; }

/* Sheets to damage: small ones of every kind, and the longest. */
static size_t sheet_to_damage(int turn, uint8_t *sheet) {
    job longest = {MOST_BINS, MOST_BUDGET, MOST_OUTLETS, {0}};
    for (size_t o = 0; o < MOST_OUTLETS; o++) longest.outlets[o] = UINT64_MAX;
    return sheet_of(turn == 0 ? longest : small_job(5, turn % 4 ? 11 : MOST_BINS), sheet);
}

static void each_byte_changed(void) {
    begin_group("read and next: each byte of a sheet changed");
    for (int turn = 0; turn < 60; turn++) {
        uint8_t sheet[LONGEST_SHEET];
        size_t length = sheet_to_damage(turn, sheet);
        for (size_t place = 0; place < length; place += turn == 0 && place > 150 ? 13 : 1) {
            uint8_t kept = sheet[place], others[] = {(uint8_t)(kept + 1), (uint8_t)(kept - 1), kept ^ 0x80, 0, 64, 65, 255, (uint8_t)any()};
            for (size_t o = 0; o < sizeof others; o++) {
                sheet[place] = others[o];
                try_sheet(sheet, length, false);
            }
            sheet[place] = kept;
        }
    }
    end_group();
}

static void cut_and_lengthened(void) {
    begin_group("read and next: sheets cut at each length, lengthened");
    for (int turn = 0; turn < 60; turn++) {
        uint8_t sheet[LONGEST_SHEET + 80];
        size_t length = sheet_to_damage(turn, sheet);
        for (size_t cut = 0; cut < length; cut += turn == 0 && cut > 150 ? 13 : 1) try_sheet(sheet, cut, turn > 0);
        for (size_t more = 1; more <= 80; more++) {
            sheet[length + more - 1] = more == 1 ? (uint8_t)below(70) : more == 3 ? 2 : 0;
            try_sheet(sheet, length + more, false);
        }
    }
    end_group();
}

static void several_bytes_changed(void) {
    begin_group("read and next: several bytes changed, any bytes");
    for (int turn = 0; turn < 3000; turn++) {
        uint8_t sheet[LONGEST_SHEET];
        size_t length = sheet_of(small_job(7, MOST_BINS), sheet);
        for (uint64_t changes = 1 + below(4); changes > 0; changes--) {
            size_t place = below(length);
            sheet[place] = (uint8_t)(below(2) ? any() : below(4));
        }
        try_sheet(sheet, length, false);
        for (size_t place = 0; place < 40; place++) sheet[place] = (uint8_t)(below(4) ? below(4) : any());
        try_sheet(sheet, below(41), false);
    }
    end_group();
}

static void every_number(void) {
    static const struct {
        const char *name;
        enum function f;
        unsigned numbers[12]; /* after its 0, the refusals that the function has */
    } functions[] = {{"count", COUNT, {0, 1, 2, 4, 7}}, {"search", SEARCH, {0, 1, 2, 3, 4, 5, 6}}, {"write", WRITE, {0, 1, 2, 3, 4, 5}},
                     {"read", READ, {0, 1, 2, 3, 4, 5, 8, 9, 10, 11, 12}}, {"next", NEXT, {0, 8, 9, 10}}};
    begin_group("every number of every function came up");
    for (size_t f = 0; f < ENTRIES(functions); f++)
        for (size_t n = 0; n == 0 || functions[f].numbers[n] != 0; n++)
            if (wrong(answered(functions[f].f, functions[f].numbers[n]) >= 100)) printf("%s: %u\n", functions[f].name, functions[f].numbers[n]);
    end_group();
}

/* 30 pairs that cost 1 and 2 and are placed one by one, the cheaper way each: 31 levels, as many as there can be. */
static const uint64_t deep[MOST_OUTLETS] = {0x3, 0x5, 0x9, 0x11, 0x21, 0x41, 0x81, 0x101, 0xd00, 0x200, 0x6800, 0x1000};
static uint8_t room[LONGEST_SHEET], sheet[LONGEST_SHEET], order[MOST_OUTLETS];
static uint64_t outlets[MOST_OUTLETS];
static rail_found found;
static uint64_t sheet_len;

static void call_pair(void) { rail_pair(UINT64_MAX, UINT64_MAX); }
static void call_count(void) { rail_count(MOST_BINS, deep, MOST_OUTLETS, order, MOST_OUTLETS); }
static void call_search(void) { found = rail_search(MOST_BINS, deep, MOST_OUTLETS, MOST_BUDGET, room, sizeof room); }
static void call_read(void) { rail_read(sheet, sheet_len, outlets, MOST_OUTLETS); }
static void call_write(void) { rail_write(MOST_BINS, deep, MOST_OUTLETS, MOST_BUDGET, room, sizeof room); }
static void call_next(void) { rail_next(sheet, sheet_len, 0); }

static void stack_taken(void) {
    static const struct {
        const char *name;
        void (*call)(void);
    } calls[] = {{"pair", call_pair}, {"count", call_count}, {"search", call_search},
                 {"read", call_read}, {"write", call_write}, {"next", call_next}};
    job j = {MOST_BINS, MOST_BUDGET, MOST_OUTLETS, {0}};
    memcpy(j.outlets, deep, sizeof deep);
    sheet_len = sheet_of(j, sheet);
    for (uint8_t o = 0; o < MOST_OUTLETS; o++) order[o] = o;
    begin_group("stack: no call takes more than the header says");
    for (size_t c = 0; c < ENTRIES(calls); c++) {
        size_t taken = stack_of(calls[c].call);
        printf("  rail_%s took %zu bytes of stack\n", calls[c].name, taken);
        if (wrong(taken <= RAIL_STACK)) printf("more than RAIL_STACK\n");
    }
    if (wrong(found.cases == MOST_BUDGET + 1)) printf("the walk was not the deepest\n");
    end_group();
}

int main(int argc, char **argv) {
    uint64_t seed = argc > 1 ? strtoull(argv[1], NULL, 0) : 20240601;
    setvbuf(stdout, NULL, _IOLBF, 0);
    printf("seed %" PRIu64 "\n", seed);
    seed_with(seed);
    worked_rails();
    sheet_of_three();
    pairs();
    orders();
    damaged_orders();
    rails_of_every_size();
    full_rails();
    rails_with_answers();
    against_all_orders();
    many_cases();
    numbers_at_limits();
    hoses_beyond_the_bins();
    jobs_and_back();
    each_byte_changed();
    cut_and_lengthened();
    several_bytes_changed();
    every_number();
    stack_taken();
    printf("%u passed, %u failed\n", groups_passed(), groups_failed());
    return groups_failed() != 0;
}
