/* Small rails, rails with an answer, full rails, and the worst that worst.c found for each budget. */
#include "rails.h"

enum { BINS = 64, OUTLETS = 32 };

static const rail listed[] = {
    {"empty", 0, 0, 0, {0}, 0},
    {"fork", 3, 1, 2, {0x5, 0x2}, 0},
    {"three, no answer", 4, 3, 3, {0xd, 0x2, 0x9}, 0},
    {"three", 4, 4, 3, {0xd, 0x2, 0x9}, 1},
    {"late answer", 64, 30, 25, {0xa1, 0xc000, 0x14000, 0x30000, 0x50000, 0xc0000, 0x140000, 0x300000, 0x500000, 0xc00000, 0x1400000,
                                 0x3000000, 0x5000000, 0xc000000, 0x14000000, 0x30000000, 0x50000000, 0xc0000000, 0x140000000,
                                 0x300000000, 0x500000000, 0x406, 0x1c20, 0x2700, 0x18}, 0},
};

/* What worst.c found: for budgets up to 20 pairs side by side, and one around them; for more, groups of three among them. */
static const uint64_t worst_pairs[OUTLETS] = {
    0x6, 0xa, 0x18, 0x28, 0x60, 0xa0, 0x180, 0x280, 0x600, 0xa00, 0x1800, 0x2800, 0x6000, 0xa000, 0x18000, 0x28000, 0x60000, 0xa0000,
    0x180000, 0x280000, 0x600000, 0xa00000, 0x1800000, 0x2800000, 0x6000000, 0xa000000, 0x18000000, 0x28000000, 0x60000000, 0xa0000000,
    0x100000001, 0x200000001};
static const uint64_t worst_25[OUTLETS] = {
    0x6, 0xa0000, 0x100000001, 0x60, 0xa00, 0x1800, 0x280, 0x60000, 0x200000001, 0x6000, 0x28, 0xa00000, 0xa000, 0x18000, 0x1800000,
    0x280000, 0x50000000, 0xa, 0x30000000, 0x6000000, 0x18, 0x2800, 0xa0, 0x180000, 0xa000000, 0x28000, 0x2800000, 0x180, 0x600000,
    0x90000000, 0x12000000, 0x600};
static const uint64_t worst_30[OUTLETS] = {
    0x2400000, 0x2800, 0x60000, 0x200000001, 0x28000, 0xc00000, 0x100000001, 0x480000, 0x18000, 0x6000, 0x6, 0xa000, 0x60, 0x600,
    0x280000, 0x28, 0x280, 0xa0, 0x180000, 0xa, 0xa000000, 0x6000000, 0x30000000, 0xa00, 0x90000000, 0xa0000, 0x18, 0x50000000,
    0x12000000, 0x1800, 0x1400000, 0x180};

static const struct {
    const char *name;
    const uint64_t *outlets;
    uint64_t budget;
} worst[] = {{"worst 5", worst_pairs, 5},   {"worst 10", worst_pairs, 10}, {"worst 15", worst_pairs, 15},
             {"worst 20", worst_pairs, 20}, {"worst 25", worst_25, 25},    {"worst 30", worst_30, 30}};

static const char *const tridents_names[] = {"tridents 4", "tridents 8", "tridents 12", "tridents 16",
                                             "tridents 20", "tridents 24", "tridents 28", "tridents 32"};

enum { LISTED = sizeof listed / sizeof *listed, TRIDENTS = 8, FULL = 3, WORST = sizeof worst / sizeof *worst };

/* {x, x+2, x+3} and {x+1}, side by side: one case for each pair, and an answer. */
static rail tridents(size_t outlets_len) {
    rail r = {tridents_names[outlets_len / 4 - 1], BINS, 30, outlets_len, {0}, outlets_len % 16 == 0};
    for (size_t o = 0; o < outlets_len; o++) r.outlets[o] = (o % 2 ? UINT64_C(0x2) : UINT64_C(0xd)) << o / 2 * 4;
    return r;
}

/* splitmix64 */
static uint64_t any(uint64_t *state) {
    uint64_t z = (*state += 0x9e3779b97f4a7c15);
    z = (z ^ (z >> 30)) * 0xbf58476d1ce4e5b9;
    z = (z ^ (z >> 27)) * 0x94d049bb133111eb;
    return z ^ (z >> 31);
}

/* 32 outlets on 64 bins with every hose, with half of them, and with three at an outlet. */
static rail full(size_t kind) {
    static const char *const names[FULL] = {"full, every hose", "full, half the hoses", "full, three hoses"};
    rail r = {names[kind], BINS, 30, OUTLETS, {0}, 1};
    uint64_t state = 1;
    for (size_t o = 0; o < OUTLETS; o++) {
        if (kind == 0) r.outlets[o] = UINT64_MAX;
        if (kind == 1) r.outlets[o] = any(&state);
        for (int hose = 0; kind == 2 && hose < 3; hose++) r.outlets[o] |= (uint64_t)1 << any(&state) % BINS;
    }
    return r;
}

size_t rails(void) { return LISTED + TRIDENTS + FULL + WORST; }

rail rail_of(size_t number) {
    if (number < LISTED) return listed[number];
    number -= LISTED;
    if (number < TRIDENTS) return tridents(4 * (number + 1));
    number -= TRIDENTS;
    if (number < FULL) return full(number);
    number -= FULL;
    rail r = {worst[number].name, BINS, worst[number].budget, OUTLETS, {0}, 0};
    for (size_t o = 0; o < OUTLETS; o++) r.outlets[o] = worst[number].outlets[o];
    return r;
}
