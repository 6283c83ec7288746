/* The kinds of rail: sparse, near (hoses side by side, so that many cases open), dense, twins, bare outlets, and small figures side by side. */
#include "inputs.h"

static uint64_t state;

void seed_with(uint64_t seed) { state = seed; }

/* splitmix64 */
uint64_t any(void) {
    uint64_t z = (state += 0x9e3779b97f4a7c15);
    z = (z ^ (z >> 30)) * 0xbf58476d1ce4e5b9;
    z = (z ^ (z >> 27)) * 0x94d049bb133111eb;
    return z ^ (z >> 31);
}

uint64_t below(uint64_t limit) { return any() % limit; }

static uint64_t all_bins(uint64_t bins) { return bins == 0 ? 0 : UINT64_MAX >> (64 - bins); }

/* A few hoses from the bins of a window. */
static uint64_t few_hoses(uint64_t from, uint64_t width, uint64_t most) {
    uint64_t outlet = 0;
    for (uint64_t hoses = below(most + 1); hoses > 0; hoses--) outlet |= (uint64_t)1 << (from + below(width));
    return outlet;
}

static uint64_t near_hoses(uint64_t bins, size_t place, size_t outlets_len) {
    uint64_t width = bins < 6 ? bins : 3 + below(4);
    uint64_t from = (bins - width) * place / outlets_len;
    uint64_t one_at_least = (uint64_t)1 << (from + below(width));
    return few_hoses(from, width, 3) | one_at_least;
}

/* Trident, fork and two outlets from one bin on, each pair on four bins of its own. */
static uint64_t figure_hoses(uint64_t bins, size_t place) {
    static const uint64_t figures[3][2] = {{0xd, 0x2}, {0x5, 0x2}, {0x3, 0x5}};
    return figures[place / 2 % 3][place % 2] << (place / 2 * 4 % (bins - 3));
}

static uint64_t hoses_of_kind(uint64_t kind, const job *j, size_t place) {
    switch (kind) {
    case 0: return few_hoses(0, j->bins, 3);
    case 1: return near_hoses(j->bins, place, j->outlets_len);
    case 2: return any() & all_bins(j->bins);
    case 3: return place > 0 && below(2) ? j->outlets[below(place)] : near_hoses(j->bins, place, j->outlets_len);
    case 4: return below(2) ? 0 : few_hoses(0, j->bins, 2);
    default: return j->bins < 4 ? few_hoses(0, j->bins, 2) : figure_hoses(j->bins, place);
    }
}

static void shuffle(uint64_t *row, size_t length) {
    for (size_t last = length; last > 1; last--) {
        size_t other = below(last);
        uint64_t kept = row[last - 1];
        row[last - 1] = row[other];
        row[other] = kept;
    }
}

/* What is left at the root stays small, the smaller the longer the rail: a rest r opens at most F(r + 3) - 1 cases. */
static uint64_t search_budget(const job *j) {
    if (below(16) == 0) return RAIL_UNWRITTEN;
    uint64_t base = doc_base_cost(j->outlets, j->outlets_len);
    uint64_t budget = base + below(j->outlets_len < 8 ? 31 : j->outlets_len < 14 ? 17 : 13);
    if (below(8) == 0 && base > 0) budget = base - 1;
    return budget <= MOST_BUDGET ? budget : base > MOST_BUDGET ? below(MOST_BUDGET + 1) : base;
}

job random_job(size_t outlets_len, uint64_t bins) {
    job j = {bins, 0, outlets_len, {0}};
    uint64_t kind = below(7);
    if (bins > 0)
        for (size_t place = 0; place < outlets_len; place++)
            j.outlets[place] = hoses_of_kind(kind < 6 ? kind : below(6), &j, place);
    if (below(4)) shuffle(j.outlets, outlets_len);
    j.budget = below(16) ? below(MOST_BUDGET + 1) : RAIL_UNWRITTEN;
    return j;
}

job small_job(size_t outlets, uint64_t bins) {
    size_t outlets_len = below(outlets + 1);
    return random_job(outlets_len, below(bins + 1));
}

job search_job(size_t outlets_len, uint64_t bins) {
    job j = random_job(outlets_len, bins);
    j.budget = search_budget(&j);
    return j;
}

job figures_job(size_t outlets_len) {
    job j = {MOST_BINS, below(MOST_BUDGET + 1), outlets_len, {0}};
    for (size_t place = 0; place < outlets_len; place++) j.outlets[place] = figure_hoses(MOST_BINS, place);
    shuffle(j.outlets, outlets_len);
    return j;
}

void random_order(uint8_t *order, size_t outlets_len) {
    uint64_t row[ROW];
    for (size_t o = 0; o < outlets_len; o++) row[o] = o;
    shuffle(row, outlets_len);
    for (size_t o = 0; o < outlets_len; o++) order[o] = (uint8_t)row[o];
}
