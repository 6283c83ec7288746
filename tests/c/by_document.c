/* The operations as document 01 words them. A relation is a table of who stands left of whom, handed on by value. */
#include "by_document.h"

#include <stdbool.h>
#include <string.h>

typedef struct { bool left[MOST_OUTLETS][MOST_OUTLETS]; } relation;

typedef struct {
    size_t outlets;
    uint64_t cross[MOST_OUTLETS][MOST_OUTLETS];
    uint64_t cases;
    uint8_t order[MOST_OUTLETS];
} rail_walk;

static bool has_hose(uint64_t outlet, unsigned bin) { return outlet >> bin & 1; }

uint64_t doc_pair(uint64_t a, uint64_t b) {
    uint64_t crossings = 0;
    for (unsigned x = 0; x < MOST_BINS; x++)
        if (has_hose(a, x))
            for (unsigned y = 0; y < x; y++) crossings += has_hose(b, y);
    return crossings;
}

static bool stray_hose(uint64_t bins, const uint64_t *outlets, size_t outlets_len) {
    for (size_t o = 0; o < outlets_len; o++)
        for (unsigned bin = 0; bin < MOST_BINS; bin++)
            if (has_hose(outlets[o], bin) && bin >= bins) return true;
    return false;
}

static bool is_order(size_t outlets_len, const uint8_t *order, size_t order_len) {
    if (order_len != outlets_len) return false;
    for (size_t place = 0; place < order_len; place++) {
        if (order[place] >= outlets_len) return false;
        for (size_t earlier = 0; earlier < place; earlier++)
            if (order[earlier] == order[place]) return false;
    }
    return true;
}

static uint64_t crossings_of(const uint64_t *outlets, const uint8_t *order, size_t order_len) {
    uint64_t crossings = 0;
    for (size_t left = 0; left < order_len; left++)
        for (size_t right = left + 1; right < order_len; right++) crossings += doc_pair(outlets[order[left]], outlets[order[right]]);
    return crossings;
}

rail_counted doc_count(uint64_t bins, const uint64_t *outlets, size_t outlets_len, const uint8_t *order, size_t order_len) {
    if (bins > MOST_BINS) return (rail_counted){1, 0};
    if (outlets_len > MOST_OUTLETS) return (rail_counted){2, 0};
    if (stray_hose(bins, outlets, outlets_len)) return (rail_counted){4, 0};
    if (!is_order(outlets_len, order, order_len)) return (rail_counted){7, 0};
    return (rail_counted){0, crossings_of(outlets, order, order_len)};
}

/* Rules 1, 2 and 3 of the base. */
static bool base_placement(const rail_walk *walk, const uint64_t *outlets, size_t a, size_t b) {
    bool a_has = outlets[a] != 0, b_has = outlets[b] != 0;
    if (a_has && !b_has) return true;
    if (a_has && b_has && walk->cross[a][b] == 0 && walk->cross[b][a] > 0) return true;
    return a < b && (outlets[a] == outlets[b] || (!a_has && !b_has));
}

static relation base_of(const rail_walk *walk, const uint64_t *outlets) {
    relation base = {{{false}}};
    for (size_t a = 0; a < walk->outlets; a++)
        for (size_t b = 0; b < walk->outlets; b++) base.left[a][b] = a != b && base_placement(walk, outlets, a, b);
    return base;
}

/* A placement, with all that follow by transitivity: whatever can be reached by way of m, for each outlet m in turn. */
static relation placed(relation r, size_t outlets, size_t a, size_t b) {
    r.left[a][b] = true;
    for (size_t m = 0; m < outlets; m++)
        for (size_t u = 0; u < outlets; u++)
            if (r.left[u][m])
                for (size_t v = 0; v < outlets; v++) r.left[u][v] |= r.left[m][v];
    return r;
}

/* The cross values of the pairs that `after` places and `before` did not. */
static int64_t price(const rail_walk *walk, const relation *before, const relation *after) {
    int64_t sum = 0;
    for (size_t u = 0; u < walk->outlets; u++)
        for (size_t v = 0; v < walk->outlets; v++)
            if (after->left[u][v] && !before->left[u][v]) sum += (int64_t)walk->cross[u][v];
    return sum;
}

static bool unplaced(const relation *r, size_t a, size_t b) { return !r->left[a][b] && !r->left[b][a]; }

static int64_t equal_costs(const rail_walk *walk, const relation *r) {
    int64_t sum = 0;
    for (size_t a = 0; a < walk->outlets; a++)
        for (size_t b = a + 1; b < walk->outlets; b++)
            if (unplaced(r, a, b)) sum += (int64_t)walk->cross[a][b];
    return sum;
}

static bool free_to_stand(const rail_walk *walk, const relation *r, const bool *standing, size_t outlet) {
    for (size_t u = 0; u < walk->outlets; u++)
        if (!standing[u] && r->left[u][outlet]) return false;
    return !standing[outlet];
}

/* From left to right: the smallest-numbered outlet not yet standing that has no outlet still to stand left of it. */
static void make_order(rail_walk *walk, const relation *r) {
    bool standing[MOST_OUTLETS] = {false};
    for (size_t place = 0; place < walk->outlets; place++) {
        size_t next = 0;
        while (!free_to_stand(walk, r, standing, next)) next++;
        walk->order[place] = (uint8_t)next;
        standing[next] = true;
    }
}

/* A case that the walk reaches with this remaining budget; true where it finds an order. */
static bool reach_case(rail_walk *walk, relation r, int64_t rest) {
    if (rest < 0) return false;
    walk->cases++;
    for (size_t a = 0; a < walk->outlets; a++)
        for (size_t b = a + 1; b < walk->outlets; b++) {
            if (!unplaced(&r, a, b) || walk->cross[a][b] == walk->cross[b][a]) continue;
            bool a_first = walk->cross[a][b] < walk->cross[b][a];
            relation cheaper = a_first ? placed(r, walk->outlets, a, b) : placed(r, walk->outlets, b, a);
            if (reach_case(walk, cheaper, rest - price(walk, &r, &cheaper))) return true;
            relation other = a_first ? placed(r, walk->outlets, b, a) : placed(r, walk->outlets, a, b);
            return reach_case(walk, other, rest - price(walk, &r, &other));
        }
    if (equal_costs(walk, &r) > rest) return false;
    make_order(walk, &r);
    return true;
}

static rail_walk walk_on(const uint64_t *outlets, size_t outlets_len) {
    rail_walk walk = {outlets_len, {{0}}, 0, {0}};
    for (size_t a = 0; a < outlets_len; a++)
        for (size_t b = 0; b < outlets_len; b++) walk.cross[a][b] = doc_pair(outlets[a], outlets[b]);
    return walk;
}

static uint64_t base_price(const rail_walk *walk, const relation *base) {
    const relation none = {{{false}}};
    return (uint64_t)price(walk, &none, base);
}

uint64_t doc_base_cost(const uint64_t *outlets, size_t outlets_len) {
    rail_walk walk = walk_on(outlets, outlets_len);
    relation base = base_of(&walk, outlets);
    return base_price(&walk, &base);
}

/* The checks 1, 2, 3, 4 of a job. */
static uint64_t job_number(uint64_t bins, const uint64_t *outlets, size_t outlets_len, uint64_t budget) {
    if (bins > MOST_BINS) return 1;
    if (outlets_len > MOST_OUTLETS) return 2;
    if (budget > MOST_BUDGET && budget != RAIL_UNWRITTEN) return 3;
    if (stray_hose(bins, outlets, outlets_len)) return 4;
    return 0;
}

rail_found doc_search(uint64_t bins, const uint64_t *outlets, size_t outlets_len, uint64_t budget, uint8_t *room, size_t room_len) {
    uint64_t number = job_number(bins, outlets, outlets_len, budget);
    if (number == 0 && room_len < outlets_len) number = 5;
    if (number != 0) return (rail_found){number, 0, 0};
    rail_walk walk = walk_on(outlets, outlets_len);
    relation base = base_of(&walk, outlets);
    int64_t k = budget == RAIL_UNWRITTEN ? 0 : (int64_t)budget;
    if (!reach_case(&walk, base, k - (int64_t)base_price(&walk, &base))) return (rail_found){6, 0, walk.cases};
    for (size_t place = 0; place < outlets_len; place++) room[place] = walk.order[place];
    return (rail_found){0, crossings_of(outlets, walk.order, outlets_len), walk.cases};
}

static uint64_t least_from(const uint64_t *outlets, uint8_t *order, size_t outlets_len, size_t standing) {
    if (standing == outlets_len) return crossings_of(outlets, order, outlets_len);
    uint64_t least = UINT64_MAX;
    for (uint8_t outlet = 0; outlet < outlets_len; outlet++) {
        if (memchr(order, outlet, standing)) continue;
        order[standing] = outlet;
        uint64_t crossings = least_from(outlets, order, outlets_len, standing + 1);
        if (crossings < least) least = crossings;
    }
    return least;
}

uint64_t doc_least(const uint64_t *outlets, size_t outlets_len) {
    uint8_t order[MOST_OUTLETS];
    return least_from(outlets, order, outlets_len, 0);
}

/* The record at a place, looked at for 8, 9, 10 and 8 again. */
static rail_record record_at(const uint8_t *sheet, size_t sheet_len, uint64_t place, uint64_t kind) {
    uint64_t left = sheet_len - place;
    if (left < 4) return (rail_record){8, 0, 0, 0, place};
    uint64_t length = sheet[place] + 256u * sheet[place + 1];
    if (sheet[place + 2] + 256u * sheet[place + 3] != kind) return (rail_record){9, 0, 0, 0, place};
    if (kind == 1 ? length != 3 : length > 64) return (rail_record){10, 0, 0, 0, place};
    if (length > left - 4) return (rail_record){8, 0, 0, 0, place};
    return (rail_record){0, kind, place + 4, length, place + 4 + length};
}

rail_record doc_next(const uint8_t *sheet, size_t sheet_len, uint64_t place) {
    if (place > sheet_len) return (rail_record){8, 0, 0, 0, place};
    if (place == sheet_len && sheet_len > 0) return (rail_record){0, 0, 0, 0, place};
    return record_at(sheet, sheet_len, place, place == 0 ? 1 : 2);
}

/* The bins of an outlet record, entry by entry, 4 before 11. */
static uint64_t read_bins(const uint8_t *body, uint64_t length, uint64_t bins, uint64_t *outlet) {
    *outlet = 0;
    for (uint64_t entry = 0; entry < length; entry++) {
        if (body[entry] >= bins) return 4;
        if (entry > 0 && body[entry] <= body[entry - 1]) return 11;
        *outlet |= (uint64_t)1 << body[entry];
    }
    return 0;
}

rail_job doc_read(const uint8_t *sheet, size_t sheet_len, uint64_t *room, size_t room_len) {
    rail_record record = record_at(sheet, sheet_len, 0, 1);
    if (record.number != 0) return (rail_job){record.number, 0, 0, 0};
    uint64_t bins = sheet[4], outlets = sheet[5], budget = sheet[6], filled[MOST_OUTLETS];
    if (bins > MOST_BINS) return (rail_job){1, 0, 0, 0};
    if (outlets > MOST_OUTLETS) return (rail_job){2, 0, 0, 0};
    if (budget > MOST_BUDGET && budget != RAIL_UNWRITTEN) return (rail_job){3, 0, 0, 0};
    if (room_len < outlets) return (rail_job){5, 0, 0, 0};
    for (uint64_t outlet = 0; outlet < outlets; outlet++) {
        record = record_at(sheet, sheet_len, record.next, 2);
        if (record.number == 0) record.number = read_bins(sheet + record.start, record.length, bins, &filled[outlet]);
        if (record.number != 0) return (rail_job){record.number, 0, 0, 0};
    }
    if (record.next != sheet_len) return (rail_job){12, 0, 0, 0};
    for (uint64_t outlet = 0; outlet < outlets; outlet++) room[outlet] = filled[outlet];
    return (rail_job){0, bins, outlets, budget};
}

rail_written doc_write(uint64_t bins, const uint64_t *outlets, size_t outlets_len, uint64_t budget, uint8_t *room, size_t room_len) {
    uint64_t number = job_number(bins, outlets, outlets_len, budget);
    if (number != 0) return (rail_written){number, 0};
    uint8_t sheet[LONGEST_SHEET] = {3, 0, 1, 0, (uint8_t)bins, (uint8_t)outlets_len, (uint8_t)budget};
    size_t length = 7;
    for (size_t o = 0; o < outlets_len; o++) {
        uint8_t *record = sheet + length;
        record[2] = 2;
        for (uint8_t bin = 0; bin < MOST_BINS; bin++)
            if (has_hose(outlets[o], bin)) record[4 + record[0]++] = bin;
        length += 4u + record[0];
    }
    if (room_len < length) return (rail_written){5, 0};
    for (size_t place = 0; place < length; place++) room[place] = sheet[place];
    return (rail_written){0, length};
}
