/* What a C programmer would write who cares for speed: the same walk, with the placements as rows of bits both ways, a mask of the
   differing pairs, the costs in a table made once, and each trial undone when it has found nothing. */
#include "plain.h"

#include <stdbool.h>
#include <string.h>

enum { MOST_BINS = 64, MOST_OUTLETS = 32, MOST_BUDGET = 30 };

typedef struct {
    uint32_t left[MOST_OUTLETS];   /* left[v]: the outlets placed left of v */
    uint32_t right[MOST_OUTLETS];  /* right[u]: the outlets placed right of u */
    uint32_t differ[MOST_OUTLETS]; /* differ[a]: the outlets b > a whose two cross values with a differ */
    uint32_t outlets;
    uint32_t cases;
    uint16_t cross[MOST_OUTLETS][MOST_OUTLETS];
} walk;

/* The count of ones, where the processor may have no instruction for it. */
static inline uint64_t ones(uint64_t x) {
    x -= x >> 1 & 0x5555555555555555;
    x = (x & 0x3333333333333333) + (x >> 2 & 0x3333333333333333);
    x = (x + (x >> 4)) & 0x0f0f0f0f0f0f0f0f;
    return x * 0x0101010101010101 >> 56;
}

static inline unsigned lowest(uint32_t set) { return (unsigned)__builtin_ctz(set); }

static inline uint32_t one(unsigned outlet) { return (uint32_t)1 << outlet; }

uint64_t plain_pair(uint64_t a, uint64_t b) {
    uint64_t crossings = 0;
    for (; a != 0; a &= a - 1) crossings += ones(b & (a - 1) & ~a);
    return crossings;
}

static bool stray_hose(uint64_t bins, const uint64_t *outlets, size_t outlets_len) {
    uint64_t all = 0;
    for (size_t o = 0; o < outlets_len; o++) all |= outlets[o];
    return bins < MOST_BINS && all >> bins != 0;
}

static uint64_t job_number(uint64_t bins, const uint64_t *outlets, size_t outlets_len, uint64_t budget) {
    if (bins > MOST_BINS) return 1;
    if (outlets_len > MOST_OUTLETS) return 2;
    if (budget > MOST_BUDGET && budget != RAIL_UNWRITTEN) return 3;
    return stray_hose(bins, outlets, outlets_len) ? 4 : 0;
}

static bool is_order(size_t outlets_len, const uint8_t *order, size_t order_len) {
    if (order_len != outlets_len) return false;
    uint32_t seen = 0;
    for (size_t place = 0; place < order_len; place++) {
        if (order[place] >= outlets_len || (seen & one(order[place]))) return false;
        seen |= one(order[place]);
    }
    return true;
}

rail_counted plain_count(uint64_t bins, const uint64_t *outlets, size_t outlets_len, const uint8_t *order, size_t order_len) {
    uint64_t number = job_number(bins, outlets, outlets_len, 0), crossings = 0;
    if (number == 0 && !is_order(outlets_len, order, order_len)) number = 7;
    if (number != 0) return (rail_counted){number, 0};
    for (size_t left = 0; left < order_len; left++)
        for (size_t right = left + 1; right < order_len; right++) crossings += plain_pair(outlets[order[left]], outlets[order[right]]);
    return (rail_counted){0, crossings};
}

/* Whether the base places a left of b. */
static bool base_places(const walk *w, const uint64_t *outlets, unsigned a, unsigned b) {
    if (outlets[a] == outlets[b]) return a < b;
    if (outlets[a] == 0 || outlets[b] == 0) return outlets[b] == 0;
    return w->cross[a][b] == 0;
}

static uint32_t base_placement(walk *w, unsigned a, unsigned b) {
    w->right[a] |= one(b);
    w->left[b] |= one(a);
    return w->cross[a][b];
}

/* Makes the table, the base and the mask of differing pairs; answers what the base costs. */
static uint32_t prepare(walk *w, const uint64_t *outlets, unsigned outlets_len) {
    uint32_t spent = 0;
    w->outlets = outlets_len;
    w->cases = 0;
    for (unsigned a = 0; a < outlets_len; a++) w->left[a] = w->right[a] = w->differ[a] = 0;
    for (unsigned a = 0; a < outlets_len; a++)
        for (unsigned b = a + 1; b < outlets_len; b++) {
            w->cross[a][b] = (uint16_t)plain_pair(outlets[a], outlets[b]);
            w->cross[b][a] = (uint16_t)plain_pair(outlets[b], outlets[a]);
            if (w->cross[a][b] != w->cross[b][a]) w->differ[a] |= one(b);
            if (base_places(w, outlets, a, b)) spent += base_placement(w, a, b);
            else if (base_places(w, outlets, b, a)) spent += base_placement(w, b, a);
        }
    return spent;
}

/* Whether the rest pays for the pairs left unplaced, which cost the same either way. */
static bool settled(const walk *w, uint32_t rest) {
    uint32_t sum = 0, later = (uint32_t)(((uint64_t)1 << w->outlets) - 1);
    for (unsigned a = 0; a < w->outlets; a++) {
        later &= ~one(a);
        for (uint32_t unplaced = later & ~(w->left[a] | w->right[a]); unplaced != 0; unplaced &= unplaced - 1)
            sum += w->cross[a][lowest(unplaced)];
        if (sum > rest) return false;
    }
    return true;
}

/* An opened case; no differing pair has its smaller outlet before `a`. Placing x left of y places whoever is x or left of it left of whoever
   is y or right of it; who already stands left of y, or right of x, brings nothing new, since the relation is closed. */
static bool open_case(walk *w, unsigned a, uint32_t rest) {
    uint32_t unplaced;
    w->cases++;
    for (;; a++) {
        if (a == w->outlets) return settled(w, rest);
        unplaced = w->differ[a] & ~(w->left[a] | w->right[a]);
        if (unplaced != 0) break;
    }
    unsigned x = a, y = lowest(unplaced);
    if (w->cross[x][y] > w->cross[y][x]) x = y, y = a;
    for (int way = 0; way < 2 && w->cross[x][y] <= rest; way++) {
        uint32_t lefts = (w->left[x] | one(x)) & ~w->left[y], rights = (w->right[y] | one(y)) & ~w->right[x];
        uint32_t cost = 0, right_before[MOST_OUTLETS], left_before[MOST_OUTLETS], *kept = right_before;
        for (uint32_t us = lefts; us != 0; us &= us - 1) {
            unsigned u = lowest(us);
            for (uint32_t vs = rights & ~w->right[u]; vs != 0; vs &= vs - 1) cost += w->cross[u][lowest(vs)];
            *kept++ = w->right[u];
            w->right[u] |= rights;
        }
        if (cost <= rest) {
            kept = left_before;
            for (uint32_t vs = rights; vs != 0; vs &= vs - 1) {
                uint32_t *row = &w->left[lowest(vs)];
                *kept++ = *row;
                *row |= lefts;
            }
            if (open_case(w, a, rest - cost)) return true;
            kept = left_before;
            for (uint32_t vs = rights; vs != 0; vs &= vs - 1) w->left[lowest(vs)] = *kept++;
        }
        kept = right_before;
        for (uint32_t us = lefts; us != 0; us &= us - 1) w->right[lowest(us)] = *kept++;
        unsigned other = x;
        x = y;
        y = other;
    }
    return false;
}

static uint32_t make_order(const walk *w, uint8_t *order) {
    uint32_t standing = 0, crossings = 0;
    for (unsigned place = 0; place < w->outlets; place++) {
        unsigned next = 0;
        while ((standing & one(next)) || (w->left[next] & ~standing)) next++;
        for (uint32_t us = standing; us != 0; us &= us - 1) crossings += w->cross[lowest(us)][next];
        standing |= one(next);
        order[place] = (uint8_t)next;
    }
    return crossings;
}

rail_found plain_search(uint64_t bins, const uint64_t *outlets, size_t outlets_len, uint64_t budget, uint8_t *room, size_t room_len) {
    uint64_t number = job_number(bins, outlets, outlets_len, budget);
    if (number == 0 && room_len < outlets_len) number = 5;
    if (number != 0) return (rail_found){number, 0, 0};
    walk w;
    uint32_t rest = budget == RAIL_UNWRITTEN ? 0 : (uint32_t)budget, spent = prepare(&w, outlets, (unsigned)outlets_len);
    if (spent > rest || !open_case(&w, 0, rest - spent)) return (rail_found){6, 0, w.cases};
    uint32_t crossings = make_order(&w, room);
    return (rail_found){0, crossings, w.cases};
}

/* The record at a place: its number, and where its body starts. */
static uint64_t record_number(const uint8_t *sheet, size_t sheet_len, size_t place, unsigned kind, size_t *length) {
    if (sheet_len - place < 4) return 8;
    *length = sheet[place] | (size_t)sheet[place + 1] << 8;
    if ((sheet[place + 2] | (unsigned)sheet[place + 3] << 8) != kind) return 9;
    if (kind == 1 ? *length != 3 : *length > MOST_BINS) return 10;
    return *length > sheet_len - place - 4 ? 8 : 0;
}

static uint64_t read_outlet(const uint8_t *body, size_t length, uint64_t bins, uint64_t *outlet) {
    uint64_t set = 0;
    for (size_t entry = 0; entry < length; entry++) {
        if (body[entry] >= bins) return 4;
        if (set >> body[entry] != 0) return 11;
        set |= (uint64_t)1 << body[entry];
    }
    *outlet = set;
    return 0;
}

rail_job plain_read(const uint8_t *sheet, size_t sheet_len, uint64_t *room, size_t room_len) {
    uint64_t outlets[MOST_OUTLETS];
    size_t length, place = 7;
    uint64_t number = record_number(sheet, sheet_len, 0, 1, &length);
    if (number != 0) return (rail_job){number, 0, 0, 0};
    if (sheet[4] > MOST_BINS) return (rail_job){1, 0, 0, 0};
    if (sheet[5] > MOST_OUTLETS) return (rail_job){2, 0, 0, 0};
    if (sheet[6] > MOST_BUDGET && sheet[6] != RAIL_UNWRITTEN) return (rail_job){3, 0, 0, 0};
    if (room_len < sheet[5]) return (rail_job){5, 0, 0, 0};
    for (unsigned o = 0; o < sheet[5]; o++) {
        number = record_number(sheet, sheet_len, place, 2, &length);
        if (number == 0) number = read_outlet(sheet + place + 4, length, sheet[4], &outlets[o]);
        if (number != 0) return (rail_job){number, 0, 0, 0};
        place += 4 + length;
    }
    if (place != sheet_len) return (rail_job){12, 0, 0, 0};
    for (unsigned o = 0; o < sheet[5]; o++) room[o] = outlets[o];
    return (rail_job){0, sheet[4], sheet[5], sheet[6]};
}

rail_written plain_write(uint64_t bins, const uint64_t *outlets, size_t outlets_len, uint64_t budget, uint8_t *room, size_t room_len) {
    uint64_t number = job_number(bins, outlets, outlets_len, budget);
    if (number != 0) return (rail_written){number, 0};
    size_t length = 7 + 4 * outlets_len;
    for (size_t o = 0; o < outlets_len; o++) length += ones(outlets[o]);
    if (room_len < length) return (rail_written){5, 0};
    uint8_t head[7] = {3, 0, 1, 0, (uint8_t)bins, (uint8_t)outlets_len, (uint8_t)budget};
    memcpy(room, head, sizeof head);
    room += sizeof head;
    for (size_t o = 0; o < outlets_len; o++) {
        uint8_t *body = room + 4;
        for (uint64_t set = outlets[o]; set != 0; set &= set - 1) *body++ = (uint8_t)__builtin_ctzll(set);
        room[0] = (uint8_t)(body - room - 4);
        room[1] = 0;
        room[2] = 2;
        room[3] = 0;
        room = body;
    }
    return (rail_written){0, length};
}
