/* The rows of a call are laid on a stage, each between guard bytes. The archive works on one copy of the stage, the document on another,
   and a third stays as it was: it shows what was written where nothing should have been. */
#include "compare.h"

#include <inttypes.h>
#include <stdio.h>
#include <string.h>

enum { STAGE = 16384, GUARD = 24, SHOWN = 5 };

typedef struct { size_t offset, bytes; bool null; } row;

static uint64_t before[STAGE / 8], by_archive[STAGE / 8], by_document[STAGE / 8];
static size_t used;

static const char *group;
static unsigned inputs, mistakes, passed, failed, tally[NEXT + 1][13];

void begin_group(const char *name) {
    group = name;
    inputs = mistakes = 0;
}

void end_group(void) {
    printf("%-60s %7u inputs, %u wrong\n", group, inputs, mistakes);
    if (mistakes == 0 && inputs > 0) passed++;
    else failed++;
}

unsigned groups_passed(void) { return passed; }
unsigned groups_failed(void) { return failed; }
unsigned answered(enum function f, unsigned number) { return tally[f][number]; }

bool wrong(bool right) {
    inputs++;
    if (right || ++mistakes > SHOWN) return false;
    printf("WRONG in '%s': ", group);
    return true;
}

static void paint(size_t from, size_t bytes) { memset((uint8_t *)before + from, (int)below(256), bytes); }

/* Lays a row behind a guard; a room is laid as a row of no content. Rows of bytes start anywhere, rows of numbers where numbers may. */
static row lay(const void *content, size_t entries, size_t width) {
    row r = {used + GUARD + (width == 1 ? below(8) : 0), entries * width, false};
    if (entries == 0) r.null = below(2);
    paint(used, r.offset - used);
    if (content && r.bytes) memcpy((uint8_t *)before + r.offset, content, r.bytes);
    else paint(r.offset, r.bytes);
    used = (r.offset + r.bytes + 7) / 8 * 8;
    paint(r.offset + r.bytes, used - r.offset - r.bytes);
    return r;
}

static void open_stage(void) {
    paint(used, GUARD);
    used += GUARD;
    memcpy(by_archive, before, used);
    memcpy(by_document, before, used);
}

static void *on(uint64_t *stage, row r) { return r.null ? NULL : (uint8_t *)stage + r.offset; }

/* The archive's stage is the document's, and differs from what was there before only in the first `answer` bytes of the room. */
static bool rows_kept(row room, size_t answer) {
    const uint8_t *was = (const uint8_t *)before, *is = (const uint8_t *)by_archive;
    size_t end = room.offset + answer;
    return memcmp(by_archive, by_document, used) == 0 && memcmp(was, is, room.offset) == 0
        && memcmp(was + end, is + end, used - end) == 0;
}

static const char *job_text(const job *j) {
    static char text[ROW * 20 + 100];
    int at = sprintf(text, "bins %" PRIu64 " budget %" PRIu64 " outlets %zu:", j->bins, j->budget, j->outlets_len);
    for (size_t o = 0; o < j->outlets_len; o++) at += sprintf(text + at, " %" PRIx64, j->outlets[o]);
    return text;
}

static const char *bytes_text(const uint8_t *bytes, size_t length) {
    static char text[3 * STAGE];
    int at = sprintf(text, "(%zu)", length);
    for (size_t b = 0; b < length; b++) at += sprintf(text + at, " %02x", bytes[b]);
    return text;
}

uint64_t try_pair(uint64_t a, uint64_t b) {
    uint64_t got = rail_pair(a, b), want = doc_pair(a, b);
    if (wrong(got == want)) printf("pair %" PRIx64 " %" PRIx64 ": %" PRIu64 ", by document %" PRIu64 "\n", a, b, got, want);
    return got;
}

rail_counted try_count(const job *j, const uint8_t *order, size_t order_len) {
    used = 0;
    row outlets = lay(j->outlets, j->outlets_len, 8), lent = lay(order, order_len, 1);
    open_stage();
    rail_counted got = rail_count(j->bins, on(by_archive, outlets), j->outlets_len, on(by_archive, lent), order_len);
    rail_counted want = doc_count(j->bins, on(by_document, outlets), j->outlets_len, on(by_document, lent), order_len);
    bool kept = rows_kept(lent, 0);
    if (wrong(memcmp(&got, &want, sizeof got) == 0 && kept)) {
        printf("count %s, order %s: ", job_text(j), bytes_text(order, order_len));
        printf("%" PRIu64 " %" PRIu64 ", by document %" PRIu64 " %" PRIu64 "; rows kept: %d\n", got.number, got.crossings, want.number, want.crossings, kept);
    }
    tally[COUNT][want.number]++;
    return got;
}

rail_found try_search(const job *j, size_t room_len, uint8_t *order) {
    used = 0;
    row outlets = lay(j->outlets, j->outlets_len, 8), room = lay(NULL, room_len, 1);
    open_stage();
    rail_found got = rail_search(j->bins, on(by_archive, outlets), j->outlets_len, j->budget, on(by_archive, room), room_len);
    rail_found want = doc_search(j->bins, on(by_document, outlets), j->outlets_len, j->budget, on(by_document, room), room_len);
    bool kept = rows_kept(room, want.number == 0 ? j->outlets_len : 0);
    bool right = memcmp(&got, &want, sizeof got) == 0 && kept;
    if (wrong(right)) {
        printf("search %s, room %zu: %" PRIu64 " %" PRIu64 " %" PRIu64, job_text(j), room_len, got.number, got.crossings, got.cases);
        printf(", by document %" PRIu64 " %" PRIu64 " %" PRIu64 "; rows kept: %d\n", want.number, want.crossings, want.cases, kept);
    }
    if (order && right && got.number == 0) memcpy(order, (uint8_t *)by_archive + room.offset, j->outlets_len);
    tally[SEARCH][want.number]++;
    return got;
}

rail_job try_read(const uint8_t *sheet, size_t sheet_len, size_t room_len, uint64_t *outlets) {
    used = 0;
    row lent = lay(sheet, sheet_len, 1), room = lay(NULL, room_len, 8);
    open_stage();
    rail_job got = rail_read(on(by_archive, lent), sheet_len, on(by_archive, room), room_len);
    rail_job want = doc_read(on(by_document, lent), sheet_len, on(by_document, room), room_len);
    bool kept = rows_kept(room, want.number == 0 ? want.outlets * 8 : 0);
    bool right = memcmp(&got, &want, sizeof got) == 0 && kept;
    if (wrong(right)) {
        printf("read %s, room %zu: ", bytes_text(sheet, sheet_len), room_len);
        printf("%" PRIu64 " %" PRIu64 " %" PRIu64 " %" PRIu64, got.number, got.bins, got.outlets, got.budget);
        printf(", by document %" PRIu64 " %" PRIu64 " %" PRIu64 " %" PRIu64 "; rows kept: %d\n", want.number, want.bins, want.outlets, want.budget, kept);
    }
    if (outlets && right && got.number == 0) memcpy(outlets, (uint8_t *)by_archive + room.offset, got.outlets * 8);
    tally[READ][want.number]++;
    return got;
}

rail_written try_write(const job *j, size_t room_len, uint8_t *sheet) {
    used = 0;
    row outlets = lay(j->outlets, j->outlets_len, 8), room = lay(NULL, room_len, 1);
    open_stage();
    rail_written got = rail_write(j->bins, on(by_archive, outlets), j->outlets_len, j->budget, on(by_archive, room), room_len);
    rail_written want = doc_write(j->bins, on(by_document, outlets), j->outlets_len, j->budget, on(by_document, room), room_len);
    bool kept = rows_kept(room, want.number == 0 ? want.length : 0);
    bool right = memcmp(&got, &want, sizeof got) == 0 && kept;
    if (wrong(right)) {
        printf("write %s, room %zu: ", job_text(j), room_len);
        printf("%" PRIu64 " %" PRIu64 ", by document %" PRIu64 " %" PRIu64 "; rows kept: %d\n", got.number, got.length, want.number, want.length, kept);
    }
    if (sheet && right && got.number == 0) memcpy(sheet, (uint8_t *)by_archive + room.offset, got.length);
    tally[WRITE][want.number]++;
    return got;
}

rail_record try_next(const uint8_t *sheet, size_t sheet_len, uint64_t place) {
    used = 0;
    row lent = lay(sheet, sheet_len, 1);
    open_stage();
    rail_record got = rail_next(on(by_archive, lent), sheet_len, place), want = doc_next(on(by_document, lent), sheet_len, place);
    bool kept = rows_kept(lent, 0);
    if (wrong(memcmp(&got, &want, sizeof got) == 0 && kept)) {
        printf("next of %s at %" PRIu64 ": ", bytes_text(sheet, sheet_len), place);
        printf("%" PRIu64 " %" PRIu64 " %" PRIu64 " %" PRIu64 " %" PRIu64, got.number, got.kind, got.start, got.length, got.next);
        printf(", by document %" PRIu64 " %" PRIu64 " %" PRIu64 " %" PRIu64 " %" PRIu64, want.number, want.kind, want.start, want.length, want.next);
        printf("; rows kept: %d\n", kept);
    }
    tally[NEXT][want.number]++;
    return got;
}
