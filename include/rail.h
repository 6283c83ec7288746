/*
 * rail.h - hose crossings, orders of a rail and job sheets. This header is the whole manual.
 *
 * Bins stand in a row, numbered from 0, left to right. Outlets hang below on a rail, numbered from 0 in the order in which they are
 * listed. An outlet is the set of the bins that it has a hose from: one 64-bit number, bit b for bin b. It may have no hose at all.
 * An order is a row of bytes, the outlets' numbers as they stand from left to right, each number once.
 * cross(a, b) is the number of pairs of a bin x of a and a bin y of b with y < x: the crossings of their hoses when a stands left of b.
 * An order's crossings are the sum of cross(a, b) over every pair with a left of b.
 *
 *   limit              most
 *   bins                 64
 *   outlets              32
 *   budget               30, or RAIL_UNWRITTEN (255): no budget is written; it is searched as 0, and kept apart from a written 0
 *   a sheet's bytes   2,183    (7 + 32 x 68)
 *   crossings       999,936    of a full rail
 *   cases         3,524,577    for a budget of 30: F(k + 3) - 1 for a budget k, with F(1) = F(2) = 1
 *
 * WHAT EVERY CALL KEEPS
 *
 * Every call answers every input. Each answer has a number:
 *
 *    0  done
 *    1  more than 64 bins
 *    2  more than 32 outlets
 *    3  a budget above 30, other than 255
 *    4  a hose from a bin number not below the bins
 *    5  the lent room is shorter than the answer needs
 *    6  no order within the budget
 *    7  not an order: wrong length, an outlet not on the rail, or one repeated
 *    8  the sheet ends before the record does
 *    9  a record of the wrong kind
 *   10  a head whose length is not 3, or an outlet record longer than 64
 *   11  bins in a record not strictly rising
 *   12  bytes after the last record
 *
 * Where several would hold, the function's own order of checks decides, printed with it below. A refusal (a number other than 0)
 * answers 0 for every other number, but for the cases of a 6 and the `next` of rail_next. A refused call writes nothing.
 *
 * A row is a pointer and the number of its entries. A row of length 0 may be NULL; no other may. Outlets are aligned as any uint64_t
 * is. The rows lent to one call must not overlap. Rows lent as const are only read. In a lent room only the first entries are
 * written, as many as the answer has; what follows them stays as it was. Nothing is kept after the call.
 *
 * No call allocates, keeps state, blocks, or asks anything of the operating system: any number of threads may call at once.
 * No call takes more than RAIL_STACK bytes of stack. The figure is measured (tests/c/stack.c), not proved.
 * The archive is code for x86-64-v2, that is x86-64 with SSE4.2 and POPCNT.
 */
#ifndef RAIL_H
#define RAIL_H

#include <stddef.h>
#include <stdint.h>

#ifdef __cplusplus
extern "C" {
#endif

#define RAIL_UNWRITTEN 255

/* Measured: rail_search took 14,760 bytes at most, every other function less than 400. `bash tests/c/run` fails where a call takes more than this. */
#define RAIL_STACK 24576

typedef struct { uint64_t number, crossings; }               rail_counted;
typedef struct { uint64_t number, crossings, cases; }        rail_found;
typedef struct { uint64_t number, bins, outlets, budget; }   rail_job;
typedef struct { uint64_t number, length; }                  rail_written;
typedef struct { uint64_t number, kind, start, length, next; } rail_record; /* number 0 and kind 0: the end */

/* cross(a, b) of two sets of bins, at most 2,016. Never refused. */
uint64_t     rail_pair(uint64_t a, uint64_t b);

/* The crossings of an order of the rail. Checks 1, 2, 4, 7. */
rail_counted rail_count(uint64_t bins, const uint64_t *outlets, size_t outlets_len, const uint8_t *order, size_t order_len);

/*
 * An order with no more crossings than the budget. Checks 1, 2, 3, 4, 5 (the room has fewer bytes than there are outlets), then the search.
 * 0: such an order is written, one byte an outlet, into the first outlets_len bytes of the room; `crossings` are that order's.
 * 6: there is none. In both, `cases` is the number of cases that the search opened.
 */
rail_found   rail_search(uint64_t bins, const uint64_t *outlets, size_t outlets_len, uint64_t budget, uint8_t *room, size_t room_len);

/*
 * The job of a sheet: its bins, outlets and budget (RAIL_UNWRITTEN where none is written) are answered, and the first `outlets` numbers
 * of the room are filled, one an outlet. A room of 32 is always enough.
 * A sheet is a row of records: the length of the body (two bytes, little-endian), the kind (two bytes, little-endian), the body.
 * First the head, kind 1: bins, outlets, budget, one byte each. Then, for each outlet in number order, a record of kind 2: its bins,
 * one byte each, strictly rising. Nothing follows.
 * Checks record by record: 8 (fewer than four bytes left), 9, 10, 8 (a body past the end); after the head 1, 2, 3, 5 (the room has fewer
 * numbers than there are outlets); in an outlet record, entry by entry, 4, 11; at the end 12.
 */
rail_job     rail_read(const uint8_t *sheet, size_t sheet_len, uint64_t *room, size_t room_len);

/*
 * The sheet of a job, written into the first `length` bytes of the room: 7 bytes, and for each outlet 4 and one a hose. A room of 2,183
 * is always enough. A sheet written and read again is the same job; a sheet taken by rail_read and written again is the same bytes.
 * Checks 1, 2, 3, 4, 5 (the room is shorter than the sheet).
 */
rail_written rail_write(uint64_t bins, const uint64_t *outlets, size_t outlets_len, uint64_t budget, uint8_t *room, size_t room_len);

/*
 * The record at a place of the sheet, for a host that walks over a sheet and keeps the place itself: begin at place 0, go on from `next`.
 * At place 0 a head is looked for, elsewhere an outlet record. `kind` is 1 or 2, the body is `length` bytes from place `start` on, and
 * `next` is the place after it. At the end of a sheet that is not empty the number and the kind are 0. Checks 8 (fewer than four bytes
 * left; an empty sheet; a place past the end), 9, 10, 8 (a body past the end); the numbers inside a body are rail_read's business.
 * After a refusal or the end `next` is the place that was asked, and `kind`, `start` and `length` are 0.
 */
rail_record  rail_next(const uint8_t *sheet, size_t sheet_len, uint64_t place);

#ifdef __cplusplus
}
#endif

#endif
