/* The operations of rail.h, written a second time from document 01 and nothing else: plain and slow. */
#ifndef BY_DOCUMENT_H
#define BY_DOCUMENT_H

#include "../../include/rail.h"

enum { MOST_BINS = 64, MOST_OUTLETS = 32, MOST_BUDGET = 30, LONGEST_SHEET = 7 + 32 * 68 };

uint64_t     doc_pair(uint64_t a, uint64_t b);
rail_counted doc_count(uint64_t bins, const uint64_t *outlets, size_t outlets_len, const uint8_t *order, size_t order_len);
rail_found   doc_search(uint64_t bins, const uint64_t *outlets, size_t outlets_len, uint64_t budget, uint8_t *room, size_t room_len);
rail_job     doc_read(const uint8_t *sheet, size_t sheet_len, uint64_t *room, size_t room_len);
rail_written doc_write(uint64_t bins, const uint64_t *outlets, size_t outlets_len, uint64_t budget, uint8_t *room, size_t room_len);
rail_record  doc_next(const uint8_t *sheet, size_t sheet_len, uint64_t place);

/* What the base placements of a rail cost: for choosing budgets near it. */
uint64_t doc_base_cost(const uint64_t *outlets, size_t outlets_len);

/* The least crossings of any order of a rail of a few outlets, by trying all of them. */
uint64_t doc_least(const uint64_t *outlets, size_t outlets_len);

#endif
