/* The operations of rail.h in plain C, for comparison of speed. */
#ifndef PLAIN_H
#define PLAIN_H

#include "../include/rail.h"

uint64_t     plain_pair(uint64_t a, uint64_t b);
rail_counted plain_count(uint64_t bins, const uint64_t *outlets, size_t outlets_len, const uint8_t *order, size_t order_len);
rail_found   plain_search(uint64_t bins, const uint64_t *outlets, size_t outlets_len, uint64_t budget, uint8_t *room, size_t room_len);
rail_job     plain_read(const uint8_t *sheet, size_t sheet_len, uint64_t *room, size_t room_len);
rail_written plain_write(uint64_t bins, const uint64_t *outlets, size_t outlets_len, uint64_t budget, uint8_t *room, size_t room_len);

#endif
