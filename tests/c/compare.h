/* One input of one function: the archive's answer, and what it left in the lent rows, against the document's. */
#ifndef COMPARE_H
#define COMPARE_H

#include "inputs.h"

#include <stdbool.h>

/* A group of inputs; its line says how many there were and how many differed. */
void begin_group(const char *name);
void end_group(void);
unsigned groups_passed(void);
unsigned groups_failed(void);

/* Counts one input of the group; true where it is wrong and should be shown: the first few of a group are. */
bool wrong(bool right);

enum function { COUNT, SEARCH, READ, WRITE, NEXT };

/* How often the document's answer of a function had this number. */
unsigned answered(enum function f, unsigned number);

/* Each answers what the archive answered; where that is right and done, the room's answer is copied out. A row of length 0 is now and then NULL. */
uint64_t     try_pair(uint64_t a, uint64_t b);
rail_counted try_count(const job *j, const uint8_t *order, size_t order_len);
rail_found   try_search(const job *j, size_t room_len, uint8_t *order);
rail_job     try_read(const uint8_t *sheet, size_t sheet_len, size_t room_len, uint64_t *outlets);
rail_written try_write(const job *j, size_t room_len, uint8_t *sheet);
rail_record  try_next(const uint8_t *sheet, size_t sheet_len, uint64_t place);

#endif
