/* Random numbers from a seed, and random jobs and orders made of them. Two numbers are never drawn where C leaves open which comes first, so that a
   seed gives the same inputs with every compiler. */
#ifndef INPUTS_H
#define INPUTS_H

#include "by_document.h"

/* Rows longer than the limits are made too: by one, and by 256, which a byte does not see. */
enum { ROW = 300 };

typedef struct {
    uint64_t bins, budget;
    size_t outlets_len;
    uint64_t outlets[ROW];
} job;

void seed_with(uint64_t seed);
uint64_t any(void);                  /* any 64-bit number */
uint64_t below(uint64_t limit);      /* a number below the limit */

/* A valid job of so many outlets and bins, of at most so many, and of so many whose search opens few cases. */
job random_job(size_t outlets_len, uint64_t bins);
job small_job(size_t outlets, uint64_t bins);
job search_job(size_t outlets_len, uint64_t bins);

/* Trident, fork and two outlets from one bin on, again and again along 64 bins, in any order and with any budget. */
job figures_job(size_t outlets_len);

void random_order(uint8_t *order, size_t outlets_len);

#endif
