/* The rails that are measured. */
#ifndef RAILS_H
#define RAILS_H

#include <stddef.h>
#include <stdint.h>

typedef struct {
    const char *name;
    uint64_t bins, budget;
    size_t outlets_len;
    uint64_t outlets[32];
    int every_call; /* measured with every function, not only the search */
} rail;

/* The number of rails, and the rail of a number. The last ones take longest. */
size_t rails(void);
rail rail_of(size_t number);

#endif
