/* An allocator for the library over one static region: see pool.c. */
#ifndef POOL_H
#define POOL_H

#include <stddef.h>

/* The octets of the region. Define it on the command line of the compiler, for each file alike. */
#ifndef POOL_REGION
#define POOL_REGION ((size_t)16 * 1024 * 1024)
#endif

/* The blocks of one size that are in use, and the most that were at once. `octets` is their size in the region. */
struct pool_size {
    size_t octets;
    size_t in_use;
    size_t most;
};

/* What is known of a size, by its index from 0; one whose `octets` are 0 after the last. */
struct pool_size pool_size_at(size_t index);
/* The octets from the start of the region that were ever given out. */
size_t pool_used(void);
/* The octets of the blocks that are in use, as they were asked for; and the most that were at once. */
size_t pool_in_use(void);
size_t pool_most_in_use(void);
/* How often a block was asked for: by rattle_alloc, or by rattle_realloc where it moved. */
size_t pool_calls(void);

#endif
