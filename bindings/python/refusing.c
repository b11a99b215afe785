/* The three functions for memory over malloc, for bindings/python/test_memory.py: they refuse while `refuses` is not
 * 0. */
#include "../../include/cfdp.h"
#include <stdlib.h>

int refuses;
static char nothing;

struct cfdp_block rattle_alloc(size_t octets, size_t align) {
    (void)align;
    void *block = refuses ? NULL : malloc(octets ? octets : 1);
    return block ? (struct cfdp_block){true, block} : (struct cfdp_block){false, &nothing};
}

struct cfdp_block rattle_realloc(void *block, size_t kept, size_t octets, size_t align) {
    (void)kept, (void)align;
    void *moved = refuses ? NULL : realloc(block, octets ? octets : 1);
    return moved ? (struct cfdp_block){true, moved} : (struct cfdp_block){false, block};
}

void rattle_dealloc(void *block) { free(block); }
