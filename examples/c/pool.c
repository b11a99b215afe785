/* An allocator for the library over one static region, in which freed memory is used again. It is for a program that
 * must not run out of memory after months: its worst case is a sum, below. Link this file in place of the kit's
 * liblibc_c.a.
 *
 * A block is one of few sizes: 64, 288, 1104, 4368 and 17424 octets, which fit most of the library's blocks (a name and
 * a request's value have at most 255 octets, the octets of a Finished PDU at most 16490); and 32 sizes above these, of
 * which each is a quarter more than the one before. So a block above 17424 octets may take up to a quarter more of the
 * region than it has. The first 16 octets of a block say which size it is. A freed block goes to the list of its size,
 * and the next block of that size is taken from there. Only where the list is empty is the block cut from the region.
 *
 * THE WORST CASE. So for each size there are exactly as many blocks in the region as were in use at once:
 *
 *     pool_used() = sum over the sizes of (most blocks of the size in use at once) * (octets of the size)
 *
 * whatever the order of the calls: blocks of one size cannot lie so that another of it has no room. A program's own
 * worst case is this sum for the most transactions, requests and names that it lets in; soak.c has it. Blocks above
 * 17424 octets are those that cfdp_new makes, which a new engine of the same configuration finds again after
 * cfdp_free; and those in which a Metadata PDU is judged that brings more than 256 paths, changes directories with
 * entries and names many paths in them, or has more than 400 requests. A sender chooses how large the latter are. All
 * of them share the 32 sizes, so they are used again too.
 *
 * One call takes a few steps, and for a large block one for each size below it. A block has at most 22 million octets.
 */
#include "pool.h"
#include "../../include/cfdp.h"
#include <stdint.h>

enum { HEADER = 16, SMALL = 5, SIZES = SMALL + 32 };

/* What is at the start of a block: the index of its size, and the next free block of it, or what was asked for while it
 * is in use. */
struct block {
    union {
        struct block *next;
        size_t asked;
    } is;
    uint32_t size;
};

static union {
    unsigned char octets[POOL_REGION];
    long double aligned;
} region;
static struct pool_size sizes[SIZES] = {{64, 0, 0}, {288, 0, 0}, {1104, 0, 0}, {4368, 0, 0}, {17424, 0, 0}};
static struct block *free_blocks[SIZES];
static size_t used, in_use, most_in_use, calls;

struct pool_size pool_size_at(size_t index) { return index < SIZES ? sizes[index] : (struct pool_size){0, 0, 0}; }
size_t pool_used(void) { return used; }
size_t pool_in_use(void) { return in_use; }
size_t pool_most_in_use(void) { return most_in_use; }
size_t pool_calls(void) { return calls; }

/* The index of the size of a block for this many octets; SIZES if it is too large. */
static size_t size_of(size_t octets) {
    size_t index = 0;
    for (; index < SIZES; index++) {
        if (sizes[index].octets == 0) {
            const size_t before = sizes[index - 1].octets;
            sizes[index].octets = (before + before / 4 + 15) & ~(size_t)15;
        }
        if (octets + HEADER <= sizes[index].octets) break;
    }
    return index;
}

static struct block *block_of(void *octets) { return (struct block *)(void *)((unsigned char *)octets - HEADER); }

struct cfdp_block rattle_alloc(size_t octets, size_t align) {
    (void)align; /* it divides 16 */
    struct cfdp_block none = {false, region.octets};
    if (octets > POOL_REGION - HEADER - 15) return none;
    size_t size = size_of(octets);
    if (size == SIZES) return none;
    struct block *block = free_blocks[size];
    if (block != NULL) {
        free_blocks[size] = block->is.next;
    } else {
        if (sizes[size].octets > POOL_REGION - used) return none;
        block = (struct block *)(void *)(region.octets + used);
        used += sizes[size].octets;
    }
    block->size = (uint32_t)size;
    block->is.asked = octets;
    calls++;
    in_use += octets;
    if (in_use > most_in_use) most_in_use = in_use;
    if (++sizes[size].in_use > sizes[size].most) sizes[size].most = sizes[size].in_use;
    return (struct cfdp_block){true, (unsigned char *)block + HEADER};
}

void rattle_dealloc(void *octets) {
    struct block *block = block_of(octets);
    in_use -= block->is.asked;
    sizes[block->size].in_use--;
    block->is.next = free_blocks[block->size];
    free_blocks[block->size] = block;
}

struct cfdp_block rattle_realloc(void *octets, size_t kept, size_t more, size_t align) {
    struct block *block = block_of(octets);
    if (more <= sizes[block->size].octets - HEADER) {
        in_use = in_use - block->is.asked + more;
        if (in_use > most_in_use) most_in_use = in_use;
        block->is.asked = more;
        return (struct cfdp_block){true, octets};
    }
    struct cfdp_block to = rattle_alloc(more, align);
    if (!to.is_made) return (struct cfdp_block){false, octets};
    memcpy(to.octets, octets, kept);
    rattle_dealloc(octets);
    return to;
}
