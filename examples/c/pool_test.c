/* pool.c by itself: blocks are made, grown and freed in an order made at random. No two overlap, each keeps its octets,
 * and the region is used as the sum in pool.c says. It ends with 1 where that is not so. */
#include "../../include/cfdp.h"
#include "pool.h"
#include <stdio.h>
#include <string.h>

enum { BLOCKS = 300, ROUNDS = 200000 };

static struct held {
    unsigned char *octets;
    size_t length;
    unsigned char fill;
} held[BLOCKS];
static uint64_t random_state = 61;
static int wrong;

static size_t below(size_t bound) {
    random_state ^= random_state << 13;
    random_state ^= random_state >> 7;
    random_state ^= random_state << 17;
    return (size_t)(random_state >> 33) % bound;
}

static void expect(int holds, const char *what) {
    if (holds) return;
    printf("wrong: %s\n", what);
    wrong = 1;
}

/* A length such as the library asks for: mostly short, seldom one of three that are large. */
static size_t some_length(void) {
    static const size_t bounds[] = {48, 272, 1088, 4352, 17408};
    static const size_t large[] = {20000, 40000, 60000};
    return below(50) == 0 ? large[below(3)] : below(bounds[below(5)] + 1);
}

static int is_whole(const struct held *it) {
    for (size_t at = 0; at < it->length; at++)
        if (it->octets[at] != it->fill) return 0;
    return 1;
}

static void make(struct held *it, size_t length, unsigned char fill) {
    struct cfdp_block made = rattle_alloc(length, 8);
    if (!made.is_made) return;
    expect(((uintptr_t)made.octets & 15) == 0, "a block lies at a multiple of 16");
    *it = (struct held){made.octets, length, fill};
    memset(it->octets, fill, length);
}

static void grow(struct held *it, size_t more) {
    struct cfdp_block made = rattle_realloc(it->octets, it->length, more, 8);
    if (!made.is_made) {
        expect(made.octets == it->octets, "a block that can't grow is as before");
        return;
    }
    it->octets = made.octets;
    if (more < it->length) it->length = more;
    expect(is_whole(it), "a block that moves keeps its octets");
    it->length = more;
    memset(it->octets, it->fill, more);
}

static size_t sum_of_sizes(void) {
    size_t sum = 0;
    for (size_t index = 0; pool_size_at(index).octets != 0; index++)
        sum += pool_size_at(index).most * pool_size_at(index).octets;
    return sum;
}

int main(void) {
    size_t asked = 0;
    for (size_t round = 0; round < ROUNDS; round++) {
        struct held *it = &held[below(BLOCKS)];
        if (it->octets == NULL) {
            make(it, some_length(), (unsigned char)round);
        } else if (below(4) == 0) {
            expect(is_whole(it), "a block keeps its octets");
            grow(it, some_length());
        } else {
            expect(is_whole(it), "a block keeps its octets");
            rattle_dealloc(it->octets);
            it->octets = NULL;
        }
    }
    for (size_t index = 0; index < BLOCKS; index++)
        if (held[index].octets != NULL) asked += held[index].length;
    expect(pool_in_use() == asked, "what is in use is what was asked for");
    expect(pool_used() == sum_of_sizes(), "the region is used as the sum says");
    for (size_t index = 0; index < BLOCKS; index++)
        if (held[index].octets != NULL) rattle_dealloc(held[index].octets);
    expect(pool_in_use() == 0, "nothing is in use in the end");
    /* The same blocks again take no more of the region. */
    size_t used = pool_used();
    for (size_t index = 0; index < BLOCKS; index++) {
        held[index].octets = NULL;
        if (index < pool_size_at(1).most) make(&held[index], 272, 7);
    }
    expect(pool_used() == used, "freed memory is used again");
    /* Blocks of any number of large lengths, one after the other, have few sizes. */
    for (size_t large = 17409; large < 500000; large += 101) {
        struct cfdp_block made = rattle_alloc(large, 16);
        expect(made.is_made, "a large block is made");
        if (made.is_made) rattle_dealloc(made.octets);
    }
    used = pool_used();
    expect(used == sum_of_sizes(), "the region is used as the sum says, with large blocks");
    /* What does not fit is refused, and nothing changes. */
    struct cfdp_block none = rattle_alloc(POOL_REGION, 16);
    expect(!none.is_made && none.octets != NULL && pool_used() == used, "too large a block is refused");
    none = rattle_alloc((size_t)-1, 16);
    expect(!none.is_made && pool_used() == used, "the largest length is refused");
    if (!wrong) printf("%d rounds with %d blocks: in order\n", ROUNDS, BLOCKS);
    return wrong;
}
