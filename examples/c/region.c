/* The engine over one static region: there is no malloc in the program.
 *
 * A block has 16 octets before it for its size, lies at a multiple of 16, and the blocks fill the region from its
 * start. The last block is given back and grown in place; any other stays until all are given back. */
#include "../../include/cfdp.h"
#include <stdbool.h>
#include <stdio.h>
#include <string.h>

enum { REGION = 256 * 1024 };

static union { unsigned char octets[REGION]; long double aligned; } region;
static size_t used, calls, blocks_out;

static size_t room_of(void *block) {
    size_t room;
    memcpy(&room, (unsigned char *)block - 16, sizeof room);
    return room;
}

struct cfdp_block rattle_alloc(size_t octets, size_t align) {
    (void)align; /* it divides 16 */
    calls++;
    size_t room = (octets + 15) & ~(size_t)15;
    if (octets > REGION || room + 16 > REGION - used) return (struct cfdp_block){false, region.octets};
    unsigned char *block = region.octets + used + 16;
    memcpy(block - 16, &room, sizeof room);
    used += room + 16;
    blocks_out++;
    return (struct cfdp_block){true, block};
}

void rattle_dealloc(void *block) {
    unsigned char *octets = block;
    if (octets + room_of(block) == region.octets + used) used = (size_t)(octets - 16 - region.octets);
    if (--blocks_out == 0) used = 0;
}

struct cfdp_block rattle_realloc(void *block, size_t kept, size_t octets, size_t align) {
    if (octets <= room_of(block)) return (struct cfdp_block){true, block};
    struct cfdp_block to = rattle_alloc(octets, align);
    if (!to.is_made) return (struct cfdp_block){false, block};
    memcpy(to.octets, block, kept);
    rattle_dealloc(block);
    return to;
}

/* Transaction 1/2: a file of 24 octets for 'image'; its three pieces, and its EOF PDU. */
static const uint8_t metadata[] = {0x24, 0x00, 0x12, 0x00, 0x01, 0x02, 0x02, 0x07, 0x40, 0x00, 0x00, 0x00, 0x18, 0x05,
    'i', 'm', 'a', 'g', 'e', 0x05, 'i', 'm', 'a', 'g', 'e'};
static const uint8_t pieces[3][19] = {
    {0x34, 0x00, 0x0c, 0x00, 0x01, 0x02, 0x02, 0x00, 0x00, 0x00, 0x00, 'C', 'e', 'z', 'h', 'u', 't', 'a', 'l'},
    {0x34, 0x00, 0x0c, 0x00, 0x01, 0x02, 0x02, 0x00, 0x00, 0x00, 0x08, ' ', 'f', 'l', 'i', 'e', 's', ' ', 't'},
    {0x34, 0x00, 0x0c, 0x00, 0x01, 0x02, 0x02, 0x00, 0x00, 0x00, 0x10, 'o', 'd', 'a', 'y', ',', ' ', 'v', '2'}};
static const uint8_t eof[] = {
    0x24, 0x00, 0x0a, 0x00, 0x01, 0x02, 0x02, 0x04, 0x00, 0xda, 0x38, 0x40, 0x5c, 0x00, 0x00, 0x00, 0x18};

int main(void) {
    static const struct cfdp_config config = {.entity = 2, .cap = 2400, .blocks = 64, .checks = 2};
    static const struct cfdp_config large = {.entity = 2, .cap = 2400, .blocks = 65536, .checks = 2};
    static const struct cfdp_path none;
    struct cfdp_engine engine = CFDP_ENGINE_EMPTY;
    struct cfdp_reply reply = {0};
    /* Too much for the region: nothing is kept. */
    int wrong = cfdp_new(&engine, &large, &none, 0) != CFDP_ANSWER_NO_MEMORY || blocks_out != 0;
    wrong |= cfdp_new(&engine, &config, &none, 0) != CFDP_ANSWER_DONE;
    wrong |= cfdp_receive(&engine, metadata, sizeof metadata, &reply) != CFDP_ANSWER_DONE ||
             reply.kind != CFDP_REPLY_ADMITTED;
    size_t before = calls;
    for (int i = 0; i < 3; i++)
        wrong |= cfdp_receive(&engine, pieces[i], sizeof pieces[i], &reply) != CFDP_ANSWER_DONE ||
                 reply.kind != CFDP_REPLY_STORED;
    wrong |= cfdp_receive(&engine, eof, sizeof eof, &reply) != CFDP_ANSWER_DONE || reply.kind != CFDP_REPLY_COMPLETE;
    wrong |= cfdp_step(&engine, 1, 2, &reply) != CFDP_ANSWER_DONE || reply.kind != CFDP_REPLY_INSTALLED;
    printf("while the file arrived and was installed memory was asked for %zu times\n", calls - before);
    struct cfdp_path image = {.length = 5, .octets = "image"};
    uint8_t octets[32];
    size_t count = 0;
    wrong |= cfdp_read(&engine, &image, 0, octets, sizeof octets, &count) != CFDP_ANSWER_DONE;
    printf("image: %.*s\n", (int)count, (const char *)octets);
    wrong |= cfdp_free(&engine) != CFDP_ANSWER_DONE || used != 0;
    return wrong;
}
