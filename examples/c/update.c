/* The update of a file on the spacecraft, from octets in this source: each reply is printed, and then the file as it
 * was delivered. The events are those of examples/update.replay. */
#include "../../include/cfdp.h"
#include <inttypes.h>
#include <stdio.h>

#define PDU(name, ...) static const uint8_t name[] = {__VA_ARGS__}

/* Transaction 1/1: create directory 'app', create file 'app/prog' (the old image). It brings no file. */
PDU(list_metadata, 0x24, 0x00, 0x1b, 0x00, 0x01, 0x01, 0x02, 0x07, 0x40, 0x00, 0x00, 0x00, 0x00, 0x00, 0x00, 0x00, 0x05,
    0x50, 0x03, 'a', 'p', 'p', 0x00, 0x0a, 0x00, 0x08, 'a', 'p', 'p', '/', 'p', 'r', 'o', 'g');
PDU(list_eof, 0x24, 0x00, 0x0a, 0x00, 0x01, 0x01, 0x02, 0x04, 0x00, 0x00, 0x00, 0x00, 0x00, 0x00, 0x00, 0x00, 0x00);
/* Transaction 1/2: a file of 24 octets for 'app/new'; delete file 'app/prog', rename 'app/new' to 'app/prog'. */
PDU(file_metadata, 0x24, 0x00, 0x34, 0x00, 0x01, 0x02, 0x02, 0x07, 0x40, 0x00, 0x00, 0x00, 0x18, 0x05, 'i', 'm', 'a',
    'g', 'e', 0x07, 'a', 'p', 'p', '/', 'n', 'e', 'w', 0x00, 0x0a, 0x10, 0x08, 'a', 'p', 'p', '/', 'p', 'r', 'o', 'g',
    0x00, 0x12, 0x20, 0x07, 'a', 'p', 'p', '/', 'n', 'e', 'w', 0x08, 'a', 'p', 'p', '/', 'p', 'r', 'o', 'g');
/* Transaction 1/3 wants to create 'app/prog', which is leased to 1/2. */
PDU(other_metadata, 0x24, 0x00, 0x14, 0x00, 0x01, 0x03, 0x02, 0x07, 0x40, 0x00, 0x00, 0x00, 0x00, 0x00, 0x00, 0x00,
    0x0a, 0x10, 0x08, 'a', 'p', 'p', '/', 'p', 'r', 'o', 'g');
/* The file in pieces of 8 octets. */
PDU(third_piece, 0x34, 0x00, 0x0c, 0x00, 0x01, 0x02, 0x02, 0x00, 0x00, 0x00, 0x10, 'o', 'd', 'a', 'y', ',', ' ', 'v',
    '2');
PDU(first_piece, 0x34, 0x00, 0x0c, 0x00, 0x01, 0x02, 0x02, 0x00, 0x00, 0x00, 0x00, 'C', 'e', 'z', 'h', 'u', 't', 'a',
    'l');
PDU(second_piece, 0x34, 0x00, 0x0c, 0x00, 0x01, 0x02, 0x02, 0x00, 0x00, 0x00, 0x08, ' ', 'f', 'l', 'i', 'e', 's', ' ',
    't');
PDU(file_eof, 0x24, 0x00, 0x0a, 0x00, 0x01, 0x02, 0x02, 0x04, 0x00, 0xda, 0x38, 0x40, 0x5c, 0x00, 0x00, 0x00, 0x18);

static struct cfdp_engine engine = CFDP_ENGINE_EMPTY;
static int failed;

static void expect(uint32_t answer, uint32_t wanted) {
    if (answer != wanted) {
        printf("answer %" PRIu32 ", and not %" PRIu32 "\n", answer, wanted);
        failed = 1;
    }
}

/* The line of a reply, and of the Finished PDU that cfdp_take wrote beside it. */
static void show(const struct cfdp_reply *reply, const uint8_t *octets, size_t length) {
    uint8_t line[256];
    size_t count = 0;
    expect(cfdp_reply_text(reply, octets, length, line, sizeof line, &count), CFDP_ANSWER_DONE);
    printf("%.*s", (int)count, (const char *)line);
}

/* The line of octets that brought no event, by what was answered of them. */
static void show_answer(uint32_t answer) {
    uint8_t line[32];
    size_t count = 0;
    expect(cfdp_answer_text(answer, line, sizeof line, &count), CFDP_ANSWER_DONE);
    printf("%.*s", (int)count, (const char *)line);
}

static void receive(const uint8_t *octets, size_t length) {
    struct cfdp_reply reply = {0};
    expect(cfdp_receive(&engine, octets, length, &reply), CFDP_ANSWER_DONE);
    show(&reply, octets, 0);
}
#define RECEIVE(pdu) receive(pdu, sizeof pdu)

static void run(void) {
    struct cfdp_transaction next;
    while (cfdp_next_runnable(&engine, &next) == CFDP_ANSWER_DONE) {
        struct cfdp_reply reply = {0};
        uint8_t none[1] = {0};
        expect(cfdp_step(&engine, next.source, next.number, &reply), CFDP_ANSWER_DONE);
        show(&reply, none, 0);
    }
}

static void take(uint64_t source, uint64_t number) {
    struct cfdp_reply reply = {0};
    uint8_t pdu[64];
    size_t count = 0;
    /* A buffer that is too short: the length that is needed, and nothing has changed. */
    expect(cfdp_take(&engine, source, number, pdu, 1, &count, &reply), CFDP_ANSWER_TOO_SHORT);
    printf("needs %zu octets\n", count);
    expect(cfdp_take(&engine, source, number, pdu, sizeof pdu, &count, &reply), CFDP_ANSWER_DONE);
    show(&reply, pdu, count);
}

static void show_gaps(uint64_t source, uint64_t number) {
    struct cfdp_gap gap;
    for (size_t index = 0; cfdp_gap(&engine, source, number, index, &gap) == CFDP_ANSWER_DONE; index++)
        printf("missing %" PRIu64 " to %" PRIu64 "\n", gap.start, gap.end);
}

/* What the Metadata PDU of a transaction said. */
static void show_metadata(uint64_t source, uint64_t number) {
    struct cfdp_metadata metadata = {0};
    uint8_t from[255], to[255];
    size_t from_count = 0, to_count = 0;
    expect(cfdp_metadata(&engine, source, number, &metadata), CFDP_ANSWER_DONE);
    expect(cfdp_source_name(&engine, source, number, from, sizeof from, &from_count), CFDP_ANSWER_DONE);
    expect(cfdp_destination_name(&engine, source, number, to, sizeof to, &to_count), CFDP_ANSWER_DONE);
    printf("metadata: %" PRIu64 " octets, closure %" PRIu32 ", checksum type %" PRIu32 ", '%.*s' to '%.*s'\n",
        metadata.size, metadata.closure, metadata.checksum_type, (int)from_count, (const char *)from, (int)to_count,
        (const char *)to);
    /* A buffer that is too short: the length that is needed. */
    if (to_count == 0) return;
    expect(cfdp_destination_name(&engine, source, number, from, to_count - 1, &from_count), CFDP_ANSWER_TOO_SHORT);
    expect((uint32_t)from_count, (uint32_t)to_count);
}

/* How far a transaction's file has come. */
static void show_progress(uint64_t source, uint64_t number) {
    uint64_t progress = 0;
    uint64_t reach = 0;
    expect(cfdp_progress(&engine, source, number, &progress), CFDP_ANSWER_DONE);
    expect(cfdp_reach(&engine, source, number, &reach), CFDP_ANSWER_DONE);
    printf("progress %" PRIu64 ", gaps reported up to %" PRIu64 "\n", progress, reach);
}

/* All transactions in order of admission, and the first one whose outcome can be taken. */
static void show_order(void) {
    struct cfdp_transaction found;
    for (size_t index = 0; cfdp_transaction_at(&engine, index, &found) == CFDP_ANSWER_DONE; index++)
        printf("transaction %" PRIu64 "/%" PRIu64 "\n", found.source, found.number);
    if (cfdp_next_outcome(&engine, &found) == CFDP_ANSWER_DONE)
        printf("next outcome %" PRIu64 "/%" PRIu64 "\n", found.source, found.number);
}

/* The file at a path, read in pieces of 10 octets. */
static void show_file(const struct cfdp_path *path) {
    struct cfdp_entry entry;
    expect(cfdp_look_up(&engine, path, &entry), CFDP_ANSWER_DONE);
    printf("file %.*s %" PRIu64 " %08" PRIx32 ": ", (int)path->length, (const char *)path->octets, entry.size,
        entry.checksum);
    uint8_t piece[10];
    size_t count = 0;
    for (uint64_t at = 0; cfdp_read(&engine, path, at, piece, sizeof piece, &count) == CFDP_ANSWER_DONE && count > 0;
         at += count)
        printf("%.*s", (int)count, (const char *)piece);
    printf("\n");
}

/* All that is in the filestore, in path order. */
static void show_all(void) {
    struct cfdp_path path = {0};
    struct cfdp_entry entry;
    while (cfdp_next(&engine, &path, &entry) == CFDP_ANSWER_DONE)
        printf("%s %.*s %" PRIu64 "\n", entry.kind == CFDP_ENTRY_FILE ? "file" : "dir", (int)path.length,
            (const char *)path.octets, entry.size);
    /* After the last one the struct is as before; what spells no path is reported. */
    expect(cfdp_next(&engine, &path, &entry), CFDP_ANSWER_NOTHING);
    expect(path.length, 8);
    expect(cfdp_next(&engine, &(struct cfdp_path){.length = 4, .octets = "app/"}, &entry), CFDP_ANSWER_BAD_PATH);
}

/* Misuse that the handle can see is an answer. */
static void open_engine(void) {
    const struct cfdp_config config = {.entity = 2, .cap = 2400, .blocks = 64, .checks = 2};
    const struct cfdp_path boot = {.length = 4, .octets = "boot"};
    struct cfdp_reply reply = {0};
    expect(cfdp_receive(&engine, list_eof, sizeof list_eof, &reply), CFDP_ANSWER_NO_ENGINE);
    expect(cfdp_free(&engine), CFDP_ANSWER_NO_ENGINE);
    expect(cfdp_new(&engine, &(struct cfdp_config){.entity = 2, .cap = 2400, .blocks = 15, .checks = 2}, &boot, 1),
        CFDP_ANSWER_BAD_BLOCKS);
    expect(cfdp_new(&engine, &(struct cfdp_config){.entity = 2, .cap = 7864321, .blocks = 16, .checks = 2}, &boot, 1),
        CFDP_ANSWER_BAD_CAP);
    expect(cfdp_new(&engine, &(struct cfdp_config){.entity = 2, .cap = 7864320, .blocks = 16, .checks = 0}, &boot, 1),
        CFDP_ANSWER_BAD_CHECKS);
    expect(cfdp_new(&engine, &config, &(struct cfdp_path){.length = 2, .octets = ".."}, 1), CFDP_ANSWER_BAD_PATH);
    expect(cfdp_new(&engine, &config, &boot, 1), CFDP_ANSWER_DONE);
    expect(cfdp_new(&engine, &config, &boot, 1), CFDP_ANSWER_HAS_ENGINE);
}

/* Octets that bring no event, a text that does not fit, and one that there is not. */
static void receive_bad(void) {
    struct cfdp_reply reply = {0};
    uint8_t line[24];
    size_t count = 0;
    expect(cfdp_receive(&engine, list_eof, 0, &reply), CFDP_ANSWER_TRUNCATED);
    expect(cfdp_receive(&engine, list_eof, sizeof list_eof - 1, &reply), CFDP_ANSWER_TRUNCATED);
    expect(cfdp_receive(&engine, (const uint8_t[]){0x44}, 1, &reply), CFDP_ANSWER_BAD_VERSION);
    expect(cfdp_receive(&engine, (const uint8_t[]){0x26}, 1, &reply), CFDP_ANSWER_CRC_NOT_SUPPORTED);
    show_answer(CFDP_ANSWER_CRC_NOT_SUPPORTED);
    expect(cfdp_answer_text(CFDP_ANSWER_TRUNCATED, line, 21, &count), CFDP_ANSWER_TOO_SHORT);
    expect((uint32_t)count, 22);
    expect(cfdp_answer_text(CFDP_ANSWER_NO_ENGINE, line, sizeof line, &count), CFDP_ANSWER_NOTHING);
    expect(cfdp_reply_text(&(struct cfdp_reply){.kind = 18}, list_eof, 0, line, sizeof line, &count),
        CFDP_ANSWER_NOTHING);
}

static void receive_list(void) {
    RECEIVE(list_metadata);
    show_metadata(1, 1);
    RECEIVE(list_eof);
    run();
    take(1, 1);
}

/* The file in pieces out of order, one of which is missing when the check timer expires. */
static void receive_file(void) {
    struct cfdp_reply reply = {0};
    struct cfdp_gap gap;
    RECEIVE(file_metadata);
    show_metadata(1, 2);
    show_progress(1, 2);
    show_order();
    RECEIVE(other_metadata);
    show_order();
    RECEIVE(third_piece);
    show_progress(1, 2);
    RECEIVE(first_piece);
    RECEIVE(file_eof);
    expect(cfdp_check(&engine, 1, 2, &reply), CFDP_ANSWER_DONE);
    show(&reply, file_eof, 0);
    show_gaps(1, 2);
    RECEIVE(second_piece);
    expect(cfdp_gap(&engine, 1, 2, 0, &gap), CFDP_ANSWER_NOTHING);
}

/* Performs the items of the file's transaction, with what was granted to it and what it spent. */
static void perform_items(void) {
    struct cfdp_phase phase;
    struct cfdp_grant grant;
    int64_t blocks_spent = 0;
    uint32_t steps_spent = 0;
    expect(cfdp_phase(&engine, 1, 2, &phase), CFDP_ANSWER_DONE);
    expect(cfdp_grant(&engine, 1, 2, &grant), CFDP_ANSWER_DONE);
    printf("phase %" PRIu32 " item %" PRIu32 ", granted blocks %" PRIu32 " steps %" PRIu32 "\n", phase.phase,
        phase.detail, grant.blocks, grant.steps);
    run();
    expect(cfdp_blocks_spent(&engine, 1, 2, &blocks_spent), CFDP_ANSWER_DONE);
    expect(cfdp_steps_spent(&engine, 1, 2, &steps_spent), CFDP_ANSWER_DONE);
    printf("spent blocks %" PRId64 " steps %" PRIu32 "\n", blocks_spent, steps_spent);
}

/* After a take, nothing of the transaction is left. */
static void take_file(void) {
    struct cfdp_phase phase;
    struct cfdp_metadata metadata;
    uint64_t progress = 0;
    uint8_t line[24];
    size_t count = 0;
    take(1, 2);
    expect(cfdp_phase(&engine, 1, 2, &phase), CFDP_ANSWER_NOTHING);
    expect(cfdp_progress(&engine, 1, 2, &progress), CFDP_ANSWER_NOTHING);
    expect(cfdp_reach(&engine, 1, 2, &progress), CFDP_ANSWER_NOTHING);
    expect(cfdp_metadata(&engine, 1, 2, &metadata), CFDP_ANSWER_NOTHING);
    expect(cfdp_source_name(&engine, 1, 2, line, sizeof line, &count), CFDP_ANSWER_NOTHING);
    show_order();
}

static void show_filestore(void) {
    struct cfdp_entry entry;
    struct cfdp_blocks blocks;
    show_file(&(struct cfdp_path){.length = 8, .octets = "app/prog"});
    expect(cfdp_look_up(&engine, &(struct cfdp_path){.length = 7, .octets = "app/new"}, &entry), CFDP_ANSWER_NOTHING);
    expect(cfdp_look_up(&engine, &(struct cfdp_path){.length = 777, .octets = "app"}, &entry), CFDP_ANSWER_BAD_PATH);
    expect(cfdp_look_up(&engine, &(struct cfdp_path){.length = 3, .octets = "app"}, &entry), CFDP_ANSWER_DONE);
    printf("app is of kind %" PRIu32 "\n", entry.kind);
    show_all();
    expect(cfdp_blocks(&engine, &blocks), CFDP_ANSWER_DONE);
    printf("free %" PRIu32 " spare %" PRIu32 "\n", blocks.free, blocks.spare);
}

/* An engine that was freed is none. */
static void free_engine(void) {
    struct cfdp_metadata metadata;
    uint8_t line[24];
    size_t count = 0;
    expect(cfdp_free(&engine), CFDP_ANSWER_DONE);
    expect(cfdp_free(&engine), CFDP_ANSWER_NO_ENGINE);
    expect(cfdp_metadata(&engine, 1, 2, &metadata), CFDP_ANSWER_NO_ENGINE);
    expect(cfdp_destination_name(&engine, 1, 2, line, sizeof line, &count), CFDP_ANSWER_NO_ENGINE);
}

int main(void) {
    if (cfdp_engine_octets() != sizeof engine) return 1;
    open_engine();
    receive_bad();
    receive_list();
    receive_file();
    perform_items();
    take_file();
    show_filestore();
    free_engine();
    return failed;
}
