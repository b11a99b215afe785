/* A filestore that is kept over a restart: it is read out of one engine, as for memory that survives, and put into a
 * new one. Then the new engine goes on: a list of requests changes a file that was put. */
#include "../../include/cfdp.h"
#include <inttypes.h>
#include <stdio.h>
#include <string.h>

#define PDU(name, ...) static const uint8_t name[] = {__VA_ARGS__}

/* Transaction 1/1: rename file 'app/prog' to 'app/old'. It brings no file. */
PDU(metadata, 0x24, 0x00, 0x1c, 0x00, 0x01, 0x01, 0x02, 0x07, 0x40, 0x00, 0x00, 0x00, 0x00, 0x00, 0x00, 0x00, 0x12,
    0x20, 0x08, 'a', 'p', 'p', '/', 'p', 'r', 'o', 'g', 0x07, 'a', 'p', 'p', '/', 'o', 'l', 'd');
PDU(eof, 0x24, 0x00, 0x0a, 0x00, 0x01, 0x01, 0x02, 0x04, 0x00, 0x00, 0x00, 0x00, 0x00, 0x00, 0x00, 0x00, 0x00);

/* What survives the restart: a line for each directory and file, in path order. */
struct kept {
    struct cfdp_path path;
    uint32_t kind;
    uint8_t octets[400];
    size_t length;
};
static struct kept kept[8];
static size_t kept_count;

static const struct cfdp_config config = {.entity = 2, .cap = 2400, .blocks = 16, .checks = 2};
static const struct cfdp_path boot = {.length = 4, .octets = "boot"};
static int failed;

static void expect(uint32_t answer, uint32_t wanted) {
    if (answer != wanted) {
        printf("answer %" PRIu32 ", and not %" PRIu32 "\n", answer, wanted);
        failed = 1;
    }
}

static struct cfdp_path spelled(const char *text) {
    struct cfdp_path path = {.length = (uint32_t)strlen(text)};
    memcpy(path.octets, text, path.length);
    return path;
}

static uint32_t put(struct cfdp_engine *engine, const char *path, uint32_t kind, const char *octets) {
    struct cfdp_path spells = spelled(path);
    return cfdp_put(engine, &spells, kind, (const uint8_t *)octets, strlen(octets));
}

static void show_all(struct cfdp_engine *engine) {
    struct cfdp_path path = {0};
    struct cfdp_entry entry;
    struct cfdp_blocks blocks;
    while (cfdp_next(engine, &path, &entry) == CFDP_ANSWER_DONE)
        printf("%s %.*s %" PRIu64 " %08" PRIx32 "\n", entry.kind == CFDP_ENTRY_FILE ? "file" : "dir", (int)path.length,
            (const char *)path.octets, entry.size, entry.checksum);
    expect(cfdp_blocks(engine, &blocks), CFDP_ANSWER_DONE);
    printf("free %" PRIu32 " spare %" PRIu32 "\n", blocks.free, blocks.spare);
}

/* Reads the whole filestore out. */
static void keep(struct cfdp_engine *engine) {
    struct cfdp_path path = {0};
    struct cfdp_entry entry;
    for (kept_count = 0; cfdp_next(engine, &path, &entry) == CFDP_ANSWER_DONE; kept_count++) {
        struct kept *line = &kept[kept_count];
        line->path = path;
        line->kind = entry.kind;
        line->length = 0;
        if (entry.kind == CFDP_ENTRY_FILE)
            expect(cfdp_read(engine, &path, 0, line->octets, sizeof line->octets, &line->length), CFDP_ANSWER_DONE);
    }
}

/* Puts it into a new engine. */
static void put_back(struct cfdp_engine *engine) {
    for (size_t line = 0; line < kept_count; line++)
        expect(cfdp_put(engine, &kept[line].path, kept[line].kind, kept[line].octets, kept[line].length),
            CFDP_ANSWER_DONE);
}

int main(void) {
    struct cfdp_engine before = CFDP_ENGINE_EMPTY;
    struct cfdp_engine after = CFDP_ENGINE_EMPTY;
    struct cfdp_reply reply = {0};
    char large[1201];
    memset(large, 'x', sizeof large - 1);
    large[sizeof large - 1] = 0;

    expect(put(&before, "boot", CFDP_ENTRY_DIRECTORY, ""), CFDP_ANSWER_NO_ENGINE);
    expect(cfdp_new(&before, &config, &boot, 1), CFDP_ANSWER_DONE);
    /* What can't be put, by the first reason; the filestore stays empty. */
    expect(put(&before, "boot/", CFDP_ENTRY_FILE, ""), CFDP_ANSWER_BAD_PATH);
    expect(put(&before, "boot", 3, ""), CFDP_ANSWER_NOTHING);
    expect(put(&before, "boot/image", CFDP_ENTRY_FILE, "1"), CFDP_ANSWER_NO_PARENT);
    show_all(&before);

    expect(put(&before, "boot", CFDP_ENTRY_DIRECTORY, ""), CFDP_ANSWER_DONE);
    expect(put(&before, "boot/image", CFDP_ENTRY_FILE, "Cezhutal flies today, v1"), CFDP_ANSWER_DONE);
    expect(put(&before, "app", CFDP_ENTRY_DIRECTORY, ""), CFDP_ANSWER_DONE);
    expect(put(&before, "app/prog", CFDP_ENTRY_FILE, large + 1000), CFDP_ANSWER_DONE);
    expect(put(&before, "app/empty", CFDP_ENTRY_FILE, ""), CFDP_ANSWER_DONE);
    expect(put(&before, "app", CFDP_ENTRY_FILE, "1"), CFDP_ANSWER_EXISTS);
    expect(put(&before, "app/prog/part", CFDP_ENTRY_FILE, "1"), CFDP_ANSWER_NO_PARENT);
    /* 10 blocks of octets and one for the file, where 8 are free. */
    expect(put(&before, "large", CFDP_ENTRY_FILE, large), CFDP_ANSWER_FILESTORE_FULL);
    show_all(&before);

    /* The restart. */
    keep(&before);
    expect(cfdp_free(&before), CFDP_ANSWER_DONE);
    expect(cfdp_new(&after, &config, &boot, 1), CFDP_ANSWER_DONE);
    put_back(&after);
    show_all(&after);

    /* It goes on. From its first transaction on nothing can be put. */
    expect(cfdp_receive(&after, metadata, sizeof metadata, &reply), CFDP_ANSWER_DONE);
    expect(reply.kind, CFDP_REPLY_ADMITTED);
    expect(put(&after, "late", CFDP_ENTRY_FILE, "1"), CFDP_ANSWER_HAS_TRANSACTIONS);
    expect(cfdp_receive(&after, eof, sizeof eof, &reply), CFDP_ANSWER_DONE);
    expect(cfdp_step(&after, 1, 1, &reply), CFDP_ANSWER_DONE);
    expect(reply.kind, CFDP_REPLY_PERFORMED);
    show_all(&after);
    expect(cfdp_free(&after), CFDP_ANSWER_DONE);
    return failed;
}
