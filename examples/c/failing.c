/* Each allocation fails in turn. A call answers that there is no memory, and the same call made again goes on; at the
 * end nothing is lost. This file has the three allocation functions of its own, over malloc. */
#include "../../include/cfdp_receiver.h"
#include <stdbool.h>
#include <stdio.h>
#include <stdlib.h>
#include <string.h>

static unsigned calls, fails_at, out;
static char nothing;

struct cfdp_block rattle_alloc(size_t octets, size_t align) {
    (void)align;
    void *block = ++calls == fails_at ? NULL : malloc(octets ? octets : 1);
    if (block) out++;
    return block ? (struct cfdp_block){true, block} : (struct cfdp_block){false, &nothing};
}

struct cfdp_block rattle_realloc(void *block, size_t kept, size_t octets, size_t align) {
    (void)kept, (void)align;
    void *moved = ++calls == fails_at ? NULL : realloc(block, octets ? octets : 1);
    return moved ? (struct cfdp_block){true, moved} : (struct cfdp_block){false, block};
}

void rattle_dealloc(void *block) {
    out--;
    free(block);
}

/* Transaction 1/1: create directory 'app', create file 'app/prog'; and its EOF PDU. */
static const uint8_t metadata[] = {0x24, 0x00, 0x1b, 0x00, 0x01, 0x01, 0x02, 0x07, 0x40, 0x00, 0x00, 0x00, 0x00, 0x00,
    0x00, 0x00, 0x05, 0x50, 0x03, 'a', 'p', 'p', 0x00, 0x0a, 0x00, 0x08, 'a', 'p', 'p', '/', 'p', 'r', 'o', 'g'};
static const uint8_t eof[] = {
    0x24, 0x00, 0x0a, 0x00, 0x01, 0x01, 0x02, 0x04, 0x00, 0x00, 0x00, 0x00, 0x00, 0x00, 0x00, 0x00, 0x00};

/* Transaction 1/2: rename file 'app/prog' to 'app/p', deny 24 files that do not exist, rename directory 'app' to 'x'.
 * It has not ended when the engine is freed. The path of each of the 24 has eight names, so the list sees over 128
 * paths, and its view keeps them by their names. */
enum { DENIALS = 24, DENIED = 18 };
static const uint8_t first[] = {0x24, 0x00, 0x00, 0x00, 0x01, 0x02, 0x02, 0x07, 0x40, 0x00, 0x00, 0x00, 0x00, 0x00,
    0x00, 0x00, 0x10, 0x20, 0x08, 'a', 'p', 'p', '/', 'p', 'r', 'o', 'g', 0x05, 'a', 'p', 'p', '/', 'p'};
static const uint8_t last[] = {0x00, 0x07, 0x20, 0x03, 'a', 'p', 'p', 0x01, 'x'};
static uint8_t live[sizeof first + DENIALS * (4 + DENIED) + sizeof last];

static void spell_live(void) {
    size_t length = sizeof first;
    memcpy(live, first, sizeof first);
    for (unsigned file = 0; file < DENIALS; file++) {
        char path[DENIED + 1];
        snprintf(path, sizeof path, "app/%02u/1/2/3/4/5/6", file);
        const uint8_t head[] = {0x00, 2 + DENIED, 0x70, DENIED};
        memcpy(live + length, head, sizeof head);
        memcpy(live + length + sizeof head, path, DENIED);
        length += sizeof head + DENIED;
    }
    memcpy(live + length, last, sizeof last);
    /* the octets after the header */
    live[1] = (sizeof live - 7) >> 8;
    live[2] = (sizeof live - 7) & 0xff;
}

static unsigned refused;

/* Counts the answers that there is no memory: at most one in a whole run. */
static bool again(uint32_t answer) {
    if (answer == CFDP_ANSWER_NO_MEMORY) refused++;
    return answer == CFDP_ANSWER_NO_MEMORY;
}

static int run(void) {
    static const struct cfdp_config config = {.entity = 2, .cap = 2400, .blocks = 64, .checks = 2};
    static const struct cfdp_path boot = {.length = 4, .octets = "boot"};
    static const struct cfdp_path image = {.length = 5, .octets = "image"};
    struct cfdp_engine engine = CFDP_ENGINE_EMPTY;
    struct cfdp_reply reply = {0};
    uint8_t pdu[64];
    size_t count = 0;
    while (again(cfdp_new(&engine, &config, &boot, 1))) {}
    uint32_t put;
    while (again(put = cfdp_put(&engine, &image, CFDP_ENTRY_FILE, eof, sizeof eof))) {}
    int wrong = put != CFDP_ANSWER_DONE;
    while (again(cfdp_receive(&engine, metadata, sizeof metadata, &reply))) {}
    wrong |= reply.kind != CFDP_REPLY_ADMITTED;
    unsigned before = calls;
    wrong |= cfdp_receive(&engine, eof, sizeof eof, &reply) != CFDP_ANSWER_DONE || reply.kind != CFDP_REPLY_COMPLETE;
    wrong |= cfdp_step(&engine, 1, 1, &reply) != CFDP_ANSWER_DONE || reply.kind != CFDP_REPLY_PERFORMED;
    wrong |= cfdp_step(&engine, 1, 1, &reply) != CFDP_ANSWER_DONE || reply.kind != CFDP_REPLY_PERFORMED;
    wrong |= cfdp_take(&engine, 1, 1, pdu, sizeof pdu, &count, &reply) != CFDP_ANSWER_DONE ||
             reply.kind != CFDP_REPLY_TAKEN || count != 30;
    wrong |= calls != before; /* no memory was asked for */
    while (again(cfdp_receive(&engine, live, sizeof live, &reply))) {}
    wrong |= reply.kind != CFDP_REPLY_ADMITTED;
    wrong |= cfdp_free(&engine) != CFDP_ANSWER_DONE;
    return wrong | (out != 0); /* all memory was given back */
}

/* The same list in acknowledged mode, its EOF PDU, and the acknowledgement of its Finished PDU. */
static uint8_t list_pdu[sizeof metadata], eof_pdu[sizeof eof];
static uint8_t ack_pdu[] = {0x20, 0x00, 0x03, 0x00, 0x01, 0x01, 0x02, 0x06, 0x51, 0x02};

/* A receiver over a new engine. When out of memory the engine is freed, and both are made again. */
static void open_receiver(struct cfdp_receiver *receiver) {
    static const struct cfdp_config config = {.entity = 2, .cap = 2400, .blocks = 64, .checks = 2};
    static const struct cfdp_mib mib = {.ack_interval = 50,
        .ack_limit = 2,
        .ack_handler = CFDP_HANDLER_CANCEL,
        .nak_interval = 40,
        .nak_limit = 3,
        .nak_handler = CFDP_HANDLER_CANCEL,
        .check_interval = 30,
        .check_handler = CFDP_HANDLER_CANCEL,
        .inactivity_interval = 600,
        .inactivity_handler = CFDP_HANDLER_CANCEL,
        .nak_mode = CFDP_NAK_DEFERRED,
        .longest_nak = 100};
    struct cfdp_engine engine = CFDP_ENGINE_EMPTY;
    do {
        while (again(cfdp_new(&engine, &config, NULL, 0))) {}
    } while (again(cfdp_receiver_new(receiver, &engine, &mib)));
}

static int run_receiver(void) {
    struct cfdp_receiver receiver = CFDP_RECEIVER_EMPTY;
    struct cfdp_report report = {0};
    uint8_t pdu[64];
    size_t count = 0;
    memcpy(list_pdu, metadata, sizeof metadata);
    memcpy(eof_pdu, eof, sizeof eof);
    list_pdu[0] = eof_pdu[0] = 0x20;
    open_receiver(&receiver);
    while (again(cfdp_receiver_receive(&receiver, 0, list_pdu, sizeof list_pdu, &report))) {}
    int wrong = report.reply.kind != CFDP_REPLY_ADMITTED;
    unsigned before = calls;
    wrong |=
        cfdp_receiver_receive(&receiver, 1, eof_pdu, sizeof eof_pdu, &report) != CFDP_ANSWER_DONE || report.pdus != 1;
    wrong |= cfdp_receiver_work(&receiver, 2, &report) != CFDP_ANSWER_DONE || report.reply.kind != CFDP_REPLY_PERFORMED;
    wrong |= cfdp_receiver_work(&receiver, 2, &report) != CFDP_ANSWER_DONE || report.reply.kind != CFDP_REPLY_PERFORMED;
    wrong |= calls != before; /* no memory was asked for */
    while (again(cfdp_receiver_finish(&receiver, 3, &report))) {}
    wrong |= report.became != CFDP_BECAME_FINISHED || report.pdus != 1;
    wrong |= cfdp_receiver_write(&receiver, 0, pdu, sizeof pdu, &count) != CFDP_ANSWER_DONE || count != 30;
    wrong |= cfdp_receiver_receive(&receiver, 4, ack_pdu, sizeof ack_pdu, &report) != CFDP_ANSWER_DONE;
    wrong |= report.became != CFDP_BECAME_ACKNOWLEDGED || cfdp_receiver_free(&receiver) != CFDP_ANSWER_DONE;
    return wrong | (out != 0);
}

/* Refuses each allocation of a run in turn, until none is refused any more. */
static int refuse_each(int (*one_run)(void), const char *what) {
    int wrong = 0;
    for (fails_at = 1; !wrong; fails_at++) {
        calls = refused = 0;
        wrong = one_run();
        if (calls < fails_at) break;
        wrong |= refused != 1;
    }
    if (wrong) printf("%s: wrong at %u\n", what, fails_at);
    else printf("%s: each allocation was refused once, and nothing was lost\n", what);
    return wrong;
}

int main(void) {
    spell_live();
    return refuse_each(run, "engine") | refuse_each(run_receiver, "receiver");
}
