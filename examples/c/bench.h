/* What the workloads of bench.c are made of: PDUs, events, and an engine that has to give a certain reply. */
#ifndef BENCH_H
#define BENCH_H

#include "../../include/cfdp.h"
#include <inttypes.h>
#include <stdbool.h>
#include <stdio.h>
#include <stdlib.h>
#include <string.h>
#include <time.h>

enum {
    BLOCKS = 65536,     /* of the filestore, but where a workload says otherwise */
    PAYLOAD = 120,      /* octets of a file in a block */
    PIECE = 1000,       /* octets of a file in a PDU, and in one reading */
    MOST_PIECES = 7800,
    MOST_COPIED = 3900, /* pieces of a file that fits in the filestore twice */
    DEPTH = 8,          /* names of the longest paths */
    LONG_NAME = 14,     /* octets of such a name */
    SMALL_PIECE = 10,   /* octets of a file in a small PDU */
    SMALL_PIECES = PAYLOAD / SMALL_PIECE,
    HEADER = 7,         /* octets of the header of a PDU */
    LIST = 64,          /* requests of a list */
    OTHERS = 60,        /* files that take their blocks in turn */
    LIVE = 63,          /* other transactions, each with a list */
    RANGES = 32,        /* pieces of a file that came, each between two gaps */
    GAPPED = (2 * RANGES + 1) * SMALL_PIECE, /* octets of that file */
    BESIDE = 32,        /* requests of the list that is admitted beside them */
    LOOK_UPS = 1000
};

/* The sequence numbers of transactions: of the file, of a list, and of the first of the others. */
enum { FILE_NUMBER = 1, LIST_NUMBER = 2, FIRST_OTHER = 3 };

enum action {
    CREATE_FILE = 0x00,
    DELETE_FILE = 0x10,
    RENAME = 0x20,
    APPEND = 0x30,
    REPLACE = 0x40,
    CREATE_DIRECTORY = 0x50,
    REMOVE_DIRECTORY = 0x60,
    DENY_FILE = 0x70,
    DENY_DIRECTORY = 0x80
};

/* In which order pieces are sent or read, and entries are made. ONE_HASH is RISING, with names of one hash. */
enum arrangement { RISING, FALLING, SWAPPED, RANDOM, ONE_HASH };

/* A File Data PDU. */
struct piece {
    uint8_t octets[HEADER + 4 + PIECE];
};

/* What cfdp_look_up or cfdp_next answered, with the first octets of the path. */
struct seen {
    struct cfdp_entry entry;
    uint32_t length;
    uint8_t octets[8];
};

static struct cfdp_engine engine = CFDP_ENGINE_EMPTY;
static const struct cfdp_path image = {.length = 5, .octets = "image"};
static const char *running;
static enum arrangement arrangement;
static bool scattered;
static uint64_t digest, random_state;
static uint8_t pdu[HEADER + 65535];
static size_t length;
static struct piece pieces[MOST_PIECES];
static uint8_t copy[MOST_PIECES * PIECE];
static uint32_t order[BLOCKS];
static struct seen seen[BLOCKS];

static void fail(const char *why) {
    fprintf(stderr, "bench: %s: %s\n", running, why);
    exit(1);
}

static void note(uint64_t number) { digest = (digest ^ number) * 0x100000001b3u; }

static void note_reply(const struct cfdp_reply *reply) {
    note(reply->kind | (uint64_t)reply->status << 8 | (uint64_t)reply->condition << 16);
    note(reply->blocks | (uint64_t)reply->steps << 32);
}

/* A number below a bound (xorshift64). */
static uint32_t below(uint32_t bound) {
    random_state ^= random_state << 13;
    random_state ^= random_state >> 7;
    random_state ^= random_state << 17;
    return (uint32_t)(random_state >> 33) % bound;
}

/* The numbers below `count`, in the order of the workload. */
static void arrange(uint32_t count) {
    random_state = 0x9e3779b97f4a7c15u;
    for (uint32_t i = 0; i < count; i++) {
        uint32_t neighbour = (i ^ 1) < count ? i ^ 1 : i;
        order[i] = arrangement == FALLING ? count - 1 - i : arrangement == SWAPPED ? neighbour : i;
    }
    if (arrangement != RANDOM) return;
    for (uint32_t i = count; i > 1; i--) {
        uint32_t other = below(i), last = order[i - 1];
        order[i - 1] = order[other];
        order[other] = last;
    }
}

/* ---- PDUs and events */

static void put(const void *octets, size_t count) {
    memcpy(pdu + length, octets, count);
    length += count;
}

static void put_octet(uint32_t octet) { pdu[length++] = (uint8_t)octet; }

static void put_number(uint32_t number) {
    for (int shift = 24; shift >= 0; shift -= 8) put_octet(number >> shift);
}

static void put_name(const char *name) {
    put_octet((uint32_t)strlen(name));
    put(name, strlen(name));
}

/* The header of a PDU of entity 1 for entity 2; the length of its data field comes at the end. */
static void begin(uint32_t first, uint32_t number) {
    length = 0;
    put_octet(first);
    put("\0\0\0\1", 4);
    put_octet(number);
    put_octet(2);
}

static void end(void) {
    pdu[1] = (uint8_t)((length - HEADER) >> 8);
    pdu[2] = (uint8_t)(length - HEADER);
}

/* A Metadata PDU, to which requests may be added. With a name of no octets it brings no file. */
static void make_metadata(uint32_t number, uint32_t size, const char *name) {
    begin(0x24, number);
    put("\x07\x40", 2);
    put_number(size);
    put_name(name);
    put_name(name);
    end();
}

/* Adds a filestore request. Only a rename, an append and a replacement have a second name. */
static void add_request(enum action action, const char *first, const char *second) {
    put_octet(0x00);
    size_t at = length;
    put_octet(0);
    put_octet(action);
    put_name(first);
    if (second) put_name(second);
    pdu[at] = (uint8_t)(length - at - 1);
    end();
}

static uint8_t octet_of(uint32_t at) { return (uint8_t)((at * 2654435761u) >> 24); }

/* A File Data PDU with `count` octets of a file, from the offset `at` on. */
static void make_data(uint32_t number, uint32_t at, uint32_t count) {
    begin(0x34, number);
    put_number(at);
    for (uint32_t i = 0; i < count; i++) put_octet(octet_of(at + i));
    end();
}

static void make_eof(uint32_t number, uint32_t checksum, uint32_t size) {
    begin(0x24, number);
    put("\x04\x00", 2);
    put_number(checksum);
    put_number(size);
    end();
}

static void receive_octets(const uint8_t *octets, size_t count, uint32_t wanted) {
    struct cfdp_reply reply = {0};
    if (cfdp_receive(&engine, octets, count, &reply) != CFDP_DONE || reply.kind != wanted)
        fail("another reply to a PDU");
    note_reply(&reply);
}

static void receive(uint32_t wanted) { receive_octets(pdu, length, wanted); }

static void step(uint32_t number, uint32_t wanted) {
    struct cfdp_reply reply = {0};
    if (cfdp_step(&engine, 1, number, &reply) != CFDP_DONE || reply.kind != wanted) fail("another reply to a step");
    note_reply(&reply);
}

static void cancel(uint32_t number) {
    struct cfdp_reply reply = {0};
    if (cfdp_cancel(&engine, 1, number, &reply) != CFDP_DONE || reply.kind != CFDP_CANCELLED) fail("not cancelled");
    note_reply(&reply);
}

static void take(uint32_t number, uint32_t condition) {
    static uint8_t out[16488];
    struct cfdp_reply reply = {0};
    size_t count = 0;
    if (cfdp_take(&engine, 1, number, out, sizeof out, &count, &reply) != CFDP_DONE || reply.kind != CFDP_TAKEN)
        fail("no outcome");
    if (reply.condition != condition) fail("another condition");
    note_reply(&reply);
    note(count);
}

/* The Metadata PDU of a list came: its EOF PDU comes, its requests are performed, and the outcome is taken. */
static void perform(uint32_t requests) {
    make_eof(LIST_NUMBER, 0, 0);
    receive(CFDP_COMPLETE);
    while (requests-- > 0) step(LIST_NUMBER, CFDP_PERFORMED);
    take(LIST_NUMBER, 0);
}

/* ---- the engine */

/* Files arrive that take their blocks in turn, and are cancelled. */
static void scatter(uint32_t blocks) {
    uint32_t each = blocks / OTHERS - 2;
    for (uint32_t i = 0; i < OTHERS; i++) {
        make_metadata(FIRST_OTHER + i, each * PAYLOAD, (char[]){(char)('A' + i), 0});
        receive(CFDP_ADMITTED);
    }
    for (uint32_t i = 0; i < OTHERS * each; i++) {
        make_data(FIRST_OTHER + i % OTHERS, i / OTHERS * PAYLOAD, PAYLOAD);
        receive(CFDP_STORED);
    }
    for (uint32_t i = 0; i < OTHERS; i++) {
        cancel(FIRST_OTHER + i);
        take(FIRST_OTHER + i, 15);
    }
}

static void make_engine(uint32_t blocks) {
    static const struct cfdp_path none;
    const struct cfdp_config config = {.entity = 2, .cap = 7864320, .blocks = blocks, .checks = 2};
    if (cfdp_new(&engine, &config, &none, 0) != CFDP_DONE) fail("no engine");
    if (scattered) scatter(blocks);
}

/* ---- a directory of files of no octets */

/* The last octets of names of one hash. The engine's hash of 16 octets is a product; these make one of its factors
 * 0. */
#define ONE_HASH_TAIL "\x15\x7c\x4a\x7f\xb9\x79\x37\x9e"

enum { ONE_HASH_OCTETS = 8, LONGEST_PATH = 2 + 8 + ONE_HASH_OCTETS };

/* The path of an entry: a directory of one letter, and a number of six digits, or of eight and a tail. So the order of
 * paths is that of the numbers. */
static void spell(char path[LONGEST_PATH + 1], char directory, uint32_t number) {
    int digits = arrangement == ONE_HASH ? 8 : 6;
    path[0] = directory;
    path[1] = '/';
    for (int i = 0; i < digits; i++) path[2 + i] = "0123456789abcdef"[number >> (4 * (digits - 1 - i)) & 15];
    path[2 + digits] = 0;
    if (arrangement == ONE_HASH) strcat(path, ONE_HASH_TAIL);
}

/* The Metadata PDU of a list with one request for each of the numbers in `order` from `start` up to, and without,
 * `stop`. */
static void make_list(enum action action, char directory, uint32_t start, uint32_t stop) {
    make_metadata(LIST_NUMBER, 0, "");
    for (uint32_t i = start; i < stop; i++) {
        char path[LONGEST_PATH + 1];
        spell(path, directory, order[i]);
        add_request(action, path, NULL);
    }
}

/* A new directory with an entry for each of these numbers. */
static void fill(char directory, uint32_t start, uint32_t stop) {
    make_metadata(LIST_NUMBER, 0, "");
    add_request(CREATE_DIRECTORY, (char[]){directory, 0}, NULL);
    receive(CFDP_ADMITTED);
    perform(1);
    for (uint32_t i = start; i < stop; i += LIST) {
        uint32_t last = stop - i < LIST ? stop : i + LIST;
        make_list(CREATE_FILE, directory, i, last);
        receive(CFDP_ADMITTED);
        perform(last - i);
    }
}

static void make_directory(uint32_t count) {
    make_engine(BLOCKS);
    arrange(count);
    fill('d', 0, count);
}

#endif
