/* A directory of 500 files over pool.c, as in months of service: each transaction renames the directory and creates one
 * more file in it.
 *   months TRANSACTIONS
 * It ends with 1 where one of them is not admitted and performed, or where memory is not given back. In the end it
 * writes how much of the region was used. */
#include "../../include/cfdp.h"
#include "pool.h"
#include <inttypes.h>
#include <stdio.h>
#include <stdlib.h>

enum { FILES = 500, HEADER = 8 };

static struct cfdp_engine engine = CFDP_ENGINE_EMPTY;
static struct cfdp_reply reply;
static uint8_t pdu[256], finished[16488];
static size_t length;

static void expect(bool holds, unsigned long number, const char *what) {
    if (holds) return;
    printf("transaction %lu: wrong: %s; %zu octets are in use, and %zu of the region\n", number, what, pool_in_use(),
        pool_used());
    exit(1);
}

/* ---- PDUs of transaction 1/NUMBER toward entity 2, in unacknowledged mode, without a file */

static void put_octet(uint32_t octet) { pdu[length++] = (uint8_t)octet; }
static void put_zeros(int count) {
    while (count-- > 0) put_octet(0);
}
static void put_name(const char *name) {
    put_octet((uint32_t)strlen(name));
    for (; *name != 0; name++) put_octet((uint8_t)*name);
}
static void put_request(uint32_t action, const char *first, const char *second) {
    put_octet(0);
    put_octet((uint32_t)(2 + strlen(first) + (second ? 1 + strlen(second) : 0)));
    put_octet(action << 4);
    put_name(first);
    if (second) put_name(second);
}
static void begin(unsigned long number, uint32_t directive) {
    length = 0;
    put_octet(0x24), put_zeros(2), put_octet(0x01); /* an ID of one octet, a number of two */
    put_octet(1), put_octet((uint32_t)(number >> 8)), put_octet((uint32_t)number), put_octet(2);
    put_octet(directive);
}
static void hand_in(unsigned long number, enum cfdp_reply_kind kind, const char *what) {
    pdu[1] = (uint8_t)((length - HEADER) >> 8);
    pdu[2] = (uint8_t)(length - HEADER);
    expect(cfdp_receive(&engine, pdu, length, &reply) == CFDP_ANSWER_DONE && reply.kind == kind, number, what);
}

/* The directory is "d" before transactions with odd numbers, and "e" before the others. */
static void run(unsigned long number) {
    const char *from = number % 2 ? "d" : "e", *to = number % 2 ? "e" : "d";
    char file[32];
    size_t octets = 0;
    snprintf(file, sizeof file, "%s/new%lu", to, number);
    begin(number, 7);
    put_zeros(7); /* neither a length nor names */
    put_request(2, from, to), put_request(0, file, NULL);
    hand_in(number, CFDP_REPLY_ADMITTED, "it is not admitted");
    begin(number, 4);
    put_zeros(9);
    hand_in(number, CFDP_REPLY_COMPLETE, "it is not complete");
    for (int request = 0; request < 2; request++) {
        expect(cfdp_step(&engine, 1, number, &reply) == CFDP_ANSWER_DONE, number, "step");
        expect(reply.kind == CFDP_REPLY_PERFORMED && (reply.status & 15) == 0, number, "a request is not performed");
    }
    const enum cfdp_answer taken = cfdp_take(&engine, 1, number, finished, sizeof finished, &octets, &reply);
    expect(taken == CFDP_ANSWER_DONE && reply.kind == CFDP_REPLY_TAKEN, number, "its outcome is not taken");
}

int main(int count, char **words) {
    const unsigned long transactions = count == 2 ? strtoul(words[1], NULL, 10) : 0;
    if (transactions < 1 || transactions > 3000) {
        fprintf(stderr, "usage: months TRANSACTIONS, at most 3000\n");
        return 2;
    }
    const struct cfdp_config config = {.entity = 2, .cap = 100000, .blocks = 4096, .checks = 2};
    struct cfdp_path path;
    char name[32];
    expect(cfdp_new(&engine, &config, NULL, 0) == CFDP_ANSWER_DONE, 0, "new");
    cfdp_path_of(&path, "d");
    expect(cfdp_put(&engine, &path, CFDP_ENTRY_DIRECTORY, NULL, 0) == CFDP_ANSWER_DONE, 0, "put");
    for (int file = 0; file < FILES; file++) {
        snprintf(name, sizeof name, "d/%06d", file);
        cfdp_path_of(&path, name);
        expect(cfdp_put(&engine, &path, CFDP_ENTRY_FILE, NULL, 0) == CFDP_ANSWER_DONE, 0, "put");
    }
    const size_t before = pool_in_use();
    for (unsigned long number = 1; number <= transactions; number++) run(number);
    expect(pool_in_use() == before, transactions, "memory is kept after the last one");
    expect(cfdp_free(&engine) == CFDP_ANSWER_DONE && pool_in_use() == 0, transactions, "memory is not given back");
    printf("%lu transactions: %zu octets of the region used\n", transactions, pool_used());
    return 0;
}
