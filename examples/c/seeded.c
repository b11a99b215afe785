/* Events made at random, with many transactions at once: each goes to the library, and is written as a line of a script
 * of `cfdpsim replay`. What this program prints is what that script's run prints.
 *   seeded SCRIPT SEED EVENTS > text
 * The file SCRIPT is written; SEED begins the random numbers. */
#include "../../include/cfdp.h"
#include <inttypes.h>
#include <stdbool.h>
#include <stdio.h>
#include <stdlib.h>
#include <string.h>

enum { SOURCES = 3, NUMBERS = 24, BLOCKS = 256, CAP = 2400, CHECKS = 3, PIECE = 100 };

/* What was last announced for a transaction: how long its file is, and the first octet of it. */
struct announced {
    uint32_t size;
    uint8_t first;
};

static struct cfdp_engine engine = CFDP_ENGINE_EMPTY;
static struct announced announced[SOURCES][NUMBERS];
static FILE *script;
static uint64_t random_state;
static uint8_t pdu[8192];
static size_t length;

static void fail(const char *why) {
    fprintf(stderr, "seeded: %s\n", why);
    exit(1);
}

/* A number below a bound (xorshift64). */
static uint32_t below(uint32_t bound) {
    random_state ^= random_state << 13;
    random_state ^= random_state >> 7;
    random_state ^= random_state << 17;
    return (uint32_t)(random_state >> 33) % bound;
}

static bool in_ten(uint32_t times) { return below(10) < times; }

static void put(const void *octets, size_t count) {
    memcpy(pdu + length, octets, count);
    length += count;
}

static void put_octet(uint32_t octet) { put(&(uint8_t){(uint8_t)octet}, 1); }

static void put_number(uint32_t number) {
    for (int shift = 24; shift >= 0; shift -= 8) put_octet(number >> shift);
}

static void put_name(const char *name) {
    put_octet((uint32_t)strlen(name));
    put(name, strlen(name));
}

/* The octets of a file, and their modular checksum (checksum procedures). */
static uint8_t octet_of(const struct announced *file, uint32_t at) { return (uint8_t)(file->first + 7 * at); }

static uint32_t checksum_of(const struct announced *file) {
    uint32_t sum = 0;
    for (uint32_t at = 0; at < file->size; at++) sum += (uint32_t)octet_of(file, at) << (8 * (3 - at % 4));
    return sum;
}

/* The header (5.1), toward the receiver. The length of the data field comes at the end. */
static void begin(bool file_data, uint32_t source, uint32_t number) {
    uint32_t mode = number % 2 ? 0x04 : 0x00; /* unacknowledged and acknowledged */
    length = 0;
    put_octet(0x20 | mode | (file_data ? 0x10 : 0));
    put("\0\0\0", 3);
    put_octet(source + 1);
    put_octet(number);
    put_octet(below(40) ? 2 : 3); /* seldom another entity */
}

static void end(void) {
    pdu[1] = (uint8_t)((length - 7) >> 8);
    pdu[2] = (uint8_t)(length - 7);
}

static const char *some_path(void) {
    static const char *const paths[] = {
        "a", "b", "c", "d", "d/a", "d/b", "d/e", "d/e/f", "g", "g/h", "i", "j", "k", "l", "m", "n", "keep", "keep/o"};
    static const char *const bad[] = {"..", "a//b", "/", "d/./a"};
    return below(30) ? paths[below(sizeof paths / sizeof *paths)] : bad[below(sizeof bad / sizeof *bad)];
}

/* A filestore request TLV (5.4.1): rename, append and replace have a second name. */
static void put_request(void) {
    static const uint8_t likely[] = {0, 0, 0, 1, 2, 3, 4, 5, 5, 6, 7, 7, 8};
    uint32_t action = likely[below(sizeof likely)];
    put_octet(0x00);
    size_t at = length;
    put_octet(0);
    put_octet(action << 4);
    put_name(some_path());
    if (action >= 2 && action <= 4) put_name(some_path());
    pdu[at] = (uint8_t)(length - at - 1);
}

static void make_metadata(uint32_t source, uint32_t number) {
    struct announced *file = &announced[source][number];
    bool has_file = in_ten(6);
    *file = (struct announced){
        .size = has_file && below(8) ? below(in_ten(9) ? 900 : 12000) : 0, .first = (uint8_t)below(256)};
    begin(false, source, number);
    put_octet(0x07);
    put_octet((in_ten(7) ? 0x40 : 0x00) | (below(25) ? 0 : 15)); /* closure; seldom the null checksum */
    put_number(file->size);
    put_name(has_file ? "image" : "");
    put_name(has_file ? some_path() : "");
    for (uint32_t count = below(50) ? below(4) : 62 + below(5); count > 0; count--) put_request();
    end();
}

static void make_file_data(uint32_t source, uint32_t number, uint32_t piece) {
    const struct announced *file = &announced[source][number];
    uint32_t at = piece * PIECE;
    uint32_t count = file->size - at < PIECE ? file->size - at : PIECE;
    begin(true, source, number);
    put_number(at);
    for (uint32_t i = 0; i < count; i++) put_octet(octet_of(file, at + i));
    end();
}

static void make_eof(uint32_t source, uint32_t number) {
    const struct announced *file = &announced[source][number];
    uint32_t condition = below(15) ? 0 : 15;
    begin(false, source, number);
    put_octet(0x04);
    put_octet(condition << 4);
    put_number(checksum_of(file) + (below(15) == 0));
    put_number(file->size);
    if (condition) put("\x06\x01\x01", 3); /* the fault location: entity 1 */
    end();
}

static uint32_t pieces_of(uint32_t source, uint32_t number) { return announced[source][number].size / PIECE + 1; }

/* The line of a reply is printed. */
static void show(const struct cfdp_reply *reply, const uint8_t *octets, size_t count) {
    uint8_t text[8192];
    size_t written = 0;
    if (cfdp_reply_text(reply, octets, count, text, sizeof text, &written) != CFDP_DONE) fail("no text of a reply");
    fwrite(text, 1, written, stdout);
}

static void receive(void) {
    struct cfdp_reply reply = {0};
    fprintf(script, "pdu ");
    for (size_t i = 0; i < length; i++) fprintf(script, "%02x", pdu[i]);
    fprintf(script, "\n");
    uint32_t answer = cfdp_receive(&engine, pdu, length, &reply);
    if (answer == CFDP_DONE) {
        show(&reply, pdu, 0);
        return;
    }
    uint8_t text[64];
    size_t written = 0;
    if (cfdp_answer_text(answer, text, sizeof text, &written) != CFDP_DONE) fail("no text of an answer");
    fwrite(text, 1, written, stdout);
}

/* A PDU arrives as it was made; seldom cut short, or with an octet changed. */
static void arrive(void) {
    if (below(25) == 0) length = 1 + below((uint32_t)length);
    if (below(25) == 0) pdu[below((uint32_t)length)] ^= (uint8_t)(1 << below(8));
    receive();
}

typedef uint32_t event(struct cfdp_engine *, uint64_t, uint64_t, struct cfdp_reply *);

static void tell(const char *word, event *call, uint32_t source, uint32_t number) {
    struct cfdp_reply reply = {0};
    fprintf(script, "%s %" PRIu32 " %" PRIu32 "\n", word, source + 1, number);
    if (call(&engine, source + 1, number, &reply) != CFDP_DONE) fail(word);
    show(&reply, pdu, 0);
}

static void run(void) {
    struct cfdp_transaction next;
    fprintf(script, "run\n");
    while (cfdp_next_runnable(&engine, &next) == CFDP_DONE) {
        struct cfdp_reply reply = {0};
        if (cfdp_step(&engine, next.source, next.number, &reply) != CFDP_DONE) fail("step");
        show(&reply, pdu, 0);
    }
}

static void take(uint32_t source, uint32_t number) {
    struct cfdp_reply reply = {0};
    uint8_t out[4096];
    size_t count = 0;
    fprintf(script, "take %" PRIu32 " %" PRIu32 "\n", source + 1, number);
    if (cfdp_take(&engine, source + 1, number, out, sizeof out, &count, &reply) != CFDP_DONE) fail("take");
    show(&reply, out, count);
}

/* All of a file, and its EOF PDU; then it is run, and mostly taken. */
static void deliver(uint32_t source, uint32_t number) {
    uint32_t pieces = pieces_of(source, number), first = below(pieces);
    for (uint32_t i = 0; i < pieces; i++) make_file_data(source, number, (first + i) % pieces), arrive();
    make_eof(source, number), arrive();
    run();
    if (in_ten(8)) take(source, number);
}

/* A transaction of this phase, where a few tries find one, and else any. */
static void choose(uint32_t wanted, uint32_t *source, uint32_t *number) {
    for (int tries = 0; tries < 40; tries++) {
        struct cfdp_phase phase = {0};
        *source = below(SOURCES);
        *number = below(NUMBERS);
        if (cfdp_phase(&engine, *source + 1, *number, &phase) == CFDP_DONE && phase.phase == wanted) return;
    }
}

static void some_event(void) {
    uint32_t source, number, which = below(100);
    choose(1 + below(6), &source, &number);
    if (which < 30) {
        source = below(SOURCES), number = below(NUMBERS);
        make_metadata(source, number), arrive();
        if (in_ten(3)) deliver(source, number);
    } else if (which < 55) make_file_data(source, number, below(pieces_of(source, number))), arrive();
    else if (which < 60) make_eof(source, number), arrive();
    else if (which < 66) deliver(source, number);
    else if (which < 75) tell("step", cfdp_step, source, number);
    else if (which < 77) tell("cancel", cfdp_cancel, source, number);
    else if (which < 85) tell("check", cfdp_check, source, number);
    else if (which < 87) run();
    else take(source, number);
}

int main(int count, char **words) {
    static const struct cfdp_config config = {.entity = 2, .cap = CAP, .blocks = BLOCKS, .checks = CHECKS};
    static const struct cfdp_path keep = {.length = 4, .octets = "keep"};
    if (count != 4 || !(script = fopen(words[1], "w"))) return 2;
    random_state = strtoull(words[2], NULL, 10) * 0x9e3779b97f4a7c15u + 1;
    if (cfdp_new(&engine, &config, &keep, 1) != CFDP_DONE) return 1;
    fprintf(script, "config 2 %d %d %d 16\nprotect 6b656570\n", BLOCKS, CAP, CHECKS);
    for (long left = strtol(words[3], NULL, 10); left > 0; left--) some_event();
    if (cfdp_free(&engine) != CFDP_DONE) return 1;
    return fclose(script) != 0;
}
