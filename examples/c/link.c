/* Measures a receiver of cfdp_receiver.h: File Data PDUs a second, MB a second, the longest call of each kind, the
 * stack that calls use, and the memory that they ask for. It makes the PDUs of FILES files of OCTETS octets with a list
 * of two requests each, one file after the other.
 *   link [FILES [OCTETS]]
 * Build it with pool.c: cc -std=c99 -O2 link.c pool.c libcfdp_c.a */
#define _POSIX_C_SOURCE 200809L
#include "../../include/cfdp_receiver.h"
#include "pool.h"
#include <inttypes.h>
#include <pthread.h>
#include <stdio.h>
#include <stdlib.h>
#include <time.h>

enum { PIECE = 1000, STACK = 1024 * 1024 };

enum call {
    RECEIVE_METADATA,
    RECEIVE_DATA,
    RECEIVE_EOF,
    RECEIVE_ACK,
    WORK,
    FINISH,
    DEADLINE,
    EXPIRE,
    WRITE,
    READ,
    CALLS
};
static const char *const names[CALLS] = {"receive Metadata", "receive File Data", "receive EOF", "receive ACK", "work",
    "finish", "deadline", "expire", "write", "read"};

static struct { double longest, total; uint64_t count; } times[CALLS];
static struct cfdp_receiver receiver = CFDP_RECEIVER_EMPTY;
static struct cfdp_report report;
static uint8_t pdu[2048], out[16490];
static size_t length;

/* Of the processor for this thread, so that what other programs do is not in it. */
static double seconds(void) {
    struct timespec now;
    clock_gettime(CLOCK_THREAD_CPUTIME_ID, &now);
    return (double)now.tv_sec + (double)now.tv_nsec / 1e9;
}

static void take_time(enum call call, double begun) {
    double took = seconds() - begun;
    times[call].total += took;
    times[call].count++;
    if (took > times[call].longest) times[call].longest = took;
}

static void fail(const char *what) {
    fprintf(stderr, "link: %s\n", what);
    exit(1);
}

static void put(const void *octets, size_t count) {
    memcpy(pdu + length, octets, count);
    length += count;
}
static void put_octet(uint32_t octet) { put(&(uint8_t){(uint8_t)octet}, 1); }
static void put_number(uint32_t number) {
    for (int shift = 24; shift >= 0; shift -= 8) put_octet(number >> shift);
}
static void begin(uint32_t first, uint32_t number) {
    length = 0;
    put_octet(first), put_octet(0), put_octet(0), put_octet(3), put_octet(1);
    put_number(number);
    put_octet(2);
}
static void end(void) {
    pdu[1] = (uint8_t)((length - 10) >> 8);
    pdu[2] = (uint8_t)(length - 10);
}

static void send_all(void) {
    size_t count = 0;
    for (size_t number = 0; number < report.pdus; number++) {
        double begun = seconds();
        if (cfdp_receiver_write(&receiver, number, out, sizeof out, &count) != CFDP_ANSWER_DONE) fail("write");
        take_time(WRITE, begun);
    }
}

static void hear(enum call call, uint64_t now) {
    double begun = seconds();
    if (cfdp_receiver_receive(&receiver, now, pdu, length, &report) != CFDP_ANSWER_DONE) fail(names[call]);
    take_time(call, begun);
    send_all();
}

/* Hands in the Metadata PDU of a file for 'f', which is renamed to 'g' and deleted by its own list. */
static void hear_metadata(uint32_t number, uint32_t octets, uint64_t now) {
    static const uint8_t list[] = {0, 5, 0x20, 1, 'f', 1, 'g', 0, 3, 0x10, 1, 'g'};
    begin(0x20, number);
    put_octet(7), put_octet(0), put_number(octets), put("\001s\001f", 4), put(list, sizeof list), end();
    hear(RECEIVE_METADATA, now);
}

/* Hands in the octets of a file, in pieces, and returns its checksum. */
static uint32_t hear_pieces(uint32_t number, uint32_t octets, uint64_t now) {
    static uint8_t piece[PIECE];
    uint32_t sum = 0;
    for (uint32_t at = 0; at < octets; at += PIECE) {
        uint32_t count = octets - at < PIECE ? octets - at : PIECE;
        for (uint32_t index = 0; index < count; index++) {
            piece[index] = (uint8_t)(7 * (at + index) + number);
            sum += (uint32_t)piece[index] << (8 * (3 - (at + index) % 4));
        }
        begin(0x30, number);
        put_number(at), put(piece, count), end();
        hear(RECEIVE_DATA, now);
        uint64_t due = 0;
        double begun = seconds();
        cfdp_receiver_deadline(&receiver, &due);
        take_time(DEADLINE, begun);
    }
    return sum;
}

/* Performs all items, and reads the file once it is installed. */
static void work_off(uint64_t now) {
    static const struct cfdp_path path = {.length = 1, .octets = "f"};
    static uint8_t copy[65536];
    do {
        double begun = seconds();
        if (cfdp_receiver_work(&receiver, now, &report) != CFDP_ANSWER_DONE) fail("work");
        take_time(WORK, begun);
        if (report.reply.kind == CFDP_REPLY_INSTALLED) {
            size_t count = 0;
            begun = seconds();
            if (cfdp_receiver_read(&receiver, &path, 0, copy, sizeof copy, &count) != CFDP_ANSWER_DONE) fail("read");
            take_time(READ, begun);
        }
    } while (report.became != CFDP_BECAME_NOTHING);
}

/* Takes the outcome, and serves what is due. */
static void finish(uint64_t now) {
    double begun = seconds();
    if (cfdp_receiver_finish(&receiver, now, &report) != CFDP_ANSWER_DONE || report.indication.condition != 0)
        fail("finish");
    take_time(FINISH, begun);
    send_all();
    begun = seconds();
    cfdp_receiver_expire(&receiver, now, &report);
    take_time(EXPIRE, begun);
}

/* A file, from its Metadata PDU until its Finished PDU is acknowledged. */
static void play(uint32_t number, uint32_t octets, uint64_t now) {
    hear_metadata(number, octets, now);
    uint32_t sum = hear_pieces(number, octets, now);
    begin(0x20, number);
    put_octet(4), put_octet(0), put_number(sum), put_number(octets), end();
    hear(RECEIVE_EOF, now);
    work_off(now);
    finish(now);
    begin(0x20, number);
    put_octet(6), put_octet(0x51), put_octet(1), end();
    hear(RECEIVE_ACK, now);
    if (report.became != CFDP_BECAME_ACKNOWLEDGED) fail("a transaction is not closed");
}

static uint32_t files = 20, octets_each = 2000000;

static void *run(void *nothing) {
    const struct cfdp_config config = {.entity = 2, .cap = 7864320, .blocks = 65536, .checks = 10};
    const struct cfdp_mib mib = {.ack_interval = 100,
        .ack_limit = 100,
        .ack_handler = CFDP_HANDLER_CANCEL,
        .nak_interval = 100,
        .nak_limit = 100,
        .nak_handler = CFDP_HANDLER_CANCEL,
        .check_interval = 500,
        .check_handler = CFDP_HANDLER_CANCEL,
        .inactivity_interval = 20000,
        .inactivity_handler = CFDP_HANDLER_CANCEL,
        .nak_mode = CFDP_NAK_IMMEDIATE,
        .longest_nak = 1400};
    struct cfdp_engine engine = CFDP_ENGINE_EMPTY;
    (void)nothing;
    if (cfdp_new(&engine, &config, NULL, 0) != CFDP_ANSWER_DONE ||
        cfdp_receiver_new(&receiver, &engine, &mib) != CFDP_ANSWER_DONE)
        fail("new");
    for (uint32_t number = 1; number <= files; number++) play(number, octets_each, number * 10u);
    return NULL;
}

static void show_times(void) {
    double total = 0;
    for (int call = 0; call < CALLS; call++) total += times[call].total;
    printf("%" PRIu32 " files of %" PRIu32 " octets in File Data PDUs of %d\n", files, octets_each, PIECE);
    printf("receive File Data: %.0f a second, %.0f MB a second\n",
        (double)times[RECEIVE_DATA].count / times[RECEIVE_DATA].total,
        (double)files * octets_each / times[RECEIVE_DATA].total / 1e6);
    for (int call = 0; call < CALLS; call++)
        printf("%-18s %8" PRIu64 " calls, mean %8.2f us, longest %8.2f us\n", names[call], times[call].count,
            times[call].count ? 1e6 * times[call].total / (double)times[call].count : 0, 1e6 * times[call].longest);
    printf("all calls: %.2f s\n", total);
}

int main(int count, char **words) {
    if (count > 1) files = (uint32_t)atol(words[1]);
    if (count > 2) octets_each = (uint32_t)atol(words[2]);
    /* The calls are made on a stack that was filled with one octet, so that one sees how much of it was written. */
    static uint8_t stack[STACK] __attribute__((aligned(4096)));
    pthread_attr_t attributes;
    pthread_t thread;
    memset(stack, 0xa5, sizeof stack);
    if (pthread_attr_init(&attributes) != 0 || pthread_attr_setstack(&attributes, stack, sizeof stack) != 0) return 1;
    if (pthread_create(&thread, &attributes, run, NULL) != 0 || pthread_join(thread, NULL) != 0) return 1;
    size_t unused = 0;
    while (unused < sizeof stack && stack[unused] == 0xa5) unused++;
    show_times();
    printf("stack: %zu octets, with those of this program and of the thread\n", sizeof stack - unused);
    printf("memory: %zu octets in use at most, %zu of the region\n", pool_most_in_use(), pool_used());
    return 0;
}
