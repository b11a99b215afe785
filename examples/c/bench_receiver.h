/* The workloads with a receiver, for bench.c, which includes this after what they use of it. Where bench.c says nothing
 * else, their size is the number of other transactions: each has a list of 64 renames of long paths, and waits for its
 * EOF PDU. */
#ifndef BENCH_RECEIVER_H
#define BENCH_RECEIVER_H

#include "../../include/cfdp_receiver.h"
#include "bench.h"

enum {
    INTERVAL = 1000, /* of each timer */
    LEAST_NAK = 72   /* so that the gaps need the most NAK PDUs */
};

static struct cfdp_receiver receiver = CFDP_RECEIVER_EMPTY;
static struct cfdp_report report;

/* A call's report came: it has to say this of the input. */
static void note_report(enum cfdp_answer answer, enum cfdp_became wanted) {
    if (answer != CFDP_ANSWER_DONE || report.became != wanted) fail("another report");
    note((uint64_t)report.became | (uint64_t)report.pdus << 8 | (uint64_t)report.indication.kind << 16);
    note_reply(&report.reply);
}

/* The PDU that was made comes, in acknowledged mode. */
static void hear(enum cfdp_became wanted) {
    pdu[0] &= 0xfb;
    note_report(cfdp_receiver_receive(&receiver, 0, pdu, length, &report), wanted);
}

static void make_receiver(void) {
    const struct cfdp_mib mib = {.ack_interval = INTERVAL,
        .ack_limit = 10,
        .ack_handler = CFDP_HANDLER_CANCEL,
        .nak_interval = INTERVAL,
        .nak_limit = 10,
        .nak_handler = CFDP_HANDLER_CANCEL,
        .check_interval = INTERVAL,
        .check_handler = CFDP_HANDLER_CANCEL,
        .inactivity_interval = 2 * INTERVAL,
        .inactivity_handler = CFDP_HANDLER_CANCEL,
        .nak_mode = CFDP_NAK_DEFERRED,
        .has_crc = 1,
        .longest_nak = LEAST_NAK};
    if (cfdp_receiver_new(&receiver, &engine, &mib) != CFDP_ANSWER_DONE) fail("no receiver");
}

static void make_others(uint32_t others) {
    make_long_paths(others);
    make_receiver();
    for (uint32_t i = 0; i < others; i++) {
        make_long_list(FIRST_OTHER + i);
        hear(CFDP_BECAME_REPLIED);
    }
}

static uint32_t hear_one(uint32_t others) {
    (void)others;
    hear(CFDP_BECAME_REPLIED);
    return 1;
}

static void prepare_heard_metadata(uint32_t others) {
    make_others(others);
    make_long_list(LIST_NUMBER);
}

/* A file is announced, and its first piece is made. */
static void prepare_heard_data(uint32_t others) {
    make_others(others);
    make_metadata(FILE_NUMBER, GAPPED, "image");
    hear(CFDP_BECAME_REPLIED);
    make_data(FILE_NUMBER, 0, SMALL_PIECE);
}

/* The PDU that was made gets its CRC: its last two octets, of all octets before them (CRC procedures). */
static void seal(void) {
    uint16_t crc = 0xffff;
    pdu[0] = (uint8_t)((pdu[0] & 0xfb) | 0x02);
    length += 2;
    end();
    for (size_t at = 0; at < length - 2; at++) {
        crc ^= (uint16_t)(pdu[at] << 8);
        for (int bit = 0; bit < 8; bit++) crc = (uint16_t)(crc & 0x8000 ? crc << 1 ^ 0x1021 : crc << 1);
    }
    pdu[length - 2] = (uint8_t)(crc >> 8);
    pdu[length - 1] = (uint8_t)crc;
}

/* A file of this many octets is announced, and comes in one PDU with a CRC. */
static void prepare_heard_crc(uint32_t octets) {
    make_others(LIVE);
    make_metadata(FILE_NUMBER, octets, "image");
    hear(CFDP_BECAME_REPLIED);
    make_data(FILE_NUMBER, 0, octets);
    seal();
}

/* A Finished PDU with this many filestore responses, and with a CRC. */
static void prepare_heard_other(uint32_t responses) {
    make_others(LIVE);
    make_other(responses);
    seal();
}

static uint32_t hear_other(uint32_t responses) {
    (void)responses;
    note_report(cfdp_receiver_receive(&receiver, 0, pdu, length, &report), CFDP_BECAME_NOT_OURS);
    return 1;
}

/* Each second piece of a file came, from its second piece on. Its EOF PDU is made. */
static void prepare_heard_eof(uint32_t others) {
    prepare_heard_data(others);
    for (uint32_t i = 0; i < RANGES; i++) {
        make_data(FILE_NUMBER, (2 * i + 1) * SMALL_PIECE, SMALL_PIECE);
        hear(CFDP_BECAME_REPLIED);
    }
    make_eof(FILE_NUMBER, checksum_of(GAPPED), GAPPED);
}

/* The gaps of the file were asked for. */
static void prepare_expire(uint32_t others) {
    prepare_heard_eof(others);
    hear(CFDP_BECAME_REPLIED);
}

static uint32_t expire(uint32_t others) {
    (void)others;
    note_report(cfdp_receiver_expire(&receiver, INTERVAL, &report), CFDP_BECAME_EXPIRED);
    return 1;
}

static uint32_t ask_deadline(uint32_t others) {
    uint64_t moment = 0;
    (void)others;
    if (cfdp_receiver_deadline(&receiver, &moment) != CFDP_ANSWER_DONE || moment != INTERVAL) fail("another deadline");
    note(moment);
    return 1;
}

/* A list of 64 renames of long paths is complete. */
static void prepare_work(uint32_t others) {
    prepare_heard_metadata(others);
    hear(CFDP_BECAME_REPLIED);
    make_eof(LIST_NUMBER, 0, 0);
    hear(CFDP_BECAME_REPLIED);
}

static uint32_t work(uint32_t others) {
    (void)others;
    note_report(cfdp_receiver_work(&receiver, 0, &report), CFDP_BECAME_REPLIED);
    return 1;
}

/* All its requests are performed. */
static void prepare_finish(uint32_t others) {
    prepare_work(others);
    for (uint32_t request = 0; request < LIST; request++) work(others);
}

static uint32_t finish(uint32_t others) {
    (void)others;
    note_report(cfdp_receiver_finish(&receiver, 0, &report), CFDP_BECAME_FINISHED);
    return 1;
}

/* Its Finished PDU is to be written. */
static void prepare_write(uint32_t others) {
    prepare_finish(others);
    finish(others);
}

static uint32_t write_one(uint32_t others) {
    static uint8_t out[16490];
    size_t count = 0;
    (void)others;
    if (report.pdus != 1 || cfdp_receiver_write(&receiver, 0, out, sizeof out, &count) != CFDP_ANSWER_DONE)
        fail("no Finished PDU");
    for (size_t at = 0; at < count; at++) note(out[at]);
    return 1;
}

/* Its Finished PDU was sent, and the acknowledgement is made: an ACK PDU (5.2.4). */
static void prepare_heard_ack(uint32_t others) {
    prepare_write(others);
    begin(0x20, LIST_NUMBER);
    put("\x06\x51\x01", 3);
    end();
}

static uint32_t hear_ack(uint32_t others) {
    (void)others;
    hear(CFDP_BECAME_ACKNOWLEDGED);
    return 1;
}

/* A list of 64 renames of long paths waits for its EOF PDU. */
static void prepare_receiver_cancel(uint32_t others) {
    prepare_heard_metadata(others);
    hear(CFDP_BECAME_REPLIED);
}

static uint32_t cancel_heard(uint32_t others) {
    (void)others;
    note_report(cfdp_receiver_cancel(&receiver, 0, 1, LIST_NUMBER, &report), CFDP_BECAME_REPLIED);
    return 1;
}

/* The others and this list waited too long for their EOF PDUs: the fault of the first one cancels it. */
static uint32_t expire_at_limit(uint32_t others) {
    (void)others;
    note_report(cfdp_receiver_expire(&receiver, 2 * INTERVAL, &report), CFDP_BECAME_FAULTED);
    return 1;
}

static uint32_t forget(uint32_t others) {
    (void)others;
    note_report(cfdp_receiver_forget_closed(&receiver, &report), CFDP_BECAME_NOTHING);
    return 1;
}

static uint32_t open_receiver(uint32_t blocks) {
    (void)blocks;
    make_receiver();
    return 1;
}

static uint32_t free_receiver(uint32_t others) {
    (void)others;
    if (cfdp_receiver_free(&receiver) != CFDP_ANSWER_DONE) fail("no receiver");
    return 1;
}

/* The receiver is freed, and an engine is there as for the other workloads. */
static void check_receiver(uint32_t others) {
    free_receiver(others);
    make_engine(BLOCKS);
}

#endif
