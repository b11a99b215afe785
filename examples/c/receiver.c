/* A receiver in acknowledged mode, from octets in this source: the Metadata PDU and the file are lost at first and
 * asked for, and the Finished PDU is sent again. Each PDU that is sent is printed, what the user is notified of, and
 * what became of the input. */
#include "../../include/cfdp_receiver.h"
#include <inttypes.h>
#include <stdio.h>

#define PDU(name, ...) static uint8_t name[] = {__VA_ARGS__}

/* Transaction 1/5: a file of 15 octets, 's' there and 'f' here; its octets; its EOF PDU; the acknowledgement of its
 * Finished PDU. */
PDU(metadata, 0x20, 0x00, 0x0a, 0x00, 0x01, 0x05, 0x02, 0x07, 0x40, 0x00, 0x00, 0x00, 0x0f, 0x01, 's', 0x01, 'f');
PDU(data, 0x30, 0x00, 0x13, 0x00, 0x01, 0x05, 0x02, 0x00, 0x00, 0x00, 0x00, 0, 1, 2, 3, 4, 5, 6, 7, 8, 9, 10, 11, 12,
    13, 14);
PDU(eof, 0x20, 0x00, 0x0a, 0x00, 0x01, 0x05, 0x02, 0x04, 0x00, 0x18, 0x1c, 0x20, 0x15, 0x00, 0x00, 0x00, 0x0f);
PDU(ack, 0x20, 0x00, 0x03, 0x00, 0x01, 0x05, 0x02, 0x06, 0x51, 0x02);
/* Transaction 1/6 brings no file; it is cancelled. */
PDU(other, 0x20, 0x00, 0x08, 0x00, 0x01, 0x06, 0x02, 0x07, 0x40, 0x00, 0x00, 0x00, 0x00, 0x00, 0x00);
/* The EOF PDU of 1/5 with a CRC, which is wrong. */
PDU(bad_crc, 0x22, 0x00, 0x0c, 0x00, 0x01, 0x05, 0x02, 0x04, 0x00, 0x18, 0x1c, 0x20, 0x15, 0x00, 0x00, 0x00, 0x0f, 0x12,
    0x34);

static struct cfdp_receiver receiver = CFDP_RECEIVER_EMPTY;
static int failed;

static void expect(uint64_t answer, uint64_t wanted) {
    if (answer != wanted) {
        printf("answer %" PRIu64 ", and not %" PRIu64 "\n", answer, wanted);
        failed = 1;
    }
}

static const char *word_of(enum cfdp_became became) {
    switch (became) {
    case CFDP_BECAME_NOTHING: return "nothing";
    case CFDP_BECAME_NOT_OURS: return "not ours";
    case CFDP_BECAME_REPLIED: return "replied";
    case CFDP_BECAME_NOT_FOR_US: return "not for us";
    case CFDP_BECAME_TABLE_FULL: return "table full";
    case CFDP_BECAME_DUPLICATE: return "duplicate";
    case CFDP_BECAME_IDLE: return "idle";
    case CFDP_BECAME_UNKNOWN: return "unknown";
    case CFDP_BECAME_HELD: return "held";
    case CFDP_BECAME_FAULTED: return "faulted";
    case CFDP_BECAME_ACKNOWLEDGED: return "acknowledged";
    case CFDP_BECAME_ANSWERED: return "answered";
    case CFDP_BECAME_CANCELLED: return "cancelled";
    case CFDP_BECAME_EXPIRED: return "expired";
    case CFDP_BECAME_KEPT_ALIVE: return "kept alive";
    case CFDP_BECAME_IGNORED: return "ignored";
    case CFDP_BECAME_FINISHED: return "finished";
    case CFDP_BECAME_CLOSED: return "closed";
    case CFDP_BECAME_LIST_BEGUN: return "list begun";
    case CFDP_BECAME_SOURCES_FULL: return "sources full";
    case CFDP_BECAME_TOO_FAR_AHEAD: return "too far ahead";
    }
    return "?";
}

static void tell(const struct cfdp_indication *it) {
    if (it->kind == CFDP_INDICATION_NONE) return;
    printf("tell %d of %" PRIu64 "/%" PRIu64 ": condition %" PRIu32, (int)it->kind, it->transaction.source,
        it->transaction.number, it->condition);
    printf(" incomplete %" PRIu32 " file status %" PRIu32 " offset %" PRIu64 " length %" PRIu64 "\n", it->incomplete,
        it->file_status, it->offset, it->length);
}

/* Prints the PDUs of the last answer in hexadecimal, and its report. */
static void show(const struct cfdp_report *report) {
    uint8_t pdu[64];
    char line[128];
    size_t count = 0;
    for (size_t number = 0; number < report->pdus; number++) {
        expect(cfdp_receiver_write(&receiver, number, NULL, 0, &count), CFDP_ANSWER_TOO_SHORT);
        expect(cfdp_receiver_write(&receiver, number, pdu, sizeof pdu, &count), CFDP_ANSWER_DONE);
        printf("send ");
        for (size_t at = 0; at < count; at++) printf("%02x", pdu[at]);
        printf("\n");
    }
    expect(cfdp_receiver_write(&receiver, report->pdus, pdu, sizeof pdu, &count), CFDP_ANSWER_NOTHING);
    tell(&report->indication);
    printf("%" PRIu64 "/%" PRIu64 " %s\n", report->transaction.source, report->transaction.number,
        word_of(report->became));
    if (report->reply.kind == CFDP_REPLY_NONE) return;
    expect(cfdp_reply_text(&report->reply, NULL, 0, (uint8_t *)line, sizeof line, &count), CFDP_ANSWER_DONE);
    printf("%s", line); /* it ends with a 0 */
}

static void receive(uint64_t now, uint8_t *octets, size_t length) {
    struct cfdp_report report = {0};
    expect(cfdp_receiver_receive(&receiver, now, octets, length, &report), CFDP_ANSWER_DONE);
    show(&report);
}
#define RECEIVE(now, pdu) receive(now, pdu, sizeof pdu)

/* Performs all items, and takes all outcomes. */
static void work_off(uint64_t now) {
    struct cfdp_report report = {0};
    while (cfdp_receiver_work(&receiver, now, &report) == CFDP_ANSWER_DONE && report.became != CFDP_BECAME_NOTHING)
        show(&report);
    while (cfdp_receiver_finish(&receiver, now, &report) == CFDP_ANSWER_DONE && report.became != CFDP_BECAME_NOTHING)
        show(&report);
}

/* Serves what is due at the next deadline, which is printed. */
static void expire(void) {
    struct cfdp_report report = {0};
    uint64_t moment = 0;
    expect(cfdp_receiver_deadline(&receiver, &moment), CFDP_ANSWER_DONE);
    printf("at %" PRIu64 "\n", moment);
    expect(cfdp_receiver_expire(&receiver, moment, &report), CFDP_ANSWER_DONE);
    show(&report);
}

/* A receiver of a management information base that is out of range is not made, and the engine stays. */
static void open_receiver(struct cfdp_engine *engine, struct cfdp_mib mib) {
    const struct cfdp_mib good = mib;
    mib.check_handler = (enum cfdp_handler)0;
    expect(cfdp_receiver_new(&receiver, engine, &mib), CFDP_ANSWER_BAD_HANDLER);
    mib = good, mib.nak_mode = (enum cfdp_nak_mode)3;
    expect(cfdp_receiver_new(&receiver, engine, &mib), CFDP_ANSWER_BAD_NAK_MODE);
    mib = good, mib.longest_nak = 65536;
    expect(cfdp_receiver_new(&receiver, engine, &mib), CFDP_ANSWER_BAD_LONGEST_NAK);
    mib = good, mib.longest_nak = 71;
    expect(cfdp_receiver_new(&receiver, engine, &mib), CFDP_ANSWER_BAD_LONGEST_NAK);
    mib = good, mib.nak_interval = 0;
    expect(cfdp_receiver_new(&receiver, engine, &mib), CFDP_ANSWER_BAD_INTERVAL);
    mib = good, mib.ack_limit = 1001;
    expect(cfdp_receiver_new(&receiver, engine, &mib), CFDP_ANSWER_BAD_LIMIT);
    expect(cfdp_receiver_new(&receiver, engine, &good), CFDP_ANSWER_DONE);
    expect(cfdp_free(engine), CFDP_ANSWER_NO_ENGINE);
    expect(cfdp_receiver_new(&receiver, engine, &good), CFDP_ANSWER_HAS_ENGINE);
}

static void show_filestore(void) {
    struct cfdp_path path = {0};
    struct cfdp_entry entry;
    uint8_t octets[32];
    size_t count = 0;
    while (cfdp_receiver_next(&receiver, &path, &entry) == CFDP_ANSWER_DONE)
        printf("%s %.*s %" PRIu64 "\n", entry.kind == CFDP_ENTRY_FILE ? "file" : "dir", (int)path.length,
            (const char *)path.octets, entry.size);
    expect(cfdp_path_of(&path, "f"), CFDP_ANSWER_DONE);
    expect(cfdp_receiver_look_up(&receiver, &path, &entry), CFDP_ANSWER_DONE);
    expect(entry.checksum, 0x181c2015);
    expect(cfdp_receiver_read(&receiver, &path, 5, octets, sizeof octets, &count), CFDP_ANSWER_DONE);
    expect(count, 10);
    for (size_t at = 0; at < count; at++) expect(octets[at], 5 + at);
    expect(cfdp_path_of(&path, "g"), CFDP_ANSWER_DONE);
    expect(cfdp_receiver_read(&receiver, &path, 0, NULL, 0, &count), CFDP_ANSWER_NOTHING);
}

/* Without a receiver each call answers NO_ENGINE. A new receiver has nothing to do, and drops what is no PDU. */
static void begin(void) {
    const struct cfdp_config config = {.entity = 2, .cap = 2400, .blocks = 64, .checks = 2};
    const struct cfdp_mib mib = {.ack_interval = 50,
        .ack_limit = 2,
        .ack_handler = CFDP_HANDLER_ABANDON,
        .nak_interval = 40,
        .nak_limit = 3,
        .nak_handler = CFDP_HANDLER_CANCEL,
        .check_interval = 30,
        .check_handler = CFDP_HANDLER_CANCEL,
        .inactivity_interval = 600,
        .inactivity_handler = CFDP_HANDLER_CANCEL,
        .nak_mode = CFDP_NAK_DEFERRED,
        .longest_nak = 100};
    struct cfdp_engine engine = CFDP_ENGINE_EMPTY;
    struct cfdp_report report = {0};
    uint64_t moment = 7;
    size_t count = 0;
    expect(cfdp_receiver_new(&receiver, &engine, &mib), CFDP_ANSWER_NO_ENGINE);
    expect(cfdp_receiver_work(&receiver, 0, &report), CFDP_ANSWER_NO_ENGINE);
    expect(cfdp_receiver_free(&receiver), CFDP_ANSWER_NO_ENGINE);
    expect(cfdp_new(&engine, &config, NULL, 0), CFDP_ANSWER_DONE);
    open_receiver(&engine, mib);
    expect(cfdp_receiver_deadline(&receiver, &moment), CFDP_ANSWER_NOTHING);
    expect(moment, 7);
    expect(cfdp_receiver_write(&receiver, 0, NULL, 0, &count), CFDP_ANSWER_NOTHING);
    expect(cfdp_receiver_receive(&receiver, 0, NULL, 0, &report), CFDP_ANSWER_TRUNCATED);
    expect(cfdp_receiver_receive(&receiver, 0, bad_crc, sizeof bad_crc, &report), CFDP_ANSWER_BAD_CRC);
}

/* The EOF PDU comes first; what is missing is asked for, and comes. */
static void receive_file(void) {
    uint8_t name[2] = {9, 9};
    size_t count = 0;
    RECEIVE(100, eof);
    expire();
    RECEIVE(150, metadata);
    expect(cfdp_receiver_destination_name(&receiver, 1, 5, name, sizeof name, &count), CFDP_ANSWER_DONE);
    expect(count, 1);
    expect(name[0], 'f');
    expect(name[1], 0);
    RECEIVE(160, data);
    work_off(160);
    expect(cfdp_receiver_destination_name(&receiver, 1, 5, name, sizeof name, &count), CFDP_ANSWER_NOTHING);
    expire();
    RECEIVE(220, ack);
    RECEIVE(230, metadata);
    show_filestore();
}

/* An EOF PDU of a closed transaction is acknowledged. The ACK PDU is written before the next call, or not at all. */
static void forget_to_write(void) {
    struct cfdp_report report = {0};
    uint8_t pdu[16];
    size_t count = 0;
    expect(cfdp_receiver_receive(&receiver, 235, eof, sizeof eof, &report), CFDP_ANSWER_DONE);
    expect(report.pdus, 1);
    expect(cfdp_receiver_work(&receiver, 235, &report), CFDP_ANSWER_DONE);
    expect(report.pdus, 0);
    expect(cfdp_receiver_write(&receiver, 0, pdu, sizeof pdu, &count), CFDP_ANSWER_NOTHING);
}

/* The user cancels the other transaction, whose Finished PDU nobody acknowledges. */
static void cancel_other(void) {
    struct cfdp_report report = {0};
    RECEIVE(240, other);
    expect(cfdp_receiver_cancel(&receiver, 250, 1, 6, &report), CFDP_ANSWER_DONE);
    show(&report);
    work_off(250);
    expire();
    expire();
    expect(cfdp_receiver_forget_closed(&receiver, &report), CFDP_ANSWER_DONE);
    show(&report);
    RECEIVE(400, data);
}

int main(void) {
    if (cfdp_receiver_octets() != sizeof receiver) return 1;
    begin();
    receive_file();
    forget_to_write();
    cancel_other();
    expect(cfdp_receiver_free(&receiver), CFDP_ANSWER_DONE);
    expect(cfdp_receiver_free(&receiver), CFDP_ANSWER_NO_ENGINE);
    return failed;
}
