/* Many transactions of a receiver over pool.c, as in months of service: each brings a file and a list of filestore
 * requests with names of any length, some PDUs are lost and asked for, and some come twice.
 *   soak TRANSACTIONS SEED [LIVE [REQUESTS [DEPTH]]]
 * At most LIVE of them are under way at once, and a list has 2 to REQUESTS requests (8 and 6; at most 64 each). With a
 * DEPTH above 1 (at most 8) most lists deny files at paths of that many names, of which the first is the list's own or
 * one of four that all have. In the end it writes how much of the region was used, and the worst case that it may be;
 * it ends with 1 if it was more.
 *
 * THE WORST CASE of a receiver with t transactions at once, each from its Metadata PDU until its Finished PDU is
 * acknowledged, is what cfdp_new and cfdp_receiver_new take, and these blocks of pool.c. A list has at most r requests
 * (64 at most) and p paths: those that it names, its destination, and each directory above one of them, each counted
 * once. With at most d names in a path, p is at most (2 r + 1) d. T is t + 1, for the call that is going on. At most s
 * of the paths that are leased were in two or more of the lists at once.
 *
 *     64 octets: T (3 r + 2 p + 6)      288 octets: T (3 r + 2 p + 14) + s
 *     1104 octets: T (p / 5 + 6) + s    4368 octets: T (p / 30 + 5) + s    17424 octets: 4 T
 *     each larger size in which a list of 24576 to 96 p octets may lie: 2, with p above 256
 *     the one for 32768 octets: t more, with p above 512; the one for 65536: t more, with p above 1024
 *
 * The octets of a name or a path are in a block of 64 or 288 octets, by their length. A request is kept as it came, and
 * as one or two paths; each path of a list is kept in the list's own leases and in those of the engine. The latter are
 * nodes of a map, with at least five paths in each. Each list of a transaction is in one block, whose room doubles as
 * items are added, and the octets of its Finished PDU are in one. A path that several lists share has a list of these:
 * of 288 octets for up to 8, of 1104 for up to 32, and else of 4368.
 *
 * ITS LIMITS. No list names a directory that has entries: while such a list is judged, each of its paths, and each
 * directory above one, takes some blocks of 64 or 288 octets more, and all of them together some of the larger sizes
 * (months.c has small lists of this kind). The numbers are what the library keeps, and were counted; no clause says
 * them. This program holds them against its runs, in which a request at paths of several names has one path. */
#include "../../include/cfdp_receiver.h"
#include "pool.h"
#include <inttypes.h>
#include <stdio.h>
#include <stdlib.h>

enum { MOST_LIVE = 64, MOST_REQUESTS = 64, MOST_DEPTH = 8, SHARED = 4 };
enum { LONGEST_FILE = 3000, PIECE = 500, LONGEST_PDU = 16490 };

/* A transaction of the sender. */
static struct upload {
    uint64_t number; /* 0: none */
    uint8_t octets[LONGEST_FILE];
    uint32_t length, checksum;
    uint8_t metadata[LONGEST_PDU];
    size_t metadata_length;
    /* what is sent next: the Metadata PDU, the octets from `at` on, the EOF PDU; then nothing more of its own */
    enum { METADATA, OCTETS, END, ALL_SENT } next;
    uint32_t at;
} uploads[MOST_LIVE];

static struct cfdp_receiver receiver = CFDP_RECEIVER_EMPTY;
static uint64_t random_state, now;
static uint64_t begun, finished, performed, asked_again;
static size_t live = 8, requests = 6, depth = 1;
static uint8_t pdu[LONGEST_PDU];
static size_t length;

static void fail(const char *what) {
    printf("wrong: %s\n", what);
    exit(1);
}

static uint32_t below(uint32_t bound) {
    random_state ^= random_state << 13;
    random_state ^= random_state >> 7;
    random_state ^= random_state << 17;
    return (uint32_t)(random_state >> 33) % bound;
}

/* ---- PDUs of the sender, entity 1, toward entity 2 */

static void put(const void *octets, size_t count) {
    memcpy(pdu + length, octets, count);
    length += count;
}
static void put_octet(uint32_t octet) { put(&(uint8_t){(uint8_t)octet}, 1); }
static void put_number(uint32_t number) {
    for (int shift = 24; shift >= 0; shift -= 8) put_octet(number >> shift);
}
static void put_name(const char *name) {
    put_octet((uint32_t)strlen(name));
    put(name, strlen(name));
}

static void begin(uint32_t first, uint64_t number) {
    length = 0;
    put_octet(first);
    put_octet(0), put_octet(0);
    put_octet(0x03); /* an ID of one octet, a number of four */
    put_octet(1);
    put_number((uint32_t)number);
    put_octet(2);
}
static void end(void) {
    pdu[1] = (uint8_t)((length - 10) >> 8);
    pdu[2] = (uint8_t)(length - 10);
}

/* A name of the transaction's own, of any length. */
static void name_of(char *name, uint64_t number, uint32_t which) {
    size_t count = (size_t)sprintf(name, "%" PRIu64 "-%" PRIu32, number, which);
    for (uint32_t more = below(80); more > 0; more--) name[count++] = 'x';
    name[count] = 0;
}

/* A filestore request with one name, or two. */
static void put_request(uint32_t action, const char *first, const char *second) {
    put_octet(0);
    put_octet((uint32_t)(2 + strlen(first) + (second ? 1 + strlen(second) : 0)));
    put_octet(action << 4);
    put_name(first);
    if (second) put_name(second);
}

/* Requests that deny files, each at a path of `depth` names that is its own. */
static void put_denials(uint64_t number, size_t count) {
    char path[256];
    for (uint32_t which = 2; count > 0; which++, count--) {
        const uint32_t longer = below(2) == 0 ? 0 : below(20);
        size_t at = below(4) == 0 ? (size_t)sprintf(path, "all%" PRIu32 "/", below(SHARED)) : 0;
        at += (size_t)sprintf(path + at, "%" PRIu64 "-%" PRIu32, number, which);
        for (size_t names = at > 0 && path[0] == 'a' ? 2 : 1; names < depth; names++) {
            path[at++] = '/';
            for (uint32_t more = 0; more <= longer; more++) path[at++] = 'x';
        }
        path[at] = 0;
        put_request(7, path, NULL);
    }
}

/* Requests that make files and remove them, some after a rename. */
static void put_files(uint64_t number, size_t count) {
    char other[128], last[128];
    for (uint32_t which = 2; count >= 2; which += 2) {
        bool is_renamed = count >= 3 && below(2) == 0;
        name_of(other, number, which);
        name_of(last, number, which + 1);
        put_request(0, other, NULL);
        if (is_renamed) put_request(2, other, last);
        put_request(1, is_renamed ? last : other, NULL);
        count -= is_renamed ? 3 : 2;
    }
}

/* The Metadata PDU: the list moves the file, does what else it does, and deletes the file, so that the filestore is as
 * before. */
static void write_metadata(struct upload *it) {
    char file[128], moved[128];
    size_t more = below((uint32_t)requests - 1);
    name_of(file, it->number, 0);
    name_of(moved, it->number, 1);
    begin(0x20, it->number);
    put_octet(7), put_octet(0);
    put_number(it->length);
    put_name("s"), put_name(file);
    put_request(2, file, moved);
    if (depth > 1 && below(4) > 0) put_denials(it->number, more);
    else put_files(it->number, more);
    put_request(1, moved, NULL);
    end();
    memcpy(it->metadata, pdu, length);
    it->metadata_length = length;
}

static void begin_upload(struct upload *it) {
    it->number = ++begun;
    it->next = METADATA;
    it->at = 0;
    it->length = below(LONGEST_FILE + 1);
    it->checksum = 0;
    for (uint32_t at = 0; at < it->length; at++) {
        it->octets[at] = (uint8_t)below(256);
        it->checksum += (uint32_t)it->octets[at] << (8 * (3 - at % 4));
    }
    write_metadata(it);
}

static void write_piece(const struct upload *it, uint32_t from, uint32_t to) {
    begin(0x30, it->number);
    put_number(from);
    put(it->octets + from, to - from);
    end();
}

/* ---- the receiver */

static struct upload *upload_of(uint64_t number) {
    for (size_t index = 0; index < live; index++)
        if (uploads[index].number == number) return &uploads[index];
    fail("a PDU is about no transaction under way");
    return NULL;
}

static void hear(void);

/* Hands in a PDU that was written; it is lost in one of ten times, and comes twice in one of twenty. */
static void hand_in(bool is_safe) {
    if (!is_safe && below(10) == 0) return;
    static uint8_t again[sizeof pdu];
    size_t count = length;
    memcpy(again, pdu, count);
    hear();
    if (below(20) == 0) {
        memcpy(pdu, again, count);
        length = count;
        hear();
    }
}

static uint32_t number_at(const uint8_t *octets) {
    return (uint32_t)octets[0] << 24 | (uint32_t)octets[1] << 16 | (uint32_t)octets[2] << 8 | octets[3];
}

/* What the sender does with a PDU of the receiver: it sends again what is asked for, and acknowledges the Finished
 * PDU. */
static void answer(const uint8_t *sent, size_t count) {
    struct upload *it = upload_of(number_at(sent + 5));
    if (sent[10] == 8) {
        for (size_t at = 19; at + 8 <= count; at += 8) {
            uint32_t from = number_at(sent + at), to = number_at(sent + at + 4);
            asked_again++;
            if (to == 0) {
                memcpy(pdu, it->metadata, it->metadata_length);
                length = it->metadata_length;
                hand_in(false);
            }
            for (; from < to && it->number != 0; from += PIECE) {
                write_piece(it, from, from + PIECE < to ? from + PIECE : to);
                hand_in(false);
            }
        }
    } else if (sent[10] == 5) {
        if (sent[11] != 0x02) fail("a transaction did not end well");
        begin(0x20, it->number);
        put_octet(6), put_octet(0x51), put_octet(0x01);
        end();
        hand_in(false);
    }
}

/* PDUs that wait for the sender, so that no call is within another. */
static struct {
    uint8_t octets[LONGEST_PDU];
    size_t length;
} queue[256];
static size_t queued, answered;

static void follow(const struct cfdp_report *report) {
    for (size_t number = 0; number < report->pdus; number++) {
        size_t slot = queued++ % 256;
        if (cfdp_receiver_write(&receiver, number, queue[slot].octets, LONGEST_PDU, &queue[slot].length) !=
            CFDP_ANSWER_DONE)
            fail("a PDU is not written");
    }
    if (report->reply.kind == CFDP_REPLY_PERFORMED) performed++;
    if (report->reply.kind == CFDP_REPLY_REFUSED) fail("a list is refused");
    if (report->became == CFDP_BECAME_ACKNOWLEDGED) {
        upload_of(report->transaction.number)->number = 0;
        finished++;
    }
}

static void hear(void) {
    struct cfdp_report report = {0};
    if (cfdp_receiver_receive(&receiver, now, pdu, length, &report) != CFDP_ANSWER_DONE) fail("a PDU is dropped");
    follow(&report);
}

static void work_off(void) {
    struct cfdp_report report = {0};
    uint64_t due = 0;
    do {
        if (cfdp_receiver_work(&receiver, now, &report) != CFDP_ANSWER_DONE) fail("work");
        follow(&report);
    } while (report.became != CFDP_BECAME_NOTHING);
    do {
        if (cfdp_receiver_finish(&receiver, now, &report) != CFDP_ANSWER_DONE) fail("finish");
        follow(&report);
    } while (report.became != CFDP_BECAME_NOTHING);
    while (cfdp_receiver_deadline(&receiver, &due) == CFDP_ANSWER_DONE && due <= now) {
        if (cfdp_receiver_expire(&receiver, now, &report) != CFDP_ANSWER_DONE) fail("expire");
        follow(&report);
    }
    while (answered < queued) {
        size_t slot = answered++ % 256;
        struct upload *it = NULL;
        for (size_t index = 0; index < live; index++)
            if (uploads[index].number == number_at(queue[slot].octets + 5)) it = &uploads[index];
        if (it != NULL) answer(queue[slot].octets, queue[slot].length);
    }
}

/* The next PDU of an upload, which may be lost; the EOF PDU comes. */
static void send_next(struct upload *it) {
    switch (it->next) {
    case METADATA:
        memcpy(pdu, it->metadata, it->metadata_length);
        length = it->metadata_length;
        it->next = it->length > 0 ? OCTETS : END;
        hand_in(false);
        break;
    case OCTETS: {
        uint32_t from = it->at, to = from + PIECE < it->length ? from + PIECE : it->length;
        it->at = to;
        if (to == it->length) it->next = END;
        write_piece(it, from, to);
        hand_in(false);
        break;
    }
    case END:
        it->next = ALL_SENT;
        begin(0x20, it->number);
        put_octet(4), put_octet(0);
        put_number(it->checksum), put_number(it->length);
        end();
        hand_in(true);
        break;
    case ALL_SENT: break;
    }
}

/* Whether a block of this many octets is of this size. */
static bool holds(size_t index, size_t octets) {
    return octets + 16 <= pool_size_at(index).octets && octets + 16 > pool_size_at(index - 1).octets;
}

/* The worst case of a size, beside what was used at first. */
static size_t most_of(size_t index) {
    const size_t paths = (2 * requests + 1) * depth, at_once = live + 1, shared = depth > 1 && live > 1 ? SHARED : 0;
    const size_t most[] = {at_once * (3 * requests + 2 * paths + 6), at_once * (3 * requests + 2 * paths + 14) + shared,
        at_once * (paths / 5 + 6) + shared, at_once * (paths / 30 + 5) + shared, at_once * 4};
    if (index < sizeof most / sizeof *most) return most[index];
    size_t large = 0;
    if (paths > 256 && pool_size_at(index).octets >= 24576 + 16 && pool_size_at(index - 1).octets < 96 * paths + 16)
        large += 2;
    if (paths > 512 && holds(index, 32768)) large += live;
    if (paths > 1024 && holds(index, 65536)) large += live;
    return large;
}

/* Compares what was used with the worst case, where `first` has what was used when the receiver was made. */
static void compare(const struct pool_size *first) {
    size_t worst = 0;
    for (size_t index = 0; pool_size_at(index).octets != 0; index++) {
        const struct pool_size size = pool_size_at(index);
        const size_t most = first[index].most + most_of(index);
        if (most > 0)
            printf("blocks of %6zu octets: at most %5zu at once, and %5zu in the worst case\n", size.octets, size.most,
                most);
        if (size.most > most) fail("more blocks than in the worst case");
        worst += most * size.octets;
    }
    printf("region: %zu octets used, %zu in the worst case\n", pool_used(), worst);
    if (pool_used() > worst) fail("more of the region than in the worst case");
}

static void open_receiver(void) {
    const struct cfdp_config config = {.entity = 2, .cap = 100000, .blocks = 4096, .checks = 2};
    const struct cfdp_mib mib = {.ack_interval = 3,
        .ack_limit = 1000,
        .ack_handler = CFDP_HANDLER_CANCEL,
        .nak_interval = 3,
        .nak_limit = 1000,
        .nak_handler = CFDP_HANDLER_CANCEL,
        .check_interval = 5,
        .check_handler = CFDP_HANDLER_CANCEL,
        .inactivity_interval = 100000,
        .inactivity_handler = CFDP_HANDLER_CANCEL,
        .nak_mode = CFDP_NAK_DEFERRED,
        .longest_nak = 1000};
    struct cfdp_engine engine = CFDP_ENGINE_EMPTY;
    if (cfdp_new(&engine, &config, NULL, 0) != CFDP_ANSWER_DONE) fail("new");
    if (cfdp_receiver_new(&receiver, &engine, &mib) != CFDP_ANSWER_DONE) fail("receiver");
}

/* Plays this many transactions, after which the filestore is as before. */
static void play(uint64_t transactions) {
    struct cfdp_path path = {0};
    struct cfdp_entry entry;
    while (finished < transactions) {
        struct upload *it = &uploads[below((uint32_t)live)];
        if (it->number == 0 && begun < transactions) begin_upload(it);
        if (it->number != 0) send_next(it);
        now += below(2);
        work_off();
    }
    if (cfdp_receiver_next(&receiver, &path, &entry) != CFDP_ANSWER_NOTHING) fail("the filestore is not as before");
}

int main(int count, char **words) {
    if (count < 3 || count > 6) {
        fprintf(stderr, "usage: soak TRANSACTIONS SEED [LIVE [REQUESTS [DEPTH]]]\n");
        return 2;
    }
    const uint64_t transactions = strtoull(words[1], NULL, 10);
    random_state = strtoull(words[2], NULL, 10) * 2 + 1;
    if (count > 3) live = strtoul(words[3], NULL, 10);
    if (count > 4) requests = strtoul(words[4], NULL, 10);
    if (count > 5) depth = strtoul(words[5], NULL, 10);
    if (live < 1 || live > MOST_LIVE || requests < 2 || requests > MOST_REQUESTS) return 2;
    if (depth < 1 || depth > MOST_DEPTH) return 2;
    open_receiver();
    struct pool_size first[64];
    for (size_t index = 0; index < 64; index++) first[index] = pool_size_at(index);
    play(transactions);
    printf("%" PRIu64 " transactions, %" PRIu64 " requests performed, %" PRIu64 " segments asked for again\n", finished,
        performed, asked_again);
    compare(first);
    if (cfdp_receiver_free(&receiver) != CFDP_ANSWER_DONE || pool_in_use() != 0) fail("memory is not given back");
    return 0;
}
