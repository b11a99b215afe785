/* Calls made at random, of an engine and of a receiver, with PDUs that are those of a corpus with octets changed, cut
 * or put in, and out of memory now and then. Each buffer is as long as the call says. The sanitizers see
 * all that this file does, and of the library, which is compiled without them, its calls of memcpy, memmove, memset and
 * the functions for memory. That no octet after what a call writes changes is tested here (is_filled).
 *   fuzz ROUNDS SEED FILE..
 * The corpus is the lines `pdu HEX` and `at T pdu HEX` of the files. A round is a few hundred calls of one engine, or
 * one receiver; its calls are the same for the same seed and number of the round. It ends after ROUNDS, or at the
 * first call that does not keep its word: with 1, after a line that names the round. */
#define _POSIX_C_SOURCE 200809L
#include "../include/cfdp_receiver.h"
#include <inttypes.h>
#include <stdio.h>
#include <stdlib.h>

enum { CORPUS = 4096, LONGEST = 70000, CALLS = 400 };

static struct pdu {
    uint8_t *octets;
    size_t length;
} corpus[CORPUS];
static size_t corpus_count;
static uint64_t random_state, seed, rounds, calls;
static size_t blocks_out;
static uint32_t refused_in_thousand;

/* ---- random numbers and memory */

static uint32_t below(uint32_t bound) {
    random_state ^= random_state << 13;
    random_state ^= random_state >> 7;
    random_state ^= random_state << 17;
    return (uint32_t)(random_state >> 33) % bound;
}

static void fail(const char *what) {
    printf("wrong in round %" PRIu64 " of seed %" PRIu64 ": %s\n", rounds, seed, what);
    exit(1);
}

static void expect(bool holds, const char *what) {
    if (!holds) fail(what);
}

static char nothing;

struct cfdp_block rattle_alloc(size_t octets, size_t align) {
    (void)align;
    void *block = below(1000) < refused_in_thousand ? NULL : malloc(octets ? octets : 1);
    if (block == NULL) return (struct cfdp_block){false, &nothing};
    blocks_out++;
    return (struct cfdp_block){true, block};
}

struct cfdp_block rattle_realloc(void *block, size_t kept, size_t octets, size_t align) {
    (void)kept, (void)align;
    void *moved = below(1000) < refused_in_thousand ? NULL : realloc(block, octets ? octets : 1);
    return moved != NULL ? (struct cfdp_block){true, moved} : (struct cfdp_block){false, block};
}

void rattle_dealloc(void *block) {
    blocks_out--;
    free(block);
}

/* A buffer of exactly this length, filled with one octet; NULL where it is 0. */
static uint8_t *buffer(size_t length, uint8_t fill) {
    if (length == 0) return NULL;
    uint8_t *octets = malloc(length);
    if (octets == NULL) abort();
    memset(octets, fill, length);
    return octets;
}

/* Whether all octets of a buffer from an offset on are what it was filled with. */
static bool is_filled(const uint8_t *octets, size_t from, size_t length, uint8_t fill) {
    for (size_t at = from; at < length; at++)
        if (octets[at] != fill) return false;
    return true;
}

/* ---- PDUs */

static uint16_t crc_of(const uint8_t *octets, size_t length) {
    uint32_t crc = 0xffff;
    for (size_t at = 0; at < length; at++) {
        crc ^= (uint32_t)octets[at] << 8;
        for (int bit = 0; bit < 8; bit++) crc = (crc & 0x8000 ? crc << 1 ^ 0x1021 : crc << 1) & 0xffff;
    }
    return (uint16_t)crc;
}

/* The length of the data field, and a CRC where one is wanted, so that the PDU is whole again. */
static size_t mended(uint8_t *octets, size_t length) {
    if (length < 8 || length > 60000) return length;
    size_t header = 4 + 2 * ((size_t)(octets[3] >> 4 & 7) + 1) + (octets[3] & 7) + 1;
    if (length < header) return length;
    octets[0] &= (uint8_t)~2;
    if (below(3) == 0) {
        octets[0] |= 2;
        length += 2;
    }
    octets[1] = (uint8_t)((length - header) >> 8);
    octets[2] = (uint8_t)(length - header);
    if (octets[0] & 2) {
        uint16_t crc = crc_of(octets, length - 2);
        octets[length - 2] = (uint8_t)(crc >> 8);
        octets[length - 1] = (uint8_t)crc;
    }
    return length;
}

/* One PDU of the corpus, mostly changed; seldom octets that are none. */
static size_t some_pdu(uint8_t *out) {
    const struct pdu *from = &corpus[below((uint32_t)corpus_count)];
    size_t length = from->length;
    memcpy(out, from->octets, length);
    if (below(2) == 0) out[0] &= (uint8_t)~4; /* acknowledged mode */
    for (uint32_t times = below(4); times > 0 && length > 0; times--) {
        uint32_t at = below((uint32_t)length);
        switch (below(6)) {
        case 0: out[at] ^= (uint8_t)(1 << below(8)); break;
        case 1: out[at] = (uint8_t)below(256); break;
        case 2: length = at; break;
        case 3: length += below(40); break;
        case 4: out[length > 5 ? 5 : at] = (uint8_t)below(6); break; /* mostly the sequence number */
        default: {
            const struct pdu *other = &corpus[below((uint32_t)corpus_count)];
            size_t rest = other->length - other->length / 2;
            memcpy(out + length, other->octets + other->length / 2, rest);
            length += rest;
        }
        }
    }
    return below(4) != 0 ? mended(out, length) : length;
}

/* ---- what both have */

static struct cfdp_transaction some_name(void) { return (struct cfdp_transaction){1 + below(3), 1 + below(6)}; }

static struct cfdp_path some_path(void) {
    static const char *const names[] = {"app", "app/prog", "boot", "a", "", "..", "a//b", "app/new"};
    struct cfdp_path path;
    cfdp_path_of(&path, names[below(8)]);
    if (below(10) == 0) path.length = below(800);
    if (below(10) == 0) path.octets[below(8)] = (uint8_t)below(256);
    return path;
}

static struct cfdp_config some_config(void) {
    return (struct cfdp_config){
        2, below(8) ? 2400 : below(8000000), below(8) ? 64 : below(70000), below(8) ? 2 : below(1100)};
}

/* A call that writes a text or octets into `out` keeps to its room, and returns a length that fits, with a 0 after a
 * text. */
static void check_written(enum cfdp_answer answer, const uint8_t *out, size_t room, size_t count, bool is_text) {
    if (answer == CFDP_ANSWER_DONE) {
        expect(count <= room, "more is written than there is room for");
        expect(is_filled(out, is_text && count < room ? count + 1 : count, room, 0xa5),
            "octets after what is written changed");
        expect(!is_text || count >= room || out[count] == 0, "a text has no 0 after it");
    } else {
        expect(is_filled(out, 0, room, 0xa5), "a refused call wrote into the buffer");
    }
}

static void check_answer(enum cfdp_answer answer, enum cfdp_answer first, enum cfdp_answer second,
    enum cfdp_answer third, enum cfdp_answer fourth) {
    calls++;
    expect(answer == first || answer == second || answer == third || answer == fourth,
        "an answer that the call does not give");
}
#define ANSWERS(answer, ...) check_answer(answer, __VA_ARGS__)
#define DONE CFDP_ANSWER_DONE
#define NOTHING CFDP_ANSWER_NOTHING
#define NO_MEMORY CFDP_ANSWER_NO_MEMORY
#define BAD_PATH CFDP_ANSWER_BAD_PATH

static bool is_fault(enum cfdp_answer answer) {
    return answer >= CFDP_ANSWER_TRUNCATED && answer <= CFDP_ANSWER_REQUEST_TOO_LONG;
}

/* Opens an engine with some files; it may have none when out of memory or where a number is out of range. */
static enum cfdp_answer open_engine(struct cfdp_engine *engine) {
    const struct cfdp_config config = some_config();
    const struct cfdp_path boot = some_path();
    const bool has_prefix = below(2);
    enum cfdp_answer answer = cfdp_new(engine, &config, has_prefix ? &boot : NULL, has_prefix);
    if (below(3) == 0 && answer == DONE) {
        enum cfdp_answer again = cfdp_new(engine, &config, &boot, 1);
        ANSWERS(again, CFDP_ANSWER_HAS_ENGINE, CFDP_ANSWER_HAS_ENGINE, CFDP_ANSWER_HAS_ENGINE, CFDP_ANSWER_HAS_ENGINE);
    }
    calls++;
    for (uint32_t times = below(5); times > 0; times--) {
        struct cfdp_path path = some_path();
        size_t length = below(3) ? below(500) : 0;
        uint8_t *octets = buffer(length, 7);
        cfdp_put(engine, &path, (enum cfdp_entry_kind)below(4), octets, length);
        free(octets);
    }
    return answer;
}

/* ---- the engine */

static void tell_engine(struct cfdp_engine *engine, struct cfdp_transaction id) {
    struct cfdp_phase phase;
    struct cfdp_grant grant;
    struct cfdp_gap gap;
    struct cfdp_blocks blocks;
    struct cfdp_metadata metadata;
    struct cfdp_transaction name;
    uint64_t offset;
    int64_t spent;
    uint32_t steps;
    ANSWERS(cfdp_phase(engine, id.source, id.number, &phase), DONE, NOTHING, DONE, DONE);
    ANSWERS(cfdp_grant(engine, id.source, id.number, &grant), DONE, NOTHING, DONE, DONE);
    ANSWERS(cfdp_gap(engine, id.source, id.number, below(40), &gap), DONE, NOTHING, DONE, DONE);
    ANSWERS(cfdp_progress(engine, id.source, id.number, &offset), DONE, NOTHING, DONE, DONE);
    ANSWERS(cfdp_reach(engine, id.source, id.number, &offset), DONE, NOTHING, DONE, DONE);
    ANSWERS(cfdp_blocks_spent(engine, id.source, id.number, &spent), DONE, NOTHING, DONE, DONE);
    ANSWERS(cfdp_steps_spent(engine, id.source, id.number, &steps), DONE, NOTHING, DONE, DONE);
    ANSWERS(cfdp_metadata(engine, id.source, id.number, &metadata), DONE, NOTHING, DONE, DONE);
    ANSWERS(cfdp_next_outcome(engine, &name), DONE, NOTHING, DONE, DONE);
    ANSWERS(cfdp_transaction_at(engine, below(70), &name), DONE, NOTHING, DONE, DONE);
    ANSWERS(cfdp_blocks(engine, &blocks), DONE, DONE, DONE, DONE);
    expect(blocks.spare <= blocks.free, "more blocks are to spare than are free");
}

static void write_engine(struct cfdp_engine *engine, struct cfdp_transaction id, const struct cfdp_reply *reply) {
    size_t room = below(4) ? below(300) : 0, count = 0;
    uint8_t *out = buffer(room, 0xa5);
    struct cfdp_path path = some_path();
    enum cfdp_answer answer;
    bool is_text = true;
    switch (below(5)) {
    case 0: answer = cfdp_source_name(engine, id.source, id.number, out, room, &count); break;
    case 1: answer = cfdp_destination_name(engine, id.source, id.number, out, room, &count); break;
    case 2: answer = cfdp_reply_text(reply, NULL, 0, out, room, &count); break;
    case 3: answer = cfdp_answer_text((enum cfdp_answer)below(50), out, room, &count); break;
    default: answer = cfdp_read(engine, &path, below(600), out, room, &count), is_text = false;
    }
    ANSWERS(answer, DONE, NOTHING, answer == BAD_PATH ? BAD_PATH : CFDP_ANSWER_TOO_SHORT, NO_MEMORY);
    check_written(answer, out, room, count, is_text);
    free(out);
}

static void take_outcome(struct cfdp_engine *engine, struct cfdp_transaction id, struct cfdp_reply *reply) {
    size_t room = below(3) ? 16488 : below(100), count = 0;
    uint8_t *out = buffer(room, 0xa5);
    enum cfdp_answer answer = cfdp_take(engine, id.source, id.number, out, room, &count, reply);
    ANSWERS(answer, DONE, CFDP_ANSWER_TOO_SHORT, NO_MEMORY, DONE);
    expect(
        answer != CFDP_ANSWER_TOO_SHORT || (count > room && count <= 16488), "a length is returned that does not fit");
    check_written(answer, out, room, count, false);
    free(out);
}

static void call_engine(struct cfdp_engine *engine, uint8_t *pdu, struct cfdp_reply *reply) {
    struct cfdp_transaction id = some_name(), next;
    struct cfdp_path path = some_path();
    struct cfdp_entry entry;
    enum cfdp_answer answer;
    uint32_t what = below(12);
    if (what < 5) {
        size_t length = some_pdu(pdu);
        uint8_t *octets = buffer(length, 0);
        if (length > 0) memcpy(octets, pdu, length);
        answer = cfdp_receive(engine, octets, length, reply);
        calls++;
        expect(answer == DONE || answer == NO_MEMORY || answer == CFDP_ANSWER_NOT_OURS || is_fault(answer),
            "an answer that receive does not give");
        free(octets);
    } else if (what == 5) {
        while (below(8) && cfdp_next_runnable(engine, &next) == DONE)
            ANSWERS(cfdp_step(engine, next.source, next.number, reply), DONE, DONE, DONE, DONE);
    } else if (what == 6) {
        take_outcome(engine, below(2) || cfdp_next_outcome(engine, &next) != DONE ? id : next, reply);
    } else if (what == 7) {
        ANSWERS(cfdp_check(engine, id.source, id.number, reply), DONE, DONE, DONE, DONE);
    } else if (what == 8) {
        ANSWERS(cfdp_cancel(engine, id.source, id.number, reply), DONE, DONE, DONE, DONE);
    } else if (what == 9) {
        tell_engine(engine, id);
    } else if (what == 10) {
        write_engine(engine, id, reply);
    } else {
        ANSWERS(cfdp_look_up(engine, &path, &entry), DONE, NOTHING, BAD_PATH, DONE);
        for (path.length = 0; cfdp_next(engine, &path, &entry) == DONE;) calls++;
    }
}

/* ---- the receiver */

static struct cfdp_mib some_mib(void) {
    struct cfdp_mib mib = {.ack_interval = 5,
        .ack_limit = 3,
        .ack_handler = (enum cfdp_handler)(1 + below(3)),
        .nak_interval = 4,
        .nak_limit = 3,
        .nak_handler = (enum cfdp_handler)(1 + below(3)),
        .check_interval = 5,
        .check_handler = (enum cfdp_handler)(1 + below(3)),
        .inactivity_interval = 60,
        .inactivity_handler = (enum cfdp_handler)(1 + below(3)),
        .keep_alive_interval = below(2) * 7,
        .nak_mode = (enum cfdp_nak_mode)(1 + below(2)),
        .has_crc = below(2),
        .longest_nak = 72 + below(300),
        .most_ahead = below(2) * 50};
    uint32_t *numbers = (uint32_t *)(void *)&mib;
    if (below(12) == 0) numbers[below(sizeof mib / sizeof *numbers)] = below(70000);
    return mib;
}

static void write_pdus(struct cfdp_receiver *receiver, const struct cfdp_report *report) {
    expect(report->pdus <= 36, "an answer has more than 36 PDUs");
    for (size_t number = 0; number <= report->pdus; number++) {
        size_t room = below(3) ? 16490 : below(80), count = 0;
        uint8_t *out = buffer(room, 0xa5);
        enum cfdp_answer answer = cfdp_receiver_write(receiver, number, out, room, &count);
        calls++;
        if (number < report->pdus)
            expect(answer == DONE || (answer == CFDP_ANSWER_TOO_SHORT && room < 16490),
                "a PDU of the answer is not written");
        else
            expect(answer == NOTHING, "an answer has one PDU more than it says");
        check_written(answer, out, room, count, false);
        free(out);
    }
}

static void read_receiver(struct cfdp_receiver *receiver) {
    struct cfdp_transaction id = some_name();
    struct cfdp_path path = some_path();
    struct cfdp_entry entry;
    uint64_t moment;
    size_t room = below(4) ? below(300) : 0, count = 0;
    uint8_t *out = buffer(room, 0xa5);
    bool is_text = below(2);
    enum cfdp_answer answer = is_text
        ? cfdp_receiver_destination_name(receiver, id.source, id.number, out, room, &count)
        : cfdp_receiver_read(receiver, &path, below(600), out, room, &count);
    ANSWERS(answer, DONE, NOTHING, is_text ? CFDP_ANSWER_TOO_SHORT : BAD_PATH, DONE);
    check_written(answer, out, room, count, is_text);
    free(out);
    ANSWERS(cfdp_receiver_look_up(receiver, &path, &entry), DONE, NOTHING, BAD_PATH, DONE);
    ANSWERS(cfdp_receiver_deadline(receiver, &moment), DONE, NOTHING, DONE, DONE);
    for (path.length = 0; cfdp_receiver_next(receiver, &path, &entry) == DONE;) calls++;
}

static void call_receiver(struct cfdp_receiver *receiver, uint8_t *pdu, uint64_t *now, struct cfdp_report *report) {
    struct cfdp_transaction id = some_name();
    enum cfdp_answer answer = DONE;
    *now += below(4);
    uint32_t what = below(13);
    if (what < 5) {
        size_t length = some_pdu(pdu);
        uint8_t *octets = buffer(length, 0);
        if (length > 0) memcpy(octets, pdu, length);
        answer = cfdp_receiver_receive(receiver, *now, octets, length, report);
        calls++;
        expect(answer == DONE || answer == NO_MEMORY || answer == CFDP_ANSWER_BAD_CRC || is_fault(answer),
            "an answer that receive does not give");
        free(octets);
    } else if (what == 5) {
        ANSWERS(answer = cfdp_receiver_finish(receiver, *now, report), DONE, NO_MEMORY, DONE, DONE);
    } else if (what < 8) {
        ANSWERS(cfdp_receiver_work(receiver, *now, report), DONE, DONE, DONE, DONE);
    } else if (what == 8) {
        ANSWERS(cfdp_receiver_expire(receiver, *now, report), DONE, DONE, DONE, DONE);
    } else if (what == 9) {
        ANSWERS(cfdp_receiver_cancel(receiver, *now, id.source, id.number, report), DONE, DONE, DONE, DONE);
    } else if (what == 10) {
        ANSWERS(cfdp_receiver_forget_closed(receiver, report), DONE, DONE, DONE, DONE);
    } else if (what == 11) {
        *now = below(4) ? *now + below(1000) : below(1000);
        ANSWERS(cfdp_receiver_move_clock(receiver, *now, report), DONE, DONE, DONE, DONE);
    } else {
        read_receiver(receiver);
    }
    if (answer == DONE && what < 12) write_pdus(receiver, report);
}

/* ---- rounds */

static void play_receiver(struct cfdp_engine *engine, uint8_t *pdu) {
    struct cfdp_receiver receiver = CFDP_RECEIVER_EMPTY;
    struct cfdp_report report = {0};
    const struct cfdp_mib mib = some_mib();
    uint64_t now = 0;
    expect(
        cfdp_receiver_work(&receiver, now, &report) == CFDP_ANSWER_NO_ENGINE, "there is a receiver before it was made");
    enum cfdp_answer answer = cfdp_receiver_new(&receiver, engine, &mib);
    expect(answer == DONE || answer == NO_MEMORY ||
            (answer >= CFDP_ANSWER_BAD_HANDLER && answer <= CFDP_ANSWER_BAD_LONGEST_NAK),
        "an answer that new does not give");
    if (answer == NO_MEMORY || answer == DONE)
        expect(cfdp_free(engine) == CFDP_ANSWER_NO_ENGINE, "the engine was not moved");
    if (answer != DONE) return;
    for (uint32_t count = below(CALLS); count > 0; count--) call_receiver(&receiver, pdu, &now, &report);
    expect(cfdp_receiver_free(&receiver) == DONE, "the receiver is not freed");
    expect(cfdp_receiver_free(&receiver) == CFDP_ANSWER_NO_ENGINE, "the receiver is freed twice");
}

static void play(uint8_t *pdu) {
    struct cfdp_engine engine = CFDP_ENGINE_EMPTY;
    struct cfdp_reply reply = {.kind = CFDP_REPLY_STORED};
    refused_in_thousand = below(3) ? 0 : 1 + below(100);
    if (open_engine(&engine) == DONE) {
        if (below(2)) play_receiver(&engine, pdu);
        else
            for (uint32_t count = below(CALLS); count > 0; count--) call_engine(&engine, pdu, &reply);
    }
    refused_in_thousand = 0;
    cfdp_free(&engine);
    expect(blocks_out == 0, "memory is not given back");
}

/* ---- the corpus */

static int digit(char it) { return it >= '0' && it <= '9' ? it - '0' : it >= 'a' && it <= 'f' ? it - 'a' + 10 : -1; }

/* The hexadecimal digits of a line `pdu HEX` or `at T pdu HEX`; NULL of another line. */
static const char *digits_of(const char *line) {
    if (strncmp(line, "pdu ", 4) == 0) return line + 4;
    const char *word = strncmp(line, "at ", 3) == 0 ? strstr(line, " pdu ") : NULL;
    return word != NULL ? word + 5 : NULL;
}

static void read_corpus(const char *name) {
    static char line[2 * LONGEST];
    FILE *file = fopen(name, "r");
    if (file == NULL) perror(name), exit(2);
    while (corpus_count < CORPUS && fgets(line, sizeof line, file) != NULL) {
        const char *digits = digits_of(line);
        if (digits == NULL) continue;
        uint8_t *octets = malloc(strlen(line));
        size_t length = 0;
        if (octets == NULL) abort();
        for (const char *at = digits; digit(at[0]) >= 0 && digit(at[1]) >= 0; at += 2)
            octets[length++] = (uint8_t)(digit(at[0]) << 4 | digit(at[1]));
        if (length > 0 && length < 5000) corpus[corpus_count++] = (struct pdu){octets, length};
        else free(octets);
    }
    fclose(file);
}

int main(int count, char **words) {
    if (count < 4) {
        fprintf(stderr, "usage: fuzz ROUNDS SEED FILE..\n");
        return 2;
    }
    for (int index = 3; index < count; index++) read_corpus(words[index]);
    if (corpus_count == 0) return 2;
    uint8_t *pdu = calloc(4, LONGEST);
    if (pdu == NULL) return 2;
    seed = strtoull(words[2], NULL, 10);
    const uint64_t end = strtoull(words[1], NULL, 10);
    for (rounds = 0; rounds < end; rounds++) {
        random_state = (seed + 1) * 0x9e3779b97f4a7c15u + rounds * 0xbf58476d1ce4e5b9u + 1;
        for (int warm = 0; warm < 8; warm++) below(2);
        play(pdu);
    }
    printf("%" PRIu64 " rounds, %" PRIu64 " calls, %zu PDUs in the corpus: in order\n", rounds, calls, corpus_count);
    while (corpus_count > 0) free(corpus[--corpus_count].octets);
    free(pdu);
    return 0;
}
