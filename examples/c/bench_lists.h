/* The workloads of bench.c with lists that take long to judge or have a long outcome. bench.c includes this file after
 * the functions that it uses. */
#ifndef BENCH_LISTS_H
#define BENCH_LISTS_H

#include "bench.h"

/* A path of eight names of a transaction, of which no other list or request has one: the source of a rename, or its
 * destination. */
static void spell_long(struct cfdp_path *path, char which, uint32_t number, uint32_t request) {
    char *octets = (char *)path->octets;
    path->length = 0;
    for (int level = 0; level < DEPTH; level++) {
        if (level) octets[path->length++] = '/';
        int begun = sprintf(octets + path->length, "%c%02u%02u", which, (unsigned)number, (unsigned)request);
        memset(octets + path->length + begun, 'x', LONG_NAME - (size_t)begun);
        path->length += LONG_NAME;
        if (arrangement == ONE_HASH) memcpy(octets + path->length - ONE_HASH_OCTETS, ONE_HASH_TAIL, ONE_HASH_OCTETS);
    }
}

/* The directories above a path exist, and a file at it where it is a source. */
static void put_long(char which, uint32_t number, uint32_t request) {
    struct cfdp_path path;
    spell_long(&path, which, number, request);
    uint32_t whole = path.length;
    for (uint32_t end = LONG_NAME; end < whole; end += LONG_NAME + 1) {
        path.length = end;
        if (cfdp_put(&engine, &path, CFDP_ENTRY_DIRECTORY, copy, 0) != CFDP_ANSWER_DONE) fail("no directory");
    }
    path.length = whole;
    if (which == 'a' && cfdp_put(&engine, &path, CFDP_ENTRY_FILE, copy, 0) != CFDP_ANSWER_DONE) fail("no file");
}

/* What the lists of this many other transactions name, and of one more. */
static void make_long_paths(uint32_t others) {
    make_engine(BLOCKS);
    for (uint32_t i = 0; i <= others; i++)
        for (uint32_t request = 0; request < LIST; request++) {
            put_long('a', i < others ? FIRST_OTHER + i : LIST_NUMBER, request);
            put_long('b', i < others ? FIRST_OTHER + i : LIST_NUMBER, request);
        }
}

/* The Metadata PDU of a list that renames 64 files, each into another directory. */
static void make_long_list(uint32_t number) {
    make_metadata(number, 0, "");
    for (uint32_t i = 0; i < LIST; i++) {
        struct cfdp_path from, to;
        uint32_t request = arrangement == FALLING ? LIST - 1 - i : i;
        spell_long(&from, 'a', number, request);
        spell_long(&to, 'b', number, request);
        from.octets[from.length] = 0;
        to.octets[to.length] = 0;
        add_request(RENAME, (const char *)from.octets, (const char *)to.octets);
    }
}

static void admit_long_lists(uint32_t others) {
    for (uint32_t i = 0; i < others; i++) {
        make_long_list(FIRST_OTHER + i);
        receive(CFDP_ADMITTED);
    }
}

/* Such lists of other transactions, and one more. */
static void prepare_long(uint32_t others) {
    make_long_paths(others);
    admit_long_lists(others);
    make_long_list(LIST_NUMBER);
}

/* 64 lists of the longest paths wait for their EOF PDUs: these, and one more. */
static void prepare_live(uint32_t others) {
    prepare_long(others);
    receive(CFDP_ADMITTED);
}

/* All requests of the last one were performed but for one. */
static void prepare_last_step(uint32_t others) {
    prepare_live(others);
    make_eof(LIST_NUMBER, 0, 0);
    receive(CFDP_COMPLETE);
    for (uint32_t request = 0; request + 1 < LIST; request++) step(LIST_NUMBER, CFDP_PERFORMED);
}

static void check_done(uint32_t others) {
    (void)others;
    take(LIST_NUMBER, 0);
}

/* The engine is gone, and another one can be made. */
static void check_gone(uint32_t others) {
    (void)others;
    make_engine(BLOCKS);
}

static uint32_t cancel_list(uint32_t others) {
    (void)others;
    cancel(LIST_NUMBER);
    return 1;
}

/* A directory, and a list that renames it 63 times, and then denies a file in it. */
static void prepare_inside(uint32_t count) {
    make_directory(count);
    make_metadata(LIST_NUMBER, 0, "");
    for (uint32_t i = 0; i + 1 < LIST; i++) add_request(RENAME, i % 2 ? "e" : "d", i % 2 ? "d" : "e");
    add_request(DENY_FILE, "e/x", NULL);
}

enum { NESTED = 7, FILES = LIST / 2 }; /* directories, each in the one before it, and files in the last one */

/* The path of a file in the last directory, or of this directory without a letter. The first directory has the name
 * `first`. */
static void spell_nested(char path[DEPTH * 4], char first, char letter, uint32_t file) {
    int octets = sprintf(path, "%c", first);
    for (int i = 1; i < NESTED; i++) octets += sprintf(path + octets, "/%d", i);
    if (letter) sprintf(path + octets, "/%c%02u", letter, (unsigned)file);
}

/* Nested directories with files, and a list that renames a file in the last directory and then the first directory,
 * there and back, by turns. */
static void prepare_nest(uint32_t requests) {
    static const char names[] = {'d', 'e'};
    char from[DEPTH * 4], to[DEPTH * 4];
    make_engine(BLOCKS);
    make_metadata(LIST_NUMBER, 0, "");
    spell_nested(from, names[0], 0, 0);
    for (int i = 0; i < NESTED; i++) {
        memcpy(to, from, sizeof to);
        to[1 + 2 * i] = 0;
        add_request(CREATE_DIRECTORY, to, NULL);
    }
    for (uint32_t file = 0; file < FILES; file++) {
        spell_nested(from, names[0], 'f', file);
        add_request(CREATE_FILE, from, NULL);
    }
    receive(CFDP_ADMITTED);
    perform(NESTED + FILES);
    make_metadata(LIST_NUMBER, 0, "");
    for (uint32_t i = 0; i < requests; i++) {
        uint32_t turn = i / 2;
        char now = names[turn % 2];
        if (i % 2 == 0) {
            spell_nested(from, now, 'f', turn);
            spell_nested(to, now, 'g', turn);
            add_request(RENAME, from, to);
        } else {
            add_request(RENAME, (char[]){now, 0}, (char[]){names[(turn + 1) % 2], 0});
        }
    }
}

/* Directories in a chain, and octets of a name and of a path. */
enum { CHAIN = 6, TOP_NAME = 96, TEXT = TOP_NAME + 64 };

/* The path of a directory or file in a chain of directories, which is in a directory with a long name: `top` is the
 * last letter of that. */
static void spell_chain(char text[TEXT], char top, uint32_t chain, int directories, const char *file) {
    memset(text, 'x', TOP_NAME - 1);
    char *at = text + TOP_NAME - 1;
    *at++ = top;
    *at = 0;
    if (directories) at += sprintf(at, "/zzzzzzzzzzzzzz%c", (char)('0' + chain));
    for (int i = 1; i < directories; i++) at += sprintf(at, "/0");
    strcpy(at, file);
}

static void put_text(const char *text, enum cfdp_entry_kind kind) {
    struct cfdp_path path;
    if (cfdp_path_of(&path, text) != CFDP_ANSWER_DONE || cfdp_put(&engine, &path, kind, copy, 0) != CFDP_ANSWER_DONE)
        fail("not put");
}

/* Two directories with the same chains of directories, each of which has a file too. A list moves the second one to
 * where the first one was, and renames a file of each second chain there into the next chain. So each of its paths
 * exists in both, before it. */
static void prepare_chains(uint32_t requests) {
    char text[TEXT], other[TEXT];
    uint32_t chains = 2 * (requests - 2);
    make_engine(BLOCKS);
    for (char top = 'a'; top <= 'b'; top++) {
        spell_chain(text, top, 0, 0, "");
        put_text(text, CFDP_ENTRY_DIRECTORY);
        spell_chain(text, top, 0, 0, "/~~");
        put_text(text, CFDP_ENTRY_FILE);
        for (uint32_t chain = 0; chain < chains; chain++) {
            for (int directories = 1; directories <= CHAIN; directories++) {
                spell_chain(text, top, chain, directories, "");
                put_text(text, CFDP_ENTRY_DIRECTORY);
                spell_chain(text, top, chain, directories, "/zz");
                put_text(text, CFDP_ENTRY_FILE);
            }
            spell_chain(text, top, chain, CHAIN, "/y");
            if (top == 'b' && chain % 2 == 0) put_text(text, CFDP_ENTRY_FILE);
        }
    }
    make_metadata(LIST_NUMBER, 0, "");
    for (const char *tops = "atba"; *tops; tops += 2) {
        spell_chain(text, tops[0], 0, 0, "");
        spell_chain(other, tops[1], 0, 0, "");
        add_request(RENAME, text, other);
    }
    for (uint32_t chain = 0; chain < chains; chain += 2) {
        spell_chain(text, 'a', chain, CHAIN, "/y");
        spell_chain(other, 'a', chain + 1, CHAIN, "/y");
        add_request(RENAME, text, other);
    }
}

/* Directories, each in the one before it: each but the last also has this many other directories with a file, and the
 * last has this many files. A list creates a file in each, and then renames the first one. */
enum { WALKED = 6, WALKED_FILES = 4096, NEIGHBOURS = 16 };

static void put_level(const char *path, uint32_t others) {
    char text[TEXT];
    put_text(path, CFDP_ENTRY_DIRECTORY);
    for (uint32_t other = 0; other < others; other++) {
        sprintf(text, "%s/a%02u", path, (unsigned)other);
        put_text(text, CFDP_ENTRY_DIRECTORY);
        strcat(text, "/x");
        put_text(text, CFDP_ENTRY_FILE);
    }
}

static void prepare_walk(uint32_t others, uint32_t files) {
    char path[TEXT / 2] = "d", text[TEXT];
    make_engine(BLOCKS);
    make_metadata(LIST_NUMBER, 0, "");
    for (int level = 1; level <= WALKED; level++) {
        put_level(path, level < WALKED ? others : 0);
        sprintf(text, "%s/z", path);
        add_request(CREATE_FILE, text, NULL);
        if (level < WALKED) sprintf(path + strlen(path), "/m%d", level);
    }
    add_request(RENAME, "d", "e");
    for (uint32_t file = 0; file < files; file++) {
        sprintf(text, "%s/f%05u", path, (unsigned)file);
        put_text(text, CFDP_ENTRY_FILE);
    }
}

static void prepare_nested_walk(uint32_t files) { prepare_walk(NEIGHBOURS, files); }

static void prepare_other_directories(uint32_t others) { prepare_walk(others, WALKED_FILES); }

/* A directory with directories, each of which has a file. A list creates 63 files beside them, and renames the first
 * directory. */
static void prepare_subdirectories(uint32_t count) {
    char text[TEXT];
    make_engine(BLOCKS);
    put_text("d", CFDP_ENTRY_DIRECTORY);
    for (uint32_t i = 0; i < count; i++) {
        sprintf(text, "d/%05u", (unsigned)i);
        put_text(text, CFDP_ENTRY_DIRECTORY);
        strcat(text, "/x");
        put_text(text, CFDP_ENTRY_FILE);
    }
    make_metadata(LIST_NUMBER, 0, "");
    for (uint32_t i = 1; i < LIST; i++) {
        sprintf(text, "d/!%02u", (unsigned)i);
        add_request(CREATE_FILE, text, NULL);
    }
    add_request(RENAME, "d", "e");
}

/* Octets of the paths of a request whose response is the longest: the path of a file in a directory with the longest
 * name, and what it is renamed to there. */
enum { LONG_FROM = 126, LONG_TO = 125 };

static void spell_renamed(char text[TEXT], char which, uint32_t request) {
    size_t octets = which == 'a' ? LONG_FROM : LONG_TO;
    memset(text, 'x', octets);
    text[TOP_NAME] = '/';
    text[octets] = 0;
    text[octets - 1] = which;
    for (int i = 2; i <= 3; i++, request /= 10) text[octets - (size_t)i] = (char)('0' + request % 10);
}

/* A list of this many renames with such paths is performed, and its outcome can be taken. */
static void prepare_long_take(uint32_t requests) {
    char from[TEXT], to[TEXT];
    make_engine(BLOCKS);
    spell_renamed(from, 'a', 0);
    from[TOP_NAME] = 0;
    put_text(from, CFDP_ENTRY_DIRECTORY);
    for (uint32_t request = 0; request < requests; request++) {
        spell_renamed(from, 'a', request);
        put_text(from, CFDP_ENTRY_FILE);
    }
    make_metadata(LIST_NUMBER, 0, "");
    for (uint32_t request = 0; request < requests; request++) {
        spell_renamed(from, 'a', request);
        spell_renamed(to, 'b', request);
        add_request(RENAME, from, to);
    }
    receive(CFDP_ADMITTED);
    make_eof(LIST_NUMBER, 0, 0);
    receive(CFDP_COMPLETE);
    for (uint32_t request = 0; request < requests; request++) step(LIST_NUMBER, CFDP_PERFORMED);
}

/* What the calls that change nothing answered of the last transaction, and the longest names of a Metadata PDU. */
enum { LONGEST_NAME = 255, MADE_ASKS = 16 };
static struct cfdp_reply outcome;
static enum cfdp_answer asked[MADE_ASKS];
static uint8_t asked_names[2][LONGEST_NAME + 1];
static struct cfdp_gap asked_gap;

/* Other transactions, and one more with a file, of which each second piece came, from its second one on. */
static void prepare_asks(uint32_t others) {
    char name[LONGEST_NAME + 1];
    memset(name, 'x', LONGEST_NAME);
    make_long_paths(others);
    name[TOP_NAME] = 0;
    put_text(name, CFDP_ENTRY_DIRECTORY);
    name[TOP_NAME] = '/';
    name[2 * TOP_NAME + 1] = 0;
    put_text(name, CFDP_ENTRY_DIRECTORY);
    name[2 * TOP_NAME + 1] = '/';
    name[LONGEST_NAME] = 0;
    admit_long_lists(others);
    make_metadata(FILE_NUMBER, GAPPED, name);
    receive(CFDP_ADMITTED);
    for (uint32_t i = 0; i < RANGES; i++) {
        make_data(FILE_NUMBER, (2 * i + 1) * SMALL_PIECE, SMALL_PIECE);
        receive(CFDP_STORED);
    }
    make_eof(FILE_NUMBER, checksum_of(GAPPED), GAPPED);
    receive(CFDP_WAITING);
}

/* Each call that only says something about a transaction, or writes a fixed line, and a check below its limit. */
static uint32_t ask(uint32_t others) {
    static uint8_t text[32];
    struct cfdp_transaction transaction;
    struct cfdp_phase phase;
    struct cfdp_grant grant;
    struct cfdp_blocks blocks;
    struct cfdp_metadata metadata;
    uint64_t offset;
    uint32_t steps;
    int64_t spent;
    size_t count;
    enum cfdp_answer *answer = asked;
    *answer++ = cfdp_next_runnable(&engine, &transaction);
    *answer++ = cfdp_next_outcome(&engine, &transaction);
    *answer++ = cfdp_transaction_at(&engine, others, &transaction);
    *answer++ = cfdp_phase(&engine, 1, FILE_NUMBER, &phase);
    *answer++ = cfdp_grant(&engine, 1, FILE_NUMBER, &grant);
    *answer++ = cfdp_blocks_spent(&engine, 1, FILE_NUMBER, &spent);
    *answer++ = cfdp_steps_spent(&engine, 1, FILE_NUMBER, &steps);
    *answer++ = cfdp_blocks(&engine, &blocks);
    *answer++ = cfdp_gap(&engine, 1, FILE_NUMBER, RANGES, &asked_gap);
    *answer++ = cfdp_progress(&engine, 1, FILE_NUMBER, &offset);
    *answer++ = cfdp_reach(&engine, 1, FILE_NUMBER, &offset);
    *answer++ = cfdp_metadata(&engine, 1, FILE_NUMBER, &metadata);
    *answer++ = cfdp_source_name(&engine, 1, FILE_NUMBER, asked_names[0], sizeof asked_names[0], &count);
    *answer++ = cfdp_destination_name(&engine, 1, FILE_NUMBER, asked_names[1], sizeof asked_names[1], &count);
    *answer++ = cfdp_answer_text(CFDP_ANSWER_CRC_NOT_SUPPORTED, text, sizeof text, &count);
    *answer++ = cfdp_check(&engine, 1, FILE_NUMBER, &outcome);
    return MADE_ASKS;
}

/* No item can be performed, and no outcome be taken. The last gap is before the end of the file. */
static void check_asks(uint32_t others) {
    (void)others;
    for (int i = 0; i < MADE_ASKS; i++)
        if (asked[i] != (i < 2 ? CFDP_ANSWER_NOTHING : CFDP_ANSWER_DONE)) fail("another answer");
    if (asked_gap.start != GAPPED - SMALL_PIECE || asked_gap.end != GAPPED) fail("another gap");
    if (memcmp(asked_names[0], asked_names[1], sizeof asked_names[0]) != 0) fail("another name");
    note(asked_gap.start);
}

/* Octets of the longest header, of the name of a request that makes the longest response, and of the longest line. */
enum { WIDE_HEADER = 28, WIDE_NAME = 252, LONGEST_LINE = 33028 };

/* The outcome of a list of transaction WIDE/WIDE, whose numbers have the most digits, and its line. */
static const uint64_t WIDE = UINT64_MAX;
static uint8_t finished[16488], line[LONGEST_LINE];
static size_t finished_length, line_length;

/* The Metadata PDU of a list with the longest numbers in its header, which denies files with long paths. */
static void make_wide_list(uint32_t requests) {
    char name[WIDE_NAME + 1];
    length = 0;
    put("\x24\0\0\x77", 4);
    put(&WIDE, sizeof WIDE);
    put(&WIDE, sizeof WIDE);
    put("\0\0\0\0\0\0\0\2\x07\x40\0\0\0\0\0\0", WIDE_HEADER - 20 + 8);
    for (uint32_t request = 0; request < requests; request++) {
        memset(name, 'x', WIDE_NAME);
        name[96] = name[193] = '/';
        name[WIDE_NAME - 2] = (char)('a' + request / 8);
        name[WIDE_NAME - 1] = (char)('a' + request % 8);
        name[WIDE_NAME] = 0;
        add_request(DENY_FILE, name, NULL);
    }
    pdu[1] = (uint8_t)((length - WIDE_HEADER) >> 8);
    pdu[2] = (uint8_t)(length - WIDE_HEADER);
}

/* The list was cancelled, so that its Finished PDU also has a fault location, and its outcome was taken. */
static void prepare_text(uint32_t requests) {
    make_engine(BLOCKS);
    make_wide_list(requests);
    receive(CFDP_ADMITTED);
    if (cfdp_cancel(&engine, WIDE, WIDE, &outcome) != CFDP_ANSWER_DONE) fail("not cancelled");
    if (cfdp_take(&engine, WIDE, WIDE, finished, sizeof finished, &finished_length, &outcome) != CFDP_ANSWER_DONE)
        fail("no outcome");
}

static uint32_t write_text(uint32_t requests) {
    (void)requests;
    if (cfdp_reply_text(&outcome, finished, finished_length, line, sizeof line, &line_length) != CFDP_ANSWER_DONE)
        fail("no line");
    return 1;
}

/* The line has the digits of the Finished PDU, and is the longest one if there were 64 requests. */
static void check_text(uint32_t requests) {
    static const char digits[] = "0123456789abcdef", start[] = "18446744073709551615/18446744073709551615 finished ";
    size_t at = sizeof start - 1;
    if (line_length != at + 2 * finished_length + 1 || (requests == LIST && line_length != LONGEST_LINE))
        fail("another length");
    if (memcmp(line, start, at) != 0 || line[line_length - 1] != '\n') fail("another line");
    for (size_t i = 0; i < finished_length; i++, at += 2) {
        if (line[at] != digits[finished[i] >> 4] || line[at + 1] != digits[finished[i] & 15]) fail("another digit");
        note(finished[i]);
    }
}

/* A Finished PDU with this many filestore responses (5.4.2), each of five octets: without a name. It is for the sender
 * of a file, and an engine answers that once it has read all of it. */
enum { MOST_RESPONSES = 13106 };

static void make_other(uint32_t responses) {
    begin(0x2c, LIST_NUMBER);
    put("\x05\x02", 2);
    for (uint32_t response = 0; response < responses; response++) put("\x01\x03\x00\x00\x00", 5);
    end();
}

static void prepare_other(uint32_t responses) {
    make_engine(BLOCKS);
    make_other(responses);
}

static uint32_t receive_other(uint32_t responses) {
    struct cfdp_reply reply = {0};
    (void)responses;
    if (cfdp_receive(&engine, pdu, length, &reply) != CFDP_ANSWER_NOT_OURS) fail("another answer to a PDU");
    return 1;
}

#endif
