/* The workloads of bench.c with names that a sender chose: a look-up of each takes as long as it can. bench.c includes
 * this after bench_lists.h. */
#ifndef BENCH_CHOSEN_H
#define BENCH_CHOSEN_H

#include "bench.h"

/* The last octets of the names. They make a factor of the engine's hash 1, so that the hash is that of the octets
 * before them, bit by bit, and its high bits, which say in which list of the index a name is, are those of two fixed
 * octets. So all names of a directory have one list, which keeps 8 of them; the others are sought in the order of the
 * directory. */
#define CHOSEN_TAIL "\x14\x7c\x4a\x7f\xb9\x79\x37\x9e"

enum {
    TAIL = 8,         /* octets of it */
    DIGITS = 3,       /* of the number of a name, to the base 64 */
    WIDEST = 96,      /* octets of the longest name */
    WAY_PIECES = 1300 /* of the file at the end of the way */
};

/* The path of eight names, each of which is the last entry of its directory. */
static struct cfdp_path way;
static uint32_t way_octets; /* of each name */
static int way_levels;      /* of the order of each directory */

/* Adds a chosen name to a path: of 9 to 14 octets, or of 16 or a multiple. The order of names is that of the
 * numbers. */
static void spell_chosen(struct cfdp_path *path, uint32_t number) {
    uint8_t *name = path->octets + path->length;
    uint32_t before = way_octets - TAIL, digits = before < DIGITS ? before : DIGITS;
    memset(name, 'x', way_octets);
    for (uint32_t i = 1; i <= digits; i++, number /= 64)
        name[before - (way_octets > 14 ? 2 : 0) - i] = (uint8_t)('0' + number % 64);
    memcpy(name + before, CHOSEN_TAIL, TAIL);
    path->length += way_octets;
}

/* The least entries that a directory has whose order has this many levels. */
static uint32_t least_entries(int levels) {
    return levels < 1 ? 0 : 1 + least_entries(levels - 1) + least_entries(levels - 2);
}

/* Puts the entries of one level of an order into the directory of a path. The order has the deepest entry last. Where
 * its levels are put one after the other, no entry changes its level. */
static void put_order(struct cfdp_path *path, enum cfdp_entry_kind kind, int levels, uint32_t first, int level) {
    uint32_t length = path->length, middle = first + least_entries(levels - 2);
    if (levels < 1) return;
    if (level > 0) {
        put_order(path, kind, levels - 2, first, level - 1);
        put_order(path, kind, levels - 1, middle + 1, level - 1);
        return;
    }
    if (length) path->octets[path->length++] = '/';
    spell_chosen(path, middle);
    if (cfdp_put(&engine, path, kind, copy, 0) != CFDP_ANSWER_DONE) fail("not put");
    path->length = length;
}

/* A directory in the root, one in that, and so on: eight with the root. Each has as many levels as this number of
 * entries can have at most, and the entries that these levels need. */
static void make_way(uint32_t octets, uint32_t entries) {
    make_engine(BLOCKS);
    way_octets = octets;
    for (way_levels = 1; least_entries(way_levels + 1) <= entries;) way_levels++;
    way.length = 0;
    for (int depth = 1; depth <= DEPTH; depth++) {
        enum cfdp_entry_kind kind = depth < DEPTH ? CFDP_ENTRY_DIRECTORY : CFDP_ENTRY_FILE;
        for (int level = 0; level < way_levels; level++) put_order(&way, kind, way_levels, 0, level);
        if (way.length) way.octets[way.length++] = '/';
        spell_chosen(&way, least_entries(way_levels) - 1);
    }
}

static void prepare_way(uint32_t entries) { make_way(WIDEST, entries); }

static uint32_t look_up_way(uint32_t entries) {
    (void)entries;
    if (cfdp_look_up(&engine, &way, &seen[0].entry) != CFDP_ANSWER_DONE) fail("no file");
    return 1;
}

static void check_way(uint32_t entries) {
    if (seen[0].entry.kind != CFDP_ENTRY_FILE || seen[0].entry.size != 0) fail("another entry");
    check_blocks(DEPTH * least_entries(way_levels));
    (void)entries;
}

/* What comes after the way is in the root: a look into each directory finds nothing more. */
static void prepare_next_chosen(uint32_t entries) {
    prepare_way(entries);
    put_text("y", CFDP_ENTRY_FILE);
}

static uint32_t next_after_way(uint32_t entries) {
    (void)entries;
    if (cfdp_next(&engine, &way, &seen[0].entry) != CFDP_ANSWER_DONE) fail("nothing next");
    return 1;
}

static void check_after_way(uint32_t entries) {
    (void)entries;
    if (seen[0].entry.kind != CFDP_ENTRY_FILE || way.length != 1 || way.octets[0] != 'y') fail("another entry");
}

/* The last file has octets. */
static void prepare_read_chosen(uint32_t entries) {
    static const uint64_t file = (uint64_t)WAY_PIECES * PIECE;
    fill_copy(WAY_PIECES);
    if (cfdp_free(&engine) != CFDP_ANSWER_DONE) fail("not freed");
    prepare_way(entries);
    way.length -= way_octets;
    spell_chosen(&way, least_entries(way_levels));
    if (cfdp_put(&engine, &way, CFDP_ENTRY_FILE, copy, file) != CFDP_ANSWER_DONE) fail("not put");
}

static uint32_t read_way(uint32_t entries) {
    size_t start = FAR_PIECE * PIECE, count = 0;
    (void)entries;
    if (cfdp_read(&engine, &way, start, copy + start, PIECE, &count) != CFDP_ANSWER_DONE || count != PIECE)
        fail("another number of octets");
    return 1;
}

/* A complete list whose first request renames the last file, in its directory. */
static void prepare_step_chosen(uint32_t entries) {
    struct cfdp_path other;
    make_way(LONG_NAME, entries);
    way.octets[way.length] = 0;
    other = way;
    other.length -= way_octets;
    spell_chosen(&other, least_entries(way_levels));
    make_metadata(LIST_NUMBER, 0, "");
    add_request(RENAME, (const char *)way.octets, (const char *)other.octets);
    add_request(DENY_FILE, "y", NULL);
    receive(CFDP_ADMITTED);
    make_eof(LIST_NUMBER, 0, 0);
    receive(CFDP_COMPLETE);
    way = other;
}

static void check_step_chosen(uint32_t entries) {
    step(LIST_NUMBER, CFDP_PERFORMED);
    take(LIST_NUMBER, 0);
    look_up_way(entries);
    check_way(entries);
}

/* ---- lists that move directories with chains of directories */

struct chains {
    uint32_t moves;     /* of 64 requests, how many move the directories once more, after the two that swap them */
    uint32_t top;       /* octets of the name of each of the two, before the moves */
    uint32_t outer;     /* of the name of the directory that has both, and is moved; 0 if the second one is moved */
    uint32_t chain;     /* of the name of a chain */
    uint32_t inner;     /* of the name of a further directory of a chain, and of a file that is renamed */
    bool is_late;       /* the moves come after the renames of files */
    bool is_chosen;     /* names in the chains have one hash, and each directory of a chain has as many as fit */
};

static const struct chains *shape;
static uint32_t made_chains; /* of each of the two directories */
static int made_levels;      /* of the order of each directory of a chain */

static void add_slash(struct cfdp_path *path) {
    if (path->length) path->octets[path->length++] = '/';
}

/* Adds a name of one letter after as many others as it takes. */
static void add_letter(struct cfdp_path *path, char letter, uint32_t octets) {
    add_slash(path);
    memset(path->octets + path->length, 'x', octets);
    path->length += octets;
    path->octets[path->length - 1] = (uint8_t)letter;
}

/* Adds the name with this number: of a chain, or in a directory of a chain. */
static void add_number(struct cfdp_path *path, uint32_t number, uint32_t octets) {
    if (!shape->is_chosen) {
        add_letter(path, (char)('0' + number), octets);
        return;
    }
    add_slash(path);
    way_octets = octets;
    spell_chosen(path, number);
}

/* How many directories a chain has, so that the renamed files have paths of eight names. */
static uint32_t chained(void) { return DEPTH - 2 - (shape->outer > 0); }

/* The number of the name that leads on in a directory of a chain. The renamed file has the next one. */
static uint32_t leading(void) { return shape->is_chosen ? least_entries(made_levels) - 1 : 0; }

/* Adds directories of a chain. */
static void add_chain(struct cfdp_path *path, uint32_t chain, uint32_t directories) {
    for (uint32_t i = 0; i < directories; i++)
        add_number(path, i ? leading() : chain, i ? shape->inner : shape->chain);
}

static void put_path(const struct cfdp_path *path, enum cfdp_entry_kind kind) {
    if (cfdp_put(&engine, path, kind, copy, 0) != CFDP_ANSWER_DONE) fail("not put");
}

/* A chain in the directory of a path. Each directory of it has an entry that no list names. */
static void put_chain(struct cfdp_path path, uint32_t chain, bool has_file) {
    struct cfdp_path other;
    for (uint32_t i = 0; i < chained(); i++) {
        add_number(&path, i ? leading() : chain, i ? shape->inner : shape->chain);
        if (i == 0 || !shape->is_chosen) put_path(&path, CFDP_ENTRY_DIRECTORY);
        other = path;
        add_letter(&other, 'z', 2);
        if (!shape->is_chosen) put_path(&other, CFDP_ENTRY_FILE);
        way_octets = shape->inner;
        for (int level = 0; shape->is_chosen && level < made_levels; level++)
            put_order(&path, CFDP_ENTRY_DIRECTORY, made_levels, 0, level);
    }
    add_number(&path, leading() + 1, shape->inner);
    if (has_file) put_path(&path, CFDP_ENTRY_FILE);
}

static void add_rename(struct cfdp_path *from, struct cfdp_path *to) {
    from->octets[from->length] = to->octets[to->length] = 0;
    add_request(RENAME, (const char *)from->octets, (const char *)to->octets);
}

/* Each time to a name that is longer by one octet. */
static void add_moves(struct cfdp_path *moved, uint32_t moves) {
    while (moves-- > 0) {
        struct cfdp_path longer = *moved;
        longer.octets[longer.length++] = 'm';
        add_rename(moved, &longer);
        *moved = longer;
    }
}

/* The files of each second chain go to the chains after them. */
static void add_files(const struct cfdp_path *top) {
    for (uint32_t chain = 0; chain < made_chains; chain += 2) {
        struct cfdp_path from = *top, to = *top;
        add_chain(&from, chain, chained());
        add_number(&from, leading() + 1, shape->inner);
        add_chain(&to, chain + 1, chained());
        add_number(&to, leading() + 1, shape->inner);
        add_rename(&from, &to);
    }
}

/* Two directories have the same chains of directories. A list moves the second one to where the first one was, as in
 * `swapped-chains`, renames files there, and moves all of it again and again. */
static void make_chains(const struct chains *with, uint32_t requests) {
    struct cfdp_path outer = {0}, tops[3], *moved = with->outer ? &outer : &tops[0];
    uint32_t moves = with->moves * requests / LIST;
    make_engine(BLOCKS);
    shape = with;
    made_chains = 2 * (requests - 2 - moves);
    made_levels = 1;
    while (2 * made_chains * chained() * least_entries(made_levels + 1) + 4 * LIST < BLOCKS) made_levels++;
    if (made_levels > 8) made_levels = 8;
    if (with->outer) {
        add_letter(&outer, 'd', with->outer);
        put_path(&outer, CFDP_ENTRY_DIRECTORY);
    }
    for (int i = 0; i < 3; i++) {
        tops[i] = outer;
        add_letter(&tops[i], "abt"[i], with->top);
        if (i < 2) put_path(&tops[i], CFDP_ENTRY_DIRECTORY);
        for (uint32_t chain = 0; i < 2 && chain < made_chains; chain++) put_chain(tops[i], chain, i && chain % 2 == 0);
    }
    make_metadata(LIST_NUMBER, 0, "");
    add_rename(&tops[0], &tops[2]);
    add_rename(&tops[1], &tops[0]);
    if (with->is_late) add_files(&tops[0]);
    add_moves(moved, moves);
    tops[1] = *moved;
    if (with->outer) add_letter(&tops[1], 'a', with->top);
    if (!with->is_late) add_files(&tops[1]);
}

static void prepare_moved_chains(uint32_t requests) {
    static const struct chains moved = {.moves = 20, .top = 76, .chain = 15, .inner = 1};
    make_chains(&moved, requests);
}

static void prepare_chosen_chains(uint32_t requests) {
    static const struct chains chosen = {.moves = 12, .top = 38, .chain = 14, .inner = 9, .is_chosen = true};
    make_chains(&chosen, requests);
}

#endif
