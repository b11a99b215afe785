/* How long the engine takes: workloads by name, each of a size.
 *   cc -std=c99 -O2 examples/c/bench.c crates/cfdp_c/out/libcfdp_c.a KIT/c/liblibc_c.a -o bench
 *   ./bench                          each workload, of its usual size
 *   ./bench least                    each workload, of its least size
 *   ./bench NAME SIZE [scattered]    one workload
 * A line for each: its name and size, how many calls were timed, a digest of the answers, and the processor time. The
 * digest is the same for every correct engine. The answers are also compared with those that the standard asks for: if
 * one differs, the program ends with status 1.
 *
 * Only the function `measured` is timed, and callgrind can count its instructions alone:
 *   valgrind --tool=callgrind --collect-atstart=no --toggle-collect=measured ./bench NAME SIZE
 *
 * `scattered`: before the workload 60 files arrive that take their blocks in turn, and are cancelled. Blocks that are
 * taken one after the other are then 60 blocks apart in memory. */
#define _POSIX_C_SOURCE 199309L
#include "bench.h"

/* ---- a file, whose size is in pieces */

/* The modular checksum of the file's octets (checksum procedures). */
static uint32_t checksum_of(uint32_t octets) {
    uint32_t sum = 0;
    for (uint32_t at = 0; at < octets; at++) sum += (uint32_t)octet_of(at) << (8 * (3 - at % 4));
    return sum;
}

static void make_pieces(uint32_t count) {
    for (uint32_t i = 0; i < count; i++) {
        make_data(FILE_NUMBER, i * PIECE, PIECE);
        memcpy(pieces[i].octets, pdu, sizeof pieces[i].octets);
    }
}

/* The file's Metadata PDU came. */
static void announce(uint32_t count) {
    make_engine(BLOCKS);
    arrange(count);
    make_pieces(count);
    make_metadata(FILE_NUMBER, count * PIECE, "image");
    receive(CFDP_ADMITTED);
}

static void send_piece(uint32_t index) {
    receive_octets(pieces[index].octets, sizeof pieces[index].octets, CFDP_STORED);
}

static void make_file_eof(uint32_t octets) { make_eof(FILE_NUMBER, checksum_of(octets), octets); }

/* All its pieces came, and the EOF PDU is made. */
static void arrive(uint32_t count) {
    announce(count);
    for (uint32_t i = 0; i < count; i++) send_piece(i);
    make_file_eof(count * PIECE);
}

/* The EOF PDU came too. */
static void complete(uint32_t count) {
    arrive(count);
    receive(CFDP_COMPLETE);
}

/* The file is installed, and the outcome is taken. */
static void deliver(uint32_t count) {
    complete(count);
    step(FILE_NUMBER, CFDP_INSTALLED);
    take(FILE_NUMBER, 0);
}

/* A list that deletes the file is complete. */
static void condemn(uint32_t count) {
    deliver(count);
    make_metadata(LIST_NUMBER, 0, "");
    add_request(DELETE_FILE, "image", NULL);
    receive(CFDP_ADMITTED);
    make_eof(LIST_NUMBER, 0, 0);
    receive(CFDP_COMPLETE);
}

static uint32_t send_all(uint32_t count) {
    for (uint32_t i = 0; i < count; i++) send_piece(order[i]);
    return count;
}

static uint32_t send_last(uint32_t count) {
    send_piece(count - 1);
    return 1;
}

/* The EOF PDU that was made comes. */
static uint32_t receive_eof(uint32_t size) {
    (void)size;
    receive(CFDP_COMPLETE);
    return 1;
}

static uint32_t install(uint32_t size) {
    (void)size;
    step(FILE_NUMBER, CFDP_INSTALLED);
    return 1;
}

static uint32_t cancel_file(uint32_t size) {
    (void)size;
    cancel(FILE_NUMBER);
    return 1;
}

/* The octets of the file from an offset up to another one. */
static void read_file(size_t start, size_t stop) {
    size_t count = 0;
    if (cfdp_read(&engine, &image, start, copy + start, stop - start, &count) != CFDP_DONE || count != stop - start)
        fail("another number of octets");
}

static void read_piece(uint32_t index) { read_file((size_t)index * PIECE, ((size_t)index + 1) * PIECE); }

static uint32_t read_all(uint32_t count) {
    for (uint32_t i = 0; i < count; i++) read_piece(order[i]);
    return count;
}

static uint32_t read_last(uint32_t count) {
    read_piece(count - 1);
    return 1;
}

/* The piece to which most steps lead back from the end of the file, whatever its size. */
enum { FAR_PIECE = 2 };

static uint32_t read_far(uint32_t count) {
    (void)count;
    read_piece(FAR_PIECE);
    return 1;
}

static uint32_t look_up(uint32_t size) {
    (void)size;
    if (cfdp_look_up(&engine, &image, &seen[0].entry) != CFDP_DONE) fail("no file");
    return 1;
}

/* All entries of the filestore, one after the other. */
static uint32_t go_through(uint32_t size) {
    struct cfdp_path path = {0};
    uint32_t found = 0;
    while (found < BLOCKS && cfdp_next(&engine, &path, &seen[found].entry) == CFDP_DONE) {
        seen[found].length = path.length;
        memcpy(seen[found].octets, path.octets, sizeof seen[found].octets);
        found++;
    }
    (void)size;
    return found + 1;
}

static void check_octets(uint32_t start, uint32_t stop) {
    for (uint32_t at = start; at < stop; at++) {
        if (copy[at] != octet_of(at)) fail("another octet");
        note(copy[at]);
    }
}

static void check_all(uint32_t count) { check_octets(0, count * PIECE); }

static void check_last(uint32_t count) { check_octets((count - 1) * PIECE, count * PIECE); }

static void check_far(uint32_t count) {
    (void)count;
    check_octets(FAR_PIECE * PIECE, (FAR_PIECE + 1) * PIECE);
}

/* The file is the one that was sent: its entry was seen, and it is read. */
static void check_entry(uint32_t count) {
    const struct cfdp_entry *entry = &seen[0].entry;
    if (entry->kind != CFDP_FILE || entry->size != (uint64_t)count * PIECE) fail("another file");
    if (entry->checksum != checksum_of(count * PIECE)) fail("another checksum");
    note(entry->checksum);
    read_file(0, (size_t)count * PIECE);
    check_all(count);
}

static void check_next_entry(uint32_t count) {
    if (seen[0].length != image.length || memcmp(seen[0].octets, image.octets, image.length) != 0) fail("another path");
    check_entry(count);
}

static void check_file(uint32_t count) {
    take(FILE_NUMBER, 0);
    look_up(count);
    check_entry(count);
}

/* The EOF PDU came: the file is installed, and is the one that was sent. */
static void check_complete(uint32_t count) {
    step(FILE_NUMBER, CFDP_INSTALLED);
    check_file(count);
}

/* All pieces came. */
static void check_pieces(uint32_t count) {
    make_file_eof(count * PIECE);
    receive(CFDP_COMPLETE);
    check_complete(count);
}

/* The last piece came alone. Now the others come. */
static void check_gap(uint32_t count) {
    uint64_t progress = 0;
    if (cfdp_progress(&engine, 1, FILE_NUMBER, &progress) != CFDP_DONE) fail("no progress");
    if (progress != (uint64_t)count * PIECE) fail("another progress");
    for (uint32_t i = 0; i + 1 < count; i++) send_piece(i);
    check_pieces(count);
}

/* Fails unless `used` blocks are in use. */
static void check_blocks(uint32_t used) {
    struct cfdp_blocks blocks;
    if (cfdp_blocks(&engine, &blocks) != CFDP_DONE || blocks.free != BLOCKS - used)
        fail("another number of free blocks");
    note(used);
}

static void check_no_file(uint32_t size) {
    (void)size;
    if (cfdp_look_up(&engine, &image, &seen[0].entry) != CFDP_NOTHING) fail("a file");
    check_blocks(0);
}

/* ---- a file, whose size is in pairs of blocks */

/* All blocks of the file came but for the last one, and its PDUs are made. */
static void announce_pairs(uint32_t pairs) {
    uint32_t last = (2 * pairs - 1) * PAYLOAD;
    make_engine(BLOCKS);
    make_metadata(FILE_NUMBER, last + PAYLOAD, "image");
    receive(CFDP_ADMITTED);
    for (uint32_t at = 0; at < last; at += PAYLOAD) {
        make_data(FILE_NUMBER, at, PAYLOAD);
        receive(CFDP_STORED);
    }
    for (uint32_t i = 0; i < SMALL_PIECES; i++) {
        make_data(FILE_NUMBER, last + i * SMALL_PIECE, SMALL_PIECE);
        memcpy(pieces[i].octets, pdu, length);
    }
}

static uint32_t send_small(uint32_t pairs) {
    (void)pairs;
    for (uint32_t i = 0; i < SMALL_PIECES; i++) receive_octets(pieces[i].octets, HEADER + 4 + SMALL_PIECE, CFDP_STORED);
    return SMALL_PIECES;
}

static void check_pairs(uint32_t pairs) {
    make_file_eof(2 * pairs * PAYLOAD);
    receive(CFDP_COMPLETE);
}

/* ---- a directory, whose size is in entries: files of no octets */

/* A directory, and a list that makes 64 more entries of it. */
static void prepare_create(uint32_t count) {
    make_engine(BLOCKS);
    arrange(count + LIST);
    fill('d', 0, count);
    make_list(CREATE_FILE, 'd', count, count + LIST);
}

/* Where the numbers begin that are deleted. */
static uint32_t middle_of(uint32_t count) { return (count - LIST) / 2; }

static void prepare_delete(uint32_t count) {
    make_directory(count);
    make_list(DELETE_FILE, 'd', middle_of(count), middle_of(count) + LIST);
}

/* A directory, and a list that moves all 64 entries of another one into it. */
static void prepare_rename(uint32_t count) {
    make_engine(BLOCKS);
    arrange(count + LIST);
    fill('d', 0, count);
    fill('e', count, count + LIST);
    make_metadata(LIST_NUMBER, 0, "");
    for (uint32_t i = count; i < count + LIST; i++) {
        char from[LONGEST_PATH + 1], to[LONGEST_PATH + 1];
        spell(from, 'e', order[i]);
        spell(to, 'd', order[i]);
        add_request(RENAME, from, to);
    }
}

/* A directory, and a list that renames it. */
static void prepare_move(uint32_t count) {
    make_directory(count);
    make_metadata(LIST_NUMBER, 0, "");
    add_request(RENAME, "d", "e");
}

/* A directory, and a list that renames it there and back 32 times. */
static void prepare_moves(uint32_t count) {
    make_directory(count);
    make_metadata(LIST_NUMBER, 0, "");
    for (int i = 0; i < LIST; i += 2) {
        add_request(RENAME, "d", "e");
        add_request(RENAME, "e", "d");
    }
}

/* The list that renames the directory is complete. */
static void prepare_move_step(uint32_t count) {
    prepare_move(count);
    receive(CFDP_ADMITTED);
    make_eof(LIST_NUMBER, 0, 0);
    receive(CFDP_COMPLETE);
}

/* A directory, and a complete list that renames it into another one: its new path has one name more. */
static void prepare_deeper(uint32_t count) {
    make_directory(count);
    fill('e', 0, 0);
    make_metadata(LIST_NUMBER, 0, "");
    add_request(RENAME, "d", "e/d");
    receive(CFDP_ADMITTED);
    make_eof(LIST_NUMBER, 0, 0);
    receive(CFDP_COMPLETE);
}

/* A directory, and a list that is refused since it has entries. */
static void prepare_removal(uint32_t count) {
    make_directory(count);
    make_metadata(LIST_NUMBER, 0, "");
    add_request(REMOVE_DIRECTORY, "d", NULL);
}

static void prepare_denial(uint32_t count) {
    make_directory(count);
    make_metadata(LIST_NUMBER, 0, "");
    add_request(DENY_DIRECTORY, "d", NULL);
}

/* A directory, and a list that first denies an entry of it. */
static void prepare_denial_within(uint32_t count) {
    char path[LONGEST_PATH + 1];
    make_directory(count);
    make_metadata(LIST_NUMBER, 0, "");
    spell(path, 'd', order[0]);
    add_request(DENY_FILE, path, NULL);
    add_request(DENY_DIRECTORY, "d", NULL);
}

/* A directory, and a file that is refused since the directory is at its destination. */
static void prepare_destination(uint32_t count) {
    make_directory(count);
    make_metadata(LIST_NUMBER, PIECE, "d");
}

/* What was made arrives, and is refused. */
static uint32_t refuse(uint32_t size) {
    (void)size;
    receive(CFDP_REFUSED);
    return 1;
}

/* The list that was made arrives, and is admitted. */
static uint32_t admit(uint32_t size) {
    (void)size;
    receive(CFDP_ADMITTED);
    return 1;
}

/* It is performed too. */
static uint32_t run_list(uint32_t size) {
    (void)size;
    receive(CFDP_ADMITTED);
    perform(LIST);
    return LIST + 3;
}

static uint32_t step_list(uint32_t size) {
    (void)size;
    step(LIST_NUMBER, CFDP_PERFORMED);
    return 1;
}

/* These numbers are entries of a directory, or none is. */
static void check_entries(char directory, uint32_t start, uint32_t stop, uint32_t wanted) {
    struct cfdp_path path = {.length = arrangement == ONE_HASH ? LONGEST_PATH : 8};
    struct cfdp_entry entry = {.kind = CFDP_FILE};
    for (uint32_t i = start; i < stop; i++) {
        char spelled[LONGEST_PATH + 1];
        spell(spelled, directory, order[i]);
        memcpy(path.octets, spelled, path.length);
        if (cfdp_look_up(&engine, &path, &entry) != wanted || entry.kind != CFDP_FILE || entry.size != 0)
            fail("another entry");
        note(order[i]);
    }
}

/* Nothing changed. */
static void check_refused(uint32_t count) {
    check_entries('d', 0, count, CFDP_DONE);
    check_blocks(count + 1);
}

static void check_created(uint32_t count) {
    check_entries('d', 0, count + LIST, CFDP_DONE);
    check_blocks(count + LIST + 1);
}

static void check_deleted(uint32_t count) {
    check_entries('d', 0, middle_of(count), CFDP_DONE);
    check_entries('d', middle_of(count), middle_of(count) + LIST, CFDP_NOTHING);
    check_entries('d', middle_of(count) + LIST, count, CFDP_DONE);
    check_blocks(count - LIST + 1);
}

static void check_renamed(uint32_t count) {
    check_entries('d', 0, count + LIST, CFDP_DONE);
    check_blocks(count + LIST + 2);
}

static void check_moved(uint32_t count) {
    take(LIST_NUMBER, 0);
    check_entries('d', 0, count, CFDP_NOTHING);
    check_entries('e', 0, count, CFDP_DONE);
    check_blocks(count + 1);
}

static void check_deeper(uint32_t count) {
    static const struct cfdp_path inside = {.length = 3, .octets = "e/d"};
    struct cfdp_entry entry = {0};
    take(LIST_NUMBER, 0);
    if (cfdp_look_up(&engine, &inside, &entry) != CFDP_DONE || entry.kind != CFDP_DIRECTORY) fail("no directory");
    check_entries('d', 0, count, CFDP_NOTHING);
    check_blocks(count + 2);
}

static void check_move(uint32_t count) {
    make_eof(LIST_NUMBER, 0, 0);
    receive(CFDP_COMPLETE);
    step(LIST_NUMBER, CFDP_PERFORMED);
    check_moved(count);
}

static void check_moves(uint32_t count) {
    perform(LIST);
    check_entries('d', 0, count, CFDP_DONE);
    check_blocks(count + 1);
}

/* The directory was seen first, and then its entries in the order of their numbers. */
static void check_seen(uint32_t count) {
    if (seen[0].entry.kind != CFDP_DIRECTORY || seen[0].length != 1 || seen[0].octets[0] != 'd')
        fail("another directory");
    for (uint32_t number = 0; number < count; number++) {
        const struct seen *next = &seen[number + 1];
        char path[LONGEST_PATH + 1];
        spell(path, 'd', number);
        if (next->entry.kind != CFDP_FILE || next->length != 8 || memcmp(next->octets, path, 8) != 0)
            fail("another entry");
        note(number);
    }
    check_blocks(count + 1);
}

/* ---- other workloads */

/* A filestore of this number of blocks. Half of them are entries of a directory. */
static void make_store(uint32_t blocks) {
    make_engine(blocks);
    arrange(blocks / 2);
    fill('d', 0, blocks / 2);
    arrange(blocks / 2);
}

static uint32_t look_up_many(uint32_t blocks) {
    for (uint32_t left = LOOK_UPS; left > 0;) {
        uint32_t some = left < blocks / 2 ? left : blocks / 2;
        check_entries('d', 0, some, CFDP_DONE);
        left -= some;
    }
    return LOOK_UPS;
}

/* Other transactions with lists of `requests` requests together, and a list. */
static void prepare_beside(uint32_t requests) {
    make_directory(0);
    for (uint32_t i = 0; i <= LIVE; i++) {
        bool is_last = i == LIVE;
        make_metadata(is_last ? LIST_NUMBER : FIRST_OTHER + i, 0, "");
        for (uint32_t request = 0; request < (is_last ? BESIDE : requests / LIVE); request++) {
            char path[LONGEST_PATH + 1];
            spell(path, 'd', LIST * i + request);
            add_request(CREATE_FILE, path, NULL);
        }
        if (!is_last) receive(CFDP_ADMITTED);
    }
}

static void prepare_lists(uint32_t count) {
    (void)count;
    make_directory(0);
    arrange(BESIDE);
}

/* Lists that create files and delete them by turns. */
static uint32_t run_lists(uint32_t count) {
    for (uint32_t i = 0; i < count; i++) {
        make_list(i % 2 ? DELETE_FILE : CREATE_FILE, 'd', 0, BESIDE);
        receive(CFDP_ADMITTED);
        perform(BESIDE);
    }
    return count * (BESIDE + 3);
}

static void check_nothing(uint32_t size) { (void)size; }

/* ---- the longest calls */

static uint32_t make(uint32_t blocks) {
    make_engine(blocks);
    return 1;
}

static uint32_t free_engine(uint32_t size) {
    (void)size;
    if (cfdp_free(&engine) != CFDP_DONE) fail("not freed");
    return 1;
}

/* The engine is gone, and another one can be made. */
static void check_freed(uint32_t blocks) { make_engine(blocks); }

static void put_file(const struct cfdp_path *path, const uint8_t *octets, size_t count) {
    if (cfdp_put(&engine, path, CFDP_FILE, octets, count) != CFDP_DONE) fail("not put");
}

/* The octets of the file are in `copy`. */
static void fill_copy(uint32_t count) {
    make_engine(BLOCKS);
    for (uint32_t at = 0; at < count * PIECE; at++) copy[at] = octet_of(at);
}

static uint32_t put_image(uint32_t count) {
    put_file(&image, copy, (size_t)count * PIECE);
    return 1;
}

/* The file was put there, and is the one that was sent. */
static void check_image(uint32_t count) {
    look_up(count);
    check_entry(count);
}

/* The file is there, and another one of one octet. A list is complete whose request names that one and the file. */
static void prepare_copy(enum action action, uint32_t count) {
    static const struct cfdp_path small = {.length = 4, .octets = "note"};
    fill_copy(count);
    put_image(count);
    put_file(&small, copy, 1);
    make_metadata(LIST_NUMBER, 0, "");
    add_request(action, "note", "image");
    receive(CFDP_ADMITTED);
    make_eof(LIST_NUMBER, 0, 0);
    receive(CFDP_COMPLETE);
}

static void prepare_append(uint32_t count) { prepare_copy(APPEND, count); }

static void prepare_replace(uint32_t count) { prepare_copy(REPLACE, count); }

/* The file is as before, and the other one has its octets after `before` others. */
static void check_copy(uint32_t count, uint32_t before) {
    static const struct cfdp_path note_path = {.length = 4, .octets = "note"};
    struct cfdp_entry entry = {0};
    take(LIST_NUMBER, 0);
    check_image(count);
    if (cfdp_look_up(&engine, &note_path, &entry) != CFDP_DONE || entry.size != (uint64_t)count * PIECE + before)
        fail("another size");
    note(entry.checksum);
}

static void check_appended(uint32_t count) { check_copy(count, 1); }

static void check_replaced(uint32_t count) { check_copy(count, 0); }

static uint32_t read_whole(uint32_t count) {
    read_file(0, (size_t)count * PIECE);
    return 1;
}

/* A list of this many requests is performed, and its outcome can be taken. */
static void prepare_take(uint32_t requests) {
    make_directory(0);
    arrange(requests);
    make_list(CREATE_FILE, 'd', 0, requests);
    receive(CFDP_ADMITTED);
    make_eof(LIST_NUMBER, 0, 0);
    receive(CFDP_COMPLETE);
    while (requests-- > 0) step(LIST_NUMBER, CFDP_PERFORMED);
}

static uint32_t take_list(uint32_t requests) {
    (void)requests;
    take(LIST_NUMBER, 0);
    return 1;
}

static void check_taken(uint32_t requests) {
    check_entries('d', 0, requests, CFDP_DONE);
    check_blocks(requests + 1);
}

#include "bench_lists.h"
#include "bench_chosen.h"
#include "bench_receiver.h"

/* ---- the workloads */

struct workload {
    const char *name;
    uint32_t least, usual, most; /* sizes */
    enum arrangement arrangement;
    void (*prepare)(uint32_t size);
    uint32_t (*work)(uint32_t size); /* the number of calls that it made */
    void (*check)(uint32_t size);
};

static const struct workload workloads[] = {
    /* the size: pieces of a file */
    {"data-in-order", 30, 7800, MOST_PIECES, RISING, announce, send_all, check_pieces},
    {"data-reverse", 30, 7800, MOST_PIECES, FALLING, announce, send_all, check_pieces},
    {"data-swapped", 30, 7800, MOST_PIECES, SWAPPED, announce, send_all, check_pieces},
    {"gap", 30, 7800, MOST_PIECES, RISING, announce, send_last, check_gap},
    {"eof", 30, 7800, MOST_PIECES, RISING, arrive, receive_eof, check_complete},
    {"install", 30, 7800, MOST_PIECES, RISING, complete, install, check_file},
    {"cancel", 30, 7800, MOST_PIECES, RISING, arrive, cancel_file, check_no_file},
    {"delete", 30, 7800, MOST_PIECES, RISING, condemn, step_list, check_no_file},
    {"look-up", 30, 7800, MOST_PIECES, RISING, deliver, look_up, check_entry},
    {"next-file", 30, 7800, MOST_PIECES, RISING, deliver, go_through, check_next_entry},
    {"read-last", 30, 7800, MOST_PIECES, RISING, deliver, read_last, check_last},
    {"read-far", 30, 7800, MOST_PIECES, RISING, deliver, read_far, check_far},
    {"read-in-order", 30, 7800, MOST_PIECES, RISING, deliver, read_all, check_all},
    {"read-backwards", 30, 7800, MOST_PIECES, FALLING, deliver, read_all, check_all},
    {"read-random", 30, 7800, MOST_PIECES, RANDOM, deliver, read_all, check_all},
    /* the size: pairs of blocks of a file, whose last block comes in PDUs of 10 octets */
    {"data-small", 1, 16, 30000, RISING, announce_pairs, send_small, check_pairs},
    /* the size: entries of a directory */
    {"next", 70, 3000, 65000, RANDOM, make_directory, go_through, check_seen},
    {"create-rising", 70, 30000, 65000, RISING, prepare_create, run_list, check_created},
    {"create-falling", 70, 30000, 65000, FALLING, prepare_create, run_list, check_created},
    {"create-random", 70, 30000, 65000, RANDOM, prepare_create, run_list, check_created},
    {"create-one-hash", 70, 30000, 65000, ONE_HASH, prepare_create, run_list, check_created},
    {"delete-rising", 70, 30000, 65000, RISING, prepare_delete, run_list, check_deleted},
    {"delete-falling", 70, 30000, 65000, FALLING, prepare_delete, run_list, check_deleted},
    {"delete-random", 70, 30000, 65000, RANDOM, prepare_delete, run_list, check_deleted},
    {"delete-one-hash", 70, 30000, 65000, ONE_HASH, prepare_delete, run_list, check_deleted},
    {"rename-rising", 70, 30000, 65000, RISING, prepare_rename, run_list, check_renamed},
    {"rename-falling", 70, 30000, 65000, FALLING, prepare_rename, run_list, check_renamed},
    {"rename-random", 70, 30000, 65000, RANDOM, prepare_rename, run_list, check_renamed},
    {"rename-one-hash", 70, 30000, 65000, ONE_HASH, prepare_rename, run_list, check_renamed},
    {"remove-directory", 70, 30000, 65000, RANDOM, prepare_removal, refuse, check_refused},
    {"deny-directory", 70, 30000, 65000, RANDOM, prepare_denial, refuse, check_refused},
    {"deny-within", 70, 30000, 65000, RANDOM, prepare_denial_within, refuse, check_refused},
    {"destination-directory", 70, 30000, 65000, RANDOM, prepare_destination, refuse, check_refused},
    {"move-admitted", 70, 30000, 65000, RANDOM, prepare_move, admit, check_move},
    {"moves-admitted", 70, 30000, 65000, RANDOM, prepare_moves, admit, check_moves},
    {"inside-admitted", 70, 30000, 65000, RANDOM, prepare_inside, admit, check_nothing},
    {"nested-walk", 70, 30000, 60000, RISING, prepare_nested_walk, admit, check_nothing},
    {"subdirectories", 70, 15000, 30000, RISING, prepare_subdirectories, admit, check_nothing},
    {"look-up-chosen", 70, 6764, 6764, RISING, prepare_way, look_up_way, check_way},
    {"next-chosen", 70, 6764, 6764, RISING, prepare_next_chosen, next_after_way, check_after_way},
    {"read-chosen", 70, 6764, 6764, RISING, prepare_read_chosen, read_way, check_far},
    {"step-chosen", 70, 6764, 6764, RISING, prepare_step_chosen, step_list, check_step_chosen},
    {"move-step", 70, 30000, 65000, RANDOM, prepare_move_step, step_list, check_moved},
    {"move-deeper", 70, 30000, 65000, RANDOM, prepare_deeper, step_list, check_deeper},
    /* the size: blocks of the filestore */
    {"look-ups", 256, 65536, 65536, RANDOM, make_store, look_up_many, check_nothing},
    /* the size: requests of 63 other transactions together */
    {"admitted-beside", LIVE, LIVE * LIST, LIVE * LIST, RISING, prepare_beside, admit, check_nothing},
    /* the size: blocks of the filestore */
    {"new", 16, 65536, 65536, RISING, check_nothing, make, check_nothing},
    {"free", 16, 65536, 65536, RISING, make_engine, free_engine, check_freed},
    /* the size: pieces of a file */
    {"put", 30, 7800, MOST_PIECES, RISING, fill_copy, put_image, check_image},
    {"append", 30, 3900, MOST_COPIED, RISING, prepare_append, step_list, check_appended},
    {"replace", 30, 3900, MOST_COPIED, RISING, prepare_replace, step_list, check_replaced},
    {"read-whole", 30, 7800, MOST_PIECES, RISING, deliver, read_whole, check_all},
    /* the size: requests of a list */
    {"take", 1, LIST, LIST, RISING, prepare_take, take_list, check_taken},
    {"take-long", 1, LIST, LIST, RISING, prepare_long_take, take_list, check_nothing},
    {"reply-text", 1, LIST, LIST, RISING, prepare_text, write_text, check_text},
    /* the size: responses of a Finished PDU */
    {"other", 1, MOST_RESPONSES, MOST_RESPONSES, RISING, prepare_other, receive_other, check_nothing},
    /* the size: other transactions with a list as long as the one that is admitted */
    {"long-list", 1, LIVE, LIVE, RISING, prepare_long, admit, check_nothing},
    {"long-list-falling", 1, LIVE, LIVE, FALLING, prepare_long, admit, check_nothing},
    {"long-list-one-hash", 1, LIVE, LIVE, ONE_HASH, prepare_long, admit, check_nothing},
    {"last-step", 1, LIVE, LIVE, RISING, prepare_last_step, step_list, check_done},
    {"cancel-list", 1, LIVE, LIVE, RISING, prepare_live, cancel_list, check_nothing},
    {"asks", 1, LIVE, LIVE, RISING, prepare_asks, ask, check_asks},
    {"free-live", 1, LIVE, LIVE, RISING, prepare_live, free_engine, check_gone},
    /* the size: requests of a list */
    {"nested-directories", 1, LIST, LIST, RISING, prepare_nest, admit, check_nothing},
    {"swapped-chains", 4, LIST, LIST, RISING, prepare_chains, admit, check_nothing},
    {"moved-chains", 4, LIST, LIST, RISING, prepare_moved_chains, admit, check_nothing},
    {"chosen-chains", 4, LIST, LIST, RISING, prepare_chosen_chains, admit, check_nothing},
    /* the size: other directories in each of six */
    {"other-directories", 4, LIST, LIST, RISING, prepare_other_directories, admit, check_nothing},
    /* the size: other transactions of a receiver */
    {"receiver-metadata", 1, LIVE, LIVE, RISING, prepare_heard_metadata, hear_one, check_receiver},
    {"receiver-data", 1, LIVE, LIVE, RISING, prepare_heard_data, hear_one, check_receiver},
    /* the size: octets of a PDU, beside 63 other transactions of a receiver */
    {"receiver-crc", 1000, 65000, 65000, RISING, prepare_heard_crc, hear_one, check_receiver},
    /* the size: responses of a Finished PDU */
    {"receiver-other", 1, MOST_RESPONSES - 1, MOST_RESPONSES - 1, RISING, prepare_heard_other, hear_other,
        check_receiver},
    /* the size: other transactions of a receiver */
    {"receiver-eof", 1, LIVE, LIVE, RISING, prepare_heard_eof, hear_one, check_receiver},
    {"receiver-ack", 1, LIVE, LIVE, RISING, prepare_heard_ack, hear_ack, check_receiver},
    {"receiver-expire", 1, LIVE, LIVE, RISING, prepare_expire, expire, check_receiver},
    {"receiver-deadline", 1, LIVE, LIVE, RISING, prepare_expire, ask_deadline, check_receiver},
    {"receiver-work", 1, LIVE, LIVE, RISING, prepare_work, work, check_receiver},
    {"receiver-finish", 1, LIVE, LIVE, RISING, prepare_finish, finish, check_receiver},
    {"receiver-write", 1, LIVE, LIVE, RISING, prepare_write, write_one, check_receiver},
    {"receiver-cancel", 1, LIVE, LIVE, RISING, prepare_receiver_cancel, cancel_heard, check_receiver},
    {"receiver-expire-limit", 1, LIVE, LIVE, RISING, prepare_receiver_cancel, expire_at_limit, check_receiver},
    {"receiver-forget", 1, LIVE, LIVE, RISING, prepare_write, forget, check_receiver},
    {"receiver-free", 1, LIVE, LIVE, RISING, prepare_receiver_cancel, free_receiver, check_gone},
    /* the size: blocks of the filestore */
    {"receiver-new", 16, 65536, 65536, RISING, make_engine, open_receiver, check_receiver},
    /* the size: lists */
    {"lists", 20, 2000, 100000, RISING, prepare_lists, run_lists, check_nothing},
};

/* All that is timed and counted. */
__attribute__((noinline)) uint32_t measured(const struct workload *workload, uint32_t size) {
    uint32_t calls = workload->work(size);
    note(calls);
    return calls;
}

/* Seconds of processor time. */
static double now(void) {
    struct timespec time;
    clock_gettime(CLOCK_PROCESS_CPUTIME_ID, &time);
    return (double)time.tv_sec + (double)time.tv_nsec / 1e9;
}

static void run(const struct workload *workload, uint32_t size) {
    running = workload->name;
    arrangement = workload->arrangement;
    digest = 0xcbf29ce484222325u;
    workload->prepare(size);
    double start = now();
    uint32_t calls = measured(workload, size);
    double seconds = now() - start;
    workload->check(size);
    if (cfdp_free(&engine) != CFDP_DONE) fail("not freed");
    printf("%s %" PRIu32 "%s: %" PRIu32 " calls, ", running, size, scattered ? " scattered" : "", calls);
    printf("digest %016" PRIx64 ", %.9f s\n", digest, seconds);
    fflush(stdout);
}

int main(int count, char **words) {
    bool least = count == 2 && strcmp(words[1], "least") == 0;
    scattered = count == 4 && strcmp(words[3], "scattered") == 0;
    bool one = count == 3 || scattered;
    unsigned long size = one ? strtoul(words[2], NULL, 10) : 0;
    int ran = 0;
    for (size_t i = 0; i < sizeof workloads / sizeof *workloads; i++) {
        const struct workload *workload = &workloads[i];
        if (count == 1 || least) {
            run(workload, least ? workload->least : workload->usual);
            ran++;
        } else if (one && strcmp(words[1], workload->name) == 0 && size >= workload->least && size <= workload->most) {
            run(workload, (uint32_t)size);
            ran++;
        }
    }
    if (ran == 0) fprintf(stderr, "usage: bench [least | NAME SIZE [scattered]]\n");
    return ran == 0 ? 2 : 0;
}
