/* How much memory an engine takes: of cfdp_new, of one Metadata PDU, and of 64 of them, in lists that take much. It has
 * the three allocation functions of its own, over malloc, and counts the octets that are asked for; what malloc adds
 * for itself is not counted.
 *
 * It fails if cfdp_new or cfdp_receiver_new takes another number of octets than the headers say; if a Metadata PDU
 * takes more than docs/C.md says, also one that is refused since it has too many requests and three whose lists rename
 * directories that have entries; if a rename of a directory takes more where that has more entries; or if anything is
 * kept after the last outcome was taken. */
#include "../../include/cfdp_receiver.h"
#include <inttypes.h>
#include <stdbool.h>
#include <stdio.h>
#include <stdlib.h>
#include <string.h>

static size_t in_use, most, blocks_in_use, asked; /* how often memory was asked for */
static char nothing;

/* A block has 16 octets before it for its size. */
static size_t *size_of(void *block) { return (size_t *)((unsigned char *)block - 16); }

static void count(size_t octets) {
    asked++;
    in_use += octets;
    if (in_use > most) most = in_use;
}

struct cfdp_block rattle_alloc(size_t octets, size_t align) {
    (void)align; /* it divides 16 */
    unsigned char *block = malloc(octets + 16);
    if (!block) return (struct cfdp_block){false, &nothing};
    *size_of(block + 16) = octets;
    blocks_in_use++;
    count(octets);
    return (struct cfdp_block){true, block + 16};
}

struct cfdp_block rattle_realloc(void *block, size_t kept, size_t octets, size_t align) {
    (void)kept, (void)align;
    size_t before = *size_of(block);
    unsigned char *moved = realloc(size_of(block), octets + 16);
    if (!moved) return (struct cfdp_block){false, block};
    *size_of(moved + 16) = octets;
    in_use -= before;
    count(octets);
    return (struct cfdp_block){true, moved + 16};
}

void rattle_dealloc(void *block) {
    in_use -= *size_of(block);
    blocks_in_use--;
    free(size_of(block));
}

enum { LIST = 64, TRANSACTIONS = 64, DEEPEST = 8 };

/* What a list of 64 requests asks for. No path of a request is at, above or below a path of another one, here or in
 * another list: the first name says whose it is. */
struct shape {
    const char *name;
    uint8_t action;          /* the action code, 4 bits */
    unsigned paths;          /* of a request: 1 or 2 */
    unsigned depth;          /* names of a path */
    unsigned octets[DEEPEST]; /* of each name, at least 5 of the first */
};

static const struct shape shapes[] = {
    {"denials of one short name", 0x70, 1, 1, {5}},
    {"denials of eight short names", 0x70, 1, 8, {5, 1, 1, 1, 1, 1, 1, 1}},
    {"denials of the longest paths, long names first", 0x70, 1, 8, {96, 96, 47, 1, 1, 1, 1, 1}},
    {"renames of one short name", 0x20, 2, 1, {5}},
    {"renames of eight short names", 0x20, 2, 8, {5, 1, 1, 1, 1, 1, 1, 1}},
    {"renames of the longest paths, long names first", 0x20, 2, 8, {96, 16, 1, 1, 1, 1, 1, 1}},
};

static uint8_t pdu[70000];
static size_t length;

static void put(const void *octets, size_t more) {
    memcpy(pdu + length, octets, more);
    length += more;
}

/* The first `depth` names of a path of a request. */
static struct cfdp_path path_of(
    const struct shape *shape, unsigned transaction, unsigned request, char which, unsigned depth) {
    struct cfdp_path path = {0};
    char *octets = (char *)path.octets;
    for (unsigned level = 0; level < depth; level++) {
        unsigned written = 0;
        if (level > 0) octets[path.length++] = '/';
        if (level == 0) written = (unsigned)sprintf(octets, "%c%02u%02u", which, transaction, request);
        memset(octets + path.length + written, 'x', shape->octets[level] - written);
        path.length += shape->octets[level];
    }
    return path;
}

static void put_path(const struct shape *shape, unsigned transaction, unsigned request, char which) {
    struct cfdp_path path = path_of(shape, transaction, request, which, shape->depth);
    uint8_t lv = (uint8_t)path.length;
    put(&lv, 1);
    put(path.octets, path.length);
}

/* The Metadata PDU of transaction 1/N, in unacknowledged mode, without a file. */
static void compose(const struct shape *shape, unsigned transaction) {
    uint8_t head[] = {0x24, 0, 0, 0x00, 0x01, (uint8_t)transaction, 0x02, 0x07, 0x40, 0, 0, 0, 0, 0, 0};
    length = 0;
    put(head, sizeof head);
    for (unsigned request = 0; request < LIST; request++) {
        size_t start = length;
        uint8_t tlv[] = {0x00, 0, shape->action};
        put(tlv, sizeof tlv);
        put_path(shape, transaction, request, 'a');
        if (shape->paths == 2) put_path(shape, transaction, request, 'b');
        pdu[start + 1] = (uint8_t)(length - start - 2);
    }
    pdu[1] = (uint8_t)((length - 7) >> 8);
    pdu[2] = (uint8_t)(length - 7);
}

/* The directories above a path exist, and a file at it where it is the first one of a rename. */
static bool prepare(
    struct cfdp_engine *engine, const struct shape *shape, unsigned transaction, unsigned request, char which) {
    bool right = true;
    for (unsigned depth = 1; depth < shape->depth; depth++) {
        struct cfdp_path path = path_of(shape, transaction, request, which, depth);
        right &= cfdp_put(engine, &path, CFDP_ENTRY_DIRECTORY, pdu, 0) == CFDP_ANSWER_DONE;
    }
    struct cfdp_path file = path_of(shape, transaction, request, which, shape->depth);
    if (which == 'a') right &= cfdp_put(engine, &file, CFDP_ENTRY_FILE, pdu, 0) == CFDP_ANSWER_DONE;
    return right;
}

/* Cancels a transaction and takes its outcome. */
static bool end(struct cfdp_engine *engine, unsigned transaction) {
    static uint8_t out[16488];
    struct cfdp_reply reply = {0};
    size_t octets;
    cfdp_cancel(engine, 1, transaction, &reply);
    return cfdp_take(engine, 1, transaction, out, sizeof out, &octets, &reply) == CFDP_ANSWER_DONE &&
        reply.kind == CFDP_REPLY_TAKEN;
}

static struct cfdp_engine engine = CFDP_ENGINE_EMPTY;

static bool make_engine(uint32_t blocks, size_t prefixes) {
    static const struct cfdp_path protected[] = {{.length = 4, .octets = "boot"}, {.length = 9, .octets = "keys/root"}};
    const struct cfdp_config config = {.entity = 2, .cap = 2400, .blocks = blocks, .checks = 2};
    return cfdp_new(&engine, &config, protected, prefixes) == CFDP_ANSWER_DONE;
}

/* The most that a Metadata PDU of this shape takes beside no others, as docs/C.md says: by its requests, by the paths
 * that they name and the directories above these, and by the octets of both. */
static size_t most_of(const struct shape *shape) {
    size_t requests = LIST, paths = LIST * shape->paths, above = 0, path = 0;
    for (unsigned level = 0; level < shape->depth; level++) {
        path += shape->octets[level] + (level > 0);
        above += path;
    }
    return 2000 + 150 * requests + 300 * paths * shape->depth + 2 * paths * above + 2 * paths * path;
}

/* Lists of a shape come until 64 transactions are live. Then each is cancelled and taken. */
static bool run(const struct shape *shape) {
    struct cfdp_reply reply = {0};
    bool right = make_engine(65536, 0);
    for (unsigned transaction = 0; transaction < TRANSACTIONS && shape->paths == 2; transaction++)
        for (unsigned request = 0; request < LIST; request++)
            right &= prepare(&engine, shape, transaction, request, 'a') &&
                prepare(&engine, shape, transaction, request, 'b');
    size_t before = in_use, blocks_before = blocks_in_use, one = 0, all = 0;
    for (unsigned transaction = 0; transaction < TRANSACTIONS; transaction++) {
        compose(shape, transaction);
        most = in_use;
        right &= cfdp_receive(&engine, pdu, length, &reply) == CFDP_ANSWER_DONE && reply.kind == CFDP_REPLY_ADMITTED;
        right &= most - before <= (transaction + 1) * most_of(shape);
        if (transaction == 0) one = most - before;
        if (most - before > all) all = most - before;
    }
    printf("64 %s, in a PDU of %zu octets: it takes %zu octets (at most %zu), and 64 take %zu\n", shape->name, length,
        one, most_of(shape), all);
    for (unsigned transaction = 0; transaction < TRANSACTIONS; transaction++) right &= end(&engine, transaction);
    right &= in_use == before && blocks_in_use == blocks_before; /* after the last take nothing is kept */
    return cfdp_free(&engine) == CFDP_ANSWER_DONE && in_use == 0 && blocks_in_use == 0 && right;
}

/* A list in directories that have entries, each in the one before it: it renames files in each of them, and for each
 * seven of these the first directory, there and back. */
enum { NESTED = 7, FILES = 40 };

/* The path of a directory, whose first name is `first`, and of a file in it, if a letter of files is given. */
static struct cfdp_path nested(char first, unsigned directories, char letter, unsigned file) {
    struct cfdp_path path = {0};
    char *octets = (char *)path.octets;
    for (unsigned level = 0; level < directories; level++) {
        int name = level ? '0' + (int)level : first;
        path.length += (uint32_t)sprintf(octets + path.length, "%s%c", level ? "/" : "", name);
    }
    if (letter) path.length += (uint32_t)sprintf(octets + path.length, "/%c%02u", letter, file);
    return path;
}

/* What the formula adds for a path: 300 octets for it and for each directory above it, and twice their octets. */
static size_t most_of_path(const struct cfdp_path *path) {
    size_t octets = 0;
    for (size_t end = 1; end <= path->length; end++)
        if (end == path->length || path->octets[end] == '/') octets += 300 + 2 * end;
    return octets;
}

/* Adds the rename, and returns what the formula adds for it. */
static size_t put_rename(const struct cfdp_path *from, const struct cfdp_path *to) {
    uint8_t tlv[] = {0x00, (uint8_t)(3 + from->length + to->length), 0x20, (uint8_t)from->length};
    uint8_t lv = (uint8_t)to->length;
    put(tlv, sizeof tlv);
    put(from->octets, from->length);
    put(&lv, 1);
    put(to->octets, to->length);
    return 150 + most_of_path(from) + most_of_path(to) + 2 * (from->length + to->length);
}

/* The Metadata PDU of a list of transaction 1/1 begins. */
static void begin_list(void) {
    static const uint8_t head[] = {0x24, 0, 0, 0x00, 0x01, 1, 0x02, 0x07, 0x40, 0, 0, 0, 0, 0, 0};
    length = 0;
    put(head, sizeof head);
}

/* It ends: its header has its length. */
static void end_list(void) {
    pdu[1] = (uint8_t)((length - 7) >> 8);
    pdu[2] = (uint8_t)(length - 7);
}

static bool run_nested(void) {
    struct cfdp_reply reply = {0};
    bool right = make_engine(65536, 0);
    for (unsigned directory = 1; directory <= NESTED; directory++) {
        struct cfdp_path path = nested('d', directory, 0, 0);
        right &= cfdp_put(&engine, &path, CFDP_ENTRY_DIRECTORY, pdu, 0) == CFDP_ANSWER_DONE;
        for (unsigned file = 0; file < FILES; file++) {
            path = nested('d', directory, 'f', file);
            right &= cfdp_put(&engine, &path, CFDP_ENTRY_FILE, pdu, 0) == CFDP_ANSWER_DONE;
        }
    }
    size_t before = in_use, blocks_before = blocks_in_use, bound = 2000;
    begin_list();
    for (unsigned request = 0; request < LIST; request++) {
        unsigned file = request / (NESTED + 1), directories = 1 + request % (NESTED + 1);
        char now = file % 2 ? 'e' : 'd', then = file % 2 ? 'd' : 'e';
        bool moves = directories > NESTED;
        struct cfdp_path from = moves ? nested(now, 1, 0, 0) : nested(now, directories, 'f', file);
        struct cfdp_path to = moves ? nested(then, 1, 0, 0) : nested(now, directories, 'g', file);
        bound += put_rename(&from, &to);
    }
    end_list();
    most = in_use;
    right &= cfdp_receive(&engine, pdu, length, &reply) == CFDP_ANSWER_DONE && reply.kind == CFDP_REPLY_ADMITTED;
    right &= most - before <= bound;
    printf("64 renames of directories with entries and of files in them, in a PDU of %zu octets: it takes %zu octets"
        " (at most %zu)\n", length, most - before, bound);
    right &= end(&engine, 1) && in_use == before && blocks_in_use == blocks_before;
    return cfdp_free(&engine) == CFDP_ANSWER_DONE && in_use == 0 && blocks_in_use == 0 && right;
}

static bool put_entry(struct cfdp_path path, enum cfdp_entry_kind kind) {
    return cfdp_put(&engine, &path, kind, pdu, 0) == CFDP_ANSWER_DONE;
}

/* Directories `a` and `b` with the same directories, each with another one in it, and with entries that go as deep as
 * paths may. A list moves the second to where the first was, and there moves the directory in each second one of these
 * into the next. So the view of the list has its paths by their names, and a made-up path for each directory. */
enum { INNER = 2 * (LIST - 2) };

/* The path of a directory in `a` or `b` (`top`), or of what is in it. */
static struct cfdp_path inner(char top, unsigned directory, const char *names) {
    struct cfdp_path path = {0};
    path.length = (uint32_t)sprintf((char *)path.octets, "%c/%03u%s", top, directory, names);
    return path;
}

/* It exists, with `depth` names, and directories below it, each in the one before it, until paths have eight names. */
static bool put_deep(struct cfdp_path path, unsigned depth) {
    bool right = put_entry(path, CFDP_ENTRY_DIRECTORY);
    for (; depth < DEEPEST; depth++) {
        path.octets[path.length++] = '/';
        path.octets[path.length++] = '0';
        right &= put_entry(path, CFDP_ENTRY_DIRECTORY);
    }
    return right;
}

/* Adds the requests, and returns the octets of their names. */
static size_t put_hidden(void) {
    const struct cfdp_path a = {.length = 1, .octets = "a"}, b = {.length = 1, .octets = "b"};
    const struct cfdp_path c = {.length = 1, .octets = "c"};
    size_t names = 4;
    put_rename(&a, &c);
    put_rename(&b, &a);
    for (unsigned directory = 0; directory < INNER; directory += 2) {
        struct cfdp_path from = inner('a', directory, "/y"), to = inner('a', directory + 1, "/z");
        names += from.length + to.length;
        put_rename(&from, &to);
    }
    return names;
}

static bool run_hidden(void) {
    const struct cfdp_path tops[] = {{.length = 1, .octets = "a"}, {.length = 1, .octets = "b"}};
    struct cfdp_reply reply = {0};
    bool right = make_engine(65536, 0) && put_entry(tops[0], CFDP_ENTRY_DIRECTORY);
    right &= put_entry(tops[1], CFDP_ENTRY_DIRECTORY);
    for (unsigned directory = 0; directory < INNER; directory++) {
        for (char top = 'a'; top <= 'b'; top++) {
            right &= put_deep(inner(top, directory, ""), 2);
            if (directory % 2 == 0) right &= put_deep(inner(top, directory, "/y"), 3);
        }
    }
    size_t before = in_use, blocks_before = blocks_in_use;
    begin_list();
    size_t names = put_hidden();
    end_list();
    /* It names three directories of one name, and one path in each of those in `a`. */
    size_t path = inner('a', 0, "").length, leaf = inner('a', 0, "/y").length;
    size_t kept = 2000 + 150 * LIST + 2 * names + 3 * (300 + 2) + INNER * (2 * 300 + 2 * (path + leaf));
    /* It sees the same in `b`. The directories in both, and half of the paths in these, have entries that it does not
     * name. */
    size_t judged = 4000 + 3 * (480 + 4) + 2 * INNER * (2 * 480 + 4 * (path + leaf)) + 600 * (2 * INNER + INNER);
    most = in_use;
    right &= cfdp_receive(&engine, pdu, length, &reply) == CFDP_ANSWER_DONE && reply.kind == CFDP_REPLY_ADMITTED;
    right &= most - before <= kept + judged && in_use - before <= kept;
    printf("64 renames of and in two directories with hidden paths of eight names, in a PDU of %zu octets: it takes %zu"
        " octets (at most %zu), and keeps %zu (at most %zu)\n", length, most - before, kept + judged, in_use - before,
        kept);
    right &= end(&engine, 1) && in_use == before && blocks_in_use == blocks_before;
    return cfdp_free(&engine) == CFDP_ANSWER_DONE && in_use == 0 && blocks_in_use == 0 && right;
}

/* A list that moves a directory to where another one was, renames files there, and moves it to a longer path. Both
 * directories have the same chains of directories, so that each path that the list names existed under another name
 * before it. No other list is known that takes as much until it is admitted. */
enum { RENAMED = LIST - 3, CHAINS = 2 * RENAMED, CHAIN = 5, LONG_NAME = 96 };

/* The path of a directory of a chain, or of a file in it; without directories, of the directory with all chains. That
 * has the name `a`, or two long names, of which the first ends with `top`. */
static struct cfdp_path chained(char top, unsigned chain, unsigned directories, const char *file) {
    struct cfdp_path path = {0};
    char *octets = (char *)path.octets;
    if (top == 'a') {
        octets[path.length++] = top;
    } else {
        memset(octets, 'x', 2 * LONG_NAME + 1);
        octets[LONG_NAME - 1] = top;
        octets[LONG_NAME] = '/';
        path.length = 2 * LONG_NAME + 1;
    }
    if (directories) {
        octets[path.length] = '/';
        memset(octets + path.length + 1, 'z', LONG_NAME);
        path.length += 1 + LONG_NAME;
        octets[path.length - 1] = (char)('0' + chain);
    }
    for (unsigned level = 1; level < directories; level++)
        path.length += (uint32_t)sprintf(octets + path.length, "/0");
    path.length += (uint32_t)sprintf(octets + path.length, "%s", file);
    return path;
}

/* A directory with a long name exists, in which the one of two names can be. */
static bool put_above(char top) {
    struct cfdp_path path = chained(top, 0, 0, "");
    path.length = LONG_NAME;
    return put_entry(path, CFDP_ENTRY_DIRECTORY);
}

/* A directory with chains exists, and in each directory a file that the list does not name. */
static bool put_chains(char top) {
    bool right = put_entry(chained(top, 0, 0, ""), CFDP_ENTRY_DIRECTORY);
    right &= put_entry(chained(top, 0, 0, "/~~"), CFDP_ENTRY_FILE);
    for (unsigned chain = 0; chain < CHAINS; chain++) {
        for (unsigned directories = 1; directories <= CHAIN; directories++) {
            right &= put_entry(chained(top, chain, directories, ""), CFDP_ENTRY_DIRECTORY);
            right &= put_entry(chained(top, chain, directories, "/zz"), CFDP_ENTRY_FILE);
        }
        if (top == 'b' && chain % 2 == 0) right &= put_entry(chained(top, chain, CHAIN, "/y"), CFDP_ENTRY_FILE);
    }
    return right;
}

/* The sum over the paths of the chains, and of a file in each: `each`, and `times` times the octets of the path. */
static size_t sum_of_chains(char top, size_t each, size_t times) {
    size_t octets = 0;
    for (unsigned chain = 0; chain < CHAINS; chain++) {
        for (unsigned directories = 1; directories <= CHAIN; directories++)
            octets += each + times * chained(top, chain, directories, "").length;
        octets += each + times * chained(top, chain, CHAIN, "/y").length;
    }
    return octets;
}

/* Adds the requests, and returns the octets of their names. */
static size_t put_swap(void) {
    struct cfdp_path a = chained('a', 0, 0, ""), b = chained('b', 0, 0, "");
    struct cfdp_path c = chained('c', 0, 0, ""), d = chained('d', 0, 0, "");
    size_t names = 3 * a.length + b.length + c.length + d.length;
    put_rename(&a, &c);
    put_rename(&b, &a);
    for (unsigned chain = 0; chain < CHAINS; chain += 2) {
        struct cfdp_path from = chained('a', chain, CHAIN, "/y"), to = chained('a', chain + 1, CHAIN, "/y");
        names += from.length + to.length;
        put_rename(&from, &to);
    }
    put_rename(&a, &d);
    return names;
}

static bool run_swap(void) {
    struct cfdp_reply reply = {0};
    bool right = make_engine(65536, 0) && put_above('b') && put_above('c') && put_above('d');
    right &= put_chains('a') && put_chains('b');
    size_t before = in_use, blocks_before = blocks_in_use;
    begin_list();
    size_t names = put_swap();
    end_list();
    size_t tops = 3 * (LONG_NAME + 2 * LONG_NAME + 1) + 1; /* the octets of the other paths, of which there are 7 */
    size_t kept = 2000 + 150 * LIST + 2 * names + 7 * 300 + 2 * tops + sum_of_chains('a', 300, 2);
    size_t judged = 2 * sum_of_chains('d', 480, 4) + 7 * 480 + 4 * tops;
    most = in_use;
    right &= cfdp_receive(&engine, pdu, length, &reply) == CFDP_ANSWER_DONE && reply.kind == CFDP_REPLY_ADMITTED;
    right &= most - before <= kept + judged && in_use - before <= kept;
    printf("64 renames of and in two directories with the same chains, in a PDU of %zu octets: it takes %zu octets"
        " (at most %zu), and keeps %zu (at most %zu)\n", length, most - before, kept + judged, in_use - before, kept);
    right &= end(&engine, 1) && in_use == before && blocks_in_use == blocks_before;
    return cfdp_free(&engine) == CFDP_ANSWER_DONE && in_use == 0 && blocks_in_use == 0 && right;
}

/* Transactions without a file or a list come and go in no order, at most `most_known` at once. */
enum { FEW = 32, COMINGS = 20000, NUMBERS = 256 };

/* The transaction with this number comes. */
static bool come(unsigned number) {
    struct cfdp_reply reply = {0};
    begin_list();
    end_list();
    pdu[5] = (uint8_t)number;
    return cfdp_receive(&engine, pdu, length, &reply) == CFDP_ANSWER_DONE && reply.kind == CFDP_REPLY_ADMITTED;
}

static bool come_and_go(unsigned most_known) {
    static bool known[NUMBERS];
    bool right = make_engine(64, 0);
    size_t before = in_use;
    uint32_t random = 1;
    unsigned count = 0;
    for (unsigned i = 0; i < COMINGS + NUMBERS; i++) {
        random = random * 1664525u + 1013904223u;
        unsigned number = i < COMINGS ? random >> 24 : i - COMINGS; /* in the end all that are known go */
        bool comes = !known[number] && count < most_known && i < COMINGS;
        if (!comes && !known[number]) continue;
        right &= comes ? come(number) : end(&engine, number);
        known[number] = comes;
        count += comes ? 1 : -1u;
    }
    right &= in_use == before;
    printf("%d times a transaction comes or goes, with at most %u known: %zu octets are kept\n", COMINGS, most_known,
        in_use - before);
    return cfdp_free(&engine) == CFDP_ANSWER_DONE && in_use == 0 && blocks_in_use == 0 && right;
}

/* A rename of a directory takes as many blocks and octets whatever the number of its entries. */
enum { FEW_ENTRIES = 1024, MANY_ENTRIES = 60000 };

static bool run_move(uint32_t entries, size_t *blocks, size_t *octets) {
    static const struct cfdp_path from = {.length = 1, .octets = "d"}, to = {.length = 1, .octets = "e"};
    struct cfdp_reply reply = {0};
    bool right = make_engine(65536, 0) && put_entry(from, CFDP_ENTRY_DIRECTORY);
    for (uint32_t entry = 0; entry < entries; entry++) {
        struct cfdp_path path = {0};
        path.length = (uint32_t)sprintf((char *)path.octets, "d/%05" PRIu32, entry);
        right &= put_entry(path, CFDP_ENTRY_FILE);
    }
    size_t before = in_use, asked_before = asked;
    begin_list();
    put_rename(&from, &to);
    end_list();
    most = in_use;
    right &= cfdp_receive(&engine, pdu, length, &reply) == CFDP_ANSWER_DONE && reply.kind == CFDP_REPLY_ADMITTED;
    *blocks = asked - asked_before;
    *octets = most - before;
    printf("a rename of a directory of %" PRIu32 " files: it asks for memory %zu times, and takes %zu octets\n",
        entries, *blocks, *octets);
    right &= end(&engine, 1) && in_use == before;
    return cfdp_free(&engine) == CFDP_ANSWER_DONE && in_use == 0 && blocks_in_use == 0 && right;
}

static bool run_moves(void) {
    size_t blocks[2], octets[2];
    bool right = run_move(FEW_ENTRIES, &blocks[0], &octets[0]) && run_move(MANY_ENTRIES, &blocks[1], &octets[1]);
    return right && blocks[0] == blocks[1] && octets[0] == octets[1];
}

/* The most that a list of too many requests takes until it is refused: 40 octets for each request, of which a PDU has
 * at most 16,381, and nothing for a name of no octets. */
enum { MOST_REQUESTS = 16381, MOST_REFUSED = 40 * MOST_REQUESTS };

/* A list of as many requests as a PDU has room for comes, and is refused. */
static bool refuse(void) {
    static const uint8_t denial[] = {0x00, 2, 0x70, 0};
    struct cfdp_reply reply = {0};
    bool right = make_engine(64, 0);
    size_t before = in_use, blocks_before = blocks_in_use;
    begin_list();
    for (unsigned request = 0; request < MOST_REQUESTS; request++) put(denial, sizeof denial);
    end_list();
    most = in_use;
    right &= cfdp_receive(&engine, pdu, length, &reply) == CFDP_ANSWER_DONE && reply.kind == CFDP_REPLY_REFUSED;
    right &= most - before <= MOST_REFUSED && in_use == before && blocks_in_use == blocks_before;
    printf("%d requests, in a PDU of %zu octets: it takes %zu octets (at most %d), and nothing once it is refused\n",
        MOST_REQUESTS, length, most - before, MOST_REFUSED);
    return cfdp_free(&engine) == CFDP_ANSWER_DONE && in_use == 0 && blocks_in_use == 0 && right;
}

/* What cfdp_new takes, without and with two prefixes of 13 octets together. */
static bool measure(uint32_t blocks) {
    bool right = make_engine(blocks, 0) && in_use == CFDP_NEW_OCTETS(blocks);
    printf("cfdp_new with %" PRIu32 " blocks takes %zu octets", blocks, in_use);
    right &= cfdp_free(&engine) == CFDP_ANSWER_DONE && in_use == 0 && blocks_in_use == 0;
    right &= make_engine(blocks, 2) && in_use == CFDP_NEW_OCTETS(blocks) + 13;
    printf(", and with two prefixes %zu\n", in_use);
    return cfdp_free(&engine) == CFDP_ANSWER_DONE && in_use == 0 && blocks_in_use == 0 && right;
}

/* What cfdp_receiver_new takes over an engine. */
static bool measure_receiver(uint32_t blocks, uint32_t longest_nak) {
    const struct cfdp_mib mib = {.ack_interval = 1, .ack_limit = 1, .ack_handler = CFDP_HANDLER_CANCEL,
        .nak_interval = 1, .nak_limit = 1, .nak_handler = CFDP_HANDLER_CANCEL, .check_interval = 1,
        .check_handler = CFDP_HANDLER_CANCEL, .inactivity_interval = 1, .inactivity_handler = CFDP_HANDLER_CANCEL,
        .nak_mode = CFDP_NAK_DEFERRED, .longest_nak = longest_nak};
    struct cfdp_receiver receiver = CFDP_RECEIVER_EMPTY;
    bool right = make_engine(blocks, 0);
    size_t before = in_use;
    right &= cfdp_receiver_new(&receiver, &engine, &mib) == CFDP_ANSWER_DONE;
    right &= in_use - before == CFDP_RECEIVER_NEW_OCTETS;
    printf("cfdp_receiver_new over %" PRIu32 " blocks takes %zu octets\n", blocks, in_use - before);
    return cfdp_receiver_free(&receiver) == CFDP_ANSWER_DONE && in_use == 0 && blocks_in_use == 0 && right;
}

/* Adds the denial of a file whose path has one name: eight letters and the octets for which paths have one hash, or
 * others. */
static void put_denial(char letter, const char *tail) {
    uint8_t tlv[] = {0x00, 18, 0x70, 16}, octets[16];
    memset(octets, letter, 8);
    memcpy(octets + 8, tail, 8);
    put(tlv, sizeof tlv);
    put(octets, sizeof octets);
}

/* A list comes that denies two such files, beside another transaction, and goes. */
static bool come_with_pair(const char *tail) {
    struct cfdp_reply reply = {0};
    begin_list();
    put_denial('a', tail);
    put_denial('b', tail);
    end_list();
    pdu[5] = 2;
    return cfdp_receive(&engine, pdu, length, &reply) == CFDP_ANSWER_DONE && reply.kind == CFDP_REPLY_ADMITTED &&
        end(&engine, 2);
}

/* Two leased paths of one hash are kept in a map of their own. It is gone with their leases. */
static bool run_one_hash(void) {
    bool right = make_engine(64, 0) && come(1) && come_with_pair("other..1");
    size_t before = in_use;
    right &= come_with_pair("\x15\x7c\x4a\x7f\xb9\x79\x37\x9e");
    right &= in_use == before;
    printf("two paths of one hash, leased and given back beside another transaction: %zu octets are kept\n",
        in_use - before);
    right &= end(&engine, 1);
    return cfdp_free(&engine) == CFDP_ANSWER_DONE && in_use == 0 && blocks_in_use == 0 && right;
}

int main(void) {
    static const uint32_t filestores[] = {16, 64, 256, 257, 4096, 65536};
    bool right = true;
    for (size_t i = 0; i < sizeof filestores / sizeof *filestores; i++) right &= measure(filestores[i]);
    right &= measure_receiver(16, 72) && measure_receiver(65536, 65535);
    for (size_t i = 0; i < sizeof shapes / sizeof *shapes; i++) right &= run(&shapes[i]);
    right &= run_nested();
    right &= run_hidden();
    right &= run_swap();
    right &= refuse();
    right &= run_moves();
    right &= run_one_hash();
    right &= come_and_go(FEW) && come_and_go(TRANSACTIONS);
    puts(right ? "nothing is kept after the last take" : "wrong");
    return !right;
}
