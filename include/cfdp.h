/* The receiving side of the CCSDS File Delivery Protocol (CFDP, CCSDS 727.0-B-5) as a C library.
 *
 * A receiving entity is fed the octets of PDUs and a few events of its own. To each it has one reply, and it keeps
 * files and directories in a filestore of its own, in memory. Each function has a contract that is proved; docs/C.md
 * says what that covers, what is trusted, and how to link it. This header has the entity without timers (Class 1,
 * and what Class 2 does with the same PDUs). `cfdp_receiver.h` adds acknowledged mode: timers, the PDUs to send, and
 * indications.
 *
 * THE CALLER PROMISES
 *  - A `struct cfdp_engine` begins as CFDP_ENGINE_EMPTY, and is then only passed to these functions: it is not
 *    copied, written or given up while it has an engine (call cfdp_free first, or the engine's memory is lost).
 *  - A pointer may be NULL only where the length beside it is 0. An `engine` points to a struct as above, another
 *    pointer to as many objects as the length beside it says, which are initialised and, where it is not const, may
 *    be written. What may be written overlaps nothing else that is passed. Lengths are below 2^63.
 *  - One call at a time uses an engine. It may come from any thread, in an order that a lock, a start or a join
 *    makes sure of. No call comes from a signal handler, nor from the forked child of a process with threads. No
 *    `engine` is const, also where nothing of it changes: the library takes the engine out of the struct for the
 *    time of the call.
 *  - Enumerations have 32 bits (no -fshort-enums).
 *
 * MEMORY comes from rattle_alloc, rattle_realloc and rattle_dealloc (below, and docs/C.md). It is asked for by
 * cfdp_new, by cfdp_put, by cfdp_receive for a Metadata PDU alone, and by cfdp_reply_text, which uses no engine; by
 * nothing else. So no file that arrives, no request that is performed, no outcome that is taken and no look at the
 * filestore takes memory. cfdp_new asks for CFDP_NEW_OCTETS octets, and for those of the prefixes. The transactions
 * that are known keep together at most the sum of this, for each: 2000 octets; 150 for each request; 300 for each
 * path, and twice its octets; and twice the octets of the names in the Metadata PDU. The paths are those of the
 * requests and of the destination, and each directory above one of them. That is at most 600000 octets for a
 * transaction, and 38400000 for 64 of them.
 * While cfdp_receive judges a Metadata PDU with more than 64 filestore requests it also takes, and gives back, 40
 * octets for each of them. A list that changes directories with entries, and names paths in them, takes more until it
 * is judged: up to 480 octets for each path that it sees, four times the octets of that path, and 600 for a directory
 * that it moves (docs/C.md). So a Metadata PDU takes at most 5200000 octets. The most that we know of is 687498.
 * After the last cfdp_take nothing is kept but what cfdp_new took. examples/c/memory.c counts it.
 *
 * THE LONGEST CALLS that we know on a full filestore of 65536 blocks, in millions of instructions, rounded up.
 * docs/C.md has the longest case of each call.
 *   cfdp_receive, Metadata:   44  (64 renames of and in two directories that hold the same 124 chains of
 *                                 directories)
 *   cfdp_receive, Metadata:   26  (the same with 100 chains, whose names a sender chose; 12 more renames move one of
 *                                 the two)
 *   cfdp_receive, Metadata:   19  (the same with 84 chains; 20 more renames move one of the two)
 *   cfdp_receive, Metadata:   11  (64 renames of long paths with names of one hash, beside 63 such lists)
 *   cfdp_receive, Metadata:  8.1  (64 renames of long paths in falling path order, beside 63 such lists)
 *   cfdp_receive, Metadata:  3.6  (63 files beside 30000 directories with a file each, and a rename of the directory
 *                                 that has them)
 *   cfdp_receive, Metadata:  3.0  (64 renames of a directory of 65000 entries)
 *   cfdp_receive, Metadata:  2.6  (a file for each of six directories, each in the one before it, and a rename of
 *                                 the first; 60000 files are in the last one)
 *   cfdp_receive, File Data: 3.1  (the end of a file of 7.8 MB of which nothing came)
 *   cfdp_free:                27  (64 lists of 64 renames of long paths are live)
 *   cfdp_step:                11  (an append of 3.9 MB)
 *   cfdp_put:                8.2  (a file of 7.8 MB)
 *   cfdp_read:               2.8  (a file of 7.8 MB)
 *   cfdp_cancel:             1.7  (a list of 64 renames of long paths, beside 63 such lists; as much for each other
 *                                 call by which such a list ends)
 *   cfdp_new:                1.6  (65536 blocks)
 *   cfdp_receive, another:  0.92  (a Finished PDU with 13106 responses)
 *   cfdp_reply_text:        0.24  (the longest Finished PDU)
 *   any other call: less than 0.1
 *
 * NAMES begin with cfdp_ or CFDP_, and those of an enumeration say which one. Other CFDP packages use some of the
 * short names that came before, such as CFDP_DONE. They are macros at the end of this header until version 0.2.0;
 * define CFDP_NO_SHORT_NAMES before it to be without them. */
#ifndef CFDP_H
#define CFDP_H

#include <stdbool.h>
#include <stddef.h>
#include <stdint.h>
#include <string.h>

/* The version of this header and of the library. `.ci/header` compares the program's with it. */
#define CFDP_VERSION "0.1.0"

#ifdef __cplusplus
extern "C" {
#endif

/* Room for one engine. */
struct cfdp_engine {
    uint32_t mark;
    void *at;
};
#define CFDP_ENGINE_EMPTY {0, NULL}

/* The octets that cfdp_new asks for, without those of the prefixes. */
#define CFDP_NEW_OCTETS(blocks) ((size_t)128504 + (size_t)152 * (blocks))

/* What a call returns. After any answer other than CFDP_ANSWER_DONE the engine and all that is passed are as before,
 * but for the lengths that the call's text names; and but for cfdp_receiver_new, which frees the engine at
 * CFDP_ANSWER_NO_MEMORY. */
enum cfdp_answer {
    CFDP_ANSWER_DONE = 0,
    CFDP_ANSWER_NO_ENGINE = 1,          /* there is no engine, or no receiver: it was not made, or was freed */
    CFDP_ANSWER_HAS_ENGINE = 2,         /* there is an engine, or a receiver, already */
    CFDP_ANSWER_NO_MEMORY = 3,          /* out of memory; the same call can be made again */
    CFDP_ANSWER_TOO_SHORT = 4,          /* what was asked for does not fit in the buffer */
    CFDP_ANSWER_NOTHING = 5,            /* there is no such thing */
    CFDP_ANSWER_BAD_PATH = 6,           /* the octets of a path spell none */
    CFDP_ANSWER_HAS_TRANSACTIONS = 7,   /* a transaction is known, so that nothing can be put into the filestore */
    CFDP_ANSWER_EXISTS = 8,             /* something exists at the path */
    CFDP_ANSWER_NO_PARENT = 9,          /* the path's parent does not exist, or is a file */
    CFDP_ANSWER_FILESTORE_FULL = 10,    /* the filestore has too few free blocks */
    CFDP_ANSWER_BAD_BLOCKS = 16,        /* the filestore has not 16 to 65536 blocks */
    CFDP_ANSWER_BAD_CAP = 17,           /* the cap is above 7864320 octets */
    CFDP_ANSWER_BAD_CHECKS = 18,        /* the check limit is not 1 to 1000 */
    CFDP_ANSWER_TOO_MANY_PREFIXES = 20, /* more than 8 prefixes are to be protected */
    CFDP_ANSWER_BAD_HANDLER = 21,       /* no fault handler has this number */
    CFDP_ANSWER_BAD_NAK_MODE = 22,      /* no mode of asking for lost segments has this number */
    CFDP_ANSWER_BAD_INTERVAL = 23,      /* an interval is 0 */
    CFDP_ANSWER_BAD_LIMIT = 24,         /* a limit is not 1 to 1000 */
    CFDP_ANSWER_BAD_LONGEST_NAK = 25,   /* the longest NAK PDU has not 72 to 65535 octets */
    CFDP_ANSWER_NOT_OURS = 32,          /* the PDU is not for the receiver of a file */
    CFDP_ANSWER_TRUNCATED = 33,         /* the octets end before the PDU does */
    CFDP_ANSWER_BAD_VERSION = 34,       /* the version is not 001 */
    CFDP_ANSWER_CRC_NOT_SUPPORTED = 35, /* the PDU says that it has a CRC */
    CFDP_ANSWER_LENGTH_MISMATCH = 36,   /* octets come after the data field, or it is shorter than its fixed part */
    CFDP_ANSWER_BAD_DIRECTIVE = 37,     /* no directive has this code */
    CFDP_ANSWER_BAD_TLV = 38,           /* a TLV field is cut, or its value is not what its type asks for */
    CFDP_ANSWER_REQUEST_TOO_LONG = 39,  /* a filestore request has a value of 255 octets, which no response can
                                         * repeat */
    CFDP_ANSWER_BAD_CRC = 40            /* the CRC of the PDU is wrong; cfdp_receiver_receive alone answers it */
};

/* The library knows an enumeration as a number of 32 bits. */
typedef char cfdp_enum_has_32_bits[sizeof(enum cfdp_answer) == sizeof(uint32_t) ? 1 : -1];

/* What the management information base (CCSDS 727.0-B-5 section 8) says of the entity. */
struct cfdp_config {
    uint64_t entity;    /* its entity ID */
    uint64_t cap;       /* how many octets a file of unbounded size may have: at most 7864320 */
    uint32_t blocks;    /* of 128 octets, in the filestore: 16 to 65536 */
    uint32_t checks;    /* how often a check timer may expire (timer procedures): 1 to 1000 */
};

/* The octets that spell a path of the filestore: 1 to 8 names of 1 to 96 octets with '/' between them, and no 0. */
struct cfdp_path {
    uint32_t length;        /* how many of the octets spell it, at most 776 */
    uint8_t octets[776];
};

/* Which reply it is, and the numbers that it brings beside the transaction. */
enum cfdp_reply_kind {
    CFDP_REPLY_NONE = 0,        /* in a report of a receiver: the entity was not asked */
    CFDP_REPLY_ADMITTED = 1,    /* the transaction begins; blocks, steps: what is granted to it */
    CFDP_REPLY_REFUSED = 2,     /* its list of filestore requests is refused; refusal, and what that brings */
    CFDP_REPLY_STORED = 3,      /* file data was kept; or there was none */
    CFDP_REPLY_DROPPED = 4,     /* file data was passed over: it would lie in more than 32 separate pieces */
    CFDP_REPLY_COMPLETE = 5,    /* the file is there with the right checksum, and its items are performed next, by
                                 * cfdp_step */
    CFDP_REPLY_WAITING = 6,     /* octets are missing */
    CFDP_REPLY_FAULTED = 7,     /* the transaction ended; condition: its condition code */
    CFDP_REPLY_PERFORMED = 8,   /* a filestore request was performed; status */
    CFDP_REPLY_INSTALLED = 9,   /* the file was installed at its destination */
    CFDP_REPLY_FINISHED = 10,   /* the transaction is done; it had no items */
    CFDP_REPLY_CANCELLED = 11,  /* the transaction was cancelled */
    CFDP_REPLY_TAKEN = 12,      /* its outcome was handed out, and it is forgotten; condition: its condition code */
    CFDP_REPLY_DUPLICATE = 13,  /* the PDU came before */
    CFDP_REPLY_UNKNOWN = 14,    /* there is no such transaction */
    CFDP_REPLY_IDLE = 15,       /* there is nothing to do for the event in the transaction's phase */
    CFDP_REPLY_NOT_FOR_US = 16, /* the PDU is for another entity */
    CFDP_REPLY_TABLE_FULL = 17  /* there are 64 transactions */
};

/* Why a list of filestore requests is refused, in the order in which it is judged, and the numbers that it brings. */
enum cfdp_refusal {
    CFDP_REFUSAL_NONE = 0,                    /* it is not refused */
    CFDP_REFUSAL_TOO_MANY_REQUESTS = 1,       /* there are more than 64 */
    CFDP_REFUSAL_BAD_DESTINATION = 2,         /* the file's destination is no path */
    CFDP_REFUSAL_BAD_REQUEST_PATH = 3,        /* a name of a request is no path; request: which */
    CFDP_REFUSAL_CONFLICT = 4,                /* a transaction's leased paths are in the way; other_source,
                                               * other_number: whose */
    CFDP_REFUSAL_DESTINATION_NOT_ALLOWED = 5, /* the file can't be installed at its destination */
    CFDP_REFUSAL_WOULD_FAIL = 6,              /* the requests before it are successful, and one would fail; request,
                                               * status */
    CFDP_REFUSAL_TOO_LONG = 7,                /* the list may take more than 65536 steps; steps: how many */
    CFDP_REFUSAL_NO_ROOM = 8                  /* the list may take more blocks than are to spare; blocks: how many,
                                               * spare */
};

/* A reply. A number that its kind has no use for is 0. */
struct cfdp_reply {
    enum cfdp_reply_kind kind;
    enum cfdp_refusal refusal;
    uint32_t blocks;
    uint32_t steps;
    uint32_t spare;
    uint32_t request;       /* the number of a request in its list, from 0 */
    uint32_t status;        /* the first octet of a filestore response (5.4.2): action code, status code */
    uint32_t condition;     /* a condition code (5.2.2) */
    uint64_t source;        /* the transaction that the reply is about: its source entity ID */
    uint64_t number;        /* and its transaction sequence number */
    uint64_t other_source;
    uint64_t other_number;
};

/* A directory or a file of the filestore. */
enum cfdp_entry_kind {
    CFDP_ENTRY_FILE = 1,
    CFDP_ENTRY_DIRECTORY = 2
};

/* Makes an engine in an empty `struct cfdp_engine`: an entity of this configuration over an empty filestore
 * (cfdp_put fills it), in which what exists at or below one of the prefixes is neither changed nor removed by a
 * request. `count` is at most 8. Returns CFDP_ANSWER_DONE, CFDP_ANSWER_HAS_ENGINE, CFDP_ANSWER_NO_MEMORY, or the
 * first fault: a prefix in its order, and then blocks, cap, checks. Cost: 24 octets are set for each block. */
enum cfdp_answer cfdp_new(struct cfdp_engine *engine, const struct cfdp_config *config,
                          const struct cfdp_path *prefixes, size_t count);

/* Puts a directory or a file at a path, while no transaction is known: before the first PDU, as it was before launch
 * or before a restart. `kind` is CFDP_ENTRY_DIRECTORY or CFDP_ENTRY_FILE (enum cfdp_entry_kind). A file gets the
 * octets, which are copied; for a directory they are not looked at. A directory takes one block, and a file one more
 * for each 120 octets. Returns CFDP_ANSWER_DONE; CFDP_ANSWER_BAD_PATH; CFDP_ANSWER_NOTHING if the kind is neither;
 * the first that holds of CFDP_ANSWER_HAS_TRANSACTIONS, CFDP_ANSWER_EXISTS, CFDP_ANSWER_NO_PARENT and
 * CFDP_ANSWER_FILESTORE_FULL; CFDP_ANSWER_NO_MEMORY (for the path); or CFDP_ANSWER_NO_ENGINE. What cfdp_next and
 * cfdp_read give of one engine can be put into a new engine of the same configuration in the same order. It has the
 * same filestore then. Cost: a look-up, and two passes over the octets. */
enum cfdp_answer cfdp_put(struct cfdp_engine *engine, const struct cfdp_path *path, enum cfdp_entry_kind kind,
    const uint8_t *octets, size_t length);

/* Frees the engine and all its memory; the struct is empty again. Returns CFDP_ANSWER_DONE or CFDP_ANSWER_NO_ENGINE.
 * Cost: constant, and a call of rattle_dealloc for each name and path that a known transaction holds. */
enum cfdp_answer cfdp_free(struct cfdp_engine *engine);

/* Takes the octets of one whole PDU (5.1 to 5.3). Returns CFDP_ANSWER_DONE with the reply, CFDP_ANSWER_NO_ENGINE,
 * CFDP_ANSWER_NOT_OURS, or the first fault that the octets have (CFDP_ANSWER_TRUNCATED to
 * CFDP_ANSWER_REQUEST_TOO_LONG); CFDP_ANSWER_NO_MEMORY for a Metadata PDU alone. The octets are not kept.
 * Cost: one pass over the octets, and the cost of the event. File Data: its octets are copied and summed once; out of
 * order also at most 3 steps for each binary digit of the offset in blocks, a sum of what it overwrites, and zeros for
 * a gap before it. EOF: constant. Metadata: a few searches among the leased paths for each path of its requests. For
 * each directory with entries that its list changes also some searches among the paths that it names; and, if a
 * request renames it, one walk over what is below it (see THE LONGEST CALLS). */
enum cfdp_answer cfdp_receive(struct cfdp_engine *engine, const uint8_t *octets, size_t length,
                              struct cfdp_reply *reply);

/* The next item of a transaction is performed (filestore procedures): its file is installed, or a request is
 * performed. To be called while cfdp_next_runnable names a transaction. Returns CFDP_ANSWER_DONE with the reply, or
 * CFDP_ANSWER_NO_ENGINE. Cost: a look-up of each name of its paths, and at most 22 comparisons of names in each
 * directory that changes; for an append and a replacement the blocks that are copied; for the last item the leases of
 * the transaction, which are given back. */
enum cfdp_answer cfdp_step(struct cfdp_engine *engine, uint64_t source, uint64_t number, struct cfdp_reply *reply);

/* A transaction is cancelled (cancel procedures). Returns CFDP_ANSWER_DONE with the reply, or CFDP_ANSWER_NO_ENGINE.
 * Cost: two searches among the leased paths for each path of its list, and for each directory above one of them; its
 * blocks go back at once. */
enum cfdp_answer cfdp_cancel(struct cfdp_engine *engine, uint64_t source, uint64_t number, struct cfdp_reply *reply);

/* A transaction's check timer expired (timer procedures). Returns CFDP_ANSWER_DONE with the reply, or
 * CFDP_ANSWER_NO_ENGINE. Cost: a look-up of the transaction; at the check limit that of a cancel. */
enum cfdp_answer cfdp_check(struct cfdp_engine *engine, uint64_t source, uint64_t number, struct cfdp_reply *reply);

/* The outcome of a transaction that is over is taken, and the transaction forgotten. Where a Finished PDU (5.2.3) is
 * to be sent, its octets are written to the beginning of `out`, which has room for `room`, and `*count` says how
 * many they are; it is 0 where none is to be sent. Returns CFDP_ANSWER_DONE with the reply (CFDP_REPLY_TAKEN,
 * CFDP_REPLY_UNKNOWN, or CFDP_REPLY_IDLE while the transaction is live); CFDP_ANSWER_TOO_SHORT with the length
 * needed in `*count`, and all else as before, only where the transaction is over; or CFDP_ANSWER_NO_ENGINE. It takes
 * no memory. A Finished PDU has at most 16488 octets. Cost: a pass over the requests, the octets of the Finished PDU,
 * and a call of rattle_dealloc for each name. */
enum cfdp_answer cfdp_take(struct cfdp_engine *engine, uint64_t source, uint64_t number, uint8_t *out, size_t room,
    size_t *count, struct cfdp_reply *reply);

/* The name of a transaction (5.1): its source entity ID and its transaction sequence number. */
struct cfdp_transaction {
    uint64_t source;
    uint64_t number;
};

/* What the Metadata PDU of a transaction said (5.2.5), but for its names and its filestore requests. */
struct cfdp_metadata {
    uint64_t size;          /* of the file, in octets; 0 if it is unbounded */
    uint32_t closure;       /* 1 if transaction closure is requested, else 0 */
    uint32_t checksum_type; /* 0 to 15: 0 is the modular checksum, 15 is none */
};

/* How far a transaction is. */
enum cfdp_phase_kind {
    CFDP_PHASE_RECEIVING = 1, /* file data is taken, and no EOF PDU has come */
    CFDP_PHASE_AWAITING = 2,  /* the EOF PDU came and octets are missing; detail: the checks since */
    CFDP_PHASE_EXECUTING = 3, /* the file is there; detail: the number of the item that is performed next */
    CFDP_PHASE_REFUSED = 4,   /* its list of requests was refused */
    CFDP_PHASE_DONE = 5,      /* all its items were performed */
    CFDP_PHASE_ENDED = 6      /* it ended before it was done; detail: the condition code */
};
struct cfdp_phase {
    enum cfdp_phase_kind phase;
    uint32_t detail;
};

/* What was granted to a transaction: 0 and 0 where it was not admitted. */
struct cfdp_grant {
    uint32_t blocks;
    uint32_t steps;
};

/* The blocks of the filestore that are not in use, and those of them that nobody was granted. */
struct cfdp_blocks {
    uint32_t free;
    uint32_t spare;
};

/* Octets of a file that are missing: from `start` up to, and without, `end`. */
struct cfdp_gap {
    uint64_t start;
    uint64_t end;
};

/* What exists at a path of the filestore. A directory's checksum and size are 0. */
struct cfdp_entry {
    enum cfdp_entry_kind kind;
    uint32_t checksum;      /* a file's modular checksum (checksum procedures) */
    uint64_t size;          /* in octets */
};

/* None of these calls changes the engine.
 *   cfdp_next_runnable:  the first transaction, in order of admission, whose items are being performed
 *   cfdp_next_outcome:   the first, in this order, whose outcome can be taken
 *   cfdp_transaction_at: the transaction with this index in order of admission, from 0; those that are refused, done or
 *                        ended count until their outcome is taken
 *   cfdp_phase:          how far a transaction is
 *   cfdp_grant:          what was granted to it
 *   cfdp_blocks_spent:   the blocks that it took, less those that it gave back
 *   cfdp_steps_spent:    the steps that it spent
 *   cfdp_blocks:         the blocks of the filestore
 * They answer CFDP_ANSWER_DONE, with what is asked for; CFDP_ANSWER_NOTHING where there is no such transaction; or
 * CFDP_ANSWER_NO_ENGINE. Cost: of the first two at most a pass over the 64 transactions, of the others a look-up of
 * the transaction. */
enum cfdp_answer cfdp_next_runnable(struct cfdp_engine *engine, struct cfdp_transaction *transaction);
enum cfdp_answer cfdp_next_outcome(struct cfdp_engine *engine, struct cfdp_transaction *transaction);
enum cfdp_answer cfdp_transaction_at(struct cfdp_engine *engine, size_t index, struct cfdp_transaction *transaction);
enum cfdp_answer cfdp_phase(struct cfdp_engine *engine, uint64_t source, uint64_t number, struct cfdp_phase *phase);
enum cfdp_answer cfdp_grant(struct cfdp_engine *engine, uint64_t source, uint64_t number, struct cfdp_grant *grant);
enum cfdp_answer cfdp_blocks_spent(struct cfdp_engine *engine, uint64_t source, uint64_t number, int64_t *blocks);
enum cfdp_answer cfdp_steps_spent(struct cfdp_engine *engine, uint64_t source, uint64_t number, uint32_t *steps);
enum cfdp_answer cfdp_blocks(struct cfdp_engine *engine, struct cfdp_blocks *blocks);

/* What is missing of a transaction's file (lost segment procedures): the gap with this index, from 0, in order;
 * there are at most 33. Returns CFDP_ANSWER_DONE, CFDP_ANSWER_NOTHING where there is no such gap or no such
 * transaction, or CFDP_ANSWER_NO_ENGINE. Cost: the pieces that came, at most 32. */
enum cfdp_answer cfdp_gap(struct cfdp_engine *engine, uint64_t source, uint64_t number, size_t index,
                          struct cfdp_gap *gap);

/* How far a transaction's file has come. cfdp_progress: the end of the last octet that is kept, 0 if none is.
 * cfdp_reach: the end of what cfdp_gap reports. Before the EOF PDU it is the same as cfdp_progress, after it the size
 * that the EOF PDU gave; 0 if the transaction takes no file data. Returns CFDP_ANSWER_DONE, CFDP_ANSWER_NOTHING if
 * there is no such transaction, or CFDP_ANSWER_NO_ENGINE. Cost: a look-up of the transaction. */
enum cfdp_answer cfdp_progress(struct cfdp_engine *engine, uint64_t source, uint64_t number, uint64_t *offset);
enum cfdp_answer cfdp_reach(struct cfdp_engine *engine, uint64_t source, uint64_t number, uint64_t *offset);

/* What the Metadata PDU of a transaction said, as long as its outcome was not taken. Returns CFDP_ANSWER_DONE,
 * CFDP_ANSWER_NOTHING if there is no such transaction, or CFDP_ANSWER_NO_ENGINE. Cost: a look-up of the
 * transaction. */
enum cfdp_answer cfdp_metadata(struct cfdp_engine *engine, uint64_t source, uint64_t number,
                               struct cfdp_metadata *metadata);

/* The source and the destination file name of a transaction's Metadata PDU, as it spells them. The octets are
 * written to the beginning of `out`, with a 0 after them where there is room, and `*count` says how many they are
 * without it: at most 255, and 0 if the PDU names no file. So with 256 octets of room it is a C string. Returns
 * CFDP_ANSWER_DONE; CFDP_ANSWER_TOO_SHORT with the length needed in `*count`; CFDP_ANSWER_NOTHING if there is no
 * such transaction; or CFDP_ANSWER_NO_ENGINE. Cost: a look-up of the transaction, and one copy of the name. */
enum cfdp_answer cfdp_source_name(struct cfdp_engine *engine, uint64_t source, uint64_t number, uint8_t *out,
                                  size_t room, size_t *count);
enum cfdp_answer cfdp_destination_name(struct cfdp_engine *engine, uint64_t source, uint64_t number, uint8_t *out,
                                       size_t room, size_t *count);

/* What exists at a path. Returns CFDP_ANSWER_DONE, CFDP_ANSWER_NOTHING, CFDP_ANSWER_BAD_PATH, or
 * CFDP_ANSWER_NO_ENGINE. Cost: a look-up of each name, whatever the size of a file: its checksum is kept with it. */
enum cfdp_answer cfdp_look_up(struct cfdp_engine *engine, const struct cfdp_path *path, struct cfdp_entry *entry);

/* Copies a file's octets from the offset `at` on to the beginning of `out`: as many as there are and as fit in
 * `room`; `*count` says how many. Returns CFDP_ANSWER_DONE; CFDP_ANSWER_NOTHING where no file exists at the path;
 * CFDP_ANSWER_BAD_PATH; or CFDP_ANSWER_NO_ENGINE. Cost: at most 48 steps to `at`, whatever its size and the order in
 * which the file came, and one copy of the octets. */
enum cfdp_answer cfdp_read(struct cfdp_engine *engine, const struct cfdp_path *path, uint64_t at, uint8_t *out,
                           size_t room, size_t *count);

/* What comes next in the filestore after a path, in path order (a directory before what is below it). The path need
 * not exist; one of length 0 is before all. Returns CFDP_ANSWER_DONE with the path of what comes next in `*path`,
 * zeros after its octets, and what it is in `*entry`; CFDP_ANSWER_NOTHING after the last one; CFDP_ANSWER_BAD_PATH;
 * or CFDP_ANSWER_NO_ENGINE. So a loop that begins with length 0 and passes the same struct on goes over all entries.
 * Cost: at most 45 comparisons of names in each directory on the way (the root and at most 8 others), however many
 * entries it has and whatever their names are. */
enum cfdp_answer cfdp_next(struct cfdp_engine *engine, struct cfdp_path *path, struct cfdp_entry *entry);

/* The line that `cfdpsim replay` writes of a reply (docs/FORMATS.md), with its line end: "1/24 refused conflict
 * 1/22\n". `octets` is used for CFDP_REPLY_TAKEN alone: what cfdp_take wrote beside the reply, of which `length` is
 * 0 where there is no Finished PDU. The line is written to the beginning of `out`, with a 0 after it where there is
 * room, and `*count` says how long it is without the 0: at most 101 octets, or 52 + 2 * `length` where that is more,
 * which is 33028 for the longest Finished PDU. Returns CFDP_ANSWER_DONE; CFDP_ANSWER_TOO_SHORT with the length
 * needed in `*count`; CFDP_ANSWER_NOTHING where no reply has these numbers; or CFDP_ANSWER_NO_MEMORY (for the line).
 * It needs no engine. Cost: a pass over `octets`; the line is made, and copied once. */
enum cfdp_answer cfdp_reply_text(const struct cfdp_reply *reply, const uint8_t *octets, size_t length, uint8_t *out,
                                 size_t room, size_t *count);

/* The line that `cfdpsim replay` writes of a PDU to which cfdp_receive answered CFDP_ANSWER_NOT_OURS, or
 * CFDP_ANSWER_TRUNCATED to CFDP_ANSWER_REQUEST_TOO_LONG: "pdu dropped truncated\n". At most 29 octets, and a 0 after
 * them where there is room. Returns CFDP_ANSWER_DONE; CFDP_ANSWER_TOO_SHORT with the length needed in `*count`; or
 * CFDP_ANSWER_NOTHING for any other answer. It needs no engine and takes no memory. Cost: one copy of the line. */
enum cfdp_answer cfdp_answer_text(enum cfdp_answer answer, uint8_t *out, size_t room, size_t *count);

/* sizeof(struct cfdp_engine), as the library has it: 16. Cost: constant. */
size_t cfdp_engine_octets(void);

/* The three functions that the library takes memory from. The kit's liblibc_c.a defines them with malloc; a program
 * may define its own (examples/c/pool.c). `align` is a power of two and at most 16. `kept` is how many octets the
 * block at `block` was made with: they are copied to the new one. Where `is_made` is false, there is no memory,
 * `octets` is not NULL and not read, and a block that was to grow is as before. A block that is given back is one of
 * these. */
struct cfdp_block {
    bool is_made;
    void *octets;
};
struct cfdp_block rattle_alloc(size_t octets, size_t align);
struct cfdp_block rattle_realloc(void *block, size_t kept, size_t octets, size_t align);
void rattle_dealloc(void *block);

#ifdef __cplusplus
}
#endif

/* A path from a C string, as "app/prog". Returns CFDP_ANSWER_DONE; or CFDP_ANSWER_BAD_PATH where it has more than
 * 776 octets, with the path as before. Whether the octets spell a path is answered by the call that it is passed to. */
static inline enum cfdp_answer cfdp_path_of(struct cfdp_path *path, const char *text) {
    size_t length = strlen(text);
    if (length > sizeof path->octets) return CFDP_ANSWER_BAD_PATH;
    memset(path->octets, 0, sizeof path->octets);
    memcpy(path->octets, text, length);
    path->length = (uint32_t)length;
    return CFDP_ANSWER_DONE;
}

/* The library takes no NULL. The names of the calls that take a pointer and a length are macros for these, which
 * pass a pointer of their own for a NULL. */
static inline const uint8_t *cfdp_in(const uint8_t *octets) {
    static const uint8_t none[1] = {0};
    return octets != NULL ? octets : none;
}
static inline uint8_t *cfdp_out(uint8_t *octets) {
    static uint8_t none[1];
    return octets != NULL ? octets : none;
}
static inline const struct cfdp_path *cfdp_paths(const struct cfdp_path *paths) {
    static const uint32_t none[1] = {0};
    return paths != NULL ? paths : (const struct cfdp_path *)(const void *)none;
}
static inline enum cfdp_answer cfdp_new_null_ok(struct cfdp_engine *engine, const struct cfdp_config *config,
    const struct cfdp_path *prefixes, size_t count) {
    return cfdp_new(engine, config, cfdp_paths(prefixes), count);
}
#define cfdp_new cfdp_new_null_ok
static inline enum cfdp_answer cfdp_put_null_ok(struct cfdp_engine *engine, const struct cfdp_path *path,
    enum cfdp_entry_kind kind, const uint8_t *octets, size_t length) {
    return cfdp_put(engine, path, kind, cfdp_in(octets), length);
}
#define cfdp_put cfdp_put_null_ok
static inline enum cfdp_answer cfdp_receive_null_ok(struct cfdp_engine *engine, const uint8_t *octets, size_t length,
    struct cfdp_reply *reply) {
    return cfdp_receive(engine, cfdp_in(octets), length, reply);
}
#define cfdp_receive cfdp_receive_null_ok
static inline enum cfdp_answer cfdp_take_null_ok(struct cfdp_engine *engine, uint64_t source, uint64_t number,
                                                 uint8_t *out, size_t room, size_t *count, struct cfdp_reply *reply) {
    return cfdp_take(engine, source, number, cfdp_out(out), room, count, reply);
}
#define cfdp_take cfdp_take_null_ok
static inline enum cfdp_answer cfdp_source_name_null_ok(struct cfdp_engine *engine, uint64_t source, uint64_t number,
    uint8_t *out, size_t room, size_t *count) {
    return cfdp_source_name(engine, source, number, cfdp_out(out), room, count);
}
#define cfdp_source_name cfdp_source_name_null_ok
static inline enum cfdp_answer cfdp_destination_name_null_ok(struct cfdp_engine *engine, uint64_t source,
                                                             uint64_t number, uint8_t *out, size_t room,
                                                             size_t *count) {
    return cfdp_destination_name(engine, source, number, cfdp_out(out), room, count);
}
#define cfdp_destination_name cfdp_destination_name_null_ok
static inline enum cfdp_answer cfdp_read_null_ok(struct cfdp_engine *engine, const struct cfdp_path *path, uint64_t at,
    uint8_t *out, size_t room, size_t *count) {
    return cfdp_read(engine, path, at, cfdp_out(out), room, count);
}
#define cfdp_read cfdp_read_null_ok
static inline enum cfdp_answer cfdp_reply_text_null_ok(const struct cfdp_reply *reply, const uint8_t *octets,
                                                       size_t length, uint8_t *out, size_t room, size_t *count) {
    return cfdp_reply_text(reply, cfdp_in(octets), length, cfdp_out(out), room, count);
}
#define cfdp_reply_text cfdp_reply_text_null_ok
static inline enum cfdp_answer cfdp_answer_text_null_ok(enum cfdp_answer answer, uint8_t *out, size_t room,
                                                        size_t *count) {
    return cfdp_answer_text(answer, cfdp_out(out), room, count);
}
#define cfdp_answer_text cfdp_answer_text_null_ok

/* The short names, until version 0.2.0. */
#ifndef CFDP_NO_SHORT_NAMES
#define CFDP_DONE CFDP_ANSWER_DONE
#define CFDP_NO_ENGINE CFDP_ANSWER_NO_ENGINE
#define CFDP_HAS_ENGINE CFDP_ANSWER_HAS_ENGINE
#define CFDP_NO_MEMORY CFDP_ANSWER_NO_MEMORY
#define CFDP_TOO_SHORT CFDP_ANSWER_TOO_SHORT
#define CFDP_NOTHING CFDP_ANSWER_NOTHING
#define CFDP_BAD_PATH CFDP_ANSWER_BAD_PATH
#define CFDP_HAS_TRANSACTIONS CFDP_ANSWER_HAS_TRANSACTIONS
#define CFDP_EXISTS CFDP_ANSWER_EXISTS
#define CFDP_NO_PARENT CFDP_ANSWER_NO_PARENT
#define CFDP_FILESTORE_FULL CFDP_ANSWER_FILESTORE_FULL
#define CFDP_BAD_BLOCKS CFDP_ANSWER_BAD_BLOCKS
#define CFDP_BAD_CAP CFDP_ANSWER_BAD_CAP
#define CFDP_BAD_CHECKS CFDP_ANSWER_BAD_CHECKS
#define CFDP_TOO_MANY_PREFIXES CFDP_ANSWER_TOO_MANY_PREFIXES
#define CFDP_NOT_OURS CFDP_ANSWER_NOT_OURS
#define CFDP_TRUNCATED CFDP_ANSWER_TRUNCATED
#define CFDP_BAD_VERSION CFDP_ANSWER_BAD_VERSION
#define CFDP_CRC_NOT_SUPPORTED CFDP_ANSWER_CRC_NOT_SUPPORTED
#define CFDP_LENGTH_MISMATCH CFDP_ANSWER_LENGTH_MISMATCH
#define CFDP_BAD_DIRECTIVE CFDP_ANSWER_BAD_DIRECTIVE
#define CFDP_BAD_TLV CFDP_ANSWER_BAD_TLV
#define CFDP_REQUEST_TOO_LONG CFDP_ANSWER_REQUEST_TOO_LONG
#define CFDP_ADMITTED CFDP_REPLY_ADMITTED
#define CFDP_REFUSED CFDP_REPLY_REFUSED
#define CFDP_STORED CFDP_REPLY_STORED
#define CFDP_DROPPED CFDP_REPLY_DROPPED
#define CFDP_COMPLETE CFDP_REPLY_COMPLETE
#define CFDP_WAITING CFDP_REPLY_WAITING
#define CFDP_FAULTED CFDP_REPLY_FAULTED
#define CFDP_PERFORMED CFDP_REPLY_PERFORMED
#define CFDP_INSTALLED CFDP_REPLY_INSTALLED
#define CFDP_FINISHED CFDP_REPLY_FINISHED
#define CFDP_CANCELLED CFDP_REPLY_CANCELLED
#define CFDP_TAKEN CFDP_REPLY_TAKEN
#define CFDP_DUPLICATE CFDP_REPLY_DUPLICATE
#define CFDP_UNKNOWN CFDP_REPLY_UNKNOWN
#define CFDP_IDLE CFDP_REPLY_IDLE
#define CFDP_NOT_FOR_US CFDP_REPLY_NOT_FOR_US
#define CFDP_TABLE_FULL CFDP_REPLY_TABLE_FULL
#define CFDP_TOO_MANY_REQUESTS CFDP_REFUSAL_TOO_MANY_REQUESTS
#define CFDP_BAD_DESTINATION CFDP_REFUSAL_BAD_DESTINATION
#define CFDP_BAD_REQUEST_PATH CFDP_REFUSAL_BAD_REQUEST_PATH
#define CFDP_CONFLICT CFDP_REFUSAL_CONFLICT
#define CFDP_DESTINATION_NOT_ALLOWED CFDP_REFUSAL_DESTINATION_NOT_ALLOWED
#define CFDP_WOULD_FAIL CFDP_REFUSAL_WOULD_FAIL
#define CFDP_TOO_LONG CFDP_REFUSAL_TOO_LONG
#define CFDP_NO_ROOM CFDP_REFUSAL_NO_ROOM
#define CFDP_FILE CFDP_ENTRY_FILE
#define CFDP_DIRECTORY CFDP_ENTRY_DIRECTORY
#endif
#endif
