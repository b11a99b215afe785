/* A CFDP receiving entity in acknowledged and unacknowledged mode (CCSDS 727.0-B-5, the procedures at the receiving
 * entity) as a C library: octets and the present time go in; PDUs to send, indications and the next deadline come
 * out. It has no socket, no clock, no thread and no callback.
 *
 * A program makes an engine with cfdp_new, puts into it the files that are there (cfdp_put), and makes a receiver of
 * it. Then it repeats these steps: it waits for a PDU until the moment that cfdp_receiver_deadline says, and calls
 * cfdp_receiver_receive with what came. As long as that moment has passed it calls cfdp_receiver_expire, also where a
 * PDU came, so that a busy link stops no timer. Then it calls cfdp_receiver_work until there is nothing to do, and
 * cfdp_receiver_finish likewise. After each of these calls it sends the PDUs of the answer: cfdp_receiver_write for
 * the numbers 0 to report.pdus - 1. examples/c/udp_receiver.c is such a program.
 *
 * Everything that `cfdp.h` says of what the caller promises, of NULL, memory and names holds here too, for a
 * receiver as for an engine. A moment is a number of ticks of a clock of the caller's, such as milliseconds: an
 * earlier one than the latest counts as the latest, until cfdp_receiver_move_clock sets it. Memory is asked for by
 * cfdp_receiver_new, by cfdp_receiver_receive for a Metadata PDU alone, and by cfdp_receiver_finish where a
 * transaction is over; by nothing else. docs/C.md has how much.
 *
 * THE LONGEST CALLS are those of the engine for the same event (cfdp.h): cfdp_receiver_receive is as long as
 * cfdp_receive, cfdp_receiver_work as cfdp_step, cfdp_receiver_cancel as cfdp_cancel, cfdp_receiver_read as cfdp_read,
 * and cfdp_receiver_expire as cfdp_cancel where a timer has reached its limit. What a receiver adds is less than 20000
 * instructions, beside 63 other transactions too, and for a PDU with a CRC some 9 for each octet: 592000 for the
 * longest. But for transactions of 64 renames of long paths cfdp_receiver_finish takes up to 242000 for one,
 * cfdp_receiver_write up to 251000 for its Finished PDU with a CRC, and cfdp_receiver_free up to 32400000 where 64 of
 * them are live. docs/C.md has the longest case of each. */
#ifndef CFDP_RECEIVER_H
#define CFDP_RECEIVER_H

#include "cfdp.h"

#ifdef __cplusplus
extern "C" {
#endif

/* Room for one receiver. */
struct cfdp_receiver {
    uint32_t mark;
    void *at;
};
#define CFDP_RECEIVER_EMPTY {0, NULL}

/* The octets that cfdp_receiver_new asks for, whatever the configuration. */
#define CFDP_RECEIVER_NEW_OCTETS ((size_t)76560)

/* What is done at a fault (fault handling procedures). */
enum cfdp_handler {
    CFDP_HANDLER_CANCEL = 1,    /* the transaction is cancelled, with the condition code of the fault */
    CFDP_HANDLER_IGNORE = 2,    /* the user is notified, and the transaction goes on */
    CFDP_HANDLER_ABANDON = 3    /* the transaction is abandoned: nothing more is sent */
};

/* When lost segments are asked for (lost segment procedures). */
enum cfdp_nak_mode {
    CFDP_NAK_DEFERRED = 1,      /* after the EOF PDU */
    CFDP_NAK_IMMEDIATE = 2      /* when a gap begins, and after the EOF PDU */
};

/* What the management information base (section 8) says of the receiver. Intervals are in ticks, from 1. */
struct cfdp_mib {
    uint32_t ack_interval;                      /* a Finished PDU is sent again after this time without its
                                                 * acknowledgement */
    uint32_t ack_limit;                         /* the expiry that is a fault, 1 to 1000: condition code 1 */
    enum cfdp_handler ack_handler;
    uint32_t nak_interval;                      /* what is missing is asked for again after this time without a new
                                                 * octet */
    uint32_t nak_limit;                         /* the expiry that is a fault, 1 to 1000: condition code 7 */
    enum cfdp_handler nak_handler;
    uint32_t check_interval;                    /* between checks in unacknowledged mode; the limit is that of the
                                                 * engine */
    enum cfdp_handler check_handler;            /* at condition code 10 */
    uint32_t inactivity_interval;               /* before the EOF PDU, this time without a PDU is a fault: condition
                                                 * code 8 */
    enum cfdp_handler inactivity_handler;
    uint32_t keep_alive_interval;               /* before the EOF PDU, between Keep Alive PDUs; 0: none is sent */
    enum cfdp_nak_mode nak_mode;
    uint32_t has_crc;                           /* PDUs that are sent have a CRC, unless it is 0 */
    uint32_t longest_nak;                       /* how many octets a NAK PDU has at most, its CRC included: 72 to
                                                 * 65535 */
    uint32_t most_ahead;                        /* how far ahead of the latest moment another one may be; 0: there is
                                                 * no limit */
};

/* What became of an input. */
enum cfdp_became {
    CFDP_BECAME_NOTHING = 0,        /* there was nothing to do: no timer is due, no item is to be performed, no
                                     * outcome is there */
    CFDP_BECAME_NOT_OURS = 1,       /* the PDU is not for the receiver of a file */
    CFDP_BECAME_REPLIED = 2,        /* the entity has replied: see `reply` */
    CFDP_BECAME_NOT_FOR_US = 3,     /* the PDU is for another entity */
    CFDP_BECAME_TABLE_FULL = 4,     /* there are 64 transactions, and none of this name */
    CFDP_BECAME_DUPLICATE = 5,      /* the PDU came before */
    CFDP_BECAME_IDLE = 6,           /* there is nothing to do for it */
    CFDP_BECAME_UNKNOWN = 7,        /* the transaction is not known */
    CFDP_BECAME_HELD = 8,           /* the EOF PDU is held until its Metadata PDU comes */
    CFDP_BECAME_FAULTED = 9,        /* a fault ended the transaction */
    CFDP_BECAME_ACKNOWLEDGED = 10,  /* the Finished PDU was acknowledged: the transaction is closed */
    CFDP_BECAME_ANSWERED = 11,      /* the Prompt PDU was answered */
    CFDP_BECAME_CANCELLED = 12,     /* the transaction was cancelled */
    CFDP_BECAME_EXPIRED = 13,       /* a timer expired, below its limit */
    CFDP_BECAME_KEPT_ALIVE = 14,    /* a Keep Alive PDU was due */
    CFDP_BECAME_IGNORED = 15,       /* a timer expired at its limit, which is ignored */
    CFDP_BECAME_FINISHED = 16,      /* the Finished PDU is to be sent, and waits for its acknowledgement */
    CFDP_BECAME_CLOSED = 17,        /* the transaction is closed */
    CFDP_BECAME_LIST_BEGUN = 18,    /* the transaction is not cancelled: items of its list were performed, so the list
                                     * goes on to its end */
    CFDP_BECAME_SOURCES_FULL = 19,  /* 16 source entities have a place, and that of the transaction has none: see
                                     * cfdp_receiver_forget_closed */
    CFDP_BECAME_TOO_FAR_AHEAD = 20  /* the moment is further ahead of the latest one than `most_ahead`: the input was
                                     * not taken, and nothing changed */
};

/* What the user of the receiving entity is notified of (3.4), and the numbers that it brings beside the transaction. */
enum cfdp_indication_kind {
    CFDP_INDICATION_NONE = 0,
    CFDP_INDICATION_METADATA_RECV = 1,          /* length: of the file, 0 also if unbounded; closure; checksum_type */
    CFDP_INDICATION_FILE_SEGMENT_RECV = 2,      /* offset, length; it may bring nothing that was missing */
    CFDP_INDICATION_EOF_RECV = 3,
    CFDP_INDICATION_TRANSACTION_FINISHED = 4,   /* condition, incomplete, file_status */
    CFDP_INDICATION_FAULT = 5,                  /* condition; the transaction goes on, unless it waited for the
                                                 * acknowledgement */
    CFDP_INDICATION_ABANDONED = 6               /* condition */
};

/* An indication. A number that its kind has no use for is 0. */
struct cfdp_indication {
    enum cfdp_indication_kind kind;
    uint32_t condition;         /* a condition code (5.2.2) */
    uint32_t incomplete;        /* the delivery code (5.2.3): 1 if the file is incomplete */
    uint32_t file_status;       /* 0 discarded, 1 rejected by the filestore, 2 retained, 3 unreported (5.2.3) */
    uint32_t closure;           /* 1 if transaction closure is requested */
    uint32_t checksum_type;     /* 0 to 15 */
    struct cfdp_transaction transaction;
    uint64_t offset;
    uint64_t length;            /* in octets */
};

/* What became of the last input, and what the user is notified of. */
struct cfdp_report {
    uint32_t pdus;              /* how many PDUs are to be sent now, at most 36 */
    enum cfdp_became became;
    struct cfdp_transaction transaction;    /* that the input was about; 0/0 where it was about none */
    struct cfdp_reply reply;                /* of the entity at CFDP_BECAME_REPLIED; else its kind is CFDP_REPLY_NONE */
    struct cfdp_indication indication;
};

/* Makes a receiver in an empty `struct cfdp_receiver`, over the engine of `engine`, whose handle is empty then.
 * Returns CFDP_ANSWER_DONE; CFDP_ANSWER_HAS_ENGINE if there is a receiver already; CFDP_ANSWER_NO_ENGINE if `engine`
 * is empty; the first fault of the handlers (CFDP_ANSWER_BAD_HANDLER), the mode (CFDP_ANSWER_BAD_NAK_MODE), a
 * `longest_nak` above 65535 (CFDP_ANSWER_BAD_LONGEST_NAK), the intervals (CFDP_ANSWER_BAD_INTERVAL), the limits
 * (CFDP_ANSWER_BAD_LIMIT), and a `longest_nak` below 72; CFDP_ANSWER_HAS_TRANSACTIONS if the engine knows a
 * transaction; or CFDP_ANSWER_NO_MEMORY. At CFDP_ANSWER_NO_MEMORY the engine is freed with what was put into it:
 * begin again with cfdp_new. At any other answer than these two nothing has changed. Cost: the memory of 64 sessions
 * and of the names of 16 sources, 256 of each, is asked for. */
enum cfdp_answer cfdp_receiver_new(struct cfdp_receiver *receiver, struct cfdp_engine *engine,
                                   const struct cfdp_mib *mib);

/* Frees the receiver with its engine and all its memory; the struct is empty again. Returns CFDP_ANSWER_DONE or
 * CFDP_ANSWER_NO_ENGINE. Cost: that of cfdp_free. */
enum cfdp_answer cfdp_receiver_free(struct cfdp_receiver *receiver);

/* The octets of one whole PDU came (5.1 to 5.3), with a CRC or without. The call may change the octets, since it
 * takes a CRC off in place: do not use them after it. Returns CFDP_ANSWER_DONE with the report; CFDP_ANSWER_BAD_CRC, or
 * the first other fault that the octets have (CFDP_ANSWER_TRUNCATED to CFDP_ANSWER_REQUEST_TOO_LONG);
 * CFDP_ANSWER_NO_MEMORY for a Metadata PDU alone (to try again, hand in a copy of what came); or
 * CFDP_ANSWER_NO_ENGINE. Cost: that of the event, a pass over the octets for a CRC, at most one over the 64
 * transactions, and the gaps where a NAK PDU is to be sent. */
enum cfdp_answer cfdp_receiver_receive(struct cfdp_receiver *receiver, uint64_t now, uint8_t *octets, size_t length,
    struct cfdp_report *report);

/* Time has passed: the first timer that is due is served. Returns CFDP_ANSWER_DONE with the report, whose `became`
 * is CFDP_BECAME_NOTHING if none is due; or CFDP_ANSWER_NO_ENGINE. Cost: at most one pass over the 64 transactions,
 * and that of its event: at a limit that of cfdp_cancel. */
enum cfdp_answer cfdp_receiver_expire(struct cfdp_receiver *receiver, uint64_t now, struct cfdp_report *report);

/* The next item of the first transaction that has one is performed (filestore procedures): its file is installed, or
 * a request is performed. Returns CFDP_ANSWER_DONE with the report, whose `became` is CFDP_BECAME_NOTHING if no
 * transaction has one; or CFDP_ANSWER_NO_ENGINE. Cost: a pass over the 64 transactions, and that of cfdp_step. */
enum cfdp_answer cfdp_receiver_work(struct cfdp_receiver *receiver, uint64_t now, struct cfdp_report *report);

/* The outcome of the first transaction that is over is taken: the user is notified by
 * CFDP_INDICATION_TRANSACTION_FINISHED, and the Finished PDU is to be sent where it is asked for. Returns
 * CFDP_ANSWER_DONE with the report, whose `became` is CFDP_BECAME_NOTHING if none is over; CFDP_ANSWER_NO_MEMORY
 * where one is; or CFDP_ANSWER_NO_ENGINE. Cost: a pass over the 64 transactions, one copy of the names of the
 * requests, and the octets of the Finished PDU twice. */
enum cfdp_answer cfdp_receiver_finish(struct cfdp_receiver *receiver, uint64_t now, struct cfdp_report *report);

/* The user cancels a transaction (cancel procedures), with condition code 15. A list that has begun goes on to its end
 * (CFDP_BECAME_LIST_BEGUN), and a transaction that waits for the acknowledgement of its Finished PDU is closed. Returns
 * CFDP_ANSWER_DONE with the report, or CFDP_ANSWER_NO_ENGINE. Cost: a pass over the 64 transactions, and that of
 * cfdp_cancel. */
enum cfdp_answer cfdp_receiver_cancel(struct cfdp_receiver *receiver, uint64_t now, uint64_t source, uint64_t number,
    struct cfdp_report *report);

/* The names of all transactions that were closed are forgotten, for a sender whose transaction sequence numbers begin
 * anew, or for one more source after CFDP_BECAME_SOURCES_FULL: only sources with a transaction keep their place. A
 * Metadata PDU of one of them that comes once more begins it anew then. Returns CFDP_ANSWER_DONE with the report, or
 * CFDP_ANSWER_NO_ENGINE. Cost: for each of 16 sources a pass over the 64 transactions. */
enum cfdp_answer cfdp_receiver_forget_closed(struct cfdp_receiver *receiver, struct cfdp_report *report);

/* The caller's clock was set, back or ahead, and now says `now`. What is left of each timer stays. Without this call an
 * earlier moment counts as the latest, so that after one wrong reading, far ahead, no timer would be due until the
 * clock comes to it. A moment is never too far ahead for this call: with `most_ahead`, begin with it. Returns
 * CFDP_ANSWER_DONE with the report, or CFDP_ANSWER_NO_ENGINE. Cost: constant. */
enum cfdp_answer cfdp_receiver_move_clock(struct cfdp_receiver *receiver, uint64_t now, struct cfdp_report *report);

/* The moment from which on a timer is due, to `*moment`. Returns CFDP_ANSWER_DONE; CFDP_ANSWER_NOTHING where none
 * runs; or CFDP_ANSWER_NO_ENGINE. Cost: one pass over the 64 transactions. */
enum cfdp_answer cfdp_receiver_deadline(struct cfdp_receiver *receiver, uint64_t *moment);

/* Writes the PDU with this number, from 0, of the last report to the beginning of `out`, which has room for `room`
 * octets, and its length to `*count`. The octets after it are as before. The last report is that of the last call
 * from above that answered CFDP_ANSWER_DONE: PDUs of an earlier one can't be written any more. Returns
 * CFDP_ANSWER_DONE; CFDP_ANSWER_NOTHING where there is no such PDU; CFDP_ANSWER_TOO_SHORT, which says no length; or
 * CFDP_ANSWER_NO_ENGINE. A buffer of 16490 octets, or of `longest_nak` if that is more, is never too short. Cost: the
 * octets of the PDU, and a pass over them for a CRC. */
enum cfdp_answer cfdp_receiver_write(struct cfdp_receiver *receiver, size_t number, uint8_t *out, size_t room,
                                     size_t *count);

/* These return of the filestore and of a transaction's Metadata PDU what cfdp_look_up, cfdp_read, cfdp_next and
 * cfdp_destination_name return of those of an engine, with the same answers and costs. The name can be asked for from
 * CFDP_INDICATION_METADATA_RECV on until cfdp_receiver_finish takes the transaction's outcome. */
enum cfdp_answer cfdp_receiver_look_up(struct cfdp_receiver *receiver, const struct cfdp_path *path,
                                       struct cfdp_entry *entry);
enum cfdp_answer cfdp_receiver_read(struct cfdp_receiver *receiver, const struct cfdp_path *path, uint64_t at,
                                    uint8_t *out, size_t room, size_t *count);
enum cfdp_answer cfdp_receiver_next(struct cfdp_receiver *receiver, struct cfdp_path *path, struct cfdp_entry *entry);
enum cfdp_answer cfdp_receiver_destination_name(struct cfdp_receiver *receiver, uint64_t source, uint64_t number,
                                                uint8_t *out, size_t room, size_t *count);

/* sizeof(struct cfdp_receiver), as the library has it: 16. Cost: constant. */
size_t cfdp_receiver_octets(void);

#ifdef __cplusplus
}
#endif

/* The library takes no NULL: see cfdp.h. */
static inline enum cfdp_answer cfdp_receiver_receive_null_ok(struct cfdp_receiver *receiver, uint64_t now,
                                                             uint8_t *octets, size_t length,
                                                             struct cfdp_report *report) {
    return cfdp_receiver_receive(receiver, now, cfdp_out(octets), length, report);
}
#define cfdp_receiver_receive cfdp_receiver_receive_null_ok
static inline enum cfdp_answer cfdp_receiver_write_null_ok(struct cfdp_receiver *receiver, size_t number, uint8_t *out,
                                                           size_t room, size_t *count) {
    return cfdp_receiver_write(receiver, number, cfdp_out(out), room, count);
}
#define cfdp_receiver_write cfdp_receiver_write_null_ok
static inline enum cfdp_answer cfdp_receiver_read_null_ok(struct cfdp_receiver *receiver, const struct cfdp_path *path,
                                                          uint64_t at, uint8_t *out, size_t room, size_t *count) {
    return cfdp_receiver_read(receiver, path, at, cfdp_out(out), room, count);
}
#define cfdp_receiver_read cfdp_receiver_read_null_ok
static inline enum cfdp_answer cfdp_receiver_destination_name_null_ok(struct cfdp_receiver *receiver, uint64_t source,
    uint64_t number, uint8_t *out, size_t room, size_t *count) {
    return cfdp_receiver_destination_name(receiver, source, number, cfdp_out(out), room, count);
}
#define cfdp_receiver_destination_name cfdp_receiver_destination_name_null_ok
#endif
