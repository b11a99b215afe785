/* A whole CFDP receiver on UDP, one PDU in each datagram. Each file that is delivered is written to a folder under its
 * destination name; where something else is in its way there, that is said, and the file is not written out.
 *   udp_receiver PORT PEER_PORT FOLDER [CLOSED [CRC]]
 * It hears on 127.0.0.1:PORT and sends to 127.0.0.1:PEER_PORT. Its entity ID is 2. It ends after CLOSED transactions
 * are closed, or, where none is named, never. With CRC (1) its PDUs have a CRC. It writes a line for each
 * indication. */
#define _POSIX_C_SOURCE 200809L
#include "../../include/cfdp_receiver.h"
#include <arpa/inet.h>
#include <inttypes.h>
#include <poll.h>
#include <stdio.h>
#include <stdlib.h>
#include <sys/socket.h>
#include <sys/stat.h>
#include <time.h>

static struct cfdp_receiver receiver = CFDP_RECEIVER_EMPTY;
static struct sockaddr_in peer;
static int link_fd;
static const char *folder;
static long closed, closed_at_most;
static int lacks_memory; /* for an outcome, which is taken later */

static void give_up(const char *why) {
    perror(why);
    exit(1);
}

static uint64_t milliseconds(void) {
    struct timespec now;
    if (clock_gettime(CLOCK_MONOTONIC, &now) != 0) give_up("clock");
    return (uint64_t)now.tv_sec * 1000 + (uint64_t)now.tv_nsec / 1000000;
}

/* Makes the folders above a file. The names of a path of the filestore are never "." or "..". */
static void make_folders(char *path) {
    for (char *at = path + strlen(folder) + 1; *at != 0; at++) {
        if (*at != '/') continue;
        *at = 0;
        mkdir(path, 0777);
        *at = '/';
    }
}

/* Writes the file that a transaction has just installed at its destination, before its requests can move it. */
static void write_out(struct cfdp_transaction id) {
    uint8_t name[256];
    size_t length = 0;
    if (cfdp_receiver_destination_name(&receiver, id.source, id.number, name, sizeof name, &length) != CFDP_ANSWER_DONE)
        return;
    struct cfdp_path path;
    char to[1024];
    cfdp_path_of(&path, (const char *)name);
    snprintf(to, sizeof to, "%s/%s", folder, (const char *)name);
    make_folders(to);
    FILE *file = fopen(to, "wb");
    if (file == NULL) {
        perror(to);
        return;
    }
    static uint8_t octets[65536];
    size_t count = 0;
    for (uint64_t at = 0;
         cfdp_receiver_read(&receiver, &path, at, octets, sizeof octets, &count) == CFDP_ANSWER_DONE && count > 0;
         at += count)
        if (fwrite(octets, 1, count, file) != count) give_up(to);
    if (fclose(file) != 0) give_up(to);
    printf("%" PRIu64 "/%" PRIu64 " file %s\n", id.source, id.number, (const char *)name);
}

static void tell(const struct cfdp_indication *it) {
    if (it->kind == CFDP_INDICATION_NONE || it->kind == CFDP_INDICATION_FILE_SEGMENT_RECV) return;
    printf("%" PRIu64 "/%" PRIu64 " ", it->transaction.source, it->transaction.number);
    switch (it->kind) {
    case CFDP_INDICATION_METADATA_RECV: printf("metadata %" PRIu64 "\n", it->length); break;
    case CFDP_INDICATION_EOF_RECV: printf("eof\n"); break;
    case CFDP_INDICATION_TRANSACTION_FINISHED:
        printf("finished %" PRIu32 " %s %" PRIu32 "\n", it->condition, it->incomplete ? "incomplete" : "complete",
            it->file_status);
        break;
    case CFDP_INDICATION_FAULT: printf("fault %" PRIu32 "\n", it->condition); break;
    case CFDP_INDICATION_ABANDONED: printf("abandoned %" PRIu32 "\n", it->condition); break;
    case CFDP_INDICATION_NONE:
    case CFDP_INDICATION_FILE_SEGMENT_RECV: break;
    }
}

/* Sends the PDUs of the last answer, and does what a report asks of this program. */
static void follow(const struct cfdp_report *report) {
    static uint8_t out[65536];
    size_t count = 0;
    for (size_t number = 0; cfdp_receiver_write(&receiver, number, out, sizeof out, &count) == CFDP_ANSWER_DONE;
         number++)
        if (sendto(link_fd, out, count, 0, (const struct sockaddr *)&peer, sizeof peer) < 0) perror("sendto");
    tell(&report->indication);
    if (report->became == CFDP_BECAME_REPLIED) {
        const struct cfdp_reply *reply = &report->reply;
        if (reply->kind == CFDP_REPLY_INSTALLED) write_out(report->transaction);
        if (reply->kind == CFDP_REPLY_PERFORMED)
            printf("%" PRIu64 "/%" PRIu64 " performed %02" PRIx32 "\n", reply->source, reply->number, reply->status);
        if (reply->kind == CFDP_REPLY_REFUSED)
            printf("%" PRIu64 "/%" PRIu64 " refused %d\n", reply->source, reply->number, (int)reply->refusal);
    }
    bool is_given_up = report->became == CFDP_BECAME_FAULTED && report->indication.kind == CFDP_INDICATION_FAULT;
    if (is_given_up || report->became == CFDP_BECAME_ACKNOWLEDGED || report->became == CFDP_BECAME_CLOSED) closed++;
}

/* Whether a call had nothing to do, or did nothing since its moment was too far ahead (`most_ahead` of the MIB). */
static bool did_nothing(const struct cfdp_report *report) {
    return report->became == CFDP_BECAME_NOTHING || report->became == CFDP_BECAME_TOO_FAR_AHEAD;
}

/* Performs the items of all transactions, and takes the outcome of those that are over. */
static void work_off(uint64_t now) {
    struct cfdp_report report = {0};
    do {
        if (cfdp_receiver_work(&receiver, now, &report) != CFDP_ANSWER_DONE) exit(1);
        follow(&report);
    } while (!did_nothing(&report));
    do {
        lacks_memory = cfdp_receiver_finish(&receiver, now, &report) != CFDP_ANSWER_DONE;
        if (lacks_memory) return;
        follow(&report);
    } while (!did_nothing(&report));
}

/* Waits for a datagram until the next deadline, and hands in what came, or that the time has passed. */
static void go_round(void) {
    static uint8_t octets[65536];
    struct cfdp_report report = {0};
    uint64_t due = 0, now = milliseconds();
    int wait = -1;
    if (cfdp_receiver_deadline(&receiver, &due) == CFDP_ANSWER_DONE)
        wait = due <= now ? 0 : due - now > 60000 ? 60000 : (int)(due - now);
    if (lacks_memory && (wait < 0 || wait > 100)) wait = 100;
    struct pollfd heard = {.fd = link_fd, .events = POLLIN};
    if (poll(&heard, 1, wait) < 0) give_up("poll");
    now = milliseconds();
    if (heard.revents & POLLIN) {
        ssize_t length = recv(link_fd, octets, sizeof octets, 0);
        if (length < 0) return; /* such as a peer that is not there yet */
        enum cfdp_answer answer = cfdp_receiver_receive(&receiver, now, octets, (size_t)length, &report);
        if (answer == CFDP_ANSWER_DONE) follow(&report);
        else printf("dropped %d\n", (int)answer);
    }
    while (cfdp_receiver_deadline(&receiver, &due) == CFDP_ANSWER_DONE && due <= now) {
        if (cfdp_receiver_expire(&receiver, now, &report) != CFDP_ANSWER_DONE) exit(1);
        follow(&report);
    }
    work_off(now);
}

/* What the filestore has in the end, with the size of each file. */
static void tell_all(void) {
    struct cfdp_path path = {0};
    struct cfdp_entry entry;
    while (cfdp_receiver_next(&receiver, &path, &entry) == CFDP_ANSWER_DONE)
        printf("has %.*s %" PRIu64 "\n", (int)path.length, (const char *)path.octets, entry.size);
}

static struct sockaddr_in address_of(const char *port) {
    const struct in_addr own = {htonl(INADDR_LOOPBACK)};
    return (struct sockaddr_in){.sin_family = AF_INET, .sin_port = htons((uint16_t)atoi(port)), .sin_addr = own};
}

int main(int count, char **words) {
    if (count < 4 || count > 6) {
        fprintf(stderr, "usage: udp_receiver PORT PEER_PORT FOLDER [CLOSED [CRC]]\n");
        return 2;
    }
    folder = words[3];
    if (strlen(folder) > 512) return 2;
    if (count > 4) closed_at_most = atol(words[4]);
    setvbuf(stdout, NULL, _IOLBF, 0);

    /* A file whose Metadata PDU says 0 octets is unbounded, and is granted the cap. */
    const struct cfdp_config config = {.entity = 2, .cap = 1000000, .blocks = 65536, .checks = 10};
    const struct cfdp_mib mib = {.ack_interval = 100,
        .ack_limit = 100,
        .ack_handler = CFDP_HANDLER_CANCEL,
        .nak_interval = 100,
        .nak_limit = 100,
        .nak_handler = CFDP_HANDLER_CANCEL,
        .check_interval = 500,
        .check_handler = CFDP_HANDLER_CANCEL,
        .inactivity_interval = 20000,
        .inactivity_handler = CFDP_HANDLER_CANCEL,
        .nak_mode = CFDP_NAK_IMMEDIATE,
        .has_crc = count > 5 && atoi(words[5]) != 0,
        .longest_nak = 1400};
    struct cfdp_engine engine = CFDP_ENGINE_EMPTY;
    if (cfdp_new(&engine, &config, NULL, 0) != CFDP_ANSWER_DONE) return 1;
    if (cfdp_receiver_new(&receiver, &engine, &mib) != CFDP_ANSWER_DONE) return 1;
    const struct sockaddr_in own = address_of(words[1]);
    const int room = 4 * 1024 * 1024;
    peer = address_of(words[2]);
    link_fd = socket(AF_INET, SOCK_DGRAM, 0);
    if (link_fd < 0 || bind(link_fd, (const struct sockaddr *)&own, sizeof own) != 0) give_up("socket");
    setsockopt(link_fd, SOL_SOCKET, SO_RCVBUF, &room, sizeof room);
    printf("ready\n");
    while (closed_at_most == 0 || closed < closed_at_most) go_round();
    tell_all();
    return cfdp_receiver_free(&receiver) != CFDP_ANSWER_DONE;
}
