/* What bench/library has a C compiler make of this, over include/qaudit.h and libqaudit.a:
 *
 *     events ROUNDS FILE     hands the events of the file in, so many times
 *
 * The file has a command for each line of a trace, as conformance/structs.py writes them, the
 * header first. They are read into structs before anything is measured. In each round the library
 * is opened, is handed all of them, has to accept them, and is closed. The processor time of a
 * round is written in nanoseconds, the least of all rounds.
 *
 * The exit status is 0, 1 where a verdict was not as wanted, and 2 where the input was none.
 */
#define _POSIX_C_SOURCE 199309L
#include "commands.h"
#include "qaudit.h"

#include <inttypes.h>
#include <stdio.h>
#include <stdlib.h>
#include <string.h>
#include <time.h>

enum kind { SENT, ACK, LOST, TIMER, DISCARD, CONFIRMED, KEYS, METRICS };

typedef struct event {
    enum kind kind;
    qaudit_packet packet;
    qaudit_acknowledgment ack;
    qaudit_fired_timer timer;
    qaudit_metrics_report metrics;
    uint64_t time;
    uint32_t space;
    qaudit_range *ranges;
    size_t count;
} event;

static void *room_for(size_t bytes) {
    void *room = malloc(bytes);
    if (!room) exit(2);
    return room;
}

/* What begins with its time. */
static void read_moment(event *e, enum kind kind) {
    e->kind = kind;
    e->time = number();
}

static void read_event(event *e) {
    memset(e, 0, sizeof *e);
    if (is_word("sent")) {
        e->kind = SENT;
        read_packet(&e->packet);
    } else if (is_word("ack")) {
        e->kind = ACK;
        read_ack(&e->ack);
        e->ranges = read_ranges(&e->count);
    } else if (is_word("lost")) {
        read_moment(e, LOST);
        e->space = small();
        e->ranges = read_ranges(&e->count);
    } else if (is_word("timer")) {
        e->kind = TIMER;
        read_timer(&e->timer);
    } else if (is_word("discard")) {
        read_moment(e, DISCARD);
        e->space = small();
    } else if (is_word("confirmed")) {
        read_moment(e, CONFIRMED);
    } else if (is_word("keys")) {
        read_moment(e, KEYS);
    } else if (is_word("metrics")) {
        e->kind = METRICS;
        read_metrics(&e->metrics);
    } else exit(2);
    place++;
}

static qaudit_status_t hand(qaudit *q, const event *e) {
    switch (e->kind) {
    case SENT: return qaudit_sent(q, &e->packet);
    case ACK: return qaudit_ack(q, &e->ack, e->ranges, e->count);
    case LOST: return qaudit_lost(q, e->time, e->space, e->ranges, e->count);
    case TIMER: return qaudit_timer(q, &e->timer);
    case DISCARD: return qaudit_discard(q, e->time, e->space);
    case CONFIRMED: return qaudit_confirmed(q, e->time);
    case KEYS: return qaudit_keys(q, e->time);
    default: return qaudit_metrics(q, &e->metrics);
    }
}

static int run(const qaudit_trace_header *header, const event *events, size_t count) {
    qaudit q = {NULL, false};
    qaudit_told told;
    size_t i;
    qaudit_status_t status = qaudit_open(&q);
    if (status == QAUDIT_OPEN) status = qaudit_header(&q, header);
    for (i = 0; i < count && status == QAUDIT_OPEN; i++) status = hand(&q, &events[i]);
    if (status == QAUDIT_OPEN) status = qaudit_finish(&q);
    if (status != QAUDIT_FINISHED || !qaudit_verdict(&q, &told) || told.kind != QAUDIT_ACCEPTED ||
        told.totals.events != count) {
        fprintf(stderr, "it is not accepted: status %" PRIu32 "\n", status);
        return 1;
    }
    qaudit_close(&q);
    return 0;
}

static double nanoseconds(void) {
    struct timespec now;
    clock_gettime(CLOCK_PROCESS_CPUTIME_ID, &now);
    return 1e9 * (double)now.tv_sec + (double)now.tv_nsec;
}

/* The file, with a NUL behind it. */
static char *text_of(const char *name) {
    FILE *file = fopen(name, "rb");
    long bytes;
    char *text;
    if (!file || fseek(file, 0, SEEK_END) != 0 || (bytes = ftell(file)) < 0 ||
        fseek(file, 0, SEEK_SET) != 0)
        exit(2);
    text = (char *)room_for((size_t)bytes + 1);
    if (fread(text, 1, (size_t)bytes, file) != (size_t)bytes) exit(2);
    text[bytes] = 0;
    fclose(file);
    return text;
}

int main(int argc, char **argv) {
    qaudit_trace_header header;
    event *events;
    size_t count = 0, lines = 0;
    long round, rounds = argc == 3 ? strtol(argv[1], NULL, 10) : 0;
    double least = 0;
    const char *at;
    if (rounds < 1) return 2;
    place = text_of(argv[2]);
    for (at = place; *at; at++) lines += *at == '\n';
    if (!is_word("header")) return 2;
    read_header(&header);
    place++;
    events = (event *)room_for((lines + 1) * sizeof *events);
    while (*place) read_event(&events[count++]);
    for (round = 0; round < rounds; round++) {
        double before = nanoseconds(), taken;
        if (run(&header, events, count)) return 1;
        taken = nanoseconds() - before;
        if (round == 0 || taken < least) least = taken;
    }
    printf("%zu %.0f\n", count, least);
    return 0;
}
