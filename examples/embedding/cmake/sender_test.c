/* A test of a small sender: sender_test TRACE. It writes what the sender did to the file TRACE, and
 * ends with status 1 at the first violation of RFC 9002, with the reason. */
#include "qaudit.h"

#include <inttypes.h>
#include <stdarg.h>
#include <stdio.h>
#include <stdlib.h>

#define SIZE 1200
#define WINDOW 12000 /* bytes that the sender keeps in flight */

/* ---- the audit, to be copied */

struct audit {
    qaudit q;
    FILE *trace;
    const char *name;
};

static void refused(struct audit *audit) {
    static uint8_t text[16384];
    size_t count = qaudit_around(&audit->q, 3, text, sizeof text);
    if (count <= sizeof text) fwrite(text, 1, count, stderr);
    fprintf(stderr, "the trace is %s\n", audit->name);
    exit(1); /* which writes the rest of the trace */
}

/* Judges a line of the trace, and keeps it. The format ends it. */
static void line(struct audit *audit, const char *format, ...) {
    char text[1024];
    va_list values;
    va_start(values, format);
    int count = vsnprintf(text, sizeof text, format, values);
    va_end(values);
    if (count < 0 || (size_t)count >= sizeof text) abort();
    fwrite(text, 1, (size_t)count, audit->trace);
    if (qaudit_feed(&audit->q, (const uint8_t *)text, (size_t)count) != QAUDIT_OPEN) refused(audit);
}

static void start(struct audit *audit, const char *name) {
    audit->q = (qaudit){0};
    audit->name = name;
    audit->trace = fopen(name, "w");
    if (audit->trace == NULL || qaudit_open_recorded(&audit->q) != QAUDIT_OPEN) {
        perror(name);
        exit(1);
    }
    line(audit, "{\"event\":\"header\",\"version\":1,\"role\":\"server\",\"max_datagram_size\":%d}\n", SIZE);
}

/* Losses that were not declared show only at the end. */
static void finish(struct audit *audit) {
    qaudit_told told = {0};
    qaudit_finish(&audit->q);
    if (!qaudit_verdict(&audit->q, &told) || told.kind != QAUDIT_ACCEPTED) refused(audit);
    qaudit_close(&audit->q);
    fclose(audit->trace);
}

/* ---- the sender, and what it calls */

struct sender {
    struct audit audit;
    uint64_t time, number, first_in_flight;
};

static void on_packet_sent(struct sender *it) {
    line(&it->audit,
         "{\"event\":\"sent\",\"time\":%" PRIu64 ",\"space\":\"app\",\"number\":%" PRIu64
         ",\"size\":%d,\"eliciting\":true,\"in_flight\":true}\n",
         it->time, it->number, SIZE);
}

static void on_ack_received(struct sender *it, uint64_t first, uint64_t last) {
    line(&it->audit,
         "{\"event\":\"ack\",\"time\":%" PRIu64 ",\"space\":\"app\",\"ranges\":[[%" PRIu64 ",%" PRIu64 "]]}\n",
         it->time, first, last);
}

static void send_all(struct sender *it) {
    while ((it->number + 1 - it->first_in_flight) * SIZE <= WINDOW) {
        on_packet_sent(it);
        it->number++;
    }
}

static void receive(struct sender *it, uint64_t time) {
    it->time = time;
    on_ack_received(it, it->first_in_flight, it->number - 1);
    it->first_in_flight = it->number;
}

int main(int argc, char **argv) {
    struct sender it = {.number = 0};
    start(&it.audit, argc > 1 ? argv[1] : "sender.trace");
    send_all(&it);
    receive(&it, 100000);
    send_all(&it);
    finish(&it.audit);
    return 0;
}
