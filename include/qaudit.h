/* qaudit.h: an auditor of QUIC loss recovery (RFC 9002), for C and C++.
 *
 * A test passes in what a sender does, while it runs, and learns of the first violation of the
 * standard: as the text of a trace, in pieces of any size (qaudit_feed), or as one struct per event
 * (qaudit_header, qaudit_sent, qaudit_ack, ..). You can mix both: an event is judged as the line of
 * a trace that says the same. docs/format.md of the repository says what each line means, and
 * docs/machine.md has the rules.
 *
 *     qaudit q = {0};
 *     qaudit_trace_header header = {.max_datagram_size = 1200, .role = QAUDIT_SERVER};
 *     if (qaudit_open(&q) != QAUDIT_OPEN) return out_of_memory();
 *     qaudit_header(&q, &header);
 *     qaudit_packet packet = {.time = 0, .number = 0, .size = 1200, .space = QAUDIT_APP,
 *                             .leave = QAUDIT_WINDOW, .eliciting = true, .in_flight = true};
 *     if (qaudit_sent(&q, &packet) != QAUDIT_OPEN) return violation(&q);
 *     qaudit_finish(&q);
 *     qaudit_verdict(&q, &verdict);
 *     qaudit_close(&q);
 *
 * In C++ write `qaudit_packet packet{};`, which is all zero, and set its members: the names in
 * braces need C++20, and `-Wextra` warns about those that are left out.
 *
 * Link libqaudit.a. It needs malloc, realloc, free, memcpy, memmove and memset of the C library,
 * the division of 128-bit numbers that each compiler links by itself (__udivti3 of libgcc or
 * compiler-rt), and nothing else. No function here prints, exits, blocks, starts a thread or keeps
 * a global variable.
 *
 * Caller's obligations, which are not checked:
 *   - A `qaudit` is all zero (`qaudit q = {0};`, in C++ `qaudit q{};`), or what these functions
 *     last left in it.
 *   - One that is open is not copied, and is given to one call at a time. It may go from thread to
 *     thread if something orders that: a lock, a join, a queue.
 *   - Pointers are not NULL, even for 0 bytes, and point to as much as the function says. Output
 *     does not overlap input. A `bool` is 0 or 1.
 * Any order of calls has an answer, which the functions below document.
 */
#ifndef QAUDIT_H
#define QAUDIT_H

#include <stdbool.h>
#include <stddef.h>
#include <stdint.h>

#ifdef __cplusplus
extern "C" {
#endif

/* An audit, or none: all zero is none. Its fields are not for callers. */
typedef struct qaudit {
    void *at;
    bool is_open;
} qaudit;

/* ---- statuses */

/* What most functions return: how far the audit is after the call, or why the call took nothing. */
typedef uint32_t qaudit_status_t;

enum {
    QAUDIT_OPEN = 0,          /* what follows can change the verdict */
    QAUDIT_FIXED = 1,         /* the verdict is known, whatever follows: something was not good */
    QAUDIT_FINISHED = 2,      /* the verdict is known: nothing follows */
    QAUDIT_OUT_OF_MEMORY = 3, /* there is no verdict, and never will be; qaudit_close it */
    QAUDIT_CLOSED = 4,        /* it is not open */

    /* At these nothing was taken: */
    QAUDIT_OUT_OF_RANGE = 5,  /* a value of the struct is outside its range, or its line too long */
    QAUDIT_NOT_TAKEN = 6,     /* no memory for the ranges; the call may be tried again */
    QAUDIT_INSIDE_LINE = 7    /* the bytes that were fed end inside a line */
};

/* Opens `q` for a new audit. What was open before is closed.
 * Returns QAUDIT_OPEN, or QAUDIT_CLOSED if there is no memory. */
qaudit_status_t qaudit_open(qaudit *q);

/* Opens `q` as qaudit_open does, for an audit that keeps the text of what it is handed, so that
 * qaudit_why and qaudit_around can say why a trace is refused: pieces as they are, and for an event
 * the line of a trace that says it. Memory grows by about the text of the trace, 100 to 150 bytes
 * per event, until the verdict is fixed.
 *
 * If there is no memory for more text, the audit goes on without it: what was kept is given back,
 * and qaudit_why, qaudit_around and qaudit_allowed return 0 from then on. So it does after an event
 * with so many ranges that its line, written with all its keys, has more than 65,536 bytes. */
qaudit_status_t qaudit_open_recorded(qaudit *q);

/* Closes `q` and gives its memory back. A closed one stays closed. */
void qaudit_close(qaudit *q);

/* ---- text */

/* Takes the next `count` bytes of a trace. Pieces need not end at the end of a line.
 * Returns how far the audit is then, 0 to 3, or QAUDIT_CLOSED. Once the verdict is fixed, and after
 * qaudit_finish, it changes nothing. */
qaudit_status_t qaudit_feed(qaudit *q, const uint8_t *bytes, size_t count);

/* ---- events
 *
 * Each of these takes an event, which is judged as the line of a trace that says it. Each returns
 * how far the audit is then, 0 to 3, QAUDIT_CLOSED, QAUDIT_OUT_OF_RANGE or QAUDIT_INSIDE_LINE, and
 * qaudit_ack and qaudit_lost also QAUDIT_NOT_TAKEN. Once the verdict is fixed, and after
 * qaudit_finish, they change nothing. The header comes first: an event before it fixes the verdict,
 * as it does in a trace.
 *
 * A line of a trace has 65,536 bytes at most. An acknowledgment or a loss whose shortest line,
 * without a delay of 0 and "limited" that is false, would have more is out of range, and nothing is
 * taken; 1,024 ranges fit whatever their numbers are.
 *
 * Times are in the unit of the header, from 0 to 10^15, and packet numbers from 0 to 2^62 - 1. */

/* Packet number spaces, roles and units of times. */
enum { QAUDIT_INITIAL = 0, QAUDIT_HANDSHAKE = 1, QAUDIT_APP = 2 };
enum { QAUDIT_CLIENT = 0, QAUDIT_SERVER = 1 };
enum { QAUDIT_MICROSECONDS = 0, QAUDIT_NANOSECONDS = 1 };

/* Whose congestion window counts; whether packets past the packet threshold are lost, or may be;
 * and what that threshold counts. */
enum { QAUDIT_NEWRENO = 0, QAUDIT_REPORTED = 1 };
enum { QAUDIT_MUST = 0, QAUDIT_MAY = 1 };
enum { QAUDIT_NUMBERS = 0, QAUDIT_PACKETS = 1 };

/* A header (docs/format.md, "Header"), of version 3. A value with a `has_` flag counts if the flag
 * is set; otherwise it is the default. So all zero, except for max_datagram_size, means the same as
 * a header of version 1 of a client. */
typedef struct qaudit_trace_header {
    uint64_t max_datagram_size;  /* in bytes, 1200 to 65527 */

    /* In the unit. */
    uint64_t max_ack_delay;      /* of the peer, 0 to 16383000 microseconds; else 25000 */
    uint64_t initial_rtt;        /* 1 to 1000000000 microseconds; else 333000 */

    /* In bytes, twice max_datagram_size to 4294967295; else as RFC 9002, 7.2. */
    uint64_t initial_window;

    /* In microseconds, whatever the unit is. */
    uint64_t timer_late_us;      /* how late a timer may be, 0 to 10^15; else any */
    uint64_t timer_early_us;     /* how early a timer may be, 0 to 1000000000 */
    uint64_t report_slack_us;    /* how far a reported time may be off, 0 to 1000000000 */

    uint64_t report_slack_bytes; /* by how many bytes reported ones may be off, 0 to 4294967295 */
    uint64_t packet_threshold;   /* kPacketThreshold, 3 to 65535; else 3 */
    uint64_t time_threshold_eighths; /* kTimeThreshold in eighths of the RTT, 9 to 32; else 9 */
    uint32_t role;               /* QAUDIT_CLIENT or QAUDIT_SERVER */
    uint32_t unit;               /* QAUDIT_MICROSECONDS or QAUDIT_NANOSECONDS */
    uint32_t window;             /* QAUDIT_NEWRENO or QAUDIT_REPORTED */
    uint32_t loss_by_number;     /* QAUDIT_MUST, or QAUDIT_MAY if the window is a reported one */
    uint32_t threshold_counts;   /* QAUDIT_NUMBERS or QAUDIT_PACKETS */
    bool has_max_ack_delay;
    bool has_initial_rtt;
    bool has_initial_window;
    bool has_timer_late_us;
    bool has_packet_threshold;
    bool has_time_threshold_eighths;
    bool refresh_min_rtt;        /* persistent congestion sets min_rtt to the latest sample */
    bool window_overshoot;       /* a packet may be sent if any of the window is left */
    bool sample_eliciting_only;  /* a sample of the RTT needs an ack-eliciting largest packet */
    bool reset_rtt;              /* persistent congestion resets the estimate of the RTT */
    bool latest_rtt_less_delay;  /* each latest_rtt but the first is less the peer's delay */
    bool recovery_by_order;      /* what was sent in recovery goes by lines, not times */
} qaudit_trace_header;

/* Takes the header. */
qaudit_status_t qaudit_header(qaudit *q, const qaudit_trace_header *header);

/* Why an in-flight packet was allowed out. */
enum { QAUDIT_WINDOW = 0, QAUDIT_PROBE = 1, QAUDIT_RECOVERY = 2 };

typedef struct qaudit_packet {
    uint64_t time;
    uint64_t number;  /* its packet number */
    uint64_t size;    /* in bytes, 1 to 65527 */
    uint32_t space;   /* QAUDIT_INITIAL, QAUDIT_HANDSHAKE or QAUDIT_APP */
    uint32_t leave;   /* QAUDIT_WINDOW, QAUDIT_PROBE or QAUDIT_RECOVERY */
    bool eliciting;   /* it is ack-eliciting, and then in flight too */
    bool in_flight;
} qaudit_packet;

/* Takes a packet that was sent. */
qaudit_status_t qaudit_sent(qaudit *q, const qaudit_packet *packet);

/* The packet numbers from `least` to `greatest`, inclusive. */
typedef struct qaudit_range {
    uint64_t least;
    uint64_t greatest; /* not below least */
} qaudit_range;

typedef struct qaudit_acknowledgment {
    uint64_t time;
    uint64_t delay;   /* the ACK delay as the sender used it, before it limited it, in the unit */
    uint32_t space;
    bool app_limited; /* the sender did not use the window that it had (RFC 9002, section 7.8) */
} qaudit_acknowledgment;

/* Records an acknowledgment that came, of `count` ranges in any order, at least one. */
qaudit_status_t qaudit_ack(qaudit *q, const qaudit_acknowledgment *ack, const qaudit_range *ranges,
                           size_t count);

/* Records packets that the sender declared lost, as `count` ranges in any order, at least one. */
qaudit_status_t qaudit_lost(qaudit *q, uint64_t time, uint32_t space, const qaudit_range *ranges,
                            size_t count);

/* What the loss detection timer fired for: a packet old enough to be lost, or a probe timeout. */
enum { QAUDIT_TIMER_LOSS = 0, QAUDIT_TIMER_PTO = 1 };

typedef struct qaudit_fired_timer {
    uint64_t time;
    uint32_t kind;  /* QAUDIT_TIMER_LOSS or QAUDIT_TIMER_PTO */
    uint32_t space;
} qaudit_fired_timer;

/* Records a timer that fired. */
qaudit_status_t qaudit_timer(qaudit *q, const qaudit_fired_timer *timer);

/* Records that a space's keys were discarded: QAUDIT_INITIAL or QAUDIT_HANDSHAKE. */
qaudit_status_t qaudit_discard(qaudit *q, uint64_t time, uint32_t space);

/* Records that the handshake was confirmed. */
qaudit_status_t qaudit_confirmed(qaudit *q, uint64_t time);

/* Records that the keys of the Handshake space are available. */
qaudit_status_t qaudit_keys(qaudit *q, uint64_t time);

/* What a sender reports of itself, to be compared. A value counts if its flag is set. */
typedef struct qaudit_metrics_report {
    uint64_t time;
    uint64_t window;          /* in bytes, as the two below */
    uint64_t ssthresh;
    uint64_t bytes_in_flight;
    uint64_t latest_rtt;      /* in the unit, as the three below */
    uint64_t min_rtt;
    uint64_t smoothed_rtt;
    uint64_t rttvar;
    bool has_window;
    bool has_ssthresh;
    bool has_bytes_in_flight;
    bool has_latest_rtt;
    bool has_min_rtt;
    bool has_smoothed_rtt;
    bool has_rttvar;
} qaudit_metrics_report;

/* Records a report of the sender. */
qaudit_status_t qaudit_metrics(qaudit *q, const qaudit_metrics_report *metrics);

/* ---- the verdict */

/* Says that nothing follows: the verdict is that of everything so far.
 * Returns QAUDIT_FINISHED, QAUDIT_OUT_OF_MEMORY or QAUDIT_CLOSED. */
qaudit_status_t qaudit_finish(qaudit *q);

/* Returns how far the audit is, 0 to 4, and changes nothing. */
qaudit_status_t qaudit_status(qaudit *q);

enum { QAUDIT_ACCEPTED = 1, QAUDIT_REFUSED = 2, QAUDIT_UNREADABLE = 3 };

/* The state of the model after the good lines (docs/machine.md); bytes, and times in the unit. */
typedef struct qaudit_totals {
    uint64_t events;
    uint64_t window;
    uint64_t ssthresh; /* 0 if there is none */
    uint64_t bytes_in_flight;
    uint64_t latest_rtt;
    uint64_t min_rtt;
    uint64_t smoothed_rtt;
    uint64_t rttvar;
    uint64_t pto_count;
    uint64_t owed;     /* packets that are detected as lost and not declared */
    bool has_ssthresh;
} qaudit_totals;

typedef struct qaudit_told {
    uint32_t kind;        /* QAUDIT_ACCEPTED, QAUDIT_REFUSED or QAUDIT_UNREADABLE */
    uint32_t code;        /* the rule that is broken, 7 for V7; if unreadable the fault, 3 for F3 */
    uint64_t line;        /* the first line that is not good, from 1, each event a line; or 0 */
    uint32_t subject;     /* the key or reported value that it is about (qaudit_key_name); or 0 */
    qaudit_totals totals; /* those before that line */
    bool has_totals;      /* false if no header was read; all totals are 0 then */
} qaudit_told;

/* Writes the verdict to `out` if it is known: at QAUDIT_FIXED and QAUDIT_FINISHED.
 * Returns whether it is; if not, `out` stays as it was. */
bool qaudit_verdict(qaudit *q, qaudit_told *out);

/* ---- texts
 *
 * Each of these returns how many bytes its text has, and writes it to the front of `out` if `room`
 * is at least that; otherwise `out` stays as it was. No NUL is written. 0 means that there is no
 * text. */

/* The report, as `qaudit check` writes it: at most 400 bytes. 0 if no verdict is known, or there is
 * no memory for the text. */
size_t qaudit_report(qaudit *q, uint8_t *out, size_t room);

/* The first line of the report, with its LF: at most 100 bytes. */
size_t qaudit_first_line(qaudit *q, uint8_t *out, size_t room);

/* Why the trace is refused or unreadable, or what its acceptance rests on: the text that
 * `qaudit-why` writes of what was recorded so far, as a trace on standard input that ends there
 * (docs/why.md). It takes as long as qaudit_feed takes for that text. 0 if `q` was not opened by
 * qaudit_open_recorded, or there is no memory. */
size_t qaudit_why(qaudit *q, uint8_t *out, size_t room);

/* The same with the state of the model after each of the last `rows` lines before, as `qaudit-why
 * --around` writes it. */
size_t qaudit_around(qaudit *q, uint16_t rows, uint8_t *out, size_t room);

/* What the header of an accepted trace allowed past a rule, as `qaudit-why` lists it below
 * `accepted`. */
typedef struct qaudit_allowance {
    uint64_t count;    /* how many events went past the rule */
    uint64_t first;    /* the line of the first, counted from 1, each event a line */
    uint64_t last;     /* the line of the last */
    uint64_t greatest; /* how far one went past it at most: in bytes at V7, at V19 and for reported
                          bytes, else in the unit */
    uint64_t limit;    /* how far the header allows it, in the same; 0 without has_limit */
    uint32_t rule;     /* 7, 13, 16, 18 or 19 */
    uint32_t subject;  /* at V16 the reported value, for qaudit_key_name; or 0 */
    uint32_t key;      /* the key of the header that allows it, for qaudit_key_name */
    bool has_limit;    /* false at V7, and at V18 if the header sets no limit for late timers */
} qaudit_allowance;

/* Writes these to the front of `out` in the order of the rules, if `room` is at least how many they
 * are; otherwise `out` stays as it was. Returns how many they are, 14 at most. 0 if nothing was
 * allowed, if what was recorded so far is not accepted as a trace that ends there, if `q` was not
 * opened by qaudit_open_recorded, or if there is no memory. */
size_t qaudit_allowed(qaudit *q, qaudit_allowance *out, size_t room);

/* The name of a rule, 1 for V1 to 19; of a fault, 1 for F1 to 11; and of a key, 1 to 41. At most 22
 * bytes. */
size_t qaudit_rule_name(uint32_t rule, uint8_t *out, size_t room);
size_t qaudit_fault_name(uint32_t fault, uint8_t *out, size_t room);
size_t qaudit_key_name(uint32_t key, uint8_t *out, size_t room);

#ifdef __cplusplus
}
#endif

#endif
