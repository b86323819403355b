/* What conformance/fuzz_library has clang make of this, with libFuzzer and AddressSanitizer, over
 * include/qaudit.h.
 *
 * The first byte of an input says what it is. If it is even, the second is the size of a piece, and
 * the rest a trace, which is fed in such pieces and as a whole: the two reports must be one. If it
 * is odd, the rest are calls: a byte for the function, and its numbers, each as a byte below 0xE0,
 * or as 0xE0, 0xE1 or 0xE2 and 2, 4 or 8 bytes, or as the byte of a number at a limit. What a call
 * returns must be what the header promises. One of the calls is none: it says which allocations
 * from then on are refused.
 */
#include "qaudit.h"

#include <stdio.h>
#include <stdlib.h>
#include <string.h>

#define REPORT 400
#define FIRST_LINE 100
#define NAME 22
#define GUARD 32
#define MOST_RANGES 5000
#define MOST_PACKETS 5000
#define MOST_ALLOWED 14

int LLVMFuzzerTestOneInput(const uint8_t *bytes, size_t count);

static void check(bool is_right, const char *what) {
    if (is_right) return;
    fprintf(stderr, "fuzz_library: %s\n", what);
    abort();
}

/* ---- memory: the linker takes these two for malloc and realloc; here blocks come from calloc */

typedef struct refusals {
    uint8_t before; /* allocations before the first that is refused */
    uint8_t count;  /* and how many are, one after another */
    bool happened;  /* in this call */
} refusals;

static refusals memory;

static bool is_refused(void) {
    if (!memory.count) return false;
    if (memory.before) {
        memory.before--;
        return false;
    }
    memory.count--;
    memory.happened = true;
    return true;
}

#ifdef __cplusplus
extern "C" {
#endif
void *__real_malloc(size_t size);
void *__real_realloc(void *old, size_t size);
void *__wrap_malloc(size_t size);
void *__wrap_realloc(void *old, size_t size);
#ifdef __cplusplus
}
#endif

void *__wrap_malloc(size_t size) { return is_refused() ? NULL : __real_malloc(size); }

void *__wrap_realloc(void *old, size_t size) {
    return is_refused() ? NULL : __real_realloc(old, size);
}

/* ---- the input */

typedef struct input {
    const uint8_t *at;
    size_t left;
} input;

static uint8_t next(input *in) {
    if (!in->left) return 0;
    in->left--;
    return *in->at++;
}

static uint64_t number(input *in) {
    static const uint64_t limits[] = {
        UINT64_MAX, UINT64_MAX - 1, INT64_MAX, 1000000000000000, 1000000000000001,
        4611686018427387903, 4611686018427387904, UINT32_MAX, 4294967296, 65527, 65528, 65536,
        1200, 1199, 16383000, 16383001, 1000000000, 1000000001, 2400, 12000, 333000, 100000, 25000,
        65535, 1024, 1025, 4096, 255, 256};
    uint8_t first = next(in);
    uint64_t value = 0;
    int i, width;
    if (first < 0xE0) return first;
    if (first >= 0xE3) return limits[first - 0xE3];
    width = 2 << (first - 0xE0);
    for (i = 0; i < width; i++) value |= (uint64_t)next(in) << 8 * i;
    return value;
}

static uint32_t small(input *in) { return (uint32_t)number(in); }

static bool flag(input *in) { return next(in) & 1; }

/* A block of its own, so that a byte beyond it is seen. */
static void *copy(const void *from, size_t size) {
    void *block = calloc(size ? size : 1, 1);
    check(block != NULL, "no memory for the input");
    if (size) memcpy(block, from, size);
    return block;
}

/* ---- what must hold of an audit, whatever was handed in */

typedef size_t (*put)(qaudit *q, uint8_t *out, size_t room);

/* Whether a text has the length that it has, or none for want of memory. */
static bool is_length(size_t count, size_t wanted) {
    return count == wanted || (memory.happened && count == 0);
}

static size_t text_of(qaudit *q, put function, size_t most, uint8_t *text) {
    uint8_t guarded[REPORT + GUARD], before[REPORT + GUARD];
    size_t count, i;
    memset(before, 0xA5, sizeof before);
    memcpy(guarded, before, sizeof guarded);
    count = function(q, guarded, most);
    check(count <= most, "a text is longer than the header says");
    for (i = count; i < sizeof guarded; i++)
        check(guarded[i] == 0xA5, "a text has bytes behind it");
    memcpy(text, guarded, count);
    if (count) {
        memcpy(guarded, before, sizeof guarded);
        check(is_length(function(q, guarded, count - 1), count), "a text has another length");
        check(memcmp(guarded, before, sizeof guarded) == 0, "a short buffer was written to");
    }
    return count;
}

static void tell(qaudit *q, qaudit_status_t state) {
    uint8_t text[REPORT], line[FIRST_LINE];
    bool is_known = state == QAUDIT_FIXED || state == QAUDIT_FINISHED;
    size_t count, first;
    qaudit_told told;
    memset(&told, 0xA5, sizeof told);
    check(qaudit_status(q) == state, "the status is another");
    check(qaudit_verdict(q, &told) == is_known, "a verdict is known, or is not, at a wrong time");
    if (is_known) {
        check(told.kind >= 1 && told.kind <= 3, "the verdict has no kind");
        check(state == QAUDIT_FINISHED || told.kind != QAUDIT_ACCEPTED, "accepted before the end");
    } else {
        check(told.kind == 0xA5A5A5A5, "a verdict was written that is not known");
    }
    count = text_of(q, qaudit_report, REPORT, text);
    first = text_of(q, qaudit_first_line, FIRST_LINE, line);
    check(is_length(count > 0, is_known), "a report without a verdict, or none with it");
    check(is_length(first > 0, is_known), "a first line without a verdict, or none with it");
    check(!count || (first <= count && memcmp(text, line, first) == 0),
          "the first line is another");
}

/* What a call hands in, by which it is known how it may take nothing. */
typedef enum handed { TEXT, EVENT, RANGES } handed;

static bool took_nothing(qaudit_status_t returned, handed what) {
    if (what == TEXT) return false;
    if (returned == QAUDIT_OUT_OF_RANGE || returned == QAUDIT_INSIDE_LINE) return true;
    return returned == QAUDIT_NOT_TAKEN && what == RANGES && memory.happened;
}

/* How far an audit is after a call, and whether the call may return that. */
static qaudit_status_t after(qaudit *q, qaudit_status_t state, qaudit_status_t returned,
                             handed what) {
    if (took_nothing(returned, what)) returned = state;
    if (state == QAUDIT_OPEN) {
        bool is_out = returned == QAUDIT_OUT_OF_MEMORY && memory.happened;
        check(returned == QAUDIT_OPEN || returned == QAUDIT_FIXED || is_out, "no such status");
        state = returned;
    }
    check(returned == state, "a call moved an audit that was at its end");
    check(qaudit_status(q) == state, "the status is another after a call");
    return state;
}

/* ---- calls */

static qaudit_status_t feed(qaudit *q, input *in) {
    size_t count = (size_t)number(in);
    uint8_t *block;
    qaudit_status_t status;
    if (count > in->left) count = in->left;
    block = (uint8_t *)copy(in->at, count);
    in->at += count;
    in->left -= count;
    status = qaudit_feed(q, block, count);
    free(block);
    return status;
}

static qaudit_status_t header(qaudit *q, input *in) {
    qaudit_trace_header h;
    memset(&h, 0, sizeof h);
    h.max_datagram_size = number(in);
    h.max_ack_delay = number(in);
    h.initial_rtt = number(in);
    h.initial_window = number(in);
    h.timer_late_us = number(in);
    h.timer_early_us = number(in);
    h.report_slack_us = number(in);
    h.report_slack_bytes = number(in);
    h.packet_threshold = number(in);
    h.time_threshold_eighths = number(in);
    h.role = small(in);
    h.unit = small(in);
    h.window = small(in);
    h.loss_by_number = small(in);
    h.threshold_counts = small(in);
    h.has_max_ack_delay = flag(in);
    h.has_initial_rtt = flag(in);
    h.has_initial_window = flag(in);
    h.has_timer_late_us = flag(in);
    h.has_packet_threshold = flag(in);
    h.has_time_threshold_eighths = flag(in);
    h.refresh_min_rtt = flag(in);
    h.window_overshoot = flag(in);
    h.sample_eliciting_only = flag(in);
    h.reset_rtt = flag(in);
    h.latest_rtt_less_delay = flag(in);
    h.recovery_by_order = flag(in);
    return qaudit_header(q, &h);
}

static qaudit_packet packet(input *in) {
    qaudit_packet p;
    memset(&p, 0, sizeof p);
    p.time = number(in);
    p.number = number(in);
    p.size = number(in);
    p.space = small(in);
    p.leave = small(in);
    p.eliciting = flag(in);
    p.in_flight = flag(in);
    return p;
}

static qaudit_status_t sent(qaudit *q, input *in) {
    qaudit_packet p = packet(in);
    return qaudit_sent(q, &p);
}

/* Packets of which only the numbers differ: so a short input has many of them. */
static qaudit_status_t many_sent(qaudit *q, input *in, qaudit_status_t state) {
    qaudit_packet p = packet(in);
    size_t count = (size_t)(number(in) % (MOST_PACKETS + 1)), i;
    uint8_t step = next(in);
    for (i = 0; i < count; i++) {
        state = after(q, state, qaudit_sent(q, &p), EVENT);
        p.number += step;
    }
    return state;
}

static qaudit_range *ranges(input *in, size_t *count) {
    qaudit_range *all;
    size_t i;
    *count = (size_t)(number(in) % (MOST_RANGES + 1));
    all = (qaudit_range *)calloc(*count ? *count : 1, sizeof *all);
    check(all != NULL, "no memory for ranges");
    for (i = 0; i < *count; i++) {
        all[i].least = number(in);
        all[i].greatest = number(in);
    }
    return all;
}

static qaudit_status_t ack(qaudit *q, input *in) {
    qaudit_acknowledgment a;
    qaudit_range *all;
    size_t count;
    qaudit_status_t status;
    memset(&a, 0, sizeof a);
    a.time = number(in);
    a.delay = number(in);
    a.space = small(in);
    a.app_limited = flag(in);
    all = ranges(in, &count);
    status = qaudit_ack(q, &a, all, count);
    free(all);
    return status;
}

static qaudit_status_t lost(qaudit *q, input *in) {
    uint64_t time = number(in);
    uint32_t space = small(in);
    size_t count;
    qaudit_range *all = ranges(in, &count);
    qaudit_status_t status = qaudit_lost(q, time, space, all, count);
    free(all);
    return status;
}

static qaudit_status_t timer(qaudit *q, input *in) {
    qaudit_fired_timer t;
    memset(&t, 0, sizeof t);
    t.time = number(in);
    t.kind = small(in);
    t.space = small(in);
    return qaudit_timer(q, &t);
}

static qaudit_status_t discard(qaudit *q, input *in) {
    uint64_t time = number(in);
    return qaudit_discard(q, time, small(in));
}

static qaudit_status_t metrics(qaudit *q, input *in) {
    qaudit_metrics_report m;
    memset(&m, 0, sizeof m);
    m.time = number(in);
    m.window = number(in);
    m.ssthresh = number(in);
    m.bytes_in_flight = number(in);
    m.latest_rtt = number(in);
    m.min_rtt = number(in);
    m.smoothed_rtt = number(in);
    m.rttvar = number(in);
    m.has_window = flag(in);
    m.has_ssthresh = flag(in);
    m.has_bytes_in_flight = flag(in);
    m.has_latest_rtt = flag(in);
    m.has_min_rtt = flag(in);
    m.has_smoothed_rtt = flag(in);
    m.has_rttvar = flag(in);
    return qaudit_metrics(q, &m);
}

/* A name ends within its buffer, and one of which there is no room is not written. */
static void names(input *in) {
    static size_t (*const functions[])(uint32_t, uint8_t *, size_t) = {
        qaudit_rule_name, qaudit_fault_name, qaudit_key_name};
    size_t (*function)(uint32_t, uint8_t *, size_t) = functions[next(in) % 3];
    uint32_t which = small(in);
    uint8_t text[NAME + GUARD];
    size_t room = number(in) % (NAME + 1), count, i;
    memset(text, 0xA5, sizeof text);
    count = function(which, text, room);
    check(count <= NAME, "a name is longer than the header says");
    for (i = count <= room ? count : 0; i < sizeof text; i++)
        check(text[i] == 0xA5, "a name was written where it has no room");
}

/* A reason is written where it has room, and in no other place; none if nothing is open. */
static void reason(qaudit *q, input *in, qaudit_status_t state) {
    uint16_t rows = (uint16_t)number(in);
    uint8_t none = 0xA5, *text;
    size_t count = qaudit_around(q, rows, &none, 0), first = qaudit_why(q, &none, 0), written;
    check(none == 0xA5, "a reason was written where it has no room");
    check(memory.happened || (first <= count && (first > 0) == (count > 0)),
          "rows take away from the reason");
    check(state != QAUDIT_CLOSED || count == 0, "a reason without a session");
    if (!count) return;
    text = (uint8_t *)calloc(count, 1);
    check(text != NULL, "no memory for a reason");
    written = qaudit_around(q, rows, text, count);
    check(is_length(written, count), "a reason has another length");
    check(!written || text[0] == '-', "a reason has another name");
    free(text);
}

/* So are allowances. */
static void allowed(qaudit *q, qaudit_status_t state) {
    qaudit_allowance all[MOST_ALLOWED + 1], before[MOST_ALLOWED + 1];
    size_t count;
    memset(all, 0xA5, sizeof all);
    memset(before, 0xA5, sizeof before);
    count = qaudit_allowed(q, all, MOST_ALLOWED);
    check(state != QAUDIT_CLOSED || count == 0, "something was allowed without a session");
    check(count <= MOST_ALLOWED, "more was allowed than the header says");
    check(memcmp(all + count, before, sizeof all - count * sizeof *all) == 0,
          "allowances have something behind them");
}

/* How far an audit is after it was opened. */
static qaudit_status_t opened(qaudit_status_t returned) {
    check(returned == QAUDIT_OPEN || (memory.happened && returned == QAUDIT_CLOSED),
          "it was not opened");
    return returned;
}

static qaudit_status_t finish(qaudit *q, qaudit_status_t state) {
    qaudit_status_t returned = qaudit_finish(q), wanted = QAUDIT_FINISHED;
    bool is_out = state == QAUDIT_OPEN && memory.happened && returned == QAUDIT_OUT_OF_MEMORY;
    if (state == QAUDIT_CLOSED || state == QAUDIT_OUT_OF_MEMORY) wanted = state;
    check(returned == wanted || is_out, "it was not finished");
    return returned;
}

static void refuse(input *in) {
    memory.before = next(in);
    memory.count = next(in);
}

/* Makes the next call, and says how far the audit is then. */
static qaudit_status_t call(qaudit *q, input *in, qaudit_status_t state) {
    switch (next(in) % 16) {
    case 0: return after(q, state, feed(q, in), TEXT);
    case 1: return after(q, state, header(q, in), EVENT);
    case 2: return after(q, state, sent(q, in), EVENT);
    case 3: return after(q, state, ack(q, in), RANGES);
    case 4: return after(q, state, lost(q, in), RANGES);
    case 5: return after(q, state, timer(q, in), EVENT);
    case 6: return after(q, state, discard(q, in), EVENT);
    case 7: return after(q, state, qaudit_confirmed(q, number(in)), EVENT);
    case 8: return after(q, state, qaudit_keys(q, number(in)), EVENT);
    case 9: return after(q, state, metrics(q, in), EVENT);
    case 10: return opened(qaudit_open(q));
    case 11:
        qaudit_close(q);
        check(q->at == NULL && !q->is_open, "it was not closed");
        return QAUDIT_CLOSED;
    case 12: return finish(q, state);
    case 13: tell(q, state); return state;
    case 14: names(in); return state;
    default:
        switch (next(in) % 5) {
        case 0: return opened(qaudit_open_recorded(q));
        case 1: reason(q, in, state); return state;
        case 2: allowed(q, state); return state;
        case 3: refuse(in); return state;
        default: return many_sent(q, in, state);
        }
    }
}

static void make_calls(input *in) {
    qaudit q = {NULL, false};
    qaudit_status_t state = QAUDIT_CLOSED;
    tell(&q, state);
    while (in->left) {
        memory.happened = false;
        state = call(&q, in, state);
    }
    memset(&memory, 0, sizeof memory);
    tell(&q, state);
    qaudit_close(&q);
}

/* ---- a trace, in pieces and as a whole */

static size_t report_of(const uint8_t *bytes, size_t count, size_t piece, uint8_t *text) {
    qaudit q = {NULL, false};
    qaudit_status_t state = qaudit_open(&q);
    size_t at, size;
    for (at = 0; at < count; at += size) {
        uint8_t *block;
        size = piece && piece < count - at ? piece : count - at;
        block = (uint8_t *)copy(bytes + at, size);
        state = after(&q, state, qaudit_feed(&q, block, size), TEXT);
        free(block);
    }
    check(qaudit_finish(&q) == QAUDIT_FINISHED, "it was not finished");
    tell(&q, QAUDIT_FINISHED);
    size = qaudit_report(&q, text, REPORT);
    qaudit_close(&q);
    return size;
}

static void feed_trace(input *in) {
    uint8_t whole[REPORT], pieces[REPORT];
    size_t piece = next(in);
    size_t count = report_of(in->at, in->left, 0, whole);
    check(report_of(in->at, in->left, piece ? piece : 1, pieces) == count,
          "the pieces have another report");
    check(memcmp(whole, pieces, count) == 0, "the pieces have another report");
}

int LLVMFuzzerTestOneInput(const uint8_t *bytes, size_t count) {
    input in = {bytes, count};
    if (next(&in) & 1) make_calls(&in);
    else feed_trace(&in);
    return 0;
}
