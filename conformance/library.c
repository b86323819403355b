/* What conformance/library has a C and a C++ compiler make of this, over include/qaudit.h and
 * libqaudit.a:
 *
 *     library pieces N       feeds standard input in pieces of N bytes
 *     library events         hands in what the commands of standard input say, which are below
 *     library calls          makes the calls that they say, and writes what each returns
 *     library refused N      feeds it in pieces of N bytes with each allocation refused in turn
 *     library orders         calls each function where it has nothing to do
 *     library many           hands in events of one range up to very many
 *     library kept           counts what events with ranges ask for behind the first: nothing
 *     library sizes ROWS     feeds it, and asks for what is told with buffers of each size
 *     library record         feeds it and very many blank lines, and asks for what is told
 *     library why ROWS N     feeds it in pieces of N bytes, and writes why it is refused, with so
 *                            many rows
 *     library said ROWS      the same of what the commands of standard input say
 *     library allowed        feeds it, and writes what its header allowed: a line of numbers for
 *                            each rule
 *     library unrecorded N   feeds it in pieces of N bytes, and asks for all this, with each
 *                            allocation refused in turn
 *
 * The first two write the report. A command is a line, and its numbers are the fields of a struct
 * or the arguments of a call; one that has none has a 0:
 *
 *     feed COUNT             the COUNT bytes behind the line are fed
 *     header, sent, ack, lost, timer, discard, confirmed, keys, metrics
 *     ack and lost end with the number of ranges, and two numbers for each
 *     open, close, finish, status, verdict, which `calls` alone knows
 *
 * The exit status is 0, 1 where an answer was not as wanted, and 2 where the input was none.
 */
#include "commands.h"
#include "qaudit.h"

#include <inttypes.h>
#include <stdio.h>
#include <stdlib.h>
#include <string.h>

#define ROOM 1024

/* ---- allocations, which the linker's --wrap leads here */

#ifdef __cplusplus
extern "C" {
#endif
void *__real_malloc(size_t size);
void *__real_realloc(void *block, size_t size);
void __real_free(void *block);
void *__wrap_malloc(size_t size);
void *__wrap_realloc(void *block, size_t size);
void __wrap_free(void *block);
#ifdef __cplusplus
}
#endif

static int is_counting = 0;
static long left = -1;  /* allocations before the one that is refused; none if it is negative */
static long calls = 0;  /* allocations so far */
static long blocks = 0; /* blocks that were not given back */

static int is_refused(void) {
    calls++;
    return left-- == 0;
}

void *__wrap_malloc(size_t size) {
    void *block;
    if (!is_counting) return __real_malloc(size);
    if (is_refused()) return NULL;
    block = __real_malloc(size);
    blocks += block != NULL;
    return block;
}

void *__wrap_realloc(void *old, size_t size) {
    void *block;
    if (!is_counting) return __real_realloc(old, size);
    if (is_refused()) return NULL;
    block = __real_realloc(old, size);
    blocks += block != NULL && old == NULL;
    return block;
}

void __wrap_free(void *block) {
    if (is_counting) blocks -= block != NULL;
    __real_free(block);
}

/* ---- input */

typedef struct input {
    uint8_t *bytes;
    size_t count;
} input;

static input read_all(void) {
    input all = {NULL, 0};
    size_t room = 0, n;
    do {
        if (all.count == room) {
            room = room ? 2 * room : 65536;
            all.bytes = (uint8_t *)__real_realloc(all.bytes, room);
            if (!all.bytes) exit(2);
        }
        n = fread(all.bytes + all.count, 1, room - all.count, stdin);
        all.count += n;
    } while (n > 0);
    return all;
}

static int fail(const char *what) {
    fprintf(stderr, "%s\n", what);
    return 1;
}

/* ---- the report */

static const char *const words[] = {"accepted\n", "refused ", "unreadable "};

/* Whether the first line of a report is the one of the numbers and their names, as "refused line 7
 * V7 past-window". */
static bool is_named(const qaudit_told *told, const uint8_t *line, size_t count) {
    char wanted[ROOM];
    uint8_t name[64], key[64];
    bool is_refused = told->kind == QAUDIT_REFUSED;
    size_t name_count = is_refused ? qaudit_rule_name(told->code, name, sizeof name)
                                   : qaudit_fault_name(told->code, name, sizeof name);
    size_t key_count = qaudit_key_name(told->subject, key, sizeof key);
    sprintf(wanted, "%sline %" PRIu64 " %c%" PRIu32 " %.*s%s%.*s\n", words[told->kind - 1],
            told->line, is_refused ? 'V' : 'F', told->code, (int)name_count, (const char *)name,
            key_count ? " " : "", (int)key_count, (const char *)key);
    return strlen(wanted) == count && memcmp(wanted, line, count) == 0;
}

static int tell(qaudit *q) {
    static uint8_t text[ROOM], line[ROOM];
    qaudit_told told;
    size_t count, first;
    if (!qaudit_verdict(q, &told)) return fail("there is no verdict");
    count = qaudit_report(q, text, ROOM);
    first = qaudit_first_line(q, line, ROOM);
    if (count == 0 || count > ROOM || first == 0 || first > count)
        return fail("there is no report");
    if (memcmp(text, line, first) != 0) return fail("the first line is another");
    if (told.kind < 1 || told.kind > 3) return fail("the verdict has no kind");
    if (strncmp((const char *)text, words[told.kind - 1], strlen(words[told.kind - 1])) != 0)
        return fail("the verdict is another");
    if (told.kind != QAUDIT_ACCEPTED && !is_named(&told, line, first))
        return fail("the names are others");
    if (told.has_totals) {
        char wanted[ROOM];
        sprintf(wanted, "events %" PRIu64 "\nwindow %" PRIu64 "\n", told.totals.events,
                told.totals.window);
        if (first + strlen(wanted) > count || memcmp(text + first, wanted, strlen(wanted)) != 0)
            return fail("the totals are others");
    } else if (count != first) {
        return fail("there are totals");
    }
    if (qaudit_report(q, line, count - 1) != count || memcmp(line, text, first) != 0)
        return fail("a short buffer was written to");
    fwrite(text, 1, count, stdout);
    return 0;
}

/* ---- pieces */

static qaudit_status_t feed_pieces(qaudit *q, const input *all, size_t piece) {
    qaudit_status_t status = qaudit_status(q);
    size_t at;
    for (at = 0; at < all->count && status == QAUDIT_OPEN; at += piece) {
        size_t rest = all->count - at;
        status = qaudit_feed(q, all->bytes + at, rest < piece ? rest : piece);
    }
    return status == QAUDIT_OPEN ? qaudit_finish(q) : status;
}

static int run_pieces(size_t piece) {
    qaudit q = {NULL, false};
    input all = read_all();
    int failed;
    qaudit_status_t status;
    if (qaudit_open(&q) != QAUDIT_OPEN) return fail("it is not open");
    status = feed_pieces(&q, &all, piece);
    if (status != QAUDIT_FIXED && status != QAUDIT_FINISHED) return fail("it came to no verdict");
    failed = tell(&q);
    qaudit_close(&q);
    __real_free(all.bytes);
    return failed;
}

/* ---- commands */

static qaudit_status_t hand_header(qaudit *q) {
    qaudit_trace_header h;
    read_header(&h);
    return qaudit_header(q, &h);
}

static qaudit_status_t hand_sent(qaudit *q) {
    qaudit_packet p;
    read_packet(&p);
    return qaudit_sent(q, &p);
}

static qaudit_status_t hand_ack(qaudit *q) {
    qaudit_acknowledgment a;
    qaudit_range *all;
    size_t count;
    qaudit_status_t status;
    read_ack(&a);
    all = read_ranges(&count);
    status = qaudit_ack(q, &a, all, count);
    free(all);
    return status;
}

static qaudit_status_t hand_lost(qaudit *q) {
    uint64_t time = number();
    uint32_t space = small();
    size_t count;
    qaudit_range *all = read_ranges(&count);
    qaudit_status_t status = qaudit_lost(q, time, space, all, count);
    free(all);
    return status;
}

static qaudit_status_t hand_timer(qaudit *q) {
    qaudit_fired_timer t;
    read_timer(&t);
    return qaudit_timer(q, &t);
}

static qaudit_status_t hand_metrics(qaudit *q) {
    qaudit_metrics_report m;
    read_metrics(&m);
    return qaudit_metrics(q, &m);
}

/* Hands in the next command, and moves behind it. */
static qaudit_status_t hand_next(qaudit *q) {
    qaudit_status_t status;
    if (is_word("feed")) {
        size_t count = (size_t)number();
        place++;
        status = qaudit_feed(q, (const uint8_t *)place, count);
        place += count;
        return status;
    }
    if (is_word("header")) status = hand_header(q);
    else if (is_word("sent")) status = hand_sent(q);
    else if (is_word("ack")) status = hand_ack(q);
    else if (is_word("lost")) status = hand_lost(q);
    else if (is_word("timer")) status = hand_timer(q);
    else if (is_word("metrics")) status = hand_metrics(q);
    else if (is_word("confirmed")) status = qaudit_confirmed(q, number());
    else if (is_word("keys")) status = qaudit_keys(q, number());
    else if (is_word("discard")) {
        uint64_t time = number();
        status = qaudit_discard(q, time, small());
    } else exit(2);
    place++;
    return status;
}

static int run_events(void) {
    qaudit q = {NULL, false};
    input all = read_all();
    qaudit_status_t status = qaudit_open(&q);
    int failed;
    place = (const char *)all.bytes;
    while (place < (const char *)all.bytes + all.count && status == QAUDIT_OPEN)
        status = hand_next(&q);
    if (status == QAUDIT_OPEN) status = qaudit_finish(&q);
    if (status != QAUDIT_FIXED && status != QAUDIT_FINISHED) {
        fprintf(stderr, "status %" PRIu32 "\n", status);
        return 1;
    }
    failed = tell(&q);
    qaudit_close(&q);
    __real_free(all.bytes);
    return failed;
}

/* ---- calls in any order */

/* Writes the report, where there is a verdict. */
static int tell_verdict(qaudit *q) {
    static uint8_t text[ROOM];
    qaudit_told told;
    bool is_known = qaudit_verdict(q, &told);
    size_t count = qaudit_report(q, text, ROOM);
    if (is_known != (count > 0) || count > ROOM)
        return fail("a verdict without a report, or a report without a verdict");
    printf("report %zu\n", count);
    fwrite(text, 1, count, stdout);
    return 0;
}

/* Makes the next call, and moves behind it. */
static int call_next(qaudit *q) {
    int failed = 0;
    if (is_word("verdict")) failed = tell_verdict(q);
    else if (is_word("open")) printf("%" PRIu32 "\n", qaudit_open(q));
    else if (is_word("finish")) printf("%" PRIu32 "\n", qaudit_finish(q));
    else if (is_word("status")) printf("%" PRIu32 "\n", qaudit_status(q));
    else if (is_word("close")) qaudit_close(q);
    else {
        printf("%" PRIu32 "\n", hand_next(q));
        return 0;
    }
    (void)number();
    place++;
    return failed;
}

static int run_calls(void) {
    qaudit q = {NULL, false};
    input all = read_all();
    int failed = 0;
    place = (const char *)all.bytes;
    while (!failed && place < (const char *)all.bytes + all.count) failed = call_next(&q);
    qaudit_close(&q);
    __real_free(all.bytes);
    return failed;
}

/* ---- why it is refused */

static size_t put_reason(qaudit *q, uint16_t rows, uint8_t *out, size_t room) {
    return rows ? qaudit_around(q, rows, out, room) : qaudit_why(q, out, room);
}

/* Writes the reason, which is put nowhere where it has no room. */
static int tell_reason(qaudit *q, uint16_t rows) {
    uint8_t *text;
    size_t count = 0, at;
    text = (uint8_t *)__real_malloc(1);
    if (!text) exit(2);
    *text = 0xA5;
    count = put_reason(q, rows, text, 0);
    if (count == 0) return fail("there is no reason");
    if (*text != 0xA5) return fail("a reason was put where it has no room");
    text = (uint8_t *)__real_realloc(text, count + 1);
    if (!text) exit(2);
    memset(text, 0xA5, count + 1);
    if (put_reason(q, rows, text, count - 1) != count) return fail("the reason has another length");
    for (at = 0; at < count; at++)
        if (text[at] != 0xA5) return fail("a reason was put where it just has no room");
    if (put_reason(q, rows, text, count + 1) != count || text[count] != 0xA5)
        return fail("something was put behind the reason");
    if (!rows) {
        uint8_t *other = (uint8_t *)__real_malloc(count);
        if (!other) exit(2);
        if (qaudit_around(q, 0, other, count) != count || memcmp(text, other, count) != 0)
            return fail("without rows the reason is another");
        __real_free(other);
    }
    fwrite(text, 1, count, stdout);
    __real_free(text);
    return 0;
}

static int run_why(uint16_t rows, size_t piece) {
    qaudit q = {NULL, false};
    input all = read_all();
    int failed;
    if (qaudit_open_recorded(&q) != QAUDIT_OPEN) return fail("it is not open");
    feed_pieces(&q, &all, piece);
    failed = tell_reason(&q, rows);
    qaudit_close(&q);
    __real_free(all.bytes);
    return failed;
}

static int run_said(uint16_t rows) {
    qaudit q = {NULL, false};
    input all = read_all();
    qaudit_status_t status = qaudit_open_recorded(&q);
    int failed;
    place = (const char *)all.bytes;
    while (place < (const char *)all.bytes + all.count && status == QAUDIT_OPEN)
        status = hand_next(&q);
    failed = tell_reason(&q, rows);
    qaudit_close(&q);
    __real_free(all.bytes);
    return failed;
}

#define MOST_ALLOWED 14

/* Writes what the header allowed, which is put nowhere where it has no room. */
static int run_allowed(void) {
    qaudit q = {NULL, false};
    qaudit_allowance allowed[MOST_ALLOWED], before[MOST_ALLOWED];
    input all = read_all();
    size_t count, i;
    memset(allowed, 0xA5, sizeof allowed);
    memset(before, 0xA5, sizeof before);
    if (qaudit_open_recorded(&q) != QAUDIT_OPEN) return fail("it is not open");
    feed_pieces(&q, &all, 4096);
    count = qaudit_allowed(&q, allowed, 0);
    if (count > MOST_ALLOWED) return fail("more was allowed than there is");
    if (count && qaudit_allowed(&q, allowed, count - 1) != count)
        return fail("another number was allowed");
    if (memcmp(allowed, before, sizeof allowed) != 0)
        return fail("it was put where it has no room");
    if (qaudit_allowed(&q, allowed, MOST_ALLOWED) != count)
        return fail("another number was allowed");
    if (memcmp(allowed + count, before, (MOST_ALLOWED - count) * sizeof *allowed) != 0)
        return fail("something was put behind it");
    for (i = 0; i < count; i++) {
        const qaudit_allowance *it = allowed + i;
        printf("%" PRIu32 " %" PRIu32 " %" PRIu32 " %" PRIu64 " %" PRIu64 " %" PRIu64 " %" PRIu64
               " %" PRIu64 " %d\n",
               it->rule, it->subject, it->key, it->count, it->first, it->last, it->greatest,
               it->limit, it->has_limit);
    }
    qaudit_close(&q);
    __real_free(all.bytes);
    return 0;
}

#define REASON_ROOM 1000000

typedef struct reason {
    uint8_t text[REASON_ROOM];
    size_t count, items;
    qaudit_allowance allowed[MOST_ALLOWED];
} reason;

/* Runs over the input with this allocation refused. Returns whether something was not as wanted. */
static int run_unrecorded(const input *all, size_t piece, long refused, reason *told) {
    qaudit q = {NULL, false};
    qaudit_status_t status;
    memset(told->allowed, 0, sizeof told->allowed);
    left = refused;
    calls = blocks = 0;
    is_counting = 1;
    status = qaudit_open_recorded(&q);
    if (status == QAUDIT_OPEN) status = feed_pieces(&q, all, piece);
    told->count = qaudit_around(&q, 1, told->text, REASON_ROOM);
    told->items = qaudit_allowed(&q, told->allowed, MOST_ALLOWED);
    if ((status == QAUDIT_OUT_OF_MEMORY || status == QAUDIT_CLOSED) && (told->count || told->items))
        return fail("it told why without memory");
    qaudit_close(&q);
    is_counting = 0;
    if (blocks) return fail("a block was lost");
    if (refused < 0 && told->count == 0) return fail("there is no reason");
    return 0;
}

static int run_all_unrecorded(size_t piece) {
    static reason whole, told;
    input all = read_all();
    long refused, total;
    if (run_unrecorded(&all, piece, -1, &whole)) return 1;
    total = calls;
    for (refused = 0; refused < total; refused++) {
        if (run_unrecorded(&all, piece, refused, &told)) return 1;
        if (told.count &&
            (told.count != whole.count || memcmp(told.text, whole.text, whole.count) != 0))
            return fail("the reason is another");
        if (told.items && (told.items != whole.items ||
                           memcmp(told.allowed, whole.allowed, sizeof whole.allowed) != 0))
            return fail("something else was allowed");
    }
    printf("%ld\n", total);
    return 0;
}

/* ---- refused allocations */

/* Runs over the input with this allocation refused. Returns whether something was not as wanted. */
static int run_refused(const input *all, size_t piece, long refused, uint8_t *text, size_t *count) {
    qaudit q = {NULL, false};
    qaudit_told told;
    qaudit_status_t status, again;
    left = refused;
    calls = blocks = 0;
    is_counting = 1;
    status = qaudit_open(&q);
    if (status == QAUDIT_OPEN) status = feed_pieces(&q, all, piece);
    *count = qaudit_report(&q, text, ROOM);
    again = qaudit_feed(&q, all->bytes, all->count ? 1 : 0);
    if (again != status) return fail("its status changed");
    if ((status == QAUDIT_OUT_OF_MEMORY || status == QAUDIT_CLOSED) &&
        (*count || qaudit_verdict(&q, &told)))
        return fail("it came to a verdict without memory");
    qaudit_close(&q);
    qaudit_close(&q);
    is_counting = 0;
    if (blocks) return fail("a block was lost");
    if (refused < 0 && status != QAUDIT_FIXED && status != QAUDIT_FINISHED)
        return fail("it came to no verdict");
    return 0;
}

static int run_all_refused(size_t piece) {
    static uint8_t whole[ROOM], text[ROOM];
    input all = read_all();
    size_t whole_count, count;
    long refused, total;
    if (run_refused(&all, piece, -1, whole, &whole_count)) return 1;
    total = calls;
    for (refused = 0; refused < total; refused++) {
        if (run_refused(&all, piece, refused, text, &count)) return 1;
        if (count && (count != whole_count || memcmp(text, whole, count) != 0))
            return fail("the report is another");
    }
    printf("%ld\n", total);
    return 0;
}

/* ---- orders of calls */

static const uint8_t half[] = "{\"event\"";
static uint8_t answer[ROOM];

static bool is_any_told(qaudit *q) {
    qaudit_told told;
    return qaudit_verdict(q, &told) || qaudit_first_line(q, answer, ROOM) != 0 ||
           qaudit_report(q, answer, ROOM) != 0;
}

static bool has_reason(qaudit *q) {
    qaudit_allowance allowance;
    return qaudit_why(q, answer, ROOM) != 0 || qaudit_around(q, 1, answer, ROOM) != 0 ||
           qaudit_allowed(q, &allowance, 1) != 0;
}

static bool is_unreadable(qaudit *q, uint32_t code, uint64_t line) {
    qaudit_told told;
    return qaudit_verdict(q, &told) && told.kind == QAUDIT_UNREADABLE && told.code == code &&
           told.line == line && !told.has_totals;
}

static int closed_fails(qaudit *q, const qaudit_packet *packet) {
    if (qaudit_feed(q, half, 1) != QAUDIT_CLOSED || qaudit_sent(q, packet) != QAUDIT_CLOSED)
        return fail("closed: it took something");
    if (qaudit_finish(q) != QAUDIT_CLOSED || qaudit_status(q) != QAUDIT_CLOSED)
        return fail("closed: it is open");
    if (is_any_told(q)) return fail("closed: it has a verdict");
    if (has_reason(q)) return fail("closed: it has a reason");
    qaudit_close(q);
    return 0;
}

static int open_fails(qaudit *q, qaudit_packet packet) {
    qaudit_range range = {0, 0};
    if (qaudit_open(q) != QAUDIT_OPEN || qaudit_open(q) != QAUDIT_OPEN)
        return fail("it was not opened again");
    if (has_reason(q)) return fail("nothing was recorded: it has a reason");
    if (is_any_told(q)) return fail("open: it has a verdict");
    packet.space = 3;
    if (qaudit_sent(q, &packet) != QAUDIT_OUT_OF_RANGE)
        return fail("it took a space that is none");
    packet.space = QAUDIT_APP;
    packet.size = 0;
    if (qaudit_sent(q, &packet) != QAUDIT_OUT_OF_RANGE)
        return fail("it took a packet of no bytes");
    packet.size = 1200;
    if (qaudit_lost(q, 0, QAUDIT_APP, &range, 0) != QAUDIT_OUT_OF_RANGE)
        return fail("it took no ranges");
    if (qaudit_discard(q, 0, QAUDIT_APP) != QAUDIT_OUT_OF_RANGE)
        return fail("it discarded a space that stays");
    if (qaudit_feed(q, half, sizeof half - 1) != QAUDIT_OPEN)
        return fail("it took no half of a line");
    if (qaudit_sent(q, &packet) != QAUDIT_INSIDE_LINE)
        return fail("it took an event inside a line");
    return 0;
}

static int finished_fails(qaudit *q, const qaudit_packet *packet) {
    if (qaudit_finish(q) != QAUDIT_FINISHED || qaudit_finish(q) != QAUDIT_FINISHED)
        return fail("it was not finished");
    if (qaudit_sent(q, packet) != QAUDIT_FINISHED || qaudit_feed(q, half, 1) != QAUDIT_FINISHED)
        return fail("finished: it took something");
    if (!is_unreadable(q, 1, 1)) return fail("the verdict is another");
    return 0;
}

static int decided_fails(qaudit *q, const qaudit_packet *packet) {
    if (qaudit_open(q) != QAUDIT_OPEN || qaudit_sent(q, packet) != QAUDIT_FIXED)
        return fail("an event before a header was good");
    if (!is_unreadable(q, 7, 1)) return fail("its fault is another");
    if (qaudit_open_recorded(q) != QAUDIT_OPEN || qaudit_open_recorded(q) != QAUDIT_OPEN)
        return fail("it was not opened again");
    if (qaudit_why(q, answer, ROOM) == 0 || qaudit_status(q) != QAUDIT_OPEN)
        return fail("there is no reason, or it ended the audit");
    if (qaudit_sent(q, packet) != QAUDIT_FIXED || qaudit_why(q, answer, ROOM) == 0)
        return fail("there is no reason");
    if (memcmp(answer, "-:1: unreadable F7", 18) != 0) return fail("the reason is another");
    qaudit_close(q);
    if (q->at != NULL || q->is_open) return fail("it is not all zero");
    return 0;
}

static int names_fail(void) {
    if (qaudit_rule_name(0, answer, ROOM) || qaudit_rule_name(20, answer, ROOM) ||
        qaudit_fault_name(12, answer, ROOM) || qaudit_key_name(42, answer, ROOM))
        return fail("what is none has a name");
    if (qaudit_rule_name(7, answer, ROOM) != 11 || memcmp(answer, "past-window", 11) != 0)
        return fail("V7 has another name");
    return 0;
}

static int run_orders(void) {
    qaudit q = {NULL, false};
    qaudit_packet packet;
    memset(&packet, 0, sizeof packet);
    packet.space = QAUDIT_APP;
    packet.size = 1200;
    return closed_fails(&q, &packet) || open_fails(&q, packet) || finished_fails(&q, &packet) ||
           decided_fails(&q, &packet) || names_fail();
}

#include "library_amounts.h"

int main(int argc, char **argv) {
    size_t piece = argc > 2 ? (size_t)strtoull(argv[2], NULL, 10) : 0;
    if (argc == 3 && piece > 0 && strcmp(argv[1], "pieces") == 0) return run_pieces(piece);
    if (argc == 3 && piece > 0 && strcmp(argv[1], "refused") == 0) return run_all_refused(piece);
    if (argc == 2 && strcmp(argv[1], "events") == 0) return run_events();
    if (argc == 2 && strcmp(argv[1], "calls") == 0) return run_calls();
    if (argc == 2 && strcmp(argv[1], "orders") == 0) return run_orders();
    if (argc == 2 && strcmp(argv[1], "many") == 0) return run_many();
    if (argc == 2 && strcmp(argv[1], "kept") == 0) return run_kept();
    if (argc == 3 && strcmp(argv[1], "sizes") == 0) return run_sizes((uint16_t)piece);
    if (argc == 2 && strcmp(argv[1], "record") == 0) return run_record();
    if (argc == 4 && strcmp(argv[1], "why") == 0)
        return run_why((uint16_t)piece, (size_t)strtoull(argv[3], NULL, 10));
    if (argc == 3 && strcmp(argv[1], "said") == 0) return run_said((uint16_t)piece);
    if (argc == 2 && strcmp(argv[1], "allowed") == 0) return run_allowed();
    if (argc == 3 && piece > 0 && strcmp(argv[1], "unrecorded") == 0)
        return run_all_unrecorded(piece);
    return 2;
}
