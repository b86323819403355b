/* A part of library.c: what is handed in, told and kept in amounts that no trace here has. */
#ifndef LIBRARY_AMOUNTS_H
#define LIBRARY_AMOUNTS_H

/* ---- very many ranges */

/* Opens the session of a server, and hands in its header. */
static bool begin(qaudit *q) {
    qaudit_trace_header header;
    memset(&header, 0, sizeof header);
    header.max_datagram_size = 1200;
    header.role = QAUDIT_SERVER;
    return qaudit_open(q) == QAUDIT_OPEN && qaudit_header(q, &header) == QAUDIT_OPEN;
}

/* What is returned for an acknowledgment of these ranges, behind a header. One that is out of range
 * leaves the session open. */
static qaudit_status_t status_of(const qaudit_acknowledgment *ack, const qaudit_range *ranges,
                                 size_t count) {
    qaudit q = {NULL, false};
    qaudit_status_t status;
    if (!begin(&q)) return QAUDIT_CLOSED;
    status = qaudit_ack(&q, ack, ranges, count);
    if (status == QAUDIT_OUT_OF_RANGE && qaudit_ack(&q, ack, ranges, 1) != QAUDIT_FIXED)
        status = QAUDIT_CLOSED;
    qaudit_close(&q);
    return status;
}

/* The same of 2,000 numbers, two apart from this one on. */
static qaudit_status_t status_of_many(uint64_t first) {
    static qaudit_range ranges[2000];
    qaudit_acknowledgment ack;
    size_t i;
    memset(&ack, 0, sizeof ack);
    ack.space = QAUDIT_APP;
    for (i = 0; i < 2000; i++) ranges[i].least = ranges[i].greatest = first + 2 * i;
    return status_of(&ack, ranges, 2000);
}

/* The same of a range from 10 to a greatest number and of 1,559 numbers with 19 digits, with a
 * delay and a limit:
 *
 *     {"event":"ack","ranges":[[10,100],[4000000000000000000,4000000000000000000],..],
 *      "space":"app","time":0}
 *
 * has 65,536 bytes, and "delay":1, or "limited":true, more. */
static void fill_long(qaudit_range *ranges, uint64_t greatest) {
    size_t i;
    ranges[0].least = 10;
    ranges[0].greatest = greatest;
    for (i = 1; i < 1560; i++) ranges[i].least = ranges[i].greatest = 4000000000000000000u + 2 * i;
}

static qaudit_status_t status_of_long(uint64_t greatest, uint64_t delay, bool limited) {
    static qaudit_range ranges[1560];
    qaudit_acknowledgment ack;
    memset(&ack, 0, sizeof ack);
    ack.space = QAUDIT_APP;
    ack.delay = delay;
    ack.app_limited = limited;
    fill_long(ranges, greatest);
    return status_of(&ack, ranges, 1560);
}

/* An acknowledgment whose line is only short enough without "delay":0 and "limited":false is
 * judged, and ends the record. */
static int run_longest(void) {
    static qaudit_range ranges[1560];
    static uint8_t out[ROOM];
    qaudit q = {NULL, false};
    qaudit_trace_header header;
    qaudit_acknowledgment ack;
    memset(&header, 0, sizeof header);
    header.max_datagram_size = 1200;
    memset(&ack, 0, sizeof ack);
    ack.space = QAUDIT_APP;
    fill_long(ranges, 100);
    if (qaudit_open_recorded(&q) != QAUDIT_OPEN || qaudit_header(&q, &header) != QAUDIT_OPEN)
        return fail("it took no header");
    if (qaudit_ack(&q, &ack, ranges, 1560) != QAUDIT_FIXED)
        return fail("an acknowledgment with a line of 65,536 bytes was not judged");
    if (qaudit_why(&q, out, ROOM) != 0)
        return fail("a line of more than 65,536 bytes was recorded");
    if (qaudit_open_recorded(&q) != QAUDIT_OPEN || qaudit_header(&q, &header) != QAUDIT_OPEN)
        return fail("it took no header");
    if (qaudit_ack(&q, &ack, ranges, 1500) != QAUDIT_FIXED || qaudit_why(&q, out, ROOM) == 0)
        return fail("a long line was not recorded");
    qaudit_close(&q);
    return 0;
}

/* So many ranges of one number of one digit are less than a line has room for. */
#define MOST_RANGES 10000

/* An acknowledgment and a Lost line of each number of ranges up to a hundred, and of each hundredth
 * more behind it, are judged: the packet was never sent. */
static int run_counts(void) {
    static qaudit_range ranges[MOST_RANGES];
    qaudit_acknowledgment ack;
    size_t count;
    memset(ranges, 0, sizeof ranges);
    memset(&ack, 0, sizeof ack);
    ack.space = QAUDIT_APP;
    for (count = 1; count <= MOST_RANGES; count += 1 + count / 100) {
        qaudit q = {NULL, false};
        if (status_of(&ack, ranges, count) != QAUDIT_FIXED)
            return fail("an acknowledgment was not judged");
        if (!begin(&q) || qaudit_lost(&q, 0, QAUDIT_APP, ranges, count) != QAUDIT_FIXED)
            return fail("a Lost line was not judged");
        qaudit_close(&q);
    }
    return 0;
}

/* What a line says is judged, and was never sent; of what no line says nothing is taken. */
static int run_many(void) {
    if (run_counts()) return 1;
    if (status_of_many(0) != QAUDIT_FIXED)
        return fail("an acknowledgment of many short numbers was not judged");
    if (status_of_many(4000000000000000000u) != QAUDIT_OUT_OF_RANGE)
        return fail("an acknowledgment that no line says was taken");
    if (status_of_long(100, 0, false) != QAUDIT_FIXED)
        return fail("an acknowledgment with a line of 65,536 bytes was not judged");
    if (status_of_long(1000, 0, false) != QAUDIT_OUT_OF_RANGE)
        return fail("an acknowledgment with a line of 65,537 bytes was taken");
    if (status_of_long(100, 1, false) != QAUDIT_OUT_OF_RANGE)
        return fail("a delay was left out of a line");
    if (status_of_long(100, 0, true) != QAUDIT_OUT_OF_RANGE)
        return fail("a limit was left out of a line");
    return run_longest();
}

/* ---- memory that is kept */

/* A session, the number of the next packet, and ranges, more than it keeps memory for. */
typedef struct sender {
    qaudit q;
    uint64_t next;
    qaudit_range ranges[2000];
} sender;

/* Sends so many packets of this size. */
static bool send_packets(sender *s, size_t count, uint64_t size, bool in_flight) {
    qaudit_packet packet;
    memset(&packet, 0, sizeof packet);
    packet.size = size;
    packet.space = QAUDIT_APP;
    packet.eliciting = packet.in_flight = in_flight;
    for (; count > 0; count--) {
        packet.number = s->next++;
        if (qaudit_sent(&s->q, &packet) != QAUDIT_OPEN) return false;
    }
    return true;
}

/* How often an acknowledgment of these ranges asks for memory; less than 0 if it was not taken. */
static long asked_by_ack(sender *s, size_t count) {
    qaudit_acknowledgment ack;
    long before = calls;
    memset(&ack, 0, sizeof ack);
    ack.space = QAUDIT_APP;
    return qaudit_ack(&s->q, &ack, s->ranges, count) == QAUDIT_OPEN ? calls - before : -1;
}

/* The same of an acknowledgment of so many packets, which are sent before, by one range. */
static long asked_by_packets(sender *s, size_t count) {
    s->ranges[0].least = s->next;
    if (!send_packets(s, count, 1200, false)) return -1;
    s->ranges[0].greatest = s->next - 1;
    return asked_by_ack(s, 1);
}

/* The same of one by so many ranges that fall, of packets that were acknowledged before. */
static long asked_by_ranges(sender *s, size_t count) {
    size_t i;
    for (i = 0; i < count; i++) s->ranges[i].least = s->ranges[i].greatest = 2 * (count - i);
    return asked_by_ack(s, count);
}

/* The same of a Lost line with so many ranges, of packets that were sent before three that are
 * acknowledged. */
static long asked_by_losses(sender *s, size_t count) {
    uint64_t first = s->next;
    size_t i;
    long before;
    if (!send_packets(s, count + 3, 40, true)) return -1;
    s->ranges[0].least = first + count;
    s->ranges[0].greatest = first + count + 2;
    if (asked_by_ack(s, 1) < 0) return -1;
    for (i = 0; i < count; i++) s->ranges[i].least = s->ranges[i].greatest = first + i;
    before = calls;
    return qaudit_lost(&s->q, 0, QAUDIT_APP, s->ranges, count) == QAUDIT_OPEN ? calls - before : -1;
}

/* A call: how often it asks for memory with so many packets or ranges, and its name in messages. */
typedef struct taker {
    long (*asked)(sender *, size_t);
    size_t count;
    const char *what;
} taker;

/* A call that asks for memory once leaves it to those behind it. */
static bool is_kept(sender *s, const taker *it) {
    int i;
    if (it->asked(s, it->count) < 0) return false;
    for (i = 0; i < 10; i++)
        if (it->asked(s, it->count) != 0) return false;
    return true;
}

/* Each of these acknowledgments and Lost lines, and that the memory of very many ranges is not
 * kept. */
static int is_all_kept(sender *s) {
    static const taker takers[] = {
        {asked_by_packets, 1, "an acknowledgment"},
        {asked_by_packets, 33, "an acknowledgment of 33 packets"},
        {asked_by_packets, 1000, "an acknowledgment of a thousand packets"},
        {asked_by_ranges, 33, "an acknowledgment of 33 ranges"},
        {asked_by_losses, 33, "a Lost line of 33 ranges"},
        {asked_by_ranges, 1024, "an acknowledgment of 1,024 ranges"},
    };
    size_t i;
    if (asked_by_packets(s, 1) < 1)
        return fail("the first acknowledgment asked for nothing, or was not taken");
    for (i = 0; i < sizeof takers / sizeof *takers; i++)
        if (!is_kept(s, &takers[i])) {
            fprintf(stderr, "%s asked for memory, or was not taken\n", takers[i].what);
            return 1;
        }
    if (asked_by_ranges(s, 2000) < 1)
        return fail("an acknowledgment of 2,000 ranges asked for nothing, or was not taken");
    if (asked_by_ranges(s, 1) < 1) return fail("the memory of 2,000 ranges was kept");
    return 0;
}

static int run_kept(void) {
    static sender s;
    int failed;
    is_counting = 1;
    failed = begin(&s.q) ? is_all_kept(&s) : fail("it took no header");
    qaudit_close(&s.q);
    if (!failed && blocks != 0) failed = fail("memory was not given back");
    return failed;
}

/* ---- buffers of each size */

/* So many bytes are more than each of these texts has. */
#define MOST_ROOM 1400

/* What is told, by the name of its call. */
static size_t put_told(qaudit *q, char what, uint16_t rows, uint8_t *out, size_t room) {
    switch (what) {
    case 'l': return qaudit_first_line(q, out, room);
    case 'w': return qaudit_why(q, out, room);
    case 'a': return qaudit_around(q, rows, out, room);
    default: return qaudit_report(q, out, room);
    }
}

/* Whether a text is put into a buffer of each size where it fits, and else nothing; its length is
 * returned always. */
static int is_put(qaudit *q, char what, uint16_t rows) {
    static uint8_t text[MOST_ROOM], out[MOST_ROOM];
    size_t count = put_told(q, what, rows, text, MOST_ROOM), room, at;
    if (count == 0 || count >= MOST_ROOM)
        return fail("there is no text, or a longer one than is wanted here");
    for (room = 0; room < MOST_ROOM; room++) {
        size_t put = count <= room ? count : 0;
        memset(out, 0xA5, sizeof out);
        if (put_told(q, what, rows, out, room) != count) return fail("a text has another length");
        if (memcmp(out, text, put) != 0) return fail("a text is another");
        for (at = put; at < sizeof out; at++)
            if (out[at] != 0xA5) return fail("something was put where no text has room");
    }
    return 0;
}

static int run_sizes(uint16_t rows) {
    qaudit q = {NULL, false};
    input all = read_all();
    int failed;
    if (qaudit_open_recorded(&q) != QAUDIT_OPEN) return fail("it is not open");
    feed_pieces(&q, &all, 4096);
    failed = is_put(&q, 'r', rows) || is_put(&q, 'l', rows) || is_put(&q, 'w', rows) ||
             is_put(&q, 'a', rows);
    qaudit_close(&q);
    __real_free(all.bytes);
    return failed;
}

/* ---- a long record */

#define BLANK_LINES 2000

/* Behind a trace that is accepted come eight million bytes of blank lines, which change nothing
 * that is told of it. */
static int run_record(void) {
    static uint8_t line[4096], before[MOST_ROOM], behind[MOST_ROOM];
    qaudit_allowance allowed[MOST_ALLOWED], again[MOST_ALLOWED];
    qaudit q = {NULL, false};
    input all = read_all();
    size_t count, items;
    int i;
    memset(line, ' ', sizeof line);
    line[sizeof line - 1] = '\n';
    memset(allowed, 0, sizeof allowed);
    memset(again, 0, sizeof again);
    if (qaudit_open_recorded(&q) != QAUDIT_OPEN ||
        qaudit_feed(&q, all.bytes, all.count) != QAUDIT_OPEN)
        return fail("it is not open");
    count = qaudit_around(&q, 1, before, MOST_ROOM);
    items = qaudit_allowed(&q, allowed, MOST_ALLOWED);
    if (count == 0 || count > MOST_ROOM || items == 0 || items > MOST_ALLOWED)
        return fail("there is no reason, or nothing was allowed");
    for (i = 0; i < BLANK_LINES; i++)
        if (qaudit_feed(&q, line, sizeof line) != QAUDIT_OPEN)
            return fail("a blank line was not taken");
    if (qaudit_around(&q, 1, behind, MOST_ROOM) != count || memcmp(before, behind, count) != 0)
        return fail("behind blank lines the reason is another");
    if (qaudit_allowed(&q, again, MOST_ALLOWED) != items ||
        memcmp(allowed, again, sizeof again) != 0)
        return fail("behind blank lines something else was allowed");
    qaudit_close(&q);
    __real_free(all.bytes);
    return 0;
}

#endif
