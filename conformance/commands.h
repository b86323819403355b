/* Commands, as conformance/structs.py writes them: a line each, of a word and of the numbers that
 * the fields of a struct of include/qaudit.h have. `place` stands at what is read next; what is no
 * number ends the program with 2. */
#ifndef COMMANDS_H
#define COMMANDS_H

#include "qaudit.h"

#include <stdlib.h>
#include <string.h>

static const char *place;

static inline uint64_t number(void) {
    char *end;
    uint64_t value = strtoull(place, &end, 10);
    if (end == place) exit(2);
    place = end;
    return value;
}

static inline uint32_t small(void) { return (uint32_t)number(); }

static inline bool flag(void) { return number() != 0; }

/* Whether the word comes next; it is passed then. */
static inline bool is_word(const char *word) {
    size_t length = strlen(word);
    if (strncmp(place, word, length) != 0 || place[length] != ' ') return false;
    place += length;
    return true;
}

static inline void read_header(qaudit_trace_header *h) {
    h->max_datagram_size = number();
    h->max_ack_delay = number();
    h->initial_rtt = number();
    h->initial_window = number();
    h->timer_late_us = number();
    h->timer_early_us = number();
    h->report_slack_us = number();
    h->report_slack_bytes = number();
    h->packet_threshold = number();
    h->time_threshold_eighths = number();
    h->role = small();
    h->unit = small();
    h->window = small();
    h->loss_by_number = small();
    h->threshold_counts = small();
    h->has_max_ack_delay = flag();
    h->has_initial_rtt = flag();
    h->has_initial_window = flag();
    h->has_timer_late_us = flag();
    h->has_packet_threshold = flag();
    h->has_time_threshold_eighths = flag();
    h->refresh_min_rtt = flag();
    h->window_overshoot = flag();
    h->sample_eliciting_only = flag();
    h->reset_rtt = flag();
    h->latest_rtt_less_delay = flag();
    h->recovery_by_order = flag();
}

static inline void read_packet(qaudit_packet *p) {
    p->time = number();
    p->number = number();
    p->size = number();
    p->space = small();
    p->leave = small();
    p->eliciting = flag();
    p->in_flight = flag();
}

static inline void read_ack(qaudit_acknowledgment *a) {
    a->time = number();
    a->delay = number();
    a->space = small();
    a->app_limited = flag();
}

/* The ranges, which the caller frees, and how many they are. */
static inline qaudit_range *read_ranges(size_t *count) {
    qaudit_range *all;
    size_t i;
    *count = (size_t)number();
    all = (qaudit_range *)malloc((*count + 1) * sizeof *all);
    if (!all) exit(2);
    for (i = 0; i < *count; i++) {
        all[i].least = number();
        all[i].greatest = number();
    }
    return all;
}

static inline void read_timer(qaudit_fired_timer *t) {
    t->time = number();
    t->kind = small();
    t->space = small();
}

static inline void read_metrics(qaudit_metrics_report *m) {
    m->time = number();
    m->window = number();
    m->ssthresh = number();
    m->bytes_in_flight = number();
    m->latest_rtt = number();
    m->min_rtt = number();
    m->smoothed_rtt = number();
    m->rttvar = number();
    m->has_window = flag();
    m->has_ssthresh = flag();
    m->has_bytes_in_flight = flag();
    m->has_latest_rtt = flag();
    m->has_min_rtt = flag();
    m->has_smoothed_rtt = flag();
    m->has_rttvar = flag();
}

#endif
