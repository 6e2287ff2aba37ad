/* The proved engine and plain C's, each with a store of its own and what its runs are lent. */
#ifndef SIDES_H
#define SIDES_H

#include "plain_engine.h"
#include <string.h>

enum { PAPER = 4096 };

struct side {
    void (*fresh)(rec_store *);
    int32_t (*define)(rec_store *, uint8_t, uint32_t, const uint8_t *, size_t);
    int32_t (*withdraw)(rec_store *, uint8_t);
    int32_t (*run)(rec_store *, uint8_t, uint32_t, uint32_t, const int32_t *, size_t, int32_t *, size_t, uint8_t *, size_t, rec_report *);
    rec_store store;
    int32_t list[REC_LIST];
    uint8_t output[PAPER];
    rec_report report;
};

static struct side sides[2] = {{.fresh = rec_fresh, .define = rec_define, .withdraw = rec_withdraw, .run = rec_run},
                               {.fresh = plain_fresh, .define = plain_define, .withdraw = plain_withdraw, .run = plain_run}};

/* Open letters, and a cashier's runs. */
static inline int32_t define(struct side *s, uint8_t letter, const char *text) {
    return s->define(&s->store, letter, REC_OPEN, (const uint8_t *)text, strlen(text));
}

static inline int32_t run(struct side *s, uint8_t letter, uint32_t allowance, const int32_t *inputs, size_t count) {
    return s->run(&s->store, letter, REC_CASHIER, allowance, inputs, count, s->list, REC_LIST, s->output, PAPER, &s->report);
}

/* Whether two sides have the same store and the same answer of the last run. */
static inline int same(const struct side *a, const struct side *b) {
    return memcmp(&a->store, &b->store, sizeof a->store) == 0 && memcmp(a->list, b->list, sizeof a->list) == 0
        && memcmp(a->output, b->output, PAPER) == 0 && memcmp(&a->report, &b->report, sizeof a->report) == 0;
}

static inline int same_sides(void) { return same(&sides[0], &sides[1]); }

#endif
