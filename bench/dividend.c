/*
 * rec_dividend, and the archive's own rec_dividend_figures under it, beside plain C, in one run: all give the same numbers and figures for many pools, and
 * then the time of each for races and refusals. bench/places builds and runs it, and holds each row to its own limit.
 */
#define _POSIX_C_SOURCE 199309L
#include "measure.h"
#include "plain_dividend.h"
#include <stdio.h>
#include <string.h>

enum { ROUNDS = 15, MANY = 2000000, RACES = 1024, TIMES = 200 };

typedef int32_t call(uint32_t, uint32_t, uint32_t, rec_dividend_report *);

/* The archive's own function, with the figures where a report has them. */
static int32_t figures_only(uint32_t pool, uint32_t rate, uint32_t stakes, rec_dividend_report *report) {
    return (int32_t)rec_dividend_figures(pool, rate, stakes, (uint64_t *)report);
}

enum { SIDES = 3 };
static call *const sides[SIDES] = {plain_dividend, figures_only, rec_dividend};
static const char *const words[SIDES] = {"plain", "figures of", "dividend of"};
static const double limits[SIDES] = {1, 2, 4};

static struct race {
    uint32_t pool, rate, stakes;
} races[RACES];

/* Of all sizes up to the bound, and at times next to it or far above. */
static uint32_t some_figure(uint32_t most) {
    switch (below(8)) {
    case 0: return most - 1 + below(3);
    case 1: return UINT32_MAX - below(3);
    case 2: return below(3);
    default: return below(most + 1) >> below(30);
    }
}

static int same_on_many(void) {
    long numbers[REC_NO_WINNER + 1] = {0}, paid = 0;
    for (int i = 0; i < MANY; i++) {
        uint32_t pool = some_figure(REC_POOL_MAX), rate = some_figure(REC_RATE_MAX), stakes = some_figure(REC_STAKES_MAX);
        rec_dividend_report reports[SIDES];
        int32_t answers[SIDES];
        memset(reports, 0x55, sizeof reports);
        for (int who = 0; who < SIDES; who++) {
            answers[who] = sides[who](pool, rate, stakes, &reports[who]);
            if (answers[who] == answers[0] && memcmp(&reports[who], &reports[0], sizeof reports[0]) == 0) continue;
            printf("DIFFERENT ANSWERS: pool %u, rate %u, stakes %u\n", (unsigned)pool, (unsigned)rate, (unsigned)stakes);
            return 0;
        }
        numbers[answers[0]]++;
        paid += reports[0].dividend > 0;
    }
    printf("%d pools, %ld of them with a dividend, %ld refused by 31, %ld by 32: the same numbers and figures\n", MANY, paid, numbers[REC_BAD_POOL],
        numbers[REC_NO_WINNER]);
    return paid != 0 && numbers[REC_BAD_POOL] != 0 && numbers[REC_NO_WINNER] != 0;
}

/* Nanoseconds for a call with this number, or -1. */
static double time_of(call *it, int32_t number) {
    rec_dividend_report report;
    int other = 0;
    double from = seconds();
    for (int i = 0; i < TIMES; i++)
        for (int k = 0; k < RACES; k++) other |= it(races[k].pool, races[k].rate, races[k].stakes, &report) != number;
    return other ? -1 : (seconds() - from) / TIMES / RACES * 1e9;
}

/* All in turn; the best of several rounds. */
static int rows(const char *name, int32_t number) {
    double best[SIDES] = {1e9, 1e9, 1e9};
    for (int round = 0; round < ROUNDS; round++)
        for (int who = 0; who < SIDES; who++) {
            double took = time_of(sides[who], number);
            if (took < best[who]) best[who] = took;
        }
    int bad = best[0] < 0 || best[1] < 0 || best[2] < 0;
    if (bad) printf("DIFFERENT ANSWERS: %s\n", name);
    for (int who = 1; who < SIDES; who++)
        printf("%-11s %-16s a pool  proved %7.1f ns  plain %7.1f ns  ratio %.2f  limit %.1f\n", words[who], name, best[who], best[0],
            best[who] / best[0], limits[who]);
    return bad;
}

int main(void) {
    int bad = !same_on_many();
    for (int k = 0; k < RACES; k++) races[k] = (struct race){below(REC_POOL_MAX + 1), 100 + below(150), 1 + below(50000)};
    bad |= rows("a race", REC_FINISHED);
    for (int k = 0; k < RACES; k++) races[k].rate = REC_RATE_MAX + 1;
    bad |= rows("a bad pool", REC_BAD_POOL);
    for (int k = 0; k < RACES; k++) races[k] = (struct race){races[k].pool, 150, 0};
    bad |= rows("no winner", REC_NO_WINNER);
    return bad;
}
