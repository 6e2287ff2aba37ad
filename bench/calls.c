/*
 * The calls of a store that take little time, through include/rec.h, beside plain C that does the same work with the same checks: nanoseconds for a
 * call, with both sides' stores and answers equal afterwards. bench/places builds and runs it, and holds each row to 1.5 times plain C.
 */
#define _POSIX_C_SOURCE 199309L
#include "measure.h"
#include "sides.h"
#include <stdio.h>

enum { ROUNDS = 15 };

/* ---- the calls that are measured ---- */

static int32_t fresh(struct side *s) {
    s->fresh(&s->store);
    return 0;
}

/* Both over a text that stands. */
static int32_t define_d(struct side *s) { return define(s, 'd', D_TEXT); }

static int32_t define_till(struct side *s) { return define(s, 't', TILL_TEXT); }

/* The letter stands again by its count alone, so that no define is in the time. */
static int32_t withdraw(struct side *s) {
    s->store.used['w' - 'a'] = 3;
    return s->withdraw(&s->store, 'w');
}

static int32_t run_short(struct side *s) { return run(s, 'q', 1000, NULL, 0); }

static int32_t run_print(struct side *s) { return run(s, 'p', 1000, &(int32_t){250}, 1); }

/* ---- the comparison ---- */

/* both from a store in which the texts of the runs stand */
static void begin(void) {
    for (int who = 0; who < 2; who++) {
        fresh(&sides[who]);
        define(&sides[who], 'q', "('/5'N)");
        define(&sides[who], 'p', "(IS1'/3'*''pays 'OXL;)");
        define(&sides[who], 'w', TILL_TEXT);
    }
}

/* 13, 1, 35, 10, 33, 11, 12 and a refused text: the same numbers, and nothing is changed */
static int refused_alike(void) {
    int good = 1;
    for (int broken = 0; broken < 5; broken++)
        for (const char *letter = "qQe"; *letter != 0; letter++) {
            enum { CALLS = 7 };
            int32_t numbers[2][CALLS];
            begin();
            for (int who = 0; who < 2; who++) {
                struct side *s = &sides[who];
                s->report.steps = 7;
                if (broken == 1) s->store.used[25] = 2;
                if (broken == 2) s->store.vars[9] = REC_VALUE_MAX + 1;
                if (broken == 3) s->store.marks[25] = 256;
                if (broken == 4) s->store.marks['q' - 'a'] = REC_STEWARDS;
                numbers[who][0] = define(s, (uint8_t)*letter, "(N");
                numbers[who][1] = run(s, (uint8_t)*letter, 1000, &(int32_t){REC_VALUE_MAX + 1}, 1);
                numbers[who][2] = s->run(&s->store, (uint8_t)*letter, REC_STEWARD, 1000, NULL, 0, s->list, REC_LIST - 1, s->output, PAPER, &s->report);
                numbers[who][3] = s->define(&s->store, (uint8_t)*letter, 2, (const uint8_t *)"()", 2);
                numbers[who][4] = s->run(&s->store, (uint8_t)*letter, 2, 1000, NULL, 0, s->list, REC_LIST, s->output, PAPER, &s->report);
                numbers[who][5] = *letter == 'q' ? 1 : s->withdraw(&s->store, (uint8_t)*letter);
                numbers[who][6] = *letter == 'q' ? 1 : run(s, (uint8_t)*letter, 1000, NULL, 0);
            }
            for (int i = 0; i < CALLS; i++) good &= numbers[0][i] == numbers[1][i] && numbers[0][i] != 0;
            good &= same_sides();
        }
    if (!good) puts("DIFFERENT ANSWERS: refused calls");
    return good;
}

/* A letter's mark, given and taken, and a call of a steward letter: the same answers, for a cashier 34. */
static int marked_alike(void) {
    int good = 1;
    for (uint32_t mark = REC_OPEN; mark <= REC_STEWARDS; mark++)
        for (uint32_t role = REC_CASHIER; role <= REC_STEWARD; role++) {
            begin();
            for (int who = 0; who < 2; who++) {
                struct side *s = &sides[who];
                int32_t number = mark == REC_STEWARDS && role == REC_CASHIER ? REC_STEWARD_CALL : 0;
                good &= define(s, 'a', "(bX;)") == 0 && define(s, 'b', "(''to 's;)") == 0 && s->define(&s->store, 's', mark, (const uint8_t *)"(X;)", 4) == 0;
                good &= s->run(&s->store, 'a', role, 1000, NULL, 0, s->list, REC_LIST, s->output, PAPER, &s->report) == number;
                good &= s->report.written == (number == 0 ? 5 : 3) && s->store.marks['s' - 'a'] == mark;
            }
            good &= same_sides();
            for (int who = 0; who < 2; who++) good &= sides[who].withdraw(&sides[who].store, 's') == 0;
            good &= same_sides();
        }
    if (!good) puts("DIFFERENT ANSWERS: marks and roles");
    return good;
}

typedef int32_t call(struct side *);

/* nanoseconds for a call that is accepted, or -1 */
static double time_of(call *it, struct side *s, int times) {
    int32_t numbers = 0;
    double from = seconds();
    for (int i = 0; i < times; i++) numbers |= it(s);
    return numbers == 0 ? (seconds() - from) / times * 1e9 : -1;
}

/* both in turn; the best of several rounds */
static int row(const char *name, call *it, int times) {
    double best[2] = {1e9, 1e9};
    begin();
    for (int round = 0; round < ROUNDS; round++)
        for (int who = 0; who < 2; who++) {
            double took = time_of(it, &sides[who], times);
            if (took < best[who]) best[who] = took;
        }
    int good = best[0] >= 0 && best[1] >= 0 && same_sides();
    if (!good) printf("DIFFERENT ANSWERS: %s\n", name);
    printf("%-26s a call  proved %7.1f ns  plain %7.1f ns  ratio %.2f\n", name, best[0], best[1], best[0] / best[1]);
    return !good;
}

int main(void) {
    int bad = !refused_alike() | !marked_alike();
    bad |= row("define d", define_d, 100000);
    bad |= row("define a till's text", define_till, 50000);
    bad |= row("withdraw", withdraw, 200000);
    bad |= row("fresh", fresh, 20000);
    bad |= row("run of two steps", run_short, 100000);
    bad |= sides[0].report.steps != 2 || sides[0].report.written != 0;
    bad |= row("run with a print", run_print, 100000);
    bad |= sides[0].report.steps != 9 || sides[0].report.taken != 1 || sides[0].report.written != 6 + REC_COLUMNS || sides[0].store.vars[1] != 250;
    return bad;
}
