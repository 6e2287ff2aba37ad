/* Steps per second of the proved interpreter beside a plain C interpreter with the same checks and a threaded one with none (bench/limit.c), in one
   program. bench/places builds and runs it, and holds each row to 1.00 times plain C. */
#define _POSIX_C_SOURCE 199309L
#include "limit.h"
#include "measure.h"
#include "sides.h"
#include <stdio.h>

enum { ALL = 3 };

static struct side limit = {.fresh = plain_fresh, .define = plain_define, .withdraw = plain_withdraw, .run = limit_run};
static struct side *const all[ALL] = {&sides[0], &sides[1], &limit};

/* processor seconds of a number of runs with an allowance each */
static double time_of(struct side *s, uint32_t allowance, int runs) {
    double from = seconds();
    for (int i = 0; i < runs; i++) run(s, 'a', allowance, NULL, 0);
    return seconds() - from;
}

/* whether a run ends with the number on all sides, and with the same answers */
static int alike(uint32_t allowance, int32_t number) {
    int good = 1;
    for (int who = 0; who < ALL; who++) good &= run(all[who], 'a', allowance, NULL, 0) == number && same(all[0], all[who]);
    return good;
}

static void put(char letter, const int32_t *table, size_t n) {
    for (int who = 0; who < ALL; who++) {
        memcpy(all[who]->store.cells + (letter - 'a') * REC_CELLS, table, n * sizeof *table);
        all[who]->store.used[letter - 'a'] = n;
    }
}

/* runs by all in turn, which end with the number; the best of twenty rounds */
static int compare(const char *name, uint32_t allowance, int runs, int32_t number) {
    double best[ALL] = {1e9, 1e9, 1e9}, rate[ALL];
    limit_translate(&limit.store);
    for (int round = 0; round < 20; round++)
        for (int who = 0; who < ALL; who++) {
            double took = time_of(all[who], allowance, runs);
            if (took < best[who]) best[who] = took;
        }
    for (int who = 0; who < ALL; who++) rate[who] = (double)all[who]->report.steps * runs / best[who] / 1e6;
    int good = alike(allowance, number);
    if (!good) printf("DIFFERENT ANSWERS: %s\n", name);
    printf("%-22s %7.1f M steps/s  C %7.1f  ratio %.2f  limit %7.1f\n", name, rate[0], rate[1], best[0] / best[1], rate[2]);
    return !good;
}

/*
 * The close of a drawer: the float, 97 tickets one after the other, the totals, and the money. Variables: 1 the drawer, 2 and 4 how many tickets were
 * paid and how much, 3 and 5 the same of cancelled ones, 6 the money, 8 the number of the ticket, 9 what v and q put aside.
 */
static const struct { char letter; const char *text; } drawer[] = {
    {'a', "(o ($97$ n (e c ; p ;) : ;) r w k ;)"},                              /* closes the drawer */
    {'o', "('/500000' S1 L '/0' S2 S3 S4 S5 S6 S8 L ;)"},                       /* the float, and totals of 0 */
    {'n', "(F8 y S8 '/50' * '/200' + i ;)"},                                    /* the next ticket: its stake */
    {'e', "(F8 '/9' v 0 L ; L )"},                                              /* is it a cancelled one? */
    {'c', "(t F3 y S3 L P F5 + S5 L ''CANCELLED' l ; ''NOT TAKEN' l ;)"},       /* the stake goes back */
    {'p', "(d m b t F2 y S2 L P F4 + S4 L ''PAID     ' l ; ''NOT PAID ' l ;)"}, /* the ticket is paid */
    {'d', "(F8 '/7' v 0 ; '/35' * '/100' + ;)"},                                /* its dividend */
    {'m', "(u '/10' / * '/10' / ; * '/100' / ;)"},                              /* what it pays */
    {'u', "(P '/10' v 0 L ; L )"},                                              /* does the top end in 0? */
    {'b', "((N) (0) ;)"},                                                       /* is the top above 0? */
    {'v', "(S9 L P F9 / F9 * - ;)"},                                            /* a remainder */
    {'y', "('/1' + ;)"},                                                        /* one more */
    {'i', "(P F1 + S1 L ;)"},                                                   /* the top goes into the drawer */
    {'t', "(P F1 - M (N) S1 L ;)"},                                             /* the top comes out of it */
    {'l', "(F8 h z X ;)"},                                                      /* a ticket's line */
    {'h', "('/100' * z ;)"},                                                    /* a count */
    {'z', "(O L ;)"},                                                           /* an amount */
    {'r', "(''PAID     ' F2 h F4 z X ''CANCELLED' F3 h F5 z X ;)"},             /* the totals */
    {'q', "(O S9 L P h F9 * O X F6 + S6 L ;)"},                                 /* notes or coins: how many, of which worth */
    {'w', "('/41' '/5000' q '/58' '/1000' q '/38' '/500' q '/39' '/100' q '/6' '/50' q '/3' '/5' q ;)"},
    {'k', "(F6 ''COUNTED ' O X F1 ''EXPECTED' O X - 0 S1 ''BALANCED' ; (N A ''SHORT   ' O ; ''OVER    ' O ;) )"}};

/* whether all sides take the drawer's texts */
static int define_drawer(void) {
    int good = 1;
    for (int who = 0; who < ALL; who++) {
        all[who]->fresh(&all[who]->store);
        for (size_t i = 0; i < sizeof drawer / sizeof *drawer; i++) good &= define(all[who], (uint8_t)drawer[i].letter, drawer[i].text) == 0;
    }
    if (!good) puts("DIFFERENT: a text of the drawer is refused");
    return good;
}

#define PUT(letter, ...) do { const int32_t t[] = {__VA_ARGS__}; put(letter, t, sizeof t / sizeof *t); } while (0)

int main(void) {
    int bad = 0;
    PUT('a', 2000, 2, 0, 1); /* (:) */
    bad |= compare("(:)", 20000000, 1, REC_SPENT);
    PUT('a', 2000, -36, -9999, 0, 7, 2, 2, 0, 1); /* ($9999$::) */
    bad |= compare("counter loop", 20000000, 1, REC_SPENT);
    /* ('/0'(F1'/3'+'/2'*'/7'/'/5'-S1L:)) */
    PUT('a', 2000, -175, 0, -70, 1, -175, 3, -43, -175, 2, -42, -175, 7, -47, -175, 5, -45, -83, 1, -76, 4, 24, 0, 1);
    bad |= compare("variables, arithmetic", 20000000, 1, REC_SPENT);
    PUT('a', 2000, -98, 5, 2, 2, 0, 1); /* (b::) */
    PUT('b', 2000, -99, 5, 6, 0, 1);    /* (c;) */
    PUT('c', 2000, 4, 0, 1);            /* (;) */
    bad |= compare("calls", 20000000, 1, REC_SPENT);
    /* ($40$'/-12345'OL''total to pay today: 'X:;) */
    PUT('a', 2000, -36, -40, 0, 33, -175, -12345, -79, -76, -167, 19, 't', 'o', 't', 'a', 'l', ' ', 't', 'o', ' ', 'p', 'a', 'y', ' ', 't', 'o', 'd',
        'a', 'y', ':', -88, 2, 35, 0, 1);
    bad |= compare("prints", 1000, 40000, REC_FINISHED);
    bad |= !define_drawer() || compare("closing a drawer", 20000, 1000, REC_FINISHED);
    PUT('a', 2000, 4, 0, 1); /* (;) */
    limit_translate(&limit.store);
    double took[ALL];
    for (int who = 0; who < ALL; who++) took[who] = time_of(all[who], 1000, 1000000);
    bad |= !alike(1000, REC_FINISHED);
    printf("fixed cost of a run    %7.3f us        C %7.3f us             limit %7.3f us\n", took[0], took[1], took[2]);
    return bad;
}
