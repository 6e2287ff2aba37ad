/* One call of the engine beside the same call of the reference, and how often each
 * number came. */
#ifndef CALLS_H
#define CALLS_H

#include "../reference/rec.h"
#include "engine.h"

/* Anything at all in list, output and figures. */
void soil(struct random *r, struct side *side);

/* The reference's calls. */
void call_store(struct rec_store *store, const struct call *call, struct side *side);
void call_book(struct rec_book *book, const struct call *call, struct side *side);

/* The call is not made, and changes nothing. */
bool is_refusal(uint32_t number);

/* The engine's. False: a refused call left a trace in store, list, output or
 * figures, a run in tables or marks, or a fresh store is not all zeros whatever it held
 * before. */
bool call_engine(struct rec_store *store, const struct call *call, struct side *side);
bool fresh_engine(struct random *r, struct rec_store *store);

/* These say what differs. All of a side is compared, also what lies behind the
 * lent places. */
bool same(const char *what, long long index, long long expected, long long got);
bool same_sides(const struct side *expected, const struct side *got);
bool same_variables(const int32_t *expected, const int32_t *got);
bool same_marks(const uint8_t *expected, const uint8_t *got);
bool same_tables(const struct rec_store *expected, const struct rec_store *got);
bool same_stores(const struct rec_store *expected, const struct rec_store *got);
void show_call(const struct call *call);

/* The reference's book and store, which have ways of their own, and the engine's store. */
struct three {
    struct rec_book book;
    struct rec_store store;
    struct rec_store engine;
    struct side got; /* of the engine's last call */
};

/* All of them fresh. The same call of all three, or a define of a text as open, which is
 * accepted; false: they differ. */
bool fresh_three(struct random *r, struct three *t);
bool call_three(struct random *r, struct three *t, const struct call *call);
bool define_three(struct random *r, struct three *t, uint8_t letter, const char *words);

/* A cashier's run with the inputs that stand there, a list as it must be, and this room. */
void make_run(struct call *call, uint8_t letter, uint32_t allowance, size_t room);

/* Inputs, list and output of a run, most of them good. */
void choose_loan(struct random *r, struct call *call);

/* A mark or a role: 1 so often, now and then neither of the two, else 0. */
uint8_t some_mark(struct random *r, uint32_t percent);

/* An allowance that suits how a run ended with the allowance `trial`. */
uint32_t suit_allowance(struct random *r, const struct side *ended, uint32_t trial);

/* ---- what was met ---- */

enum { TAKEN = 4, MUST_END = 255 };

struct tally {
    unsigned long long calls;
    unsigned long long numbers[CALL_KINDS][REC_NUMBERS];
    unsigned long long clauses[REC_CLAUSES];
    unsigned long long taken[2][TAKEN]; /* finished, stopped; 0, 1, 2, more */
    unsigned long long exact_steps; /* finished with the whole allowance */
    unsigned long long exact_paper; /* finished with the whole output, not of 0 bytes */
};

/* The numbers that each kind of call must give, up to MUST_END. It gives no other; 30
 * is a fair copy's, 31 and 32 a dividend's, so none here gives them. */
struct must {
    uint8_t numbers[CALL_KINDS][REC_NUMBERS];
};

void count_call(struct tally *tally, const struct call *call, const struct side *expected);
bool numbers_met(const struct tally *tally, const struct must *must, unsigned long long least);
bool runs_met(const struct tally *tally, unsigned long long least);

#endif
