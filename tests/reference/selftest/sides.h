/* Book and store side by side, a store alone, and what is lent to a run. */
#ifndef SIDES_H
#define SIDES_H

#include "../rec.h"

enum { OUTPUT_ROOM = 5200, GUARD = 64 };

struct both {
    struct rec_book book;
    struct rec_store store;
    size_t lengths[REC_LETTERS]; /* of the standing texts */
    uint8_t marks[REC_LETTERS];  /* as the accepted calls have left them */
    uint8_t last;                /* role of the run before */
};

/* A fresh book and a fresh store. */
void both_fresh(struct both *b);

/* The marks of book and store are as the accepted calls have left them. */
void check_marks(const struct both *b, const char *what);

/* The same call of both; the answers are alike and the number is U7's. Returns it. */
uint32_t both_define_as(struct both *b, uint8_t letter, uint8_t mark, const void *text,
                        size_t length);
uint32_t both_withdraw(struct both *b, uint8_t letter);

/* Letters are open where nothing else is said. */
uint32_t both_define(struct both *b, uint8_t letter, const void *text, size_t length);
uint32_t define_text(struct both *b, char letter, const char *text);

/* Fresh, then letters first to last, each calling the next; the last calls `last`. */
void chain_of(struct both *b, const char *letters, char last);

/* ---- a store alone ---- */

/* Numbers parted by commas, from the start of a table. */
void put_cells(int32_t *table, const char *cells);

/* A run, a cashier's where nothing else is said. */
struct rec_answer store_run_as(struct rec_store *store, uint8_t letter, uint8_t role,
                               uint32_t allowance, const struct rec_loan *loan);
struct rec_answer store_run(struct rec_store *store, uint8_t letter, uint32_t allowance,
                            const struct rec_loan *loan);

/* ---- what is lent to a run ---- */

/* A lent list and output with some room behind them that must stay. */
struct paper {
    int32_t list[REC_LIST + GUARD];
    uint8_t output[OUTPUT_ROOM + GUARD];
};

/* What the last run left, and what it was lent. */
extern struct paper one_paper, old_paper;

/* Anything in all places, the same each time. */
void soil(struct paper *p);

/* All but the clause of 29. */
bool same_answer(const struct rec_answer *a, const struct rec_answer *b);

#endif
