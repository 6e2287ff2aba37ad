/* Damaged stores, which no calls give: random ones, and tables, counts, marks and
 * variables by hand. */
#ifndef DAMAGE_H
#define DAMAGE_H

#include "../reference/rec.h"
#include "texts.h"

/* Cell 1 of a table; letter 0 is `a`. */
int32_t *table_of(struct rec_store *store, size_t letter);

/* ---- what the cells of a table are ---- */

enum field {
    CODE,
    TRANSFER,
    ON_FALSE,
    DIGIT,
    N,
    ORDER,
    VALUE,
    LENGTH,
    BYTE,
    LAST
};

struct spot {
    size_t cell; /* from 1 */
    enum field field;
};

struct spots {
    struct spot all[REC_CELLS + 1];
    size_t count;
};

/* Mark after mark from cell 2, and the last two cells. */
void find_spots(struct spots *spots, const int32_t *table, size_t used);

/* ---- random damage ---- */

/* A store of random texts of so many letters from `a` on, which call each other. Some have
 * steward letters, cleared ones among them. */
void make_store(struct random *r, struct rec_store *store, size_t letters);

/* Changes to the tables of so many letters, to their counts, to the variables, and to the
 * marks of all letters. */
void damage_once(struct random *r, struct rec_store *store, size_t letters);
void damage_store(struct random *r, struct rec_store *store, size_t letters);

/* ---- damage by hand ---- */

/* A table, and what document 01 says of its first damaged cell. A run comes to it. */
struct hand_table {
    enum rec_clause clause;
    size_t at; /* the damaged cell */
    size_t used;
    int32_t cells[10];
};

extern const struct hand_table hand_tables[];
extern const size_t hand_table_count;

/* A clause of 29 in words. */
extern const char *const clause_words[REC_CLAUSES];

/* Tries a store in which `a` alone stands with `('/5'S0S1;)`, then every count, mark and
 * variable just inside and outside of what 13 allows; `bad`: 13 is due. The cells of
 * every other letter are 0. False: a try gave false. */
bool try_bad_stores(bool (*try)(const struct rec_store *store, bool bad));

void show_store(const struct rec_store *store);

#endif
