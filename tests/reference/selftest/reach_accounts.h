/* U2's reach against two more accounts, and what the reaches must have met. */
#ifndef REACH_ACCOUNTS_H
#define REACH_ACCOUNTS_H

#include "sides.h"

/* What a store and a letter may have for a reach to meet. */
enum sight {
    ITSELF_ALONE, SELF_CALL, CIRCLE, CHAIN_OF_26, NONE_MISSING, MISSING_NEXT, MISSING_FAR,
    STANDING_APART, CLEARED_APART, LETTER_IN_PRINT, LETTER_IN_COMMENT, CODE_IN_CONSTANT,
    CODE_IN_COUNTER, DAMAGE_IN_ITSELF, DAMAGE_REACHED, DAMAGE_APART, CHANGED_AND_SOUND,
    CELL_1_CHANGED, UNUSED_CHANGED, CLEARED_CHANGED, BAD_BEFORE_1, BAD_BEFORE_10, BAD_BEFORE_29,
    LETTER_BEFORE_29, STANDING_BEFORE_29, MARK_OF_STANDING, MARK_OF_CLEARED, MARK_TURNED,
    RUN_ENDED_27, RUN_WITH_MISSING, RUN_NONE_MISSING, SIGHTS
};

/* Counts a sight, where it was seen. */
void sighted(bool seen, enum sight sight);

/* Letters as bits, `a` the lowest; 0 for a byte that is no letter. */
uint32_t bit(size_t letter);
uint32_t letter_bit(int32_t byte);

struct ways {
    bool bad;         /* number 13 */
    uint32_t clause;  /* of 29, of the first damaged table */
    uint32_t damaged; /* letters whose table cannot be read through */
    uint32_t standing;
    uint32_t strange; /* letters whose mark is neither of the two (U7) */
    uint32_t calls[REC_LETTERS];
    uint32_t leads[REC_LETTERS]; /* by a chain of one call or more */
    /* of texts only, to see what is no call */
    uint32_t bytes[REC_LETTERS]; /* anywhere in the text */
    uint32_t prints[REC_LETTERS];
    uint32_t constants[REC_LETTERS]; /* whose value is a call's code */
    uint32_t counters[REC_LETTERS];  /* whose n is a letter's byte */
};

/* The account over the trees, of a store made by texts. */
void ways_of_texts(const struct both *b, struct ways *w);

/* The account over the tables, of any store. */
void ways_of_tables(const struct rec_store *store, struct ways *w);

/* Lent marks with some room behind them that must stay. */
struct marks {
    uint8_t reached[REC_LETTERS + GUARD];
    uint8_t missing[REC_LETTERS + GUARD];
};

/* Neither 0 nor 1 anywhere, so each mark that is written shows. */
const struct marks *soiled_marks(void);

/* A reach against one of the accounts. Returns its number. */
uint32_t compare_reach(const struct rec_store *store, const struct ways *w, uint8_t letter,
                       const char *what);

/* The number alone, a refusal's or 0; the marks are those of the tables. */
void expect_number(const struct rec_store *store, uint8_t letter, uint32_t number,
                   const char *what);

/* What U2 says of a run on a store made by calls: only a missing letter lets it end 27. */
void check_reach_of_run(const struct rec_store *store, uint8_t letter, uint8_t role,
                        const struct rec_answer *a);

#endif
