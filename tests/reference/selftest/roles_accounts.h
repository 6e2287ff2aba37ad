/* U7 by document 01 alone: runs of book and store, and calls of a store alone, sound or
 * not. */
#ifndef ROLES_ACCOUNTS_H
#define ROLES_ACCOUNTS_H

#include "sides.h"

/* The letters that these marks make steward's, as bits. */
uint32_t steward_letters(const uint8_t *marks);

/* A run that came to no refusal. */
struct duty_run {
    const struct rec_store *store; /* as the run left it */
    const int32_t *variables;      /* before the run */
    uint8_t letter;
    uint8_t role;
    uint32_t allowance;
    struct rec_loan loan;
};

/* The answer, the lent places that the run left, and the variables, by the role. */
void check_role(const struct duty_run *d, const struct rec_answer *a, const struct paper *left);

/* Counts what a run of both met. */
void duties_of_run(struct both *b, uint8_t letter, uint8_t role, const struct rec_answer *a);

/* ---- a store alone ---- */

/* A call against the number due; refused, it leaves all as it was. A run goes by its
 * role. */
uint32_t lone_define(struct rec_store *store, uint8_t letter, uint8_t mark, const uint8_t *text,
                     size_t length);
uint32_t lone_withdraw(struct rec_store *store, uint8_t letter);
struct rec_answer lone_run(struct rec_store *store, uint8_t letter, uint8_t role,
                           uint32_t allowance, const int32_t *input, size_t input_length,
                           size_t list_length, size_t output_length);

#endif
