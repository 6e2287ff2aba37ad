/* What U7 says of refusals, and what calls with marks and roles must have met. */
#ifndef ROLES_DUTIES_H
#define ROLES_DUTIES_H

#include "../rec.h"

/* U7's once more, so that those of rec.h are tried too. */
enum { OPEN = 0, FOR_STEWARDS = 1, CASHIER = 0, STEWARD = 1 };

/* What calls with marks and roles must have met. */
enum duty {
    CASHIER_RAN, STEWARD_RAN_OPEN, STEWARD_RAN_STEWARD, CASHIER_NEXT, STEWARD_NEXT, STEWARD_WENT_ON,
    STOP_AT_ONCE, STOP_NEXT, STOP_FAR, STOP_FARTHER, STOP_WITH_LIST, STOP_WITH_INPUT,
    STOP_WITH_OUTPUT, NO_STOP, NO_TEXT_BEFORE_34, SPENT_BEFORE_34, STOP_BEFORE_28, MADE_OPEN,
    MADE_STEWARD, STEWARD_AGAIN, REFUSED_OPEN, REFUSED_STEWARD, REFUSED_MARK, WITHDRAWN_STEWARD,
    REPLACED_AND_33, REPLACED_AND_34, REPLACED_AND_FINISHED, STRANGE_OF_STANDING,
    STRANGE_OF_CLEARED, STEWARD_OF_CLEARED, DUTIES
};

/* Counts a duty, where it was seen. */
void on_duty(bool seen, enum duty duty);

/* The letter is one of `a` to `z`. */
bool is_known(uint8_t letter);

/* Neither of the two marks, or of the two roles. */
bool is_strange(uint8_t mark_or_role);

/* The call is not made, and changes nothing. */
bool is_refusal(uint32_t number);

/* The first number that fits a call, or 0; `bad`: the store is. It is counted, with each
 * later one that fits too. The letter's standing and mark are looked at where there is
 * such a letter. */
uint32_t number_of_define(bool bad, uint8_t letter, uint8_t mark, const uint8_t *text,
                          size_t length);
uint32_t number_of_withdraw(bool bad, uint8_t letter, bool standing);
uint32_t number_of_run(bool bad, uint8_t letter, bool standing, uint8_t mark, uint8_t role,
                       const struct rec_loan *loan);

#endif
