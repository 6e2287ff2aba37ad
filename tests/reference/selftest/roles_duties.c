/* The refusals of each call in U7's order, with every pair that may fit at once, and the
 * duties of marks and roles. */
#include "roles_duties.h"

#include "../../differential/work.h"
#include "check.h"
#include "subjects.h"

static const char *const duty_words[DUTIES] = {
    "cashier's run", "steward's run of an open letter", "steward's run of a steward letter",
    "cashier's run after a steward's", "steward's run after a cashier's",
    "steward's run where a cashier's ends 34", "34 in the first mark",
    "34 in a text that calls a steward letter", "34 two calls down or more",
    "34 three calls down or more", "34 with values on the list", "34 with inputs taken",
    "34 with output", "steward letter reached, cashier's run not ended 34", "27 before 34",
    "20 before 34", "34 before 28", "steward letter made open", "open letter made steward",
    "steward letter made steward again", "steward letter not made open by a refusal",
    "open letter not made steward by a refusal", "standing letter and a bad mark",
    "steward letter withdrawn", "33 whatever the steward texts", "34 whatever the steward texts",
    "finished whatever the steward texts", "13 by the mark of a standing letter",
    "13 by the mark of a cleared letter", "cleared letter marked as steward"};

static unsigned long long duties[2][DUTIES];

void on_duty(bool seen, enum duty duty)
{
    duties[in_histories][duty] += seen;
}

/* ---- the refusals in their order --------------------------------------- */

enum asked { TO_DEFINE, TO_WITHDRAW, TO_RUN, ASKED };

static const char *const asked_words[ASKED] = {"define", "withdraw", "run"};

enum { PLACES = 7 };

/* The numbers of each call in their order, 0 after the last; 3 is for 3 to 9. */
static const uint32_t call_orders[ASKED][PLACES + 1] = {
    {13, 1, 35, 2, 3}, {13, 1, 10}, {13, 1, 35, 10, 33, 11, 12}};

static unsigned long long pairs_met[2][ASKED][PLACES][PLACES];

/* The first number that fits, or 0. It is counted, with each later one that fits too. */
static uint32_t first_number(enum asked asked, const bool fits[PLACES])
{
    size_t first = 0;
    while (call_orders[asked][first] != 0 && !fits[first])
        first++;
    for (size_t i = first; call_orders[asked][i] != 0; i++)
        pairs_met[in_histories][asked][first][i] += fits[i];
    return call_orders[asked][first];
}

bool is_known(uint8_t letter)
{
    return letter >= 'a' && letter <= 'z';
}

bool is_strange(uint8_t mark_or_role)
{
    return mark_or_role != 0 && mark_or_role != 1;
}

uint32_t number_of_define(bool bad, uint8_t letter, uint8_t mark, const uint8_t *text,
                          size_t length)
{
    static struct rec_tree tree;
    uint32_t fault = rec_read(text, length, &tree);
    const bool fits[PLACES] = {bad, !is_known(letter), is_strange(mark), fault == 2, fault > 2};
    uint32_t number = first_number(TO_DEFINE, fits);
    return number == 3 ? fault : number;
}

uint32_t number_of_withdraw(bool bad, uint8_t letter, bool standing)
{
    const bool fits[PLACES] = {bad, !is_known(letter), is_known(letter) && !standing};
    return first_number(TO_WITHDRAW, fits);
}

static bool is_lawful(const struct rec_loan *loan)
{
    for (size_t i = 0; i < loan->input_length; i++)
        if (loan->input[i] < -999999999 || loan->input[i] > 999999999)
            return false;
    return true;
}

uint32_t number_of_run(bool bad, uint8_t letter, bool standing, uint8_t mark, uint8_t role,
                       const struct rec_loan *loan)
{
    bool known = is_known(letter);
    const bool fits[PLACES] = {bad, !known, is_strange(role), known && !standing,
                               known && mark == FOR_STEWARDS && role == CASHIER,
                               !is_lawful(loan), loan->list_length != 64};
    return first_number(TO_RUN, fits);
}

bool is_refusal(uint32_t number)
{
    return (number >= 1 && number <= 14) || number == 33 || number == 35;
}

/* ---- what must have been met ------------------------------------------- */

/* Of the pairs in an order, those that never fit at once: a letter that is none is not
 * cleared and has no mark, a text has one first fault, and a bad role is no cashier's. */
static bool fit_at_once(uint32_t earlier, uint32_t later)
{
    return !(earlier == 1 && (later == 10 || later == 33)) && !(earlier == 2 && later == 3)
        && !(earlier == 35 && later == 33);
}

/* Each duty, each refusal of each call, and each that hides a later one. */
bool counts_of_duties(bool of_histories, unsigned least)
{
    bool good = true;
    for (size_t i = 0; i < DUTIES; i++)
        good &= met(duties[of_histories][i], least, "marks and roles: %s", duty_words[i]);
    for (size_t asked = 0; asked < ASKED; asked++)
        for (size_t i = 0; call_orders[asked][i] != 0; i++)
            for (size_t j = i; call_orders[asked][j] != 0; j++) {
                unsigned long long times = pairs_met[of_histories][asked][i][j];
                unsigned earlier = call_orders[asked][i], later = call_orders[asked][j];
                if (i == j)
                    good &= met(times, least, "marks and roles: %s, %u", asked_words[asked],
                                earlier);
                else if (fit_at_once(earlier, later))
                    good &= met(times, least, "marks and roles: %s, %u before %u",
                                asked_words[asked], earlier, later);
                else
                    good &= check(times == 0, "numbers that never fit at once",
                                  asked_words[asked]);
            }
    return good;
}
