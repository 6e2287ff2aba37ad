/* U7 against document 01 alone: to a steward all letters are open, to a cashier a steward
 * letter is as good as cleared. */
#include "roles_accounts.h"

#include <string.h>

#include "check.h"
#include "reach_accounts.h"
#include "roles_duties.h"

uint32_t steward_letters(const uint8_t *marks)
{
    uint32_t letters = 0;
    for (size_t i = 0; i < REC_LETTERS; i++)
        letters |= marks[i] == FOR_STEWARDS ? bit(i) : 0;
    return letters;
}

static uint32_t cleared_letters(const struct rec_store *store)
{
    uint32_t letters = 0;
    for (size_t i = 0; i < REC_LETTERS; i++)
        letters |= store->used[i] == 0 ? bit(i) : 0;
    return letters;
}

static struct rec_store plain_store;
static struct paper plain_paper;

/* The run with all marks open, some letters cleared and some given the text `(;)`. */
static struct rec_answer plain_run(const struct duty_run *d, uint32_t cleared, uint32_t filled,
                                   uint32_t allowance)
{
    static const int32_t filling[] = {2000, 4, 0, 1};
    struct rec_loan loan = d->loan;
    plain_store = *d->store;
    memcpy(plain_store.variables, d->variables, sizeof plain_store.variables);
    for (size_t i = 0; i < REC_LETTERS; i++) {
        plain_store.marks[i] = OPEN;
        if (cleared & bit(i))
            plain_store.used[i] = 0;
        if (filled & bit(i)) {
            memcpy(plain_store.cells + i * REC_CELLS, filling, sizeof filling);
            plain_store.used[i] = 4;
        }
    }
    plain_paper = old_paper;
    loan.list = plain_paper.list;
    loan.output = plain_paper.output;
    return store_run(&plain_store, d->letter, allowance, &loan);
}

/* After steps that end 27 with the steward letters cleared: whether it is a call of one
 * of `letters` that ends it, which goes on or is too deep where these have texts. */
static bool calls_one_of(const struct duty_run *d, uint32_t letters, uint32_t steps)
{
    uint32_t stewards = steward_letters(d->store->marks);
    struct rec_answer a = plain_run(d, stewards, letters, steps + 1);
    return a.number != 27 || a.steps != steps;
}

/* 27 and 34 stop at the same mark where steward letters are cleared: it is 27 where the
 * letter has no text. */
static uint32_t number_at_call(const struct duty_run *d, uint32_t steps)
{
    uint32_t cleared = cleared_letters(d->store), stewards = steward_letters(d->store->marks);
    if (!calls_one_of(d, cleared, steps))
        return 34;
    if (cleared & stewards)
        on_duty(calls_one_of(d, cleared & stewards, steps), NO_TEXT_BEFORE_34);
    return 27;
}

/* To a steward all letters are open. To a cashier steward letters are as good as cleared,
 * and 34 is their 27. */
void check_role(const struct duty_run *d, const struct rec_answer *a, const struct paper *left)
{
    uint32_t stewards = steward_letters(d->store->marks);
    bool cashier = d->role == CASHIER;
    struct rec_answer due = plain_run(d, cashier ? stewards : 0, 0, d->allowance);
    check(memcmp(&plain_paper, left, sizeof *left) == 0, "lent places by the role", "");
    check(memcmp(plain_store.variables, d->store->variables, sizeof plain_store.variables) == 0,
          "variables by the role", "");
    if (cashier && due.number == 27)
        due.number = number_at_call(d, due.steps);
    check(same_answer(a, &due), "answer by the role", "");
    if (a->number == 34) {
        struct rec_answer open = plain_run(d, 0, 0, a->steps + 1);
        on_duty(open.number == 28 && open.steps == a->steps, STOP_BEFORE_28);
    }
    if (!cashier && !(stewards & bit((size_t)(d->letter - 'a')))) {
        struct rec_answer barred = plain_run(d, stewards, 0, d->allowance);
        on_duty(barred.number == 27 && (a->number != 27 || a->steps != barred.steps),
                STEWARD_WENT_ON);
    }
}

/* Where the calls of the texts lead before a steward letter comes. */
static void duties_of_stop(const struct both *b, uint8_t letter, const struct rec_answer *a)
{
    uint32_t stewards = steward_letters(b->marks), next, after = 0;
    struct ways w;
    ways_of_texts(b, &w);
    next = w.calls[letter - 'a'];
    for (size_t i = 0; i < REC_LETTERS; i++)
        if (next & ~stewards & bit(i))
            after |= w.calls[i];
    on_duty(a->steps == 0, STOP_AT_ONCE);
    on_duty(next & stewards, STOP_NEXT);
    on_duty(!(next & stewards), STOP_FAR);
    on_duty(!((next | after) & stewards), STOP_FARTHER);
    on_duty(a->height > 0, STOP_WITH_LIST);
    on_duty(a->taken > 0, STOP_WITH_INPUT);
    on_duty(a->written > 0, STOP_WITH_OUTPUT);
}

void duties_of_run(struct both *b, uint8_t letter, uint8_t role, const struct rec_answer *a)
{
    if (is_refusal(a->number))
        return;
    on_duty(role == CASHIER, CASHIER_RAN);
    on_duty(role == STEWARD, b->marks[letter - 'a'] ? STEWARD_RAN_STEWARD : STEWARD_RAN_OPEN);
    on_duty(role != b->last, role == CASHIER ? CASHIER_NEXT : STEWARD_NEXT);
    b->last = role;
    if (a->number == 34)
        duties_of_stop(b, letter, a);
}

/* ---- a store alone ----------------------------------------------------- */

/* Number 13. */
static bool is_bad(const struct rec_store *store)
{
    bool bad = false;
    for (size_t i = 0; i < REC_LETTERS; i++) {
        size_t used = store->used[i];
        bad |= used == 1 || used == 2 || used > 250 || is_strange(store->marks[i]);
        on_duty(is_strange(store->marks[i]), used ? STRANGE_OF_STANDING : STRANGE_OF_CLEARED);
        on_duty(used == 0 && store->marks[i] == FOR_STEWARDS, STEWARD_OF_CLEARED);
    }
    for (size_t i = 0; i < REC_VARIABLES; i++)
        bad |= store->variables[i] < -999999999 || store->variables[i] > 999999999;
    return bad;
}

static struct rec_store old_store;

static void check_kept(const struct rec_store *store, const char *what)
{
    check(memcmp(&old_store, store, sizeof old_store) == 0, "store as it was", what);
}

/* An accepted call changes one mark at most. */
static void check_one_mark(const struct rec_store *store, uint8_t letter, uint8_t mark)
{
    for (size_t i = 0; i < REC_LETTERS; i++) {
        uint8_t due = i == (size_t)(letter - 'a') ? mark : old_store.marks[i];
        check(store->marks[i] == due, "mark after a call", "");
    }
}

uint32_t lone_define(struct rec_store *store, uint8_t letter, uint8_t mark, const uint8_t *text,
                     size_t length)
{
    uint32_t due = number_of_define(is_bad(store), letter, mark, text, length);
    uint32_t number;
    memcpy(&old_store, store, sizeof old_store);
    number = rec_store_define(store, letter, mark, text, length);
    check(number == due, "define of a lone store", "");
    if (due != 0)
        check_kept(store, "define");
    else
        check_one_mark(store, letter, mark);
    return number;
}

uint32_t lone_withdraw(struct rec_store *store, uint8_t letter)
{
    bool standing = is_known(letter) && store->used[letter - 'a'] != 0;
    uint32_t due = number_of_withdraw(is_bad(store), letter, standing);
    uint32_t number;
    memcpy(&old_store, store, sizeof old_store);
    number = rec_store_withdraw(store, letter);
    check(number == due, "withdraw of a lone store", "");
    if (due != 0)
        check_kept(store, "withdraw");
    else
        check_one_mark(store, letter, OPEN);
    return number;
}

struct rec_answer lone_run(struct rec_store *store, uint8_t letter, uint8_t role,
                           uint32_t allowance, const int32_t *input, size_t input_length,
                           size_t list_length, size_t output_length)
{
    struct rec_loan loan = {input, input_length, one_paper.list, list_length, one_paper.output,
                            output_length};
    const struct duty_run d = {store, old_store.variables, letter, role, allowance, loan};
    bool standing = is_known(letter) && store->used[letter - 'a'] != 0;
    uint8_t mark = is_known(letter) ? store->marks[letter - 'a'] : OPEN;
    uint32_t due = number_of_run(is_bad(store), letter, standing, mark, role, &loan);
    struct rec_answer a;
    soil(&one_paper);
    old_paper = one_paper;
    memcpy(&old_store, store, sizeof old_store);
    a = store_run_as(store, letter, role, allowance, &loan);
    check(due == (is_refusal(a.number) ? a.number : 0), "refusal of a lone store", "");
    if (a.number != 0)
        check_kept(store, "run");
    if (is_refusal(a.number))
        check(memcmp(&one_paper, &old_paper, sizeof one_paper) == 0 && !a.truth && !a.steps
                  && !a.height && !a.taken && !a.written, "refused run of a lone store", "");
    else if (due == 0)
        check_role(&d, &a, &one_paper);
    return a;
}
