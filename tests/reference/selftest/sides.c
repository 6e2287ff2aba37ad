/* Every define and withdraw of book and store: the answers are alike, the number is U7's,
 * and the marks are as the accepted calls have left them. */
#include "sides.h"

#include <stdlib.h>
#include <string.h>

#include "check.h"
#include "roles_duties.h"

void both_fresh(struct both *b)
{
    rec_book_fresh(&b->book);
    rec_store_fresh(&b->store);
    memset(b->marks, OPEN, sizeof b->marks);
    b->last = CASHIER;
}

void check_marks(const struct both *b, const char *what)
{
    check(memcmp(b->book.marks, b->marks, sizeof b->marks) == 0, "marks of the book", what);
    check(memcmp(b->store.marks, b->marks, sizeof b->marks) == 0, "marks of the store", what);
}

static void duties_of_define(const struct both *b, uint8_t letter, uint8_t mark, uint32_t number)
{
    bool stood = is_known(letter) && b->book.standing[letter - 'a'];
    bool was = stood && b->marks[letter - 'a'] == FOR_STEWARDS;
    on_duty(was && mark == OPEN, number ? REFUSED_OPEN : MADE_OPEN);
    on_duty(stood && !was && mark == FOR_STEWARDS, number ? REFUSED_STEWARD : MADE_STEWARD);
    on_duty(was && mark == FOR_STEWARDS && number == 0, STEWARD_AGAIN);
    on_duty(stood && is_strange(mark), REFUSED_MARK);
}

uint32_t both_define_as(struct both *b, uint8_t letter, uint8_t mark, const void *text,
                        size_t length)
{
    uint32_t due = number_of_define(false, letter, mark, text, length);
    uint32_t one, two;
    duties_of_define(b, letter, mark, due);
    one = rec_book_define(&b->book, letter, mark, text, length);
    two = rec_store_define(&b->store, letter, mark, text, length);
    check(one == two, "define answers differ", "");
    check(one == due, "number of a define", "");
    if (due == 0) {
        b->lengths[letter - 'a'] = length;
        b->marks[letter - 'a'] = mark;
    }
    check_marks(b, "after a define");
    return one;
}

uint32_t both_define(struct both *b, uint8_t letter, const void *text, size_t length)
{
    return both_define_as(b, letter, OPEN, text, length);
}

uint32_t define_text(struct both *b, char letter, const char *text)
{
    return both_define(b, (uint8_t)letter, text, strlen(text));
}

uint32_t both_withdraw(struct both *b, uint8_t letter)
{
    bool standing = is_known(letter) && b->book.standing[letter - 'a'];
    uint32_t due = number_of_withdraw(false, letter, standing);
    uint32_t one = rec_book_withdraw(&b->book, letter);
    uint32_t two = rec_store_withdraw(&b->store, letter);
    check(one == two, "withdraw answers differ", "");
    check(one == due, "number of a withdraw", "");
    if (due == 0) {
        on_duty(b->marks[letter - 'a'] == FOR_STEWARDS, WITHDRAWN_STEWARD);
        b->marks[letter - 'a'] = OPEN;
    }
    check_marks(b, "after a withdraw");
    return one;
}

void chain_of(struct both *b, const char *letters, char last)
{
    char text[] = "( ;)";
    both_fresh(b);
    for (; *letters; letters++) {
        text[1] = letters[1] ? letters[1] : last;
        define_text(b, *letters, text);
    }
}

/* ---- a store alone ----------------------------------------------------- */

void put_cells(int32_t *table, const char *cells)
{
    while (*cells) {
        char *rest;
        *table++ = (int32_t)strtol(cells, &rest, 10);
        cells = *rest == ',' ? rest + 1 : rest;
    }
}

struct rec_answer store_run_as(struct rec_store *store, uint8_t letter, uint8_t role,
                               uint32_t allowance, const struct rec_loan *loan)
{
    return rec_store_run(store->cells, store->used, store->marks, store->variables, letter, role,
                         allowance, loan);
}

struct rec_answer store_run(struct rec_store *store, uint8_t letter, uint32_t allowance,
                            const struct rec_loan *loan)
{
    return store_run_as(store, letter, CASHIER, allowance, loan);
}

/* ---- what is lent to a run --------------------------------------------- */

struct paper one_paper, old_paper;

void soil(struct paper *p)
{
    static struct paper soiled;
    if (soiled.output[0] == 0) {
        for (size_t i = 0; i < REC_LIST + GUARD; i++)
            soiled.list[i] = (int32_t)(i * 2654435761u);
        for (size_t i = 0; i < OUTPUT_ROOM + GUARD; i++)
            soiled.output[i] = (uint8_t)(i * 37 + 11);
    }
    *p = soiled;
}

bool same_answer(const struct rec_answer *a, const struct rec_answer *b)
{
    return a->number == b->number && a->truth == b->truth && a->steps == b->steps
        && a->height == b->height && a->taken == b->taken && a->written == b->written;
}
