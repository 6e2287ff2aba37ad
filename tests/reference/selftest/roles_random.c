/* U7's marks and roles at random: calls of both, steward texts replaced, which is nothing
 * to a cashier's run, and spoilt stores. */
#include <string.h>

#include "../../differential/texts.h"
#include "check.h"
#include "random.h"
#include "roles_accounts.h"
#include "roles_duties.h"
#include "runs.h"
#include "subjects.h"

/* Of the letters `a` to `f` mostly. */
static uint8_t duty_letter(struct random *r)
{
    return chance(r, 92) ? (uint8_t)between(r, 'a', 'f') : (uint8_t)below(r, 256);
}

/* Texts that call, and some that are refused. */
static void duty_text(struct random *r, struct text *text)
{
    static const char *const texts[] = {
        "(;)", "()", "(b;)", "(c)", "(de;f)", "(Ib;)", "(IS1Lc;)", "(''ab'Xd;)", "('/7'S2Oe;)",
        "(0f;'/1'-d;)", "(Id;)", "(a:)", "($3$b:;)", "(IN;f)", "((a;)(b;);)", "(F1'/1'+S1c;)"};
    uint8_t calls[4];
    uint32_t pick = below(r, 100);
    for (size_t i = 0; i < 4; i++)
        calls[i] = (uint8_t)between(r, 'a', 'f');
    text_clear(text);
    if (pick < 40) {
        text_add(text, texts[below(r, sizeof texts / sizeof texts[0])]);
    } else if (pick < 75) {
        text_of_calls(r, calls, below(r, 5), text);
    } else if (pick < 90) {
        struct taste taste = random_taste(r, calls, 4);
        taste.size = 60;
        taste.calls = 25;
        text_random(r, &taste, text);
    } else if (pick < 95) {
        text_fill(text, " ", 257);
    } else {
        random_bytes(r, text);
    }
}

static void define_duty(struct random *r, struct both *b, uint8_t letter)
{
    struct text text;
    duty_text(r, &text);
    both_define_as(b, letter, random_mark(r), text.bytes, text.length);
}

/* What a run takes; at times something is bad. */
struct takes {
    int32_t input[4];
    size_t count;
    size_t list;
    size_t output;
    uint32_t allowance;
};

static struct takes random_takes(struct random *r)
{
    struct takes t = {.count = below(r, 5), .list = REC_LIST, .output = chance(r, 80) ? 100 : 10};
    for (size_t i = 0; i < t.count; i++)
        t.input[i] = between(r, -2, 5);
    if (t.count > 0 && chance(r, 8))
        t.input[below(r, (uint32_t)t.count)] = chance(r, 50) ? 1000000000 : -1000000000;
    if (chance(r, 8))
        t.list = below(r, 2 * REC_LIST);
    t.allowance = below(r, chance(r, 30) ? 12 : 400);
    return t;
}

/* A run; where it ends 34, once more with no step left for the call. */
static void run_duty(struct both *b, uint8_t letter, uint8_t role, const struct takes *t)
{
    static struct paper paper;
    struct rec_answer a, spent;
    a = both_run_as(b, letter, role, t->allowance, t->input, t->count, t->list, t->output);
    if (a.number != 34)
        return;
    paper = one_paper;
    spent = both_run_as(b, letter, role, a.steps, t->input, t->count, t->list, t->output);
    a.number = 20;
    check(same_answer(&a, &spent), "20 before 34", "");
    check(memcmp(&paper, &one_paper, sizeof paper) == 0, "places of 20 and 34", "");
    on_duty(true, SPENT_BEFORE_34);
}

/* `f` is called about 100 deep, whatever it is. */
static void duty_ladder(struct random *r, struct both *b)
{
    const int32_t input[] = {between(r, 96, 101)};
    both_define_as(b, 'd', OPEN, "(0f;'/1'-d;)", 12);
    both_define_as(b, 'a', OPEN, "(Id;)", 5);
    if (chance(r, 30))
        both_define_as(b, 'f', FOR_STEWARDS, "(;)", 3);
    both_run_as(b, 'a', chance(r, 20), 1000, input, 1, REC_LIST, 100);
}

static void duty_call(struct random *r, struct both *b)
{
    uint8_t letter = duty_letter(r);
    uint32_t pick = below(r, 100);
    if (pick < 35) {
        define_duty(r, b, letter);
    } else if (pick < 42) {
        both_withdraw(b, letter);
    } else if (pick < 45) {
        duty_ladder(r, b);
    } else {
        struct takes t = random_takes(r);
        run_duty(b, letter, random_mark(r), &t);
    }
}

/* All steward letters get other texts, their marks stay. */
static void replace_steward_texts(struct random *r, struct both *b)
{
    static struct rec_tree tree;
    struct text text;
    for (size_t i = 0; i < REC_LETTERS; i++) {
        if (b->marks[i] != FOR_STEWARDS)
            continue;
        do
            duty_text(r, &text);
        while (rec_read(text.bytes, text.length, &tree) != 0);
        both_define_as(b, (uint8_t)('a' + i), FOR_STEWARDS, text.bytes, text.length);
    }
}

/* No cashier's run calls a steward letter, so what these hold is nothing to it. */
static void steward_texts_replaced(struct random *r, struct both *b)
{
    static struct both other;
    static struct paper paper;
    memcpy(&other, b, sizeof other);
    replace_steward_texts(r, &other);
    for (uint8_t letter = 'a'; letter <= 'f'; letter++) {
        struct takes t = random_takes(r);
        struct rec_answer one, two;
        one = both_run_as(b, letter, CASHIER, t.allowance, t.input, t.count, t.list, t.output);
        paper = one_paper;
        two = both_run_as(&other, letter, CASHIER, t.allowance, t.input, t.count, t.list,
                          t.output);
        check(same_answer(&one, &two), "answer whatever the steward texts", "");
        check(memcmp(&paper, &one_paper, sizeof paper) == 0, "places whatever the steward texts",
              "");
        check(memcmp(b->book.variables, other.book.variables, sizeof b->book.variables) == 0,
              "variables whatever the steward texts", "");
        if (steward_letters(b->marks)) {
            on_duty(one.number == 33, REPLACED_AND_33);
            on_duty(one.number == 34, REPLACED_AND_34);
            on_duty(one.number == 0, REPLACED_AND_FINISHED);
        }
    }
}

/* Marks mostly, and the cells of what is called. */
static void spoil_marks(struct random *r, struct rec_store *store)
{
    size_t letter = below(r, chance(r, 80) ? 6 : REC_LETTERS);
    size_t used = store->used[letter];
    uint32_t pick = below(r, 100);
    if (pick < 8)
        store->marks[letter] = (uint8_t)between(r, 2, 255);
    else if (pick < 60)
        store->marks[letter] ^= 1;
    else if (pick < 65 || used < 3 || used > REC_CELLS)
        spoil_store(r, store);
    else
        store->cells[letter * REC_CELLS + (size_t)between(r, 1, (int32_t)used - 1)]
            = random_cell(r, used);
}

static void duties_of_spoilt(struct random *r, const struct both *b)
{
    static struct rec_store store;
    struct text text;
    memcpy(&store, &b->store, sizeof store);
    for (int i = between(r, 1, 4); i > 0; i--)
        spoil_marks(r, &store);
    for (int i = 0; i < 4; i++) {
        struct takes t = random_takes(r);
        lone_run(&store, duty_letter(r), random_mark(r), t.allowance, t.input, t.count, t.list,
                 t.output);
    }
    lone_withdraw(&store, duty_letter(r));
    duty_text(r, &text);
    lone_define(&store, duty_letter(r), random_mark(r), text.bytes, text.length);
}

void random_duties(uint64_t seed)
{
    static struct both b;
    struct random r;
    random_seed(&r, ~seed ^ (uint64_t)1 << 63);
    both_fresh(&b);
    for (uint8_t letter = 'a'; letter <= 'f'; letter++)
        if (chance(&r, 70))
            define_duty(&r, &b, letter);
    for (int i = between(&r, 4, 16); i > 0; i--)
        duty_call(&r, &b);
    steward_texts_replaced(&r, &b);
    for (int i = 0; i < 2; i++)
        duties_of_spoilt(&r, &b);
}
