/* The nested meaning against the table machine on random histories, and both accounts of
 * reading and of the clean print on random texts. */
#include <string.h>

#include "../../differential/texts.h"
#include "../../differential/work.h"
#include "check.h"
#include "fair_copy.h"
#include "random.h"
#include "reach_accounts.h"
#include "roles_duties.h"
#include "runs.h"
#include "subjects.h"

static unsigned numbers[REC_NUMBERS];

/* ---- texts ------------------------------------------------------------- */

static void random_text(struct random *r, const uint8_t *letters, struct text *text)
{
    struct taste taste = random_taste(r, letters, 5);
    if (chance(r, 5))
        taste.size = 400;
    text_random(r, &taste, text);
    for (size_t i = 0; i < text->length; i++)
        if (text->bytes[i] == ' ' && chance(r, 10))
            text->bytes[i] = '\n';
}

/* A table about full, with about 16 counters at times. */
static void random_full(struct random *r, struct text *text)
{
    text_clear(text);
    text_add(text, "(");
    text_fill(text, "N", (size_t)between(r, 80, 125));
    text_fill(text, "$1$", (size_t)between(r, 0, 18));
    text_add(text, "(''ab'F1;'/5'X)A)");
    if (chance(r, 70))
        text_spoil(r, text);
}

/* A number in all its forms: many zeros, too many digits at times. */
static void random_digits(struct random *r, struct text *text, int most)
{
    uint32_t zeros = chance(r, 20) ? 100 : 50;
    for (int i = between(r, 1, chance(r, 99) ? most : most + 1); i > 0; i--)
        text_byte(text, (uint8_t)(chance(r, zeros) ? '0' : between(r, '0', '9')));
}

static void untidy_mark(struct random *r, struct text *text)
{
    static const char *const marks[] = {"0", "0", "-", "N", "F0", "S0", "F7", "a", "X", ";", ",",
                                        ",", ":", ".", "."};
    static const char bytes[] = "  ..,,\"\"$/-0(;a";
    switch (below(r, 6)) {
    case 0:
        text_add(text, chance(r, 50) ? "'/" : "'/-");
        random_digits(r, text, 9);
        text_add(text, "'");
        break;
    case 1:
        text_add(text, "$");
        random_digits(r, text, 4);
        text_add(text, chance(r, 20) ? "1$" : "$");
        break;
    case 2:
        text_add(text, "''");
        for (int i = between(r, 0, 6); i > 0; i--)
            text_byte(text, (uint8_t)bytes[below(r, sizeof bytes - 1)]);
        text_add(text, "'");
        break;
    default:
        text_add(text, marks[below(r, sizeof marks / sizeof marks[0])]);
        break;
    }
}

/* Numbers with zeros, prints that look like marks, and much between the marks. */
static void random_untidy(struct random *r, struct text *text)
{
    static const char *const gaps[] = {" ", "  ", "\n", " \n ", "\"\"", "\"it's\"", "\"a, b.\"",
                                       "\"'/00'\n$01$\"", "\"''\" \"(\""};
    size_t size = (size_t)between(r, 2, chance(r, 80) ? 60 : 250);
    uint32_t gap = chance(r, 30) ? 0 : (uint32_t)between(r, 5, 60);
    size_t level = 0;
    text_clear(text);
    do {
        if (chance(r, gap))
            text_add(text, gaps[below(r, sizeof gaps / sizeof gaps[0])]);
        if (level == 0 || (level < 10 && chance(r, 10))) {
            text_add(text, "(");
            level++;
        } else if (level > 1 && chance(r, 10)) {
            text_add(text, ")");
            level--;
        } else {
            untidy_mark(r, text);
        }
    } while (text->length < size);
    text_fill(text, ")", level);
    if (chance(r, gap))
        text_add(text, gaps[below(r, sizeof gaps / sizeof gaps[0])]);
}

/* 254 to 258 bytes of long constants: copies of 256 bytes. */
static void random_long(struct random *r, struct text *text)
{
    size_t length = (size_t)between(r, 254, 258);
    text_clear(text);
    text_add(text, "(");
    while (text->length < length - 20) {
        text_add(text, "'/");
        text_number(text, between(r, 10000000, 999999999));
        text_add(text, "'");
    }
    while (text->length < length - 1)
        text_add(text, chance(r, 50) ? "A" : ";");
    text_add(text, ")");
}

static void random_readings(struct random *r, const uint8_t *letters)
{
    struct text text;
    for (int i = 0; i < 10; i++) {
        random_text(r, letters, &text);
        numbers[compare_accounts(text.bytes, text.length)]++;
        text_spoil(r, &text);
        numbers[compare_accounts(text.bytes, text.length)]++;
        random_bytes(r, &text);
        numbers[compare_accounts(text.bytes, text.length)]++;
        random_full(r, &text);
        numbers[compare_accounts(text.bytes, text.length)]++;
        text_hard(r, letters, 5, &text);
        numbers[compare_accounts(text.bytes, text.length)]++;
        random_untidy(r, &text);
        numbers[compare_accounts(text.bytes, text.length)]++;
    }
    random_long(r, &text);
    numbers[compare_accounts(text.bytes, text.length)]++;
}

/* ---- calls ------------------------------------------------------------- */

/* A run that would not stop within a short trial gets no high allowance. */
static uint32_t random_allowance(struct random *r, const struct both *b, uint8_t letter,
                                 uint8_t role, const int32_t *input, size_t count,
                                 size_t output_length)
{
    static struct paper trial;
    struct rec_loan loan = {input, count, trial.list, REC_LIST, trial.output, output_length};
    int32_t variables[REC_VARIABLES];
    struct rec_answer a;
    memcpy(variables, b->store.variables, sizeof variables);
    a = rec_store_run(b->store.cells, b->store.used, b->store.marks, variables, letter, role, 3000,
                      &loan);
    switch (below(r, 6)) {
    case 0:
        return a.steps + below(r, 3) - (a.steps > 0);
    case 1:
        return below(r, a.steps + 2);
    case 2:
        return a.number == REC_SPENT ? 2000 : UINT32_MAX - below(r, 3);
    default:
        return below(r, 2500);
    }
}

static void random_run(struct random *r, struct both *b, uint8_t letter, bool marked)
{
    static const size_t lengths[] = {0, 1, 13, 14, 15, 28, 40, 100, 4096, 5200};
    int32_t input[80];
    size_t count = below(r, chance(r, 80) ? 6 : 80);
    size_t list = chance(r, 97) ? REC_LIST : below(r, REC_LIST + GUARD);
    size_t output = chance(r, 50) ? 4096 : lengths[below(r, 10)];
    uint8_t role = marked ? random_mark(r) : CASHIER;
    uint32_t allowance;
    for (size_t i = 0; i < count; i++)
        input[i] = random_value(r);
    if (count > 0 && chance(r, 2))
        input[below(r, (uint32_t)count)] = chance(r, 50) ? 1000000000 : INT32_MIN;
    allowance = random_allowance(r, b, letter, role, input, count, output);
    numbers[both_run_as(b, letter, role, allowance, input, count, list, output).number]++;
}

static void random_call(struct random *r, struct both *b, const uint8_t *letters, bool marked)
{
    static const char *const sets[] = {"($3$'/1'+;)", "(0L'/1';'/1'-e'/2'*;)", "(Ie;)",
                                       "((b;c)(c;b)$2$:;)", "($5$b''r'b;$2$X;)", "(a;b;c:)"};
    struct text text;
    uint8_t letter = chance(r, 97) ? letters[below(r, 5)] : (uint8_t)below(r, 256);
    uint8_t mark = marked ? random_mark(r) : OPEN;
    uint32_t pick = below(r, 100);
    if (pick < 35) {
        random_text(r, letters, &text);
        if (chance(r, 10))
            text_spoil(r, &text);
        compare_accounts(text.bytes, text.length);
        numbers[both_define_as(b, letter, mark, text.bytes, text.length)]++;
    } else if (pick < 40) {
        const char *set = sets[below(r, 6)];
        numbers[both_define_as(b, letter, mark, set, strlen(set))]++;
    } else if (pick < 44) {
        numbers[both_withdraw(b, letter)]++;
    } else {
        random_run(r, b, letter, marked);
    }
}

/* Every second one has open letters and cashiers alone. */
void random_history(uint64_t seed)
{
    static struct both b;
    struct random r;
    struct ways w;
    uint8_t letters[5];
    bool marked;
    random_seed(&r, seed);
    for (size_t i = 0; i < 5; i++)
        letters[i] = (uint8_t)between(&r, 'a', 'e');
    random_readings(&r, letters);
    both_fresh(&b);
    marked = chance(&r, 50);
    for (int i = between(&r, 5, 60); i > 0; i--)
        random_call(&r, &b, letters, marked);
    ways_of_texts(&b, &w);
    for (uint8_t letter = 'a'; letter <= 'f'; letter++)
        compare_reach(&b.store, &w, letter, "end of a history");
}

/* ---- what must have been met ------------------------------------------- */

/* Each number but 14, of desk lines alone, 13 and 29, which no history has, 30, of
 * clean prints alone, and 31 and 32, of payouts alone. The directed cases have no
 * histories. */
bool counts_of_histories(bool of_histories, unsigned least)
{
    bool good = true;
    for (uint32_t i = 0; of_histories && i < REC_NUMBERS; i++) {
        if (i <= REC_BAD_LIST || (i >= REC_SPENT && i < REC_DAMAGED) || (i >= 33 && i <= 35))
            good &= met(numbers[i], least, "number %u (%s)", (unsigned)i, number_word(i));
        else
            good &= check(numbers[i] == 0, "a number that no history has", number_word(i));
    }
    return good;
}
