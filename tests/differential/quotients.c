/* Compares division in runs, U5 of document 02: the engine against the reference's book
 * and store, which divide in two ways, on runs that divide pair after pair. Then holds
 * each quotient to U5's sentence, and, where it is known by hand, to that.
 *
 *     quotients [FIRST_SEED [ROUNDS]]      see work.h
 *
 * Built with calls.c, engine.c, work.c, texts.c, the reference and librec.a. */
#include <inttypes.h>
#include <stdio.h>
#include <string.h>

#include "calls.h"
#include "work.h"

enum {
    ROUNDS = 12000,
    PAIRS = INPUT_ROOM / 2, /* of a run */
    MOST = 999999999        /* the values' bound, once more */
};

/* ---- what was met ------------------------------------------------------ */

/* Signs of dividend and divisor; a dividend of 0 has none. */
enum signs { PLUS_PLUS, PLUS_MINUS, MINUS_PLUS, MINUS_MINUS, ZERO_PLUS, ZERO_MINUS, SIGNS };

static const char *const sign_words[SIGNS] = {
    "plus by plus", "plus by minus", "minus by plus", "minus by minus", "nothing by plus",
    "nothing by minus"};

enum kind {
    EXACT, INEXACT, REST_1, REST_MOST, SMALLER, BY_ONE, DIVIDEND_MOST, DIVISOR_MOST, KINDS
};

static const char *const kind_words[KINDS] = {
    "exact", "not exact", "rest of 1", "rest of 1 less than the divisor",
    "smaller than the divisor", "by one", "dividend at the bound", "divisor at the bound"};

static unsigned long long quotients, zero_divisors, kinds[KINDS][SIGNS];

static enum signs signs_of(int64_t a, int64_t b)
{
    return a == 0 ? b > 0 ? ZERO_PLUS : ZERO_MINUS
           : a > 0 ? b > 0 ? PLUS_PLUS : PLUS_MINUS
                   : b > 0 ? MINUS_PLUS : MINUS_MINUS;
}

static int64_t size_of(int64_t value)
{
    return value < 0 ? -value : value;
}

/* Of a quotient that is right; `rest` is what it leaves, without its sign. */
static void count_quotient(int64_t a, int64_t b, int64_t q)
{
    int64_t rest = size_of(a - q * b), size = size_of(a), by = size_of(b);
    const bool seen[KINDS] = {
        rest == 0, rest != 0, by > 2 && rest == 1, by > 2 && rest == by - 1, size < by, by == 1,
        size == MOST, by == MOST};
    quotients++;
    for (size_t i = 0; i < KINDS; i++)
        kinds[i][signs_of(a, b)] += seen[i];
}

static bool counts(bool directed, bool full)
{
    unsigned long long least = directed ? 1 : full ? 100 : 0;
    bool good = true;
    printf("%s: %llu quotients\n", directed ? "directed cases" : "rounds", quotients);
    for (size_t i = 0; i < KINDS; i++)
        for (size_t j = 0; j < ZERO_PLUS; j++)
            good &= met(kinds[i][j], least, "%s, %s", kind_words[i], sign_words[j]);
    for (size_t j = ZERO_PLUS; j < SIGNS; j++)
        good &= met(kinds[EXACT][j], least, "%s", sign_words[j]);
    good &= met(zero_divisors, least, "zero divisor");
    quotients = zero_divisors = 0;
    memset(kinds, 0, sizeof kinds);
    return good;
}

/* ---- one comparison ---------------------------------------------------- */

/* All of them fresh, with a text that divides its inputs pair by pair. */
static bool start(struct random *r, struct three *t)
{
    return fresh_three(r, t) && define_three(r, t, 'q', "(II/:)");
}

/* "the greatest whole number not above the exact quotient": times the divisor it is not
 * above the dividend, and the next one is; by a negative divisor, the other way round. */
static bool is_quotient(int64_t a, int64_t b, int64_t q)
{
    int64_t here = q * b, next = (q + 1) * b;
    bool good = b > 0 ? here <= a && a < next : here >= a && a > next;
    if (good)
        count_quotient(a, b, q);
    else
        printf("  %" PRId64 " by %" PRId64 " gave %" PRId64 "\n", a, b, q);
    return good;
}

/* Dividends and divisors in turn. The run ends where no input is left, or by a divisor 0. */
static bool divide(struct random *r, struct three *t, struct call *call)
{
    size_t pairs = call->input_length / 2, done = 0;
    bool good;
    while (done < pairs && call->input[2 * done + 1] != 0)
        done++;
    make_run(call, 'q', 1000, 0);
    good = call_three(r, t, call);
    good &= same("number", 0, done < pairs ? REC_ZERO_DIVISOR : REC_NO_INPUT, t->got.number);
    good &= same("quotients", 0, (long long)(done < pairs ? done + 2 : done),
                 (long long)t->got.figures[2]);
    for (size_t i = 0; i < done && good; i++)
        good &= is_quotient(call->input[2 * i], call->input[2 * i + 1], t->got.list[i]);
    zero_divisors += good && done < pairs;
    call->input_length = 0;
    return good;
}

/* The pair is divided with others, when a run is full. */
static bool add(struct random *r, struct three *t, struct call *call, int32_t a, int32_t b)
{
    call->input[call->input_length++] = a;
    call->input[call->input_length++] = b;
    return call->input_length < 2 * PAIRS || divide(r, t, call);
}

/* ---- directed cases ---------------------------------------------------- */

static const struct {
    int32_t a, b, q;
} known[] = {
    {-7, 2, -4}, {7, -2, -4}, {-7, -2, 3}, /* U5's */
    {7, 2, 3}, {8, 2, 4}, {-8, 2, -4}, {8, -2, -4}, {-8, -2, 4}, {1, 2, 0}, {-1, 2, -1},
    {1, -2, -1}, {-1, -2, 0}, {0, 2, 0}, {0, -2, 0}, {MOST, 1, MOST}, {-MOST, 1, -MOST},
    {MOST, -1, -MOST}, {-MOST, -1, MOST}, {-MOST, 2, -500000000}, {MOST, -2, -500000000},
    {-1, MOST, -1}, {1, -MOST, -1}, {-MOST, MOST - 1, -2}, {-MOST, 1 - MOST, 1}};

/* As the constants of a text, and as inputs. */
static bool by_hand(struct random *r, struct three *t, struct call *call)
{
    bool good = true;
    for (size_t i = 0; i < sizeof known / sizeof known[0] && good; i++) {
        char words[40];
        snprintf(words, sizeof words, "('/%" PRId32 "''/%" PRId32 "'/:)", known[i].a, known[i].b);
        make_run(call, 'q', 3, 0);
        call->input_length = 0;
        good &= define_three(r, t, 'q', words) && call_three(r, t, call);
        good &= same("quotient of constants", (long long)i, known[i].q, t->got.list[0]);
        good &= define_three(r, t, 'q', "(II/:)") && add(r, t, call, known[i].a, known[i].b);
        good &= divide(r, t, call);
        good &= same("quotient of inputs", (long long)i, known[i].q, t->got.list[0]);
    }
    return good;
}

/* Every small dividend by every small divisor, 0 among them; and sizes by sizes with all
 * signs: around powers of two, roots and parts of the bound, and the bound. */
static bool directed(void)
{
    static const int32_t sizes[] = {
        1, 2, 3, 10, 99, 31622, 31623, 46340, 46341, 65535, 65536, 16777216, 16777217, 333333333,
        499999999, 500000000, 536870912, MOST - 1, MOST};
    enum { COUNT = sizeof sizes / sizeof sizes[0] };
    static struct three t;
    static struct call call;
    struct random r;
    bool good;
    random_seed(&r, 1);
    good = start(&r, &t) && by_hand(&r, &t, &call);
    for (int32_t a = -40; a <= 40 && good; a++)
        for (int32_t b = -13; b <= 13 && good; b++)
            good &= add(&r, &t, &call, a, b) && (b != 0 || divide(&r, &t, &call));
    for (size_t i = 0; i < 4 * COUNT * COUNT && good; i++) {
        int32_t a = sizes[i / 4 % COUNT], b = sizes[i / 4 / COUNT];
        good &= add(&r, &t, &call, i & 1 ? -a : a, i & 2 ? -b : b);
    }
    return good && divide(&r, &t, &call);
}

/* ---- rounds ------------------------------------------------------------ */

static bool round_of(uint64_t seed)
{
    static struct three t;
    static struct call call;
    struct random r;
    bool good;
    random_seed(&r, seed);
    good = start(&r, &t);
    call.input_length = 0;
    for (int i = 0; i < 4 * PAIRS && good; i++) {
        int32_t b = chance(&r, 40) ? between(&r, -12, 12) : random_value(&r), a = random_value(&r);
        if (b != 0 && chance(&r, 40)) { /* a multiple, or next to one */
            int32_t most = (int32_t)(MOST / size_of(b));
            int64_t near = (int64_t)between(&r, -most, most) * b;
            near += between(&r, -1, 1);
            a = near < -MOST || MOST < near ? a : (int32_t)near;
        }
        good &= add(&r, &t, &call, a, b);
    }
    return good && divide(&r, &t, &call);
}

int main(int count, char **words)
{
    static const struct work division = {ROUNDS, directed, round_of, counts};
    return work(&division, count, words);
}
