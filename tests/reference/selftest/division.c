/* U5's division against quotients worked by hand, against repeated subtraction, and
 * against U5's sentence in 64 bits; none of these divides. */
#include <stdio.h>
#include <string.h>

#include "../../differential/work.h"
#include "check.h"
#include "runs.h"
#include "subjects.h"
#include "values.h"

/* ---- what U5 says of division ------------------------------------------ */

/* On 62 quotients, the amount and divisor of the last pair fill the list. */
enum { PAIRS = 63 };

/* Cases that the divisions tried must have met, each by all signs. */
enum share {
    NO_REST, SOME_REST, REST_1, REST_LACKS_1, AMOUNT_SMALLER, AMOUNT_ALIKE, DIVISOR_1,
    AMOUNT_AT_BOUND, DIVISOR_AT_BOUND, SHARES
};

static const char *const share_words[SHARES] = {
    "no rest", "rest", "rest of 1", "rest of 1 less than the divisor",
    "amount smaller than divisor", "amount as great as divisor", "divisor of 1",
    "amount at its bound", "divisor at its bound"};

/* Of amount and divisor; nothing has no sign. */
enum signs {
    PLUS_BY_PLUS, PLUS_BY_MINUS, MINUS_BY_PLUS, MINUS_BY_MINUS, NOTHING_BY_PLUS,
    NOTHING_BY_MINUS, SIGNS
};

static const char *const sign_words[SIGNS] = {
    "plus by plus", "plus by minus", "minus by plus", "minus by minus", "nothing by plus",
    "nothing by minus"};

static unsigned long long shares[2][SHARES][SIGNS], by_zero[2];

static enum signs signs_of(int64_t amount, int64_t divisor)
{
    if (amount == 0)
        return divisor > 0 ? NOTHING_BY_PLUS : NOTHING_BY_MINUS;
    if (amount > 0)
        return divisor > 0 ? PLUS_BY_PLUS : PLUS_BY_MINUS;
    return divisor > 0 ? MINUS_BY_PLUS : MINUS_BY_MINUS;
}

static void shares_of(int64_t amount, int64_t divisor, int64_t quotient)
{
    int64_t rest = without_sign(amount - quotient * divisor);
    int64_t size = without_sign(amount), by = without_sign(divisor);
    const bool seen[SHARES] = {
        rest == 0, rest != 0, rest == 1 && by > 2, by > 2 && rest == by - 1, size < by,
        size == by, by == 1, size == MOST_VALUE, by == MOST_VALUE};
    for (size_t i = 0; i < SHARES; i++)
        shares[in_histories][i][signs_of(amount, divisor)] += seen[i];
}

/* "The greatest whole number not above the exact quotient": times the divisor, it is not
 * above the amount and the next one is; by a divisor below 0, it is not below the amount
 * and the next one is. Whatever 32 bits the quotient holds, the products fit in 64. */
static void check_quotient(int64_t amount, int64_t divisor, int64_t quotient, const char *what)
{
    int64_t reached = quotient * divisor;
    int64_t next = (quotient + 1) * divisor;
    unsigned before = wrong;
    check(divisor > 0 ? reached <= amount : reached >= amount, "quotient too high", what);
    check(divisor > 0 ? amount < next : amount > next, "quotient too low", what);
    if (wrong == before)
        shares_of(amount, divisor, quotient);
    else if (before < SHOWN)
        printf("  %lld by %lld gave %lld\n", (long long)amount, (long long)divisor,
               (long long)quotient);
}

/* Amounts and divisors in turn, with the quotients due where they are known. */
struct pairs {
    int32_t input[2 * PAIRS];
    int32_t due[PAIRS];
    bool known[PAIRS];
    size_t count;
};

/* One run for all of them, until no input is left: quotient upon quotient. */
static void divide_pairs(struct pairs *p, const char *what)
{
    static struct both b;
    struct rec_answer a;
    if (!b.book.standing['q' - 'a'])
        check(define_text(&b, 'q', "(II/:)") == 0, "define", what);
    a = both_run(&b, 'q', 1000, p->input, 2 * p->count, REC_LIST, 0);
    check(a.number == REC_NO_INPUT && a.steps == 4 * p->count && a.height == p->count
              && a.taken == 2 * p->count, "answer of a run of divisions", what);
    for (size_t i = 0; i < p->count; i++) {
        check_quotient(p->input[2 * i], p->input[2 * i + 1], one_paper.list[i], what);
        if (p->known[i])
            check(one_paper.list[i] == p->due[i], "quotient", what);
    }
    p->count = 0;
}

static void add_pair(struct pairs *p, int32_t amount, int32_t divisor, const char *what)
{
    if (p->count == PAIRS)
        divide_pairs(p, what);
    p->input[2 * p->count] = amount;
    p->input[2 * p->count + 1] = divisor;
    p->known[p->count++] = false;
}

static void add_known(struct pairs *p, int32_t amount, int32_t divisor, int32_t quotient,
                      const char *what)
{
    add_pair(p, amount, divisor, what);
    p->known[p->count - 1] = true;
    p->due[p->count - 1] = quotient;
}

/* Both signs turned leave the exact quotient as it is. */
static int32_t quotient_by_subtraction(int32_t amount, int32_t divisor)
{
    int32_t rest = divisor < 0 ? -amount : amount;
    int32_t part = divisor < 0 ? -divisor : divisor;
    int32_t quotient = 0;
    for (; rest < 0; rest += part)
        quotient--;
    for (; rest >= part; rest -= part)
        quotient++;
    return quotient;
}

/* The list stays, and the mark is not counted. */
static void expect_zero_divisor(int32_t amount)
{
    static struct both b;
    const int32_t input[] = {-5, amount, 0, 9};
    struct rec_answer a;
    if (!b.book.standing['q' - 'a'])
        check(define_text(&b, 'q', "(III/S1;)") == 0, "define", "zero divisor");
    a = both_run(&b, 'q', 1000, input, 4, REC_LIST, 0);
    by_zero[in_histories]
        += check(a.number == REC_ZERO_DIVISOR && a.steps == 3 && a.height == 3 && a.taken == 3
                     && memcmp(one_paper.list, input, 3 * sizeof input[0]) == 0,
                 "zero divisor", "");
}

/* ---- by hand ----------------------------------------------------------- */

struct division {
    int32_t amount, divisor, quotient;
};

static const struct division divisions[] = {
    {-7, 2, -4}, {7, -2, -4}, {-7, -2, 3}, /* U5's */
    {7, 2, 3}, {8, 2, 4}, {8, -2, -4}, {-8, 2, -4}, {-8, -2, 4},
    {9, 2, 4}, {9, -2, -5}, {-9, 2, -5}, {-9, -2, 4},
    {6, 3, 2}, {7, 3, 2}, {8, 3, 2}, {9, 3, 3}, {6, -3, -2}, {7, -3, -3}, {8, -3, -3},
    {9, -3, -3}, {-6, 3, -2}, {-7, 3, -3}, {-8, 3, -3}, {-9, 3, -3}, {-6, -3, 2}, {-7, -3, 2},
    {-8, -3, 2}, {-9, -3, 3},
    {1, 2, 0}, {-1, 2, -1}, {1, -2, -1}, {-1, -2, 0},
    {2, 7, 0}, {-2, 7, -1}, {2, -7, -1}, {-2, -7, 0},
    {7, 7, 1}, {-7, 7, -1}, {7, -7, -1}, {-7, -7, 1},
    {0, 5, 0}, {0, -5, 0}, {0, 1, 0}, {0, -1, 0}, {0, 999999999, 0}, {0, -999999999, 0},
    {1, 1, 1}, {1, -1, -1}, {-1, 1, -1}, {-1, -1, 1},
    {999999999, 1, 999999999}, {999999999, -1, -999999999}, {-999999999, 1, -999999999},
    {-999999999, -1, 999999999},
    {999999999, 2, 499999999}, {999999999, -2, -500000000}, {-999999999, 2, -500000000},
    {-999999999, -2, 499999999},
    {999999999, 999999999, 1}, {999999999, -999999999, -1}, {-999999999, 999999999, -1},
    {-999999999, -999999999, 1},
    {999999998, 999999999, 0}, {999999998, -999999999, -1}, {-999999998, 999999999, -1},
    {-999999998, -999999999, 0},
    {999999999, 999999998, 1}, {999999999, -999999998, -2}, {-999999999, 999999998, -2},
    {-999999999, -999999998, 1},
    {1, 999999999, 0}, {1, -999999999, -1}, {-1, 999999999, -1}, {-1, -999999999, 0},
    {999950884, 31622, 31622}, {-999950884, 31622, -31622}, {-999950885, 31622, -31623},
    {-999950883, 31622, -31622}, {999950884, -31622, -31622}, {999950885, -31622, -31623},
    {999950883, -31622, -31622}, {-999950885, -31622, 31622}, {-999950883, -31622, 31621},
};

/* As constants of a text, then as inputs. */
static void examples_of_division(void)
{
    struct pairs pairs = {.count = 0};
    for (size_t i = 0; i < sizeof divisions / sizeof divisions[0]; i++) {
        const struct division *d = &divisions[i];
        char text[40];
        snprintf(text, sizeof text, "('/%d''/%d'/;)", (int)d->amount, (int)d->divisor);
        expect_text(text, 1000, 0, true, 4, 1, d->quotient);
        add_known(&pairs, d->amount, d->divisor, d->quotient, "by hand");
    }
    divide_pairs(&pairs, "by hand");
    /* what is done with a quotient */
    expect_output("(II/OII/OII/OX;)", "-7 2 7 -2 -7 -2",
                  "         -0.04         -0.04          0.03\n");
    expect_text("('/9''/-7''/2'/;)", 1000, 0, true, 5, 2, -4);
    expect_text("('/-7''/2'/'/2'/;)", 1000, 0, true, 6, 1, -2);
    expect_text("('/-7'P'/2'/'/2'*-;)", 1000, 0, true, 8, 1, 1);
    expect_text("('/1''/-2'/N)", 1000, 0, false, 5, 1, -1);
    expect_text("('/-1''/-2'/0)", 1000, 0, false, 5, 1, 0);
    expect_text("('/-999999999''/1'/'/1'-;)", 1000, 23, false, 4, 2, 1);
}

/* 20, then 21, then 24; 23 is never given. */
static void stops_of_division(void)
{
    static const int32_t amounts[] = {0, 1, -1, 7, -7, 999999999, -999999999};
    for (size_t i = 0; i < sizeof amounts / sizeof amounts[0]; i++)
        expect_zero_divisor(amounts[i]);
    expect_text("('/-7''/0'/;)", 1000, 24, false, 2, 2, 0);
    expect_text("('/0''/0'/;)", 1000, 24, false, 2, 2, 0);
    expect_text("('/-7''/-0'/;)", 1000, 24, false, 2, 2, 0);
    expect_text("('/7''/0'/;)", 2, 20, false, 2, 2, 0);
    expect_text("('/7''/0'/;)", 3, 24, false, 2, 2, 0);
    expect_text("('/1''/2'/'/0'/;)", 1000, 24, false, 4, 2, 0);
    expect_text("('/5''/1''/2'//;)", 1000, 24, false, 4, 2, 0);
    expect_text("('/5''/-1''/2'//;)", 1000, 0, true, 6, 1, -5);
    expect_text("(/;)", 1000, 21, false, 0, 0, 0);
    expect_text("(/;)", 0, 20, false, 0, 0, 0);
    expect_text("('/-7'/;)", 1000, 21, false, 1, 1, -7);
    expect_text("('/-7''/2'//;)", 1000, 21, false, 3, 1, -4);
    expect_text("('/1''/2'//;)", 1000, 21, false, 3, 1, 0);
}

/* Every small amount by every small divisor. */
static void small_quotients(void)
{
    struct pairs pairs = {.count = 0};
    for (int32_t amount = -40; amount <= 40; amount++)
        for (int32_t divisor = -12; divisor <= 12; divisor++)
            if (divisor == 0)
                expect_zero_divisor(amount);
            else
                add_known(&pairs, amount, divisor, quotient_by_subtraction(amount, divisor),
                          "by subtraction");
    divide_pairs(&pairs, "by subtraction");
}

/* Each by each, with all signs. 31623 times itself is just over the values, 46341 times
 * itself just over 31 bits. */
static void corners_of_quotients(void)
{
    static const int32_t corners[] = {
        1, 2, 3, 7, 9, 10, 11, 16, 255, 256, 999, 1000, 31622, 31623, 32768, 46340, 46341, 65535,
        65536, 16777215, 16777216, 16777217, 99999999, 100000000, 333333333, 333333334,
        499999999, 500000000, 536870911, 536870912, 666666666, 999999997, 999999998, 999999999};
    enum { CORNERS = sizeof corners / sizeof corners[0] };
    struct pairs pairs = {.count = 0};
    for (size_t i = 0; i < CORNERS; i++)
        for (size_t j = 0; j < CORNERS; j++) {
            add_pair(&pairs, corners[i], corners[j], "corners");
            add_pair(&pairs, corners[i], -corners[j], "corners");
            add_pair(&pairs, -corners[i], corners[j], "corners");
            add_pair(&pairs, -corners[i], -corners[j], "corners");
        }
    for (size_t i = 0; i < CORNERS; i++) {
        add_known(&pairs, 0, corners[i], 0, "corners");
        add_known(&pairs, 0, -corners[i], 0, "corners");
    }
    divide_pairs(&pairs, "corners");
}

/* The same 5,040 pairs each time, whatever histories follow. */
static void large_quotients(void)
{
    for (uint64_t seed = 0; seed < 80; seed++)
        random_quotients(~seed);
}

void quotients_by_hand(void)
{
    examples_of_division();
    stops_of_division();
    small_quotients();
    corners_of_quotients();
    large_quotients();
}

/* ---- random ------------------------------------------------------------ */

/* The amount is just so many divisors, or one more or less. */
static void add_exact(struct random *r, struct pairs *p)
{
    uint32_t digits = below(r, 10), divisors = 1, times = 1;
    int64_t divisor, amount;
    for (uint32_t i = 0; i < 9; i++) {
        divisors *= i < digits ? 10 : 1;
        times *= i < digits ? 1 : 10;
    }
    divisor = 1 + (int64_t)below(r, divisors);
    amount = divisor * (1 + (int64_t)below(r, times));
    amount += between(r, -1, 1);
    if (divisor > MOST_VALUE)
        divisor = MOST_VALUE;
    if (amount > MOST_VALUE)
        amount = MOST_VALUE;
    divisor = either_sign(r, (int32_t)divisor);
    add_pair(p, either_sign(r, (int32_t)amount), (int32_t)divisor, "exact");
}

/* As many pairs as one run can take, and a zero divisor. */
void random_quotients(uint64_t seed)
{
    struct pairs pairs = {.count = 0};
    struct random r;
    random_seed(&r, seed ^ (uint64_t)3 << 62);
    while (pairs.count < PAIRS) {
        int32_t divisor = either_sign(&r, any_size(&r));
        if (divisor == 0 || chance(&r, 30))
            add_exact(&r, &pairs);
        else
            add_pair(&pairs, either_sign(&r, any_size(&r)), divisor, "random");
    }
    divide_pairs(&pairs, "random");
    expect_zero_divisor(either_sign(&r, any_size(&r)));
}

/* ---- what must have been met ------------------------------------------- */

/* A zero divisor, each share by all signs of an amount, and nothing by both signs. */
bool counts_of_quotients(bool of_histories, unsigned least)
{
    bool good = met(by_zero[of_histories], least, "quotient: zero divisor");
    for (size_t i = 0; i < SHARES; i++)
        for (size_t j = 0; j < NOTHING_BY_PLUS; j++)
            good &= met(shares[of_histories][i][j], least, "quotient: %s, %s", share_words[i],
                        sign_words[j]);
    for (size_t j = NOTHING_BY_PLUS; j < SIGNS; j++)
        good &= met(shares[of_histories][NO_REST][j], least, "quotient: %s", sign_words[j]);
    return good;
}
