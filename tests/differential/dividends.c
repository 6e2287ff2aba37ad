/* Compares rec_dividend with the reference: the number, every figure, and the bytes around
 * them. Then holds the engine to what U4 of document 02 says of a pool; and, where the
 * payout is known, by hand, by a search or by how the pool was chosen, to that.
 *
 *     dividends [FIRST_SEED [ROUNDS]]      see work.h
 *
 * Built with engine.c, work.c, texts.c, the reference and librec.a. */
#include <stdio.h>
#include <string.h>

#include "../reference/rec.h"
#include "engine.h"
#include "work.h"

/* The bounds are U4's once more, so that the reference's are tried too. */
enum {
    ROUNDS = 4000,
    TURNS = 20, /* of a round */
    MOST_POOL = 999999999,
    MOST_RATE = 1000,
    MOST_STAKES = 999999999,
    WHOLE = 1000, /* the rate that takes all */
    STEP = 10,    /* cents between dividends */
    LONGEST = 9,  /* digits of a figure */
    ANY = 255     /* no number is said beforehand */
};

#define HIGH_BIT ((uint32_t)1 << 31)

/* What a dividend is asked of. */
struct asked {
    uint32_t pool, rate, stakes;
};

static uint64_t product_of(struct asked a)
{
    return (uint64_t)a.pool * a.rate;
}

/* The figures that are outside their bounds: the pool 1, the rate 2, the stakes 4. */
static unsigned outside(struct asked a)
{
    return (a.pool > MOST_POOL ? 1U : 0) | (a.rate > MOST_RATE ? 2U : 0)
           | (a.stakes > MOST_STAKES ? 4U : 0);
}

/* ---- what was met -------------------------------------------------------- */

/* `outside` counts the first seven, and where stakes are 0 the next three. */
enum kind {
    POOL_OUT, RATE_OUT, POOL_RATE_OUT, STAKES_OUT, POOL_STAKES_OUT, RATE_STAKES_OUT, ALL_OUT,
    POOL_BEFORE_32, RATE_BEFORE_32, BOTH_BEFORE_32, POOL_ONE_OVER, RATE_ONE_OVER,
    STAKES_ONE_OVER, POOL_HIGH, RATE_HIGH, STAKES_HIGH, NONE_OF_0, NONE_OF_MOST, NONE_AT_MOST_RATE,
    EMPTY_POOL, MOST_IN_POOL, NO_RATE, WHOLE_RATE, ONE_STAKE, ALL_STAKES, PRODUCT_HIGH,
    PRODUCT_OVER_32, PRODUCT_BELOW, PRODUCT_ABOVE, TENFOLD_HIGH, TENFOLD_OVER_32,
    TENFOLD_BELOW, TENFOLD_ABOVE, REST_0, REST_1, REST_LOW, REST_HALF, REST_HIGH,
    REST_999, REST_ONLY, NO_DIVIDEND, CENT_SHORT_OF_10, DIVIDEND_10, DIVIDEND_MOST, PAID_OUT,
    CENT_OVER, CENT_SHORT, SOME_UNPAID, CENT_EACH, FIVE_EACH, SEARCHED, KINDS
};

static const char *const kind_words[KINDS] = {
    "31 by the pool", "31 by the rate", "31 by pool and rate", "31 by the stakes",
    "31 by pool and stakes", "31 by rate and stakes", "31 by all three", "31 by the pool before 32",
    "31 by the rate before 32", "31 by pool and rate before 32", "31, pool one over its bound",
    "31, rate one over its bound", "31, stakes one over their bound", "31, pool of 32 bits",
    "31, rate of 32 bits", "31, stakes of 32 bits", "32, pool of 0", "32, highest pool",
    "32, highest rate", "pool of 0", "highest pool", "rate of 0", "rate of 1000", "one stake",
    "highest stakes", "pool * rate of 32 bits", "pool * rate of more bits",
    "pool * rate next below a multiple of 2^32", "pool * rate next to it above",
    "10 * stakes of 32 bits", "10 * stakes of more bits",
    "10 * stakes next below a multiple of 2^32", "10 * stakes next to it above",
    "takeout without a rest", "takeout, rest 1", "takeout, rest 2 to 499", "takeout, rest 500",
    "takeout, rest 501 to 998", "takeout, rest 999", "a rest and no takeout", "no dividend",
    "no dividend, a cent short", "dividend of 10", "highest dividend", "net paid out",
    "net a cent over", "net a cent short of the next dividend", "less than a cent each left",
    "a cent each left", "5 cents each left", "found by search"};

/* Figures by how many digits they have. */
static const char *const length_words[] = {"pool", "rate", "stakes", "takeout", "net", "dividend",
                                           "payments", "breakage"};
enum { LENGTHS = sizeof length_words / sizeof length_words[0], RATE_AT = 1, RATE_LONGEST = 4 };

static unsigned long long pools, numbers[REC_NUMBERS], kinds[KINDS], lengths[LENGTHS][LONGEST];

static void saw(bool seen, enum kind kind)
{
    kinds[kind] += seen;
}

static bool numbers_met(unsigned long long least)
{
    bool good = true;
    for (uint32_t i = 0; i < REC_NUMBERS; i++)
        good &= number_met(i == REC_FINISHED || i == REC_BAD_POOL || i == REC_NO_WINNER, i,
                           numbers[i], least, "dividend");
    return good;
}

static bool counts(bool directed, bool full)
{
    unsigned long long least = directed ? 5 : full ? 1000 : 0;
    bool good;
    printf("%s: %llu pools\n", directed ? "directed cases" : "rounds", pools);
    good = numbers_met(least);
    for (size_t i = 0; i < KINDS; i++)
        good &= met(kinds[i], least, "%s", kind_words[i]);
    for (size_t i = 0; i < LENGTHS; i++)
        for (size_t j = 0; j < (i == RATE_AT ? RATE_LONGEST : LONGEST); j++)
            if (lengths[i][j] < least)
                good = met(lengths[i][j], least, "%s, digits %zu", length_words[i], j + 1);
    pools = 0;
    memset(numbers, 0, sizeof numbers);
    memset(kinds, 0, sizeof kinds);
    memset(lengths, 0, sizeof lengths);
    return good;
}

static void count_bad(struct asked a)
{
    unsigned out = outside(a);
    kinds[(a.stakes == 0 ? POOL_BEFORE_32 : POOL_OUT) + out - 1]++;
    if (a.stakes == 0)
        return;
    saw(out == 1 && a.pool == MOST_POOL + 1, POOL_ONE_OVER);
    saw(out == 2 && a.rate == MOST_RATE + 1, RATE_ONE_OVER);
    saw(out == 4 && a.stakes == MOST_STAKES + 1, STAKES_ONE_OVER);
    saw(out == 1 && a.pool >= HIGH_BIT, POOL_HIGH);
    saw(out == 2 && a.rate >= HIGH_BIT, RATE_HIGH);
    saw(out == 4 && a.stakes >= HIGH_BIT, STAKES_HIGH);
}

static void count_no_winner(struct asked a)
{
    saw(a.pool == 0, NONE_OF_0);
    saw(a.pool == MOST_POOL, NONE_OF_MOST);
    saw(a.rate == MOST_RATE, NONE_AT_MOST_RATE);
}

/* Where 32 bits are too few, and where `more` makes them so. */
static void count_bits(uint64_t number, uint64_t more, enum kind first)
{
    uint64_t words = number >> 32;
    saw(words == 0 && number >= HIGH_BIT, first);
    saw(words > 0, first + 1);
    saw(words < (number + more) >> 32, first + 2);
    saw(number >= more && words > (number - more) >> 32, first + 3);
}

static void count_takeout(struct asked a, const struct payout *p)
{
    uint64_t rest = product_of(a) % WHOLE;
    bool part = p->takeout > 0 && p->net > 0;
    saw(a.pool == 0, EMPTY_POOL);
    saw(a.pool == MOST_POOL, MOST_IN_POOL);
    saw(a.pool > 0 && a.rate == 0, NO_RATE);
    saw(a.pool > 0 && a.rate == WHOLE, WHOLE_RATE);
    saw(part && rest == 0, REST_0);
    saw(part && rest == 1, REST_1);
    saw(part && rest > 1 && rest < 500, REST_LOW);
    saw(part && rest == 500, REST_HALF);
    saw(part && rest > 500 && rest < 999, REST_HIGH);
    saw(part && rest == 999, REST_999);
    saw(p->takeout == 0 && rest > 0, REST_ONLY);
    count_bits(product_of(a), a.rate, PRODUCT_HIGH);
}

static void count_dividend(struct asked a, const struct payout *p)
{
    uint64_t stakes = a.stakes, next = STEP * stakes;
    bool shared = p->dividend > 0 && stakes > 1;
    saw(stakes == 1, ONE_STAKE);
    saw(stakes == MOST_STAKES, ALL_STAKES);
    saw(p->dividend == 0 && p->net > 0, NO_DIVIDEND);
    saw(p->dividend == 0 && p->net + 1 == next, CENT_SHORT_OF_10);
    saw(p->dividend == 10, DIVIDEND_10);
    saw(p->dividend == MOST_POOL / STEP * STEP, DIVIDEND_MOST);
    saw(shared && p->breakage == 0, PAID_OUT);
    saw(shared && p->breakage == 1, CENT_OVER);
    saw(shared && p->breakage + 1 == next, CENT_SHORT);
    saw(shared && p->breakage > 0 && p->breakage < stakes, SOME_UNPAID);
    saw(shared && p->breakage >= stakes && p->breakage < 5 * stakes, CENT_EACH);
    saw(shared && p->breakage >= 5 * stakes, FIVE_EACH);
    count_bits(next, STEP, TENFOLD_HIGH);
}

static void count_lengths(struct asked a, const struct payout *p)
{
    const uint64_t figures[LENGTHS] = {a.pool, a.rate, a.stakes, p->takeout, p->net, p->dividend,
                                       p->payments, p->breakage};
    for (size_t i = 0; i < LENGTHS; i++) {
        size_t digits = 0;
        for (uint64_t figure = figures[i] / 10; figure > 0; figure /= 10)
            digits++;
        lengths[i][digits]++;
    }
}

static void count_pool(struct asked a, uint32_t number, const struct payout *p)
{
    pools++;
    numbers[number]++;
    if (number == REC_BAD_POOL) {
        count_bad(a);
    } else if (number == REC_NO_WINNER) {
        count_no_winner(a);
    } else {
        count_takeout(a, p);
        count_dividend(a, p);
        count_lengths(a, p);
    }
}

/* ---- one comparison ------------------------------------------------------ */

static bool same(const char *what, uint64_t expected, uint64_t got)
{
    if (expected != got)
        printf("  %s: expected %llu, got %llu\n", what, (unsigned long long)expected,
               (unsigned long long)got);
    return expected == got;
}

static bool same_payouts(const struct payout *expected, const struct payout *got)
{
    bool good = same("takeout", expected->takeout, got->takeout);
    good &= same("net", expected->net, got->net);
    good &= same("dividend", expected->dividend, got->dividend);
    good &= same("payments", expected->payments, got->payments);
    return same("breakage", expected->breakage, got->breakage) & good;
}

static bool holds(bool so, const char *sentence)
{
    if (!so)
        printf("  the engine: not so: %s\n", sentence);
    return so;
}

/* Figures above the pool come first: below them the products fit in 64 bits. */
static bool paid_as_said(struct asked a, const struct payout *p)
{
    uint64_t pool = a.pool, stakes = a.stakes, product = product_of(a);
    bool good = p->takeout <= pool && p->net <= pool && p->dividend <= pool && p->payments <= pool
                && p->breakage <= pool;
    if (!holds(good, "no figure is above the pool"))
        return false;
    good &= holds(p->takeout * WHOLE <= product && product < (p->takeout + 1) * WHOLE,
                  "takeout is pool * rate / 1000 with the rest dropped");
    good &= holds(p->net + p->takeout == pool, "the net is what remains");
    good &= holds(p->dividend % STEP == 0, "the dividend is a multiple of 10");
    good &= holds(p->dividend * stakes <= p->net, "dividend * stakes is not above the net");
    good &= holds(p->net < p->payments + STEP * stakes, "no greater dividend is within the net");
    good &= holds(p->payments == p->dividend * stakes, "payments are dividend * stakes");
    good &= holds(p->breakage + p->payments == p->net, "breakage is the net less payments");
    return good & holds(p->takeout + p->payments + p->breakage == pool,
                        "takeout, payments and breakage add up to the pool");
}

/* What U4 says, by the engine alone. */
static bool claims_hold(struct asked a, uint32_t number, const struct payout *p)
{
    static const struct payout none;
    if (outside(a) != 0)
        return holds(number == REC_BAD_POOL, "31, a figure is outside its bounds")
               & holds(memcmp(p, &none, sizeof none) == 0, "the figures of a refusal are 0");
    if (a.stakes == 0)
        return holds(number == REC_NO_WINNER, "32, stakes are 0")
               & holds(memcmp(p, &none, sizeof none) == 0, "the figures of a refusal are 0");
    return holds(number == 0, "no number fits") & paid_as_said(a, p);
}

/* The reference's number, with its payout. */
static uint32_t ask_reference(struct asked a, struct payout *payout)
{
    struct rec_payout p;
    uint32_t number = rec_win_dividend(a.pool, a.rate, a.stakes, &p);
    *payout = (struct payout){p.takeout, p.net, p.dividend, p.payments, p.breakage};
    return number;
}

/* `said` is the number, and `known` the payout, where it was known before. */
static bool compare_with(struct asked a, uint32_t said, const struct payout *known)
{
    struct payout expected, got;
    uint32_t number = ask_reference(a, &expected), given;
    bool good = engine_dividend(a.pool, a.rate, a.stakes, &got, &given);
    good &= same("number", number, given);
    good &= same_payouts(&expected, &got);
    good &= claims_hold(a, given, &got);
    if ((said != ANY && !same("number known before", said, given))
        || (known != NULL && !same_payouts(known, &got))) {
        puts("  by what was known before");
        good = false;
    }
    if (good)
        count_pool(a, number, &expected);
    else
        printf("  pool %lu, rate %lu, stakes %lu\n", (unsigned long)a.pool, (unsigned long)a.rate,
               (unsigned long)a.stakes);
    return good;
}

static bool compare(uint64_t pool, uint64_t rate, uint64_t stakes)
{
    struct asked a = {(uint32_t)pool, (uint32_t)rate, (uint32_t)stakes};
    return compare_with(a, ANY, NULL);
}

/* A pool whose takeout and dividend were known before. */
static bool expect(uint64_t pool, uint64_t rate, uint64_t stakes, uint64_t takeout,
                   uint64_t dividend)
{
    struct asked a = {(uint32_t)pool, (uint32_t)rate, (uint32_t)stakes};
    struct payout known = {takeout, pool - takeout, dividend, dividend * stakes,
                           pool - takeout - dividend * stakes};
    return compare_with(a, 0, &known);
}

/* Every takeout and every dividend is tried; the greatest stays. */
static bool search(uint64_t pool, uint64_t rate, uint64_t stakes)
{
    uint64_t takeout = 0, dividend = 0;
    for (uint64_t cents = 0; cents <= pool; cents++)
        if (cents * WHOLE <= pool * rate)
            takeout = cents;
    for (uint64_t cents = 0; cents <= pool - takeout; cents += STEP)
        if (cents * stakes <= pool - takeout)
            dividend = cents;
    saw(true, SEARCHED);
    return expect(pool, rate, stakes, takeout, dividend);
}

/* ---- pools that are made for a payout ------------------------------------ */

/* A pool of which just this net remains: the least, the greatest or one between. */
static bool expect_net(struct random *r, uint64_t net, uint64_t rate, uint64_t stakes,
                       uint64_t dividend)
{
    uint64_t kept = WHOLE - rate, pool = net * WHOLE / kept;
    if (pool > MOST_POOL)
        return expect(net, 0, stakes, 0, dividend);
    if (net > 0)
        pool -= below(r, (uint32_t)(pool - (net - 1) * WHOLE / kept));
    return expect(pool, rate, stakes, pool - net, dividend);
}

/* A net that is just what a dividend takes, a cent less, a cent more, and a cent less than
 * the next one takes. */
static bool about_dividend(struct random *r, uint64_t dividend, uint64_t stakes, uint64_t rate)
{
    uint64_t net = dividend * stakes, next = net + STEP * stakes;
    return (net > MOST_POOL || expect_net(r, net, rate, stakes, dividend))
           && (net == 0 || net > MOST_POOL + 1
               || expect_net(r, net - 1, rate, stakes, dividend - STEP))
           && (net >= MOST_POOL || expect_net(r, net + 1, rate, stakes, dividend))
           && (next > MOST_POOL + 1 || expect_net(r, next - 1, rate, stakes, dividend));
}

/* No dividend, since the stakes are too many for it, and the dividend of 10 before it. */
static bool about_no_dividend(struct random *r, uint64_t pool, uint64_t rate)
{
    uint64_t takeout = pool * rate / WHOLE, most = (pool - takeout) / STEP;
    return (most == 0 || expect(pool, rate, most, takeout, 10))
           && expect(pool, rate, most + 1, takeout, 0)
           && expect(pool, rate, most + 1 + below(r, (uint32_t)(MOST_STAKES - most)), takeout, 0);
}

/* The products with each rest that tells one rounding from another. Every rest has a pool
 * where the rate is odd and no multiple of 5. */
static bool about_takeout(uint64_t pool, uint64_t rate, uint64_t stakes)
{
    static const uint64_t rests[] = {0, 1, 499, 500, 501, 999};
    bool good = true;
    for (size_t i = 0; i < sizeof rests / sizeof rests[0] && good; i++) {
        uint64_t found = pool;
        while (found * rate % WHOLE != rests[i])
            found++;
        good = compare(found, rate, stakes);
    }
    return good;
}

/* ---- directed cases ------------------------------------------------------ */

static bool by_hand(void)
{
    static const struct {
        struct asked asked;
        struct payout payout;
    } rows[] = {
        {{100000, 150, 37}, {15000, 85000, 2290, 84730, 270}},
        {{5000, 200, 400}, {1000, 4000, 10, 4000, 0}},
        {{5000, 200, 401}, {1000, 4000, 0, 0, 4000}},
        {{4999, 200, 400}, {999, 4000, 10, 4000, 0}},
        {{4998, 200, 400}, {999, 3999, 0, 0, 3999}},
        {{12345, 175, 8}, {2160, 10185, 1270, 10160, 25}},
        {{999, 1, 1}, {0, 999, 990, 990, 9}},
        {{1000, 1, 1}, {1, 999, 990, 990, 9}},
        {{1999, 999, 1}, {1997, 2, 0, 0, 2}},
        {{0, 0, 1}, {0, 0, 0, 0, 0}},
        {{0, 1000, 999999999}, {0, 0, 0, 0, 0}},
        {{9, 0, 1}, {0, 9, 0, 0, 9}},
        {{10, 0, 1}, {0, 10, 10, 10, 0}},
        {{19, 0, 1}, {0, 19, 10, 10, 9}},
        {{20, 0, 1}, {0, 20, 20, 20, 0}},
        {{20, 0, 2}, {0, 20, 10, 20, 0}},
        {{1, 1000, 1}, {1, 0, 0, 0, 0}},
        {{999999999, 0, 1}, {0, 999999999, 999999990, 999999990, 9}},
        {{999999999, 1, 3}, {999999, 999000000, 333000000, 999000000, 0}},
        {{999999999, 999, 1}, {998999999, 1000000, 1000000, 1000000, 0}},
        {{999999999, 1000, 999999999}, {999999999, 0, 0, 0, 0}},
        {{999999999, 0, 99999999}, {0, 999999999, 10, 999999990, 9}},
        {{999999999, 0, 100000000}, {0, 999999999, 0, 0, 999999999}},
        {{999999999, 0, 999999999}, {0, 999999999, 0, 0, 999999999}},
        /* pool * rate is 1 and 296 below 2^32, at it and past it; 10 * stakes is 6 below and 4 past */
        {{16843009, 255, 1}, {4294967, 12548042, 12548040, 12548040, 2}},
        {{4294967, 1000, 1}, {4294967, 0, 0, 0, 0}},
        {{8388608, 512, 1}, {4294967, 4093641, 4093640, 4093640, 1}},
        {{4294968, 1000, 1}, {4294968, 0, 0, 0, 0}},
        {{999999999, 0, 429496729}, {0, 999999999, 0, 0, 999999999}},
        {{999999999, 0, 429496730}, {0, 999999999, 0, 0, 999999999}}};
    bool good = true;
    for (size_t i = 0; i < sizeof rows / sizeof rows[0] && good; i++)
        good = compare_with(rows[i].asked, 0, &rows[i].payout);
    return good;
}

static bool refused_by_hand(void)
{
    static const struct {
        struct asked asked;
        uint32_t number;
    } rows[] = {
        {{1000000000, 0, 1}, 31}, {{0, 1001, 1}, 31}, {{0, 0, 1000000000}, 31},
        {{1000000000, 1001, 1}, 31}, {{1000000000, 0, 1000000000}, 31},
        {{0, 1001, 1000000000}, 31}, {{1000000000, 1001, 1000000000}, 31},
        {{1000000000, 0, 0}, 31}, {{0, 1001, 0}, 31}, {{1000000000, 1001, 0}, 31},
        {{UINT32_MAX, 150, 9}, 31}, {{5000, UINT32_MAX, 9}, 31}, {{5000, 150, UINT32_MAX}, 31},
        {{UINT32_MAX, UINT32_MAX, UINT32_MAX}, 31}, {{UINT32_MAX, UINT32_MAX, 0}, 31},
        {{HIGH_BIT, 150, 9}, 31}, {{5000, HIGH_BIT, 9}, 31}, {{5000, 150, HIGH_BIT}, 31},
        {{0, 0, 0}, 32}, {{5000, 150, 0}, 32}, {{999999999, 1000, 0}, 32}, {{0, 1000, 0}, 32}};
    bool good = true;
    for (size_t i = 0; i < sizeof rows / sizeof rows[0] && good; i++)
        good = compare_with(rows[i].asked, rows[i].number, NULL);
    return good;
}

/* Of pool and stakes: small numbers, powers, bounds, and where ten times it, or it times a
 * rate, needs 31 or 32 bits. */
static const uint32_t corners[] = {
    0, 1, 2, 9, 10, 11, 19, 20, 99, 100, 101, 499, 500, 501, 999, 1000, 1001, 9999, 10000, 10001,
    65535, 65536, 65537, 99999, 1000000, 2147483, 2147484, 4294967, 4294968, 4299266, 4299267,
    8589934, 8589935, 9999999, 16777216, 99999999, 100000000, 100000001, 134217728, 214748364,
    214748365, 268435456, 429496729, 429496730, 499999999, 500000000, 536870912, 858993459,
    858993460, 999999989, 999999990, 999999998, 999999999, 1000000000, 1000000001, 1073741824,
    HIGH_BIT - 1, HIGH_BIT, HIGH_BIT + 1, UINT32_MAX - 1, UINT32_MAX};
static const uint32_t corner_rates[] = {
    0, 1, 2, 9, 10, 11, 99, 100, 101, 499, 500, 501, 998, 999, 1000, 1001, 1002, 1010, 1024, 2000,
    65535, 65536, 65686, 999999999, HIGH_BIT - 1, HIGH_BIT, HIGH_BIT + 500, UINT32_MAX - 1,
    UINT32_MAX};
enum {
    CORNERS = sizeof corners / sizeof corners[0],
    CORNER_RATES = sizeof corner_rates / sizeof corner_rates[0]
};

static bool all_corners(void)
{
    bool good = true;
    for (size_t i = 0; i < CORNERS && good; i++)
        for (size_t j = 0; j < CORNER_RATES && good; j++)
            for (size_t k = 0; k < CORNERS && good; k++)
                good = compare(corners[i], corner_rates[j], corners[k]);
    return good;
}

/* Every rate: the pools on both sides of each multiple of 2^31 that the product passes,
 * those about 1000 and 2000, and the highest. */
static bool every_rate(void)
{
    static const uint32_t stakes[] = {1, 7, 1000, 4321, 99999};
    bool good = true;
    for (uint64_t rate = 1; rate <= MOST_RATE && good; rate++) {
        uint64_t most = (MOST_POOL * rate) >> 31;
        for (uint64_t i = 1; i <= most && good; i++) {
            uint64_t pool = (i << 31) / rate;
            good = compare(pool, rate, stakes[i % 5]) && compare(pool + 1, rate, stakes[i % 5]);
        }
        for (uint64_t pool = 998; pool <= 2002 && good; pool += pool % 1000 == 2 ? 996 : 1)
            good = compare(pool, rate, stakes[rate % 5]);
        good = good && compare(MOST_POOL, rate, stakes[rate % 5]);
    }
    return good;
}

/* Figures so small that all of them are searched. */
static bool small_figures(void)
{
    bool good = true;
    for (uint64_t pool = 0; pool <= 32 && good; pool++)
        for (uint64_t rate = 0; rate <= MOST_RATE && good; rate++)
            for (uint64_t stakes = 1; stakes <= 4 && good; stakes++)
                good = search(pool, rate, stakes);
    for (uint64_t pool = 0; pool <= 200 && good; pool++)
        for (size_t i = 0; corner_rates[i] <= MOST_RATE && good; i++)
            for (uint64_t stakes = 1; stakes <= 21 && good; stakes++)
                good = search(pool, corner_rates[i], stakes);
    return good;
}

/* Dividends of each stakes among the corners, up to the greatest there may be. */
static bool just_dividends(struct random *r)
{
    bool good = true;
    for (size_t i = 1; corners[i] <= MOST_STAKES && good; i++) {
        uint64_t stakes = corners[i], most = MOST_POOL / STEP / stakes;
        const uint64_t steps[] = {0, 1, 2, 3, 9, 10, 11, most / 2, most - 1, most, most + 1};
        for (size_t j = 0; j < sizeof steps / sizeof steps[0] && good; j++)
            for (size_t k = 0; corner_rates[k] < WHOLE && good; k++)
                good = steps[j] > most + 1
                       || about_dividend(r, STEP * steps[j], stakes, corner_rates[k]);
    }
    return good;
}

static bool just_takeouts(struct random *r)
{
    bool good = true;
    for (size_t i = 0; corners[i] <= MOST_POOL && good; i++) {
        for (uint64_t rate = 1; rate < WHOLE && good; rate += rate % 10 == 3 ? 4 : 2)
            good = corners[i] + WHOLE > MOST_POOL || about_takeout(corners[i], rate, 1 + rate % 7);
        for (uint64_t rate = 0; rate <= MOST_RATE && good; rate++)
            good = about_no_dividend(r, corners[i], rate);
    }
    return good;
}

static bool directed(void)
{
    struct random r;
    random_seed(&r, 1);
    return by_hand() && refused_by_hand() && all_corners() && every_rate() && small_figures()
           && just_dividends(&r) && just_takeouts(&r);
}

/* ---- rounds -------------------------------------------------------------- */

/* Of all sizes alike. */
static uint32_t some_size(struct random *r, uint32_t most)
{
    uint32_t figure;
    do
        figure = random_bits(r) >> below(r, 32);
    while (figure > most);
    return figure;
}

static uint32_t some_within(struct random *r, uint32_t most)
{
    uint32_t pick = below(r, 10);
    return pick == 0   ? below(r, 3)
           : pick == 1 ? most - below(r, 3)
           : pick < 6  ? some_size(r, most)
                       : below(r, most + 1);
}

static uint32_t some_outside(struct random *r, uint32_t most)
{
    uint32_t pick = below(r, 4);
    return pick == 0   ? most + 1
           : pick == 1 ? most + 1 + below(r, 20)
           : pick == 2 ? HIGH_BIT | random_bits(r)
                       : most + 1 + below(r, UINT32_MAX - most);
}

static uint32_t some_figure(struct random *r, uint32_t most)
{
    uint32_t pick = below(r, 10);
    return pick == 0   ? random_bits(r)
           : pick == 1 ? most - 2 + below(r, 5)
           : pick == 2 ? below(r, 12)
           : pick == 3 ? corners[below(r, CORNERS)]
                       : some_within(r, most);
}

static uint32_t some_rate(struct random *r)
{
    return below(r, chance(r, 50) ? 300 : WHOLE);
}

static uint32_t some_stakes(struct random *r)
{
    return 1 + some_within(r, MOST_STAKES - 1);
}

/* Some of the figures are outside, the others not; at times the stakes are 0. */
static bool refused(struct random *r)
{
    unsigned out = 1 + below(r, 7);
    uint32_t pool = out & 1 ? some_outside(r, MOST_POOL) : some_within(r, MOST_POOL);
    uint32_t rate = out & 2 ? some_outside(r, MOST_RATE) : some_within(r, MOST_RATE);
    uint32_t stakes = out & 4 ? some_outside(r, MOST_STAKES)
                              : chance(r, 30) ? 0 : some_within(r, MOST_STAKES);
    return compare_with((struct asked){pool, rate, stakes}, REC_BAD_POOL, NULL);
}

static bool no_winner(struct random *r)
{
    struct asked a = {some_within(r, MOST_POOL), some_within(r, MOST_RATE), 0};
    return compare_with(a, REC_NO_WINNER, NULL);
}

/* Rates and pools that leave all or nothing. */
static bool all_or_nothing(struct random *r)
{
    uint32_t pool = some_within(r, MOST_POOL), stakes = some_stakes(r);
    return expect(pool, 0, stakes, 0, pool / stakes / STEP * STEP)
           && expect(pool, WHOLE, stakes, pool, 0)
           && expect(0, some_within(r, MOST_RATE), stakes, 0, 0);
}

/* Next to where bits wrap: the pool's product, and ten times the stakes. */
static bool wrapped(struct random *r)
{
    uint64_t rate = 3 + below(r, MOST_RATE - 2);
    uint64_t product = (uint64_t)(1 + below(r, (uint32_t)(MOST_POOL * rate >> 31))) << 31;
    uint64_t stakes = ((uint64_t)(1 + below(r, 4)) << 31) / STEP + below(r, 2);
    return compare(product / rate + below(r, 2), rate, some_stakes(r))
           && compare(some_within(r, MOST_POOL), some_within(r, MOST_RATE), stakes);
}

static bool small(struct random *r)
{
    uint32_t pool = below(r, chance(r, 50) ? 100 : 2000);
    uint32_t stakes = 1 + below(r, chance(r, 50) ? 12 : 2 + pool / STEP);
    return search(pool, below(r, MOST_RATE + 1), stakes);
}

static bool just_dividend(struct random *r)
{
    uint32_t stakes = 1 + some_size(r, MOST_STAKES / STEP - 1);
    uint32_t most = MOST_POOL / STEP / stakes;
    uint64_t steps = chance(r, 80) ? some_size(r, most) : most;
    return about_dividend(r, STEP * steps, stakes, some_rate(r));
}

/* Each rest of a product, then pools about one without a rest. */
static bool just_takeout(struct random *r)
{
    static const uint32_t lasts[] = {1, 3, 7, 9};
    uint32_t rate = 10 * below(r, 100) + lasts[below(r, 4)], pool = some_size(r, MOST_POOL - WHOLE);
    uint32_t thousand = WHOLE + pool / WHOLE * WHOLE;
    return about_takeout(pool, rate, some_stakes(r))
           && compare(thousand - 1, some_rate(r), some_stakes(r))
           && compare(thousand, some_rate(r), some_stakes(r))
           && compare(thousand + 1, some_rate(r), some_stakes(r));
}

static bool turn(struct random *r)
{
    return compare(random_bits(r), random_bits(r), random_bits(r))
           && compare(below(r, MOST_POOL + 1), below(r, MOST_RATE + 1), below(r, MOST_STAKES + 1))
           && compare(some_size(r, MOST_POOL), some_size(r, MOST_RATE), some_size(r, MOST_STAKES))
           && compare(some_figure(r, MOST_POOL), some_figure(r, MOST_RATE),
                      some_figure(r, MOST_STAKES))
           && refused(r) && no_winner(r) && all_or_nothing(r) && wrapped(r) && small(r)
           && just_dividend(r) && just_takeout(r)
           && about_no_dividend(r, some_within(r, MOST_POOL), some_rate(r));
}

static bool round_of(uint64_t seed)
{
    struct random r;
    bool good = true;
    random_seed(&r, seed);
    for (int i = 0; i < TURNS && good; i++)
        good = turn(&r);
    return good;
}

int main(int count, char **words)
{
    static const struct work dividends = {ROUNDS, directed, round_of, counts};
    return work(&dividends, count, words);
}
