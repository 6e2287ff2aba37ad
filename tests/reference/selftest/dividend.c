/* U4's win dividend against each sentence of U4, against figures worked by hand, and on
 * small figures against trying every takeout and every dividend. */
#include <stdio.h>
#include <string.h>

#include "../../differential/texts.h"
#include "../../differential/work.h"
#include "../rec.h"
#include "check.h"
#include "subjects.h"

/* ---- what U4 says of a payout ------------------------------------------ */

/* The bounds once more, so that those of rec.h are tried too. */
enum { MOST_POOL = 999999999, MOST_RATE = 1000, MOST_STAKES = 999999999 };

/* Cases that the payouts tried must have met. */
enum turn {
    POOL_AT_BOUND, RATE_AT_BOUND, STAKES_AT_BOUND, POOL_OVER_BOUND, RATE_OVER_BOUND,
    STAKES_OVER_BOUND, POOL_BEFORE_32, RATE_BEFORE_32, EMPTY_POOL, NOTHING_TAKEN, ALL_TAKEN,
    TAKEOUT_EXACT, TAKEOUT_REST_1, TAKEOUT_REST_999, ONE_STAKE, NO_DIVIDEND, DIVIDEND_EXACT,
    ONE_CENT_OVER, ONE_CENT_SHORT, TURNS
};

static const char *const turn_words[TURNS] = {
    "highest pool", "highest rate", "highest stakes", "pool one too high", "rate one too high",
    "stakes one too high", "31 before 32, by the pool", "31 before 32, by the rate",
    "nothing in the pool", "nothing taken", "all taken", "takeout without a rest",
    "takeout with a rest of 1", "takeout with a rest of 999", "one stake", "net and no dividend",
    "net paid out to the last cent", "net one cent over", "net one cent short of more"};

static unsigned long long turns[2][TURNS], payouts[2][REC_NUMBERS];

static void turned(bool seen, enum turn turn)
{
    turns[in_histories][turn] += seen;
}

/* From the last in order to the first, which stays. */
static uint32_t number_of_payout(uint32_t pool, uint32_t rate, uint32_t stakes)
{
    bool pool_over = pool > MOST_POOL, rate_over = rate > MOST_RATE;
    bool stakes_over = stakes > MOST_STAKES, winner = stakes > 0;
    uint32_t number = winner ? 0 : 32;
    if (pool_over || rate_over || stakes_over)
        number = 31;
    turned(pool == MOST_POOL + 1 && !rate_over && !stakes_over && winner, POOL_OVER_BOUND);
    turned(!pool_over && rate == MOST_RATE + 1 && !stakes_over && winner, RATE_OVER_BOUND);
    turned(!pool_over && !rate_over && stakes == MOST_STAKES + 1, STAKES_OVER_BOUND);
    turned(pool_over && !rate_over && !winner, POOL_BEFORE_32);
    turned(!pool_over && rate_over && !winner, RATE_BEFORE_32);
    return number;
}

/* The exact nets are of two stakes or more. */
static void turns_of_payout(uint32_t pool, uint32_t rate, uint32_t stakes,
                            const struct rec_payout *p)
{
    uint64_t rest = (uint64_t)pool * rate - p->takeout * 1000;
    bool paid = stakes > 1 && p->dividend > 0;
    turned(pool == MOST_POOL, POOL_AT_BOUND);
    turned(rate == MOST_RATE, RATE_AT_BOUND);
    turned(stakes == MOST_STAKES, STAKES_AT_BOUND);
    turned(pool == 0, EMPTY_POOL);
    turned(pool > 0 && p->takeout == 0, NOTHING_TAKEN);
    turned(pool > 0 && p->net == 0, ALL_TAKEN);
    turned(p->takeout > 0 && p->net > 0 && rest == 0, TAKEOUT_EXACT);
    turned(p->takeout > 0 && rest == 1, TAKEOUT_REST_1);
    turned(p->takeout > 0 && rest == 999, TAKEOUT_REST_999);
    turned(stakes == 1, ONE_STAKE);
    turned(p->net > 0 && p->dividend == 0, NO_DIVIDEND);
    turned(paid && p->breakage == 0, DIVIDEND_EXACT);
    turned(paid && p->breakage == 1, ONE_CENT_OVER);
    turned(paid && p->breakage + 1 == (uint64_t)10 * stakes, ONE_CENT_SHORT);
}

static void check_sentences(uint32_t pool, uint32_t rate, uint32_t stakes,
                            const struct rec_payout *p)
{
    uint64_t product = (uint64_t)pool * rate;
    /* first, so that the products below fit in 64 bits */
    if (!check(p->takeout <= pool && p->net <= pool && p->dividend <= pool
                   && p->payments <= pool && p->breakage <= pool, "figure over the pool", ""))
        return;
    check(p->takeout * 1000 <= product, "takeout too high", "");
    check(product < (p->takeout + 1) * 1000, "takeout too low", "");
    check(p->net + p->takeout == pool, "net", "");
    check(p->dividend % 10 == 0, "dividend no multiple of 10", "");
    check(p->dividend * stakes <= p->net, "dividend too high", "");
    check(p->net < (p->dividend + 10) * stakes, "dividend too low", "");
    check(p->payments == p->dividend * stakes, "payments", "");
    check(p->breakage + p->dividend * stakes == p->net, "breakage", "");
    check(p->takeout + p->payments + p->breakage == pool, "sum of a payout", "");
    turns_of_payout(pool, rate, stakes, p);
}

static void check_payout(uint32_t pool, uint32_t rate, uint32_t stakes, struct rec_payout *p)
{
    static const struct rec_payout none;
    unsigned before = wrong;
    uint32_t due = number_of_payout(pool, rate, stakes);
    uint32_t number;
    memset(p, 0xa5, sizeof *p);
    number = rec_win_dividend(pool, rate, stakes, p);
    if (check(number == due, "number of a payout", ""))
        payouts[in_histories][number]++;
    if (due == 0)
        check_sentences(pool, rate, stakes, p);
    else
        check(memcmp(p, &none, sizeof none) == 0, "figures of a refused payout", "");
    if (wrong > before && before < SHOWN)
        printf("  %u, due %u: pool %u, rate %u, stakes %u\n", (unsigned)number, (unsigned)due,
               (unsigned)pool, (unsigned)rate, (unsigned)stakes);
}

static void expect_payout(uint32_t pool, uint32_t rate, uint32_t stakes,
                          const struct rec_payout *due, const char *what)
{
    struct rec_payout p;
    check_payout(pool, rate, stakes, &p);
    if (!check(memcmp(&p, due, sizeof p) == 0, "payout", what) && wrong <= SHOWN)
        printf("  pool %u, rate %u, stakes %u\n", (unsigned)pool, (unsigned)rate,
               (unsigned)stakes);
}

/* Tries every takeout and every dividend; the greatest stays. */
static void expect_by_trial(uint32_t pool, uint32_t rate, uint32_t stakes)
{
    struct rec_payout due = {0};
    for (uint32_t cents = 0; cents <= pool; cents++)
        if (cents * 1000 <= pool * rate)
            due.takeout = cents;
    due.net = pool - due.takeout;
    for (uint32_t cents = 0; cents <= due.net; cents += 10)
        if (cents * stakes <= due.net)
            due.dividend = cents;
    for (uint32_t i = 0; i < stakes; i++)
        due.payments += due.dividend;
    due.breakage = due.net - due.payments;
    expect_payout(pool, rate, stakes, &due, "by trial");
}

/* The net is just what this dividend takes, one cent less, and one more; two stakes or
 * more, and a rate below 1000. The pool is the greatest with that net. A net over every
 * pool is left out, so that its thousandfold fits in 64 bits. */
static void payouts_about(uint64_t dividend, uint32_t stakes, uint32_t rate)
{
    uint64_t exact = dividend * stakes;
    for (uint64_t net = exact - 1; net <= exact + 1 && net <= MOST_POOL; net++) {
        uint64_t pool = net * 1000 / (1000 - rate);
        struct rec_payout due = {pool - net, net, dividend - (net < exact ? 10 : 0), 0, 0};
        due.payments = due.dividend * stakes;
        due.breakage = net - due.payments;
        if (pool <= MOST_POOL)
            expect_payout((uint32_t)pool, rate, stakes, &due, "about a dividend");
    }
}

/* ---- by hand ----------------------------------------------------------- */

static void examples_of_payouts(void)
{
    static const struct {
        uint32_t pool, rate, stakes;
        struct rec_payout due;
    } cases[] = {
        {100000, 150, 37, {15000, 85000, 2290, 84730, 270}},
        {123456789, 175, 4321, {21604938, 101851851, 23570, 101845970, 5881}},
        {2500, 333, 3, {832, 1668, 550, 1650, 18}},
        {0, 0, 1, {0, 0, 0, 0, 0}},
        {0, 1000, 999999999, {0, 0, 0, 0, 0}},
        {9, 0, 1, {0, 9, 0, 0, 9}},
        {10, 0, 1, {0, 10, 10, 10, 0}},
        {11, 0, 1, {0, 11, 10, 10, 1}},
        {19, 0, 1, {0, 19, 10, 10, 9}},
        {19, 500, 1, {9, 10, 10, 10, 0}},
        {20, 500, 1, {10, 10, 10, 10, 0}},
        {21, 500, 1, {10, 11, 10, 10, 1}},
        {999, 1, 1, {0, 999, 990, 990, 9}},
        {1000, 1, 100, {1, 999, 0, 0, 999}},
        {1001, 1, 100, {1, 1000, 10, 1000, 0}},
        {1001, 0, 100, {0, 1001, 10, 1000, 1}},
        {1000, 999, 1, {999, 1, 0, 0, 1}},
        {1, 999, 1, {0, 1, 0, 0, 1}},
        {1, 1000, 1, {1, 0, 0, 0, 0}},
        {999999999, 0, 1, {0, 999999999, 999999990, 999999990, 9}},
        {999999999, 1, 1, {999999, 999000000, 999000000, 999000000, 0}},
        {999999999, 500, 7, {499999999, 500000000, 71428570, 499999990, 10}},
        {999999999, 999, 1, {998999999, 1000000, 1000000, 1000000, 0}},
        {999999999, 1000, 1, {999999999, 0, 0, 0, 0}},
        {999999999, 1000, 999999999, {999999999, 0, 0, 0, 0}},
        {999999999, 0, 99999999, {0, 999999999, 10, 999999990, 9}},
        {999999999, 0, 100000000, {0, 999999999, 0, 0, 999999999}},
        {999999999, 0, 999999999, {0, 999999999, 0, 0, 999999999}},
    };
    for (size_t i = 0; i < sizeof cases / sizeof cases[0]; i++)
        expect_payout(cases[i].pool, cases[i].rate, cases[i].stakes, &cases[i].due, "by hand");
}

static void refused_payouts(void)
{
    static const struct {
        uint32_t pool, rate, stakes, number;
    } cases[] = {
        {1000000000, 0, 1, 31}, {0, 1001, 1, 31}, {0, 0, 1000000000, 31},
        {2147483648, 150, 9, 31}, {50000, 2147483648, 9, 31}, {50000, 150, 2147483648, 31},
        {UINT32_MAX, 150, 9, 31}, {50000, UINT32_MAX, 9, 31}, {50000, 150, UINT32_MAX, 31},
        {UINT32_MAX, UINT32_MAX, UINT32_MAX, 31}, {1000000000, 1001, 1000000000, 31},
        {1000000000, 0, 0, 31}, {0, 1001, 0, 31}, {1000000000, 1001, 0, 31},
        {UINT32_MAX, UINT32_MAX, 0, 31},
        {0, 0, 0, 32}, {50000, 150, 0, 32}, {999999999, 1000, 0, 32}, {999999999, 0, 0, 32},
    };
    struct rec_payout p;
    for (size_t i = 0; i < sizeof cases / sizeof cases[0]; i++) {
        check_payout(cases[i].pool, cases[i].rate, cases[i].stakes, &p);
        check(rec_win_dividend(cases[i].pool, cases[i].rate, cases[i].stakes, &p)
                  == cases[i].number, "refused payout", "");
    }
}

/* Ten times 429496730 is just over 32 bits; 536870912 is 2^29, and a search by bits that
 * starts too high takes its products from 64 bits to 0. */
static void corners_of_payouts(void)
{
    static const uint32_t corners[] = {
        0, 1, 2, 9, 10, 11, 99, 100, 101, 500, 998, 999, 1000, 1001, 1002, 65535, 65536,
        99999999, 100000000, 429496730, 536870912, 999999998, 999999999, 1000000000,
        1000000001, INT32_MAX, 2147483648, UINT32_MAX - 1, UINT32_MAX};
    enum { CORNERS = sizeof corners / sizeof corners[0] };
    struct rec_payout p;
    for (size_t i = 0; i < CORNERS; i++)
        for (size_t j = 0; j < CORNERS; j++)
            for (size_t k = 0; k < CORNERS; k++)
                check_payout(corners[i], corners[j], corners[k], &p);
}

static void exact_payouts(void)
{
    static const uint32_t dividends[] = {10, 20, 90, 100, 110, 990, 1000, 12340, 99990, 100000,
                                         1000000, 33333330, 99999990, 499999990};
    static const uint32_t stakes[] = {2, 3, 7, 10, 11, 99, 100, 1000, 4321, 65536, 999999,
                                      1000000, 33333333, 49999999, 50000000, 99999999};
    for (size_t i = 0; i < sizeof dividends / sizeof dividends[0]; i++)
        for (size_t j = 0; j < sizeof stakes / sizeof stakes[0]; j++)
            for (uint32_t rate = 0; rate < 1000; rate += 37)
                payouts_about(dividends[i], stakes[j], rate);
}

/* Every rate on small pools, then more stakes on greater ones. */
static void small_payouts(void)
{
    static const uint32_t rates[] = {0, 1, 100, 153, 500, 999, 1000};
    for (uint32_t pool = 0; pool <= 50; pool++)
        for (uint32_t rate = 0; rate <= 1000; rate++)
            for (uint32_t stakes = 1; stakes <= 3; stakes++)
                expect_by_trial(pool, rate, stakes);
    for (uint32_t pool = 0; pool <= 300; pool++)
        for (size_t i = 0; i < sizeof rates / sizeof rates[0]; i++)
            for (uint32_t stakes = 1; stakes <= 35; stakes++)
                expect_by_trial(pool, rates[i], stakes);
}

void payouts_by_hand(void)
{
    examples_of_payouts();
    refused_payouts();
    corners_of_payouts();
    exact_payouts();
    small_payouts();
}

/* ---- random ------------------------------------------------------------ */

/* Of any number of digits, as far as the bound has them. */
static uint32_t random_length(struct random *r, uint32_t most)
{
    uint32_t over = 10;
    while (over <= most / 10 && chance(r, 80))
        over *= 10;
    return below(r, over);
}

static uint32_t random_figure(struct random *r, uint32_t most)
{
    switch (below(r, 10)) {
    case 0:
        return below(r, 12);
    case 1:
        return most - 2 + below(r, 5);
    case 2:
        return below(r, 65536) << 16 | below(r, 65536);
    case 3: case 4: case 5:
        return below(r, most + 1);
    default:
        return random_length(r, most);
    }
}

/* Stakes of any length, and a dividend that a pool can pay on them. */
static void random_exact(struct random *r)
{
    uint32_t stakes = 2 + random_length(r, MOST_STAKES / 10);
    uint32_t steps = MOST_POOL / 10 / stakes;
    payouts_about((uint64_t)10 * (1 + below(r, steps)), stakes,
                  chance(r, 30) ? 0 : below(r, chance(r, 50) ? 300 : 1000));
}

/* The product is a multiple of 1000, or one or 999 more, where there is such a pool. */
static void random_rest(struct random *r)
{
    static const uint64_t rests[] = {0, 1, 999};
    uint64_t rest = rests[below(r, 3)];
    uint64_t rate = 1 + below(r, 999);
    uint64_t pool = below(r, chance(r, 50) ? 10000 : MOST_POOL - 1000);
    struct rec_payout p;
    for (int i = 0; i < 1000 && pool * rate % 1000 != rest; i++)
        pool++;
    check_payout((uint32_t)pool, (uint32_t)rate, 1 + random_length(r, MOST_STAKES), &p);
}

void random_payouts(uint64_t seed)
{
    struct random r;
    struct rec_payout p;
    random_seed(&r, seed ^ (uint64_t)1 << 63);
    for (int i = 0; i < 100; i++)
        check_payout(random_figure(&r, MOST_POOL), random_figure(&r, MOST_RATE),
                     random_figure(&r, MOST_STAKES), &p);
    for (int i = 0; i < 10; i++) {
        random_exact(&r);
        random_rest(&r);
        expect_by_trial(below(&r, 1000), below(&r, 1001), 1 + below(&r, 60));
    }
}

/* ---- what must have been met ------------------------------------------- */

/* 0, 31 and 32, and each turn. */
bool counts_of_payouts(bool of_histories, unsigned least)
{
    bool good = true;
    for (uint32_t i = 0; i < REC_NUMBERS; i++) {
        const char *word = i == 31 ? "bad pool" : i == 32 ? "no winner" : number_word(i);
        if (i == 0 || i == 31 || i == 32)
            good &= met(payouts[of_histories][i], least, "payout: number %u (%s)", (unsigned)i,
                        word);
        else
            good &= check(payouts[of_histories][i] == 0, "a number that no payout has", word);
    }
    for (size_t i = 0; i < TURNS; i++)
        good &= met(turns[of_histories][i], least, "payout: %s", turn_words[i]);
    return good;
}
