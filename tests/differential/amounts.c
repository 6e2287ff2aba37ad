/* Compares what `O` writes, U6 of document 02: the engine against the reference's book
 * and store, which write in two ways, on runs that write input after input. Then holds
 * each 14 bytes to U6's sentence, to how they are read back, and, where they are known
 * by hand, to that.
 *
 *     amounts [FIRST_SEED [ROUNDS]]      see work.h
 *
 * Built with calls.c, engine.c, work.c, texts.c, the reference and librec.a. */
#include <inttypes.h>
#include <stdio.h>
#include <string.h>

#include "calls.h"
#include "work.h"

enum {
    ROUNDS = 12000,
    WIDTH = 14,      /* "right-justified in 14 columns" */
    MOST = 999999999 /* the values' bound, once more */
};

/* ---- what was met ------------------------------------------------------ */

enum sign { PLUS, MINUS, SIGNS };

static const char *const sign_words[SIGNS] = {"positive", "negative"};

enum kind {
    NO_UNITS, UNITS_1, UNITS_2, UNITS_3, UNITS_4, UNITS_5, UNITS_6, UNITS_7, NO_CENTS,
    CENTS_BELOW_10, WHOLE_TENS, OTHER_CENTS, AT_BOUND, KINDS
};

static const char *const kind_words[KINDS] = {
    "below a unit", "units of 1 digit", "of 2 digits", "of 3 digits", "of 4 digits", "of 5 digits",
    "of 6 digits", "of 7 digits", "no cents", "fewer than 10 cents", "whole tens of cents",
    "other cents", "at the bound"};

static unsigned long long amounts, nothings, exact, papers[WIDTH], kinds[KINDS][SIGNS];

/* Of bytes that are right. */
static void count_amount(int32_t value)
{
    int32_t size = value < 0 ? -value : value, cents = size % 100;
    size_t digits = 0;
    amounts++;
    if (value == 0) {
        nothings++;
        return;
    }
    for (int32_t units = size / 100; units > 0; units /= 10)
        digits++;
    kinds[NO_UNITS + digits][value < 0]++;
    kinds[cents == 0        ? NO_CENTS
          : cents < 10      ? CENTS_BELOW_10
          : cents % 10 == 0 ? WHOLE_TENS
                            : OTHER_CENTS][value < 0]++;
    kinds[AT_BOUND][value < 0] += size == MOST;
}

static bool counts(bool directed, bool full)
{
    unsigned long long least = directed ? 1 : full ? 100 : 0;
    bool good = true;
    printf("%s: %llu amounts\n", directed ? "directed cases" : "rounds", amounts);
    for (size_t i = 0; i < KINDS; i++)
        for (size_t j = 0; j < SIGNS; j++)
            good &= met(kinds[i][j], least, "%s, %s", kind_words[i], sign_words[j]);
    good &= met(nothings, least, "nothing");
    good &= met(exact, least, "all amounts, and no byte of room left");
    for (size_t i = 0; i < WIDTH; i++)
        good &= met(papers[i], least, "paper out with %zu bytes left", i);
    amounts = nothings = exact = 0;
    memset(papers, 0, sizeof papers);
    memset(kinds, 0, sizeof kinds);
    return good;
}

/* ---- one comparison ---------------------------------------------------- */

/* "units, a point and two digits of cents", from the decimals of the cents: zeros until
 * there are three, and the point before the last two. */
static void form(int32_t value, uint8_t bytes[WIDTH])
{
    char plain[16];
    size_t length = (size_t)snprintf(plain, sizeof plain, "%03" PRId32, value < 0 ? -value : value);
    size_t start = WIDTH - 1 - length;
    memset(bytes, ' ', WIDTH);
    memcpy(bytes + start, plain, length - 2);
    bytes[WIDTH - 3] = '.';
    memcpy(bytes + WIDTH - 2, plain + length - 2, 2);
    if (value < 0)
        bytes[start - 1] = '-';
}

/* As a cashier reads them; false: they are no amount. */
static bool read_back(const uint8_t *bytes, int64_t *value)
{
    size_t at = 0, first;
    bool minus;
    int64_t cents = 0;
    while (at < WIDTH && bytes[at] == ' ')
        at++;
    minus = at < WIDTH && bytes[at] == '-';
    first = at += minus;
    for (; at < WIDTH; at++) {
        if (at == WIDTH - 3 && bytes[at] == '.' && first < at)
            continue;
        if (bytes[at] < '0' || '9' < bytes[at])
            return false;
        cents = 10 * cents + (bytes[at] - '0');
    }
    *value = minus ? -cents : cents;
    return bytes[WIDTH - 3] == '.';
}

static bool is_amount(int32_t value, const uint8_t *bytes)
{
    uint8_t due[WIDTH];
    int64_t back = 0;
    bool good;
    form(value, due);
    good = memcmp(due, bytes, WIDTH) == 0 && read_back(bytes, &back) && back == value;
    if (good)
        count_amount(value);
    else
        printf("  %" PRId32 " was written as '%.*s'\n", value, (int)WIDTH, (const char *)bytes);
    return good;
}

static bool start(struct random *r, struct three *t)
{
    return fresh_three(r, t) && define_three(r, t, 'q', "(IOL:)");
}

/* Writes the inputs one after the other. The run ends where no input is left, or where
 * the next 14 bytes do not all fit. */
static bool write_all(struct random *r, struct three *t, struct call *call, size_t room)
{
    size_t count = call->input_length, fit = room / WIDTH, written = fit < count ? fit : count;
    bool good;
    make_run(call, 'q', 1000, room);
    good = call_three(r, t, call);
    good &= same("number", 0, fit < count ? REC_PAPER_OUT : REC_NO_INPUT, t->got.number);
    good &= same("bytes", 0, (long long)(WIDTH * written), (long long)t->got.figures[4]);
    for (size_t i = 0; i < written && good; i++)
        good &= is_amount(call->input[i], t->got.output + WIDTH * i);
    exact += good && room == WIDTH * count;
    if (good && fit < count)
        papers[room % WIDTH]++;
    call->input_length = 0;
    return good;
}

/* The value is written with others, when a run is full. */
static bool add(struct random *r, struct three *t, struct call *call, int32_t value)
{
    call->input[call->input_length++] = value;
    return call->input_length < INPUT_ROOM || write_all(r, t, call, WIDTH * INPUT_ROOM);
}

/* ---- directed cases ---------------------------------------------------- */

static const struct {
    int32_t value;
    const char *bytes;
} known[] = {
    {5, "          0.05"}, {-5, "         -0.05"}, {-1250, "        -12.50"}, /* U6's */
    {0, "          0.00"}, {1, "          0.01"}, {-1, "         -0.01"}, {10, "          0.10"},
    {-99, "         -0.99"}, {100, "          1.00"}, {-100, "         -1.00"},
    {101, "          1.01"}, {-1001, "        -10.01"}, {123456789, "    1234567.89"},
    {MOST, "    9999999.99"}, {-MOST, "   -9999999.99"}};

/* As the constant of a text, with a print before it and a newline after it, in every room
 * up to one byte more than they need. */
static bool by_hand(struct random *r, struct three *t, struct call *call)
{
    enum { PRINT = 3, SLIP = PRINT + WIDTH, ALL = SLIP + 1 };
    bool good = true;
    for (size_t i = 0; i < sizeof known / sizeof known[0] && good; i++) {
        char words[40];
        snprintf(words, sizeof words, "('/%" PRId32 "'''PAY'OX;)", known[i].value);
        good &= define_three(r, t, 'q', words);
        for (size_t room = 0; room <= ALL + 1 && good; room++) {
            size_t written = room < PRINT ? 0 : room < SLIP ? PRINT : room < ALL ? SLIP : ALL;
            make_run(call, 'q', 5, room);
            call->input_length = 0;
            good &= call_three(r, t, call);
            good &= same("number of a slip", (long long)room, written == ALL ? 0 : REC_PAPER_OUT,
                         t->got.number);
            good &= same("bytes of a slip", (long long)room, (long long)written,
                         (long long)t->got.figures[4]);
            if (written >= SLIP)
                good &= same("bytes by hand", (long long)i, 0,
                             memcmp(t->got.output + PRINT, known[i].bytes, WIDTH));
        }
    }
    return good && define_three(r, t, 'q', "(IOL:)");
}

/* Every value up to 200.00 and its opposite; next to every 1, 2 and 5 times a power of
 * ten; the bound; and each room for up to five amounts. */
static bool directed(void)
{
    static struct three t;
    static struct call call;
    struct random r;
    bool good;
    random_seed(&r, 1);
    good = start(&r, &t) && by_hand(&r, &t, &call);
    for (int32_t value = -20000; value <= 20000 && good; value++)
        good &= add(&r, &t, &call, value);
    for (int32_t power = 1000; power <= 100000000 && good; power *= 10)
        for (int32_t times = 1; times <= 5 && good; times += times == 2 ? 3 : 1)
            for (int32_t beside = -101; beside <= 101 && good; beside++)
                good &= add(&r, &t, &call, times * power + beside)
                        && add(&r, &t, &call, -times * power - beside);
    for (int32_t below_it = 0; below_it <= 200 && good; below_it++)
        good &= add(&r, &t, &call, MOST - below_it) && add(&r, &t, &call, below_it - MOST);
    good = good && write_all(&r, &t, &call, WIDTH * INPUT_ROOM);
    for (size_t room = 0; room <= 5 * WIDTH && good; room++)
        for (size_t count = 1; count <= 5 && good; count++) {
            while (call.input_length < count)
                call.input[call.input_length++] = random_value(&r);
            good &= write_all(&r, &t, &call, room);
        }
    return good;
}

/* ---- rounds ------------------------------------------------------------ */

/* Values of every length, and rooms that are often too short. */
static bool round_of(uint64_t seed)
{
    static struct three t;
    static struct call call;
    struct random r;
    bool good;
    random_seed(&r, seed);
    good = start(&r, &t);
    call.input_length = 0;
    for (int i = 0; i < 4 && good; i++) {
        size_t count = 1 + below(&r, INPUT_ROOM);
        for (size_t k = 0; k < count; k++) {
            int32_t most = 10;
            for (uint32_t more = below(&r, 8); more > 0; more--)
                most *= 10;
            call.input[k] = chance(&r, 30) ? random_value(&r) : between(&r, -most, most);
        }
        call.input_length = count;
        good &= write_all(&r, &t, &call,
                          chance(&r, 50) ? WIDTH * count : below(&r, (uint32_t)(WIDTH * count + 20)));
    }
    return good;
}

int main(int count, char **words)
{
    static const struct work writing = {ROUNDS, directed, round_of, counts};
    return work(&writing, count, words);
}
