/* U6's columns, as `O` writes them, against columns written by hand, against the plain
 * digits cut before the cents, and read back; paper out in every room about them. */
#include <stdio.h>
#include <string.h>

#include "../../differential/work.h"
#include "check.h"
#include "runs.h"
#include "subjects.h"
#include "values.h"

/* ---- what U6 says of `O` ----------------------------------------------- */

/* The width once more, so that that of rec.h is tried too. */
enum { WIDTH = 14, SLIP_ROOM = 4096, SLIP = SLIP_ROOM / WIDTH, UNIT_DIGITS = 7 };

/* Values that the columns tried must have met, each by both signs. */
enum coin {
    UNDER_10_CENTS, UNDER_A_UNIT, NO_CENTS, ONE_CENT, CENTS_UNDER_10, TENS_OF_CENTS, CENTS_99,
    VALUE_AT_BOUND, COINS
};

static const char *const coin_words[COINS] = {
    "under 10 cents", "10 to 99 cents", "units alone", "units and 1 cent",
    "units and under 10 cents", "units and tens of cents", "units and 99 cents",
    "value at its bound"};

static const char *const minus_words[2] = {"plus", "minus"};

static unsigned long long coins[2][COINS][2], unit_digits[2][UNIT_DIGITS + 1][2], noughts[2];

/* How many bytes a column lacked where it was paper out; 0 where the last one just fitted. */
static unsigned long long lacks[2][WIDTH + 1];

static void coins_of(int64_t value, size_t digits)
{
    int64_t size = without_sign(value), cents = size % 100;
    bool units = size >= 100;
    const bool seen[COINS] = {
        size > 0 && size < 10, size >= 10 && size < 100, units && cents == 0,
        units && cents == 1, units && cents > 0 && cents < 10,
        units && cents > 0 && cents % 10 == 0, units && cents == 99, size == MOST_VALUE};
    noughts[in_histories] += value == 0;
    unit_digits[in_histories][digits][value < 0]++;
    for (size_t i = 0; i < COINS; i++)
        coins[in_histories][i][value < 0] += seen[i];
}

/* The column due, cut from the plain digits: zeros in front of them up to three, the last
 * two to the right of the point, the minus and the blanks to the left. Returns how many
 * digits the units have. */
static size_t cut_column(int32_t value, uint8_t column[WIDTH])
{
    char plain[24];
    uint8_t *at = column + WIDTH - 2;
    size_t units;
    snprintf(plain, sizeof plain, "%03lld", (long long)without_sign(value));
    units = strlen(plain) - 2;
    memset(column, ' ', WIDTH);
    memcpy(at, plain + units, 2);
    *--at = '.';
    at -= units;
    memcpy(at, plain, units);
    if (value < 0)
        *--at = '-';
    return units;
}

/* Adds the digits that stand here to a size; returns the place after them. */
static const uint8_t *read_digits(const uint8_t *at, const uint8_t *end, int64_t *size)
{
    for (; at < end && *at >= '0' && *at <= '9'; at++)
        *size = *size * 10 + (*at - '0');
    return at;
}

/* Blanks, perhaps a minus, units with no needless zero, a point, two cents; no minus
 * before nothing. */
static bool reads_as(const uint8_t column[WIDTH], int64_t value)
{
    const uint8_t *at = column, *end = column + WIDTH, *units;
    int64_t size = 0;
    bool minus;
    while (at < end && *at == ' ')
        at++;
    minus = at < end && *at == '-';
    units = at + minus;
    at = read_digits(units, end, &size);
    if (at == units || (at > units + 1 && *units == '0') || end - at != 3 || *at != '.')
        return false;
    return read_digits(at + 1, end, &size) == end && !(minus && size == 0)
        && value == (minus ? -size : size);
}

static void check_column(int32_t value, const uint8_t *column, const char *what)
{
    uint8_t due[WIDTH];
    size_t digits = cut_column(value, due);
    unsigned before = wrong;
    check(memcmp(column, due, WIDTH) == 0, "column", what);
    check(reads_as(column, value), "column read back", what);
    if (wrong == before)
        coins_of(value, digits);
    else if (before < SHOWN)
        printf("  %ld gave `%.14s`\n", (long)value, (const char *)column);
}

/* Values to be written one after the other. */
struct slip {
    int32_t values[SLIP];
    size_t count;
};

/* One run, until no input or no paper is left. The value that finds no paper stays. */
static void write_slip(const struct slip *s, size_t room, const char *what)
{
    static struct both b;
    struct rec_answer a;
    size_t fit = 0;
    bool all;
    while (fit < s->count && (fit + 1) * WIDTH <= room)
        fit++;
    all = fit == s->count;
    if (!b.book.standing['q' - 'a'])
        check(define_text(&b, 'q', "(IOL:)") == 0, "define", what);
    a = both_run(&b, 'q', 2000, s->values, s->count, REC_LIST, room);
    check(a.number == (all ? REC_NO_INPUT : REC_PAPER_OUT), "ending of a slip", what);
    check(a.written == fit * WIDTH, "length of a slip", what);
    check(a.steps == 4 * fit + !all && a.height == !all && a.taken == fit + !all,
          "figures of a slip", what);
    if (!all)
        check(one_paper.list[0] == s->values[fit], "value without paper", what);
    for (size_t i = 0; i < fit; i++)
        check_column(s->values[i], one_paper.output + i * WIDTH, what);
    if (!all)
        lacks[in_histories][(fit + 1) * WIDTH - room]++;
    else
        lacks[in_histories][0] += fit * WIDTH == room;
}

static void add_value(struct slip *s, int32_t value, const char *what)
{
    if (s->count == SLIP) {
        write_slip(s, SLIP_ROOM, what);
        s->count = 0;
    }
    s->values[s->count++] = value;
}

/* ---- by hand ----------------------------------------------------------- */

struct column {
    int32_t value;
    const char *bytes;
};

static const struct column columns[] = {
    {5, "          0.05"}, {-5, "         -0.05"}, {-1250, "        -12.50"},
    {0, "          0.00"}, /* U6's */
    {1, "          0.01"}, {-1, "         -0.01"}, {9, "          0.09"},
    {-9, "         -0.09"}, {10, "          0.10"}, {-10, "         -0.10"},
    {11, "          0.11"}, {-11, "         -0.11"}, {50, "          0.50"},
    {-50, "         -0.50"}, {90, "          0.90"}, {-90, "         -0.90"},
    {99, "          0.99"}, {-99, "         -0.99"}, {100, "          1.00"},
    {-100, "         -1.00"}, {101, "          1.01"}, {-101, "         -1.01"},
    {109, "          1.09"}, {-109, "         -1.09"}, {110, "          1.10"},
    {-110, "         -1.10"}, {199, "          1.99"}, {-199, "         -1.99"},
    {200, "          2.00"}, {-200, "         -2.00"}, {999, "          9.99"},
    {-999, "         -9.99"}, {1000, "         10.00"}, {-1000, "        -10.00"},
    {1001, "         10.01"}, {-1001, "        -10.01"}, {1205, "         12.05"},
    {-1205, "        -12.05"}, {1250, "         12.50"}, {9999, "         99.99"},
    {-9999, "        -99.99"}, {10000, "        100.00"}, {-10000, "       -100.00"},
    {10203, "        102.03"}, {-10203, "       -102.03"}, {99999, "        999.99"},
    {-99999, "       -999.99"}, {100000, "       1000.00"}, {-100000, "      -1000.00"},
    {999999, "       9999.99"}, {-999999, "      -9999.99"}, {1000000, "      10000.00"},
    {-1000000, "     -10000.00"}, {9999999, "      99999.99"}, {-9999999, "     -99999.99"},
    {10000000, "     100000.00"}, {-10000000, "    -100000.00"}, {99999999, "     999999.99"},
    {-99999999, "    -999999.99"}, {100000000, "    1000000.00"},
    {-100000000, "   -1000000.00"}, {123456789, "    1234567.89"},
    {-123456789, "   -1234567.89"}, {900000009, "    9000000.09"},
    {-900000009, "   -9000000.09"}, {999999900, "    9999999.00"},
    {-999999900, "   -9999999.00"}, {999999998, "    9999999.98"},
    {-999999998, "   -9999999.98"}, {999999999, "    9999999.99"},
    {-999999999, "   -9999999.99"},
};

/* As constants of a text, then as inputs. */
static void examples_of_columns(void)
{
    struct slip slip = {.count = 0};
    for (size_t i = 0; i < sizeof columns / sizeof columns[0]; i++) {
        const struct column *c = &columns[i];
        char text[24];
        snprintf(text, sizeof text, "('/%ld'O;)", (long)c->value);
        check(strlen(c->bytes) == WIDTH, "length of a column by hand", text);
        check_column(c->value, (const uint8_t *)c->bytes, "by hand");
        expect_output(text, "", c->bytes);
        add_value(&slip, c->value, "by hand");
    }
    write_slip(&slip, SLIP_ROOM, "by hand");
    /* which value is written, and that it stays */
    expect_output("(IIOLO;)", "5 -1250", "        -12.50          0.05");
    expect_output("(IOMOAO;)", "5", "          0.05         -0.05          0.05");
    expect_output("(IS3LF3OF4O;)", "-5", "         -0.05          0.00");
    expect_output("(II+OII-OII*O;)", "99 1 5 10 -25 4",
                  "          1.00         -0.05         -1.00");
    expect_output("('/-0'O'/005'O;)", "", "          0.00          0.05");
    expect_output("($3$'/125'O:;)", "", "          1.25          1.25          1.25");
}

/* What one mark writes, and the steps before it. */
struct piece {
    uint32_t steps;
    const char *bytes;
};

/* In every room: a piece that does not all fit ends the run 26, with those before it
 * written. After the last piece stand the steps of the finished run. */
static void expect_pieces(const char *text, const char *inputs, const struct piece *pieces)
{
    static struct both b;
    int32_t input[REC_LIST];
    size_t count = read_inputs(inputs, input), length = 0;
    for (const struct piece *p = pieces; p->bytes; p++)
        length += strlen(p->bytes);
    both_fresh(&b);
    check(define_text(&b, 'q', text) == 0, "define", text);
    for (size_t room = 0; room <= length + WIDTH + 2; room++) {
        struct rec_answer a = both_run(&b, 'q', 1000, input, count, REC_LIST, room);
        const struct piece *p = pieces;
        size_t written = 0;
        for (; p->bytes && written + strlen(p->bytes) <= room; p++) {
            check(memcmp(one_paper.output + written, p->bytes, strlen(p->bytes)) == 0,
                  "piece", text);
            written += strlen(p->bytes);
        }
        check(a.number == (p->bytes ? REC_PAPER_OUT : REC_FINISHED), "ending in a room", text);
        check(a.written == written && a.steps == p->steps, "figures in a room", text);
        check(memcmp(one_paper.output + written, old_paper.output + written,
                     sizeof one_paper.output - written) == 0, "bytes past the pieces", text);
    }
}

/* 0 to 30 bytes of room at the least. */
static void rooms_of_columns(void)
{
    static const struct slip slip = {{-5, 0, 1250}, 3};
    static const struct piece one[] = {{1, "          0.05"}, {3, NULL}};
    static const struct piece longest[] = {{1, "   -9999999.99"}, {3, NULL}};
    static const struct piece two[] = {{1, "          0.00"}, {2, "          0.00"}, {4, NULL}};
    static const struct piece three[] = {
        {1, "        -12.50"}, {3, "          0.05"}, {5, "    9999999.99"}, {7, NULL}};
    static const struct piece printed[] = {
        {0, "sum"}, {2, "         -0.05"}, {3, "cents"}, {5, NULL}};
    static const struct piece newlines[] = {
        {0, "\n"}, {2, "         12.50"}, {3, "\n"}, {4, "\n"}, {5, "         12.50"}, {7, NULL}};
    static const struct piece newline_last[] = {{1, "          1.00"}, {2, "\n"}, {4, NULL}};
    static const struct piece empty[] = {{0, ""}, {2, "         -1.00"}, {3, ""}, {5, NULL}};
    expect_pieces("(IO;)", "5", one);
    expect_pieces("(IO;)", "-999999999", longest);
    expect_pieces("(IOO;)", "0", two);
    expect_pieces("(IOIOIO;)", "-1250 5 999999999", three);
    expect_pieces("(''sum'IO''cents';)", "-5", printed);
    expect_pieces("(XIOXXO;)", "1250", newlines);
    expect_pieces("(IOX;)", "100", newline_last);
    expect_pieces("('''IO''';)", "-100", empty);
    for (size_t room = 0; room <= 4 * WIDTH; room++)
        write_slip(&slip, room, "every room");
}

/* A stop keeps what the marks before it wrote. `w` calls itself, `v` is cleared. */
static void expect_stop(const char *text, const char *inputs, uint32_t allowance, size_t room,
                        uint32_t number, uint32_t steps, uint32_t height, const char *output)
{
    static struct both b;
    int32_t input[REC_LIST];
    size_t count = read_inputs(inputs, input), length = strlen(output);
    struct rec_answer a;
    both_fresh(&b);
    check(define_text(&b, 'q', text) == 0 && define_text(&b, 'w', "(w;)") == 0, "define", text);
    a = both_run(&b, 'q', allowance, input, count, REC_LIST, room);
    check(a.number == number && a.truth == 0 && a.steps == steps && a.height == height,
          "answer of a stop", text);
    check(a.written == length && memcmp(one_paper.output, output, length) == 0,
          "output of a stop", text);
    check(memcmp(one_paper.output + length, old_paper.output + length,
                 sizeof one_paper.output - length) == 0, "bytes past a stop", text);
}

static void stops_of_columns(void)
{
    expect_stop("(IOI;)", "5 6", 2, 100, 20, 2, 1, "          0.05");
    expect_stop("(IOLO;)", "-5", 1000, 100, 21, 3, 0, "         -0.05");
    expect_stop("(IO($63$'/1':;)'/1';)", "99", 1000, 100, 22, 193, 64, "          0.99");
    expect_stop("(IOP*;)", "31623", 1000, 100, 23, 3, 2, "        316.23");
    expect_stop("(IO'/0'/;)", "-1250", 1000, 100, 24, 3, 2, "        -12.50");
    expect_stop("(IOI;)", "100", 1000, 100, 25, 2, 1, "          1.00");
    expect_stop("(IOO;)", "101", 1000, 27, 26, 2, 1, "          1.01");
    expect_stop("(IOX;)", "101", 1000, 14, 26, 2, 1, "          1.01");
    expect_stop("(IO''a';)", "101", 1000, 14, 26, 2, 1, "          1.01");
    expect_stop("(IOv;)", "999", 1000, 100, 27, 2, 1, "          9.99");
    expect_stop("(IOw;)", "1000", 1000, 100, 28, 102, 1, "         10.00");
    /* after a column that does not fit, no mark is obeyed that would */
    expect_stop("(IOX;)", "5", 1000, 13, 26, 1, 1, "");
    expect_stop("(''a'IOX;)", "5", 1000, 14, 26, 2, 1, "a");
    expect_stop("(XIOX;)", "-5", 1000, 14, 26, 2, 1, "\n");
    expect_stop("(IS1O;)", "5", 1000, 13, 26, 2, 1, "");
    /* 20, then 21, then 26 */
    expect_stop("(O;)", "", 1000, 0, 21, 0, 0, "");
    expect_stop("(O;)", "", 1000, 14, 21, 0, 0, "");
    expect_stop("(IOLO;)", "-5", 1000, 14, 21, 3, 0, "         -0.05");
    expect_stop("(O;)", "", 0, 0, 20, 0, 0, "");
    expect_stop("(IO;)", "5", 1, 13, 20, 1, 1, "");
    expect_stop("(IO;)", "5", 2, 13, 26, 1, 1, "");
    expect_stop("(IO;)", "5", 2, 14, 20, 2, 1, "          0.05");
}

/* 29 after a column, and a refusal, which the store alone has. */
static void columns_of_stores(void)
{
    static struct rec_store store;
    static const uint8_t soiled[] = "##############################";
    static const uint8_t written[] = "         -0.05################";
    int32_t list[REC_LIST];
    const int32_t input[] = {-5};
    uint8_t output[sizeof soiled];
    struct rec_loan loan = {input, 1, list, REC_LIST, output, sizeof output};
    struct rec_answer a;
    memcpy(output, soiled, sizeof output);
    rec_store_fresh(&store);
    put_cells(store.cells, "2000,-73,-79,-66,0,1");
    store.used[0] = 6;
    a = store_run(&store, 'a', 9, &loan);
    check(a.number == REC_DAMAGED && a.steps == 2 && a.height == 1 && a.written == WIDTH
              && memcmp(output, written, sizeof output) == 0, "column before damage", "");
    memcpy(output, soiled, sizeof output);
    store.variables[0] = MOST_VALUE + 1;
    a = store_run(&store, 'a', 9, &loan);
    check(a.number == REC_BAD_STORE && a.written == 0
              && memcmp(output, soiled, sizeof output) == 0, "refused column", "");
}

/* 4,096 bytes hold 292 columns, 4,088 bytes. */
static void full_paper(void)
{
    static struct both b;
    struct rec_answer a;
    both_fresh(&b);
    check(define_text(&b, 'q', "('/-1250'($999$O:;);)") == 0, "define", "full paper");
    a = both_run(&b, 'q', 5000, NULL, 0, REC_LIST, 4096);
    check(a.number == REC_PAPER_OUT && a.steps == 1 + 292 * 3 + 1 && a.height == 1
              && a.written == 4088, "full paper", "");
    for (size_t i = 0; i < 292; i++)
        check(memcmp(one_paper.output + i * WIDTH, "        -12.50", WIDTH) == 0,
              "column of a full paper", "");
}

static void small_columns(void)
{
    struct slip slip = {.count = 0};
    for (int32_t value = -20000; value <= 20000; value++)
        add_value(&slip, value, "small");
    write_slip(&slip, SLIP_ROOM, "small");
}

/* About 1 to 9 times every power of ten, by both signs. */
static void corners_of_columns(void)
{
    struct slip slip = {.count = 0};
    for (int32_t power = 1000; power <= 100000000; power *= 10)
        for (int32_t times = 1; times <= 9; times++)
            for (int32_t off = -101; off <= 101; off++) {
                add_value(&slip, power * times + off, "corners");
                add_value(&slip, -power * times - off, "corners");
            }
    for (int32_t off = 0; off <= 101; off++) {
        add_value(&slip, MOST_VALUE - off, "corners");
        add_value(&slip, off - MOST_VALUE, "corners");
    }
    write_slip(&slip, SLIP_ROOM, "corners");
}

/* The same slips each time, whatever histories follow. */
static void large_columns(void)
{
    for (uint64_t seed = 0; seed < 200; seed++)
        random_columns(~seed);
}

void columns_by_hand(void)
{
    examples_of_columns();
    rooms_of_columns();
    stops_of_columns();
    columns_of_stores();
    full_paper();
    small_columns();
    corners_of_columns();
    large_columns();
}

/* ---- random ------------------------------------------------------------ */

static int32_t random_money(struct random *r)
{
    switch (below(r, 8)) {
    case 0:
        return (int32_t)below(r, chance(r, 20) ? 1 : chance(r, 50) ? 10 : 100);
    case 1: case 2: /* units alone, or a cent more or less */
        return (int32_t)(1 + below(r, 9999999)) * 100 + between(r, -1, 1);
    case 3:
        return (int32_t)below(r, 10000000) * 100 + between(r, 0, 9);
    case 4:
        return (int32_t)below(r, 10000000) * 100 + 10 * between(r, 0, 9);
    default:
        return any_size(r);
    }
}

/* In the room they need, then in less or more. */
void random_columns(uint64_t seed)
{
    struct slip slip = {.count = 0};
    struct random r;
    size_t count, room;
    random_seed(&r, seed ^ (uint64_t)1 << 62);
    count = (size_t)between(&r, 1, 60);
    while (slip.count < count)
        add_value(&slip, either_sign(&r, random_money(&r)), "random");
    room = count * WIDTH;
    write_slip(&slip, room, "random");
    write_slip(&slip, chance(&r, 30) ? room - 1 : below(&r, (uint32_t)room + 2 * WIDTH),
               "random room");
}

/* ---- what must have been met ------------------------------------------- */

/* Nothing, each coin by both signs, units of every length, and every lack of bytes. */
bool counts_of_columns(bool of_histories, unsigned least)
{
    bool good = met(noughts[of_histories], least, "column: nothing");
    for (size_t j = 0; j < 2; j++) {
        for (size_t i = 0; i < COINS; i++)
            good &= met(coins[of_histories][i][j], least, "column: %s, %s", coin_words[i],
                        minus_words[j]);
        for (size_t i = 1; i <= UNIT_DIGITS; i++)
            good &= met(unit_digits[of_histories][i][j], least, "column: %u digits of units, %s",
                        (unsigned)i, minus_words[j]);
    }
    for (size_t i = 0; i <= WIDTH; i++)
        good &= met(lacks[of_histories][i], least, "column: %u bytes lacking", (unsigned)i);
    return good;
}
