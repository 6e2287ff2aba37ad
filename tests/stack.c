/* What each function of librec.a needs of the stack, in bytes: how deep it writes
 * into the stack of a thread, less what an empty function writes there. The most of
 * all its cases. Prints a line `rec_run 7104` for each function.
 *
 * Built with differential/texts.c and librec.a. */
#define _DEFAULT_SOURCE /* mmap's MAP_ANONYMOUS */
#include <pthread.h>
#include <stdint.h>
#include <stdio.h>
#include <stdlib.h>
#include <string.h>
#include <sys/mman.h>

#include "../include/rec.h"
#include "differential/texts.h"

enum { STACK = 1 << 18, PAPER = 4096, RANDOM_TEXTS = 300 };

static void fail(const char *what)
{
    fprintf(stderr, "stack: %s\n", what);
    exit(2);
}

/* ---- one measurement ---------------------------------------------------- */

static uint8_t *stack;

struct trial {
    void (*call)(void);
    uint8_t pattern;
    size_t depth;
};

/* An address just below the frame of the caller. */
__attribute__((noinline)) static uintptr_t below_here(void)
{
    volatile uintptr_t here;
    here = (uintptr_t)&here;
    return here;
}

/* The pattern from the stack's end to here, the call, and how far it was overwritten. */
static void *measure(void *it)
{
    struct trial *t = it;
    size_t room = below_here() - (uintptr_t)stack, left = 0;
    memset(stack, t->pattern, room);
    t->call();
    while (left < room && stack[left] == t->pattern)
        left++;
    t->depth = room - left;
    return NULL;
}

static size_t depth_of(void (*call)(void), uint8_t pattern)
{
    struct trial trial = {call, pattern, 0};
    pthread_attr_t attributes;
    pthread_t thread;
    if (pthread_attr_init(&attributes) != 0 || pthread_attr_setstack(&attributes, stack, STACK) != 0
        || pthread_create(&thread, &attributes, measure, &trial) != 0
        || pthread_join(thread, NULL) != 0)
        fail("no thread");
    pthread_attr_destroy(&attributes);
    return trial.depth;
}

/* ---- the functions ------------------------------------------------------ */

static rec_store store;
static struct text text;
static uint8_t letter = 'q', mark = REC_OPEN, role = REC_CASHIER;
static uint32_t allowance = 100000;
static int32_t inputs[REC_LIST], list[REC_LIST];
static size_t places = REC_LIST;
static uint8_t output[PAPER];
static size_t room = PAPER; /* of a fair copy */
static int32_t number; /* of the last call */
static rec_report report;
static uint8_t reached[REC_LETTERS], missing[REC_LETTERS];
static uint32_t pool = 1234567, rate = 150, stakes = 4560;

static void fresh(void) { rec_fresh(&store); }
static void check(void) { number = rec_check(text.bytes, text.length); }
static void define(void) { number = rec_define(&store, letter, mark, text.bytes, text.length); }
static void withdraw(void) { number = rec_withdraw(&store, letter); }

static void link_text(void)
{
    static int32_t cells[REC_CELLS];
    static size_t used;
    number = rec_link(text.bytes, text.length, cells, REC_CELLS, &used);
}

static void fair_copy(void)
{
    static size_t written;
    number = rec_fair_copy(text.bytes, text.length, output, room, &written);
}

static void run(void)
{
    number = rec_run(&store, letter, role, allowance, inputs, REC_LIST, list, places, output, PAPER,
                     &report);
}

static void reach(void) { number = rec_reach(&store, letter, reached, missing); }

static void dividend(void)
{
    static rec_dividend_report payout;
    number = rec_dividend(pool, rate, stakes, &payout);
}

/* A day of two lines: the text under q, and a run of it; and a last line that is too long. */
static void day(void)
{
    static uint8_t input[1000], paper[3 * (PAPER + 40)];
    static size_t written;
    size_t length = 0;
    memcpy(input, "D q ", 4);
    length = 4;
    if (text.length <= 500) {
        memcpy(input + length, text.bytes, text.length);
        length += text.length;
    }
    memcpy(input + length, "\nR q 100000 1 -2 3\n", 19);
    length += 19;
    memset(input + length, 'x', 400);
    length += 400;
    number = rec_day(input, length, paper, sizeof paper, &written);
}

static void nothing(void) {}

/* A byte that is written may be the pattern's, so there are two patterns. */
static size_t need_of(void (*call)(void))
{
    static rec_store before;
    size_t need = 0;
    before = store;
    for (int i = 0; i < 2; i++) {
        uint8_t pattern = i ? 0x5a : 0xa5;
        size_t empty = depth_of(nothing, pattern), depth;
        store = before;
        depth = depth_of(call, pattern);
        if (depth > empty && depth - empty > need)
            need = depth - empty;
    }
    return need;
}

static struct function {
    const char *name;
    void (*call)(void);
    size_t need;
} functions[] = {{"rec_fresh", fresh, 0},       {"rec_check", check, 0},
                 {"rec_link", link_text, 0},    {"rec_fair_copy", fair_copy, 0},
                 {"rec_define", define, 0},     {"rec_withdraw", withdraw, 0},
                 {"rec_run", run, 0},           {"rec_reach", reach, 0},
                 {"rec_dividend", dividend, 0}, {"rec_day", day, 0}};
enum { FUNCTIONS = sizeof functions / sizeof functions[0] };

static void try(void (*call)(void))
{
    for (size_t i = 0; i < FUNCTIONS; i++)
        if (functions[i].call == call) {
            size_t need = need_of(call);
            if (need > functions[i].need)
                functions[i].need = need;
        }
}

/* The call, which must give this number: else the case is not the one that is meant. */
static void expect(void (*call)(void), int32_t expected)
{
    try(call);
    if (number != expected) {
        fprintf(stderr, "stack: a case gives %ld, not %ld\n", (long)number, (long)expected);
        exit(2);
    }
}

/* ---- the cases ----------------------------------------------------------- */

static void text_of(const char *words, const char *filling, size_t times, const char *end)
{
    text_clear(&text);
    text_add(&text, words);
    text_fill(&text, filling, times);
    text_add(&text, end);
}

/* What reads a text: short, nested, prints, refused at the end, long. */
static void known_texts(void)
{
    static const struct {
        int32_t number;
        const char *words, *filling;
        size_t times;
        const char *end;
    } cases[] = {{0, "(", "", 0, ")"},
                 {0, "((((((((((", "", 0, "))))))))))"},
                 {0, "(((((((((", "(N:;)", 47, ")))))))))"},
                 {0, "(", "''abcdefghijklmnopqrstuvwxyz'", 8, ")"},
                 {0, "(", "N", 123, ")"},
                 {0, "(", "$9999$", 16, "'/-999999999'F0S1\"end\")"},
                 {REC_LONG_TEXT, "(", " ", 4000, ")"},
                 {REC_STRAY_MARK, "(", "N", 120, ")#"},
                 {REC_DEEP, "((((((((((", "N", 100, "("},
                 {REC_BAD_COUNTER, "(", "N", 120, "$0$)"},
                 {REC_BAD_CONSTANT, "(", "N", 120, "'/1234567890')"},
                 {REC_UNFINISHED, "(((((((((", "(N:;)", 47, "))))))))"},
                 {REC_TABLE_FULL, "(", "N", 124, ")"},
                 {REC_MANY_COUNTERS, "(", "$1$", 17, ")"}};
    static void (*const readers[])(void) = {check, link_text, fair_copy, define};
    for (size_t i = 0; i < sizeof cases / sizeof cases[0]; i++)
        for (size_t j = 0; j < sizeof readers / sizeof readers[0]; j++) {
            text_of(cases[i].words, cases[i].filling, cases[i].times, cases[i].end);
            rec_fresh(&store);
            expect(readers[j], cases[i].number);
        }
}

/* Fair copies: long, on a paper that they fill and on shorter ones; of much that goes. */
static void fair_copies(void)
{
    text_of("(", "'/-99999999'", 21, "AA)");
    room = REC_TEXT;
    expect(fair_copy, 0);
    room = REC_TEXT - 1;
    expect(fair_copy, REC_SHORT_PAPER);
    room = 0;
    expect(fair_copy, REC_SHORT_PAPER);
    room = PAPER;
    text_of("( \"c\"", " '/-000000009' ,", 14, "''a  b'\n$0009$.'/-00')");
    expect(fair_copy, 0);
    text_of("(((((((((", "(N.,)", 47, ")))))))))");
    expect(fair_copy, 0);
}

/* Random texts of every kind through every function. */
static void random_texts(void)
{
    struct random r;
    random_seed(&r, 1);
    rec_fresh(&store);
    for (int i = 0; i < RANDOM_TEXTS; i++) {
        text_hard(&r, (const uint8_t *)"abcdef", 6, &text);
        letter = (uint8_t)('a' + below(&r, 6));
        mark = chance(&r, 30);
        role = chance(&r, 50);
        room = i % 2 == 0 ? PAPER : text.length / 2;
        for (size_t j = 1; j < FUNCTIONS; j++)
            if (functions[j].call != withdraw || chance(&r, 20))
                try(functions[j].call);
    }
}

static void refusals(void)
{
    text_of("(", "", 0, ")");
    letter = 'Q';
    expect(define, REC_NO_SUCH_LETTER);
    expect(withdraw, REC_NO_SUCH_LETTER);
    expect(run, REC_NO_SUCH_LETTER);
    expect(reach, REC_NO_SUCH_LETTER);
    letter = 'q';
    rec_fresh(&store);
    expect(withdraw, REC_NOT_STANDING);
    expect(run, REC_NOT_STANDING);
    expect(reach, REC_NOT_STANDING);
    mark = role = 2;
    expect(define, REC_BAD_MARK);
    expect(run, REC_BAD_MARK);
    mark = REC_STEWARDS;
    role = REC_CASHIER;
    expect(define, 0);
    expect(run, REC_NOT_FOR_CASHIERS);
    mark = REC_OPEN;
    expect(define, 0);
    inputs[REC_LIST - 1] = REC_VALUE_MAX + 1;
    expect(run, REC_BAD_INPUT);
    inputs[REC_LIST - 1] = 0;
    places = REC_LIST - 1;
    expect(run, REC_BAD_LIST);
    places = REC_LIST;
    store.used[25] = 2;
    expect(define, REC_BAD_STORE);
    expect(withdraw, REC_BAD_STORE);
    expect(run, REC_BAD_STORE);
    expect(reach, REC_BAD_STORE);
    store.used[25] = 0;
    store.marks[25] = 2;
    expect(define, REC_BAD_STORE);
    expect(withdraw, REC_BAD_STORE);
    expect(run, REC_BAD_STORE);
    expect(reach, REC_BAD_STORE);
    store.marks[25] = REC_OPEN;
    expect(withdraw, 0);
}

static void define_as(uint8_t under, const char *words)
{
    letter = under;
    text_of(words, "", 0, "");
    expect(define, 0);
}

/* A full list, 100 calls within calls, prints and `O`; then a steward letter for a cashier
 * and for a steward. */
static void deep_run(void)
{
    rec_fresh(&store);
    define_as('f', "($63$P:''full 'OXg;)");
    define_as('g', "(''deeper 'Og;)");
    define_as('m', "(I'/-999999999'*If;)");
    inputs[0] = 1;
    expect(run, REC_LIST_FULL);
    define_as('m', "('/-999999999'f;)");
    expect(run, REC_DEEP_CALLS);
    if (report.height != REC_LIST || report.written != 6 + REC_COLUMNS + 99 * (7 + REC_COLUMNS))
        fail("the deep run is not full");
    mark = REC_STEWARDS;
    define_as('g', "(''deeper 'Og;)");
    mark = REC_OPEN;
    letter = 'm';
    expect(run, REC_STEWARD_CALL);
    role = REC_STEWARD;
    expect(run, REC_DEEP_CALLS);
    role = REC_CASHIER;
}

/* Letters that call each other: a circle of 26 with tables of 250 cells, then one letter
 * without a text and one whose table is damaged; and every kind of mark. */
static void reaches(void)
{
    rec_fresh(&store);
    for (uint8_t to = 'a'; to <= 'z'; to++) {
        char call[] = {(char)to, ')', 0};
        letter = to == 'a' ? 'z' : (uint8_t)(to - 1);
        text_of("(A", "N", 122, call);
        expect(define, 0);
    }
    expect(reach, 0);
    if (memchr(reached, 0, sizeof reached) != NULL || store.used['z' - 'a'] != REC_CELLS)
        fail("the circle is not full");
    store.used[0] = 0;
    expect(reach, 0);
    store.used[0] = REC_CELLS - 1;
    expect(reach, REC_DAMAGED);
    rec_fresh(&store);
    define_as('q', "(F1aS0(bN;:)'/-97'0c$97$d''xy'eJ;+)");
    expect(reach, 0);
}

/* Pools: paid, at every bound, above one, and without a winning stake. */
static void dividends(void)
{
    expect(dividend, 0);
    pool = REC_POOL_MAX;
    stakes = REC_STAKES_MAX;
    expect(dividend, 0);
    rate = REC_RATE_MAX;
    expect(dividend, 0);
    stakes = UINT32_MAX;
    expect(dividend, REC_BAD_POOL);
    stakes = 0;
    expect(dividend, REC_NO_WINNER);
}

/* Days: of a run that fills the list and prints, and of refused lines. */
static void days(void)
{
    text_of("('/7'$63$P:''full 'OXg;)", "", 0, "");
    expect(day, 0);
    text_of("(", "N", 124, ")");
    expect(day, 0);
    text_of("(", "''abcdefghijklmnopqrstuvwxyz'", 8, ":)");
    expect(day, 0);
}

/* A table that is no text's: every clause of 29 ends a run in the same way. */
static void damaged_run(void)
{
    letter = 'q';
    rec_fresh(&store);
    store.used['q' - 'a'] = 5;
    expect(run, REC_DAMAGED);
}

int main(void)
{
    stack = mmap(NULL, STACK, PROT_READ | PROT_WRITE, MAP_PRIVATE | MAP_ANONYMOUS, -1, 0);
    if (stack == MAP_FAILED)
        fail("no memory");
    memset(&store, 0xff, sizeof store);
    try(fresh);
    known_texts();
    fair_copies();
    refusals();
    deep_run();
    reaches();
    damaged_run();
    dividends();
    days();
    random_texts();
    for (size_t i = 0; i < FUNCTIONS; i++)
        printf("%s %zu\n", functions[i].name, functions[i].need);
    return 0;
}
