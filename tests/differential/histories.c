/* Compares lists of calls: the reference's book against the engine's store, both
 * from a fresh start. Each number and figure, every list place and output byte, and
 * the variables and marks after each call. Then holds runs to what U7 of document 02
 * says of a role, on other stores of the engine.
 *
 *     histories [FIRST_SEED [ROUNDS]]      see work.h
 *
 * Built with calls.c, engine.c, work.c, texts.c, the reference and librec.a. */
#include <stdio.h>
#include <string.h>

#include "calls.h"
#include "work.h"

enum { ROUNDS = 7000, LETTERS = 6, TRIAL = 3000, AWAY = 4 };

/* ---- what was met ------------------------------------------------------ */

static struct tally tally;

/* Each number of document 01 but 14, which only a desk line has, and 13 and 29,
 * which do not occur on a store from such calls; and those of U7. */
static const struct must must = {
    {[DEFINE] = {0, 1, 2, 3, 4, 5, 6, 7, 8, 9, 35, MUST_END},
     [WITHDRAW] = {0, 1, 10, MUST_END},
     [RUN] = {0, 1, 10, 11, 12, 20, 21, 22, 23, 24, 25, 26, 27, 28, 33, 34, 35, MUST_END}}};

/* What marks and roles bring. */
enum sight {
    NO_MARKS, MADE_OPEN, MADE_STEWARDS, KEPT_OPEN, KEPT_STEWARDS, WITHDRAWN, STEWARD_RAN,
    STEWARD_NEXT, NEXT_33, NEXT_34, DEFINE_1_35, DEFINE_35_TEXT, RUN_1_35, RUN_35_10, RUN_33_11,
    RUN_33_12, RUN_20_34, ANY_TEXT_33, ANY_TEXT_34, ANY_TEXT_FINISHED, ANY_TEXT_STOPPED,
    STEWARD_WENT_ON, SIGHTS
};

static const char *const sight_words[SIGHTS] = {
    "history of open letters and cashiers", "steward letter made open", "open letter made steward",
    "open letter not made steward by a refusal", "steward letter not made open by a refusal",
    "steward letter withdrawn", "steward's run of a steward letter",
    "steward's run of one after a cashier's", "33 after a steward's run", "34 after a steward's run",
    "define: 1 before 35", "define: 35 before 2 to 9", "run: 1 before 35", "35 before 10",
    "33 before 11", "33 before 12", "20 before 34", "33 whatever the steward texts",
    "34 whatever the steward texts", "finished whatever the steward texts",
    "stopped otherwise whatever the steward texts", "steward's run where a cashier's ends 34"};

/* `away`: of runs ended 34, by the calls to the nearest steward letter. */
static unsigned long long sights[SIGHTS], away[AWAY + 1];

static void saw(bool seen, enum sight sight)
{
    sights[sight] += seen;
}

static bool counts(bool directed, bool full)
{
    unsigned long long least = directed ? 1 : full ? 50 : 0, seldom = least < 20 ? least : 20;
    bool good;
    printf("%s: %llu calls\n", directed ? "directed cases" : "rounds", tally.calls);
    good = numbers_met(&tally, &must, least);
    good &= runs_met(&tally, least);
    good &= same("runs ended 34 that no call leads to", 0, 0, (long long)away[0]);
    for (size_t i = 1; i <= AWAY; i++)
        good &= met(away[i], seldom, "34, calls to the nearest steward letter: %zu%s", i,
                    i < AWAY ? "" : " or more");
    for (size_t i = 0; i < SIGHTS; i++)
        good &= met(sights[i], seldom, "%s", sight_words[i]);
    memset(&tally, 0, sizeof tally);
    memset(away, 0, sizeof away);
    memset(sights, 0, sizeof sights);
    return good;
}

/* ---- one comparison ---------------------------------------------------- */

struct both {
    struct rec_book book;
    struct rec_store store; /* the engine's */
    struct side expected;
    struct side got;
    struct rec_store before; /* that store before the last call */
    struct side lent;        /* what the sides were before it */
    uint8_t last;            /* role of the run before */
};

static bool fresh(struct random *r, struct both *b)
{
    rec_book_fresh(&b->book);
    b->last = REC_CASHIER;
    return fresh_engine(r, &b->store);
}

static bool is_letter(uint8_t letter)
{
    return letter >= 'a' && letter <= 'z';
}

static bool is_odd(uint8_t mark)
{
    return mark > REC_STEWARD_LETTER;
}

static bool has_bad_input(const struct call *call)
{
    for (size_t i = 0; i < call->input_length; i++)
        if (call->input[i] < -REC_VALUE || call->input[i] > REC_VALUE)
            return true;
    return false;
}

static uint32_t bit(size_t letter)
{
    return (uint32_t)1 << letter;
}

/* The letters that a letter's text calls. */
static uint32_t called(const struct rec_book *book, size_t letter)
{
    const struct rec_tree *tree = &book->texts[letter];
    uint32_t letters = 0;
    for (size_t i = 0; i < tree->item_count && book->standing[letter]; i++)
        if (tree->items[i].kind == REC_CALL)
            letters |= bit((size_t)(tree->items[i].mark - 'a'));
    return letters;
}

/* How many calls, through open letters, lead to the nearest steward letter, up to AWAY;
 * 0: none do. */
static size_t calls_away(const struct rec_book *book, size_t letter)
{
    uint32_t all = bit(letter), last = all, stewards = 0;
    for (size_t i = 0; i < REC_LETTERS; i++)
        stewards |= book->marks[i] == REC_STEWARD_LETTER ? bit(i) : 0;
    for (size_t calls = 1; last != 0; calls++) {
        uint32_t next = 0;
        for (size_t i = 0; i < REC_LETTERS; i++)
            next |= last & bit(i) ? called(book, i) : 0;
        if (next & stewards)
            return calls < AWAY ? calls : AWAY;
        last = next & ~all;
        all |= last;
    }
    return 0;
}

static void count_define(const struct call *call, uint32_t number, bool stood, bool stewards)
{
    static struct rec_tree tree;
    bool refused = REC_LONG_TEXT <= number && number <= REC_MANY_COUNTERS;
    bool open = stood && !stewards;
    saw(number == 0 && stewards && call->mark == REC_OPEN, MADE_OPEN);
    saw(number == 0 && open && call->mark == REC_STEWARD_LETTER, MADE_STEWARDS);
    saw(refused && open && call->mark == REC_STEWARD_LETTER, KEPT_OPEN);
    saw(refused && stewards && call->mark == REC_OPEN, KEPT_STEWARDS);
    saw(number == REC_NO_SUCH_LETTER && is_odd(call->mark), DEFINE_1_35);
    saw(number == REC_BAD_MARK && rec_read(call->text.bytes, call->text.length, &tree) != 0,
        DEFINE_35_TEXT);
}

static void count_run(struct both *b, const struct call *call, bool stood, bool stewards)
{
    uint32_t number = b->expected.number;
    bool ran = !is_refusal(number);
    saw(ran && stewards, STEWARD_RAN);
    saw(ran && stewards && b->last == REC_CASHIER, STEWARD_NEXT);
    saw(number == REC_NOT_FOR_CASHIERS && b->last == REC_STEWARD, NEXT_33);
    saw(number == REC_STEWARD_CALL && b->last == REC_STEWARD, NEXT_34);
    saw(number == REC_NO_SUCH_LETTER && is_odd(call->role), RUN_1_35);
    saw(number == REC_BAD_MARK && !stood, RUN_35_10);
    saw(number == REC_NOT_FOR_CASHIERS && has_bad_input(call), RUN_33_11);
    saw(number == REC_NOT_FOR_CASHIERS && call->list_length != REC_LIST, RUN_33_12);
    if (number == REC_STEWARD_CALL)
        away[calls_away(&b->book, (size_t)(call->letter - 'a'))]++;
    b->last = call->role;
}

static void count_sights(struct both *b, const struct call *call)
{
    size_t letter = (size_t)(call->letter - 'a');
    bool stood = is_letter(call->letter) && b->before.used[letter] != 0;
    bool stewards = stood && b->before.marks[letter] == REC_STEWARD_LETTER;
    if (call->kind == DEFINE)
        count_define(call, b->expected.number, stood, stewards);
    else if (call->kind == RUN)
        count_run(b, call, stood, stewards);
    else
        saw(stewards && b->expected.number == 0, WITHDRAWN);
}

static bool compare(struct random *r, struct both *b, const struct call *call)
{
    bool good;
    soil(r, &b->lent);
    b->got = b->expected = b->lent;
    b->before = b->store;
    call_book(&b->book, call, &b->expected);
    good = call_engine(&b->store, call, &b->got);
    good &= same_sides(&b->expected, &b->got);
    good &= same_variables(b->book.variables, b->store.variables);
    good &= same_marks(b->book.marks, b->store.marks);
    if (call->kind == RUN && b->got.number != REC_FINISHED)
        good &= same_variables(b->before.variables, b->store.variables);
    if (b->got.number == REC_BAD_STORE || b->got.number == REC_DAMAGED) {
        printf("  number %u on a store from such calls\n", (unsigned)b->got.number);
        good = false;
    }
    if (!good)
        show_call(call);
    count_call(&tally, call, &b->expected);
    if (good)
        count_sights(b, call);
    return good;
}

/* ---- what a role is to a run ------------------------------------------- */

/* The last call again, on another store: all it gave, and the variables. */
static bool same_again(const struct both *b, struct rec_store *other, const struct call *call)
{
    static struct side again;
    bool good;
    again = b->lent;
    good = call_engine(other, call, &again);
    good &= same_sides(&b->got, &again);
    good &= same_variables(b->store.variables, other->variables);
    return good;
}

/* What the last call would have given with another role or allowance. */
static uint32_t number_of(const struct both *b, const struct call *call)
{
    static struct rec_store other;
    static struct side side;
    other = b->before;
    side = b->lent;
    call_engine(&other, call, &side);
    return side.number;
}

/* Another text for each steward letter; how many they are. */
static size_t replace_texts(struct random *r, struct rec_store *store)
{
    static struct side side;
    static struct call call;
    size_t count = 0;
    call.kind = DEFINE;
    call.mark = REC_STEWARD_LETTER;
    for (size_t i = 0; i < REC_LETTERS; i++)
        if (store->marks[i] == REC_STEWARD_LETTER) {
            call.letter = (uint8_t)('a' + i);
            do {
                text_lively(r, &call.text);
                call_engine(store, &call, &side);
            } while (side.number != 0);
            count++;
        }
    return count;
}

/* A cashier's run is the same whatever the texts of the steward letters. */
static bool hold_cashier(struct random *r, const struct both *b, struct call *call)
{
    static struct rec_store other;
    uint32_t number = b->got.number;
    bool replaced, good;
    other = b->before;
    replaced = replace_texts(r, &other) > 0;
    good = same_again(b, &other, call);
    saw(replaced && number == REC_NOT_FOR_CASHIERS, ANY_TEXT_33);
    saw(replaced && number == REC_STEWARD_CALL, ANY_TEXT_34);
    saw(replaced && number == REC_FINISHED, ANY_TEXT_FINISHED);
    saw(replaced && REC_SPENT <= number && number <= REC_DEEP_CALLS, ANY_TEXT_STOPPED);
    if (number == REC_SPENT && call->allowance < UINT32_MAX) {
        call->allowance++;
        saw(number_of(b, call) == REC_STEWARD_CALL, RUN_20_34);
        call->allowance--;
    }
    return good;
}

/* A steward's is as a cashier's where every letter is open. */
static bool hold_steward(const struct both *b, struct call *call)
{
    static struct rec_store other;
    bool good;
    call->role = REC_CASHIER;
    other = b->before;
    memset(other.marks, REC_OPEN, sizeof other.marks);
    good = same_again(b, &other, call);
    saw(number_of(b, call) == REC_STEWARD_CALL, STEWARD_WENT_ON);
    call->role = REC_STEWARD;
    return good;
}

static bool hold_role(struct random *r, const struct both *b, struct call *call)
{
    bool good = call->role == REC_CASHIER   ? hold_cashier(r, b, call)
                : call->role == REC_STEWARD ? hold_steward(b, call)
                                            : true;
    if (!good) {
        puts("  with other marks, or other texts of steward letters");
        show_call(call);
    }
    return good;
}

/* ---- directed cases ---------------------------------------------------- */

/* A call with the number that the documents give it, and for a run with the inputs
 * it takes and its steps. */
struct row {
    enum call_kind kind;
    uint8_t letter;
    uint8_t as; /* mark of a define, role of a run */
    const char *text;
    uint32_t allowance;
    size_t inputs; /* of 30, 3, 5, 0 and, as the fifth, one outside the values */
    size_t list_length;
    size_t output_length;
    uint32_t number;
    size_t taken;
    size_t steps;
};

static const int32_t row_inputs[] = {30, 3, 5, 0, 1000000000};

#define D_AS(letter, mark, text, number) {DEFINE, letter, mark, text, 0, 0, 0, 0, number, 0, 0}
#define R_AS(letter, role, allowance, inputs, output, number, taken, steps) \
    {RUN, letter, role, "", allowance, inputs, 64, output, number, taken, steps}
#define REFUSED(letter, role, inputs, list, number) \
    {RUN, letter, role, "", 9, inputs, list, 0, number, 0, 0}
#define D(letter, text, number) D_AS(letter, 0, text, number)
#define X(letter, number) {WITHDRAW, letter, 0, "", 0, 0, 0, 0, number, 0, 0}
#define R(letter, allowance, inputs, output, number, taken, steps) \
    R_AS(letter, 0, allowance, inputs, output, number, taken, steps)
#define TEN(words) words words words words words words words words words words
#define LONG \
    TEN(TEN(" ")) TEN(TEN("\n")) TEN("  ") TEN("\n\n") TEN(" ") "  \n\n ()"

static const struct row rows[] = {
    R('a', 9, 0, 0, 10, 0, 0), X('a', 10), R('A', 9, 0, 0, 1, 0, 0), X('{', 1), D('`', "()", 1),
    D('a', "(;)", 0), R('a', 1, 0, 0, 0, 0, 1), R('a', 0, 0, 0, 20, 0, 0),
    D('a', "(''abc'X;)", 0), R('a', 9, 0, 4, 0, 0, 3), R('a', 9, 0, 3, 26, 0, 1),
    R('a', 9, 0, 2, 26, 0, 0), R('a', 9, 0, 0, 26, 0, 0),
    /* refused defines leave the standing text */
    D('a', "(;))", 3), D('a', "(\n'/x')", 6), D('a', "($0$)", 5), D('a', "((;)", 7), D('a', "", 7),
    D('a', "(((((((((((;)))))))))))", 4),
    D('a', "(" TEN(TEN("N")) TEN("NN") "NNNN)", 8),
    D('a', "(" TEN("$1$") "$1$$1$$1$$1$$1$$1$$1$)", 9), D('a', LONG, 2), R('a', 9, 0, 4, 0, 0, 3),
    /* variables: kept by a finished run alone */
    D('b', "(F1'/1'+S1IS2;)", 0), R('b', 9, 1, 0, 0, 1, 7), R('b', 9, 0, 0, 25, 0, 4),
    R('b', 6, 1, 0, 20, 1, 6), R('b', 9, 2, 0, 0, 1, 7),
    /* refused runs */
    REFUSED('b', 0, 5, 64, 11), REFUSED('b', 0, 5, 63, 11), REFUSED('b', 0, 1, 63, 12),
    REFUSED('b', 0, 1, 65, 12), REFUSED('b', 0, 1, 0, 12), REFUSED('c', 0, 5, 0, 10),
    REFUSED('~', 0, 5, 0, 1),
    /* document 01's d and m: too large a number, then calls too deep */
    D('d', "(0L'/1';'/1'-d'/2'*;)", 0), D('m', "(Id;)", 0), R('m', 1000, 1, 0, 23, 1, 214),
    D('m', "(ILId;)", 0), R('m', 1000, 2, 0, 0, 2, 30), D('m', "('/100'd;)", 0),
    R('m', 1000, 0, 0, 28, 0, 401),
    /* each other stop, with 0 to 3 inputs taken before it */
    D('e', "(+)", 0), R('e', 9, 0, 0, 21, 0, 0), D('e', "(III+)", 0), R('e', 9, 3, 0, 0, 3, 5),
    D('e', "(III/:)", 0), R('e', 9, 4, 0, 25, 4, 6), D('e', "(II/II/)", 0),
    R('e', 9, 4, 0, 24, 4, 5), D('e', "('/1'P:)", 0), R('e', 999, 0, 0, 22, 0, 96),
    D('e', "(IIf)", 0), R('e', 9, 2, 0, 27, 2, 2), D('f', "(;)", 0), R('e', 9, 2, 0, 0, 2, 5),
    D('e', "(I:)", 0), R('e', 2, 2, 0, 20, 1, 2), R('e', 4, 3, 0, 20, 2, 4),
    /* where several stops fit: 20 first, 27 before 28, 21 before 24, 25 before 22, 21 before 26 */
    D('e', "(L)", 0), R('e', 0, 0, 0, 20, 0, 0), R('e', 1, 0, 0, 21, 0, 0),
    D('e', "(y)", 0), R('e', 0, 0, 0, 20, 0, 0), R('e', 1, 0, 0, 27, 0, 0),
    D('g', "(0y;'/1'-g;)", 0), D('e', "('/99'g;)", 0), R('e', 999, 0, 0, 27, 0, 399),
    D('y', "(;)", 0), R('e', 399, 0, 0, 20, 0, 399), R('e', 400, 0, 0, 28, 0, 399),
    D('e', "('/98'g;)", 0), R('e', 999, 0, 0, 0, 0, 497), X('y', 0),
    D('e', "('/0'/)", 0), R('e', 9, 0, 0, 21, 0, 1), D('e', "('/0'P/)", 0), R('e', 9, 0, 0, 24, 0, 2),
    D('e', "(($64$'/1':;)I)", 0), R('e', 999, 0, 0, 25, 0, 194), R('e', 999, 1, 0, 22, 0, 194),
    D('e', "(O)", 0), R('e', 9, 0, 0, 21, 0, 0), D('e', "('/1'O)", 0), R('e', 9, 0, 13, 26, 0, 1),
    R('e', 9, 0, 14, 0, 0, 3),
    /* a withdrawn letter is called no more, and a run takes the table of now */
    X('f', 0), X('f', 10), D('e', "(f)", 0), R('e', 9, 0, 0, 27, 0, 0), D('f', "('/1''/2'J)", 0),
    R('e', 9, 0, 0, 0, 0, 5), D('f', "(X)", 0), R('e', 9, 0, 1, 0, 0, 3)};

/* U7's. */
static const struct row rows_of_roles[] = {
    /* 1 before 35 before 2 to 9, and before 10, 33, 11 and 12 */
    D_AS('A', 2, "(;)", 1), D_AS('{', 255, "(", 1), D_AS('a', 2, "(;)", 35), D_AS('a', 3, "", 35),
    D_AS('a', 128, "(;))", 35), D_AS('a', 255, LONG, 35), REFUSED('A', 2, 5, 63, 1),
    REFUSED('a', 2, 5, 63, 35), REFUSED('a', 255, 0, 64, 35), REFUSED('a', 0, 0, 64, 10),
    REFUSED('a', 1, 0, 64, 10), D_AS('a', 1, "('/7'S1;)", 0), REFUSED('a', 2, 0, 64, 35),
    REFUSED('a', 3, 5, 63, 35), REFUSED('a', 128, 1, 64, 35),
    /* 33 before 11 and 12, and before any step */
    REFUSED('a', 0, 0, 64, 33), REFUSED('a', 0, 5, 64, 33), REFUSED('a', 0, 1, 63, 33),
    REFUSED('a', 0, 5, 0, 33), REFUSED('a', 1, 5, 63, 11), REFUSED('a', 1, 1, 63, 12),
    R('a', 0, 0, 0, 33, 0, 0), R_AS('a', 1, 0, 0, 0, 20, 0, 0),
    /* the role of the run before is nothing */
    R_AS('a', 1, 9, 0, 0, 0, 0, 3), REFUSED('a', 0, 0, 64, 33), R_AS('a', 1, 3, 0, 0, 0, 0, 3),
    /* the mark is that of the last accepted define, and goes with the text */
    D('a', "(", 7), D_AS('a', 2, "(;)", 35), D('A', "(;)", 1), X('A', 1), REFUSED('a', 0, 0, 64, 33),
    D('a', "(;)", 0), R('a', 9, 0, 0, 0, 0, 1), R_AS('a', 1, 9, 0, 0, 0, 0, 1), D_AS('a', 1, "(", 7),
    D_AS('a', 255, "()", 35), R('a', 9, 0, 0, 0, 0, 1), D_AS('a', 1, "(;)", 0),
    REFUSED('a', 0, 0, 64, 33), D_AS('a', 1, "(X;)", 0), REFUSED('a', 0, 0, 64, 33),
    R_AS('a', 1, 9, 0, 1, 0, 0, 2), X('a', 0), REFUSED('a', 0, 0, 64, 10), REFUSED('a', 1, 0, 64, 10),
    X('a', 10), D('a', "(;)", 0), R('a', 9, 0, 0, 0, 0, 1),
    /* a steward letter called, from ever further away; variables stay */
    D_AS('s', 1, "('/9'S3;)", 0), D('b', "(s;)", 0), D('c', "(I'/5'S3''xy'b;)", 0), D('d', "(c;)", 0),
    D('e', "(d;)", 0), R('b', 9, 0, 0, 34, 0, 0), R('c', 9, 1, 2, 34, 1, 5), R('d', 9, 1, 2, 34, 1, 6),
    R('e', 9, 1, 2, 34, 1, 7), R_AS('e', 1, 99, 1, 2, 0, 1, 15), R('e', 99, 1, 2, 34, 1, 7),
    R('a', 9, 0, 0, 0, 0, 1),
    /* 20 before 34; other stops come first where they are due first */
    R('b', 0, 0, 0, 20, 0, 0), R('e', 7, 1, 2, 20, 1, 7), R('e', 8, 1, 2, 34, 1, 7),
    R('e', 9, 0, 2, 25, 0, 2), R('e', 9, 1, 1, 26, 1, 5), R_AS('e', 1, 7, 1, 2, 20, 1, 7),
    /* only a call that is due */
    D('f', "(;s)", 0), R('f', 9, 0, 0, 0, 0, 1), D('f', "(INX;s)", 0), R('f', 9, 1, 0, 34, 1, 2),
    D('f', "($2$a:s)", 0), R('f', 99, 0, 0, 34, 0, 9),
    /* steward letters call as any letter does */
    D_AS('t', 1, "(b;)", 0), REFUSED('t', 0, 0, 64, 33), R_AS('t', 1, 99, 0, 0, 0, 0, 7),
    D_AS('s', 1, "(s;)", 0), R_AS('s', 1, 999, 0, 0, 28, 0, 100), R('b', 9, 0, 0, 34, 0, 0),
    D('t', "(b;)", 0), R('t', 9, 0, 0, 34, 0, 1),
    /* the mark of now: open, steward's again, withdrawn */
    D('s', "(;)", 0), R('b', 9, 0, 0, 0, 0, 3), D_AS('s', 1, "(;)", 0), R('b', 9, 0, 0, 34, 0, 0),
    X('s', 0), R('b', 9, 0, 0, 27, 0, 0), R_AS('b', 1, 9, 0, 0, 27, 0, 0), D('s', "(;)", 0),
    R('b', 9, 0, 0, 0, 0, 3),
    /* 34 before 28 */
    D('g', "(0y;'/1'-g;)", 0), D('h', "('/99'g;)", 0), R('h', 999, 0, 0, 27, 0, 399),
    D_AS('y', 1, "(;)", 0), R('h', 399, 0, 0, 20, 0, 399), R('h', 400, 0, 0, 34, 0, 399),
    R_AS('h', 1, 400, 0, 0, 28, 0, 399), D('y', "(;)", 0), R('h', 400, 0, 0, 28, 0, 399),
    D('h', "('/98'g;)", 0), R('h', 999, 0, 0, 0, 0, 497), D_AS('y', 1, "(;)", 0),
    R('h', 999, 0, 0, 34, 0, 395), R_AS('h', 1, 999, 0, 0, 0, 0, 497)};

static void make_call(struct call *call, const struct row *row)
{
    call->kind = row->kind;
    call->letter = row->letter;
    call->mark = call->role = row->as;
    text_clear(&call->text);
    text_add(&call->text, row->text);
    call->allowance = row->allowance;
    call->input_length = row->inputs;
    memcpy(call->input, row_inputs, sizeof row_inputs);
    call->list_length = row->list_length;
    call->output_length = row->output_length;
}

/* From a fresh start. */
static bool follow(struct random *r, const struct row *of, size_t count)
{
    static struct both b;
    static struct call call;
    bool good = fresh(r, &b);
    for (size_t i = 0; i < count && good; i++) {
        const struct row *row = &of[i];
        make_call(&call, row);
        good &= compare(r, &b, &call);
        good &= same("the reference's number", 0, row->number, b.expected.number);
        if (row->kind == RUN) {
            good &= same("the reference's taken", 0, (long long)row->taken,
                         (long long)b.expected.figures[3]);
            good &= same("the reference's steps", 0, (long long)row->steps,
                         (long long)b.expected.figures[1]);
            good = good && hold_role(r, &b, &call);
        }
        if (!good)
            printf("  in row %zu of the directed cases\n", i + 1);
    }
    return good;
}

static bool directed(void)
{
    struct random r;
    random_seed(&r, 1);
    saw(true, NO_MARKS);
    return follow(&r, rows, sizeof rows / sizeof rows[0])
           && follow(&r, rows_of_roles, sizeof rows_of_roles / sizeof rows_of_roles[0]);
}

/* ---- rounds ------------------------------------------------------------ */

/* What the defines and runs of a history are like. */
struct manner {
    bool plain;     /* open letters and cashiers alone */
    bool chained;   /* the letters call each other, from the start */
    uint32_t marks; /* percent of steward letters */
    uint32_t roles; /* percent of stewards */
};

static void choose_manner(struct random *r, struct manner *m)
{
    static const uint32_t percents[] = {5, 15, 30, 60};
    m->plain = chance(r, 25);
    m->chained = !m->plain && chance(r, 60);
    m->marks = percents[below(r, 4)];
    m->roles = percents[below(r, 4)];
    saw(m->plain, NO_MARKS);
}

static uint8_t some_letter(struct random *r)
{
    uint32_t pick = below(r, 100);
    return pick < 92   ? (uint8_t)('a' + below(r, LETTERS))
           : pick < 96 ? (uint8_t)('a' + below(r, REC_LETTERS))
                       : (uint8_t)below(r, 256);
}

/* Often a letter that has a text. */
static uint8_t run_letter(struct random *r, const struct rec_book *book)
{
    uint8_t letter = some_letter(r);
    for (int tries = 0; tries < 4; tries++) {
        if (!is_letter(letter) || book->standing[letter - 'a'])
            break;
        letter = some_letter(r);
    }
    return letter;
}

/* Calls the next letter soon, and perhaps others. */
static void text_of_calls(struct random *r, uint8_t letter, struct text *text)
{
    static const char *const starts[] = {"(", "(", "(''go 'X", "(F1'/1'+S1", "(I", "($2$", "('/7'L"};
    static const char *const ends[] = {";)", ";)", ";)", ")", ":)", "O;)"};
    text_clear(text);
    text_add(text, starts[below(r, 7)]);
    text_byte(text, (uint8_t)('a' + (letter + 1u - 'a') % LETTERS));
    while (chance(r, 40))
        text_byte(text, (uint8_t)('a' + below(r, LETTERS)));
    text_add(text, ends[below(r, 6)]);
}

static void choose_run(struct random *r, struct both *b, struct call *call)
{
    static struct side ended;
    int32_t variables[REC_VARIABLES];
    choose_loan(r, call);
    memcpy(variables, b->book.variables, sizeof variables);
    call->allowance = TRIAL;
    call_book(&b->book, call, &ended);
    memcpy(b->book.variables, variables, sizeof variables);
    call->allowance = suit_allowance(r, &ended, TRIAL);
}

static void choose_define(struct random *r, const struct manner *m, uint8_t letter,
                          struct call *call)
{
    call->kind = DEFINE;
    call->letter = letter;
    call->mark = m->plain ? REC_OPEN : some_mark(r, m->marks);
    if (m->chained && chance(r, 70))
        text_of_calls(r, letter, &call->text);
    else
        text_lively(r, &call->text);
}

static void choose_call(struct random *r, const struct manner *m, struct both *b,
                        struct call *call)
{
    uint32_t pick = below(r, 100);
    if (pick < 60) {
        call->kind = RUN;
        call->letter = run_letter(r, &b->book);
        call->role = m->plain ? REC_CASHIER : some_mark(r, m->roles);
        choose_run(r, b, call);
    } else if (pick < 92) {
        choose_define(r, m, some_letter(r), call);
    } else {
        call->kind = WITHDRAW;
        call->letter = some_letter(r);
    }
}

static bool start(struct random *r, const struct manner *m, struct both *b, struct call *call)
{
    bool good = fresh(r, b);
    for (uint8_t i = 0; i < LETTERS && m->chained && good; i++) {
        choose_define(r, m, (uint8_t)('a' + i), call);
        good = compare(r, b, call);
    }
    return good;
}

static bool round_of(uint64_t seed)
{
    static struct both b;
    static struct call call;
    struct manner manner;
    struct random r;
    random_seed(&r, seed);
    choose_manner(&r, &manner);
    if (!start(&r, &manner, &b, &call))
        return false;
    for (int i = between(&r, 5, 60); i > 0; i--) {
        choose_call(&r, &manner, &b, &call);
        if (!compare(&r, &b, &call))
            return false;
        if (call.kind == RUN && !manner.plain && chance(&r, 8) && !hold_role(&r, &b, &call))
            return false;
    }
    return true;
}

int main(int count, char **words)
{
    static const struct work histories = {ROUNDS, directed, round_of, counts};
    return work(&histories, count, words);
}
