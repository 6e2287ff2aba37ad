/* Compares calls on damaged stores: the reference's store against the engine's.
 * Every figure, list place, output byte, cell, count, mark and variable.
 *
 *     stores [FIRST_SEED [ROUNDS]]      see work.h
 *
 * Built with damage.c, calls.c, engine.c, work.c, texts.c, the reference and librec.a. */
#include <stdio.h>
#include <string.h>

#include "calls.h"
#include "damage.h"
#include "work.h"

enum { ROUNDS = 25000, LETTERS = 6, TRIAL = 20000 };

/* ---- what was met ------------------------------------------------------ */

static struct tally tally;

/* Each number of document 01 but 14, which only a desk line has, and those of U7. */
static const struct must must = {
    {[DEFINE] = {0, 1, 2, 3, 4, 5, 6, 7, 8, 9, 13, 35, MUST_END},
     [WITHDRAW] = {0, 1, 10, 13, MUST_END},
     [RUN] = {0,  1,  10, 11, 12, 13, 20, 21, 22, 23,
              24, 25, 26, 27, 28, 29, 33, 34, 35, MUST_END}}};

/* What the directed cases give. */
static const struct must must_directed = {
    {[DEFINE] = {0, 1, 2, 3, 7, 13, 35, MUST_END},
     [WITHDRAW] = {0, 1, 10, 13, MUST_END},
     [RUN] = {0, 1, 10, 11, 12, 13, 20, 27, 29, 33, 34, 35, MUST_END}}};

/* What marks and roles bring that no list of calls does. */
enum sight {
    MARK_OF_STANDING, MARK_OF_CLEARED, BAD_BEFORE_35, RUN_10_33, RUN_27_34, SIGHTS
};

static const char *const sight_words[SIGHTS] = {
    "13 by the mark of a standing letter", "13 by the mark of a cleared letter", "13 before 35",
    "10 before 33", "27 before 34"};

static unsigned long long sights[SIGHTS];

static void saw(bool seen, enum sight sight)
{
    sights[sight] += seen;
}

static bool sights_met(unsigned long long least)
{
    bool good = true;
    for (size_t i = 0; i < SIGHTS; i++)
        good &= met(sights[i], least, "%s", sight_words[i]);
    return good;
}

/* Each clause of 29 but the first, a due cell outside 2 to used. No run has that:
 * cell 2 is inside, for 13 refuses counts of 1 and 2; a mark's own cells end at
 * used - 2, so the cell after it is inside; a transfer or false outside damages
 * the mark before it is taken. */
static bool clauses_met(unsigned long long least)
{
    bool good = same("runs 29 by a due cell outside", 0, 0,
                     (long long)tally.clauses[REC_CELL_OUTSIDE]);
    for (size_t i = REC_CELL_OUTSIDE + 1; i < REC_CLAUSES; i++)
        good &= met(tally.clauses[i], least, "run: 29 by %s", clause_words[i]);
    return good;
}

static bool counts(bool directed, bool full)
{
    bool good;
    printf("%s: %llu calls\n", directed ? "directed cases" : "rounds", tally.calls);
    if (directed) {
        good = numbers_met(&tally, &must_directed, 5);
        good &= clauses_met(5);
        good &= sights_met(5);
    } else {
        good = numbers_met(&tally, &must, full ? 20 : 0);
        good &= clauses_met(full ? 20 : 0);
        good &= runs_met(&tally, full ? 20 : 0);
        good &= sights_met(full ? 10 : 0);
    }
    memset(&tally, 0, sizeof tally);
    memset(sights, 0, sizeof sights);
    return good;
}

/* ---- one comparison ---------------------------------------------------- */

static bool is_odd(uint8_t mark)
{
    return mark > REC_STEWARD_LETTER;
}

/* 13 is by a mark where the store is as good as any once its marks are. */
static void count_bad_store(const struct rec_store *store, const struct call *call)
{
    static struct rec_store other;
    bool standing = false, cleared = false;
    for (size_t i = 0; i < REC_LETTERS; i++) {
        standing |= is_odd(store->marks[i]) && store->used[i] != 0;
        cleared |= is_odd(store->marks[i]) && store->used[i] == 0;
    }
    other = *store;
    memset(other.marks, REC_OPEN, sizeof other.marks);
    if (rec_store_withdraw(&other, 0) != REC_BAD_STORE) {
        saw(standing, MARK_OF_STANDING);
        saw(cleared, MARK_OF_CLEARED);
    }
    saw((call->kind == DEFINE && is_odd(call->mark)) || (call->kind == RUN && is_odd(call->role)),
        BAD_BEFORE_35);
}

/* What a run's last due mark, or the run, would come to if the cleared letters stood. */
static uint32_t number_if_standing(const struct rec_store *store, const struct call *call,
                                   const struct side *ended)
{
    static struct rec_store other;
    static struct call again;
    static struct side side;
    other = *store;
    for (size_t i = 0; i < REC_LETTERS; i++)
        if (other.used[i] == 0)
            other.used[i] = 3;
    again = *call;
    again.allowance = (uint32_t)ended->figures[1] + 1;
    call_store(&other, &again, &side);
    return side.number;
}

/* Of the store before the call. */
static void count_sights(const struct rec_store *store, const struct call *call,
                         const struct side *ended)
{
    if (ended->number == REC_BAD_STORE)
        count_bad_store(store, call);
    if (ended->number == REC_NOT_STANDING && call->kind == RUN)
        saw(number_if_standing(store, call, ended) == REC_NOT_FOR_CASHIERS, RUN_10_33);
    if (ended->number == REC_NO_TEXT)
        saw(number_if_standing(store, call, ended) == REC_STEWARD_CALL, RUN_27_34);
}

/* Makes the call on both sides. The store is the reference's afterwards, and what
 * the reference gave is in `expected`. */
static bool compare(struct random *r, struct rec_store *store, const struct call *call,
                    struct side *expected)
{
    static struct side got;
    static struct rec_store before, other;
    bool good;
    soil(r, expected);
    got = *expected;
    before = *store;
    other = *store;
    call_store(store, call, expected);
    good = call_engine(&other, call, &got);
    good &= same_sides(expected, &got);
    good &= same_stores(store, &other);
    if (!good) {
        show_call(call);
        show_store(&before);
    }
    count_call(&tally, call, expected);
    count_sights(&before, call, expected);
    return good;
}

/* ---- directed cases ---------------------------------------------------- */

/* A call, and the number that the documents give it. */
static bool expect(struct rec_store *store, const struct call *call, uint32_t number,
                   uint32_t clause)
{
    static struct side side;
    struct random r;
    bool good;
    random_seed(&r, 1);
    good = compare(&r, store, call, &side);
    good &= same("the reference's number", 0, number, side.number);
    if (number == REC_DAMAGED)
        good &= same("the reference's clause of 29", 0, clause, side.clause);
    return good;
}

/* `as`: the mark of a define, the role of a run. */
static void call_words(struct call *call, enum call_kind kind, uint8_t letter, uint8_t as,
                       const char *words)
{
    memset(call, 0, sizeof *call);
    call->kind = kind;
    call->letter = letter;
    call->mark = call->role = as;
    text_add(&call->text, words);
    call->allowance = 1000;
    call->list_length = REC_LIST;
    call->output_length = 100;
}

/* Every call on a store like this one: `bad`, or as good as it was. */
static bool every_call(const struct rec_store *like, bool bad)
{
    static const struct {
        enum call_kind kind;
        uint8_t letter;
        uint8_t as;
        const char *words;
        uint32_t number; /* on a good store in which `a` is open */
    } calls[] = {{DEFINE, 'b', 0, "(;)", 0},  {DEFINE, 'z', 1, "(I;)", 0},
                 {DEFINE, 'b', 1, "(", 7},    {DEFINE, 'a', 2, "(", 35},
                 {DEFINE, 'B', 0, "()", 1},   {DEFINE, '{', 255, "x", 1},
                 {WITHDRAW, 'a', 0, "", 0},   {WITHDRAW, 'z', 0, "", 10},
                 {WITHDRAW, '`', 0, "", 1},   {RUN, 'a', 0, "", 0},
                 {RUN, 'a', 1, "", 0},        {RUN, 'z', 0, "", 10},
                 {RUN, 'z', 255, "", 35},     {RUN, 0, 2, "", 1}};
    static struct rec_store store;
    struct call call;
    bool good = true;
    for (size_t i = 0; i < sizeof calls / sizeof calls[0] && good; i++) {
        uint32_t number = calls[i].number;
        if (!bad && like->used['z' - 'a'] != 0 && number == REC_NOT_STANDING)
            continue;
        if (calls[i].kind == RUN && number == 0 && calls[i].as < like->marks[0])
            number = REC_NOT_FOR_CASHIERS;
        store = *like;
        call_words(&call, calls[i].kind, calls[i].letter, calls[i].as, calls[i].words);
        good &= expect(&store, &call, bad ? REC_BAD_STORE : number, REC_SOUND);
        if (!good || calls[i].kind != RUN)
            continue;
        store = *like; /* 13 comes before 11 and 12, and 11 before 12 */
        call.list_length = 63;
        if (number == 0)
            number = REC_BAD_LIST;
        good &= expect(&store, &call, bad ? REC_BAD_STORE : number, REC_SOUND);
        call.input_length = 1;
        call.input[0] = 1000000000;
        if (number == REC_BAD_LIST)
            number = REC_BAD_INPUT;
        good &= expect(&store, &call, bad ? REC_BAD_STORE : number, REC_SOUND);
    }
    return good;
}

/* Runs of the tables by hand. */
static bool bad_tables(void)
{
    static struct rec_store store;
    struct call call;
    bool good = true;
    for (size_t i = 0; i < hand_table_count && good; i++)
        for (uint8_t letter = 'a'; letter <= 'z' && good; letter = (uint8_t)(letter + 25)) {
            const struct hand_table *table = &hand_tables[i];
            rec_store_fresh(&store);
            memcpy(table_of(&store, (size_t)(letter - 'a')), table->cells, sizeof table->cells);
            store.used[letter - 'a'] = table->used;
            call_words(&call, RUN, letter, REC_CASHIER, "");
            good &= expect(&store, &call, table->clause == REC_SOUND ? 0 : REC_DAMAGED,
                           table->clause);
            call.allowance = 0; /* 29 comes before 20 */
            good &= expect(&store, &call, table->at == 2 ? REC_DAMAGED : REC_SPENT,
                           table->clause);
        }
    return good;
}

/* A letter that stands or not and has either mark, run and called: 10 before 33; 29, 20,
 * 27 and 34 in that order. */
static bool marked_letter(uint8_t letter, uint8_t caller)
{
    static struct rec_store store;
    struct call call;
    bool good = true;
    for (unsigned i = 0; i < 32 && good; i++) {
        bool damaged = i & 1, spent = i & 2, cleared = i & 4, marked = i & 8, steward = i & 16;
        bool barred = marked && !steward;
        rec_store_fresh(&store);
        rec_store_define(&store, caller, REC_OPEN, (const uint8_t[]){'(', letter, ';', ')'}, 4);
        rec_store_define(&store, letter, marked, (const uint8_t *)"(;)", 3);
        if (damaged)
            table_of(&store, (size_t)(caller - 'a'))[2] = 1; /* the call's false */
        if (cleared)
            store.used[letter - 'a'] = 0;
        call_words(&call, RUN, letter, steward, "");
        call.allowance = spent ? 0 : 9;
        good &= expect(&store, &call,
                       cleared  ? REC_NOT_STANDING
                       : barred ? REC_NOT_FOR_CASHIERS
                       : spent  ? REC_SPENT
                                : 0,
                       REC_SOUND);
        call.letter = caller;
        good &= expect(&store, &call,
                       damaged   ? REC_DAMAGED
                       : spent   ? REC_SPENT
                       : cleared ? REC_NO_TEXT
                       : barred  ? REC_STEWARD_CALL
                                 : 0,
                       REC_FALSE_OUTSIDE);
    }
    return good;
}

static bool marked_letters(void)
{
    bool good = true;
    for (uint8_t i = 0; i < REC_LETTERS && good; i++)
        good = marked_letter((uint8_t)('a' + i), (uint8_t)('a' + (i + 7) % REC_LETTERS));
    return good;
}

/* A define and a withdraw of a letter whose table is all damage: every cell goes, and of
 * every letter but that one nothing does. */
static bool whole_tables(void)
{
    static struct rec_store store;
    struct call call;
    bool good = true;
    for (size_t letter = 0; letter < REC_LETTERS && good; letter++) {
        for (size_t i = 0; i < REC_LETTERS * REC_CELLS; i++)
            store.cells[i] = (int32_t)i - 3000;
        for (size_t i = 0; i < REC_LETTERS; i++)
            store.used[i] = i == letter ? 3 : i % 2 ? 0 : 250;
        for (size_t i = 0; i < REC_LETTERS; i++)
            store.marks[i] = (i + letter) % 3 == 0;
        call_words(&call, DEFINE, (uint8_t)('a' + letter), REC_STEWARD_LETTER, "(N)");
        good &= expect(&store, &call, 0, REC_SOUND);
        good &= same("used", 0, 5, (long long)store.used[letter]);
        good &= same("mark", 0, REC_STEWARD_LETTER, store.marks[letter]);
        call_words(&call, DEFINE, (uint8_t)('a' + letter), REC_OPEN, "(N))");
        good &= expect(&store, &call, REC_STRAY_MARK, REC_SOUND);
        call_words(&call, DEFINE, (uint8_t)('a' + letter), REC_OPEN, "(N)");
        text_fill(&call.text, "\n", 254);
        good &= expect(&store, &call, REC_LONG_TEXT, REC_SOUND);
        call_words(&call, WITHDRAW, (uint8_t)('a' + letter), 0, "");
        good &= expect(&store, &call, 0, REC_SOUND);
        good &= same("used", 0, 0, (long long)store.used[letter]);
        good &= same("mark", 0, REC_OPEN, store.marks[letter]);
        good &= expect(&store, &call, REC_NOT_STANDING, REC_SOUND);
    }
    return good;
}

static bool directed(void)
{
    return try_bad_stores(every_call) && bad_tables() && marked_letters() && whole_tables();
}

/* ---- rounds ------------------------------------------------------------ */

static void choose_run(struct random *r, const struct rec_store *store, struct call *call)
{
    static struct rec_store trial;
    static struct side ended;
    choose_loan(r, call);
    trial = *store;
    call->allowance = TRIAL;
    call_store(&trial, call, &ended);
    call->allowance = suit_allowance(r, &ended, TRIAL);
}

static void choose_call(struct random *r, const struct rec_store *store, struct call *call)
{
    uint32_t pick = below(r, 100);
    call->kind = pick < 70 ? RUN : pick < 88 ? DEFINE : WITHDRAW;
    call->letter = chance(r, 96) ? (uint8_t)('a' + below(r, LETTERS)) : (uint8_t)below(r, 256);
    call->mark = some_mark(r, 30);
    call->role = some_mark(r, 45);
    text_clear(&call->text);
    if (call->kind == RUN)
        choose_run(r, store, call);
    if (call->kind == DEFINE)
        text_hard(r, (const uint8_t *)"abcdef", LETTERS, &call->text);
}

static bool round_of(uint64_t seed)
{
    static struct rec_store store;
    static struct side expected;
    static struct call call;
    struct random r;
    random_seed(&r, seed);
    make_store(&r, &store, LETTERS);
    damage_store(&r, &store, LETTERS);
    for (int i = between(&r, 1, 8); i > 0; i--) {
        choose_call(&r, &store, &call);
        if (!compare(&r, &store, &call, &expected))
            return false;
        if (chance(&r, 30))
            damage_once(&r, &store, LETTERS);
    }
    return true;
}

int main(int count, char **words)
{
    static const struct work stores = {ROUNDS, directed, round_of, counts};
    return work(&stores, count, words);
}
