/* U2's reach against two accounts, one over the texts' trees and one over the tables read
 * from their ends; after every run, that only a missing letter lets it end 27. */
#include "reach_accounts.h"

#include <stdio.h>
#include <string.h>

#include "../../differential/work.h"
#include "check.h"
#include "roles_duties.h"
#include "subjects.h"

static const char *const sight_words[SIGHTS] = {
    "nothing but itself", "call of itself", "circle of more letters", "chain of 26",
    "others reached, none missing", "missing letter that it calls", "missing letter further on",
    "standing letter not reached", "cleared letter not reached", "letter in a print only",
    "letter in a comment only", "call's code as a constant only",
    "call's code as a counter's n only", "damage in its own table", "damage in a reached table",
    "damage in no reached table", "changed table read through", "cell 1 changed",
    "cells past the used ones changed", "cells of a cleared letter changed", "13 before 1",
    "13 before 10", "13 before 29", "1 before 29", "10 before 29",
    "13 by the mark of a standing letter", "13 by the mark of a cleared letter",
    "open mark made steward's, or back", "run ended 27", "run not ended 27, a letter missing",
    "run, no letter missing"};

/* Of 29, as enum rec_clause has them. */
static const char *const clause_words[REC_CLAUSES] = {
    "sound", "cell outside", "last cell not 1", "one before the last not 0", "0 earlier",
    "transfer outside", "no code", "mark too long", "false outside", "bad digit", "bad n",
    "bad order", "bad constant", "bad print length", "bad print byte"};

static unsigned long long sights[2][SIGHTS], reaches[2][REC_NUMBERS], clauses[2][REC_CLAUSES];

void sighted(bool seen, enum sight sight)
{
    sights[in_histories][sight] += seen;
}

uint32_t bit(size_t letter)
{
    return (uint32_t)1 << letter;
}

uint32_t letter_bit(int32_t byte)
{
    return byte >= 'a' && byte <= 'z' ? bit((size_t)(byte - 'a')) : 0;
}

static uint32_t letter_bits(const uint8_t *bytes, size_t length)
{
    uint32_t letters = 0;
    while (length-- > 0)
        letters |= letter_bit(*bytes++);
    return letters;
}

/* Warshall's closure. */
static void close_ways(struct ways *w)
{
    memcpy(w->leads, w->calls, sizeof w->leads);
    for (size_t by = 0; by < REC_LETTERS; by++)
        for (size_t from = 0; from < REC_LETTERS; from++)
            if (w->leads[from] & bit(by))
                w->leads[from] |= w->leads[by];
}

/* ---- over the trees ---------------------------------------------------- */

static void walk(struct ways *w, size_t letter, const struct rec_tree *tree, size_t first)
{
    for (size_t s = first; s != REC_NONE; s = tree->segments[s].next)
        for (size_t i = tree->segments[s].first; i != REC_NONE; i = tree->items[i].next) {
            const struct rec_item *item = &tree->items[i];
            if (item->kind == REC_INNER)
                walk(w, letter, tree, item->inner);
            else if (item->kind == REC_CALL)
                w->calls[letter] |= letter_bit(item->mark);
            else if (item->kind == REC_PRINT)
                w->prints[letter] |= letter_bits(tree->text + item->start, item->length);
            else if (item->kind == REC_CONSTANT)
                w->constants[letter] |= letter_bit(-item->value);
            else if (item->kind == REC_COUNTER)
                w->counters[letter] |= letter_bit(item->value);
        }
}

void ways_of_texts(const struct both *b, struct ways *w)
{
    memset(w, 0, sizeof *w);
    for (size_t i = 0; i < REC_LETTERS; i++)
        if (b->book.standing[i]) {
            w->standing |= bit(i);
            w->bytes[i] = letter_bits(b->book.texts[i].text, b->lengths[i]);
            walk(w, i, &b->book.texts[i], b->book.texts[i].outermost);
        }
    close_ways(w);
}

/* ---- over the tables --------------------------------------------------- */

/* The cells after a code: f false, d digit, n and o of a counter, v value, l length
 * and so many bytes. NULL where there is no such code. */
static const char *form_of(int32_t held)
{
    switch (held) {
    case -'A': case -'L': case -'M': case -'P': case -'O': case -'X': case -'I':
    case -'+': case -'-': case -'*': case -'/':
        return "";
    case -'F': case -'S':
        return "d";
    case -'N': case -'0': case -'J':
        return "f";
    case -'$':
        return "nof";
    case -('/' + 128):
        return "v";
    case -('\'' + 128):
        return "l";
    default:
        return held <= -'a' && held >= -'z' ? "f" : NULL;
    }
}

/* One cell that must hold something, of a table with so many cells. */
static enum rec_clause judge_cell(char what, int32_t held, size_t used)
{
    bool inside = held >= 2 && held <= (int32_t)used;
    switch (what) {
    case 't':
        return inside ? REC_SOUND : REC_TRANSFER_OUTSIDE;
    case 'f':
        return inside ? REC_SOUND : REC_FALSE_OUTSIDE;
    case 'd':
        return held >= 1 && held <= 10 ? REC_SOUND : REC_BAD_DIGIT;
    case 'n':
        return held <= -1 && held >= -9999 ? REC_SOUND : REC_BAD_N;
    case 'o':
        return held >= 0 && held <= 15 ? REC_SOUND : REC_BAD_ORDER;
    case 'v':
        return held >= -REC_VALUE && held <= REC_VALUE ? REC_SOUND : REC_BAD_VALUE;
    case 'l':
        return held >= 0 ? REC_SOUND : REC_BAD_LENGTH;
    default:
        return held >= 32 && held <= 126 && held != '\'' ? REC_SOUND : REC_BAD_BYTE;
    }
}

/* The cells after the code at `*at`, one by one; cell n is `table[n]`. */
static enum rec_clause judge_mark(const int32_t *table, size_t used, size_t *at)
{
    const char *form = form_of(table[*at]);
    int32_t bytes = 0;
    if (!form)
        return REC_NO_CODE;
    ++*at;
    while (*form || bytes > 0) {
        char what = *form ? *form++ : 'b';
        enum rec_clause clause;
        if (*at > used - 2)
            return REC_MARK_TOO_LONG;
        clause = judge_cell(what, table[*at], used);
        if (clause != REC_SOUND)
            return clause;
        bytes += what == 'l' ? table[*at] : what == 'b' ? -1 : 0;
        ++*at;
    }
    return REC_SOUND;
}

/* Moves `*at` to the next cell that reading comes to. */
static enum rec_clause judge(const int32_t *table, size_t used, size_t *at)
{
    size_t here = *at;
    if (here < used - 1 && table[here] < 0)
        return judge_mark(table, used, at);
    ++*at;
    if (here == used)
        return table[here] == 1 ? REC_SOUND : REC_LAST_NOT_1;
    if (here == used - 1)
        return table[here] == 0 ? REC_SOUND : REC_LAST_BUT_ONE_NOT_0;
    return table[here] == 0 ? REC_HOLDS_0 : judge_cell('t', table[here], used);
}

/* From the last cell to cell 2: what reading on from each would meet. */
static enum rec_clause read_back(const int32_t *cells, size_t used, uint32_t *calls)
{
    int32_t table[REC_CELLS + 1];
    enum rec_clause meets[REC_CELLS + 2] = {REC_SOUND};
    uint32_t called[REC_CELLS + 2] = {0};
    memcpy(table + 1, cells, REC_CELLS * sizeof cells[0]);
    for (size_t at = used; at >= 2; at--) {
        size_t next = at;
        enum rec_clause clause = judge(table, used, &next);
        meets[at] = clause == REC_SOUND ? meets[next] : clause;
        if (clause == REC_SOUND)
            called[at] = called[next] | letter_bit(-table[at]);
    }
    *calls = called[2];
    return meets[2];
}

void ways_of_tables(const struct rec_store *store, struct ways *w)
{
    memset(w, 0, sizeof *w);
    for (size_t i = 0; i < REC_VARIABLES; i++)
        w->bad |= judge_cell('v', store->variables[i], 0) != REC_SOUND;
    for (size_t i = 0; i < REC_LETTERS; i++)
        w->strange |= is_strange(store->marks[i]) ? bit(i) : 0;
    w->bad |= w->strange != 0;
    for (size_t i = 0; i < REC_LETTERS; i++) {
        enum rec_clause clause;
        if (store->used[i] == 0)
            continue;
        w->standing |= bit(i);
        if (store->used[i] < 3 || store->used[i] > REC_CELLS) {
            w->bad = true;
            continue;
        }
        clause = read_back(store->cells + i * REC_CELLS, store->used[i], &w->calls[i]);
        if (clause == REC_SOUND)
            continue;
        if (w->damaged == 0)
            w->clause = clause;
        w->damaged |= bit(i);
    }
    close_ways(w);
}

/* ---- a reach beside them ----------------------------------------------- */

/* From the last in order to the first, which stays. */
static uint32_t number_of_reach(const struct ways *w, uint8_t letter)
{
    bool known = letter_bit(letter) != 0;
    bool standing = (letter_bit(letter) & w->standing) != 0;
    uint32_t number = w->damaged ? REC_DAMAGED : 0;
    sighted(w->bad && !known, BAD_BEFORE_1);
    sighted(w->bad && known && !standing, BAD_BEFORE_10);
    sighted(w->bad && w->damaged, BAD_BEFORE_29);
    sighted(!w->bad && !known && w->damaged, LETTER_BEFORE_29);
    sighted(!w->bad && known && !standing && w->damaged, STANDING_BEFORE_29);
    sighted(w->strange & w->standing, MARK_OF_STANDING);
    sighted(w->strange & ~w->standing, MARK_OF_CLEARED);
    if (!standing)
        number = REC_NOT_STANDING;
    if (!known)
        number = REC_NO_SUCH_LETTER;
    if (w->bad)
        number = REC_BAD_STORE;
    return number;
}

/* Some letter is 25 calls away, and no fewer. */
static bool is_chain_of_26(const struct ways *w, size_t letter)
{
    uint32_t all = bit(letter), last = all;
    for (int calls = 1; calls < REC_LETTERS; calls++) {
        uint32_t next = 0;
        for (size_t i = 0; i < REC_LETTERS; i++)
            if (last & bit(i))
                next |= w->calls[i];
        last = next & ~all;
        if (last == 0)
            return false;
        all |= last;
    }
    return true;
}

static void sights_of_reach(const struct ways *w, size_t letter, uint32_t reached,
                            uint32_t missing)
{
    uint32_t in_prints = 0, in_comments = 0, in_constants = 0, in_counters = 0;
    bool circle = false;
    for (size_t i = 0; i < REC_LETTERS; i++) {
        if (!(reached & bit(i)))
            continue;
        circle |= i != letter && (w->leads[i] & bit(letter));
        in_prints |= w->prints[i] & ~reached;
        in_comments |= w->bytes[i] & ~w->prints[i] & ~reached;
        in_constants |= w->constants[i] & ~reached;
        in_counters |= w->counters[i] & ~reached;
    }
    sighted(reached == bit(letter), ITSELF_ALONE);
    sighted(w->calls[letter] & bit(letter), SELF_CALL);
    sighted(circle, CIRCLE);
    sighted(is_chain_of_26(w, letter), CHAIN_OF_26);
    sighted(reached != bit(letter) && missing == 0, NONE_MISSING);
    sighted(missing & w->calls[letter], MISSING_NEXT);
    sighted(missing & ~w->calls[letter], MISSING_FAR);
    sighted(w->standing & ~reached, STANDING_APART);
    sighted(~w->standing & ~reached & (bit(REC_LETTERS) - 1), CLEARED_APART);
    sighted(in_prints, LETTER_IN_PRINT);
    sighted(in_comments, LETTER_IN_COMMENT);
    sighted(in_constants, CODE_IN_CONSTANT);
    sighted(in_counters, CODE_IN_COUNTER);
}

static void sights_of_damage(const struct ways *w, size_t letter)
{
    clauses[in_histories][w->clause]++;
    sighted(w->damaged & bit(letter), DAMAGE_IN_ITSELF);
    sighted(w->damaged & ~bit(letter) & w->leads[letter], DAMAGE_REACHED);
    sighted(!(w->damaged & (bit(letter) | w->leads[letter])), DAMAGE_APART);
}

const struct marks *soiled_marks(void)
{
    static struct marks soiled;
    if (soiled.reached[0] == 0)
        for (size_t i = 0; i < REC_LETTERS + GUARD; i++) {
            soiled.reached[i] = (uint8_t)(2 + i * 37 % 251);
            soiled.missing[i] = (uint8_t)(2 + i * 53 % 251);
        }
    return &soiled;
}

static void expected_marks(const struct ways *w, size_t letter, struct marks *marks)
{
    uint32_t reached = bit(letter) | w->leads[letter];
    uint32_t missing = reached & ~w->standing;
    for (size_t i = 0; i < REC_LETTERS; i++) {
        marks->reached[i] = reached >> i & 1;
        marks->missing[i] = missing >> i & 1;
    }
    sights_of_reach(w, letter, reached, missing);
}

uint32_t compare_reach(const struct rec_store *store, const struct ways *w, uint8_t letter,
                       const char *what)
{
    struct marks marks = *soiled_marks(), expected = marks;
    uint32_t due = number_of_reach(w, letter);
    uint32_t number = rec_store_reach(store, letter, marks.reached, marks.missing);
    if (due == 0)
        expected_marks(w, (size_t)(letter - 'a'), &expected);
    if (due == REC_DAMAGED)
        sights_of_damage(w, (size_t)(letter - 'a'));
    if (check(number == due, "numbers of a reach differ", what))
        reaches[in_histories][number]++;
    else if (wrong <= SHOWN)
        printf("  %u and %u, letter %u\n", (unsigned)number, (unsigned)due, letter);
    if (!check(memcmp(&marks, &expected, sizeof marks) == 0, "marks of a reach", what)
        && wrong <= SHOWN)
        printf("  letter %u\n", letter);
    return number;
}

void expect_number(const struct rec_store *store, uint8_t letter, uint32_t number,
                   const char *what)
{
    struct ways w;
    ways_of_tables(store, &w);
    check(compare_reach(store, &w, letter, what) == number, "number of a reach", what);
}

/* What U2 says of a run on a store made by calls. 35 comes before the 10 that reach may
 * have. Some standing letter that is reached must be a steward's for 34 (U7). */
void check_reach_of_run(const struct rec_store *store, uint8_t letter, uint8_t role,
                        const struct rec_answer *a)
{
    struct marks marks = *soiled_marks();
    uint32_t number = rec_store_reach(store, letter, marks.reached, marks.missing);
    bool lacks = number == 0 && memchr(marks.missing, 1, REC_LETTERS) != NULL;
    bool refused = a->number == REC_NO_SUCH_LETTER || a->number == REC_NOT_STANDING;
    bool ran = !is_refusal(a->number), barred = false;
    for (size_t i = 0; number == 0 && i < REC_LETTERS; i++)
        barred |= marks.reached[i] && !marks.missing[i] && store->marks[i] == FOR_STEWARDS;
    check(number == (refused ? a->number : 0) || a->number == 35,
          "refusals of run and reach differ", "");
    check(a->number != REC_NO_TEXT || lacks, "run ended 27, no letter missing", "");
    check(a->number != 34 || barred, "run ended 34, no steward letter reached", "");
    on_duty(ran && role == CASHIER && barred && a->number != 34, NO_STOP);
    sighted(a->number == REC_NO_TEXT, RUN_ENDED_27);
    sighted(ran && a->number != REC_NO_TEXT && lacks, RUN_WITH_MISSING);
    sighted(ran && !lacks, RUN_NONE_MISSING);
}

/* ---- what must have been met ------------------------------------------- */

/* Each number of a reach, each clause of 29 but a due cell outside the table, which
 * reading never comes to, and each sight. */
bool counts_of_reaches(bool of_histories, unsigned least)
{
    bool good = true;
    for (uint32_t i = 0; i < REC_NUMBERS; i++) {
        if (i == 0 || i == REC_NO_SUCH_LETTER || i == REC_NOT_STANDING || i == REC_BAD_STORE
            || i == REC_DAMAGED)
            good &= met(reaches[of_histories][i], least, "reach: number %u (%s)", (unsigned)i,
                        number_word(i));
        else
            good &= check(reaches[of_histories][i] == 0, "a number that no reach has",
                          number_word(i));
    }
    for (size_t i = REC_LAST_NOT_1; i < REC_CLAUSES; i++)
        good &= met(clauses[of_histories][i], least, "reach: %s", clause_words[i]);
    for (size_t i = 0; i < SIGHTS; i++)
        good &= met(sights[of_histories][i], least, "reach: %s", sight_words[i]);
    return good;
}
