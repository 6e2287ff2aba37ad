/* U2's reach against the accounts of reach_accounts.h: by hand, and on random stores made
 * by texts or damaged. */
#include <string.h>

#include "../../differential/texts.h"
#include "check.h"
#include "random.h"
#include "reach_accounts.h"
#include "roles_duties.h"
#include "runs.h"
#include "subjects.h"

/* ---- by hand ----------------------------------------------------------- */

static void mark_letters(uint8_t *marks, const char *letters)
{
    memset(marks, 0, REC_LETTERS);
    while (*letters)
        marks[*letters++ - 'a'] = 1;
}

/* The letters reached, and those of them without a text. */
static void expect_reach(const struct both *b, char letter, const char *reached,
                         const char *missing)
{
    struct marks marks = *soiled_marks(), expected = marks;
    struct ways w;
    mark_letters(expected.reached, reached);
    mark_letters(expected.missing, missing);
    check(rec_store_reach(&b->store, (uint8_t)letter, marks.reached, marks.missing) == 0
              && memcmp(&marks, &expected, sizeof marks) == 0, "reach", reached);
    ways_of_texts(b, &w);
    compare_reach(&b->store, &w, (uint8_t)letter, reached);
    ways_of_tables(&b->store, &w);
    compare_reach(&b->store, &w, (uint8_t)letter, reached);
}

/* One text, of letter `q`; the others are cleared. */
static void expect_calls(const char *text, const char *reached, const char *missing)
{
    static struct both b;
    both_fresh(&b);
    check(define_text(&b, 'q', text) == 0, "define", text);
    expect_reach(&b, 'q', reached, missing);
}

static void reach_of_texts(void)
{
    expect_calls("()", "q", "");
    expect_calls("(q;)", "q", "");
    expect_calls("(a;)", "qa", "a");
    expect_calls("(az)", "qaz", "az");
    expect_calls("(aaqa)", "qa", "a");
    /* marks that no run comes to */
    expect_calls("(;a)", "qa", "a");
    expect_calls("(:a)", "qa", "a");
    expect_calls("(b:c;d)", "qbcd", "bcd");
    expect_calls("(X;(:(;a)b)c)", "qabc", "abc");
    expect_calls("((((((((((k)l)m)n)o)p)r)s)t)u)", "qklmnoprstu", "klmnoprstu");
    /* no marks */
    expect_calls("(''abc')", "q", "");
    expect_calls("(''')", "q", "");
    expect_calls("(''ab'c''de'f)", "qcf", "cf");
    expect_calls("(\"abc\")\"d\"", "q", "");
    expect_calls("\"a(b)c\"(\"d\"e\"f\")", "qe", "e");
    expect_calls("('/-97''/97''/-122''/122')", "q", "");
    expect_calls("('/-97'b'/-99')", "qb", "b");
    expect_calls("('/-167''/-175''/-36'a)", "qa", "a");
    expect_calls("($97$$122$)", "q", "");
    expect_calls("($97$b$99$)", "qb", "b");
    expect_calls("(F1S0ALMPOXI+-*/N0J)", "q", "");
    expect_calls("(F1aS0bN'/1'c$5$d''x'eX)", "qabcde", "abcde");
}

static void reach_of_chains(void)
{
    static const char *const orders[] = {
        "abcdefghijklmnopqrstuvwxyz", "zyxwvutsrqponmlkjihgfedcba", "azbycxdwevfugthsirjqkplomn",
        "mnlokpjqirhsgtfuevdwcxbyaz"};
    static struct both b;
    for (size_t i = 0; i < 4; i++) {
        const char *order = orders[i];
        chain_of(&b, order, ' ');
        for (size_t j = 0; j < REC_LETTERS; j++)
            expect_reach(&b, order[j], order + j, "");
        chain_of(&b, order, order[25]);
        expect_reach(&b, order[0], order, "");
        expect_reach(&b, order[25], order + 25, "");
        chain_of(&b, order, order[0]);
        for (size_t j = 0; j < REC_LETTERS; j++)
            expect_reach(&b, order[j], order, "");
        both_withdraw(&b, (uint8_t)order[25]);
        expect_reach(&b, order[0], order, order + 25);
        expect_number(&b.store, (uint8_t)order[25], REC_NOT_STANDING, "end of a chain");
    }
}

static void reach_of_histories(void)
{
    static struct both b;
    both_fresh(&b);
    define_text(&b, 'd', "(0L'/1';'/1'-d'/2'*;)");
    define_text(&b, 'm', "(Id;)");
    expect_reach(&b, 'm', "md", "");
    expect_reach(&b, 'd', "d", "");
    both_withdraw(&b, 'd');
    expect_reach(&b, 'm', "md", "d");
    expect_number(&b.store, 'd', REC_NOT_STANDING, "withdrawn");
    /* a cleared letter leads no further; a replaced one leads as it stands */
    define_text(&b, 'd', "(e;f)");
    define_text(&b, 'e', "(m;g)");
    expect_reach(&b, 'm', "mdefg", "fg");
    expect_reach(&b, 'e', "mdefg", "fg");
    both_withdraw(&b, 'd');
    expect_reach(&b, 'm', "md", "d");
    expect_reach(&b, 'e', "emdg", "dg");
    define_text(&b, 'd', "(d;)");
    expect_reach(&b, 'm', "md", "");
    check(define_text(&b, 'd', "(w") == REC_UNFINISHED, "refused define", "reach");
    expect_reach(&b, 'm', "md", "");
    /* missing, though no run comes to it */
    define_text(&b, 'm', "(;w)");
    expect_reach(&b, 'm', "mw", "w");
    expect_run(&b, 'm', 9, "", 0, true, 1, 0, 0, "call past the end");
}

/* Table of letter `d`, which `c` calls and `b` does not, and its clause of 29. */
static void expect_reading(const char *cells, size_t used, uint32_t clause)
{
    static struct rec_store store;
    struct ways w;
    rec_store_fresh(&store);
    rec_store_define(&store, 'b', OPEN, (const uint8_t *)"(b;x)", 5);
    rec_store_define(&store, 'c', OPEN, (const uint8_t *)"(y;d)", 5);
    put_cells(store.cells + 3 * REC_CELLS, cells);
    store.used[3] = used;
    ways_of_tables(&store, &w);
    check(w.clause == clause, "clause", cells);
    for (uint8_t letter = 'b'; letter <= 'd'; letter++)
        expect_number(&store, letter, clause == REC_SOUND ? 0 : REC_DAMAGED, cells);
    expect_number(&store, 'e', REC_NOT_STANDING, cells);
    expect_number(&store, '{', REC_NO_SUCH_LETTER, cells);
    expect_number(&store, '`', REC_NO_SUCH_LETTER, cells);
    sighted(clause == REC_SOUND, CHANGED_AND_SOUND);
    store.variables[0] = -REC_VALUE - 1;
    expect_number(&store, 'b', REC_BAD_STORE, cells);
    expect_number(&store, 'e', REC_BAD_STORE, cells);
    expect_number(&store, '{', REC_BAD_STORE, cells);
}

struct reading {
    const char *cells;
    size_t used;
    uint32_t clause;
};

static const struct reading readings[] = {
    {"2000,0,1", 3, REC_SOUND}, {"7,0,1", 3, REC_SOUND}, {"-66,0,1", 3, REC_SOUND},
    {"2000,0,1,-66,0,9", 3, REC_SOUND}, {"2000,0,1,-97", 3, REC_SOUND},
    {"2000,0,0", 3, REC_LAST_NOT_1}, {"2000,0,2", 3, REC_LAST_NOT_1},
    {"2000,0,-97", 3, REC_LAST_NOT_1}, {"2000,2,0,-1", 4, REC_LAST_NOT_1},
    {"2000,1,1", 3, REC_LAST_BUT_ONE_NOT_0}, {"2000,-88,1", 3, REC_LAST_BUT_ONE_NOT_0},
    {"2000,2,1", 3, REC_LAST_BUT_ONE_NOT_0}, {"2000,-88,2,1", 4, REC_LAST_BUT_ONE_NOT_0},
    {"2000,0,0,1", 4, REC_HOLDS_0}, {"2000,-88,0,0,1", 5, REC_HOLDS_0},
    {"2000,1,0,1", 4, REC_TRANSFER_OUTSIDE}, {"2000,5,0,1", 4, REC_TRANSFER_OUTSIDE},
    {"2000,2000,0,1", 4, REC_TRANSFER_OUTSIDE}, {"2000,2147483647,0,1", 4, REC_TRANSFER_OUTSIDE},
    {"2000,2,0,1", 4, REC_SOUND}, {"2000,3,0,1", 4, REC_SOUND}, {"2000,4,0,1", 4, REC_SOUND},
    {"2000,-1,0,1", 4, REC_NO_CODE}, {"2000,-66,0,1", 4, REC_NO_CODE},
    {"2000,-96,4,0,1", 5, REC_NO_CODE}, {"2000,-123,4,0,1", 5, REC_NO_CODE},
    {"2000,-40,0,1", 4, REC_NO_CODE}, {"2000,-41,0,1", 4, REC_NO_CODE},
    {"2000,-58,0,1", 4, REC_NO_CODE}, {"2000,-59,0,1", 4, REC_NO_CODE},
    {"2000,-39,0,1", 4, REC_NO_CODE}, {"2000,-34,0,1", 4, REC_NO_CODE},
    {"2000,-329,0,1", 4, REC_NO_CODE}, {"2000,-353,5,0,1", 5, REC_NO_CODE},
    {"2000,-2147483648,0,1", 4, REC_NO_CODE}, {"2000,-88,0,1", 4, REC_SOUND},
    {"2000,-47,0,1", 4, REC_SOUND}, {"2000,-97,2,0,1", 5, REC_SOUND},
    {"2000,-122,5,0,1", 5, REC_SOUND},
    {"2000,-97,0,1", 4, REC_MARK_TOO_LONG}, {"2000,-78,0,1", 4, REC_MARK_TOO_LONG},
    {"2000,-70,0,1", 4, REC_MARK_TOO_LONG}, {"2000,-175,0,1", 4, REC_MARK_TOO_LONG},
    {"2000,-167,0,1", 4, REC_MARK_TOO_LONG}, {"2000,-36,-1,0,0,1", 6, REC_MARK_TOO_LONG},
    {"2000,-36,-1,0,1", 5, REC_MARK_TOO_LONG}, {"2000,-167,1,0,1", 5, REC_MARK_TOO_LONG},
    {"2000,-167,2,97,0,1", 6, REC_MARK_TOO_LONG},
    {"2000,-167,2147483647,0,1", 5, REC_MARK_TOO_LONG},
    {"2000,-78,0,0,1", 5, REC_FALSE_OUTSIDE}, {"2000,-78,1,0,1", 5, REC_FALSE_OUTSIDE},
    {"2000,-78,6,0,1", 5, REC_FALSE_OUTSIDE}, {"2000,-78,-97,0,1", 5, REC_FALSE_OUTSIDE},
    {"2000,-97,1,0,1", 5, REC_FALSE_OUTSIDE}, {"2000,-97,6,0,1", 5, REC_FALSE_OUTSIDE},
    {"2000,-36,-1,0,1,0,1", 7, REC_FALSE_OUTSIDE}, {"2000,-36,-1,0,8,0,1", 7, REC_FALSE_OUTSIDE},
    {"2000,-78,2,0,1", 5, REC_SOUND}, {"2000,-78,5,0,1", 5, REC_SOUND},
    {"2000,-70,0,0,1", 5, REC_BAD_DIGIT}, {"2000,-70,11,0,1", 5, REC_BAD_DIGIT},
    {"2000,-83,-97,0,1", 5, REC_BAD_DIGIT}, {"2000,-70,1,0,1", 5, REC_SOUND},
    {"2000,-83,10,0,1", 5, REC_SOUND},
    {"2000,-36,0,0,7,0,1", 7, REC_BAD_N}, {"2000,-36,1,0,7,0,1", 7, REC_BAD_N},
    {"2000,-36,-10000,0,7,0,1", 7, REC_BAD_N}, {"2000,-36,-2147483648,0,7,0,1", 7, REC_BAD_N},
    {"2000,-36,-9999,0,7,0,1", 7, REC_SOUND}, {"2000,-36,-97,0,7,0,1", 7, REC_SOUND},
    {"2000,-36,-1,-1,7,0,1", 7, REC_BAD_ORDER}, {"2000,-36,-1,16,7,0,1", 7, REC_BAD_ORDER},
    {"2000,-36,-1,-97,7,0,1", 7, REC_BAD_ORDER}, {"2000,-36,-1,15,2,0,1", 7, REC_SOUND},
    {"2000,-175,1000000000,0,1", 5, REC_BAD_VALUE}, {"2000,-175,999999999,0,1", 5, REC_SOUND},
    {"2000,-175,-1000000000,0,1", 5, REC_BAD_VALUE}, {"2000,-175,-999999999,0,1", 5, REC_SOUND},
    {"2000,-175,-2147483648,0,1", 5, REC_BAD_VALUE}, {"2000,-175,-97,0,1", 5, REC_SOUND},
    {"2000,-167,-1,0,1", 5, REC_BAD_LENGTH}, {"2000,-167,-97,0,1", 5, REC_BAD_LENGTH},
    {"2000,-167,-2147483648,0,1", 5, REC_BAD_LENGTH}, {"2000,-167,0,0,1", 5, REC_SOUND},
    {"2000,-167,1,31,0,1", 6, REC_BAD_BYTE}, {"2000,-167,1,127,0,1", 6, REC_BAD_BYTE},
    {"2000,-167,1,39,0,1", 6, REC_BAD_BYTE}, {"2000,-167,1,10,0,1", 6, REC_BAD_BYTE},
    {"2000,-167,1,-97,0,1", 6, REC_BAD_BYTE}, {"2000,-167,1,353,0,1", 6, REC_BAD_BYTE},
    {"2000,-167,2,97,31,0,1", 7, REC_BAD_BYTE}, {"2000,-167,2,32,126,0,1", 7, REC_SOUND},
    /* a second mark, after each kind of first */
    {"2000,-88,-66,0,1", 5, REC_NO_CODE}, {"2000,-70,3,-66,0,1", 6, REC_NO_CODE},
    {"2000,-97,3,-66,0,1", 6, REC_NO_CODE}, {"2000,-36,-1,0,3,-66,0,1", 8, REC_NO_CODE},
    {"2000,-175,3,-66,0,1", 6, REC_NO_CODE}, {"2000,-167,0,-66,0,1", 6, REC_NO_CODE},
    {"2000,-167,2,97,98,-66,0,1", 8, REC_NO_CODE}, {"2000,3,-66,0,1", 5, REC_NO_CODE},
    /* cells that no run comes to */
    {"2000,5,-66,0,1", 5, REC_NO_CODE}, {"2000,6,-78,9,0,1", 6, REC_FALSE_OUTSIDE},
    {"2000,2,-78,9,0,1", 6, REC_FALSE_OUTSIDE}, {"2000,2,0,2", 4, REC_LAST_NOT_1},
    /* transfers and falses into a mark are not followed */
    {"2000,-36,-2,0,8,3,0,1", 8, REC_SOUND}, {"2000,4,-175,-119,7,0,1", 7, REC_SOUND},
    {"2000,-78,3,0,1", 5, REC_SOUND},
};

/* Damage in each letter in turn, and changes that are none: `a` to `m` are a chain. */
static void damage_of_each_letter(void)
{
    static struct both b;
    static struct rec_store kept;
    chain_of(&b, "abcdefghijklm", 'm');
    for (char letter = 'n'; letter <= 'z'; letter++)
        define_text(&b, letter, "(X;)");
    kept = b.store;
    for (size_t i = 0; i < REC_LETTERS; i++) {
        int32_t *cells = b.store.cells + i * REC_CELLS;
        cells[1] = -66;
        for (uint8_t letter = 'a'; letter <= 'z'; letter++)
            expect_number(&b.store, letter, REC_DAMAGED, "one damaged table");
        b.store = kept;
        cells[0] = -'y';
        for (size_t j = b.store.used[i]; j < REC_CELLS; j++)
            cells[j] = j % 2 ? -66 : -'y';
        expect_reach(&b, 'a', "abcdefghijklm", "");
        expect_reach(&b, 'z', "z", "");
        sighted(true, CELL_1_CHANGED);
        sighted(true, UNUSED_CHANGED);
        b.store = kept;
    }
}

/* A cleared letter's cells are not read, whatever they hold. */
static void cells_of_cleared_letters(void)
{
    static const char *const cells[] = {"2000,-122,5,0,1", "2000,-66,9,9,9,9", "1,-97,1",
                                        "-1,-1,-1,-1,-1,-1,-1"};
    static struct both b;
    both_fresh(&b);
    define_text(&b, 'a', "(c;b)");
    define_text(&b, 'b', "(a;)");
    for (size_t i = 0; i < 4; i++) {
        put_cells(b.store.cells + 2 * REC_CELLS, cells[i]);
        put_cells(b.store.cells + 25 * REC_CELLS, cells[i]);
        expect_reach(&b, 'a', "abc", "c");
        expect_reach(&b, 'b', "abc", "c");
        expect_number(&b.store, 'c', REC_NOT_STANDING, "cells of a cleared letter");
        sighted(true, CLEARED_CHANGED);
    }
}

static void expect_bad_store(const struct rec_store *store, const char *what)
{
    expect_number(store, 'a', REC_BAD_STORE, what);
    expect_number(store, 'b', REC_BAD_STORE, what);
    expect_number(store, 'A', REC_BAD_STORE, what);
}

/* `a` stands. Used counts, marks and variables in turn, then all other letters. */
static void refusals_of_reach(void)
{
    static const size_t used[] = {1, 2, 251, 65536 + 3, SIZE_MAX};
    static const uint8_t marks[] = {2, 3, 128, 254, 255};
    static const int32_t values[] = {REC_VALUE + 1, -REC_VALUE - 1, INT32_MAX, INT32_MIN};
    static struct both b;
    both_fresh(&b);
    define_text(&b, 'a', "(z;a)");
    for (size_t i = 0; i < REC_LETTERS; i++)
        for (size_t j = 0; j < 5; j++) {
            size_t kept = b.store.used[i];
            b.store.used[i] = used[j];
            expect_bad_store(&b.store, "used count");
            b.store.used[i] = kept;
            b.store.marks[i] = marks[j];
            expect_bad_store(&b.store, "mark");
            b.store.marks[i] = FOR_STEWARDS;
            expect_reach(&b, 'a', "az", "z");
            b.store.marks[i] = OPEN;
            sighted(true, MARK_TURNED);
        }
    for (size_t i = 0; i < REC_VARIABLES; i++) {
        for (size_t j = 0; j < 4; j++) {
            b.store.variables[i] = values[j];
            expect_bad_store(&b.store, "variable");
        }
        b.store.variables[i] = i % 2 ? REC_VALUE : -REC_VALUE;
        expect_reach(&b, 'a', "az", "z");
    }
    for (int letter = 0; letter < 256; letter++)
        if (letter != 'a')
            expect_number(&b.store, (uint8_t)letter,
                          letter_bit(letter) ? REC_NOT_STANDING : REC_NO_SUCH_LETTER, "letter");
}

/* Tables of 250 cells: a call in the last mark, and damage there. */
static void reach_of_full_tables(void)
{
    static struct both b;
    int32_t *last = b.store.cells + REC_LETTERS * REC_CELLS - 1;
    struct text text;
    text_clear(&text);
    text_add(&text, "(X");
    text_fill(&text, "a", 122);
    text_add(&text, "z)");
    both_fresh(&b);
    for (uint8_t letter = 'a'; letter <= 'z'; letter++)
        both_define(&b, letter, text.bytes, text.length);
    check(b.store.used[25] == REC_CELLS, "used count of a full table", "reach");
    expect_reach(&b, 'm', "amz", "");
    last[-2] = 251;
    expect_number(&b.store, 'm', REC_DAMAGED, "false of the last mark");
    last[-2] = 250;
    last[0] = 2;
    expect_number(&b.store, 'm', REC_DAMAGED, "last cell");
}

/* What U2 says of 27 needs a store made by calls: here a transfer leads into a constant. */
static void reach_of_hidden_call(void)
{
    static struct rec_store store;
    struct marks marks = *soiled_marks();
    int32_t list[REC_LIST];
    struct rec_loan loan = {NULL, 0, list, REC_LIST, NULL, 0};
    rec_store_fresh(&store);
    put_cells(store.cells, "2000,4,-175,-119,7,0,1");
    store.used[0] = 7;
    check(store_run(&store, 'a', 9, &loan).number == REC_NO_TEXT, "run of a hidden call", "");
    check(rec_store_reach(&store, 'a', marks.reached, marks.missing) == 0
              && marks.reached[0] == 1 && marks.reached['w' - 'a'] == 0
              && memchr(marks.missing, 1, REC_LETTERS) == NULL, "reach of a hidden call", "");
}

void reach_by_hand(void)
{
    reach_of_texts();
    reach_of_chains();
    reach_of_histories();
    for (size_t i = 0; i < sizeof readings / sizeof readings[0]; i++)
        expect_reading(readings[i].cells, readings[i].used, readings[i].clause);
    damage_of_each_letter();
    cells_of_cleared_letters();
    refusals_of_reach();
    reach_of_full_tables();
    reach_of_hidden_call();
}

/* ---- random ------------------------------------------------------------ */

/* About 250 cells, the last mark a call. */
static void text_full_of_calls(struct random *r, struct text *text)
{
    text_clear(text);
    text_add(text, "(");
    text_cells(r, text, (size_t)between(r, 241, 245));
    text_byte(text, any_letter(r));
    text_add(text, ")");
}

static void shuffled_letters(struct random *r, uint8_t letters[REC_LETTERS])
{
    for (size_t i = 0; i < REC_LETTERS; i++) {
        size_t place = below(r, (uint32_t)i + 1);
        letters[i] = letters[place];
        letters[place] = (uint8_t)('a' + i);
    }
}

/* Of all letters or fewer, with calls back at times; the last calls some letter, or none. */
static void define_chain(struct random *r, struct both *b)
{
    uint8_t letters[REC_LETTERS];
    size_t length = chance(r, 70) ? REC_LETTERS : (size_t)between(r, 1, REC_LETTERS);
    struct text text;
    shuffled_letters(r, letters);
    for (size_t i = 0; i < length; i++) {
        bool last = i + 1 == length;
        uint8_t calls[] = {last ? any_letter(r) : letters[i + 1],
                           letters[below(r, (uint32_t)i + 1)]};
        text_of_calls(r, calls, last && chance(r, 50) ? 0 : chance(r, 90) ? 1 : 2, &text);
        both_define_as(b, letters[i], chance(r, 20), text.bytes, text.length);
    }
}

/* Calls of any letters, few or more, from most letters or few. */
static void define_net(struct random *r, struct both *b)
{
    uint32_t standing = (uint32_t)between(r, 30, 100);
    int most = chance(r, 80) ? between(r, 0, 3) : 8;
    struct text text;
    for (uint8_t letter = 'a'; letter <= 'z'; letter++) {
        uint8_t calls[8];
        for (size_t i = 0; i < 8; i++)
            calls[i] = chance(r, 5) ? letter : any_letter(r);
        if (!chance(r, standing))
            continue;
        if (chance(r, 20)) {
            struct taste taste = random_taste(r, calls, 3);
            taste.size = 60;
            taste.calls = 20;
            text_random(r, &taste, &text);
        } else if (chance(r, 5)) {
            text_full_of_calls(r, &text);
        } else {
            text_of_calls(r, calls, (size_t)between(r, 0, most), &text);
        }
        both_define_as(b, letter, chance(r, 20), text.bytes, text.length);
    }
}

static uint8_t random_letter(struct random *r)
{
    return chance(r, 97) ? any_letter(r) : (uint8_t)below(r, 256);
}

static void reach_after_call(struct random *r, struct both *b)
{
    static const int32_t input[] = {3, 0, -1};
    uint8_t letter = random_letter(r);
    uint8_t calls[] = {any_letter(r), any_letter(r)};
    struct text text;
    struct ways w;
    switch (below(r, 4)) {
    case 0:
        text_of_calls(r, calls, below(r, 3), &text);
        both_define_as(b, letter, random_mark(r), text.bytes, text.length);
        break;
    case 1:
        both_withdraw(b, letter);
        break;
    default:
        both_run_as(b, letter, random_mark(r), below(r, 300), input, 3, REC_LIST, 100);
        break;
    }
    ways_of_texts(b, &w);
    compare_reach(&b->store, &w, letter, "after a call");
    compare_reach(&b->store, &w, random_letter(r), "after a call");
}

/* Changes what no reading comes to: the reach stays that of the texts. */
static void reach_past_changes(struct random *r, const struct both *b, struct rec_store *store)
{
    struct ways w;
    *store = b->store;
    for (int i = between(r, 1, 8); i > 0; i--) {
        size_t letter = below(r, REC_LETTERS), other = below(r, REC_LETTERS);
        size_t used = store->used[letter];
        int32_t *cells = store->cells + letter * REC_CELLS;
        if (chance(r, 20)) {
            store->marks[letter] ^= 1;
            sighted(true, MARK_TURNED);
        } else if (used == 0) {
            memcpy(cells, store->cells + other * REC_CELLS, REC_CELLS * sizeof cells[0]);
            cells[1] = chance(r, 50) ? cells[1] : -66;
            sighted(store->used[other] != 0, CLEARED_CHANGED);
        } else if (used == REC_CELLS || chance(r, 30)) {
            cells[0] = -any_letter(r);
            sighted(true, CELL_1_CHANGED);
        } else {
            cells[used] = -66;
            cells[between(r, (int32_t)used, REC_CELLS - 1)] = -any_letter(r);
            sighted(true, UNUSED_CHANGED);
        }
    }
    ways_of_texts(b, &w);
    for (int i = 0; i < 3; i++)
        compare_reach(store, &w, random_letter(r), "changes that are not read");
}

static void reach_of_spoilt(struct random *r, const struct both *b, struct rec_store *store)
{
    struct ways w;
    bool changed;
    *store = b->store;
    for (int i = between(r, 1, 3); i > 0; i--)
        spoil_store(r, store);
    changed = memcmp(store->cells, b->store.cells, sizeof store->cells) != 0;
    ways_of_tables(store, &w);
    for (int i = 0; i < 3; i++)
        sighted(compare_reach(store, &w, random_letter(r), "spoilt store") == 0 && changed,
                CHANGED_AND_SOUND);
}

void random_reaches(uint64_t seed)
{
    static struct both b;
    static struct rec_store store;
    struct random r;
    struct ways texts, tables;
    random_seed(&r, ~seed);
    both_fresh(&b);
    if (chance(&r, 30))
        define_chain(&r, &b);
    else
        define_net(&r, &b);
    ways_of_texts(&b, &texts);
    ways_of_tables(&b.store, &tables);
    check(memcmp(texts.calls, tables.calls, sizeof texts.calls) == 0
              && texts.standing == tables.standing && tables.damaged == 0 && !tables.bad,
          "calls of texts and tables differ", "");
    for (uint8_t letter = 'a' - 1; letter <= 'z' + 1; letter++)
        compare_reach(&b.store, &texts, letter, "random texts");
    for (int i = 0; i < 6; i++)
        reach_after_call(&r, &b);
    reach_past_changes(&r, &b, &store);
    for (int i = 0; i < 6; i++)
        reach_of_spoilt(&r, &b, &store);
}
