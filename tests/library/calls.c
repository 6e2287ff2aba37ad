/* Calls through rec.h: that each function of the header hands on what it is passed, nulls with length 0, and that a refused call changes nothing. */
#include <rec.h>
#include <string.h>
#include "holds.h"

enum { PAPER = 40, MARK = 0x55, ALLOWANCE = 1000 };

/* What a call may write, with a guard on either side. */
static struct {
    uint64_t guard_a;
    rec_store store;
    uint64_t guard_b;
    int32_t list[REC_LIST];
    uint64_t guard_c;
    uint8_t paper[PAPER];
    uint64_t guard_d;
    rec_report report;
    uint64_t guard_e;
    uint8_t reached[REC_LETTERS];
    uint64_t guard_f;
    uint8_t missing[REC_LETTERS];
    uint64_t guard_g;
    rec_dividend_report payout;
    uint64_t guard_h;
} lent;

static const uint64_t guard = 0x5a5aa5a53c3cc3c3;

static rec_store before; /* a store that a call must leave as it is */

static void set_guards(void) {
    lent.guard_a = lent.guard_b = lent.guard_c = lent.guard_d = lent.guard_e = lent.guard_f = lent.guard_g = lent.guard_h = guard;
}

static int guarded(void) {
    return lent.guard_a == guard && lent.guard_b == guard && lent.guard_c == guard && lent.guard_d == guard && lent.guard_e == guard &&
           lent.guard_f == guard && lent.guard_g == guard && lent.guard_h == guard;
}

static int32_t define_as(char letter, uint8_t mark, const char *text) {
    return rec_define(&lent.store, (uint8_t)letter, mark, (const uint8_t *)text, strlen(text));
}

static int32_t define(char letter, const char *text) { return define_as(letter, REC_OPEN, text); }

/* A run with the list, the paper and the report full of bytes that show what is written. */
static int32_t run_as(char letter, uint8_t role, uint32_t allowance, const int32_t *inputs, size_t count, size_t places) {
    memset(lent.list, MARK, sizeof lent.list);
    memset(lent.paper, MARK, sizeof lent.paper);
    memset(&lent.report, MARK, sizeof lent.report);
    return rec_run(&lent.store, (uint8_t)letter, role, allowance, inputs, count, lent.list, places, lent.paper, PAPER, &lent.report);
}

static int32_t run_for(char letter, uint32_t allowance, const int32_t *inputs, size_t count) {
    return run_as(letter, REC_CASHIER, allowance, inputs, count, REC_LIST);
}

static int32_t run(char letter, const int32_t *inputs, size_t count) { return run_for(letter, ALLOWANCE, inputs, count); }

static int figures(size_t truth, size_t steps, size_t height, size_t taken, size_t written) {
    rec_report r = lent.report;
    return r.truth == truth && r.steps == steps && r.height == height && r.taken == taken && r.written == written;
}

static int all_bytes(const void *at, size_t length, int byte) {
    const uint8_t *bytes = (const uint8_t *)at;
    for (size_t i = 0; i < length; i++)
        if (bytes[i] != byte) return 0;
    return 1;
}

/* ---- a store ---- */

static void fresh(void) {
    memset(&lent.store, MARK, sizeof lent.store);
    rec_fresh(&lent.store);
    HOLDS(all_bytes(&lent.store, sizeof lent.store, 0));
}

/* Each letter's cells, count, mark and variable stand where the header says. */
static void places_of_a_store(void) {
    static const int32_t table[] = {2000, -78, 5, 6, 0, 1};
    fresh();
    for (size_t k = 0; k < REC_LETTERS; k++) {
        const int32_t *cells = lent.store.cells + k * REC_CELLS;
        HOLDS(define_as((char)('a' + k), REC_STEWARDS, "(N;)") == REC_FINISHED);
        HOLDS(lent.store.used[k] == 6);
        HOLDS(lent.store.marks[k] == REC_STEWARDS);
        HOLDS(memcmp(cells, table, sizeof table) == 0);
        HOLDS(all_bytes(cells + 6, (REC_LETTERS - k) * REC_CELLS * sizeof *cells - sizeof table, 0));
        HOLDS(k == REC_LETTERS - 1 || (lent.store.used[k + 1] == 0 && lent.store.marks[k + 1] == REC_OPEN));
    }
    HOLDS(rec_withdraw(&lent.store, 'b') == REC_FINISHED);
    HOLDS(lent.store.used[0] == 6 && lent.store.used[1] == 0 && lent.store.used[2] == 6);
    HOLDS(lent.store.marks[0] == REC_STEWARDS && lent.store.marks[1] == REC_OPEN && lent.store.marks[2] == REC_STEWARDS);
    HOLDS(all_bytes(lent.store.cells + REC_CELLS, REC_CELLS * sizeof(int32_t), 0));
    for (int k = 0; k < REC_VARIABLES; k++) {
        char text[] = "('/9'S0;)";
        text[3] = (char)('1' + k % 9);
        text[6] = (char)('0' + k);
        HOLDS(define('q', text) == REC_FINISHED);
        HOLDS(run('q', NULL, 0) == REC_FINISHED);
        HOLDS(lent.store.vars[k] == 1 + k % 9);
        HOLDS(k == REC_VARIABLES - 1 || lent.store.vars[k + 1] == 0);
    }
}

/* ---- runs ---- */

/* Five figures, no two of them equal. */
static void figures_of_a_run(void) {
    const int32_t inputs[] = {10, -20, 30, -40};
    fresh();
    HOLDS(define('q', "(''HELLO'IIIIL;)") == REC_FINISHED);
    HOLDS(run('q', inputs, 4) == REC_FINISHED);
    HOLDS(figures(1, 7, 3, 4, 5));
    HOLDS(lent.list[0] == 10 && lent.list[1] == -20 && lent.list[2] == 30);
    HOLDS(all_bytes(lent.list + 3, sizeof lent.list - 3 * sizeof lent.list[0], 0));
    HOLDS(memcmp(lent.paper, "HELLO", 5) == 0);
    HOLDS(all_bytes(lent.paper + 5, PAPER - 5, MARK));
}

/* As many inputs, bytes of output and steps as are needed, and one fewer. */
static void just_enough(void) {
    const int32_t inputs[] = {10, -20, 30, -40};
    fresh();
    HOLDS(define('q', "(''HELLO'IIIIL;)") == REC_FINISHED);
    HOLDS(rec_run(&lent.store, 'q', REC_CASHIER, 7, inputs, 4, lent.list, REC_LIST, lent.paper, 5, &lent.report) == REC_FINISHED && figures(1, 7, 3, 4, 5));
    HOLDS(rec_run(&lent.store, 'q', REC_CASHIER, 6, inputs, 4, lent.list, REC_LIST, lent.paper, 5, &lent.report) == REC_SPENT && figures(0, 6, 3, 4, 5));
    HOLDS(rec_run(&lent.store, 'q', REC_CASHIER, 7, inputs, 3, lent.list, REC_LIST, lent.paper, 5, &lent.report) == REC_NO_INPUT && figures(0, 4, 3, 3, 5));
    HOLDS(rec_run(&lent.store, 'q', REC_CASHIER, 7, inputs, 4, lent.list, REC_LIST, lent.paper, 4, &lent.report) == REC_PAPER_OUT && figures(0, 0, 0, 0, 0));
}

static void ends_of_a_run(void) {
    const int32_t inputs[] = {500, 340};
    fresh();
    HOLDS(define('p', "(I (N) (0) I * '/100' / S1 ''PAY' O ; ''NO PAY' )") == REC_FINISHED);
    HOLDS(run('p', inputs, 2) == REC_FINISHED && figures(1, 11, 1, 2, 3 + REC_COLUMNS) && lent.store.vars[1] == 1700);
    HOLDS(memcmp(lent.paper, "PAY         17.00", 17) == 0 && all_bytes(lent.paper + 17, PAPER - 17, MARK));
    lent.store.vars[1] = 7;
    HOLDS(run_for('p', 10, inputs, 2) == REC_SPENT && figures(0, 10, 1, 2, 3 + REC_COLUMNS) && lent.store.vars[1] == 7);
    HOLDS(run_for('p', 0, inputs, 2) == REC_SPENT && figures(0, 0, 0, 0, 0));
    HOLDS(run('p', inputs, 1) == REC_NO_INPUT && figures(0, 3, 1, 1, 0));
    HOLDS(define('l', "(:)") == REC_FINISHED);
    HOLDS(run_for('l', 4000000, NULL, 0) == REC_SPENT && figures(0, 4000000, 0, 0, 0));
    HOLDS(define('a', "(p;)") == REC_FINISHED && rec_withdraw(&lent.store, 'p') == REC_FINISHED);
    HOLDS(run('a', inputs, 2) == REC_NO_TEXT && figures(0, 0, 0, 0, 0));
    HOLDS(run('p', inputs, 2) == REC_NOT_STANDING);
}

/* ---- marks and roles ---- */

/* The mark is that of the last accepted define, and the role that of the run alone. */
static void marks_of_letters(void) {
    const int32_t five = 5;
    fresh();
    HOLDS(define_as('q', REC_STEWARDS, "(IS1;)") == REC_FINISHED && lent.store.marks[16] == REC_STEWARDS);
    HOLDS(run('q', &five, 1) == REC_NOT_FOR_CASHIERS && lent.store.vars[1] == 0);
    HOLDS(run_as('q', REC_STEWARD, ALLOWANCE, &five, 1, REC_LIST) == REC_FINISHED && figures(1, 3, 1, 1, 0) && lent.store.vars[1] == 5);
    HOLDS(run('q', &five, 1) == REC_NOT_FOR_CASHIERS);
    HOLDS(define('q', "(I;)") == REC_FINISHED && lent.store.marks[16] == REC_OPEN);
    HOLDS(run('q', &five, 1) == REC_FINISHED && run_as('q', REC_STEWARD, ALLOWANCE, &five, 1, REC_LIST) == REC_FINISHED);
    HOLDS(define_as('q', REC_STEWARDS, "(I;)") == REC_FINISHED && define('q', "(I") == REC_UNFINISHED && lent.store.marks[16] == REC_STEWARDS);
    HOLDS(rec_withdraw(&lent.store, 'q') == REC_FINISHED && lent.store.marks[16] == REC_OPEN);
    HOLDS(run('q', &five, 1) == REC_NOT_STANDING && define('q', "(I;)") == REC_FINISHED && run('q', &five, 1) == REC_FINISHED);
}

/* A steward letter that is called, at once and through another: a cashier's run ends before it, and keeps no variable. */
static void steward_calls(void) {
    fresh();
    HOLDS(define_as('s', REC_STEWARDS, "('/9'S2;)") == REC_FINISHED && define('a', "('/7'S1s;)") == REC_FINISHED && define('b', "(''x'a;)") == REC_FINISHED);
    HOLDS(run('a', NULL, 0) == REC_STEWARD_CALL && figures(0, 2, 1, 0, 0) && lent.list[0] == 7 && lent.store.vars[1] == 0);
    HOLDS(run('b', NULL, 0) == REC_STEWARD_CALL && figures(0, 4, 1, 0, 1) && lent.paper[0] == 'x' && lent.store.vars[1] == 0);
    HOLDS(run_for('b', 4, NULL, 0) == REC_SPENT && run_for('b', 5, NULL, 0) == REC_STEWARD_CALL);
    HOLDS(run_as('b', REC_STEWARD, ALLOWANCE, NULL, 0, REC_LIST) == REC_FINISHED && figures(1, 10, 2, 0, 1));
    HOLDS(lent.store.vars[1] == 7 && lent.store.vars[2] == 9);
    HOLDS(define('s', "(;)") == REC_FINISHED && run('b', NULL, 0) == REC_FINISHED);
    HOLDS(rec_withdraw(&lent.store, 's') == REC_FINISHED && run('b', NULL, 0) == REC_NO_TEXT);
}

/* ---- what a letter can reach ---- */

/* A reach with the marks full of bytes that are none. */
static int32_t reach(char letter) {
    memset(lent.reached, MARK, sizeof lent.reached);
    memset(lent.missing, MARK, sizeof lent.missing);
    before = lent.store;
    return rec_reach(&lent.store, (uint8_t)letter, lent.reached, lent.missing);
}

static int unchanged(void) { return memcmp(&before, &lent.store, sizeof before) == 0; }

/* The marks of these letters are 1, and all others 0. */
static int marked(const uint8_t *marks, const char *letters) {
    for (int k = 0; k < REC_LETTERS; k++)
        if (marks[k] != (strchr(letters, 'a' + k) != NULL)) return 0;
    return 1;
}

static int reports(char letter, const char *reached, const char *missing) {
    return reach(letter) == REC_FINISHED && marked(lent.reached, reached) && marked(lent.missing, missing) && unchanged();
}

static int refused_reach(int32_t number, char letter) {
    return reach(letter) == number && all_bytes(lent.reached, REC_LETTERS, MARK) && all_bytes(lent.missing, REC_LETTERS, MARK) && unchanged();
}

/* A circle, a call of itself, a letter without a text, which a run then calls; prints, comments and numbers call nothing. */
static void reaches(void) {
    fresh();
    HOLDS(define('a', "(b;)") == REC_FINISHED && reports('a', "ab", "b"));
    HOLDS(define('b', "(m;a)") == REC_FINISHED && reports('a', "abm", "m") && reports('b', "abm", "m"));
    HOLDS(run('a', NULL, 0) == REC_NO_TEXT);
    HOLDS(define('m', "(;zm)") == REC_FINISHED && reports('a', "abmz", "z") && reports('m', "mz", "z"));
    HOLDS(run('a', NULL, 0) == REC_FINISHED);
    HOLDS(define('z', "(''cd'\"ef\"'/-103'$104$)") == REC_FINISHED && reports('a', "abmz", "") && reports('z', "z", ""));
    HOLDS(rec_withdraw(&lent.store, 'b') == REC_FINISHED && reports('a', "ab", "b") && reports('m', "mz", ""));
    HOLDS(refused_reach(REC_NOT_STANDING, 'b'));
}

/* All 26 letters in a row: the mark of each stands in its place. */
static void reaches_of_all(void) {
    static const char letters[] = "abcdefghijklmnopqrstuvwxyz";
    fresh();
    for (size_t k = 0; k + 1 < REC_LETTERS; k++) {
        char text[] = "( ;)";
        text[1] = letters[k + 1];
        HOLDS(define(letters[k], text) == REC_FINISHED);
    }
    for (size_t k = 0; k + 1 < REC_LETTERS; k++) HOLDS(reports(letters[k], letters + k, "z"));
    HOLDS(refused_reach(REC_NOT_STANDING, 'z'));
    HOLDS(define('z', "(a;)") == REC_FINISHED);
    for (size_t k = 0; k < REC_LETTERS; k++) HOLDS(reports(letters[k], letters, ""));
}

/* Every refusal alone, and where several fit the first of 13, 1, 10 and 29. */
static void refused_reaches(void) {
    fresh();
    HOLDS(define('q', "(q;)") == REC_FINISHED && define('r', "(N;)") == REC_FINISHED && reports('q', "q", ""));
    HOLDS(refused_reach(REC_NO_SUCH_LETTER, 'Q') && refused_reach(REC_NO_SUCH_LETTER, 'a' - 1) && refused_reach(REC_NO_SUCH_LETTER, 'z' + 1));
    HOLDS(refused_reach(REC_NOT_STANDING, 'a'));
    lent.store.cells[17 * REC_CELLS + 2] = 1; /* what N does on false, in a table that q does not reach */
    HOLDS(refused_reach(REC_DAMAGED, 'q') && refused_reach(REC_DAMAGED, 'r'));
    HOLDS(run('q', NULL, 0) == REC_DEEP_CALLS);
    HOLDS(refused_reach(REC_NO_SUCH_LETTER, 'Q') && refused_reach(REC_NOT_STANDING, 'a'));
    lent.store.vars[0] = REC_VALUE_MAX + 1;
    HOLDS(refused_reach(REC_BAD_STORE, 'q') && refused_reach(REC_BAD_STORE, 'a') && refused_reach(REC_BAD_STORE, 'Q'));
    lent.store.vars[0] = REC_VALUE_MAX;
    lent.store.used[25] = REC_CELLS + 1;
    HOLDS(refused_reach(REC_BAD_STORE, 'q') && refused_reach(REC_BAD_STORE, 'a') && refused_reach(REC_BAD_STORE, 'Q'));
    lent.store.used[25] = 0;
    lent.store.marks[25] = REC_STEWARDS + 1;
    HOLDS(refused_reach(REC_BAD_STORE, 'q') && refused_reach(REC_BAD_STORE, 'a') && refused_reach(REC_BAD_STORE, 'Q'));
    lent.store.marks[25] = REC_STEWARDS;
    lent.store.cells[17 * REC_CELLS + 2] = 5;
    HOLDS(reports('q', "q", "") && reports('r', "r", ""));
}

/* ---- null with length 0 ---- */

static void nulls(void) {
    size_t used = 99, written = 99;
    fresh();
    HOLDS(rec_check(NULL, 0) == REC_UNFINISHED);
    HOLDS(rec_link(NULL, 0, NULL, 0, &used) == REC_UNFINISHED && used == 0);
    HOLDS(rec_link((const uint8_t *)"()", 2, NULL, 0, &used) == REC_FINISHED && used == 3);
    HOLDS(rec_fair_copy(NULL, 0, NULL, 0, &written) == REC_UNFINISHED && written == 0);
    HOLDS(rec_fair_copy((const uint8_t *)"()", 2, NULL, 0, &written) == REC_SHORT_PAPER && written == 0);
    HOLDS(rec_define(&lent.store, 'q', REC_OPEN, NULL, 0) == REC_UNFINISHED);
    HOLDS(define('q', "(;)") == REC_FINISHED);
    HOLDS(define('o', "(''A';)") == REC_FINISHED);
    HOLDS(rec_run(&lent.store, 'q', REC_CASHIER, ALLOWANCE, NULL, 0, lent.list, REC_LIST, NULL, 0, &lent.report) == REC_FINISHED && figures(1, 1, 0, 0, 0));
    HOLDS(rec_run(&lent.store, 'o', REC_CASHIER, ALLOWANCE, NULL, 0, lent.list, REC_LIST, NULL, 0, &lent.report) == REC_PAPER_OUT && figures(0, 0, 0, 0, 0));
    HOLDS(rec_run(&lent.store, 'q', REC_CASHIER, ALLOWANCE, NULL, 0, NULL, 0, NULL, 0, &lent.report) == REC_BAD_LIST && figures(0, 0, 0, 0, 0));
}

/* ---- refusals: the number, and nothing changed ---- */

static int refused_define_as(int32_t number, char letter, uint8_t mark, const char *text) {
    before = lent.store;
    return define_as(letter, mark, text) == number && unchanged();
}

static int refused_define(int32_t number, char letter, const char *text) { return refused_define_as(number, letter, REC_OPEN, text); }

static int refused_withdraw(int32_t number, char letter) {
    before = lent.store;
    return rec_withdraw(&lent.store, (uint8_t)letter) == number && unchanged();
}

static int refused_run_as(int32_t number, char letter, uint8_t role, int32_t input, size_t places) {
    before = lent.store;
    return run_as(letter, role, ALLOWANCE, &input, 1, places) == number && figures(0, 0, 0, 0, 0) && unchanged() &&
           all_bytes(lent.list, sizeof lent.list, MARK) && all_bytes(lent.paper, sizeof lent.paper, MARK);
}

static int refused_run(int32_t number, char letter, int32_t input, size_t places) { return refused_run_as(number, letter, REC_CASHIER, input, places); }

/* Document 02's, alone and before and after those of document 01. */
static void refusals_of_roles(void) {
    static char longer[258];
    memset(longer, 'B', 257);
    fresh();
    HOLDS(define_as('q', REC_STEWARDS, "(IS1;)") == REC_FINISHED);
    for (int other = 2; other <= UINT8_MAX; other++) {
        uint8_t neither = (uint8_t)other;
        HOLDS(refused_define_as(REC_NO_SUCH_LETTER, 'Q', neither, longer) && refused_define_as(REC_BAD_MARK, 'q', neither, longer));
        HOLDS(refused_define_as(REC_BAD_MARK, 'a', neither, "(") && refused_define_as(REC_BAD_MARK, 'q', neither, "()"));
        HOLDS(refused_run_as(REC_NO_SUCH_LETTER, 'Q', neither, 0, 0) && refused_run_as(REC_BAD_MARK, 'a', neither, 0, 0));
        HOLDS(refused_run_as(REC_BAD_MARK, 'q', neither, REC_VALUE_MAX + 1, 0) && refused_run_as(REC_BAD_MARK, 'q', neither, 0, REC_LIST));
    }
    HOLDS(refused_run(REC_NOT_STANDING, 'a', 0, REC_LIST) && refused_run_as(REC_NOT_STANDING, 'a', REC_STEWARD, 0, REC_LIST));
    HOLDS(refused_run(REC_NOT_FOR_CASHIERS, 'q', 0, REC_LIST) && refused_run(REC_NOT_FOR_CASHIERS, 'q', REC_VALUE_MAX + 1, 0));
    HOLDS(refused_run_as(REC_BAD_INPUT, 'q', REC_STEWARD, REC_VALUE_MAX + 1, 0) && refused_run_as(REC_BAD_LIST, 'q', REC_STEWARD, 0, 0));
}

/* A store in which a letter, cleared or standing, has a mark that is neither: 13 before all others. The marks are 32 bits wide. */
static void refusals_by_a_mark(void) {
    static const uint32_t neither[] = {2, 255, 256, 257, 65536, 65537, UINT32_C(1) << 31, (UINT32_C(1) << 31) + 1, UINT32_MAX};
    fresh();
    HOLDS(define('q', "(IS1;)") == REC_FINISHED);
    for (size_t k = 0; k < REC_LETTERS; k++) {
        for (size_t i = 0; i < sizeof neither / sizeof *neither; i++) {
            lent.store.marks[k] = neither[i];
            HOLDS(refused_define(REC_BAD_STORE, 'q', "()") && refused_define_as(REC_BAD_STORE, 'Q', 2, "("));
            HOLDS(refused_withdraw(REC_BAD_STORE, 'q') && refused_withdraw(REC_BAD_STORE, 'Q'));
            HOLDS(refused_run(REC_BAD_STORE, 'q', 0, REC_LIST) && refused_run_as(REC_BAD_STORE, 'q', REC_STEWARD, 0, REC_LIST));
            HOLDS(refused_run_as(REC_BAD_STORE, 'Q', 2, 0, 0) && refused_reach(REC_BAD_STORE, 'q'));
        }
        lent.store.marks[k] = REC_OPEN;
    }
    lent.store.marks[0] = REC_STEWARDS; /* a cleared letter's: 10 before 33, 27 before 34 */
    HOLDS(refused_run(REC_NOT_STANDING, 'a', 0, REC_LIST) && refused_withdraw(REC_NOT_STANDING, 'a'));
    HOLDS(define('q', "(a;)") == REC_FINISHED && run('q', NULL, 0) == REC_NO_TEXT);
}

/* The archive's own functions take a mark and a role as 32 bits, and refuse the same. */
static void wide_marks_and_roles(void) {
    static const uint32_t neither[] = {2, 256, 257, UINT32_C(1) << 31, UINT32_MAX};
    static size_t report[5];
    rec_store *s = &lent.store;
    const uint8_t *text = (const uint8_t *)"()";
    fresh();
    HOLDS(rec_lent_define(s->cells, s->used, s->marks, s->vars, 'q', REC_STEWARDS, text, 2) == REC_FINISHED && s->marks[16] == REC_STEWARDS);
    before = *s;
    for (size_t i = 0; i < sizeof neither / sizeof *neither; i++) {
        HOLDS(rec_lent_define(s->cells, s->used, s->marks, s->vars, 'q', neither[i], text, 2) == REC_BAD_MARK && unchanged());
        HOLDS(rec_lent_run(s->cells, s->used, s->marks, s->vars, 'q', neither[i], ALLOWANCE, NULL, 0, lent.list, REC_LIST, NULL, 0, report) == REC_BAD_MARK &&
              unchanged());
    }
    HOLDS(rec_lent_run(s->cells, s->used, s->marks, s->vars, 'q', REC_STEWARD, ALLOWANCE, NULL, 0, lent.list, REC_LIST, NULL, 0, report) == REC_FINISHED);
}

/* Every refusal alone, and where several fit the first in document 01's order. */
static void refusals(void) {
    static char longer[258];
    memset(longer, 'B', 257);
    fresh();
    HOLDS(define('q', "(I ''x' O S1 ;)") == REC_FINISHED);
    HOLDS(refused_define(REC_NO_SUCH_LETTER, 'Q', longer));
    HOLDS(refused_define(REC_NO_SUCH_LETTER, 'a' - 1, "()"));
    HOLDS(refused_define(REC_NO_SUCH_LETTER, 'z' + 1, "()"));
    HOLDS(refused_define(REC_LONG_TEXT, 'q', longer));
    HOLDS(refused_define(REC_STRAY_MARK, 'q', longer + 1));
    HOLDS(refused_define(REC_DEEP, 'q', "((((((((((("));
    HOLDS(refused_define(REC_BAD_COUNTER, 'q', "($0$"));
    HOLDS(refused_define(REC_BAD_CONSTANT, 'q', "('/x"));
    HOLDS(refused_define(REC_UNFINISHED, 'q', "("));
    HOLDS(refused_withdraw(REC_NO_SUCH_LETTER, 'Q'));
    HOLDS(refused_withdraw(REC_NOT_STANDING, 'a'));
    HOLDS(refused_run(REC_NO_SUCH_LETTER, 'Q', REC_VALUE_MAX + 1, 0));
    HOLDS(refused_run(REC_NOT_STANDING, 'a', REC_VALUE_MAX + 1, 0));
    HOLDS(refused_run(REC_BAD_INPUT, 'q', REC_VALUE_MAX + 1, 0));
    HOLDS(refused_run(REC_BAD_INPUT, 'q', -REC_VALUE_MAX - 1, REC_LIST));
    HOLDS(refused_run(REC_BAD_LIST, 'q', REC_VALUE_MAX, REC_LIST - 1));
    HOLDS(run('q', &(int32_t){-REC_VALUE_MAX}, 1) == REC_FINISHED && lent.store.vars[1] == -REC_VALUE_MAX);
    lent.store.vars[9] = -REC_VALUE_MAX - 1;
    HOLDS(refused_define(REC_BAD_STORE, 'Q', longer));
    HOLDS(refused_withdraw(REC_BAD_STORE, 'Q'));
    HOLDS(refused_run(REC_BAD_STORE, 'Q', 0, 0));
    lent.store.vars[9] = 0;
    lent.store.used[25] = 2;
    HOLDS(refused_withdraw(REC_BAD_STORE, 'q'));
    lent.store.used[25] = 4;
    HOLDS(run('z', NULL, 0) == REC_DAMAGED && figures(0, 0, 0, 0, 0));
}

/* ---- a text alone ---- */

static void links(void) {
    static int32_t cells[REC_CELLS + 10];
    size_t used = 99;
    const uint8_t *text = (const uint8_t *)"(N;)";
    memset(cells, MARK, sizeof cells);
    HOLDS(rec_link(text, 3, cells, REC_CELLS + 10, &used) == REC_UNFINISHED && used == 0);
    HOLDS(all_bytes(cells, sizeof cells, MARK));
    HOLDS(rec_link(text, 4, cells, 2, &used) == REC_FINISHED && used == 6);
    HOLDS(cells[0] == 2000 && cells[1] == -78 && all_bytes(cells + 2, sizeof cells - 2 * sizeof *cells, MARK));
    HOLDS(rec_link(text, 4, cells, REC_CELLS + 10, &used) == REC_FINISHED && used == 6);
    HOLDS(cells[5] == 1 && all_bytes(cells + 6, (REC_CELLS - 6) * sizeof *cells, 0) && all_bytes(cells + REC_CELLS, 10 * sizeof *cells, MARK));
    HOLDS(rec_check(text, 4) == REC_FINISHED && rec_check(text, 3) == REC_UNFINISHED);
}

static int32_t copy(const char *text, size_t room, size_t *written) {
    memset(lent.paper, MARK, sizeof lent.paper);
    *written = 99;
    return rec_fair_copy((const uint8_t *)text, strlen(text), lent.paper, room, written);
}

static int refused_copy(int32_t number, const char *text, size_t room) {
    size_t written;
    return copy(text, room, &written) == number && written == 0 && all_bytes(lent.paper, sizeof lent.paper, MARK);
}

static int copied(const char *text, size_t room, const char *fair) {
    size_t written, length = strlen(fair);
    return copy(text, room, &written) == REC_FINISHED && written == length && memcmp(lent.paper, fair, length) == 0 &&
           all_bytes(lent.paper + length, sizeof lent.paper - length, MARK);
}

/* A fair copy in as much room as it needs, in more, in one byte less and in none; a text's faults come before a short paper. */
static void fair_copies(void) {
    static const char text[] = "( '/007' , N \"it's so\"\n. $0010$ ''a  b' '/-0' ;)";
    static const char fair[] = "('/7';N:$10$''a  b''/0';)";
    static char longer[258];
    const size_t length = sizeof fair - 1;
    memset(longer, ' ', 257);
    HOLDS(copied(text, length, fair) && copied(text, length + 1, fair) && copied(text, PAPER, fair));
    HOLDS(copied(fair, length, fair));
    HOLDS(refused_copy(REC_SHORT_PAPER, text, length - 1) && refused_copy(REC_SHORT_PAPER, text, 0) && refused_copy(REC_SHORT_PAPER, fair, length - 1));
    for (size_t room = 0; room <= PAPER; room += PAPER) {
        HOLDS(refused_copy(REC_LONG_TEXT, longer, room));
        HOLDS(refused_copy(REC_STRAY_MARK, "() .", room));
        HOLDS(refused_copy(REC_DEEP, "(((((((((((", room));
        HOLDS(refused_copy(REC_BAD_COUNTER, "($0000$)", room));
        HOLDS(refused_copy(REC_BAD_CONSTANT, "('/-')", room));
        HOLDS(refused_copy(REC_UNFINISHED, "( N", room));
    }
}

/* ---- a pool ---- */

/* A dividend with the report full of marks. */
static int32_t dividend(uint32_t pool, uint32_t rate, uint32_t stakes) {
    memset(&lent.payout, MARK, sizeof lent.payout);
    return rec_dividend(pool, rate, stakes, &lent.payout);
}

static int pays(uint64_t takeout, uint64_t net, uint64_t each, uint64_t payments, uint64_t breakage) {
    rec_dividend_report p = lent.payout;
    return p.takeout == takeout && p.net == net && p.dividend == each && p.payments == payments && p.breakage == breakage;
}

static int refused_dividend(int32_t number, uint32_t pool, uint32_t rate, uint32_t stakes) {
    return dividend(pool, rate, stakes) == number && pays(0, 0, 0, 0, 0);
}

/* The five figures are those of document 02, they add up, and none is above the pool. */
static int settled(uint32_t pool, uint32_t rate, uint32_t stakes) {
    const rec_dividend_report *p = &lent.payout;
    if (dividend(pool, rate, stakes) != REC_FINISHED || p->takeout != (uint64_t)pool * rate / 1000 || p->net != pool - p->takeout) return 0;
    if (p->dividend % 10 != 0 || p->payments != p->dividend * stakes || p->payments > p->net || (p->dividend + 10) * stakes <= p->net) return 0;
    return p->net == p->payments + p->breakage && p->takeout + p->payments + p->breakage == pool && p->breakage < 10 * (uint64_t)stakes &&
           p->takeout <= pool && p->net <= pool && p->dividend <= pool && p->payments <= pool && p->breakage <= pool;
}

/* Five figures, no two of them equal; the rest of the takeout dropped; a net that is just enough for another 10 cents, and one cent less. */
static void dividends(void) {
    HOLDS(dividend(1234567, 150, 4560) == REC_FINISHED && pays(185185, 1049382, 230, 1048800, 582));
    HOLDS(dividend(999, 1, 1) == REC_FINISHED && pays(0, 999, 990, 990, 9));
    HOLDS(dividend(1000, 1, 1) == REC_FINISHED && pays(1, 999, 990, 990, 9));
    HOLDS(dividend(700, 0, 7) == REC_FINISHED && pays(0, 700, 100, 700, 0));
    HOLDS(dividend(699, 0, 7) == REC_FINISHED && pays(0, 699, 90, 630, 69));
    HOLDS(dividend(70, 0, 7) == REC_FINISHED && pays(0, 70, 10, 70, 0));
    HOLDS(dividend(69, 0, 7) == REC_FINISHED && pays(0, 69, 0, 0, 69));
    HOLDS(dividend(0, 150, 7) == REC_FINISHED && pays(0, 0, 0, 0, 0));
}

/* The archive's own function writes the same five figures, in the report's order, and nothing after them. */
static void archive_figures(void) {
    uint64_t five[6];
    memset(five, MARK, sizeof five);
    HOLDS(rec_dividend_figures(1234567, 150, 4560, five) == REC_FINISHED && dividend(1234567, 150, 4560) == REC_FINISHED);
    HOLDS(pays(five[0], five[1], five[2], five[3], five[4]) && all_bytes(five + 5, sizeof *five, MARK));
    memset(five, MARK, sizeof five);
    HOLDS(rec_dividend_figures(1234567, 150, 0, five) == REC_NO_WINNER && all_bytes(five, 5 * sizeof *five, 0) && all_bytes(five + 5, sizeof *five, MARK));
}

/* Each bound at its last lawful figure, alone and together. */
static void bounds_of_a_pool(void) {
    static const uint32_t pools[] = {0, 1, 9, 10, 11, 999, 1000, 1001, 123456, 1234567, REC_POOL_MAX - 1, REC_POOL_MAX};
    static const uint32_t rates[] = {0, 1, 150, 999, REC_RATE_MAX};
    static const uint32_t stakes[] = {1, 2, 9, 10, 11, 4560, 99999999, 100000000, UINT32_MAX / 10 + 1, REC_STAKES_MAX - 1, REC_STAKES_MAX};
    HOLDS(dividend(REC_POOL_MAX, 0, 1) == REC_FINISHED && pays(0, 999999999, 999999990, 999999990, 9));
    HOLDS(dividend(REC_POOL_MAX, 999, 1) == REC_FINISHED && pays(998999999, 1000000, 1000000, 1000000, 0));
    HOLDS(dividend(1234567, REC_RATE_MAX, 1) == REC_FINISHED && pays(1234567, 0, 0, 0, 0));
    HOLDS(dividend(1234567, 150, REC_STAKES_MAX) == REC_FINISHED && pays(185185, 1049382, 0, 0, 1049382));
    HOLDS(dividend(REC_POOL_MAX, REC_RATE_MAX, REC_STAKES_MAX) == REC_FINISHED && pays(999999999, 0, 0, 0, 0));
    for (size_t i = 0; i < sizeof pools / sizeof *pools; i++)
        for (size_t j = 0; j < sizeof rates / sizeof *rates; j++)
            for (size_t k = 0; k < sizeof stakes / sizeof *stakes; k++) HOLDS(settled(pools[i], rates[j], stakes[k]));
}

/* Each figure above its bound, alone and without a winning stake; then no winning stake alone, also with the others at their bounds. */
static void refused_dividends(void) {
    static const uint32_t above[] = {REC_POOL_MAX + 1, INT32_MAX, (uint32_t)INT32_MAX + 1, UINT32_MAX}; /* every bound */
    HOLDS(refused_dividend(REC_BAD_POOL, 1234567, REC_RATE_MAX + 1, 4560) && refused_dividend(REC_BAD_POOL, 1234567, REC_RATE_MAX + 1, 0));
    HOLDS(refused_dividend(REC_BAD_POOL, 1234567, 150, REC_STAKES_MAX + 1));
    for (size_t i = 0; i < sizeof above / sizeof *above; i++) {
        HOLDS(refused_dividend(REC_BAD_POOL, above[i], 150, 4560) && refused_dividend(REC_BAD_POOL, above[i], 150, 0));
        HOLDS(refused_dividend(REC_BAD_POOL, 1234567, above[i], 4560) && refused_dividend(REC_BAD_POOL, 1234567, above[i], 0));
        HOLDS(refused_dividend(REC_BAD_POOL, 1234567, 150, above[i]) && refused_dividend(REC_BAD_POOL, above[i], above[i], above[i]));
    }
    HOLDS(refused_dividend(REC_NO_WINNER, 1234567, 150, 0) && refused_dividend(REC_NO_WINNER, 0, 0, 0));
    HOLDS(refused_dividend(REC_NO_WINNER, REC_POOL_MAX, REC_RATE_MAX, 0));
    HOLDS(dividend(1234567, 150, 4560) == REC_FINISHED && pays(185185, 1049382, 230, 1048800, 582));
}

/* ---- a day ---- */

static int32_t day(const char *input, uint8_t *output, size_t room, size_t *written) {
    *written = 99;
    return rec_day((const uint8_t *)input, strlen(input), output, room, written);
}

/* Document 01's four lines, in as much room as they need, in more, in one byte less and in none; and inputs of no line. */
static void days(void) {
    static const char input[] = "D q ('/5'N)\nR q 9\nX q\nR q 9";
    static const char printed[] = "   1   0  0         0   0          0\n   2   0  1         2   1          5\n   3   0  0         0   0          0\n"
                                  "   4  10  0         0   0          0\n";
    static uint8_t output[200];
    const size_t length = sizeof printed - 1;
    size_t written;
    memset(output, MARK, sizeof output);
    HOLDS(day(input, output, length - 1, &written) == REC_SHORT_OUTPUT && written == 0 && all_bytes(output, sizeof output, MARK));
    HOLDS(day(input, output, 0, &written) == REC_SHORT_OUTPUT && written == 0 && all_bytes(output, sizeof output, MARK));
    HOLDS(day(input, NULL, 0, &written) == REC_SHORT_OUTPUT && written == 0);
    HOLDS(day(input, output, length, &written) == REC_FINISHED && written == length);
    HOLDS(memcmp(output, printed, length) == 0 && all_bytes(output + length, sizeof output - length, MARK));
    memset(output, MARK, sizeof output);
    HOLDS(day(input, output, sizeof output, &written) == REC_FINISHED && written == length);
    HOLDS(memcmp(output, printed, length) == 0 && all_bytes(output + length, sizeof output - length, MARK));
    memset(output, MARK, sizeof output);
    HOLDS(rec_day(NULL, 0, NULL, 0, &written) == REC_FINISHED && written == 0);
    HOLDS(day("", output, sizeof output, &written) == REC_FINISHED && written == 0 && all_bytes(output, sizeof output, MARK));
    HOLDS(day("X", output, 37, &written) == REC_FINISHED && written == 37 && memcmp(output, "   1  14  0", 11) == 0);
    HOLDS(day("\n", output, 37, &written) == REC_FINISHED && written == 37 && memcmp(output, "   1  14  0", 11) == 0);
}

int main(void) {
    set_guards();
    places_of_a_store();
    figures_of_a_run();
    just_enough();
    ends_of_a_run();
    marks_of_letters();
    steward_calls();
    reaches();
    reaches_of_all();
    refused_reaches();
    nulls();
    refusals();
    refusals_of_roles();
    refusals_by_a_mark();
    wide_marks_and_roles();
    links();
    fair_copies();
    dividends();
    archive_figures();
    bounds_of_a_pool();
    refused_dividends();
    days();
    HOLDS(guarded());
    printf("%d\n", claims);
    return broken > 0;
}
