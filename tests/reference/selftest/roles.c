/* U7's marks and roles by hand: each sentence of U7, every pair in its orders, calls of
 * steward letters at every depth, and the marks of damaged stores. */
#include <stdio.h>
#include <string.h>

#include "../../differential/texts.h"
#include "check.h"
#include "reach_accounts.h"
#include "roles_accounts.h"
#include "roles_duties.h"
#include "runs.h"
#include "subjects.h"

/* ---- book and store ---------------------------------------------------- */

static uint32_t define_steward(struct both *b, char letter, const char *text)
{
    return both_define_as(b, (uint8_t)letter, FOR_STEWARDS, text, strlen(text));
}

static bool same_book_and_store(const struct both *a, const struct both *b)
{
    return memcmp(&a->book, &b->book, sizeof a->book) == 0
        && memcmp(&a->store, &b->store, sizeof a->store) == 0;
}

/* A refusal leaves all as it was, byte for byte. */
static void expect_define(struct both *b, uint8_t letter, uint8_t mark, const char *text,
                          uint32_t number)
{
    static struct both kept;
    memcpy(&kept, b, sizeof kept);
    check(both_define_as(b, letter, mark, text, strlen(text)) == number, "define by mark", text);
    check(number == 0 || same_book_and_store(&kept, b), "refused define", text);
}

static void expect_withdraw(struct both *b, uint8_t letter, uint32_t number)
{
    static struct both kept;
    memcpy(&kept, b, sizeof kept);
    check(both_withdraw(b, letter) == number, "withdraw by mark", "");
    check(number == 0 || same_book_and_store(&kept, b), "refused withdraw", "");
}

/* One input, so many list places. */
static void expect_refusal(struct both *b, uint8_t letter, uint8_t role, int32_t input,
                           size_t list_length, uint32_t number, const char *what)
{
    static struct both kept;
    memcpy(&kept, b, sizeof kept);
    check(both_run_as(b, letter, role, 9, &input, 1, list_length, 20).number == number,
          "refused run", what);
    check(same_book_and_store(&kept, b), "book and store of a refused run", what);
    check(memcmp(&one_paper, &old_paper, sizeof one_paper) == 0, "places of a refused run", what);
}

/* The steward letters, looked at in book and store. */
static void expect_marks(const struct both *b, const char *stewards, const char *what)
{
    for (int i = 0; i < REC_LETTERS; i++) {
        uint8_t mark = strchr(stewards, 'a' + i) != NULL;
        check(b->book.marks[i] == mark, "mark of the book", what);
        check(b->store.marks[i] == mark, "mark of the store", what);
    }
}

/* Cashier, steward and cashier again: the role before is nothing to a run. */
static void expect_runs(struct both *b, char letter, uint32_t cashiers, uint32_t stewards,
                        const char *what)
{
    const uint32_t numbers[] = {cashiers, stewards, cashiers};
    for (size_t i = 0; i < 3; i++) {
        uint8_t role = i == 1 ? STEWARD : CASHIER;
        struct rec_answer a = both_run_as(b, (uint8_t)letter, role, 1000, NULL, 0, REC_LIST, 100);
        check(a.number == numbers[i], "number by role", what);
    }
}

/* "Each letter's entry in the store gains a mark, set by define ...; a fresh store's marks
 * are open. Withdraw clears the mark to open." */
static void marks_of_calls(void)
{
    static struct both b;
    memset(&b, 255, sizeof b);
    both_fresh(&b);
    expect_marks(&b, "", "fresh");
    expect_define(&b, 'q', FOR_STEWARDS, "(;)", 0);
    expect_marks(&b, "q", "defined");
    expect_runs(&b, 'q', 33, 0, "steward letter");
    expect_define(&b, 'q', OPEN, "(;)", 0);
    expect_marks(&b, "", "made open");
    expect_runs(&b, 'q', 0, 0, "open letter");
    expect_define(&b, 'q', FOR_STEWARDS, "(;)", 0);
    expect_marks(&b, "q", "made a steward's");
    expect_runs(&b, 'q', 33, 0, "steward letter, open before");
    expect_define(&b, 'q', FOR_STEWARDS, "('/5'N)", 0);
    expect_marks(&b, "q", "a steward's again");
    expect_run_as(&b, 'q', STEWARD, 9, "", 0, true, 2, 1, 5, "text of the last define");
    /* refused */
    expect_define(&b, 'q', OPEN, "(", 7);
    expect_define(&b, 'q', OPEN, "", 7);
    expect_define(&b, 'q', OPEN, "($0$)", 5);
    expect_define(&b, 'q', 2, "(;)", 35);
    expect_define(&b, 'q', 255, "(;)", 35);
    expect_define(&b, 'Q', OPEN, "(;)", 1);
    expect_withdraw(&b, 'Q', 1);
    expect_withdraw(&b, 'p', 10);
    expect_marks(&b, "q", "refused as open");
    expect_runs(&b, 'q', 33, 0, "refused as open");
    expect_run_as(&b, 'q', STEWARD, 9, "", 0, true, 2, 1, 5, "text before the refused");
    expect_withdraw(&b, 'q', 0);
    expect_marks(&b, "", "withdrawn");
    expect_runs(&b, 'q', 10, 10, "withdrawn");
    expect_withdraw(&b, 'q', 10);
    expect_define(&b, 'q', FOR_STEWARDS, "(", 7);
    expect_marks(&b, "", "cleared letter, refused");
    expect_define(&b, 'q', OPEN, "(;)", 0);
    expect_marks(&b, "", "open after a withdraw");
    expect_runs(&b, 'q', 0, 0, "open after a withdraw");
    expect_define(&b, 'q', FOR_STEWARDS, "#", 3);
    expect_define(&b, 'q', 2, "(;)", 35);
    expect_marks(&b, "", "refused as a steward's");
    expect_runs(&b, 'q', 0, 0, "refused as a steward's");
}

/* Each letter has a mark of its own. */
static void marks_of_all_letters(void)
{
    static struct both b;
    char stewards[REC_LETTERS + 1] = "";
    both_fresh(&b);
    for (int i = 0; i < REC_LETTERS; i++) {
        define_steward(&b, (char)('a' + i), "(;)");
        stewards[i] = (char)('a' + i);
        expect_marks(&b, stewards, "steward after steward");
    }
    for (char letter = 'a'; letter <= 'z'; letter++)
        expect_runs(&b, letter, 33, 0, "all steward's");
    for (int i = 0; i < REC_LETTERS; i++) {
        char letter = (char)('a' + i);
        if (i % 3 == 0)
            both_withdraw(&b, (uint8_t)letter);
        else if (i % 3 == 1)
            define_text(&b, letter, "()");
        else
            define_steward(&b, letter, "()");
        stewards[i] = i % 3 == 2 ? letter : '!';
        expect_marks(&b, stewards, "one after the other");
        expect_runs(&b, letter, i % 3 == 0 ? 10 : i % 3 == 1 ? 0 : 33, i % 3 == 0 ? 10 : 0,
                    "one after the other");
    }
}

/* "35 bad mark, a mark or role neither of the two": all of them. `o` is open, `s` a
 * steward's, `c` cleared. */
static void strange_marks_and_roles(void)
{
    static struct both b, kept;
    both_fresh(&b);
    define_text(&b, 'o', "(s;)");
    define_steward(&b, 's', "(o;)");
    memcpy(&kept, &b, sizeof kept);
    for (int strange = 2; strange < 256; strange++)
        for (size_t i = 0; i < 3; i++) {
            uint8_t letter = (uint8_t)"osc"[i];
            check(both_define_as(&b, letter, (uint8_t)strange, "(;)", 3) == 35, "bad mark", "");
            check(both_run_as(&b, letter, (uint8_t)strange, 9, NULL, 0, REC_LIST, 9).number == 35,
                  "bad role", "");
        }
    check(same_book_and_store(&kept, &b), "book and store after 35", "");
    for (uint8_t known = 0; known < 2; known++)
        check(both_define_as(&b, 'c', known, "(;)", 3) == 0, "mark of the two", "");
}

/* 1, 35, then 2 and the text. */
static void order_of_define(void)
{
    static const char *const faults[] = {"#", "(((((((((((", "($0$)", "('/x')", "(",
                                         "($1$$1$$1$$1$$1$$1$$1$$1$$1$$1$$1$$1$$1$$1$$1$$1$$1$)"};
    static const uint8_t strange[] = {2, 255};
    static struct both b;
    struct text longer, full;
    text_clear(&longer);
    text_fill(&longer, "#", 257);
    text_clear(&full);
    text_add(&full, "(");
    text_fill(&full, "N", 124);
    text_add(&full, ")");
    longer.bytes[257] = full.bytes[full.length] = 0;
    both_fresh(&b);
    define_steward(&b, 's', "(;)");
    define_text(&b, 'o', "(;)");
    for (size_t i = 0; i < 2; i++) {
        for (const char *letter = "osc"; *letter; letter++) {
            expect_define(&b, (uint8_t)*letter, strange[i], (const char *)longer.bytes, 35);
            expect_define(&b, (uint8_t)*letter, strange[i], (const char *)full.bytes, 35);
            for (size_t j = 0; j < sizeof faults / sizeof faults[0]; j++)
                expect_define(&b, (uint8_t)*letter, strange[i], faults[j], 35);
        }
        for (const char *letter = "A`{ "; *letter; letter++) {
            expect_define(&b, (uint8_t)*letter, strange[i], "(;)", 1);
            expect_define(&b, (uint8_t)*letter, strange[i], "#", 1);
            expect_define(&b, (uint8_t)*letter, strange[i], (const char *)longer.bytes, 1);
        }
    }
    for (uint8_t mark = 0; mark < 2; mark++) {
        expect_define(&b, 'A', mark, "#", 1);
        expect_define(&b, 'A', mark, (const char *)longer.bytes, 1);
        expect_define(&b, 's', mark, (const char *)longer.bytes, 2);
        expect_define(&b, 'o', mark, (const char *)longer.bytes, 2);
        expect_define(&b, 's', mark, (const char *)full.bytes, 8);
        expect_define(&b, 'o', mark, "#", 3);
    }
    expect_marks(&b, "s", "refused defines");
}

/* 1, 35, 10, 33, 11, 12. */
static void order_of_runs(void)
{
    static const uint8_t strange[] = {2, 255};
    static const size_t lengths[] = {0, 63, 65};
    const int32_t bad = REC_VALUE + 1;
    static struct both b;
    both_fresh(&b);
    define_steward(&b, 's', "(;)");
    define_text(&b, 'o', "(;)");
    for (size_t i = 0; i < 2; i++) {
        expect_refusal(&b, 'A', strange[i], 0, REC_LIST, 1, "1 before 35");
        for (const char *letter = "osc"; *letter; letter++) {
            expect_refusal(&b, (uint8_t)*letter, strange[i], 0, REC_LIST, 35, "35");
            expect_refusal(&b, (uint8_t)*letter, strange[i], bad, REC_LIST, 35, "35 before 11");
            expect_refusal(&b, (uint8_t)*letter, strange[i], 0, 63, 35, "35 before 12");
        }
    }
    for (uint8_t role = 0; role < 2; role++) {
        expect_refusal(&b, 'A', role, bad, 65, 1, "1 before all but 13");
        expect_refusal(&b, 'c', role, 0, REC_LIST, 10, "10");
        expect_refusal(&b, 'c', role, bad, REC_LIST, 10, "10 before 11");
        expect_refusal(&b, 'c', role, 0, 65, 10, "10 before 12");
        expect_refusal(&b, 'o', role, bad, 65, 11, "11 before 12");
    }
    for (size_t i = 0; i < 3; i++) {
        expect_refusal(&b, 's', CASHIER, 0, lengths[i], 33, "33 before 12");
        expect_refusal(&b, 's', CASHIER, -bad, lengths[i], 33, "33 before 11 and 12");
        expect_refusal(&b, 's', STEWARD, 0, lengths[i], 12, "12 to a steward");
    }
    expect_refusal(&b, 's', CASHIER, 0, REC_LIST, 33, "33");
    expect_refusal(&b, 's', CASHIER, bad, REC_LIST, 33, "33 before 11");
    expect_refusal(&b, 's', STEWARD, bad, REC_LIST, 11, "11 to a steward");
    expect_run_as(&b, 's', CASHIER, 0, "", 33, false, 0, 0, 0, "33 without allowance");
    expect_run_as(&b, 's', STEWARD, 0, "", 20, false, 0, 0, 0, "20 to a steward");
}

/* The call is no step and no false; what came before it stays, but for the variables. */
static void figures_of_steward_call(void)
{
    static const char output[] = "          0.05\nab";
    static struct both b;
    const int32_t input[] = {7, 8};
    struct rec_answer a;
    both_fresh(&b);
    define_text(&b, 'q', "('/5'S1OX''ab'Iw;''more'I;)");
    define_steward(&b, 'w', "('/9'S2I;)");
    a = both_run_as(&b, 'q', CASHIER, 1000, input, 2, REC_LIST, 100);
    check(a.number == 34 && a.truth == 0 && a.steps == 6 && a.height == 2 && a.taken == 1
              && a.written == 17, "figures of a steward call", "");
    check(one_paper.list[0] == 5 && one_paper.list[1] == 7 && one_paper.list[2] == 0
              && memcmp(one_paper.output, output, 17) == 0, "places of a steward call", "");
    check(b.book.variables[0] == 0 && b.store.variables[0] == 0, "variables of 34", "");
    a = both_run_as(&b, 'q', STEWARD, 1000, input, 2, REC_LIST, 100);
    check(a.number == 0 && a.truth == 1 && a.steps == 12 && a.height == 4 && a.taken == 2
              && a.written == 17 && one_paper.list[3] == 8, "figures of the steward's run", "");
    check(b.book.variables[0] == 5 && b.store.variables[0] == 5 && b.book.variables[1] == 9
              && b.store.variables[1] == 9, "variables of the steward's run", "");
    define_text(&b, 'q', "(F1'/1'+S1S2w;)");
    expect_run_as(&b, 'q', CASHIER, 1000, "", 34, false, 5, 1, 6, "variables of 34");
    check(b.book.variables[0] == 5 && b.store.variables[0] == 5 && b.book.variables[1] == 9
              && b.store.variables[1] == 9, "variables kept by 34", "");
    expect_run_as(&b, 'q', CASHIER, 1000, "", 34, false, 5, 1, 6, "variables of 34 again");
    expect_run_as(&b, 'q', STEWARD, 1000, "3", 0, true, 11, 3, 3, "variables of a steward's run");
    check(b.book.variables[0] == 6 && b.book.variables[1] == 9, "variables of a finished run", "");
    /* stops, and no falses */
    define_text(&b, 'q', "(w;X;)");
    expect_run(&b, 'q', 1000, "", 34, false, 0, 0, 0, "34 is no false");
    define_text(&b, 'q', "((w;)X;)");
    expect_run(&b, 'q', 1000, "", 34, false, 0, 0, 0, "34 in an inner expression");
    define_text(&b, 'q', "('/1'N;w)");
    expect_run(&b, 'q', 1000, "", 34, false, 2, 1, 1, "34 in a second segment");
    define_text(&b, 'q', "($3$:w)");
    expect_run(&b, 'q', 1000, "", 34, false, 7, 0, 0, "34 after a loop");
    /* steward letters that no mark calls */
    define_text(&b, 'q', "(;w)");
    expect_runs(&b, 'q', 0, 0, "call past the end");
    define_text(&b, 'q', "('/1'0w;\"w\"''w';)");
    expect_run(&b, 'q', 1000, "", 0, true, 4, 1, 1, "call not come to");
    define_text(&b, 'q', "('/-119''/119'$119$)");
    expect_runs(&b, 'q', 0, 0, "codes of a call");
}

/* `a` to `z`, each calling the next; a steward letter at each place in turn, and then at
 * every second. A steward's run goes through. */
static void steward_calls_in_chains(void)
{
    static const char order[] = "abcdefghijklmnopqrstuvwxyz";
    static struct both b;
    char text[] = "( ;)";
    for (int at = 0; at <= REC_LETTERS; at++) {
        chain_of(&b, order, ' ');
        for (int i = 0; i < REC_LETTERS; i++) {
            text[1] = i == 25 ? ' ' : order[i + 1];
            if (i == at || (at == REC_LETTERS && i % 2))
                define_steward(&b, order[i], text);
        }
        for (int from = 0; from < REC_LETTERS; from++) {
            uint32_t calls = (uint32_t)(25 - from); /* each has its `;`, so has the first text */
            int next = at == REC_LETTERS ? from | 1 : at;
            expect_run_as(&b, order[from], STEWARD, 1000, "", 0, true, 2 * calls + 1, 0, 0,
                          "steward's chain");
            if (from < next)
                expect_run(&b, order[from], 1000, "", 34, false, (uint32_t)(next - from - 1), 0, 0,
                           "chain to a steward letter");
            else if (from == next)
                expect_run(&b, order[from], 1000, "", 33, false, 0, 0, 0, "chain from one");
            else
                expect_run(&b, order[from], 1000, "", 0, true, 2 * calls + 1, 0, 0,
                           "chain past one");
        }
    }
}

static void expect_ladder(struct both *b, int n, uint8_t role, uint32_t allowance,
                          uint32_t number, bool truth, uint32_t steps)
{
    char input[16];
    snprintf(input, sizeof input, "%d", n);
    expect_run_as(b, 'm', role, allowance, input, number, truth, steps, 1, 0, "ladder");
}

/* The call of `e` is the one nested n + 2 deep, after 3 + 4n steps; for n = 100 that of
 * `d` itself is too deep, after 401. 20 before 34, 34 before 28. */
static void steward_calls_at_every_depth(void)
{
    static struct both b;
    both_fresh(&b);
    define_text(&b, 'm', "(Id;)");
    define_text(&b, 'd', "(0e;'/1'-d;)");
    define_steward(&b, 'e', "(;)");
    for (int n = 0; n <= 99; n++) {
        uint32_t steps = 3 + 4 * (uint32_t)n;
        expect_ladder(&b, n, CASHIER, 1000, 34, false, steps);
        expect_ladder(&b, n, CASHIER, steps + 1, 34, false, steps);
        expect_ladder(&b, n, CASHIER, steps, 20, false, steps);
        on_duty(true, SPENT_BEFORE_34);
        if (n <= 98)
            expect_ladder(&b, n, STEWARD, 1000, 0, true, 5 * (uint32_t)n + 7);
        else
            expect_ladder(&b, n, STEWARD, 1000, 28, false, 399);
    }
    expect_ladder(&b, 100, CASHIER, 1000, 28, false, 401);
    expect_ladder(&b, 100, STEWARD, 1000, 28, false, 401);
    define_text(&b, 'e', "(;)");
    expect_ladder(&b, 98, CASHIER, 1000, 0, true, 497);
    expect_ladder(&b, 99, CASHIER, 1000, 28, false, 399);
    define_steward(&b, 'e', "(;)");
    both_withdraw(&b, 'e');
    expect_ladder(&b, 99, CASHIER, 1000, 27, false, 399);
    expect_ladder(&b, 99, STEWARD, 1000, 27, false, 399);
    define_steward(&b, 'd', "(0e;'/1'-d;)");
    expect_run(&b, 'm', 1000, "0", 34, false, 1, 1, 0, "ladder itself a steward's");
    expect_ladder(&b, 99, STEWARD, 1000, 27, false, 399);
}

/* "The role is remembered nowhere afterwards": not after a run that finishes, ends or is
 * refused, nor in another book and store. */
static void roles_of_runs_before(void)
{
    static struct both b, other;
    both_fresh(&b);
    both_fresh(&other);
    define_text(&b, 'q', "(Iw;)");
    define_steward(&b, 'w', "(;)");
    define_steward(&other, 'w', "(;)");
    for (int times = 0; times < 2; times++) {
        expect_run_as(&b, 'q', CASHIER, 9, "1", 34, false, 1, 1, 1, "cashier");
        expect_run_as(&b, 'q', STEWARD, 9, "1", 0, true, 4, 1, 1, "steward after 34");
        expect_run_as(&b, 'q', CASHIER, 9, "1", 34, false, 1, 1, 1, "cashier after a steward");
        expect_run_as(&b, 'q', STEWARD, 9, "", 25, false, 0, 0, 0, "steward's run ended");
        expect_run_as(&b, 'q', CASHIER, 9, "1", 34, false, 1, 1, 1, "cashier after 25");
        expect_run_as(&b, 'q', STEWARD, 2, "1", 20, false, 2, 1, 1, "steward's run spent");
        expect_run_as(&b, 'w', CASHIER, 9, "", 33, false, 0, 0, 0, "cashier after 20");
        expect_run_as(&b, 'w', STEWARD, 9, "", 0, true, 1, 0, 0, "steward after 33");
        expect_run_as(&b, 'w', CASHIER, 9, "", 33, false, 0, 0, 0, "cashier after a steward");
        expect_run_as(&b, 'w', STEWARD, 9, "1000000000", 11, false, 0, 0, 0, "steward's refused");
        expect_run_as(&b, 'w', CASHIER, 9, "", 33, false, 0, 0, 0, "cashier after 11");
        expect_run_as(&b, 'v', STEWARD, 9, "", 10, false, 0, 0, 0, "steward's refused");
        expect_run_as(&b, 'q', CASHIER, 9, "1", 34, false, 1, 1, 1, "cashier after 10");
        expect_run_as(&b, 'q', 2, 9, "1", 35, false, 0, 0, 0, "bad role");
        expect_run_as(&b, 'q', STEWARD, 9, "1", 0, true, 4, 1, 1, "steward after 35");
        expect_run_as(&b, 'q', 255, 9, "1", 35, false, 0, 0, 0, "bad role");
        expect_run_as(&b, 'q', CASHIER, 9, "1", 34, false, 1, 1, 1, "cashier after 35");
        expect_run_as(&other, 'w', STEWARD, 9, "", 0, true, 1, 0, 0, "steward elsewhere");
        expect_run_as(&b, 'w', CASHIER, 9, "", 33, false, 0, 0, 0, "cashier here");
    }
}

/* `a` calls `b`, and `b` calls `c`; each is cleared, open or a steward's. */
static void all_small_stores(void)
{
    static const char *const texts[] = {"(b;)", "(c;)", "(;)"};
    static struct both b;
    for (int all = 0; all < 27; all++) {
        const int states[] = {all % 3, all / 3 % 3, all / 9};
        both_fresh(&b);
        for (int i = 0; i < 3; i++)
            if (states[i] > 0)
                both_define_as(&b, (uint8_t)('a' + i), states[i] == 2, texts[i], strlen(texts[i]));
        for (uint8_t role = 0; role < 2; role++)
            for (int from = 0; from < 3; from++) {
                uint32_t number = states[from] == 0 ? 10 : states[from] == 2 && !role ? 33 : 0;
                int at = from;
                while (number == 0 && at < 2) {
                    number = states[at + 1] == 0 ? 27 : states[at + 1] == 2 && !role ? 34 : 0;
                    at += number == 0;
                }
                expect_run_as(&b, (char)('a' + from), role, 9, "", number, number == 0,
                              (uint32_t)(number ? at - from : 2 * (at - from) + 1), 0, 0,
                              "small store");
            }
    }
}

/* Whatever text the steward letter `w` has, a cashier's runs are the same. */
static void steward_texts_by_hand(void)
{
    static const char *const texts[] = {
        "(;)", "()", "(:)", "(w;)", "(q;)", "(v;)", "(L;)", "('/1':)", "('/9'S2;)", "(IX''more';)",
        "($9999$:)", "((((((((((w))))))))))"};
    static struct both b;
    both_fresh(&b);
    define_text(&b, 'q', "('/7'S2O''ab'(INw;)X;)");
    for (size_t i = 0; i < sizeof texts / sizeof texts[0]; i++) {
        check(define_steward(&b, 'w', texts[i]) == 0, "define", texts[i]);
        expect_run(&b, 'q', 99, "-1", 34, false, 6, 2, -1, texts[i]);
        on_duty(true, REPLACED_AND_34);
        expect_run(&b, 'q', 99, "1", 0, false, 8, 2, 1, texts[i]);
        on_duty(true, REPLACED_AND_FINISHED);
        expect_run(&b, 'w', 99, "1", 33, false, 0, 0, 0, texts[i]);
        on_duty(true, REPLACED_AND_33);
    }
}

/* ---- damaged stores ---------------------------------------------------- */

static void expect_lone_run(struct rec_store *store, char letter, uint8_t role,
                            uint32_t allowance, uint32_t number, uint32_t steps, const char *what)
{
    struct rec_answer a;
    a = lone_run(store, (uint8_t)letter, role, allowance, NULL, 0, REC_LIST, 100);
    check(a.number == number && a.steps == steps, "run of a lone store", what);
}

static uint32_t lone_text(struct rec_store *store, char letter, uint8_t mark, const char *text)
{
    return lone_define(store, (uint8_t)letter, mark, (const uint8_t *)text, strlen(text));
}

/* `b` is cleared and marked as a steward's, which no calls bring about: that is not 13.
 * 10 before 33, 27 before 34 and 28. */
static void cleared_steward_letters(void)
{
    static struct rec_store store;
    const int32_t bad = REC_VALUE + 1;
    rec_store_fresh(&store);
    lone_text(&store, 'a', OPEN, "(b;)");
    lone_text(&store, 'm', OPEN, "(Id;)");
    lone_text(&store, 'd', OPEN, "(0b;'/1'-d;)");
    store.marks[1] = FOR_STEWARDS;
    for (uint8_t role = 0; role < 2; role++) {
        const int32_t inputs[] = {99};
        expect_lone_run(&store, 'b', role, 9, 10, 0, "10 before 33");
        check(lone_run(&store, 'b', role, 9, &bad, 1, REC_LIST, 9).number == 10, "10, 33, 11", "");
        check(lone_run(&store, 'b', role, 9, NULL, 0, 63, 9).number == 10, "10, 33, 12", "");
        expect_lone_run(&store, 'a', role, 9, 27, 0, "27 before 34");
        expect_lone_run(&store, 'a', role, 0, 20, 0, "20 before 27 and 34");
        check(lone_run(&store, 'm', role, 1000, inputs, 1, REC_LIST, 9).number == 27,
              "27 before 34 and 28", "");
    }
    expect_lone_run(&store, 'b', 2, 9, 35, 0, "35 before 10");
    check(lone_withdraw(&store, 'b') == 10 && store.marks[1] == FOR_STEWARDS, "withdraw", "");
    check(lone_text(&store, 'b', OPEN, "(") == 7 && store.marks[1] == FOR_STEWARDS, "define", "");
    check(lone_text(&store, 'b', 2, "(;)") == 35 && store.marks[1] == FOR_STEWARDS, "define", "");
    expect_number(&store, 'a', 0, "cleared steward letter");
    expect_number(&store, 'b', 10, "cleared steward letter");
    check(lone_text(&store, 'b', OPEN, "(;)") == 0 && store.marks[1] == OPEN, "define", "");
    expect_lone_run(&store, 'a', CASHIER, 9, 0, 3, "defined as open");
    store.used[1] = 0;
    check(lone_text(&store, 'b', FOR_STEWARDS, "(;)") == 0, "define", "");
    expect_lone_run(&store, 'a', CASHIER, 9, 34, 0, "defined as a steward's");
}

/* The same of a book, which calls leave so no more than a store: its orders are the same. */
static void cleared_steward_letters_of_books(void)
{
    static struct both b;
    both_fresh(&b);
    define_text(&b, 'a', "(b;)");
    define_text(&b, 'm', "(Id;)");
    define_text(&b, 'd', "(0b;'/1'-d;)");
    b.book.marks[1] = b.store.marks[1] = b.marks[1] = FOR_STEWARDS;
    for (uint8_t role = 0; role < 2; role++) {
        expect_refusal(&b, 'b', role, 0, REC_LIST, 10, "10 before 33");
        expect_refusal(&b, 'b', role, -REC_VALUE - 1, 63, 10, "10, 33, 11, 12");
        expect_run_as(&b, 'a', role, 9, "", 27, false, 0, 0, 0, "27 before 34");
        expect_run_as(&b, 'm', role, 1000, "99", 27, false, 399, 1, 0, "27 before 34 and 28");
    }
    expect_withdraw(&b, 'b', 10);
    expect_define(&b, 'b', OPEN, "(", 7);
    expect_marks(&b, "b", "refused");
    expect_define(&b, 'b', OPEN, "(;)", 0);
    expect_marks(&b, "", "made open");
    expect_runs(&b, 'a', 0, 0, "made open");
}

/* Table of letter `a`, which calls `b`. Of `b` no cell is read by a cashier's run. */
static void expect_damaged_call(const char *cells, size_t used, uint32_t cashiers,
                                uint32_t stewards, uint32_t steps)
{
    static struct rec_store store;
    rec_store_fresh(&store);
    put_cells(store.cells, cells);
    store.used[0] = used;
    put_cells(store.cells + REC_CELLS, "2000,-66,0,1");
    store.used[1] = 4;
    store.marks[1] = FOR_STEWARDS;
    expect_lone_run(&store, 'a', CASHIER, 9, cashiers, steps, cells);
    expect_lone_run(&store, 'a', STEWARD, 9, stewards, steps + (cashiers == 34), cells);
    expect_lone_run(&store, 'a', CASHIER, steps, cashiers == 34 ? 20 : cashiers, steps, cells);
    store.used[1] = 0;
    expect_lone_run(&store, 'a', CASHIER, 9, cashiers == 34 ? 27 : cashiers, steps, cells);
}

/* 29, then 20, then 34. */
static void damaged_steward_calls(void)
{
    expect_damaged_call("2000,-98,5,6,0,1", 6, 34, 29, 0);
    expect_damaged_call("2000,-98,7,6,0,1", 6, 29, 29, 0);
    expect_damaged_call("2000,-98,1,6,0,1", 6, 29, 29, 0);
    expect_damaged_call("2000,-98,0,6,0,1", 6, 29, 29, 0);
    expect_damaged_call("2000,-98,-98,6,0,1", 6, 29, 29, 0);
    expect_damaged_call("2000,-98,0,1", 4, 29, 29, 0);
    expect_damaged_call("2000,-88,-98,0,1", 5, 29, 29, 1);
    expect_damaged_call("2000,-88,-98,7,7,0,1", 7, 34, 29, 1);
    expect_damaged_call("2000,-88,-98,8,7,0,1", 7, 29, 29, 1);
    /* a transfer into a constant, where a call stands */
    expect_damaged_call("2000,4,-175,-98,7,0,1", 7, 34, 29, 1);
    expect_damaged_call("2000,4,-175,-98,8,0,1", 7, 29, 29, 1);
}

/* Every call of a store with a mark that is neither of the two. */
static void expect_13(struct rec_store *store)
{
    static const uint8_t longer[257];
    static const uint8_t roles[] = {CASHIER, STEWARD, 2, 255};
    const int32_t bad = -REC_VALUE - 1;
    for (const char *letter = "oscAz"; *letter; letter++) {
        uint8_t byte = (uint8_t)*letter;
        for (size_t i = 0; i < 4; i++) {
            check(lone_run(store, byte, roles[i], 9, NULL, 0, REC_LIST, 9).number == 13,
                  "13 of a run", "");
            check(lone_run(store, byte, roles[i], 9, &bad, 1, REC_LIST, 9).number == 13,
                  "13 before 11", "");
            check(lone_run(store, byte, roles[i], 9, NULL, 0, 65, 9).number == 13,
                  "13 before 12", "");
            check(lone_text(store, *letter, roles[i], "(;)") == 13, "13 of a define", "");
            check(lone_text(store, *letter, roles[i], "#") == 13, "13 before 3", "");
            check(lone_define(store, byte, roles[i], longer, 257) == 13, "13 before 2", "");
        }
        check(lone_withdraw(store, byte) == 13, "13 of a withdraw", "");
        expect_number(store, byte, 13, "13 of a reach");
    }
}

/* "The bad-store test covers a mark with any other value." `o` is open, `s` a steward's,
 * the others are cleared. */
static void strange_marks_of_stores(void)
{
    static const uint8_t strange[] = {2, 255};
    static struct rec_store store;
    rec_store_fresh(&store);
    lone_text(&store, 'o', OPEN, "(s;)");
    lone_text(&store, 's', FOR_STEWARDS, "(o;)");
    for (size_t i = 0; i < REC_LETTERS; i++)
        for (size_t j = 0; j < 2; j++) {
            uint8_t kept = store.marks[i];
            store.marks[i] = strange[j];
            expect_13(&store);
            store.marks[i] = kept;
        }
    for (int mark = 0; mark < 256; mark++) {
        store.marks[2] = (uint8_t)mark;
        expect_lone_run(&store, 'o', CASHIER, 9, mark < 2 ? 34 : 13, 0, "mark of `c`");
        expect_lone_run(&store, 's', CASHIER, 9, mark < 2 ? 33 : 13, 0, "mark of `c`");
        expect_lone_run(&store, 'c', CASHIER, 9, mark < 2 ? 10 : 13, 0, "mark of `c`");
    }
}

/* A store's marks that are not its book's: those alone decide. */
static void turned_marks(void)
{
    static struct rec_store store;
    rec_store_fresh(&store);
    lone_text(&store, 'a', OPEN, "(b;)");
    lone_text(&store, 'b', OPEN, "(;)");
    for (int marks = 0; marks < 4; marks++) {
        store.marks[0] = marks & 1;
        store.marks[1] = (uint8_t)(marks >> 1);
        expect_lone_run(&store, 'a', STEWARD, 9, 0, 3, "turned");
        expect_lone_run(&store, 'a', CASHIER, 9, marks & 1 ? 33 : marks ? 34 : 0, marks ? 0 : 3,
                        "turned");
        expect_number(&store, 'a', 0, "turned");
    }
}

/* ---- all of it --------------------------------------------------------- */

void duties_by_hand(void)
{
    marks_of_calls();
    marks_of_all_letters();
    strange_marks_and_roles();
    order_of_define();
    order_of_runs();
    figures_of_steward_call();
    steward_calls_in_chains();
    steward_calls_at_every_depth();
    roles_of_runs_before();
    all_small_stores();
    cleared_steward_letters();
    cleared_steward_letters_of_books();
    damaged_steward_calls();
    strange_marks_of_stores();
    turned_marks();
    steward_texts_by_hand();
}
