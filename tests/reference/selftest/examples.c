/* Every example of document 01, starred or not: tables, answers, steps; and some beyond
 * the document, worked by hand. */
#include <stdlib.h>
#include <string.h>

#include "../../differential/texts.h"
#include "../rec.h"
#include "check.h"
#include "fair_copy.h"
#include "runs.h"
#include "subjects.h"

static void expect_table(const char *text, const char *cells)
{
    struct rec_tree tree;
    int32_t table[REC_CELLS];
    size_t used = 0;
    uint32_t fault = compare_accounts((const uint8_t *)text, strlen(text));
    if (!check(fault == 0, "text refused", text))
        return;
    rec_read((const uint8_t *)text, strlen(text), &tree);
    rec_table(&tree, table);
    while (*cells) {
        char *rest;
        check(table[used] == strtol(cells, &rest, 10), "cell differs", text);
        used++;
        cells = *rest == ',' ? rest + 1 : rest;
    }
    check(tree.used == used, "used count differs", text);
    for (size_t i = used; i < REC_CELLS; i++)
        check(table[i] == 0, "cell past the used ones", text);
}

static void expect_fault(const char *text, uint32_t number)
{
    check(compare_accounts((const uint8_t *)text, strlen(text)) == number, "fault", text);
}

static void examples_of_tables(void)
{
    expect_table("()", "2000,0,1");
    expect_table("(;)", "2000,4,0,1");
    expect_table("(())", "2000,4,0,1");
    expect_table("(:)", "2000,2,0,1");
    expect_table("(N;)", "2000,-78,5,6,0,1");
    expect_table("(N)", "2000,-78,5,0,1");
    expect_table("('/5'N)", "2000,-175,5,-78,7,0,1");
    /* beyond the document, worked by hand */
    expect_table(" \"c\n\" (,\n.)\n", "2000,5,2,0,1");
    expect_table("(F0S9A)", "2000,-70,10,-83,9,-65,0,1");
    expect_table("(''ab'X)", "2000,-167,2,97,98,-88,0,1");
    expect_table("(''')", "2000,-167,0,0,1");
    expect_table("('/-07'$12$$0003$)", "2000,-175,-7,-36,-12,0,13,-36,-3,1,13,0,1");
    expect_table("('/0'($5$'/1'+:;);)",
                 "2000,-175,0,-36,-5,0,12,-175,1,-43,4,14,15,16,0,1");
    expect_table("((N;)0)", "2000,-78,5,6,9,-48,9,0,1");
    expect_table("(Id;)", "2000,-73,-100,6,7,0,1");
    expect_table("(0L'/1';'/1'-d'/2'*;)",
                 "2000,-48,8,-76,-175,1,18,-175,1,-45,-100,17,-175,2,-42,18,0,1");
}

static void examples_of_runs(void)
{
    expect_text("()", 1000, 0, false, 1, 0, 0);
    expect_text("(;)", 1000, 0, true, 1, 0, 0);
    expect_text("(())", 1000, 0, true, 1, 0, 0);
    expect_text("(:)", 7, 20, false, 7, 0, 0);
    expect_text("(:)", 0, 20, false, 0, 0, 0);
    expect_text("('/5'N)", 1000, 0, true, 2, 1, 5);
    expect_text("('/0'($5$'/1'+:;);)", 1000, 0, true, 24, 1, 5);
    expect_text("('/0'('/1'+$5$:;);)", 1000, 0, true, 26, 1, 6);
    expect_text("(((((((((())))))))))", 1000, 0, true, 5, 0, 0);
    /* beyond the document, worked by hand */
    expect_text("(N)", 1000, 21, false, 0, 0, 0);
    expect_text("('/-5'N)", 1000, 0, false, 3, 1, -5);
    expect_text("()", 1, 0, false, 1, 0, 0);
    expect_text("()", 0, 20, false, 0, 0, 0);
    expect_text("(;)", 1, 0, true, 1, 0, 0);
    expect_text("(())", 1, 0, true, 1, 0, 0);
    expect_text("('/5'N)", 2, 0, true, 2, 1, 5);
    expect_text("('/5'N)", 1, 20, false, 1, 1, 5);
    expect_text("('/-7''/2'/;)", 1000, 0, true, 4, 1, -4);
    expect_text("('/7''/-2'/;)", 1000, 0, true, 4, 1, -4);
    expect_text("('/7''/0'/;)", 1000, 24, false, 2, 2, 0);
    expect_text("('/0'/;)", 1000, 21, false, 1, 1, 0);
    expect_text("('/999999999''/1'+;)", 1000, 23, false, 2, 2, 1);
    expect_text("('/-999999999''/1'-;)", 1000, 23, false, 2, 2, 1);
    expect_text("('/-999999999'M;)", 1000, 0, true, 3, 1, 999999999);
    expect_text("('/31623'P*;)", 1000, 23, false, 2, 2, 31623);
    expect_text("('/1':)", 1000, 22, false, 128, 64, 1);
    expect_text("(($64$'/1':;)I;)", 1000, 25, false, 64 * 3 + 2, 64, 1);
    expect_text("(($64$'/1':;)F1;)", 1000, 22, false, 64 * 3 + 2, 64, 1);
    expect_text("(P;)", 1000, 21, false, 0, 0, 0);
    expect_text("(w;)", 1000, 27, false, 0, 0, 0);
    expect_text("(q;)", 1000, 28, false, 100, 0, 0);
}

static void examples_of_calls(void)
{
    static struct both b;
    both_fresh(&b);
    define_text(&b, 'd', "(0L'/1';'/1'-d'/2'*;)");
    define_text(&b, 'm', "(Id;)");
    expect_run(&b, 'm', 1000, "3", 0, true, 28, 1, 8, "m 3");
    expect_run(&b, 'm', 1000, "29", 0, true, 210, 1, 536870912, "m 29");
    /* the endings are the document's, the figures are worked by hand */
    expect_run(&b, 'm', 1000, "30", 23, false, 214, 2, 2, "m 30");
    expect_run(&b, 'm', 1000, "99", 23, false, 490, 2, 2, "m 99");
    expect_run(&b, 'm', 1000, "100", 28, false, 401, 1, 0, "m 100");
    /* one counter for all entries; a call by letter, not by cells */
    define_text(&b, 'w', "($2$;)");
    define_text(&b, 'q', "(www;)");
    expect_run(&b, 'q', 1000, "", 0, false, 10, 0, 0, "shared counter");
    expect_run(&b, 'q', 1000, "", 0, false, 10, 0, 0, "counters full at the start");
    define_text(&b, 'w', "(;)");
    expect_run(&b, 'q', 1000, "", 0, true, 7, 0, 0, "replaced letter");
    both_withdraw(&b, 'w');
    expect_run(&b, 'q', 1000, "", 27, false, 0, 0, 0, "withdrawn letter");
    /* 27 before 28: the 101st call is of a cleared letter */
    define_text(&b, 'd', "(0w;'/1'-d;)");
    expect_run(&b, 'm', 1000, "99", 27, false, 2 + 99 * 4 + 1, 1, 0, "27 before 28");
    /* variables: kept by a finished run only */
    define_text(&b, 'v', "(F1'/1'+S1I;)");
    expect_run(&b, 'v', 1000, "7", 0, true, 6, 2, 7, "finished");
    expect_run(&b, 'v', 1000, "", 25, false, 4, 1, 2, "not finished");
    expect_run(&b, 'v', 1000, "7", 0, true, 6, 2, 7, "finished again");
    check(b.book.variables[0] == 2, "variable 1", "");
    define_text(&b, 'v', "('/9'S0;)");
    expect_run(&b, 'v', 1000, "", 0, true, 3, 1, 9, "variable 0");
    check(b.book.variables[9] == 9, "variable 0 stands last", "");
}

static void examples_of_output(void)
{
    expect_output("('/-7'O''x'X;)", "", "         -0.07x\n");
    expect_output("(IOIOIOX;)", "0 999999999 -999999999",
                  "          0.00    9999999.99   -9999999.99\n");
    expect_output("(''';)", "", "");
    expect_output("(''a\"b ;:';)", "", "a\"b ;:");
    expect_output("(''ab'O;)", "", "ab");
}

/* Text with some bytes repeated in the middle. */
static void expect_filled(const char *left, const char *middle, size_t times,
                          const char *right, uint32_t number, size_t used)
{
    struct text text;
    struct rec_tree tree;
    text_clear(&text);
    text_add(&text, left);
    text_fill(&text, middle, times);
    text_add(&text, right);
    check(compare_accounts(text.bytes, text.length) == number, "filled text", right);
    if (number == 0 && rec_read(text.bytes, text.length, &tree) == 0)
        check(tree.used == used, "used count of a filled text", right);
}

static void examples_of_limits(void)
{
    static const char sixteen[] = "($1$$1$$1$$1$$1$$1$$1$$1$$1$$1$$1$$1$$1$$1$$1$$1$";
    expect_filled("", "(", 11, "", REC_DEEP, 0);
    expect_filled("((((((((((", "()", 1, "", REC_DEEP, 0);
    expect_filled("(", "N", 123, ")", 0, 249);
    expect_filled("(", "N", 124, ")", REC_TABLE_FULL, 0);
    /* beyond the document */
    expect_filled("(", "N", 123, "A)", 0, 250);
    expect_filled("(", "N", 123, "N)", REC_TABLE_FULL, 0);
    expect_filled("(", "N", 124, "", REC_UNFINISHED, 0);
    expect_filled("(", "N", 124, "A", REC_UNFINISHED, 0);
    expect_filled("(", "N", 124, "F1", REC_TABLE_FULL, 0);
    expect_filled("(", "N", 124, "Fx", REC_STRAY_MARK, 0);
    expect_filled("(", "N", 124, "F", REC_UNFINISHED, 0);
    expect_filled("(", "N", 124, "'/x", REC_BAD_CONSTANT, 0);
    expect_filled("(", "N", 124, "'/1'", REC_TABLE_FULL, 0);
    expect_filled("(", "N", 124, "''a\n'", REC_STRAY_MARK, 0);
    expect_filled("(", "N", 124, "$0$", REC_BAD_COUNTER, 0);
    expect_filled("(", "N", 124, "$1$", REC_TABLE_FULL, 0);
    expect_filled("(", "N", 124, "()", REC_UNFINISHED, 0);
    expect_filled("(", "N", 124, "();", REC_TABLE_FULL, 0);
    expect_filled("(", "$1$", 16, ")", 0, 67);
    expect_filled("(", "$1$", 17, ")", REC_MANY_COUNTERS, 0);
    expect_filled(sixteen, "N", 92, "$1$)", REC_MANY_COUNTERS, 0);
    expect_filled(sixteen, "N", 92, "$0$)", REC_BAD_COUNTER, 0);
    expect_filled(sixteen, "N", 92, "N)", REC_TABLE_FULL, 0);
    expect_filled("()", " ", 254, "", 0, 3);
    expect_filled("()", " ", 255, "", REC_LONG_TEXT, 0);
    expect_filled("", "#", 257, "", REC_LONG_TEXT, 0);
    expect_filled("(''", "p", 245, "')", 0, 250);
    expect_filled("(''", "p", 246, "')", REC_TABLE_FULL, 0);
}

static void examples_of_faults(void)
{
    static const struct {
        const char *text;
        uint32_t number;
    } cases[] = {
        {"", 7}, {"($0$)", 5}, /* the document's */
        {" ", 7}, {"(", 7}, {")", 3}, {"())", 3}, {"()()", 3},
        {"(1)", 3}, {"(B)", 3}, {"(\t)", 3}, {"()\t", 3}, {"($$)", 5}, {"($12345$)", 5},
        {"($1 $)", 5}, {"($0", 7}, {"($0000$)", 5}, {"($", 7}, {"('/')", 6}, {"('/-')", 6},
        {"('/--1')", 6}, {"('/1234567890')", 6}, {"('/12-')", 6}, {"('/", 7}, {"('/-", 7},
        {"('/1", 7}, {"('", 7}, {"('x", 3}, {"(''", 7}, {"(''a", 7}, {"(''\n')", 3},
        {"(''\x7f')", 3}, {"(F)", 3}, {"(F 1)", 3}, {"(F", 7}, {"(S", 7}, {"\"", 7},
        {"\"\t\"()", 3}, {"()\"", 7}, {"()\"\x7f\"", 3}, {"\"a\n\"()\n", 0}, {"(a)", 0},
        {"(`)", 3}, {"({)", 3}, {"$1$", 3}, {"'/1'", 3}, {"N", 3}, {"(F\"\"1)", 3},
        {"($1\"\"$)", 5}, {"('\"\"/1')", 3}, {"(''\"')", 0}, {"(\"'\")", 0}, {"()(", 3},
        {"()N", 3}, {"();", 3}, {";()", 3}, {"('/000000000')", 0}, {"('/-0')", 0},
    };
    for (size_t i = 0; i < sizeof cases / sizeof cases[0]; i++)
        expect_fault(cases[i].text, cases[i].number);
}

void examples_by_hand(void)
{
    examples_of_tables();
    examples_of_runs();
    examples_of_calls();
    examples_of_output();
    examples_of_limits();
    examples_of_faults();
}
