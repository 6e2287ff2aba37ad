/* The desk, edge by edge: document 01's examples, forms of lines, sizes, many lines. */
#include <stdio.h>
#include <stdlib.h>
#include <string.h>

#include "../../differential/texts.h"
#include "check.h"
#include "subjects.h"

#define DESK_WITHOUT_MAIN
#include "../desk.c"

static size_t desk_output(const char *input, size_t length, char *output, size_t room)
{
    FILE *in = tmpfile();
    FILE *out = tmpfile();
    struct tally tally = {0};
    size_t got;
    if (!in || !out) {
        puts("no temporary file");
        exit(2);
    }
    fwrite(input, 1, length, in);
    rewind(in);
    desk(in, out, &tally);
    check((unsigned long long)ftell(out) == tally.bytes, "bytes counted", "");
    check(tally.numbers[33] + tally.numbers[34] + tally.numbers[35] == 0, "U7's numbers", "desk");
    rewind(out);
    got = fread(output, 1, room, out);
    fclose(in);
    fclose(out);
    return got;
}

static void expect_desk(const char *input, const char *output)
{
    static char got[100000];
    size_t length = desk_output(input, strlen(input), got, sizeof got);
    check(length == strlen(output) && memcmp(got, output, length) == 0, "desk", input);
}

/* Only the answers, for a session without output. */
static void expect_answers(const void *input, size_t length, const char *answers)
{
    static char got[500000];
    size_t size = desk_output(input, length, got, sizeof got - 1);
    const char *at = got;
    got[size] = 0;
    while (*answers) {
        char *rest;
        long answer = strtol(answers, &rest, 10);
        char column[5] = {0};
        answers = rest;
        if (!check(size >= 37 && at[36] == '\n', "desk line missing", input))
            return;
        memcpy(column, at + 4, 4);
        check(strtol(column, NULL, 10) == answer, "desk answer", input);
        at += 37;
        size -= 37;
    }
    check(size == 0, "desk answers too much", input);
}

static void expect_answer(const char *input, const char *answers)
{
    expect_answers(input, strlen(input), answers);
}

static void desk_examples(void)
{
    expect_desk("D q ('/5'N)\nR q 9\nX q\nR q 9\n",
                "   1   0  0         0   0          0\n"
                "   2   0  1         2   1          5\n"
                "   3   0  0         0   0          0\n"
                "   4  10  0         0   0          0\n");
    expect_desk("D q (''ab'X;)\nR q 9\nD q (''ab'O;)\nR q 9\n"
                "D q (II''';)\nR q 999999999 1 -999999999",
                "   1   0  0         0   0          0\n"
                "   2   0  1         3   0          0\nab\n\n"
                "   3   0  0         0   0          0\n"
                "   4  21  0         1   0          0\nab\n"
                "   5   0  0         0   0          0\n"
                "   6   0  1         4   2 -999999999\n");
    expect_desk("D q (II/;)\nR q 9 -7 2\nR q 9 7 -2\nR q 9 -7 -2\nR q 9 -7 0\nR q 9 -7",
                "   1   0  0         0   0          0\n"
                "   2   0  1         4   1         -4\n"
                "   3   0  1         4   1         -4\n"
                "   4   0  1         4   1          3\n"
                "   5  24  0         2   2          0\n"
                "   6  25  0         1   1         -7\n");
    /* U6 is for what a run writes; the desk's own figures are plain */
    expect_desk("D q (IOX;)\nR q 9 -1250\nR q 9 5\nR q 2 0\nR q 9 -999999999",
                "   1   0  0         0   0          0\n"
                "   2   0  1         4   1      -1250\n        -12.50\n\n"
                "   3   0  1         4   1          5\n          0.05\n\n"
                "   4  20  0         2   1          0\n          0.00\n"
                "   5   0  1         4   1 -999999999\n   -9999999.99\n\n");
    /* letters are open, so a cashier's run may call each (U7) */
    expect_answer("D a (b;)\nD b (c;)\nD c (;)\nR a 9\nR b 9\nR c 9\nX c\nR a 9\nD c ()\nR a 9",
                  "0 0 0 0 0 0 0 27 0 0");
    expect_desk("", "");
    expect_desk("\n", "   1  14  0         0   0          0\n");
    expect_desk("\n\n", "   1  14  0         0   0          0\n"
                        "   2  14  0         0   0          0\n");
}

/* 292 columns of 14 bytes and a newline after the figures. */
static void desk_paper(void)
{
    static const char input[] = "D q ('/-1250'($999$O:;);)\nR q 5000\n";
    static char got[10000];
    size_t size = desk_output(input, sizeof input - 1, got, sizeof got);
    check(size == 37 + 37 + 292 * 14 + 1
              && memcmp(got + 37, "   2  26  0       878   1      -1250\n        -12.50", 51) == 0
              && memcmp(got + size - 15, "        -12.50\n", 15) == 0, "desk's paper", "");
}

static void desk_edges(void)
{
    static const char zeros[] = "D \0 ()\nX \0\nR \0 5\nD q \0()\n\0\n";
    expect_answer("D q", "14");
    expect_answer("D q\n", "14");
    expect_answer("D q ", "7");
    expect_answer("D q  ", "7");
    expect_answer("D  ", "14");
    expect_answer("D   ", "1");
    expect_answer("D   ()", "1");
    expect_answer("D  q ()", "14");
    expect_answer("D 5 ()", "1");
    expect_answer("D Q", "14");
    expect_answer("D Q (", "1");
    expect_answer("d q ()", "14");
    expect_answer(" D q ()", "14");
    expect_answer("Dq ()", "14");
    expect_answer("D qq ()", "14");
    expect_answer("D\tq ()", "14");
    expect_answer("D q ()\r", "3");
    expect_answers(zeros, sizeof zeros - 1, "1 1 1 3 14");
    expect_answer("D q ()\nX q\nX q\nX Q\nX q \nXq\nX  q\nX  \n X q", "0 0 10 1 14 14 14 1 14");
    expect_answer("D q ()\nX q\r", "0 14");
    expect_answer("R q 5\nR Q 5\nR   5\nR q\nR q \nR Q x\nR q x", "10 1 1 14 14 14 14");
    expect_answer("D q ()\nR q 5\nR q 5 \nR q  5\nR q 5  1\nR q -5\nR q +5\nR q 5 +1",
                  "0 0 14 14 14 14 14 14");
    expect_answer("D q ()\nR q 0\nR q 000000001\nR q 0000000001\nR q 1 -0\nR q 1 -\nR q 1 --1",
                  "0 20 0 14 0 14 14");
    expect_answer("D q ()\nR q 1 999999999 -999999999\nR q 1 1000000000\nR q 1 -1000000000"
                  "\nR q 999999999\nR q 1000000000\nR q 1 1-\nR q 1 1x\nR q 1\t1",
                  "0 0 14 14 0 14 14 14 14");
}

static void desk_sizes(void)
{
    struct text text;
    for (size_t inputs = 63; inputs <= 66; inputs++) {
        text_clear(&text);
        text_add(&text, "D q ()\nR q 5");
        text_fill(&text, " 1", inputs);
        expect_answers(text.bytes, text.length, inputs <= 64 ? "0 0" : "0 14");
    }
    for (size_t length = 298; length <= 302; length++) {
        text_clear(&text);
        text_add(&text, "D q ");
        text_fill(&text, " ", length - 4);
        expect_answers(text.bytes, text.length, length <= 300 ? "2" : "14");
        text_add(&text, "\nX q\n");
        expect_answers(text.bytes, text.length, length <= 300 ? "2 10" : "14 10");
        text_clear(&text);
        text_add(&text, "D q ()\nR q 9");
        text_fill(&text, " 1234567", 36);
        text_add(&text, " ");
        text_fill(&text, "1", length - 5 - 36 * 8 - 1);
        expect_answers(text.bytes, text.length, length <= 300 ? "0 0" : "0 14");
    }
}

static void desk_many(void)
{
    static char input[30000];
    static char got[600000];
    size_t size;
    memset(input, '\n', sizeof input);
    size = desk_output(input, 9998, got, sizeof got);
    check(size == 9998 * 37, "9,998 lines", "");
    size = desk_output(input, 9999, got, sizeof got);
    check(size == 9999 * 37, "9,999 lines", "");
    size = desk_output(input, 10000, got, sizeof got);
    check(size == 9999 * 37, "10,000 lines", "");
    input[9998] = 'x'; /* line 9,999, its newline after it */
    size = desk_output(input, 9999, got, sizeof got);
    check(size == 9999 * 37 && memcmp(got + 9998 * 37, "9999  14", 8) == 0, "line 9,999", "");
    size = desk_output(input, sizeof input, got, sizeof got);
    check(size == 9999 * 37, "30,000 lines", "");
}

void desk_by_hand(void)
{
    desk_examples();
    desk_paper();
    desk_edges();
    desk_sizes();
    desk_many();
}
