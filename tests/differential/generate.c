/* Makes a desk session from a seed.
 *
 *     generate SEED        the session, on standard output
 *     generate -k SEED     the kind of that session
 *
 * Every line is also obeyed by the reference's desk while it is made. So the
 * generator knows how a run would end: it asks for allowances that are just
 * enough, and leaves out runs that would be too long to wait for. */
#include <stdio.h>
#include <stdlib.h>
#include <string.h>

#define DESK_WITHOUT_MAIN
#include "../reference/desk.c"
#include "texts.h"

enum { LETTERS = 8, TRIAL = 20000 };

struct session {
    struct random r;
    struct rec_book book;
    struct figures figures;
    uint8_t letters[LETTERS];
    size_t letter_count;
    uint8_t latest;    /* letter of the last accepted define */
    size_t lines;
    uint64_t work;     /* steps the session may still take */
    uint32_t longest;  /* steps one run may take at most */
    uint32_t answer;   /* of the last line */
    bool begun;
};

/* ---- lines ------------------------------------------------------------- */

static void hold_line(struct line *line, const uint8_t *bytes, size_t length)
{
    line->length = length;
    line->at = 0;
    memcpy(line->bytes, bytes, length < LINE_BYTES ? length : LINE_BYTES);
}

/* The allowance of a run line, or 0 if it is another line or a bad one. */
static uint32_t allowance_of(const struct line *line)
{
    struct line copy = *line;
    int32_t allowance, inputs[INPUTS];
    size_t count;
    if (copy.length > LINE_BYTES || !takes(&copy, 'R') || !takes(&copy, ' ')
        || copy.length < 5)
        return 0;
    copy.at++;
    if (!takes(&copy, ' ') || !takes_number(&copy, &allowance)
        || !takes_inputs(&copy, inputs, &count))
        return 0;
    return (uint32_t)allowance;
}

/* How a run line would end with another allowance; the book stays. */
static struct rec_answer try_run(struct session *s, const struct line *line,
                                 uint32_t allowance)
{
    static struct figures figures;
    int32_t variables[REC_VARIABLES], inputs[INPUTS], list[REC_LIST], number;
    struct rec_loan loan = {inputs, 0, list, REC_LIST, figures.output, PAPER};
    struct line copy = *line;
    struct rec_answer answer;
    copy.at = 4;
    takes_number(&copy, &number);
    takes_inputs(&copy, inputs, &loan.input_length);
    memcpy(variables, s->book.variables, sizeof variables);
    answer = rec_book_run(&s->book, line->bytes[2], REC_CASHIER, allowance, &loan);
    memcpy(s->book.variables, variables, sizeof variables);
    return answer;
}

static uint32_t patience(const struct session *s)
{
    return s->work < s->longest ? (uint32_t)s->work : s->longest;
}

static bool too_long(struct session *s, const struct line *line)
{
    uint32_t allowance = allowance_of(line);
    if (allowance <= patience(s) || allowance <= 100)
        return false;
    return try_run(s, line, patience(s)).number == REC_SPENT;
}

/* Writes one line without its newline; gives false if it was left out. */
static bool one_line(struct session *s, const uint8_t *bytes, size_t length)
{
    struct line line;
    hold_line(&line, bytes, length);
    if (s->lines < LINES) {
        if (too_long(s, &line))
            return false;
        memset(&s->figures.answer, 0, sizeof s->figures.answer);
        s->figures.top = 0;
        s->answer = answer_line(&s->book, &line, &s->figures);
        s->work -= s->figures.answer.steps < s->work ? s->figures.answer.steps : s->work;
    }
    if (s->begun)
        putchar('\n');
    s->begun = true;
    fwrite(bytes, 1, length, stdout);
    s->lines++;
    return true;
}

/* Writes what is one line or, with newlines in it, several. */
static void line_of(struct session *s, const struct text *text)
{
    size_t from = 0;
    for (size_t i = 0; i <= text->length; i++) {
        if (i == text->length || text->bytes[i] == '\n') {
            one_line(s, text->bytes + from, i - from);
            from = i + 1;
        }
    }
}

static void words_line(struct session *s, const char *words)
{
    struct text line;
    text_clear(&line);
    text_add(&line, words);
    line_of(s, &line);
}

static void end_session(struct session *s)
{
    if (s->begun && chance(&s->r, 85))
        putchar('\n');
}

/* ---- defines, withdraws, runs ------------------------------------------ */

static uint8_t own_letter(struct session *s)
{
    return s->letters[below(&s->r, (uint32_t)s->letter_count)];
}

/* A letter to run: often the one defined last. */
static uint8_t run_letter(struct session *s)
{
    return s->latest && chance(&s->r, 65) ? s->latest : own_letter(s);
}

static uint8_t some_letter(struct session *s)
{
    static const uint8_t odd[] = {'A', 'Z', '`', '{', ' ', '0', 0, 255, 'D', '('};
    if (chance(&s->r, 94))
        return own_letter(s);
    if (chance(&s->r, 50))
        return (uint8_t)between(&s->r, 'a', 'z');
    return chance(&s->r, 80) ? odd[below(&s->r, sizeof odd)]
                             : (uint8_t)below(&s->r, 256);
}

static void start_line(struct text *line, char command, uint8_t letter)
{
    text_clear(line);
    text_byte(line, (uint8_t)command);
    text_byte(line, ' ');
    text_byte(line, letter);
}

static void define_line(struct text *line, uint8_t letter, const struct text *text)
{
    start_line(line, 'D', letter);
    text_byte(line, ' ');
    for (size_t i = 0; i < text->length; i++)
        text_byte(line, text->bytes[i]);
}

static void define(struct session *s, uint8_t letter, const struct text *text)
{
    struct text line;
    define_line(&line, letter, text);
    line_of(s, &line);
    if (s->answer == 0)
        s->latest = letter;
}

static void define_words(struct session *s, uint8_t letter, const char *words)
{
    struct text text;
    text_clear(&text);
    text_add(&text, words);
    define(s, letter, &text);
}

static void withdraw(struct session *s, uint8_t letter)
{
    struct text line;
    start_line(&line, 'X', letter);
    line_of(s, &line);
}

static void add_number(struct session *s, struct text *line, int32_t number)
{
    char words[16];
    text_byte(line, ' ');
    if (number < 0)
        text_byte(line, '-');
    else if (number == 0 && chance(&s->r, 5))
        text_byte(line, '-');
    snprintf(words, sizeof words, "%0*d", chance(&s->r, 4) ? between(&s->r, 1, 9) : 1,
             abs(number));
    text_add(line, words);
}

static void add_inputs(struct session *s, struct text *line)
{
    int count = chance(&s->r, 40) ? 0 : between(&s->r, 1, chance(&s->r, 90) ? 6 : 24);
    while (count-- > 0)
        add_number(s, line, random_value(&s->r));
}

static void run_line(struct text *line, uint8_t letter, uint32_t allowance,
                     const struct text *inputs)
{
    start_line(line, 'R', letter);
    text_byte(line, ' ');
    text_number(line, allowance);
    for (size_t i = 0; i < inputs->length; i++)
        text_byte(line, inputs->bytes[i]);
}

/* An allowance that suits how the run would end. */
static uint32_t suit_allowance(struct session *s, uint8_t letter,
                               const struct text *inputs)
{
    struct text words;
    struct line line;
    struct rec_answer trial;
    run_line(&words, letter, TRIAL, inputs);
    hold_line(&line, words.bytes, words.length);
    if (!allowance_of(&line))
        return 10;
    trial = try_run(s, &line, patience(s) < TRIAL ? patience(s) : TRIAL);
    switch (below(&s->r, 12)) {
    case 0:
        return below(&s->r, 4);
    case 1:
        return trial.steps;
    case 2:
        return trial.steps + 1;
    case 3:
        return trial.steps > 0 ? trial.steps - 1 : 0;
    case 4:
        return below(&s->r, trial.steps + 1);
    case 5:
        return 999999999;
    default:
        return (uint32_t)between(&s->r, 10, 4000);
    }
}

static void run_with(struct session *s, uint8_t letter, const struct text *inputs)
{
    struct text line;
    run_line(&line, letter, suit_allowance(s, letter, inputs), inputs);
    line_of(s, &line);
}

static void run(struct session *s, uint8_t letter)
{
    struct text inputs;
    text_clear(&inputs);
    add_inputs(s, &inputs);
    run_with(s, letter, &inputs);
}

static void run_words(struct session *s, uint8_t letter, const char *rest)
{
    struct text line;
    start_line(&line, 'R', letter);
    text_byte(&line, ' ');
    text_add(&line, rest);
    line_of(s, &line);
}

static void new_letters(struct session *s)
{
    s->letter_count = (size_t)between(&s->r, 1, LETTERS);
    for (size_t i = 0; i < s->letter_count; i++)
        s->letters[i] = (uint8_t)between(&s->r, 'a', 'z');
}

/* A random text, preferably one that reads well. */
static void some_text(struct session *s, struct text *text)
{
    struct rec_tree tree;
    for (int tries = 0; tries < 4; tries++) {
        struct taste taste = random_taste(&s->r, s->letters, s->letter_count);
        text_random(&s->r, &taste, text);
        if (rec_read(text->bytes, text->length, &tree) == 0)
            return;
    }
}

/* Defines a random text, preferably one whose run gets somewhere. */
static void define_random(struct session *s, uint8_t letter)
{
    static struct rec_book before;
    struct text text;
    for (int tries = 0; tries < 5; tries++) {
        int32_t inputs[] = {3, -5, 12, 0, 7}, list[REC_LIST];
        uint8_t output[PAPER];
        struct rec_loan loan = {inputs, 5, list, REC_LIST, output, PAPER};
        struct rec_answer answer;
        some_text(s, &text);
        before = s->book;
        rec_book_define(&s->book, letter, REC_OPEN, text.bytes, text.length);
        answer = rec_book_run(&s->book, letter, REC_CASHIER, 1000, &loan);
        s->book = before;
        if (answer.number == REC_RANGE || answer.number == REC_ZERO_DIVISOR
            || answer.number == REC_PAPER_OUT)
            break;
        if (answer.steps > 12 && answer.number != REC_SPENT
            && answer.number != REC_LIST_EMPTY)
            break;
    }
    define(s, letter, &text);
}

/* ---- kinds of sessions ------------------------------------------------- */

static void valid_session(struct session *s)
{
    int lines = between(&s->r, 5, 200);
    new_letters(s);
    for (size_t i = 0; i < s->letter_count; i++)
        define_random(s, s->letters[i]);
    while (lines-- > 0) {
        uint32_t pick = below(&s->r, 100);
        if (pick < 22)
            define_random(s, some_letter(s));
        else if (pick < 28)
            withdraw(s, some_letter(s));
        else
            run(s, chance(&s->r, 70) ? run_letter(s) : some_letter(s));
    }
}

static void spoilt_session(struct session *s)
{
    int lines = between(&s->r, 5, 200);
    new_letters(s);
    while (lines-- > 0) {
        struct text text, line, inputs;
        uint32_t pick = below(&s->r, 100);
        if (pick < 50) {
            some_text(s, &text);
            if (chance(&s->r, 75))
                text_spoil(&s->r, &text);
            define_line(&line, some_letter(s), &text);
        } else if (pick < 58) {
            start_line(&line, 'X', some_letter(s));
        } else {
            text_clear(&inputs);
            add_inputs(s, &inputs);
            run_line(&line, some_letter(s), below(&s->r, 5000), &inputs);
        }
        if (chance(&s->r, pick < 50 ? 15 : 50))
            text_spoil(&s->r, &line);
        line_of(s, &line);
        if (chance(&s->r, 10))
            line_of(s, &line);
        if (pick < 50 && s->answer == 0 && line.length > 2)
            s->latest = line.bytes[2];
        if (chance(&s->r, 40))
            run(s, run_letter(s));
    }
}

/* ---- limits ------------------------------------------------------------ */

/* A valid text brought to a length by blanks, a comment or a print. */
static void length_limit(struct session *s)
{
    struct text text;
    size_t length = (size_t)between(&s->r, 254, 259);
    text_clear(&text);
    switch (below(&s->r, 4)) {
    case 0:
        text_add(&text, "('/7'O;)");
        text_fill(&text, " ", length - text.length);
        break;
    case 1:
        text_fill(&text, " ", length - 8);
        text_add(&text, "('/7'O;)");
        break;
    case 2:
        text_add(&text, "(X\"");
        text_fill(&text, "c", length - 6);
        text_add(&text, "\";)");
        break;
    default:
        text_add(&text, "(''");
        text_fill(&text, "p", 200);
        text_add(&text, "'");
        text_fill(&text, " ", length - text.length - 2);
        text_add(&text, ";)");
        break;
    }
    define(s, own_letter(s), &text);
}

static void level_limit(struct session *s)
{
    static const char *const insides[] = {"", "'/1'", "X", "$2$", "X;", "'/0'0:", "\"(\""};
    struct text text;
    int levels = between(&s->r, 8, 12);
    text_clear(&text);
    for (int i = 0; i < levels; i++) {
        text_add(&text, "(");
        text_add(&text, insides[below(&s->r, 7)]);
        if (chance(&s->r, 10))
            text_add(&text, "()");
    }
    for (int i = 0; i < levels; i++) {
        text_add(&text, chance(&s->r, 30) ? ";" : "");
        text_add(&text, ")");
    }
    if (chance(&s->r, 5))
        text_add(&text, ")");
    define(s, own_letter(s), &text);
}

static void counter_limit(struct session *s)
{
    static const char *const lasts[] = {"$1$", "$0$", "$12345$", "$$", "$9999$", "$7",
                                        "$0001$", "$1x$", "$ 1$", "$0000$"};
    struct text text;
    int counters = between(&s->r, 14, 18);
    text_clear(&text);
    text_add(&text, "('/0'(");
    for (int i = 1; i < counters; i++) {
        text_add(&text, "$");
        text_number(&text, between(&s->r, 1, 3));
        text_add(&text, "$");
    }
    if (chance(&s->r, 30))
        text_fill(&text, "N", (size_t)between(&s->r, 80, 95));
    text_add(&text, lasts[below(&s->r, 10)]);
    text_add(&text, chance(&s->r, 50) ? "'/1'+:;);)" : ";'/1'+:);)");
    define(s, own_letter(s), &text);
}

/* Fills a table up to about its end, then sets some mark there. */
static void cell_limit(struct session *s)
{
    static const char *const marks[] = {"A", "F1", "S0", "N", "q", "$1$", "'/5'", "''ab'",
                                        "'''", ";", ":", "()", "(;)", "F", "Fx", "'/5",
                                        "'/x", "''ab", "$0$", "$5", "'x", "(", "#"};
    struct text text;
    size_t cells = (size_t)between(&s->r, 243, 251);
    text_clear(&text);
    text_add(&text, "('/1'");
    if (chance(&s->r, 20))
        text_fill(&text, "$1$", 16);
    while (text.length < 200 && chance(&s->r, 60))
        text_add(&text, chance(&s->r, 50) ? "P" : "L'/0'");
    for (;;) {
        struct rec_tree tree;
        struct text closed = text;
        text_add(&closed, ")");
        if (rec_read(closed.bytes, closed.length, &tree) != 0 || tree.used + 1u > cells)
            break;
        text_add(&text, tree.used + 2u > cells ? "A" : chance(&s->r, 5) ? "F2" : "0");
    }
    if (chance(&s->r, 80))
        text_add(&text, marks[below(&s->r, sizeof marks / sizeof marks[0])]);
    if (chance(&s->r, 90))
        text_add(&text, ")");
    define(s, own_letter(s), &text);
}

static void number_limit(struct session *s)
{
    static const char *const texts[] = {
        "('/999999999';)", "('/-999999999';)", "('/1234567890';)", "('/0000000000';)",
        "('/-000000000';)", "('/--1';)", "('/-';)", "('/';)", "('/1-';)", "('/ 1';)",
        "('/+1';)", "($9999$;)", "($10000$;)", "($00001$;)", "($0$;)", "($;)", "($-1$;)",
        "(F;)", "(F 1;)", "(S10;)", "(SA;)", "(1;)", "(9;)", "('a';)", "(' '1';)",
        "(''a\tb';)", "(\"a\tb\";)", "(\"\";)", "(\";)", "\"\"()", "()\"", "()()", "(;))",
        ")", "", " ", "(", "(')", "('", "('/", "('/-", "('/1", "('')", "('''", "('''')",
        "($", "($1", "(F", "(B)", "(\x7f)", "(''\x7f')", "(\"\x80\")", "(''~')", "\"x",
        "x()", "$1$", "'/1'", "'' '", "; ()", "(\"x\"\"y\")", "(''\"')", "(F\"\"1)",
        "(+)", "(%)", "([)", "(T)", "(\r)", "(\x1b)", "((", "((;)", "(();", "F1", "0"};
    define_words(s, own_letter(s), texts[below(&s->r, sizeof texts / sizeof texts[0])]);
}

/* One byte from the edge of some set of bytes, at any place of a text. */
static void byte_limit(struct session *s)
{
    static const uint8_t edges[] = {0, 9, 11, 13, 31, 32, 33, 34, 36, 38, 39, 40, 41, 42, 44,
                                    45, 46, 47, 48, 57, 58, 59, 60, 64, 91, 96, 97, 122, 123,
                                    126, 127, 128, 160, 167, 175, 176, 255};
    static const char *const places[][2] = {
        {"", "()"},         {"()", ""},          {"(", ")"},         {"(X", ";)"},
        {"(\"", "\")"},     {"\"", "\"()"},      {"()\"", "\""},   {"(''", "')"},
        {"(''a", "b')"},    {"('", "1')"},       {"('/", "1')"},     {"('/-", "1')"},
        {"('/1", "')"},     {"('/12345678", "')"}, {"('/123456789", "')"}, {"($", "1$)"},
        {"($1", "$)"},      {"($123", "$)"},     {"($1234", "$)"},   {"($1$", ")"},
        {"(F", ")"},        {"(S", "1)"},        {"(('/0'0", "):)"}, {"(''", ""}};
    const char *const *place = places[below(&s->r, sizeof places / sizeof places[0])];
    struct text text;
    text_clear(&text);
    text_add(&text, place[0]);
    text_byte(&text, chance(&s->r, 70) ? edges[below(&s->r, sizeof edges)]
                                       : (uint8_t)below(&s->r, 256));
    text_add(&text, place[1]);
    define(s, own_letter(s), &text);
}

/* Values at the edges, and every order of the stops at one mark. */
static void value_limit(struct session *s)
{
    static const char *const ends[] = {"+", "-", "*", "/", "M", "A", "J", "P*", "0", "N",
                                       "S1F1J", "O", "A+", "M-", "M*", "/*"};
    static const int32_t edges[] = {999999999, -999999999, 1, -1, 500000000, 499999999,
                                    -500000000, 31622, 31623, 2, 333333333, 3, -3, 0};
    struct text text;
    text_clear(&text);
    text_add(&text, "(");
    for (int i = between(&s->r, 0, 3); i > 0; i--) {
        text_add(&text, "'/");
        text_number(&text, chance(&s->r, 50) ? edges[below(&s->r, 14)]
                                             : random_value(&s->r));
        text_add(&text, "'");
    }
    text_add(&text, ends[below(&s->r, sizeof ends / sizeof ends[0])]);
    text_add(&text, chance(&s->r, 70) ? ";)" : ")");
    define(s, own_letter(s), &text);
}

/* A list of about 64 values and some marks on it. */
static void list_limit(struct session *s)
{
    static const char *const marks[] = {"P", "F1", "I", "'/2'", "S1", "L", "J", "+", "O", "X",
                                        "''x'", "IP", "S1LF1"};
    struct text text;
    text_clear(&text);
    text_add(&text, "(($");
    text_number(&text, between(&s->r, 61, 65));
    text_add(&text, chance(&s->r, 50) ? "$'/1':;)" : "$F3:;)");
    for (int i = between(&s->r, 1, 4); i > 0; i--)
        text_add(&text, marks[below(&s->r, sizeof marks / sizeof marks[0])]);
    text_add(&text, ";)");
    define(s, own_letter(s), &text);
}

/* An output of about 4,096 bytes and some marks on it. */
static void paper_limit(struct session *s)
{
    static const char *const marks[] = {"X", "O", "''x'", "'''", "''1234'", "L", "''123'",
                                        "''12345'", "''1234567890123'"};
    struct text text;
    text_clear(&text);
    text_add(&text, chance(&s->r, 80) ? "('/-77'" : "(");
    if (chance(&s->r, 50)) {
        text_add(&text, "($");
        text_number(&text, between(&s->r, 290, 294));
        text_add(&text, chance(&s->r, 60) ? "$O:;)" : "$''12345678901234':;)");
    } else {
        text_add(&text, "($");
        text_number(&text, between(&s->r, 4080, 4098));
        text_add(&text, "$X:;)");
    }
    for (int i = between(&s->r, 1, 5); i > 0; i--)
        text_add(&text, marks[below(&s->r, sizeof marks / sizeof marks[0])]);
    text_add(&text, ";)");
    define(s, own_letter(s), &text);
}

/* Calls nested to about 100; the letters `y` and `z` are kept for this. */
static void call_limit(struct session *s)
{
    static const char *const deep[] = {
        "(0L'/1';'/1'-z'/2'*;)", "(0q;'/1'-z;)", "(0;'/1'-z)", "(0L;'/1'-z;z)",
        "(0;'/1'-y;)", "(z)", "(X(((((((((z))))))))))", "($60$'/1'-z;0;z)",
        "(0;'/1'-(z;)(z);)", "(''d'0;'/1'-zO;)"};
    static const char *const first[] = {"(Iz;)", "(I(z;z;);)", "(Iz)", "(z;)", "(IPz;z;)",
                                        "(0;'/1'-z;)", "(I($3$z:;);)"};
    char rest[32];
    if (chance(&s->r, 40))
        withdraw(s, 'q');
    define_words(s, 'z', deep[below(&s->r, 10)]);
    define_words(s, 'y', first[below(&s->r, 7)]);
    for (int i = between(&s->r, 1, 4); i > 0; i--) {
        snprintf(rest, sizeof rest, "%d %d", between(&s->r, 1, 3000),
                 chance(&s->r, 70) ? between(&s->r, 97, 102) : between(&s->r, 0, 32));
        run_words(s, chance(&s->r, 80) ? 'y' : 'z', rest);
    }
}

/* Divisors 0 among others, too few values, and a chain of divisions. */
static void divide_limit(struct session *s)
{
    struct text text;
    text_clear(&text);
    text_add(&text, "(");
    for (int i = between(&s->r, 1, 4); i > 0; i--) {
        text_add(&text, "'/");
        text_number(&text, chance(&s->r, 40) ? 0 : random_value(&s->r));
        text_add(&text, "'");
    }
    text_add(&text, chance(&s->r, 50) ? "/O/O;)" : "P/O(0;)/;)");
    define(s, own_letter(s), &text);
}

/* Counters and variables shared by letters and by recursive entries. */
static void shared_limit(struct session *s)
{
    static const char *const workers[] = {
        "($3$''t';''f';)", "($2$''a'$3$''b';''c':''d';)", "($2$x;''e'$4$x;''g';)",
        "(F1'/1'+S1L$3$;)", "(($2$''i':;)$2$;)", "($5$''r'w''s';$2$w;''t';)",
        "(F1S2'/7'S0F0J;LL)", "('/1'($3$;LF1+S1)O)", "($1$;$1$;$1$;)"};
    static const char *const callers[] = {
        "($7$w:;)", "((w''y';''n';)$9$:;)", "(wwww;w;w;)", "($4$($2$w:;):;)", "(w:)",
        "(F1'/1'+S1w'/1''/0'/;)", "(Iw:)", "(w;w;w:w)", "((w)(w)(w);)"};
    define_words(s, 'w', workers[below(&s->r, 9)]);
    define_words(s, 'x', workers[below(&s->r, 9)]);
    define_words(s, 'v', callers[below(&s->r, 9)]);
    for (int i = between(&s->r, 1, 4); i > 0; i--)
        run(s, chance(&s->r, 70) ? 'v' : 'w');
}

static void input_limit(struct session *s)
{
    struct text line;
    int inputs = between(&s->r, 62, 66);
    start_line(&line, 'R', run_letter(s));
    text_add(&line, " 500");
    while (inputs-- > 0) {
        text_add(&line, chance(&s->r, 20) ? " -" : " ");
        text_number(&line, between(&s->r, 0, 99));
    }
    if (chance(&s->r, 10))
        text_add(&line, " ");
    line_of(s, &line);
}

static void digit_limit(struct session *s)
{
    static const char *const rests[] = {
        "5 999999999", "5 -999999999", "5 1000000000", "5 -1000000000", "5 0000000001",
        "5 000000001", "5 -0", "5 --1", "5 -", "5 +1", "5 1 ", "5  1", "5 1  2", "5 ",
        "", " 5", "-5", "-0", "000000005", "0000000005", "1000000000", "4294967296",
        "5 1-", "5 1x", "5x", "x", "5 x", "5\t1", "5 1\r", "5,1", "0", "1", "999999999"};
    run_words(s, run_letter(s), rests[below(&s->r, sizeof rests / sizeof rests[0])]);
}

/* Lines of about 300 bytes. */
static void line_limit(struct session *s)
{
    struct text line;
    size_t length = (size_t)between(&s->r, 298, 303);
    switch (below(&s->r, 4)) {
    case 0:
        start_line(&line, 'D', some_letter(s));
        text_add(&line, " ()");
        text_fill(&line, " ", length - line.length);
        break;
    case 1:
        start_line(&line, 'X', own_letter(s));
        text_fill(&line, " ", length - line.length);
        break;
    case 2:
        start_line(&line, 'R', run_letter(s));
        text_add(&line, " 90");
        while (line.length + 12 <= length)
            text_add(&line, " 123456789");
        while (line.length + 3 <= length)
            text_add(&line, " 7");
        text_fill(&line, "0", length - line.length);
        break;
    default:
        text_clear(&line);
        text_fill(&line, chance(&s->r, 50) ? "x" : " ", length);
        break;
    }
    line_of(s, &line);
}

static void form_limit(struct session *s)
{
    static const char *const lines[] = {
        "", " ", "D", "D ", "D q", "D q ", "D  ", "D   ", "D q  ", "Dq ()", "D qq ()",
        "D q()", " D q ()", "d q ()", "X", "X ", "X q ", "X qq", "Xq", "X  q", "X  ",
        "x q", "R", "R ", "R q", "R q ", "Rq 5", "R  5", "R   5", "R qq 5", "r q 5",
        "R Q 5", "R Q x", "D Q", "D Q ", "D Q (", "X Q", "X 1", "X `", "X {", "E q",
        "D\tq ()", "D q\t()", "R\tq 5", "D q ()\r", "X q\r", "#", "D ( ()", "D D ()"};
    words_line(s, lines[below(&s->r, sizeof lines / sizeof lines[0])]);
}

static void limit_session(struct session *s)
{
    static void (*const limits[])(struct session *) = {
        length_limit, level_limit, level_limit, counter_limit, counter_limit, cell_limit,
        cell_limit, cell_limit, number_limit, number_limit, byte_limit, byte_limit,
        byte_limit, value_limit, value_limit, value_limit, list_limit, paper_limit,
        call_limit, input_limit, digit_limit, line_limit, form_limit, divide_limit,
        shared_limit};
    int lines = between(&s->r, 10, 160);
    new_letters(s);
    while (lines-- > 0) {
        limits[below(&s->r, sizeof limits / sizeof limits[0])](s);
        if (s->latest && chance(&s->r, 75))
            run(s, run_letter(s));
    }
}

/* Texts chosen for the stops they meet. */
static void stop_session(struct session *s)
{
    static const char *const texts[] = {
        "('/1':)", "(P:)", "(F1'/1'+S1:)", "('/2'(P*:))", "('/9'('/9'*O:))", "(I:)", "(IOX:)",
        "(I'/3'/O:)", "('/5'('/1'-OP'/100''/0'J:);)", "(''line 'X:)", "(O:)",
        "('/9'(O'/1'-:))", "(I(0L'/1';'/-1'+)/:)", "('/10'(P'/1''/0'/L:))",
        "('/3'('/1'-P'/60''/0'+L(0'/7''/0'/;;):))", "(w;)", "(''w'w)", "(I0w;x:)", "(X:)",
        "((:)(:))", "(:)", "(;:)", "($500$:;)", "($3$I:;)", "($70$'/5':;)", "(S1S2S3:)",
        "('/3'S1LF1F2F3+-*/)", "(L:)", "(J)", "(N)", "(0)", "(A)", "(M)", "(IM;)", "(I0;)",
        "(II/O:)", "(II*O:)", "('/999999999'(I+O:))", "(I(S1L'/0'F1/O:))", "(IPPJ-/)"};
    int lines = between(&s->r, 5, 90);
    new_letters(s);
    while (lines-- > 0) {
        uint32_t pick = below(&s->r, 10);
        if (pick < 4)
            define_words(s, own_letter(s), texts[below(&s->r, sizeof texts / sizeof texts[0])]);
        else if (pick < 5)
            list_limit(s);
        else if (pick < 6)
            paper_limit(s);
        else if (pick < 7)
            call_limit(s);
        else if (pick < 8)
            (chance(&s->r, 50) ? value_limit : divide_limit)(s);
        else if (pick < 9)
            shared_limit(s);
        else
            define_random(s, own_letter(s));
        run(s, run_letter(s));
        if (chance(&s->r, 40))
            run(s, own_letter(s));
    }
}

/* Few runs, but long ones. */
static void long_session(struct session *s)
{
    static const char *const texts[] = {
        "(:)", "($9999$:;($9999$:;:);)", "('/0'('/1'+:))", "('/0'('/1'+($9999$:;):))",
        "(F1'/1'+S1L:)", "($9998$q:;)", "('/999999999'(0;'/1'-:))", "((()):)",
        "('/1'('/3'*'/7'+('/99999'/0LL'/1';L'/1';):))", "(q:)", "((q)(q):)",
        "($9999$($9999$F1'/1'+S1L:;):;)", "(PLF1:)", "('/5'(PP+L:))"};
    char rest[32];
    s->work = 6000000;
    s->longest = 2000000;
    new_letters(s);
    for (int i = between(&s->r, 3, 8); i > 0; i--) {
        uint8_t letter = own_letter(s);
        if (chance(&s->r, 80))
            define_words(s, letter, texts[below(&s->r, 14)]);
        else
            define_random(s, letter);
        define_words(s, 'q', chance(&s->r, 50) ? "(F1'/1'+S1L;)" : "($2$;$3$X;)");
        snprintf(rest, sizeof rest, "%d", between(&s->r, 50000, 2000000));
        run_words(s, letter, rest);
        if (chance(&s->r, 30))
            run(s, letter);
    }
}

/* Lines of bytes without much sense. */
static void garbage_session(struct session *s)
{
    static const char *const starts[] = {"D q ", "D a (", "R q ", "R a 9", "X ", "", "D q (''",
                                         "R a 90 1 "};
    static const char marks[] = "()();:,.AFLIMNOPSXJ0123456789''//$$\"-+* aqz";
    int lines = between(&s->r, 1, 80);
    uint32_t any = below(&s->r, 101);
    define_words(s, 'a', "(I;)");
    while (lines-- > 0) {
        struct text line;
        int length = between(&s->r, 0, chance(&s->r, 90) ? 60 : 320);
        text_clear(&line);
        text_add(&line, starts[below(&s->r, 8)]);
        while (length-- > 0) {
            uint8_t byte = (uint8_t)below(&s->r, 256);
            if (!chance(&s->r, any))
                byte = (uint8_t)marks[below(&s->r, sizeof marks - 1)];
            if (chance(&s->r, 2))
                byte = 0;
            text_byte(&line, byte);
        }
        line_of(s, &line);
    }
}

/* Among some good lines, lines far too long. */
static void long_lines_session(struct session *s)
{
    static uint8_t bytes[300000];
    int lines = between(&s->r, 1, 12);
    new_letters(s);
    while (lines-- > 0) {
        size_t length = below(&s->r, chance(&s->r, 70) ? 5000 : sizeof bytes);
        uint8_t byte = chance(&s->r, 50) ? ' ' : (uint8_t)below(&s->r, 256);
        memset(bytes, byte == '\n' ? 0 : byte, sizeof bytes);
        memcpy(bytes, "D q ()", 6);
        if (chance(&s->r, 60))
            define_random(s, own_letter(s));
        one_line(s, bytes, length);
        run(s, own_letter(s));
    }
}

/* About 9,999 lines or more of them. */
static void many_lines_session(struct session *s)
{
    static const char *const lines[] = {"", "R q 9", "R q 9 1", "X q", "D q (I;)", "D q ('/5'N)",
                                        "x", "R q 99 4 5", "D q (", "D r ($3$;)", "R r 5",
                                        "D q (F1'/1'+S1;)", "D q (''a'X;)"};
    int count = 9990 + between(&s->r, 0, chance(&s->r, 60) ? 20 : 1500);
    uint32_t sorts = (uint32_t)between(&s->r, 1, 13);
    while (count-- > 0)
        words_line(s, lines[below(&s->r, sorts)]);
}

static void tiny_session(struct session *s)
{
    switch (below(&s->r, 6)) {
    case 0:
        break; /* nothing at all */
    case 1:
        words_line(s, "");
        break;
    case 2:
        words_line(s, "");
        words_line(s, "");
        break;
    case 3:
        form_limit(s);
        break;
    case 4:
        words_line(s, "D q (''x';)");
        words_line(s, "R q 9");
        break;
    default:
        new_letters(s);
        define_random(s, own_letter(s));
        run(s, own_letter(s));
        break;
    }
}

/* ---- choosing ---------------------------------------------------------- */

static const struct kind {
    const char *name;
    uint32_t weight;
    void (*make)(struct session *);
} kinds[] = {
    {"valid", 28, valid_session},      {"spoilt", 20, spoilt_session},
    {"limits", 22, limit_session},     {"stops", 14, stop_session},
    {"long", 2, long_session},         {"garbage", 7, garbage_session},
    {"long lines", 3, long_lines_session}, {"many lines", 1, many_lines_session},
    {"tiny", 3, tiny_session},
};

static const struct kind *choose(struct random *r)
{
    uint32_t pick = below(r, 100);
    const struct kind *kind = kinds;
    while (pick >= kind->weight) {
        pick -= kind->weight;
        kind++;
    }
    return kind;
}

int main(int count, char **words)
{
    static struct session s;
    const struct kind *kind;
    bool only_kind = count == 3 && strcmp(words[1], "-k") == 0;
    if (count != 2 && !only_kind) {
        fputs("generate [-k] SEED\n", stderr);
        return 2;
    }
    random_seed(&s.r, strtoull(words[count - 1], NULL, 10));
    kind = choose(&s.r);
    if (only_kind) {
        puts(kind->name);
        return 0;
    }
    rec_book_fresh(&s.book);
    s.letters[0] = 'q';
    s.letter_count = 1;
    s.work = 400000;
    s.longest = 100000;
    kind->make(&s);
    end_session(&s);
    return fflush(stdout) ? 2 : 0;
}
