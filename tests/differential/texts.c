#include "texts.h"

#include <stdio.h>
#include <string.h>

/* ---- random numbers ---------------------------------------------------- */

static uint64_t random_word(struct random *r)
{
    uint64_t z = r->state += 0x9e3779b97f4a7c15u;
    z = (z ^ (z >> 30)) * 0xbf58476d1ce4e5b9u;
    z = (z ^ (z >> 27)) * 0x94d049bb133111ebu;
    return z ^ (z >> 31);
}

void random_seed(struct random *r, uint64_t seed)
{
    r->state = seed;
    r->state = random_word(r);
}

uint32_t random_bits(struct random *r)
{
    return (uint32_t)(random_word(r) >> 32);
}

uint32_t below(struct random *r, uint32_t limit)
{
    return (uint32_t)(((uint64_t)random_bits(r) * limit) >> 32);
}

int32_t between(struct random *r, int32_t low, int32_t high)
{
    return low + (int32_t)below(r, (uint32_t)(high - low) + 1);
}

bool chance(struct random *r, uint32_t percent)
{
    return below(r, 100) < percent;
}

int32_t random_value(struct random *r)
{
    static const int32_t edges[] = {0, 1, -1, 2, 999999999, -999999999, 999999998,
                                    31622, 31623, -31623, 500000000, 99, 100, 101};
    switch (below(r, 8)) {
    case 0:
        return edges[below(r, sizeof edges / sizeof edges[0])];
    case 1:
        return between(r, -999999999, 999999999);
    case 2:
        return between(r, -99999, 99999);
    case 3:
        return -between(r, 0, 20);
    case 4:
        return between(r, 0, 99);
    default:
        return between(r, 0, 9);
    }
}

/* ---- building texts ---------------------------------------------------- */

void text_clear(struct text *text)
{
    text->length = 0;
}

void text_byte(struct text *text, uint8_t byte)
{
    if (text->length < TEXT_ROOM)
        text->bytes[text->length++] = byte;
}

void text_add(struct text *text, const char *words)
{
    for (; *words; words++)
        text_byte(text, (uint8_t)*words);
}

void text_number(struct text *text, long long number)
{
    char words[32];
    snprintf(words, sizeof words, "%lld", number);
    text_add(text, words);
}

void text_fill(struct text *text, const char *words, size_t times)
{
    while (times-- > 0)
        text_add(text, words);
}

/* ---- random texts ------------------------------------------------------ */

struct maker {
    struct random *r;
    const struct taste *taste;
    struct text *text;
    int height; /* fewest values the list may have here */
    size_t level;
    size_t counters;
    size_t cells; /* about */
};

static bool room(const struct maker *m)
{
    return m->text->length < m->taste->size && m->cells < 235;
}

static void space(struct maker *m)
{
    static const char *const comments[] = {"\"\"", "\" \"", "\"it's (so)\"",
                                           "\"$0$\"", "\"x\" "};
    static const char *const newlines[] = {"\n", "\n\n", " \n ", "\"a\nb\"", "\"\n\""};
    if (!chance(m->r, m->taste->spaces))
        return;
    if (m->taste->newlines > 0 && chance(m->r, m->taste->newlines))
        text_add(m->text, newlines[below(m->r, 5)]);
    else if (chance(m->r, 80))
        text_add(m->text, chance(m->r, 80) ? " " : "  ");
    else
        text_add(m->text, comments[below(m->r, 5)]);
}

static void mark(struct maker *m, const char *words, size_t cells)
{
    text_add(m->text, words);
    m->cells += cells;
    space(m);
}

static void mark_byte(struct maker *m, uint8_t byte, size_t cells)
{
    char words[2] = {(char)byte, 0};
    mark(m, words, cells);
}

static void constant(struct maker *m, int32_t value)
{
    char words[32];
    if (value < 0)
        snprintf(words, sizeof words, "'/-%d'", -value);
    else if (value < 1000 && chance(m->r, 5))
        snprintf(words, sizeof words, "'/%s%0*d'", value == 0 ? "-" : "",
                 between(m->r, 1, 9), value);
    else
        snprintf(words, sizeof words, "'/%d'", value);
    mark(m, words, 2);
    m->height++;
}

static void indexed(struct maker *m, char letter)
{
    char words[3] = {letter, (char)('0' + below(m->r, 10)), 0};
    if (chance(m->r, 60))
        words[1] = (char)('1' + below(m->r, 3));
    mark(m, words, 2);
    if (letter == 'F')
        m->height++;
}

static void counter(struct maker *m, int n)
{
    char words[16];
    snprintf(words, sizeof words, chance(m->r, 5) && n < 100 ? "$%03d$" : "$%d$", n);
    mark(m, words, 4);
    m->counters++;
}

static int small_n(struct maker *m)
{
    switch (below(m->r, 20)) {
    case 0:
        return between(m->r, 10, 70);
    case 1:
        return between(m->r, 100, 9999);
    default:
        return between(m->r, 1, 6);
    }
}

static void print(struct maker *m)
{
    size_t length = chance(m->r, 15) ? 0 : (size_t)between(m->r, 1, 8);
    text_add(m->text, "''");
    for (size_t i = 0; i < length; i++) {
        uint8_t byte = (uint8_t)between(m->r, 32, 126);
        text_byte(m->text, byte == '\'' ? '"' : byte);
    }
    mark(m, "'", 2 + length);
}

static void push_something(struct maker *m)
{
    uint32_t pick = below(m->r, 20);
    if (pick < 3) {
        indexed(m, 'F');
    } else if (pick < 6) {
        mark(m, "I", 1);
        m->height++;
    } else if (pick < 8 && m->height > 0) {
        mark(m, "P", 1);
        m->height++;
    } else {
        constant(m, random_value(m->r));
    }
}

static void call(struct maker *m)
{
    const struct taste *t = m->taste;
    if (t->letter_count == 0 || chance(m->r, 3))
        mark_byte(m, (uint8_t)between(m->r, 'a', 'z'), 2);
    else
        mark_byte(m, t->letters[below(m->r, (uint32_t)t->letter_count)], 2);
}

static void expression(struct maker *m);

/* Something that may be false. */
static void predicate(struct maker *m, int have)
{
    uint32_t pick = below(m->r, 12);
    if (pick < 3 && have > 0)
        mark(m, chance(m->r, 50) ? "N" : "0", 2);
    else if (pick < 5 && have > 1)
        mark(m, "J", 2);
    else if (pick < 8 && m->level < 10 && room(m))
        expression(m);
    else if (pick < 9 && m->taste->calls > 0)
        call(m);
    else if (m->counters < 16)
        counter(m, small_n(m));
    else
        mark(m, have > 0 ? "0" : "(:)", 2);
}

static void operate(struct maker *m, int have)
{
    static const char *const unary[] = {"A", "M", "O", "P", "L"};
    static const char *const binary[] = {"+", "-", "*", "/"};
    uint32_t pick = below(m->r, 12);
    if (pick < 5 && have > 1) {
        mark(m, binary[below(m->r, 4)], 1);
        m->height--;
    } else if (pick < 9 && have > 0) {
        const char *words = unary[below(m->r, 5)];
        mark(m, words, 1);
        m->height += words[0] == 'P' ? 1 : words[0] == 'L' ? -1 : 0;
    } else if (pick < 10 && have > 0) {
        indexed(m, 'S');
    } else if (pick < 11) {
        print(m);
    } else {
        mark(m, "X", 1);
    }
    if (m->height < 0)
        m->height = 0;
}

/* Small loops and recipes that are known to do something. */
static void recipe(struct maker *m)
{
    char words[64];
    int n = small_n(m);
    switch (below(m->r, 11)) {
    case 0: /* count down to zero */
        snprintf(words, sizeof words, "'/%d'(0;'/1'-:)L", n);
        mark(m, words, 11);
        break;
    case 1: /* add inputs */
        snprintf(words, sizeof words, "'/0'($%d$I+:;)", between(m->r, 1, 4));
        mark(m, words, 11);
        m->counters++;
        m->height++;
        break;
    case 2: /* move a variable on */
        mark(m, "F1'/1'+S1L", 8);
        break;
    case 3: /* change places */
        if (m->height > 1)
            mark(m, "S8LS0LF8F0", 10);
        break;
    case 4: /* absolute value, the long way */
        if (m->height > 0)
            mark(m, "(NM;;)", 6);
        break;
    case 5: /* a predicate and its opposite */
        if (m->height > 0)
            mark(m, chance(m->r, 50) ? "(N)" : "((0))", 4);
        break;
    case 6: /* a row of prints */
        snprintf(words, sizeof words, "($%d$''ab'X:;)", n);
        mark(m, words, 11);
        m->counters++;
        break;
    case 7: /* powers of two */
        snprintf(words, sizeof words, "'/1'($%d$P+:;)", between(m->r, 1, 31));
        mark(m, words, 11);
        m->counters++;
        m->height++;
        break;
    case 8: /* many values */
        n = between(m->r, 1, chance(m->r, 70) ? 9 : 66);
        snprintf(words, sizeof words, "($%d$'/%d':;)", n, n);
        mark(m, words, 9);
        m->counters++;
        m->height += n;
        break;
    case 9: /* divide */
        snprintf(words, sizeof words, "'/%d''/%d'/", between(m->r, -99, 99),
                 between(m->r, -4, 4));
        mark(m, words, 5);
        m->height++;
        break;
    default: /* print what stands on top */
        if (m->height > 0)
            mark(m, "OX", 2);
        break;
    }
}

static void item(struct maker *m)
{
    int have = chance(m->r, m->taste->wild) ? 99 : m->height;
    if (chance(m->r, m->taste->calls)) {
        call(m);
        return;
    }
    switch (below(m->r, 10)) {
    case 0: case 1: case 2:
        push_something(m);
        break;
    case 3: case 4: case 5: case 6:
        operate(m, have);
        break;
    case 7: case 8:
        predicate(m, have);
        break;
    default:
        recipe(m);
        break;
    }
}

/* Brings the list back to a height before a loop goes round. */
static void level_list(struct maker *m, int height)
{
    while (m->height > height && room(m)) {
        mark(m, "L", 1);
        m->height--;
    }
    while (m->height < height && room(m))
        constant(m, between(m->r, 0, 9));
}

static int lower(int a, int b)
{
    return a < b ? a : b;
}

static void segment(struct maker *m, bool last, bool again, int start, int *low)
{
    int items = between(m->r, 0, 5);
    int testing = last || chance(m->r, 10) ? -1 : between(m->r, 0, items);
    if (again && chance(m->r, m->taste->endless))
        testing = -1;
    *low = 1000;
    for (int i = 0; i <= items && room(m); i++) {
        if (i == testing) {
            if (again && m->counters < 16 && chance(m->r, 70))
                counter(m, small_n(m));
            else
                predicate(m, m->height);
            *low = lower(*low, m->height);
        } else {
            item(m);
        }
    }
    *low = lower(*low, m->height);
    if (again && chance(m->r, 85))
        level_list(m, start);
}

static void expression(struct maker *m)
{
    static const int many[] = {1, 1, 1, 2, 2, 2, 2, 3, 3, 4};
    int segments = many[below(m->r, 10)];
    int start = m->height;
    int leaving = 1000;
    mark(m, "(", 0);
    m->level++;
    for (int i = 0; i < segments; i++) {
        bool last = i == segments - 1;
        bool again = !last && chance(m->r, 35);
        int low;
        segment(m, last, again, start, &low);
        if (last)
            mark(m, ")", 1);
        else if (again)
            mark(m, chance(m->r, 80) ? ":" : ".", 1);
        else
            mark(m, chance(m->r, 80) ? ";" : ",", 1);
        if (!again)
            leaving = lower(leaving, m->height);
        m->height = low;
    }
    m->level--;
    m->height = lower(leaving, m->height);
}

struct taste random_taste(struct random *r, const uint8_t *letters, size_t count)
{
    struct taste taste;
    taste.size = (size_t)between(r, 2, chance(r, 30) ? 230 : 80);
    taste.wild = chance(r, 70) ? 1 : (uint32_t)between(r, 0, 30);
    taste.calls = chance(r, 50) ? 0 : (uint32_t)between(r, 2, 25);
    taste.spaces = chance(r, 60) ? 0 : (uint32_t)between(r, 1, 20);
    taste.endless = chance(r, 80) ? 3 : 50;
    taste.newlines = 0;
    taste.letters = letters;
    taste.letter_count = count;
    return taste;
}

void text_random(struct random *r, const struct taste *taste, struct text *text)
{
    struct maker m = {r, taste, text, 0, 0, 0, 3};
    text_clear(text);
    space(&m);
    expression(&m);
    space(&m);
}

/* ---- spoiling ---------------------------------------------------------- */

static uint8_t odd_byte(struct random *r)
{
    static const char marks[] = "()()()();;::,.AFLIMNOPSXJ0123456789''''//$$$\"\"-+* aqz";
    if (chance(r, 75))
        return (uint8_t)marks[below(r, sizeof marks - 1)];
    return (uint8_t)below(r, 256);
}

static void insert_byte(struct text *text, size_t at, uint8_t byte)
{
    if (text->length == TEXT_ROOM)
        return;
    memmove(text->bytes + at + 1, text->bytes + at, text->length - at);
    text->bytes[at] = byte;
    text->length++;
}

static void repeat_part(struct random *r, struct text *text)
{
    size_t from = below(r, (uint32_t)text->length);
    size_t part = 1 + below(r, (uint32_t)(text->length - from));
    if (text->length + part > TEXT_ROOM)
        return;
    memmove(text->bytes + from + part, text->bytes + from, text->length - from);
    text->length += part;
}

static void drop_part(struct random *r, struct text *text)
{
    size_t from = below(r, (uint32_t)text->length);
    size_t part = 1 + below(r, (uint32_t)(text->length - from));
    if (part > 4 && chance(r, 80))
        part = 1;
    memmove(text->bytes + from, text->bytes + from + part,
            text->length - from - part);
    text->length -= part;
}

static void spoil_once(struct random *r, struct text *text)
{
    if (text->length == 0) {
        text_byte(text, odd_byte(r));
        return;
    }
    switch (below(r, 8)) {
    case 0: case 1: case 2:
        text->bytes[below(r, (uint32_t)text->length)] = odd_byte(r);
        break;
    case 3: case 4:
        insert_byte(text, below(r, (uint32_t)text->length + 1), odd_byte(r));
        break;
    case 5:
        repeat_part(r, text);
        break;
    case 6:
        drop_part(r, text);
        break;
    default:
        text->length = below(r, (uint32_t)text->length + 1);
        break;
    }
}

void text_spoil(struct random *r, struct text *text)
{
    int edits = chance(r, 70) ? 1 : between(r, 2, 6);
    while (edits-- > 0)
        spoil_once(r, text);
}

/* ---- hard texts -------------------------------------------------------- */

static const char *pick_words(struct random *r, const char *const *words, size_t count)
{
    return words[below(r, (uint32_t)count)];
}

#define PICK(r, words) pick_words(r, words, sizeof(words) / sizeof(words)[0])

void text_soup(struct random *r, struct text *text)
{
    static const char *const words[] = {
        "(", "(", "(", "(", ")", ")", ";", ":", ",", ".", "A", "L", "M", "P", "O", "X", "I", "+", "-",
        "*", "/", "F1", "S0", "F9", "N", "0", "J", "a", "q", "z", "$1$", "$9999$", "$07$", "'/5'",
        "'/-999999999'", "'''", "''ab'", "''\"('", "\n", "\n", " ", "  ", "\"\"", "\"it's\"",
        "\"a\nb\"", "\"\n\""};
    static const char *const odd[] = {
        "F", "S", "$", "$0$", "$12345$", "$1", "'", "'/", "'/-", "'/1234567890'", "''", "\"", "1",
        "9", "B", "\t", "\r", "#", "\x7f", "\x80", "''\n'", "F\n1", "$\n1$", "'\n/1'"};
    int parts = between(r, 0, chance(r, 80) ? 25 : 120);
    uint32_t oddness = chance(r, 60) ? 0 : (uint32_t)between(r, 1, 12);
    int level = 0;
    text_clear(text);
    if (chance(r, 15))
        text_add(text, chance(r, 50) ? "\n" : "\"\n\" ");
    if (chance(r, 95)) {
        text_add(text, "(");
        level = 1;
    }
    while (parts-- > 0) {
        const char *next = chance(r, oddness) ? PICK(r, odd) : PICK(r, words);
        if (next[0] == ')' && level == 1 && chance(r, 95))
            continue;
        level += next[0] == '(' ? 1 : next[0] == ')' ? -1 : 0;
        text_add(text, next);
    }
    if (chance(r, 85))
        text_fill(text, ")", level > 0 ? (size_t)level : 0);
    if (chance(r, 15))
        text_add(text, chance(r, 50) ? "\n" : " \"\n\"");
}

void text_raw(struct random *r, struct text *text)
{
    static const char *const starts[] = {"", "(", "(X;", "'", "(''", "('/1", "($", "($1", "(\"", "()",
                                         "(((", "(F", "\n(\n"};
    static const char marks[] = "((();:,.AFLIMNOPSXJ0123456789''//$$\"-+* aqz\n\n";
    int length = between(r, 0, chance(r, 80) ? 30 : 300);
    uint32_t any = chance(r, 50) ? 100 : below(r, 101);
    text_clear(text);
    text_add(text, PICK(r, starts));
    while (length-- > 0) {
        uint8_t byte = (uint8_t)below(r, 256);
        text_byte(text, chance(r, any) ? byte : (uint8_t)marks[below(r, sizeof marks - 1)]);
    }
}

void text_cells(struct random *r, struct text *text, size_t cells)
{
    static const struct {
        const char *words;
        size_t cells;
    } marks[] = {{"A", 1}, {";", 1}, {":", 1}, {"F2", 2}, {"()", 1}, {"(;)", 2}, {"(N:)", 4},
                 {"''a'", 3}, {"'/7'", 2}, {"$9$", 4}, {"\n", 0}, {"''abcdefgh'", 10}};
    size_t counters = 0, most = text->length + cells - cells / 4;
    while (cells > 0) {
        size_t i = below(r, sizeof marks / sizeof marks[0]);
        if (text->length > most || marks[i].cells > cells || chance(r, 60)) {
            text_add(text, cells > 1 ? chance(r, 50) ? "N" : "q" : "A");
            cells -= cells > 1 ? 2 : 1;
        } else if (marks[i].words[0] != '$' || counters++ < 16) {
            text_add(text, marks[i].words);
            cells -= marks[i].cells;
        }
    }
}

/* About 256 bytes. */
static void hard_length(struct random *r, struct text *text)
{
    static const char *const pads[] = {" ", "\n", "\"\"", "\" \n\"", "N"};
    size_t length = (size_t)between(r, 254, 259);
    const char *pad = PICK(r, pads);
    bool before = pad[0] != 'N' && chance(r, 30), behind = pad[0] != 'N' && chance(r, 40);
    text_clear(text);
    if (before)
        text_fill(text, pad, below(r, 40));
    text_add(text, chance(r, 95) ? "(X" : "X(");
    while (!behind && text->length < length - 6 && (pad[0] != 'N' || text->length < 120))
        text_add(text, pad);
    text_add(text, ";)");
    while (behind && text->length + strlen(pad) <= length)
        text_add(text, pad);
    while (text->length < length)
        text_add(text, chance(r, 50) ? " " : "\n");
}

/* About 10 levels. */
static void hard_levels(struct random *r, struct text *text)
{
    static const char *const insides[] = {"", "'/1'", "X", "$2$", "X;", "N:", "\"(\"", "\n", "()", "(;)N",
                                          "''(('"};
    int levels = between(r, 9, 11);
    text_clear(text);
    for (int i = 0; i < levels; i++) {
        text_add(text, "(");
        text_add(text, PICK(r, insides));
    }
    for (int i = 0; i < levels; i++)
        text_add(text, chance(r, 30) ? ";)" : ")");
}

/* About 16 counters, the table full at times. */
static void hard_counters(struct random *r, struct text *text)
{
    static const char *const lasts[] = {"$1$", "$1$", "$1$", "$0$", "$12345$", "$$", "$9999$", "$7",
                                        "$0001$", "$1x$", "$\n1$", "$0000$"};
    int counters = between(r, 14, 17);
    text_clear(text);
    text_add(text, "(");
    if (chance(r, 30))
        text_fill(text, "N", (size_t)between(r, 88, 93));
    for (int i = 0; i < counters; i++) {
        text_add(text, "$3$");
        if (chance(r, 20))
            text_add(text, "\n");
    }
    text_add(text, PICK(r, lasts));
    text_add(text, ")");
}

/* About 250 cells. */
static void hard_cells(struct random *r, struct text *text)
{
    static const char *const marks[] = {"", "A", "F1", "S0", "N", "q", "$1$", "'/5'", "''ab'", "'''",
                                        ";", ":", "()", "(;)", "F", "Fx", "'/5", "'/x", "''ab", "$0$",
                                        "$5", "'x", "(", "#", "\n"};
    text_clear(text);
    text_add(text, "(");
    text_cells(r, text, (size_t)between(r, 243, 250) - 1);
    text_add(text, PICK(r, marks));
    if (chance(r, 95))
        text_add(text, ")");
}

void text_hard(struct random *r, const uint8_t *letters, size_t count, struct text *text)
{
    static void (*const limits[])(struct random *, struct text *) = {
        hard_length, hard_levels, hard_counters, hard_cells};
    struct taste taste = random_taste(r, letters, count);
    uint32_t pick = below(r, 100);
    taste.newlines = chance(r, 50) ? 0 : (uint32_t)between(r, 5, 80);
    if (chance(r, 30))
        taste.spaces = 20;
    if (pick < 45) {
        text_random(r, &taste, text);
        if (pick >= 25)
            text_spoil(r, text);
    } else if (pick < 65) {
        text_soup(r, text);
    } else if (pick < 72) {
        text_raw(r, text);
    } else {
        limits[below(r, 4)](r, text);
        if (chance(r, 10))
            text_spoil(r, text);
    }
}

/* ---- lively texts ------------------------------------------------------ */

static const char *const known[] = {
    "(0L'/1';'/1'-d'/2'*;)", "(Id;)", "(a)", "(Ib;)", "((b;c)(c;b)$2$:;)", "($5$b''r'b;$2$X;)",
    "(a;b;c:)", "('/1':)", "(P:)", "(IP:)", "('/9'('/9'*O:))", "(II/O:)", "(II*O:)", "(IIIIII/*+-;)",
    "(F1'/1'+S1:)", "(F1'/1'+S1S0L;)", "(IS3LF3O;)", "('/1'S2'/0'/)", "($70$'/5':;)", "($3$I:;)",
    "(IIII;)", "(II)", "(I0;IN;IJ;)", "($2$;''f'f:)", "(IS1LIS2L;)", "(F1F2F3OOO)", "(e)", "(''abc'X:)",
    "(\nI\n\"in\nput\"\n;)", "(INf;e)", "('/999999999'I+)", "((I;)(I;);)"};

void text_lively(struct random *r, struct text *text)
{
    static const uint8_t letters[] = "abcdef";
    size_t count = sizeof letters - 1;
    struct taste taste = random_taste(r, letters, count);
    uint32_t pick = below(r, 100);
    taste.newlines = 20;
    text_clear(text);
    if (pick < 35)
        text_add(text, PICK(r, known));
    else if (pick < 80)
        text_random(r, &taste, text);
    else
        text_hard(r, letters, count, text);
}

/* ---- untidy texts ------------------------------------------------------ */

void text_brim(struct random *r, struct text *text)
{
    static const char *const marks[] = {"'/-999999999'", "'/100000000'", "'/0'", "''a,  b. '",
                                        "''\" \"'", "''/007'", "''/-0'", "F0", "S9", "(;)", "-"};
    size_t length = (size_t)between(r, 254, 258);
    text_clear(text);
    text_add(text, "(");
    text_fill(text, "$1000$", below(r, 17));
    while (text->length + 14 < length)
        text_add(text, PICK(r, marks));
    while (text->length + 1 < length)
        text_add(text, chance(r, 50) ? "A" : chance(r, 50) ? ";" : ":");
    text_add(text, ")");
}

size_t part_length(const uint8_t *part)
{
    size_t length = part[0] == '\'' ? 2 : 1; /* the second byte of a print is no end */
    if (part[0] == 'F' || part[0] == 'S')
        return 2;
    if (part[0] != '"' && part[0] != '$' && part[0] != '\'')
        return 1;
    while (part[length] != part[0])
        length++;
    return length + 1;
}

struct muddler {
    struct random *r;
    struct text *text;
    size_t spare;   /* bytes that may yet come beside the copy's */
    uint32_t gaps;  /* percent */
    uint32_t zeros; /* percent of numbers with zeros */
};

static void add_spare(struct muddler *m, const char *words)
{
    size_t length = strlen(words);
    if (length > m->spare)
        return;
    text_add(m->text, words);
    m->spare -= length;
}

static void muddle_gap(struct muddler *m)
{
    static const char *const gaps[] = {" ", " ", "  ", "\n", " \n ", "\"\"", "\"it's\"", "\"a, b.\"",
                                       "\"''a'\n$01$\"", "\"(\" \")\""};
    while (chance(m->r, m->gaps))
        add_spare(m, PICK(m->r, gaps));
}

/* With zeros in front, up to `most` digits. */
static void muddle_digits(struct muddler *m, const uint8_t *digits, size_t count, size_t most)
{
    if (chance(m->r, m->zeros))
        for (uint32_t i = below(m->r, (uint32_t)(most - count) + 1); i > 0; i--)
            add_spare(m, "0");
    for (size_t i = 0; i < count; i++)
        text_byte(m->text, digits[i]);
}

static void muddle_constant(struct muddler *m, const uint8_t *mark, size_t length)
{
    size_t start = mark[2] == '-' ? 3 : 2;
    text_add(m->text, start == 3 ? "'/-" : "'/");
    if (mark[2] == '0' && chance(m->r, m->zeros))
        add_spare(m, "-");
    muddle_digits(m, mark + start, length - start - 1, 9);
    text_add(m->text, "'");
}

static void muddle_mark(struct muddler *m, const uint8_t *mark, size_t length)
{
    if (mark[0] == ';') {
        text_add(m->text, chance(m->r, 50) ? ";" : ",");
    } else if (mark[0] == ':') {
        text_add(m->text, chance(m->r, 50) ? ":" : ".");
    } else if (mark[0] == '\'' && mark[1] == '/') {
        muddle_constant(m, mark, length);
    } else if (mark[0] == '$') {
        text_add(m->text, "$");
        muddle_digits(m, mark + 1, length - 2, 4);
        text_add(m->text, "$");
    } else {
        for (size_t i = 0; i < length; i++)
            text_byte(m->text, mark[i]);
    }
}

void text_muddle(struct random *r, const struct text *copy, struct text *text)
{
    struct muddler m = {r, text, 256 - copy->length, below(r, 50), below(r, 101)};
    bool full = chance(r, 20);
    text_clear(text);
    muddle_gap(&m);
    for (size_t i = 0; i < copy->length; i += part_length(copy->bytes + i)) {
        muddle_mark(&m, copy->bytes + i, part_length(copy->bytes + i));
        muddle_gap(&m);
    }
    while (full && m.spare > 0)
        add_spare(&m, " ");
}
