/* The clean print of document 02's U1 against a second one, which filters the text byte by
 * byte; what U1 says of every copy and refusal; and copies by hand. */
#include "fair_copy.h"

#include <stdio.h>
#include <string.h>

#include "../../differential/texts.h"
#include "../../differential/work.h"
#include "../rec.h"
#include "check.h"
#include "reader.h"
#include "sides.h"
#include "subjects.h"

/* ---- a second clean print ---------------------------------------------- */

/* What a text may have for its clean print to meet. */
enum feature {
    BLANK, NEWLINE, COMMA, POINT, INNER, DIGIT_0, MINUS_MARK_0, EMPTY_COMMENT, COMMENT_NEWLINE,
    COMMENT_APOSTROPHE, COMMENT_SEPARATOR, EMPTY_PRINT, PRINT_BLANK, PRINT_QUOTE, PRINT_SEPARATOR,
    COUNTER_PLAIN, COUNTER_ZEROS, CONSTANT_PLAIN, CONSTANT_ZEROS, MINUS_PLAIN, MINUS_ZEROS, ZERO,
    MANY_ZEROS, MINUS_ZERO, MINUS_MANY_ZEROS, COPY_ALIKE, COPY_SHORTER, COPY_LONGEST, FEATURES
};

static const char *const feature_words[FEATURES] = {
    "blank dropped", "newline dropped", ", as ;", ". as :", "inner expression", "F0 or S0",
    "operator - before predicate 0", "empty comment", "newline in a comment", "' in a comment",
    ", or . in a comment", "empty print", "blank in a print", "\" in a print",
    ", or . in a print", "counter as it was", "counter with zeros", "constant as it was",
    "constant with zeros", "minus constant as it was", "minus constant with zeros", "one zero",
    "many zeros", "minus zero", "minus many zeros", "copy like its text",
    "copy shorter than its text", "copy of 256 bytes"};

static unsigned long long features[2][FEATURES], prints[2][REC_NUMBERS];

static void saw(bool seen, enum feature feature)
{
    features[in_histories][feature] += seen;
}

enum { SHEET = REC_TEXT + GUARD };

enum where { AMONG_MARKS, IN_COMMENT, AFTER_APOSTROPHE, IN_PRINT, IN_COUNTER, IN_CONSTANT };

struct filter {
    enum where where;
    int passed; /* bytes of the comment or print so far */
    int zeros;  /* in front of the number, not written */
    bool minus; /* of the constant, not written before a digit is */
    bool digit; /* of the number, written */
    uint8_t copy[SHEET];
    size_t length;
};

static void keep(struct filter *f, uint8_t byte)
{
    f->copy[f->length++] = byte;
}

static void go(struct filter *f, enum where where)
{
    f->where = where;
    f->passed = f->zeros = 0;
    f->minus = f->digit = false;
}

static void filter_mark(struct filter *f, uint8_t byte)
{
    uint8_t last = f->length > 0 ? f->copy[f->length - 1] : 0;
    saw(byte == ' ', BLANK);
    saw(byte == '\n', NEWLINE);
    saw(byte == ',', COMMA);
    saw(byte == '.', POINT);
    saw(byte == '(' && last != 0, INNER);
    saw(byte == '0' && (last == 'F' || last == 'S'), DIGIT_0);
    saw(byte == '0' && last == '-', MINUS_MARK_0);
    if (byte == '"')
        go(f, IN_COMMENT);
    else if (byte == '\'')
        go(f, AFTER_APOSTROPHE);
    else if (byte == '$')
        go(f, IN_COUNTER);
    if (byte == ',')
        keep(f, ';');
    else if (byte == '.')
        keep(f, ':');
    else if (byte != ' ' && byte != '\n' && byte != '"')
        keep(f, byte);
}

/* One more byte of a comment or a print, and perhaps its last. */
static void pass(struct filter *f, bool last)
{
    f->passed++;
    if (last)
        go(f, AMONG_MARKS);
}

static void filter_comment(struct filter *f, uint8_t byte)
{
    saw(byte == '"' && f->passed == 0, EMPTY_COMMENT);
    saw(byte == '\n', COMMENT_NEWLINE);
    saw(byte == '\'', COMMENT_APOSTROPHE);
    saw(byte == ',' || byte == '.', COMMENT_SEPARATOR);
    pass(f, byte == '"');
}

static void filter_print(struct filter *f, uint8_t byte)
{
    saw(byte == '\'' && f->passed == 0, EMPTY_PRINT);
    saw(byte == ' ', PRINT_BLANK);
    saw(byte == '"', PRINT_QUOTE);
    saw(byte == ',' || byte == '.', PRINT_SEPARATOR);
    keep(f, byte);
    pass(f, byte == '\'');
}

static void saw_number(const struct filter *f)
{
    if (f->where == IN_COUNTER)
        saw(true, f->zeros > 0 ? COUNTER_ZEROS : COUNTER_PLAIN);
    else if (f->digit && f->minus)
        saw(true, f->zeros > 0 ? MINUS_ZEROS : MINUS_PLAIN);
    else if (f->digit)
        saw(true, f->zeros > 0 ? CONSTANT_ZEROS : CONSTANT_PLAIN);
    else if (f->minus)
        saw(true, f->zeros > 1 ? MINUS_MANY_ZEROS : MINUS_ZERO);
    else
        saw(true, f->zeros > 1 ? MANY_ZEROS : ZERO);
}

static void filter_number(struct filter *f, uint8_t byte)
{
    if (byte == '-') {
        f->minus = true;
    } else if (byte == '0' && !f->digit) {
        f->zeros++;
    } else if (byte == '$' || byte == '\'') {
        saw_number(f);
        if (!f->digit)
            keep(f, '0');
        keep(f, byte);
        go(f, AMONG_MARKS);
    } else {
        if (f->minus && !f->digit)
            keep(f, '-');
        keep(f, byte);
        f->digit = true;
    }
}

/* Of an accepted text; what is wrong in another is not looked for. */
static void filter_text(struct filter *f, const uint8_t *text, size_t length)
{
    memset(f, 0, sizeof *f);
    for (size_t i = 0; i < length; i++) {
        if (f->where == AMONG_MARKS) {
            filter_mark(f, text[i]);
        } else if (f->where == IN_COMMENT) {
            filter_comment(f, text[i]);
        } else if (f->where == IN_PRINT) {
            filter_print(f, text[i]);
        } else if (f->where == AFTER_APOSTROPHE) {
            keep(f, text[i]);
            go(f, text[i] == '/' ? IN_CONSTANT : IN_PRINT);
        } else {
            filter_number(f, text[i]);
        }
    }
}

/* ---- beside the reference's -------------------------------------------- */

static uint8_t sheet[SHEET];

/* A clean print on a fresh sheet, of which so many bytes are lent. No byte of the
 * fresh sheet can stand in a copy, so each that is written shows. */
static uint32_t print_on_sheet(const uint8_t *text, size_t length, size_t room, size_t *written)
{
    static uint8_t fresh[SHEET];
    uint32_t number;
    if (fresh[0] == 0)
        for (size_t i = 0; i < SHEET; i++)
            fresh[i] = (uint8_t)(128 + (i * 37 + 11) % 128);
    memcpy(sheet, fresh, sizeof sheet);
    *written = SIZE_MAX;
    number = rec_clean_print(text, length, sheet, room, written);
    check(number == 0 || *written == 0, "length of a refused clean print", "");
    if (!check(*written <= room, "length of a clean print over its room", ""))
        *written = 0;
    check(memcmp(sheet + *written, fresh + *written, sizeof sheet - *written) == 0,
          "paper past the copy", "");
    if (check(number < REC_NUMBERS, "number of a clean print", ""))
        prints[in_histories][number]++;
    return number;
}

/* A clean print is refused by this number on each sheet, and without paper. */
static void refused_prints(const uint8_t *text, size_t length, const size_t rooms[4],
                           uint32_t number, const char *what)
{
    size_t written;
    for (size_t i = 0; i < 4; i++)
        check(print_on_sheet(text, length, rooms[i], &written) == number,
              "number of a refused clean print", what);
    written = SIZE_MAX;
    check(rec_clean_print(text, length, NULL, 0, &written) == number && written == 0,
          "refused clean print without paper", what);
}

/* Rooms 0 and 1 are too short for any copy: the linker's number comes first. */
static void prints_of_refused_text(const uint8_t *text, size_t length, uint32_t number)
{
    const size_t rooms[] = {0, 1, length < SHEET ? length : SHEET, SHEET};
    refused_prints(text, length, rooms, number, "refused text");
}

static void short_prints(const uint8_t *text, size_t length, size_t copied)
{
    const size_t rooms[] = {0, 1, copied / 2, copied - 1};
    refused_prints(text, length, rooms, REC_SHORT_PAPER, "short paper");
}

/* The copy comes out where it just fits, and with room left. */
static void fitting_prints(const uint8_t *text, size_t length, const uint8_t *copy,
                           size_t copied, const char *what)
{
    const size_t rooms[] = {copied, copied + 1, SHEET};
    size_t written;
    for (size_t i = 0; i < 3; i++) {
        check(print_on_sheet(text, length, rooms[i], &written) == 0, "clean print refused", what);
        check(written == copied && memcmp(sheet, copy, copied) == 0, "clean prints differ", what);
    }
}

static void check_table_of_copy(const uint8_t *text, size_t length, const uint8_t *copy,
                                size_t copied)
{
    struct rec_tree one, two;
    int32_t cells[REC_CELLS], again[REC_CELLS];
    if (!check(compare_readers(copy, copied) == 0, "copy refused", ""))
        return;
    rec_read(text, length, &one);
    rec_read(copy, copied, &two);
    rec_table(&one, cells);
    rec_table(&two, again);
    check(one.used == two.used, "used count of a copy", "");
    for (size_t i = 0; i < REC_CELLS; i++)
        check(cells[i] == again[i], "cell of a copy", "");
}

static void accepted_prints(const uint8_t *text, size_t length)
{
    static struct filter f;
    uint8_t copy[SHEET];
    size_t copied;
    filter_text(&f, text, length);
    print_on_sheet(text, length, SHEET, &copied);
    memcpy(copy, sheet, sizeof copy);
    if (!check(copied == f.length && memcmp(copy, f.copy, copied) == 0,
               "clean prints differ", ""))
        return;
    check(copied <= length, "copy longer than its text", "");
    fitting_prints(text, length, copy, copied, "with other rooms");
    short_prints(text, length, copied);
    check_table_of_copy(text, length, copy, copied);
    fitting_prints(copy, copied, copy, copied, "a copy's copy");
    saw(copied == length && memcmp(copy, text, length) == 0, COPY_ALIKE);
    saw(copied < length, COPY_SHORTER);
    saw(copied == REC_TEXT, COPY_LONGEST);
}

static void compare_prints(const uint8_t *text, size_t length, uint32_t number)
{
    unsigned before = wrong;
    if (number == 0)
        accepted_prints(text, length);
    else
        prints_of_refused_text(text, length, number);
    if (wrong > before && before < SHOWN)
        printf("  clean print of %.*s\n", (int)length, (const char *)text);
}

uint32_t compare_accounts(const uint8_t *text, size_t length)
{
    uint32_t number = compare_readers(text, length);
    compare_prints(text, length, number);
    return number;
}

/* ---- by hand ----------------------------------------------------------- */

static void expect_copy_of(const uint8_t *text, size_t length, const char *copy)
{
    size_t written;
    check(compare_accounts(text, length) == 0, "text refused", copy);
    check(print_on_sheet(text, length, SHEET, &written) == 0 && written == strlen(copy)
              && memcmp(sheet, copy, written) == 0, "clean print", copy);
}

static void expect_copy(const char *text, const char *copy)
{
    expect_copy_of((const uint8_t *)text, strlen(text), copy);
}

static void expect_no_copy(const char *text, uint32_t number)
{
    check(compare_accounts((const uint8_t *)text, strlen(text)) == number, "clean print", text);
}

static void examples_of_copies(void)
{
    static const char *const cases[][2] = {
        {"( '/007' , N \"c\" . $0010$ ''a  b' '/-0' ;)", "('/7';N:$10$''a  b''/0';)"},
        /* blanks, newlines, comments; separators */
        {"()", "()"}, {" ( ) ", "()"}, {"\n\"c\"\n(\n)\"d\"\n", "()"}, {"(\"\")", "()"},
        {"\"(\"()\")\"", "()"}, {"(N\"a\nb\"\n\n;\"\n\" \"c\"\"d\"0)", "(N;0)"},
        {"(,)", "(;)"}, {"(.)", "(:)"}, {"(,;.:)", "(;;::)"}, {"(\".,\" . \",.\" ,)", "(:;)"},
        {"(\"'\")", "()"}, {"(\"it's\" N \"''a  b'\" ; \"'/007'\" )", "(N;)"},
        {"(\"$01$\"$01$\"F0\")", "($1$)"},
        /* prints keep their bytes */
        {"(''')", "(''')"}, {"( ''' )", "(''')"}, {"('' ')", "('' ')"},
        {"( ''a  b' )", "(''a  b')"}, {"('' a b ' '' ')", "('' a b ''' ')"},
        {"( ''\"' N ''\"' )", "(''\"'N''\"')"}, {"(''\"a b\"')", "(''\"a b\"')"},
        {"(''.,' . , ''a.b,c')", "(''.,':;''a.b,c')"}, {"(''/007')", "(''/007')"},
        {"(''$01$-0')", "(''$01$-0')"}, {"(''/-0' '/-0')", "(''/-0''/0')"},
        {"(''( ;) ')", "(''( ;) ')"},
        {"(''' ''')", "('''''')"}, {"(''' '/01')", "(''''/1')"}, {"('/01' ''')", "('/1'''')"},
        {"(''a' '/-00' ''b')", "(''a''/0'''b')"},
        /* constants */
        {"('/0')", "('/0')"}, {"('/00')", "('/0')"}, {"('/000000000')", "('/0')"},
        {"('/-0')", "('/0')"}, {"('/-000')", "('/0')"}, {"('/-000000000')", "('/0')"},
        {"('/-007')", "('/-7')"}, {"('/-7')", "('/-7')"}, {"('/000000001')", "('/1')"},
        {"('/-000000001')", "('/-1')"}, {"('/10')", "('/10')"}, {"('/0100')", "('/100')"},
        {"('/-0100')", "('/-100')"}, {"('/010203040')", "('/10203040')"},
        {"('/100000000')", "('/100000000')"}, {"('/999999999')", "('/999999999')"},
        {"('/-999999999')", "('/-999999999')"}, {"('/1' '/02''/-03')", "('/1''/2''/-3')"},
        /* counters */
        {"($1$)", "($1$)"}, {"($0001$)", "($1$)"}, {"($0010$)", "($10$)"},
        {"($1000$)", "($1000$)"}, {"($0100$ $01$,$9999$)", "($100$$1$;$9999$)"},
        /* digits and zeros that are no number's */
        {"(F0)", "(F0)"}, {"(S9)", "(S9)"}, {"( F0 S9 F9 S0 )", "(F0S9F9S0)"},
        {"(F1 0)", "(F10)"}, {"(F00 S0 0)", "(F00S00)"}, {"(0 0 0)", "(000)"},
        {"(- 0)", "(-0)"}, {"(-00)", "(-00)"}, {"(/ -0)", "(/-0)"},
        {"($1$ 00 $01$)", "($1$00$1$)"}, {"('/1' 00 '/01')", "('/1'00'/1')"},
        {"( A L M P O X I + - * / N 0 J a q z )", "(ALMPOXI+-*/N0Jaqz)"},
        /* inner expressions */
        {"( ( ) )", "(())"}, {"( ( N , ) . ( 0 ) ( ( . ) , ) )", "((N;):(0)((:);))"},
        {"( ( ( ( ( ( ( ( ( ( , ) ) ) ) ) ) ) ) ) )", "((((((((((;))))))))))"},
        {"(a(b(c,d).e)f)", "(a(b(c;d):e)f)"},
    };
    for (size_t i = 0; i < sizeof cases / sizeof cases[0]; i++)
        expect_copy(cases[i][0], cases[i][1]);
}

/* Texts of 256 bytes: nearly all comment, or copies of themselves. */
static void long_copies(void)
{
    struct text text;
    text_clear(&text);
    text_add(&text, "(X\"");
    text_fill(&text, "'., $0\n", 35);
    text_add(&text, "so\" 00,)");
    expect_copy_of(text.bytes, text.length, "(X00;)");
    check(text.length == REC_TEXT, "length of a text", "comment inside");
    text_clear(&text);
    text_add(&text, "\"");
    text_fill(&text, "c", 252);
    text_add(&text, "\"()");
    expect_copy_of(text.bytes, text.length, "()");
    check(text.length == REC_TEXT, "length of a text", "comment before");
    text_clear(&text);
    text_add(&text, "(");
    text_fill(&text, "'/123456789'", 21);
    text_add(&text, "AA)");
    text_byte(&text, 0);
    expect_copy_of(text.bytes, text.length - 1, (const char *)text.bytes);
    check(text.length - 1 == REC_TEXT, "length of a text", "no comment");
    text_clear(&text);
    text_add(&text, "(");
    text_fill(&text, "'/-00000000'", 21);
    text_add(&text, ". )");
    expect_copy_of(text.bytes, text.length,
                   "('/0''/0''/0''/0''/0''/0''/0''/0''/0''/0''/0''/0''/0''/0''/0''/0''/0''/0'"
                   "'/0''/0''/0':)");
    check(text.length == REC_TEXT, "length of a text", "zeros");
}

static void refused_copies(void)
{
    size_t written = SIZE_MAX;
    check(rec_clean_print(NULL, 0, NULL, 0, &written) == REC_UNFINISHED && written == 0,
          "clean print of no text", "");
    check(print_on_sheet(NULL, 0, SHEET, &written) == REC_UNFINISHED,
          "clean print of no text", "");
    expect_no_copy("", 7);
    expect_no_copy("\"( )\"", 7);
    expect_no_copy("( N ", 7);
    expect_no_copy("($0000$)", 5);
    expect_no_copy("($0$)", 5);
    expect_no_copy("($00001$)", 5);
    expect_no_copy("($-1$)", 5);
    expect_no_copy("('/')", 6);
    expect_no_copy("('/-')", 6);
    expect_no_copy("('/ 1')", 6);
    expect_no_copy("('/0000000000')", 6);
    expect_no_copy("('/-0000000001')", 6);
    expect_no_copy("(F 1)", 3);
    expect_no_copy("(F01)", 3);
    expect_no_copy("(''a\nb')", 3);
    expect_no_copy("( ' '/1')", 3);
    expect_no_copy("() .", 3);
    expect_no_copy("(((((((((((", 4);
}

void copies_by_hand(void)
{
    examples_of_copies();
    long_copies();
    refused_copies();
}

/* ---- what must have been met ------------------------------------------- */

/* Each feature, 0, each number of the linker, and 30. */
bool counts_of_prints(bool of_histories, unsigned least)
{
    bool good = true;
    for (uint32_t i = 0; i < REC_NUMBERS; i++) {
        const char *word = i == REC_SHORT_PAPER ? "short paper" : number_word(i);
        if (i == 0 || (i >= REC_LONG_TEXT && i <= REC_MANY_COUNTERS) || i == REC_SHORT_PAPER)
            good &= met(prints[of_histories][i], least, "clean print: number %u (%s)",
                        (unsigned)i, word);
        else
            good &= check(prints[of_histories][i] == 0, "a number that no clean print has", word);
    }
    for (size_t i = 0; i < FEATURES; i++)
        good &= met(features[of_histories][i], least, "clean print: %s", feature_words[i]);
    return good;
}
