/* Compares rec_check, rec_link and rec_fair_copy of include/rec.h with the reference:
 * the number by each, the used-cell count and every cell of the lent room, the copy's
 * length and every byte of the lent paper. Then holds the fair copy to what U1 of
 * document 02 says of it.
 *
 *     links [FIRST_SEED [ROUNDS]]      see work.h
 *
 * Built with engine.c, work.c, texts.c, the reference and librec.a. */
#define _DEFAULT_SOURCE /* mmap */
#include <stdio.h>
#include <stdlib.h>
#include <string.h>
#include <sys/mman.h>
#include <unistd.h>

#include "../reference/rec.h"
#include "engine.h"
#include "work.h"

enum {
    ROUNDS = 15000,
    TEXTS = 40,   /* of a round */
    GUARD = 8,    /* places before and behind a lent room */
    ROOM = 600,   /* the largest lent room or paper */
    SHEET = GUARD + ROOM + GUARD, /* a paper and what stands around it */
    LEAST = 2,    /* bytes of the least fair copy, `()` */
    LAST = 10,    /* numbers 0 to 9 */
    ANY = 255     /* no number is said beforehand */
};

/* ---- what was met ------------------------------------------------------ */

enum room { NO_ROOM, LESS, EXACT, MORE, ROOMS };

/* The papers that a text's fair copy is tried on. For a refused text they are those of
 * the least copy there may be. */
enum paper { NULL_PAPER, NO_BYTE, ONE_LESS, JUST, ONE_MORE, AS_TEXT, LONGEST, SOME, PAPERS };
enum outcome { COPIED, REFUSED, SHORT, OUTCOMES };

/* What an accepted text may have for its fair copy to meet. */
enum feature {
    BLANK, NEWLINE, COMMA, POINT, EMPTY_COMMENT, COMMENT_NEWLINE, COMMENT_TICK, COMMENT_SEPARATOR,
    COUNTER_PLAIN, COUNTER_ZEROS, CONSTANT_PLAIN, CONSTANT_ZEROS, MINUS_PLAIN, MINUS_ZEROS,
    ZERO, MANY_ZEROS, MINUS_ZERO, MINUS_MANY_ZEROS, EMPTY_PRINT, PRINT_BLANK, PRINT_QUOTE,
    PRINT_SEPARATOR, PRINT_NUMBER, DIGIT_0, MARK_0, ALIKE, SHORTER, FULL_ALIKE, FULL_OTHER,
    FULL_SHORTER, FEATURES
};

static unsigned long long texts, numbers[LAST], refused_newlines, bytes[256], rooms[ROOMS][2],
    copies[REC_NUMBERS], papers[PAPERS][OUTCOMES], features[FEATURES];

static void saw(bool seen, enum feature feature)
{
    features[feature] += seen;
}

static bool has(const uint8_t *part, size_t length, const char *any)
{
    for (; *any != 0; any++)
        if (memchr(part, *any, length) != NULL)
            return true;
    return false;
}

static void count_comment(const uint8_t *part, size_t length)
{
    saw(length == 2, EMPTY_COMMENT);
    saw(has(part, length, "\n"), COMMENT_NEWLINE);
    saw(has(part, length, "'"), COMMENT_TICK);
    saw(has(part, length, ",."), COMMENT_SEPARATOR);
}

static void count_constant(const uint8_t *part, size_t length)
{
    bool minus = part[2] == '-', zeros, zero;
    size_t first = minus ? 3 : 2, count = 0;
    while (part[first + count] == '0')
        count++;
    zero = first + count == length - 1;
    zeros = count > (zero ? 1 : 0);
    if (zero)
        saw(true, minus ? zeros ? MINUS_MANY_ZEROS : MINUS_ZERO : zeros ? MANY_ZEROS : ZERO);
    else if (minus)
        saw(true, zeros ? MINUS_ZEROS : MINUS_PLAIN);
    else
        saw(true, zeros ? CONSTANT_ZEROS : CONSTANT_PLAIN);
}

static void count_print(const uint8_t *part, size_t length)
{
    saw(length == 3, EMPTY_PRINT);
    saw(has(part, length, " "), PRINT_BLANK);
    saw(has(part, length, "\""), PRINT_QUOTE);
    saw(has(part, length, ",."), PRINT_SEPARATOR);
    saw(part[2] == '/', PRINT_NUMBER);
}

static void count_part(const uint8_t *part, size_t length, uint8_t before)
{
    saw(part[0] == ' ', BLANK);
    saw(part[0] == '\n', NEWLINE);
    saw(part[0] == ',', COMMA);
    saw(part[0] == '.', POINT);
    saw(length == 2 && part[1] == '0', DIGIT_0);
    saw(part[0] == '0' && (before == '-' || before == '0'), MARK_0);
    if (part[0] == '"')
        count_comment(part, length);
    else if (part[0] == '$')
        saw(true, part[1] == '0' ? COUNTER_ZEROS : COUNTER_PLAIN);
    else if (part[0] == '\'' && part[1] == '/')
        count_constant(part, length);
    else if (part[0] == '\'')
        count_print(part, length);
}

/* An accepted text and its fair copy. */
static void count_accepted(const uint8_t *text, size_t length, const uint8_t *copy, size_t written)
{
    bool alike = written == length && memcmp(text, copy, length) == 0;
    for (size_t i = 0; i < length; i += part_length(text + i))
        count_part(text + i, part_length(text + i), i > 0 ? text[i - 1] : 0);
    saw(alike, ALIKE);
    saw(written < length, SHORTER);
    if (length == REC_TEXT)
        saw(true, alike ? FULL_ALIKE : written == length ? FULL_OTHER : FULL_SHORTER);
}

static void count_text(const uint8_t *text, size_t length, size_t room, uint32_t number)
{
    texts++;
    numbers[number]++;
    rooms[room == 0 ? NO_ROOM : room < REC_CELLS ? LESS : room == REC_CELLS ? EXACT : MORE]
         [number != 0]++;
    for (size_t i = 0; i < length; i++)
        bytes[text[i]]++;
    if (number != 0 && length > 0 && length <= REC_TEXT)
        refused_newlines += memchr(text, '\n', length) != NULL;
}

static bool features_met(unsigned long long least)
{
    static const char *const words[FEATURES] = {
        "a blank between marks", "a newline between marks", "`,`", "`.`", "an empty comment",
        "a newline in a comment", "`'` in a comment", "`,` or `.` in a comment",
        "a counter as it stays", "a counter with zeros in front", "a constant as it stays",
        "a constant with zeros in front", "a minus constant as it stays",
        "a minus constant with zeros in front", "0", "0 of many digits", "minus 0",
        "minus 0 of many digits", "an empty print", "a blank in a print", "`\"` in a print",
        "`,` or `.` in a print", "a print that looks like a constant", "F0 or S0",
        "`0` after `-` or 0", "the text is its copy", "the copy is shorter",
        "256 bytes, and the text is its copy", "256 bytes, and as many others in the copy",
        "256 bytes, and fewer in the copy"};
    bool good = true;
    for (size_t i = 0; i < FEATURES; i++)
        good &= met(features[i], least, "accepted: %s", words[i]);
    return good & met(refused_newlines, least, "refused, with a newline");
}

static bool rooms_met(unsigned long long least)
{
    static const char *const words[ROOMS] = {"a room of 0", "a room of less than 250",
                                             "a room of 250", "a room of more than 250"};
    bool good = true;
    for (size_t i = 0; i < ROOMS; i++)
        for (size_t j = 0; j < 2; j++)
            good &= met(rooms[i][j], least, "%s, text %s", words[i], j ? "refused" : "accepted");
    return good;
}

/* No copy fits on the first three papers, and each fits on the others but the last. */
static bool papers_met(unsigned long long least)
{
    static const char *const words[PAPERS] = {
        "no paper", "a paper of 0", "a paper of one byte less than the copy",
        "a paper as long as the copy", "a paper of one byte more", "a paper as long as the text",
        "a paper of 256", "some paper"};
    static const char *const ends[OUTCOMES] = {"copied", "text refused", "short"};
    bool good = true;
    for (size_t i = 0; i < PAPERS; i++)
        for (size_t j = 0; j < OUTCOMES; j++)
            if (j == REFUSED || i == SOME || (j == SHORT) == (i <= ONE_LESS)) {
                good &= met(papers[i][j], least, "%s, %s", words[i], ends[j]);
            } else if (papers[i][j] > 0) {
                printf("%s, %s: it can not come, but came\n", words[i], ends[j]);
                good = false;
            }
    return good;
}

/* The linker's numbers, and 30. */
static bool copies_met(unsigned long long least)
{
    bool good = true;
    for (uint32_t i = 0; i < REC_NUMBERS; i++)
        good &= number_met((i < LAST && i != REC_NO_SUCH_LETTER) || i == REC_SHORT_PAPER, i,
                           copies[i], least, "fair copy");
    return good & papers_met(least);
}

/* The linker gives 0 and 2 to 9. Number 1 is for calls that have a letter. */
static bool counts(bool directed, bool full)
{
    unsigned long long least = directed ? 5 : full ? 1000 : 0;
    bool good = true;
    printf("%s: %llu texts\n", directed ? "directed cases" : "rounds", texts);
    for (uint32_t i = 0; i < LAST; i++)
        if (i != REC_NO_SUCH_LETTER)
            good &= met(numbers[i], least, "number %u (%s)", (unsigned)i, number_word(i));
    good &= features_met(least);
    good &= rooms_met(least);
    good &= copies_met(least);
    for (unsigned i = 0; i < 256; i++)
        if (bytes[i] < least)
            good = met(bytes[i], least, "byte %u", i);
    memset(numbers, 0, sizeof numbers);
    memset(rooms, 0, sizeof rooms);
    memset(bytes, 0, sizeof bytes);
    memset(copies, 0, sizeof copies);
    memset(papers, 0, sizeof papers);
    memset(features, 0, sizeof features);
    texts = refused_newlines = 0;
    return good;
}

/* ---- one comparison ---------------------------------------------------- */

/* Texts, lent rooms, papers and copies end where the pages that may be used end. */
static uint8_t *text_end, *paper_end, *copy_end;
static int32_t *room_end;

static void *fenced(size_t size)
{
    size_t page = (size_t)sysconf(_SC_PAGESIZE);
    size_t pages = (size + page - 1) / page;
    uint8_t *start = mmap(NULL, (pages + 1) * page, PROT_READ | PROT_WRITE,
                          MAP_PRIVATE | MAP_ANONYMOUS, -1, 0);
    if (start == MAP_FAILED || mprotect(start + pages * page, page, PROT_NONE) != 0) {
        perror("links");
        exit(2);
    }
    return start + pages * page;
}

static void show(const uint8_t *text, size_t length, size_t room)
{
    printf("  room %zu, text of %zu bytes: ", room, length);
    for (size_t i = 0; i < length && i < 400; i++)
        printf(text[i] < 32 || text[i] > 126 || text[i] == '\\' ? "\\x%02x" : "%c", text[i]);
    putchar('\n');
}

/* What stands at a place of the lent room before the call. */
static uint32_t soil = 77000000;

static int32_t soiled(size_t place)
{
    return (int32_t)(soil + (uint32_t)place);
}

/* The lent room: the table's cells; behind the 250th, outside the room and for a
 * refused text (no table), what stood there. */
static bool same_cells(const int32_t *cells, size_t room, const int32_t *table)
{
    for (size_t i = 0; i < GUARD + room; i++) {
        bool written = table != NULL && i >= GUARD && i - GUARD < REC_CELLS;
        int32_t expected = written ? table[i - GUARD] : soiled(i);
        int32_t got = cells[(ptrdiff_t)i - GUARD];
        if (got != expected) {
            printf("  cell %ld: expected %ld, got %ld\n", (long)i - GUARD + 1, (long)expected,
                   (long)got);
            return false;
        }
    }
    return true;
}

/* rec_link's number, and whether room and count are as they have to be. */
static uint32_t link_text(const uint8_t *text, size_t length, size_t room, const int32_t *table,
                          size_t used, bool *good)
{
    int32_t *cells = room_end - room;
    size_t counts[3] = {SIZE_MAX, SIZE_MAX, SIZE_MAX};
    uint32_t number;
    soil += 1000;
    for (size_t i = 0; i < GUARD + room; i++)
        cells[(ptrdiff_t)i - GUARD] = soiled(i);
    number = (uint32_t)engine_link(text, length, cells, room, &counts[1]);
    *good = same_cells(cells, room, table);
    if (counts[1] != used || counts[0] != SIZE_MAX || counts[2] != SIZE_MAX) {
        printf("  used cells: expected %zu, got %zu, with %zu and %zu beside it\n", used,
               counts[1], counts[0], counts[2]);
        *good = false;
    }
    return number;
}

/* What stands on a paper before the call: some part of these bytes. */
static struct random dirt;
static uint8_t dirty[2 * SHEET];

static void make_dirt(uint64_t seed)
{
    random_seed(&dirt, seed);
    for (size_t i = 0; i < sizeof dirty; i++)
        dirty[i] = (uint8_t)random_bits(&dirt);
}

static bool same_sheet(const uint8_t *expected, const uint8_t *got, size_t all)
{
    size_t i = 0;
    if (memcmp(got, expected, all) == 0)
        return true;
    while (got[i] == expected[i])
        i++;
    printf("  byte %ld of the paper: expected %u, got %u\n", (long)i - GUARD + 1, expected[i], got[i]);
    return false;
}

/* A fair copy by both, on papers alike. Behind the engine's there are bytes that must
 * stay, or none that may be touched. */
static bool same_copy(const uint8_t *text, size_t length, enum paper kind, size_t room)
{
    static uint8_t expected[SHEET];
    size_t all = GUARD + room + (chance(&dirt, 50) ? GUARD : 0);
    uint8_t *sheet = paper_end - all, *paper = kind == NULL_PAPER ? NULL : sheet + GUARD;
    size_t counts[3] = {SIZE_MAX, SIZE_MAX, SIZE_MAX}, written;
    uint32_t number, got;
    bool good;
    memcpy(sheet, dirty + below(&dirt, SHEET), all);
    memcpy(expected, sheet, all);
    number = rec_clean_print(text, length, expected + GUARD, room, &written);
    got = (uint32_t)engine_fair_copy(text, length, paper, room, &counts[1]);
    copies[number]++;
    papers[kind][number == 0 ? COPIED : number == REC_SHORT_PAPER ? SHORT : REFUSED]++;
    good = same_sheet(expected, sheet, all);
    if (got != number || counts[1] != written || counts[0] != SIZE_MAX || counts[2] != SIZE_MAX) {
        printf("  number and length: expected %u and %zu, got %ld and %zu, with %zu and %zu beside "
               "it\n", (unsigned)number, written, (long)got, counts[1], counts[0], counts[2]);
        good = false;
    }
    if (!good)
        printf("  by rec_fair_copy, %s of %zu\n", paper ? "paper" : "null paper", room);
    return good;
}

/* On each of the papers that a copy of so many bytes has. */
static bool same_copies(const uint8_t *text, size_t length, size_t copy)
{
    const size_t lent[PAPERS] = {
        [ONE_LESS] = copy - 1, [JUST] = copy, [ONE_MORE] = copy + 1,
        [AS_TEXT] = length < ROOM ? length : ROOM, [LONGEST] = REC_TEXT,
        [SOME] = below(&dirt, chance(&dirt, 50) ? (uint32_t)copy + 1 : ROOM + 1)};
    bool good = true;
    for (size_t i = 0; i < PAPERS && good; i++)
        good &= same_copy(text, length, (enum paper)i, lent[i]);
    return good;
}

static bool same_table(const uint8_t *text, size_t length, const uint8_t *copy, size_t written)
{
    int32_t cells[2][REC_CELLS] = {{0}, {1}};
    size_t used[2];
    return engine_check(copy, written) == 0
           && engine_link(text, length, cells[0], REC_CELLS, &used[0]) == 0
           && engine_link(copy, written, cells[1], REC_CELLS, &used[1]) == 0 && used[0] == used[1]
           && memcmp(cells[0], cells[1], sizeof cells[0]) == 0;
}

/* U1's claims about an accepted text, by the engine alone: a paper as long as the text is
 * enough, the copy links to the very table of the text, and it is the copy of itself. */
static bool claims_hold(const uint8_t *text, size_t length)
{
    uint8_t *paper = paper_end - length, *copy;
    size_t written, again;
    if (engine_fair_copy(text, length, paper, length, &written) != 0 || written > length) {
        puts("  a paper as long as the text is not enough for its fair copy");
        return false;
    }
    copy = memcpy(copy_end - written, paper, written);
    if (!same_table(text, length, copy, written)) {
        puts("  the fair copy does not link to the table of the text");
        return false;
    }
    paper = memset(paper_end - written, 0, written);
    if (engine_fair_copy(copy, written, paper, written, &again) == 0 && again == written
        && memcmp(paper, copy, written) == 0)
        return true;
    puts("  the fair copy's fair copy is another");
    return false;
}

static bool copies_hold(const uint8_t *text, size_t length)
{
    uint8_t copy[REC_TEXT];
    size_t written;
    if (rec_clean_print(text, length, copy, REC_TEXT, &written) != 0)
        return same_copies(text, length, LEAST);
    count_accepted(text, length, copy, written);
    return same_copies(text, length, written) && claims_hold(text, length);
}

/* `said` is the number that document 01 gives, where it was known before. */
static bool compare(const uint8_t *words, size_t length, size_t room, uint32_t said)
{
    static struct rec_tree tree;
    int32_t table[REC_CELLS];
    uint8_t *text = text_end - length;
    uint32_t number, checked, linked;
    bool good;
    if (length > 0)
        memcpy(text, words, length);
    number = rec_read(text, length, &tree);
    if (number == 0)
        rec_table(&tree, table);
    checked = (uint32_t)engine_check(text, length);
    linked = number == 0 ? link_text(text, length, room, table, tree.used, &good)
                         : link_text(text, length, room, NULL, 0, &good);
    if (said != ANY && number != said) {
        printf("  the reference: expected %u, got %u\n", (unsigned)said, (unsigned)number);
        good = false;
    }
    if (number >= LAST || number == REC_NO_SUCH_LETTER) {
        printf("  the reference: number %u is none of a text\n", (unsigned)number);
        good = false;
    }
    if (checked != number || linked != number) {
        printf("  number: expected %u, got %ld by rec_check and %ld by rec_link\n",
               (unsigned)number, (long)checked, (long)linked);
        good = false;
    }
    good &= copies_hold(text, length);
    if (length > 0 && memcmp(text, words, length) != 0) {
        puts("  the text is changed");
        good = false;
    }
    if (good)
        count_text(text, length, room, number);
    else
        show(words, length, room);
    return good;
}

static bool compare_text(const struct text *text, uint32_t said)
{
    return compare(text->bytes, text->length, REC_CELLS, said);
}

/* A text whose fair copy was known before. */
static bool compare_copy(const struct text *text, size_t room, const struct text *copy)
{
    uint8_t *paper = paper_end - copy->length;
    size_t written;
    if (!compare(text->bytes, text->length, room, 0))
        return false;
    if (engine_fair_copy(text->bytes, text->length, paper, copy->length, &written) == 0
        && written == copy->length && memcmp(paper, copy->bytes, written) == 0)
        return true;
    puts("  the first text has another fair copy than the second");
    show(text->bytes, text->length, room);
    show(copy->bytes, copy->length, room);
    return false;
}

/* ---- directed cases ---------------------------------------------------- */

static const char *const whole_texts[] = {
    "()",
    "(;)",
    "('/0'($5$'/1'+:;);)",
    "(0L'/1';'/1'-d'/2'*;)",
    "(\n$10$ \"a\nb\"''it is \"(so)'\n('/-999999999'F0S9,J.N:)((z)X)O;\"\"A'''$9999$LMPI+-*/a)",
    "( '/-0' '/0''/-07' \",\" $0010$ , ''a  b\"''/00'''/-0' . - 0 F0 0 )",
    "((((((((((''~ '))))))))))",
    "\n\"one\n\" (N\n;\n0\n:\n)",
    "($1$$2$$3$$4$$5$$6$$7$$8$$9$$10$$11$$12$$13$$14$$15$$16$;)",
};
enum { WHOLE_TEXTS = sizeof whole_texts / sizeof whole_texts[0] };

/* Each beginning of a good text is unfinished. */
static bool beginnings(void)
{
    bool good = true;
    for (size_t i = 0; i < WHOLE_TEXTS && good; i++) {
        const uint8_t *text = (const uint8_t *)whole_texts[i];
        size_t length = strlen(whole_texts[i]);
        for (size_t n = 0; n < length && good; n++)
            good &= compare(text, n, REC_CELLS, REC_UNFINISHED);
        for (size_t room = 0; room <= ROOM && good; room++) {
            good &= compare(text, length, room, 0);
            good &= compare(text, length - 1, room, REC_UNFINISHED);
        }
    }
    return good;
}

/* Each byte at each place of a text: in place of what stands there, before it,
 * and last of all. */
static bool each_byte(const uint8_t *text, size_t length, size_t at)
{
    struct text changed;
    bool good = true;
    for (unsigned byte = 0; byte < 256 && good; byte++) {
        memcpy(changed.bytes, text, length);
        changed.bytes[at] = (uint8_t)byte;
        good &= compare(changed.bytes, length, REC_CELLS, ANY);
        good &= compare(changed.bytes, at + 1, REC_CELLS, ANY);
        memcpy(changed.bytes + at + 1, text + at, length - at);
        good &= compare(changed.bytes, length + 1, REC_CELLS, ANY);
    }
    return good;
}

static bool bytes_everywhere(void)
{
    bool good = true;
    for (size_t i = 0; i < 6 && good; i++)
        for (size_t at = 0; at < strlen(whole_texts[i]) && good; at++)
            good &= each_byte((const uint8_t *)whole_texts[i], strlen(whole_texts[i]), at);
    return good;
}

/* A text that is refused with this number, whatever the pointer to it. */
static bool refused(const uint8_t *text, size_t length, uint32_t number)
{
    bool clean, good = engine_check(text, length) == (int32_t)number;
    size_t written;
    good &= link_text(text, length, REC_CELLS, NULL, 0, &clean) == number;
    good &= rec_clean_print(text, length, NULL, 0, &written) == number;
    good &= same_copies(text, length, LEAST) & clean;
    if (!good)
        printf("  a text of %zu bytes is not refused with %u\n", length, (unsigned)number);
    return good;
}

/* Texts of 0 bytes wherever the pointer is; it may be null, as that to no room. */
static bool empty_texts(void)
{
    static const uint8_t text[4] = "()";
    size_t used = 7;
    bool good = compare(text, 0, REC_CELLS, REC_UNFINISHED);
    for (size_t i = 0; i <= sizeof text; i++)
        good &= refused(text + i, 0, REC_UNFINISHED);
    good &= refused(NULL, 0, REC_UNFINISHED);
    if (engine_link(NULL, 0, NULL, 0, &used) != REC_UNFINISHED || used != 0
        || engine_link(text, 2, NULL, 0, &used) != 0 || used != 3) {
        puts("  without a room: another number or another count");
        good = false;
    }
    return good;
}

/* A text of each number in rooms about 250: a refused one leaves every cell. */
static bool rooms_of_each_number(void)
{
    static const size_t some[] = {0, 1, 100, 249, 250, 251, 300};
    static const struct {
        uint32_t number;
        const char *words;
        const char *filling;
        size_t times;
    } cases[] = {{0, "(N", "A", 200},
                 {REC_LONG_TEXT, "(", " ", 256},
                 {REC_STRAY_MARK, "(N#", "N", 9},
                 {REC_DEEP, "(((((((((((", "", 0},
                 {REC_BAD_COUNTER, "(NN$0$", "", 0},
                 {REC_BAD_CONSTANT, "(NN'/x'", "", 0},
                 {REC_UNFINISHED, "((N", "N", 9},
                 {REC_TABLE_FULL, "(A", "N", 124},
                 {REC_MANY_COUNTERS, "(", "$7$", 17}};
    struct text text;
    bool good = true;
    for (size_t i = 0; i < sizeof cases / sizeof cases[0]; i++) {
        text_clear(&text);
        text_add(&text, cases[i].words);
        text_fill(&text, cases[i].filling, cases[i].times);
        text_add(&text, ")");
        for (size_t j = 0; j < sizeof some / sizeof some[0]; j++)
            good &= compare(text.bytes, text.length, some[j], cases[i].number);
    }
    return good;
}

/* 255 to 258 bytes, filled before, in and behind the expression; then far more. */
static bool lengths(void)
{
    static const char *const pads[] = {" ", "\n", "\"\"", "\"\n\"", "\" x \""};
    struct text text;
    bool good = true;
    for (size_t length = 255; length <= 258; length++)
        for (size_t i = 0; i < 5; i++)
            for (int place = 0; place < 3; place++) {
                size_t times = (length - 5) / strlen(pads[i]);
                text_clear(&text);
                text_fill(&text, " ", length - 5 - times * strlen(pads[i]));
                text_fill(&text, pads[i], place == 0 ? times : 0);
                text_add(&text, "('''");
                text_fill(&text, pads[i], place == 1 ? times : 0);
                text_add(&text, ")");
                text_fill(&text, pads[i], place == 2 ? times : 0);
                good &= compare_text(&text, length <= 256 ? 0 : REC_LONG_TEXT);
                text.bytes[0] = 'x'; /* 2 comes before the text's own faults */
                good &= compare_text(&text, length <= 256 ? REC_STRAY_MARK : REC_LONG_TEXT);
            }
    for (size_t length = 512; length <= TEXT_ROOM; length *= 2) {
        text_clear(&text);
        text_add(&text, "()");
        text_fill(&text, " ", length - 2);
        good &= compare_text(&text, REC_LONG_TEXT);
    }
    return good;
}

/* More bytes than 32 bits count: `()`, then bytes that no answer needs. They are a paper,
 * too. */
static bool huge_text(void)
{
    size_t length = ((size_t)1 << 32) + 2, written;
    uint8_t *text = mmap(NULL, length, PROT_READ | PROT_WRITE,
                         MAP_PRIVATE | MAP_ANONYMOUS | MAP_NORESERVE, -1, 0);
    bool good;
    if (text == MAP_FAILED) {
        perror("links");
        exit(2);
    }
    memcpy(text, "()", 2);
    good = refused(text, length, REC_LONG_TEXT);
    if (engine_fair_copy((const uint8_t *)"(, )", 4, text, length, &written) != 0 || written != 3
        || memcmp(text, "(;)", 4) != 0) {
        puts("  no fair copy on a huge paper");
        good = false;
    }
    munmap(text, length);
    return good;
}

static bool levels(void)
{
    static const char *const insides[] = {"", "X", "\n", "N;", "()", "$1$", "\"(\"", "''('"};
    struct text text;
    bool good = true;
    for (size_t n = 1; n <= 12; n++)
        for (size_t i = 0; i < 8; i++) {
            bool deep = n > 10 || (n == 10 && i == 4);
            text_clear(&text);
            text_add(&text, "(");
            for (size_t j = 1; j < n; j++) {
                text_add(&text, insides[i]);
                text_add(&text, "(");
            }
            text_add(&text, insides[i]);
            good &= compare_text(&text, deep ? REC_DEEP : REC_UNFINISHED);
            text_fill(&text, ")", n);
            good &= compare_text(&text, deep ? REC_DEEP : 0);
        }
    return good;
}

/* Up to 18 counters; the form of a mark comes before 9, and 9 before 8. */
static bool counters(void)
{
    static const struct {
        const char *words;
        uint32_t number;
    } lasts[] = {{"$1$)", 0}, {"$9999$)", 0}, {"$0$)", 5}, {"$12345$)", 5}, {"$$)", 5}, {"$1 $)", 5},
                 {"$\n1$)", 5}, {"$x$)", 5}, {"$1", 7}, {"$1234", 7}, {"$", 7}};
    struct text text;
    bool good = true;
    for (size_t before = 0; before <= 17; before++)
        for (size_t i = 0; i < sizeof lasts / sizeof lasts[0]; i++)
            for (size_t full = 0; full < 2; full++) {
                size_t fill = 249 - 4 * (before < 16 ? before : 16);
                uint32_t number = lasts[i].number;
                if (before > 16 || (before == 16 && number == 0))
                    number = REC_MANY_COUNTERS;
                else if (full && number == 0)
                    number = REC_TABLE_FULL;
                text_clear(&text);
                text_add(&text, "(");
                text_fill(&text, "N", full ? fill / 2 : 0);
                text_fill(&text, "A", full ? fill % 2 : 0);
                for (size_t n = 0; n < before; n++)
                    text_add(&text, n % 3 ? "$3$" : "$12$\n");
                text_add(&text, lasts[i].words);
                good &= compare_text(&text, number);
            }
    return good;
}

/* Each kind of mark at about cell 250, then the last `)`. */
static bool cells(void)
{
    static const struct {
        const char *words;
        size_t cells;
    } marks[] = {{"", 0}, {"A", 1}, {"/", 1}, {"F1", 2}, {"S0", 2}, {"N", 2}, {"J", 2}, {"q", 2},
                 {"$1$", 4}, {"'/5'", 2}, {"'''", 2}, {"''a'", 3}, {"''abc'", 5}, {";", 1}, {",", 1},
                 {":", 1}, {".", 1}, {"()", 1}, {"(;)", 2}, {"(())", 2}, {"\n", 0}};
    struct text text;
    struct random r;
    bool good = true;
    random_seed(&r, 1);
    for (size_t before = 1; before <= 250; before += before < 240 ? 30 : 1)
        for (size_t i = 0; i < sizeof marks / sizeof marks[0]; i++)
            for (int plain = 0; plain < 4; plain++) {
                size_t used = before + marks[i].cells;
                text_clear(&text);
                text_add(&text, "(");
                if (plain > 0) {
                    text_cells(&r, &text, before - 1);
                } else {
                    text_fill(&text, "0", (before - 1) / 2);
                    text_fill(&text, "X", (before - 1) % 2);
                }
                /* 16 counters stand already at times: no 17th here */
                if (marks[i].words[0] == '$' && plain > 0)
                    continue;
                text_add(&text, marks[i].words);
                good &= compare_text(&text, used > 250 ? REC_TABLE_FULL : REC_UNFINISHED);
                text_add(&text, ")");
                good &= compare_text(&text, used + 2 > 250 ? REC_TABLE_FULL : 0);
            }
    return good;
}

/* Fair copies by hand. */
static bool known_copies(void)
{
    static const char *const cases[][2] = {
        {" ( ) ", "()"}, {"\n\"a\nb\"(\n\"\" )\"it's\" ", "()"}, {"(,.;:)", "(;:;:)"},
        {"(\",.\" N , \"'\" . \"$01$\" 0)", "(N;:0)"},
        {"('/007''/-007''/000000001''/-000000010')", "('/7''/-7''/1''/-10')"},
        {"('/0''/00''/-0''/-00''/000000000''/-000000000')", "('/0''/0''/0''/0''/0''/0')"},
        {"('/100''/0100''/999999999''/-999999999')", "('/100''/100''/999999999''/-999999999')"},
        {"($1$$01$$0007$$10$$0010$$9999$)", "($1$$1$$7$$10$$10$$9999$)"},
        {"( ''a  b' '' ' ''' )", "(''a  b''' '''')"}, {"( ''\"a\" \"' \"c\" )", "(''\"a\" \"')"},
        {"(''., ' . , '';:')", "(''., ':;'';:')"}, {"(''/007' '/007' ''/-0')", "(''/007''/7'''/-0')"},
        {"(''$01$ ( ) ' $01$)", "(''$01$ ( ) '$1$)"}, {"(''' '/1' ''')", "(''''/1'''')"},
        {"(F0 0 S0 00 F1 0)", "(F00S000F10)"}, {"(- 0 -0 -00 $1$ 0 '/1' 0 0)", "(-0-0-00$1$0'/1'00)"},
        {"( ( N , ( . ) ) , ( 0 ) . )", "((N;(:));(0):)"},
        {"( A L M P O X I + - * / N 0 J a z )", "(ALMPOXI+-*/N0Jaz)"}};
    struct text text, copy;
    bool good = true;
    for (size_t i = 0; i < sizeof cases / sizeof cases[0]; i++) {
        text_clear(&text);
        text_clear(&copy);
        text_add(&text, cases[i][0]);
        text_add(&copy, cases[i][1]);
        good &= compare_copy(&text, REC_CELLS, &copy) && compare_copy(&copy, REC_CELLS, &copy);
    }
    return good;
}

/* 255 to 258 bytes that are a fair copy; the same with `,` for `;`, and with a blank. */
static bool long_copies(void)
{
    static const char *const fillings[] = {"'/123456789'", "'/-12345678'", "''a  b, .\"'", "''/-0'",
                                           "F0(;)"};
    struct text text, copy;
    bool good = true;
    for (size_t length = 255; length <= 258; length++)
        for (size_t i = 0; i < sizeof fillings / sizeof fillings[0]; i++) {
            bool fits = length <= REC_TEXT;
            text_clear(&copy);
            text_add(&copy, "(");
            text_fill(&copy, fillings[i], (length - 3) / strlen(fillings[i]));
            text_fill(&copy, "A", length - 2 - copy.length);
            text_add(&copy, ";)");
            text = copy;
            good &= compare_text(&text, fits ? 0 : REC_LONG_TEXT);
            text.bytes[length - 2] = ',';
            good &= fits ? compare_copy(&text, REC_CELLS, &copy) : compare_text(&text, REC_LONG_TEXT);
            text.bytes[length - 2] = ' ';
            good &= compare_text(&text, fits ? 0 : REC_LONG_TEXT);
        }
    return good;
}

static bool directed(void)
{
    text_end = fenced(TEXT_ROOM);
    room_end = fenced((ROOM + GUARD) * sizeof *room_end);
    paper_end = fenced(SHEET);
    copy_end = fenced(REC_TEXT);
    make_dirt(1);
    return empty_texts() && rooms_of_each_number() && lengths() && huge_text() && levels()
           && counters() && cells() && known_copies() && long_copies() && beginnings()
           && bytes_everywhere();
}

/* ---- rounds ------------------------------------------------------------ */

static size_t some_room(struct random *r)
{
    switch (below(r, 8)) {
    case 0:
        return below(r, 6);
    case 1:
        return below(r, REC_CELLS);
    case 2:
        return (size_t)between(r, REC_CELLS - 1, REC_CELLS + 1);
    case 3:
        return (size_t)between(r, REC_CELLS + 1, ROOM);
    default:
        return REC_CELLS;
    }
}

static bool each_beginning(struct random *r, const struct text *text)
{
    bool good = true;
    for (size_t i = 0; i <= text->length && good; i++)
        good &= compare(text->bytes, i, some_room(r), ANY);
    return good;
}

/* An accepted text gets what its fair copy has not: the copy stays the same. */
static bool muddle(struct random *r, struct text *text)
{
    struct text copy;
    if (rec_clean_print(text->bytes, text->length, copy.bytes, TEXT_ROOM, &copy.length) != 0)
        return true;
    text_muddle(r, &copy, text);
    return compare_copy(text, some_room(r), &copy);
}

static bool round_of(uint64_t seed)
{
    static const uint8_t letters[] = "abcxyz";
    struct text text;
    struct random r;
    bool good = true;
    random_seed(&r, seed);
    make_dirt(~seed);
    for (int i = 0; i < TEXTS && good; i++) {
        if (i == 0)
            text_brim(&r, &text);
        else
            text_hard(&r, letters, 6, &text);
        good &= compare(text.bytes, text.length, some_room(&r), ANY);
        if (good && chance(&r, 50))
            good &= muddle(&r, &text);
    }
    if (good && chance(&r, 10))
        good &= each_beginning(&r, &text);
    if (good && chance(&r, 5) && text.length > 0)
        good &= each_byte(text.bytes, text.length, below(&r, (uint32_t)text.length));
    return good;
}

int main(int count, char **words)
{
    static const struct work links = {ROUNDS, directed, round_of, counts};
    return work(&links, count, words);
}
