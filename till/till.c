/*
 * A till: checks texts, and shows where the first fault of a refused text is; or prints the fair copies of texts; or says which letters each letter
 * calls, and which of those have no text; or works out what pools pay. `usage` says how it is called, and its exit status.
 */
#include "rec.h"
#include <errno.h>
#include <inttypes.h>
#include <stdio.h>
#include <stdlib.h>
#include <string.h>

static const char usage[] =
    "till checks REC texts. For each it prints its number, the answer and its word; of a refused\n"
    "text also the byte at fault, and the text with a mark under that byte.\n"
    "\n"
    "    till [FILE]      one text a line; a desk line is taken too: of `D` letter text the text,\n"
    "                     while `X` and `R` lines, which have none, are passed over\n"
    "    till -t FILE..   each file is one text, which may hold newlines\n"
    "    till -r [FILE]   records, so that a text may hold any byte: a line with the length of the\n"
    "                     text in bytes, the text, a newline\n"
    "    till -c [FILE]   what each letter calls, see below\n"
    "    till -d [FILE]   what pools pay, see below\n"
    "    till -h          prints this\n"
    "\n"
    "With -f before the rest (-f [FILE], -f -t FILE.., -f -r [FILE]) it prints instead a line with\n"
    "each text's fair copy: the same marks, with no comments, stray blanks or leading zeros. Desk\n"
    "lines stay desk lines: `D` and letter before the copy, `X` and `R` lines as they stand. A\n"
    "refused text has no copy; what is said above of it goes to standard error.\n"
    "\n"
    "With -c it starts without texts and obeys desk lines as the desk does; `R` lines are passed\n"
    "over. Then it prints a line for each letter that stands: all letters that it reaches, by calls\n"
    "and by calls of the letters called, itself included; and as missing those that have no text.\n"
    "A refused line changes nothing, and goes to standard error with its number and word.\n"
    "\n"
    "With -d each line is a race: the pool in cents, the rate of the takeout in tenths of a percent,\n"
    "the number of winning one-unit stakes; digits, with one blank between. For each it prints its\n"
    "number, the answer and, in cents, takeout, net, dividend for one stake, payments and breakage.\n"
    "A refused race has its word instead: 31 a figure is too large, 32 no stake has won; 14 the\n"
    "line has another form, and stands below.\n"
    "\n"
    "Without FILE it reads standard input. Exit status: 0 no text, line or race is refused; 1 one is\n"
    "refused, or with -c a letter is missing; 2 a file cannot be read, records break their form, the\n"
    "output cannot be written, wrong use.\n";

enum { DONE, REFUSED, FAILED }; /* REFUSED: also where a letter is missing */

/* The exit status: the worst of what has happened. */
static int status = DONE;

/* Whether fair copies are printed, in place of numbers. */
static int fair = 0;

static void worsen(int to) {
    if (status < to) status = to;
}

/* Says what is wrong with a file, after all that has been printed. */
static void complain(const char *name, const char *what) {
    fflush(stdout);
    fprintf(stderr, "till: %s: %s\n", name, what);
    worsen(FAILED);
}

/* ---- a text's answer ---- */

/*
 * How many bytes of a refused text refuse it: the length of its shortest beginning with the same number. The byte at fault is the last of them. Every
 * beginning before it is accepted or unfinished, and from it on every one has the number: the theorem FirstFault (crates/language/specs/Statements,
 * docs/DECISIONS.md 34). For 2 it is byte 257 (LongExactly), so there are at most 257 checks. 7 is of no byte.
 */
static size_t refused_length(const uint8_t *text, size_t length, int32_t number) {
    size_t n = 1;
    while (n < length && rec_check(text, n) != number) n++;
    return n;
}

/* The length of a text without the blanks and newlines at its end. */
static size_t trimmed_length(const uint8_t *text, size_t length) {
    while (length > 0 && (text[length - 1] == ' ' || text[length - 1] == '\n')) length--;
    return length;
}

static size_t newlines(const uint8_t *text, size_t length) {
    size_t count = 0;
    for (size_t i = 0; i < length; i++) count += text[i] == '\n';
    return count;
}

static int printable(uint8_t byte) { return byte >= 32 && byte <= 126; }

/* Names a byte that cannot be seen. */
static void name_byte(FILE *out, uint8_t byte) {
    if (byte == '\t') fputs(" (a Tab)", out);
    else if (byte == '\n') fputs(" (a newline)", out);
    else if (byte == '\r') fputs(" (a carriage return)", out);
    else if (!printable(byte)) fprintf(out, " (byte %d)", byte);
}

/* ---- the text with a mark under a byte ---- */

enum { MARGIN = 5, SHOWN = 64 }; /* blanks before a text; bytes of it that are shown */

/* Bytes `first` to `last` - 1 are shown of the line that is bytes `from` to `to` - 1. */
struct view {
    size_t from, to, first, last;
};

/* The line of a text that byte `at` stands in, or ends, and at most SHOWN bytes of it around that byte. */
static struct view view_of(const uint8_t *text, size_t length, size_t at) {
    struct view v = {at, at, 0, 0};
    while (v.from > 0 && text[v.from - 1] != '\n') v.from--;
    while (v.to < length && text[v.to] != '\n') v.to++;
    v.first = v.from;
    v.last = v.to;
    if (v.to - v.from > SHOWN) {
        if (at - v.from > SHOWN / 2) v.first = at - SHOWN / 2;
        if (v.to - v.first < SHOWN) v.first = v.to - SHOWN;
        v.last = v.first + SHOWN;
    }
    return v;
}

/* What stands where a line is cut before its first shown byte. */
static const char *cut_before(const struct view *v) { return v->first > v->from ? "..." : ""; }

static void show_view(FILE *out, const uint8_t *text, const struct view *v) {
    fprintf(out, "%*s%s", MARGIN, "", cut_before(v));
    for (size_t i = v->first; i < v->last; i++) putc(printable(text[i]) ? text[i] : '?', out);
    fputs(v->last < v->to ? "...\n" : "\n", out);
}

static void show(FILE *out, const uint8_t *text, size_t length, size_t at) {
    struct view v = view_of(text, length, at);
    show_view(out, text, &v);
    fprintf(out, "%*s^\n", (int)(MARGIN + strlen(cut_before(&v)) + (at - v.first)), "");
}

/* Where a refused text is at fault: at a byte, or at its end. */
static void show_fault(FILE *out, const uint8_t *text, size_t length, int32_t number) {
    int of_byte = number != REC_UNFINISHED;
    size_t end = trimmed_length(text, length);
    size_t at = of_byte ? refused_length(text, length, number) - 1 : end;
    if (of_byte) fprintf(out, " at byte %zu", at + 1);
    else fputs(" at the end", out);
    if (newlines(text, end) > 0) fprintf(out, ", line %zu", newlines(text, at) + 1);
    if (of_byte) name_byte(out, text[at]);
    putc('\n', out);
    show(out, text, length, at);
}

/* ---- a text ---- */

/* Number and word of what is refused. */
static void report_number(FILE *out, size_t place, int32_t number) {
    fprintf(out, "%4zu %3d %s", place, (int)number, rec_word(number));
    worsen(REFUSED);
}

/* Number, word and fault of a refused text. */
static void report(FILE *out, size_t place, const uint8_t *text, size_t length, int32_t number) {
    report_number(out, place, number);
    show_fault(out, text, length, number);
}

/* Number and word of a refused line, and the line. */
static void report_line(FILE *out, size_t place, const uint8_t *line, size_t length, int32_t number) {
    struct view v = view_of(line, length, 0);
    report_number(out, place, number);
    putc('\n', out);
    show_view(out, line, &v);
}

static void check(size_t place, const uint8_t *text, size_t length) {
    int32_t number = rec_check(text, length);
    if (number == REC_FINISHED) printf("%4zu %3d linked\n", place, (int)number);
    else report(stdout, place, text, length, number);
}

/* A line with the text's fair copy, after the `lead` bytes before the text. The paper is always enough: no copy is longer than its text. */
static void copy(size_t place, const uint8_t *text, size_t length, size_t lead) {
    uint8_t paper[REC_TEXT];
    size_t written;
    int32_t number = rec_fair_copy(text, length, paper, sizeof paper, &written);
    if (number == REC_FINISHED) {
        fwrite(text - lead, 1, lead, stdout);
        fwrite(paper, 1, written, stdout);
        putchar('\n');
    } else {
        fflush(stdout);
        report(stderr, place, text, length, number);
    }
}

/* What is done with each text; `lead` bytes of its line stand before it. */
static void take(size_t place, const uint8_t *text, size_t length, size_t lead) {
    if (fair) copy(place, text, length, lead);
    else check(place, text, length);
}

/* ---- reading ---- */

struct source {
    FILE *in;
    const char *name;
};

/* Bytes of a file; `at` is null while none has been read. */
struct bytes {
    uint8_t *at;
    size_t length, room;
};

/* The file of that name, or standard input where there is none. */
static int open_source(struct source *s, const char *name) {
    s->in = name == NULL ? stdin : fopen(name, "rb");
    s->name = name == NULL ? "standard input" : name;
    if (s->in == NULL) complain(s->name, strerror(errno));
    return s->in != NULL;
}

/* The next byte, or EOF: the file has ended, or it cannot be read and that is said. */
static int next_byte(const struct source *s) {
    int c = getc(s->in);
    if (c == EOF && ferror(s->in)) complain(s->name, strerror(errno));
    return c;
}

static void push(struct bytes *b, int c) {
    if (b->length == b->room) {
        size_t room = b->room * 2 + 1024;
        uint8_t *at = (uint8_t *)realloc(b->at, room);
        if (at == NULL) {
            complain("a text or line", "out of memory");
            exit(status);
        }
        b->at = at;
        b->room = room;
    }
    b->at[b->length++] = (uint8_t)c;
}

/* A line without its newline, which the last may lack; false where there is none, or it cannot be read. */
static int read_line(const struct source *s, struct bytes *line) {
    int c;
    line->length = 0;
    while ((c = next_byte(s)) != EOF && c != '\n') push(line, c);
    return c == '\n' || (line->length > 0 && !ferror(s->in));
}

/* As many bytes as there are, up to `most`. */
static void read_bytes(const struct source *s, struct bytes *b, size_t most) {
    int c;
    b->length = 0;
    while (b->length < most && (c = next_byte(s)) != EOF) push(b, c);
}

/* The number that bytes `from` to `to` - 1 of a line are, or `most` where it is larger; false where there are none, or they are not all digits. */
static int number_of(const struct bytes *line, size_t from, size_t to, size_t most, size_t *number) {
    *number = 0;
    for (size_t i = from; i < to; i++) {
        if (line->at[i] < '0' || line->at[i] > '9') return 0;
        size_t digit = (size_t)(line->at[i] - '0');
        *number = *number > (most - digit) / 10 ? most : *number * 10 + digit;
    }
    return from < to;
}

/* ---- desk lines ---- */

enum { WITHDRAW = 3, DEFINE = 4 }; /* `X`, blank, letter; `D`, blank, letter, blank */

/* A desk line begins so, and no text does. */
static int begins(const struct bytes *line, uint8_t kind) { return line->length >= 2 && line->at[0] == kind && line->at[1] == ' '; }

static int is_define(const struct bytes *line) { return line->length >= DEFINE && begins(line, 'D') && line->at[3] == ' '; }

static int is_withdraw(const struct bytes *line) { return line->length == WITHDRAW && begins(line, 'X'); }

static int has_no_text(const struct bytes *line) { return begins(line, 'X') || begins(line, 'R'); }

/* ---- the three forms ---- */

/* A line without a text: only among fair copies does it stay. */
static void pass_over(const struct bytes *line) {
    if (!fair) return;
    fwrite(line->at, 1, line->length, stdout);
    putchar('\n');
}

static void take_lines(const struct source *s) {
    struct bytes line = {NULL, 0, 0};
    for (size_t place = 1; read_line(s, &line); place++) {
        if (has_no_text(&line)) pass_over(&line);
        else if (is_define(&line)) take(place, line.at + DEFINE, line.length - DEFINE, DEFINE);
        else take(place, line.at, line.length, 0);
    }
    free(line.at);
}

/* What follows a record's length, which `text` holds: as many bytes, and a newline. There are never SIZE_MAX bytes. */
static int read_record(const struct source *s, struct bytes *text) {
    size_t length;
    if (!number_of(text, 0, text->length, SIZE_MAX, &length) || length == SIZE_MAX) return 0;
    read_bytes(s, text, length);
    return text->length == length && next_byte(s) == '\n';
}

static void complain_record(const struct source *s, size_t place) {
    char what[64];
    if (ferror(s->in)) return; /* that has been said */
    snprintf(what, sizeof what, "record %zu breaks its form", place);
    complain(s->name, what);
}

static void take_records(const struct source *s) {
    struct bytes text = {NULL, 0, 0};
    for (size_t place = 1; read_line(s, &text); place++) {
        if (!read_record(s, &text)) {
            complain_record(s, place);
            break;
        }
        take(place, text.at, text.length, 0);
    }
    free(text.at);
}

static void take_from(const char *name, void (*take_all)(const struct source *)) {
    struct source s;
    if (!open_source(&s, name)) return;
    take_all(&s);
    fclose(s.in);
}

static void take_files(char **names, int count) {
    struct bytes text = {NULL, 0, 0};
    struct source s;
    for (int i = 0; i < count; i++) {
        if (!open_source(&s, names[i])) continue;
        read_bytes(&s, &text, SIZE_MAX);
        if (!ferror(s.in)) take((size_t)i + 1, text.at, text.length, 0);
        fclose(s.in);
    }
    free(text.at);
}

/* ---- what each letter calls ---- */

enum { LINE = 300, LINES = 9999 }; /* the desk's: bytes of a line, and lines that it reads */

/* Obeys a line as the desk does, and answers as it does; but a run, which changes no text, is passed over. */
static int32_t obey(rec_store *store, const struct bytes *line) {
    if (begins(line, 'R')) return REC_FINISHED;
    if (line->length > LINE) return REC_BAD_LINE;
    if (is_define(line)) return rec_define(store, line->at[2], REC_OPEN, line->at + DEFINE, line->length - DEFINE);
    if (is_withdraw(line)) return rec_withdraw(store, line->at[2]);
    return REC_BAD_LINE;
}

static int is_of_text(int32_t number) { return number >= REC_LONG_TEXT && number <= REC_MANY_COUNTERS; }

/* A refused desk line: where its text is at fault, as of any text; else the line. */
static void report_desk_line(size_t place, const struct bytes *line, int32_t number) {
    if (is_of_text(number)) report(stderr, place, line->at + DEFINE, line->length - DEFINE, number);
    else report_line(stderr, place, line->at, line->length, number);
}

static void print_marked(const char *word, const uint8_t marks[REC_LETTERS]) {
    fputs(word, stdout);
    for (int k = 0; k < REC_LETTERS; k++)
        if (marks[k]) printf(" %c", 'a' + k);
}

/* A line for each letter that stands. Every other letter is refused, with 10; 13 and 29 do not occur in a store that only calls have changed. */
static void print_calls(const rec_store *store) {
    uint8_t reached[REC_LETTERS], missing[REC_LETTERS];
    for (int letter = 'a'; letter <= 'z'; letter++) {
        if (rec_reach(store, (uint8_t)letter, reached, missing) != REC_FINISHED) continue;
        putchar(letter);
        print_marked(" reaches", reached);
        if (memchr(missing, 1, sizeof missing) != NULL) {
            print_marked(", missing", missing);
            worsen(REFUSED);
        }
        putchar('\n');
    }
}

static void take_calls(const struct source *s) {
    static rec_store store;
    struct bytes line = {NULL, 0, 0};
    rec_fresh(&store);
    for (size_t place = 1; place <= LINES && read_line(s, &line); place++) {
        int32_t number = obey(&store, &line);
        if (number != REC_FINISHED) report_desk_line(place, &line, number);
    }
    free(line.at);
    if (!ferror(s->in)) print_calls(&store);
}

/* ---- what pools pay ---- */

struct race {
    uint32_t pool, rate, stakes;
};

/* The figure from byte `*from` of a line to a blank or the line's end, and in `*from` the byte after that; UINT32_MAX is outside all bounds. */
static int next_figure(const struct bytes *line, size_t *from, uint32_t *figure) {
    size_t to = *from, number;
    while (to < line->length && line->at[to] != ' ') to++;
    if (!number_of(line, *from, to, UINT32_MAX, &number)) return 0;
    *figure = (uint32_t)number;
    *from = to + 1;
    return 1;
}

/* The race that a line is; false where the line has another form. */
static int race_of(const struct bytes *line, struct race *r) {
    size_t from = 0;
    return next_figure(line, &from, &r->pool) && next_figure(line, &from, &r->rate) && next_figure(line, &from, &r->stakes) && from == line->length + 1;
}

static void print_race(size_t place, const struct race *r) {
    rec_dividend_report d;
    int32_t number = rec_dividend(r->pool, r->rate, r->stakes, &d);
    if (number == REC_FINISHED)
        printf("%4zu %3d takeout %" PRIu64 ", net %" PRIu64 ", dividend %" PRIu64 ", payments %" PRIu64 ", breakage %" PRIu64, place, (int)number,
               d.takeout, d.net, d.dividend, d.payments, d.breakage);
    else report_number(stdout, place, number);
    putchar('\n');
}

static void take_races(const struct source *s) {
    struct bytes line = {NULL, 0, 0};
    struct race r;
    for (size_t place = 1; read_line(s, &line); place++) {
        if (race_of(&line, &r)) print_race(place, &r);
        else report_line(stdout, place, line.at, line.length, REC_BAD_LINE);
    }
    free(line.at);
}

/* ---- use ---- */

/* Options come first, so no name begins as they do. */
static int are_names(char **words, int count) {
    for (int i = 0; i < count; i++)
        if (words[i][0] == '-') return 0;
    return 1;
}

static void wrong_use(void) {
    fputs(usage, stderr);
    worsen(FAILED);
}

int main(int argc, char **argv) {
    fair = argc > 1 && strcmp(argv[1], "-f") == 0;
    int options = argc > 1 + fair && argv[1 + fair][0] == '-';
    const char *option = options ? argv[1 + fair] : "";
    char **names = argv + 1 + fair + options;
    int count = argc - 1 - fair - options;
    if (strcmp(option, "-h") == 0 && !fair) fputs(usage, stdout);
    else if (!are_names(names, count)) wrong_use();
    else if (strcmp(option, "-t") == 0 && count > 0) take_files(names, count);
    else if (strcmp(option, "-r") == 0 && count <= 1) take_from(names[0], take_records);
    else if (strcmp(option, "-c") == 0 && !fair && count <= 1) take_from(names[0], take_calls);
    else if (strcmp(option, "-d") == 0 && !fair && count <= 1) take_from(names[0], take_races);
    else if (!options && count <= 1) take_from(names[0], take_lines);
    else wrong_use();
    if (fflush(stdout) != 0 || ferror(stdout) || fclose(stdout) != 0) complain("standard output", "cannot be written");
    return status;
}
