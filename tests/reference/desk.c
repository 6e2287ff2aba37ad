/* The desk program of document 01's last section, over the nested meaning. By U7 of
 * document 02 `D` defines open letters and `R` runs as a cashier, so 33, 34 and 35
 * never come here.
 *
 *     desk [COUNTS]    lines on standard input, answers on standard output
 *
 * With COUNTS, one line is added to that file at the end: lines answered, bytes
 * printed, and how often each number 0 to 29 was answered.
 *
 * Where the document had to be read one way or another:
 *
 *  1. "reads lines": a line ends at byte 10 or at the end of the input. After a
 *     newline that ends the input no further line stands; an empty input has no
 *     line; an empty line is a line and breaks its form (14). Byte 13 is a byte
 *     like any other, so is byte 0.
 *  2. "lines to 300 bytes before the newline, which the last may lack; else 14":
 *     a longer line is one line, answered 14 whatever it holds, read on to its
 *     newline. The limit holds for a last line without newline as well.
 *  3. "the letter one byte": any byte but newline stands as the letter, also a
 *     blank, a digit or byte 0. A letter not `a` to `z` is no fault of the line:
 *     the call answers 1.
 *  4. "one blank between fields": exactly one; a blank before the first field or
 *     after the last one breaks the form. The `D`, `X` or `R` is a field too,
 *     in capitals only. Only the text may hold more blanks.
 *  5. "`D q` and one blank carries the empty text": any `D`, letter, blank is
 *     such a line, so the shortest is 4 bytes. "The text the rest of its line":
 *     blanks at its end belong to it.
 *  6. "else 14": the form of the whole line is settled before its call is made,
 *     so 14 comes before 1, 2 and 10: `R Q x` and `D Q` are 14, `D Q (` is 1.
 *  7. "whole numbers of 1 to 9 digits, inputs perhaps with `-`": zeros in front
 *     count as digits and are allowed; the `-` is not one of the 9; `-0` is an
 *     input of 0; the allowance has no `-`; a `+` breaks the form. A run line may
 *     have no input at all.
 *  8. "at most 64": a 65th input breaks the form (14).
 *  9. "Each line prints ...": one figure line for each line read, 14 among them,
 *     no blanks between the widths, ended by a newline, the last one too.
 * 10. "zeros for `D` and `X` and for refusals": truth, steps, height and top are
 *     zero; the line number and the answer stand. "Refusals": 1 to 14. A run
 *     ended by 20 to 28 shows its steps, height and top at the stop, truth 0.
 * 11. "a run's output ..., if any, follows with a newline after it": when its
 *     length is not 0, for stopped runs as well, and the newline is added also
 *     when the output itself ends in one.
 * 12. "Lines past 9,999 are not read": the program ends after answering line
 *     9,999. What it then leaves unread in the input is no matter.
 * 13. "starts from a fresh store": each run gets a fresh list and 4,096 fresh
 *     places of output.
 * 14. The ending status is not in the document: 0 here. */
#include <stdio.h>
#include <string.h>

#include "rec.h"

enum { LINE_BYTES = 300, LINES = 9999, PAPER = 4096, INPUTS = 64, DIGITS = 9 };

struct line {
    uint8_t bytes[LINE_BYTES];
    size_t length; /* may be over LINE_BYTES; the rest is not kept */
    size_t at;
};

struct figures {
    struct rec_answer answer;
    int32_t top;
    uint8_t output[PAPER];
};

struct tally {
    unsigned long long lines;
    unsigned long long bytes;
    unsigned long long numbers[REC_NUMBERS];
};

static bool read_line(FILE *in, struct line *line)
{
    int byte = getc(in);
    line->length = 0;
    line->at = 0;
    if (byte == EOF)
        return false;
    while (byte != EOF && byte != '\n') {
        if (line->length < LINE_BYTES)
            line->bytes[line->length] = (uint8_t)byte;
        line->length++;
        byte = getc(in);
    }
    return true;
}

static bool line_ended(const struct line *line)
{
    return line->at == line->length;
}

/* Takes this byte if it is next. */
static bool takes(struct line *line, uint8_t byte)
{
    if (line_ended(line) || line->bytes[line->at] != byte)
        return false;
    line->at++;
    return true;
}

/* A whole number: as many digits as stand there, 1 to 9 of them. */
static bool takes_number(struct line *line, int32_t *number)
{
    size_t digits = 0;
    *number = 0;
    while (!line_ended(line)) {
        uint8_t byte = line->bytes[line->at];
        if (byte < '0' || byte > '9')
            break;
        if (digits == DIGITS)
            return false;
        *number = *number * 10 + (byte - '0');
        digits++;
        line->at++;
    }
    return digits > 0;
}

static bool takes_inputs(struct line *line, int32_t *inputs, size_t *count)
{
    *count = 0;
    while (!line_ended(line)) {
        bool minus;
        int32_t number;
        if (*count == INPUTS || !takes(line, ' '))
            return false;
        minus = takes(line, '-');
        if (!takes_number(line, &number))
            return false;
        inputs[(*count)++] = minus ? -number : number;
    }
    return true;
}

static uint32_t desk_define(struct rec_book *book, struct line *line, uint8_t letter)
{
    if (!takes(line, ' '))
        return REC_BAD_LINE;
    return rec_book_define(book, letter, REC_OPEN, line->bytes + line->at,
                           line->length - line->at);
}

static uint32_t desk_withdraw(struct rec_book *book, struct line *line, uint8_t letter)
{
    return line_ended(line) ? rec_book_withdraw(book, letter) : REC_BAD_LINE;
}

static uint32_t desk_run(struct rec_book *book, struct line *line, uint8_t letter,
                         struct figures *figures)
{
    int32_t inputs[INPUTS], list[REC_LIST], allowance;
    struct rec_loan loan = {inputs, 0, list, REC_LIST, figures->output, PAPER};
    if (!takes(line, ' ') || !takes_number(line, &allowance)
        || !takes_inputs(line, inputs, &loan.input_length))
        return REC_BAD_LINE;
    figures->answer = rec_book_run(book, letter, REC_CASHIER, (uint32_t)allowance, &loan);
    if (figures->answer.height > 0)
        figures->top = list[figures->answer.height - 1];
    return figures->answer.number;
}

static uint32_t answer_line(struct rec_book *book, struct line *line,
                            struct figures *figures)
{
    uint8_t command, letter;
    if (line->length < 3 || line->length > LINE_BYTES || line->bytes[1] != ' ')
        return REC_BAD_LINE;
    command = line->bytes[0];
    letter = line->bytes[2];
    line->at = 3;
    switch (command) {
    case 'D':
        return desk_define(book, line, letter);
    case 'X':
        return desk_withdraw(book, line, letter);
    case 'R':
        return desk_run(book, line, letter, figures);
    default:
        return REC_BAD_LINE;
    }
}

static void print_figures(FILE *out, unsigned number, uint32_t answer,
                          const struct figures *figures, struct tally *tally)
{
    const struct rec_answer *a = &figures->answer;
    int width = fprintf(out, "%4u%4u%3u%10u%4u%11d\n", number, (unsigned)answer,
                        (unsigned)a->truth, (unsigned)a->steps,
                        (unsigned)a->height, (int)figures->top);
    tally->lines++;
    tally->bytes += (unsigned)width;
    tally->numbers[answer]++;
    if (a->written > 0) {
        fwrite(figures->output, 1, a->written, out);
        putc('\n', out);
        tally->bytes += a->written + 1;
    }
}

void desk(FILE *in, FILE *out, struct tally *tally)
{
    static struct rec_book book;
    static struct figures figures;
    struct line line;
    rec_book_fresh(&book);
    for (unsigned number = 1; number <= LINES && read_line(in, &line); number++) {
        uint32_t answer;
        memset(&figures.answer, 0, sizeof figures.answer);
        figures.top = 0;
        answer = answer_line(&book, &line, &figures);
        print_figures(out, number, answer, &figures, tally);
    }
}

#ifndef DESK_WITHOUT_MAIN
static int add_tally(const char *path, const struct tally *tally)
{
    FILE *file = fopen(path, "a");
    if (!file)
        return 2;
    fprintf(file, "%llu %llu", tally->lines, tally->bytes);
    for (size_t i = 0; i <= REC_DAMAGED; i++)
        fprintf(file, " %llu", tally->numbers[i]);
    putc('\n', file);
    return fclose(file) ? 2 : 0;
}

int main(int count, char **words)
{
    static char buffer[1 << 16];
    struct tally tally = {0};
    setvbuf(stdout, buffer, _IOFBF, sizeof buffer);
    desk(stdin, stdout, &tally);
    if (fflush(stdout))
        return 2;
    return count > 1 ? add_tally(words[1], &tally) : 0;
}
#endif
