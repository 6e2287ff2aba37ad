/* A day at the desk through rec_day: standard input to standard output.
 *
 *     day SEED <session >answers
 *
 * An even seed also has the day with one byte less than it needs, which must be
 * refused and leave the output as it was, and with just enough. Bytes past the day
 * stay as they were. Exit 0: written; exit 1: a fault, said on standard error. */
#include <stdarg.h>
#include <stdio.h>
#include <stdlib.h>
#include <string.h>

#include "../../include/rec.h"

enum { LINES = 9999, LINE_MOST = 37 + 4096 + 1, ROOM = LINES * LINE_MOST, PAST = 8192 };

static uint8_t *input, *output;
static size_t length, written;

static void fail(const char *form, ...)
{
    va_list words;
    va_start(words, form);
    fputs("day: ", stderr);
    vfprintf(stderr, form, words);
    fputc('\n', stderr);
    va_end(words);
    exit(1);
}

static void read_all(void)
{
    size_t room = 1 << 16, got;
    if ((input = malloc(room)) == NULL)
        fail("no memory");
    while ((got = fread(input + length, 1, room - length, stdin)) > 0) {
        length += got;
        if (length == room && (input = realloc(input, room *= 2)) == NULL)
            fail("no memory");
    }
    if (ferror(stdin))
        fail("the session cannot be read");
}

/* The bytes from one place to another are 0, as they were; no day prints a 0. */
static void untouched(size_t from, size_t to)
{
    while (from < to && from < ROOM)
        if (output[from++] != 0)
            fail("byte %zu of the output was changed", from - 1);
}

static void lend(size_t room, int32_t expected)
{
    int32_t number = rec_day(input, length, output, room, &written);
    if (number != expected)
        fail("%d with %zu bytes of room, not %d", (int)number, room, (int)expected);
}

/* The same day of so many bytes, with one byte less than that, and with no more. */
static void just_enough(size_t whole)
{
    memset(output, 0, whole);
    if (whole > 0) {
        lend(whole - 1, REC_SHORT_OUTPUT);
        if (written != 0)
            fail("a refused day says %zu bytes", written);
        untouched(0, whole + PAST);
    }
    lend(whole, 0);
    if (written != whole)
        fail("%zu bytes with room for %zu", written, whole);
}

int main(int count, char **words)
{
    if (count != 2)
        fail("usage: day SEED <session >answers");
    read_all();
    if ((output = calloc(ROOM, 1)) == NULL)
        fail("no memory");
    lend(ROOM, 0);
    if (strtoull(words[1], NULL, 10) % 2 == 0)
        just_enough(written);
    untouched(written, written + PAST);
    if (fwrite(output, 1, written, stdout) != written || fclose(stdout) != 0)
        fail("the answers cannot be written");
    return 0;
}
