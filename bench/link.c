/*
 * The proved linker and fair copy against plain C's, in one run: both give the same numbers, counts, cells and copies on many texts, and then the time of
 * each on short, typical and longest texts, and of a copy beside a link of the same text. bench/places builds and runs it.
 */
#define _POSIX_C_SOURCE 199309L
#include "measure.h"
#include "plain_copy.h"
#include "plain_linker.h"
#include "rec.h"
#include <stdio.h>
#include <string.h>

enum { LONGEST = 300, ROUNDS = 7 };

static long compared, accepted, copied;

/* Both linkers on one text. Their answers, counts and every cell must be equal. */
static int same(const uint8_t *text, size_t length) {
    int32_t a[REC_CELLS + 2], b[REC_CELLS + 2];
    memset(a, 0x55, sizeof a);
    memset(b, 0x55, sizeof b);
    size_t room = below(8) == 0 ? below(REC_CELLS + 2) : REC_CELLS, m, n;
    int32_t x = rec_link(text, length, a, room, &m);
    int32_t y = plain_link(text, length, b, room, &n);
    compared++;
    accepted += x == 0;
    if (x == y && rec_check(text, length) == x && m == n && memcmp(a, b, sizeof a) == 0) return 1;
    printf("differ: %d and %d on %.*s\n", (int)x, (int)y, (int)length, (const char *)text);
    return 0;
}

/* Both fair copies of one text, on papers that often are too short. Their answers, lengths and every byte must be equal. */
static int same_copy(const uint8_t *text, size_t length) {
    uint8_t a[REC_TEXT + 2], b[REC_TEXT + 2];
    memset(a, 0x55, sizeof a);
    memset(b, 0x55, sizeof b);
    size_t room = below((uint32_t)sizeof a + 1), m, n;
    int32_t x = rec_fair_copy(text, length, a, room, &m);
    int32_t y = plain_fair_copy(text, length, b, room, &n);
    copied += x == 0;
    if (x == y && m == n && memcmp(a, b, sizeof a) == 0) return 1;
    printf("copies differ: %d and %d on %.*s\n", (int)x, (int)y, (int)length, (const char *)text);
    return 0;
}

/* A text that follows the grammar often and breaks it at times. */
static size_t some_text(uint8_t *text) {
    static const char *pieces[] = {"N", "0", "J", "a", "z", "+", "-", "A", "L", "F0", "S7", "$1$", "$9999$", "'/5'", "'/-999999999'", "''paid '", "''", ";", ":", ",", ".",
        "(", "(", "(", ")", ")", " ", "\n", "\"note\"", "P", "X", "$0$", "'/'", "B", "''", "\"", "$", "'", "\t"};
    uint32_t kinds = below(3) == 0 ? sizeof pieces / sizeof *pieces : 30;
    size_t length = 0, most = 1 + below(LONGEST - 20);
    int depth = 1;
    text[length++] = '(';
    while (length < most) {
        const char *p = pieces[below(kinds)];
        if (*p == '(' && depth >= 8 + (int)below(4)) continue;
        if (*p == ')' && depth == 1) continue;
        depth += *p == '(';
        depth -= *p == ')';
        memcpy(text + length, p, strlen(p));
        length += strlen(p);
    }
    if (below(16) != 0) while (depth-- > 0) text[length++] = ')';
    if (below(8) == 0) text[length++] = (uint8_t)below(256);
    if (below(8) == 0) text[below((uint32_t)length)] = (uint8_t)below(256);
    return length;
}

static int32_t cells[REC_CELLS];
static uint8_t paper[REC_TEXT];
static size_t count;

typedef int32_t call(const uint8_t *, size_t);

static int32_t proved_link_call(const uint8_t *text, size_t length) { return rec_link(text, length, cells, REC_CELLS, &count); }
static int32_t plain_link_call(const uint8_t *text, size_t length) { return plain_link(text, length, cells, REC_CELLS, &count); }
static int32_t proved_copy_call(const uint8_t *text, size_t length) { return rec_fair_copy(text, length, paper, REC_TEXT, &count); }
static int32_t plain_copy_call(const uint8_t *text, size_t length) { return plain_fair_copy(text, length, paper, REC_TEXT, &count); }

/* Nanoseconds for a text, the best of several rounds. */
static double measure(call *of, const char *text, size_t length) {
    static volatile int32_t sink;
    double best = 1e9;
    long times = length < 16 ? 400000 : 100000;
    for (int r = 0; r < ROUNDS; r++) {
        double start = seconds();
        for (long i = 0; i < times; i++) sink = of((const uint8_t *)text, length);
        double each = (seconds() - start) / (double)times * 1e9;
        if (each < best) best = each;
    }
    (void)sink;
    return best;
}

/* A text's link; and where it is accepted its fair copy, and that beside the link. */
static void row(const char *name, const char *text, size_t length) {
    double link = measure(proved_link_call, text, length), plain = measure(plain_link_call, text, length);
    printf("%-38s %4zu bytes  proved %7.0f ns  plain %7.0f ns  ratio %.2f\n", name, length, link, plain, link / plain);
    if (rec_check((const uint8_t *)text, length) != REC_FINISHED) return;
    double copy = measure(proved_copy_call, text, length);
    plain = measure(plain_copy_call, text, length);
    printf("copy of %-30s %4zu bytes  proved %7.0f ns  plain %7.0f ns  ratio %.2f\n", name, length, copy, plain, copy / plain);
    printf("copy by link, %-24s %4zu bytes  copy %7.0f ns  link %7.0f ns  ratio %.2f\n", name, length, copy, link, copy / link);
}

int main(void) {
    uint8_t text[2 * LONGEST];
    size_t length;
    for (int i = 0; i < 300000; i++)
        if (length = some_text(text), !same(text, length) || !same_copy(text, length)) return 1;
    for (int i = 0; i < 300000; i++) {
        length = below(LONGEST);
        for (size_t j = 0; j < length; j++) text[j] = below(4) ? (uint8_t)"(N;):,.+F1$1'/ \"a"[below(17)] : (uint8_t)below(256);
        if (!same(text, length) || !same_copy(text, length)) return 1;
    }
    printf("%ld texts, %ld of them accepted and %ld copied: the same numbers, counts, cells and copies\n", compared, accepted, copied);

    static char worst[5][257];
    memset(worst[0], 'N', 125);
    worst[0][0] = '(';
    worst[0][124] = ')';
    memset(worst[1], '+', 249);
    worst[1][0] = '(';
    worst[1][248] = ')';
    memset(worst[2], 0, 257);
    for (int i = 0; i < 246; i++) worst[2][i] = "(N;"[i % 3];
    worst[2][0] = '(';
    for (int i = 1, depth = 1; i < 256; i++) {
        worst[2][i] = depth < 10 && i % 5 == 1 ? '(' : depth > 1 && i % 5 == 4 ? ')' : "N;:"[i % 3];
        depth += (worst[2][i] == '(') - (worst[2][i] == ')');
        if (256 - i - 1 == depth) {
            while (depth-- > 0) worst[2][++i] = ')';
            break;
        }
    }
    memset(worst[3], ' ', 256);
    worst[3][0] = '(';
    worst[3][255] = ')';
    strcpy(worst[4], "(");
    for (int i = 0; i < 21; i++) strcat(worst[4], "'/-00012345'");
    strcat(worst[4], ")");
    const char *loop = "('/0'($5$'/1'+:;);)";
    row("()", "()", 2);
    row("(N;)", "(N;)", 4);
    row("document 01's d", D_TEXT, strlen(D_TEXT));
    row("document 01's counter loop", loop, strlen(loop));
    row("a till's text", TILL_TEXT, strlen(TILL_TEXT));
    row("123 predicates", worst[0], 125);
    row("247 operators", worst[1], 249);
    row("nested, 256 bytes", worst[2], 256);
    row("254 blanks", worst[3], 256);
    row("21 constants", worst[4], strlen(worst[4]));
    return 0;
}
