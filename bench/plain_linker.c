/*
 * A linker in plain C: one pass over the text. A false exit or an end that is not known yet is a chain through the cells that wait for it, as in the
 * 1970 compiler, and is filled in when its cell is met.
 */
#include "plain_linker.h"
#include "rec.h"
#include <string.h>

struct level {
    int32_t start;  /* the cell after its `(` */
    int32_t exits;  /* the last cell that waits for the false exit, or 0 */
    int32_t ends;   /* the last cell that waits for the cell after its `)`, or 0 */
};

/* Every cell of a chain gets the value. */
static void settle(int32_t *cell, int32_t chain, int32_t value) {
    while (chain != 0) {
        int32_t next = cell[chain];
        cell[chain] = value;
        chain = next;
    }
}

/* 1 to `most` digits and the closing byte: the place after it, or minus the refusal. */
static int32_t digits(const uint8_t *text, int32_t n, int32_t i, int32_t most, uint8_t closing, int32_t fault, int32_t *value) {
    int32_t v = 0, count = 0;
    for (; i < n; i++) {
        uint8_t b = text[i];
        if (b >= '0' && b <= '9') {
            if (count == most) return -fault;
            v = v * 10 + (b - '0');
            count++;
        } else if (b == closing && count > 0) {
            *value = v;
            return i + 1;
        } else {
            return -fault;
        }
    }
    return -REC_UNFINISHED;
}

/* The place after a comment whose `"` is before i, or minus the refusal. */
static int32_t comment(const uint8_t *text, int32_t n, int32_t i) {
    for (; i < n; i++) {
        uint8_t b = text[i];
        if (b == '"') return i + 1;
        if ((b < 32 && b != 10) || b > 126) return -REC_STRAY_MARK;
    }
    return -REC_UNFINISHED;
}

/* The place of the next byte that is no blank, newline or comment, or minus the refusal. */
static int32_t skip(const uint8_t *text, int32_t n, int32_t i) {
    while (i < n) {
        uint8_t b = text[i];
        if (b == ' ' || b == '\n') {
            i++;
        } else if (b == '"') {
            i = comment(text, n, i + 1);
            if (i < 0) return i;
        } else {
            break;
        }
    }
    return i;
}

/* Apart from plain_link, so that what is done before and after does not change how it is compiled. */
__attribute__((noinline)) static int32_t link_cells(const uint8_t *text, int32_t n, int32_t *cell, size_t *used_cells) {
    struct level levels[REC_LEVELS + 1];
    int32_t depth = 1, used = 1, counters = 0;
    int32_t i = skip(text, n, 0);
    if (i < 0) return -i;
    if (i == n) return REC_UNFINISHED;
    if (text[i] != '(') return REC_STRAY_MARK;
    i++;
    cell[1] = 2000;
    levels[1] = (struct level){2, 0, 0};
    while (depth != 0) {
        if (i >= n) return REC_UNFINISHED;
        uint8_t b = text[i++];
        struct level *at = &levels[depth];
        switch (b) {
        case ' ': case '\n':
            break;
        case '"':
            i = comment(text, n, i);
            if (i < 0) return -i;
            break;
        case '(':
            if (depth == REC_LEVELS) return REC_DEEP;
            levels[++depth] = (struct level){used + 1, 0, 0};
            break;
        case ')': {
            int32_t next = used + 2;
            if (depth == 1) {
                if (used + 2 > REC_CELLS) return REC_TABLE_FULL;
                settle(cell, at->exits, next);
                settle(cell, at->ends, next);
                cell[used + 1] = 0;
                cell[used + 2] = 1;
                used += 2;
                depth = 0;
                break;
            }
            if (used + 1 > REC_CELLS) return REC_TABLE_FULL;
            settle(cell, at->exits, next);
            settle(cell, at->ends, next);
            depth--;
            used++;
            cell[used] = levels[depth].exits;
            levels[depth].exits = used;
            break;
        }
        case ';': case ',':
            if (used + 1 > REC_CELLS) return REC_TABLE_FULL;
            used++;
            settle(cell, at->exits, used + 1);
            at->exits = 0;
            cell[used] = at->ends;
            at->ends = used;
            break;
        case ':': case '.':
            if (used + 1 > REC_CELLS) return REC_TABLE_FULL;
            used++;
            settle(cell, at->exits, used + 1);
            at->exits = 0;
            cell[used] = at->start;
            break;
        case 'A': case 'L': case 'M': case 'P': case 'O': case 'X': case 'I': case '+': case '-': case '*': case '/':
            if (used + 1 > REC_CELLS) return REC_TABLE_FULL;
            cell[++used] = -(int32_t)b;
            break;
        case 'F': case 'S': {
            if (i >= n) return REC_UNFINISHED;
            uint8_t d = text[i++];
            if (d < '0' || d > '9') return REC_STRAY_MARK;
            if (used + 2 > REC_CELLS) return REC_TABLE_FULL;
            cell[++used] = -(int32_t)b;
            cell[++used] = d == '0' ? 10 : d - '0';
            break;
        }
        case 'N': case '0': case 'J':
        case 'a': case 'b': case 'c': case 'd': case 'e': case 'f': case 'g': case 'h': case 'i': case 'j': case 'k': case 'l': case 'm':
        case 'n': case 'o': case 'p': case 'q': case 'r': case 's': case 't': case 'u': case 'v': case 'w': case 'x': case 'y': case 'z':
            if (used + 2 > REC_CELLS) return REC_TABLE_FULL;
            cell[++used] = -(int32_t)b;
            cell[++used] = at->exits;
            at->exits = used;
            break;
        case '$': {
            int32_t value = 0;
            i = digits(text, n, i, 4, '$', REC_BAD_COUNTER, &value);
            if (i < 0) return -i;
            if (value == 0) return REC_BAD_COUNTER;
            if (counters == REC_COUNTERS) return REC_MANY_COUNTERS;
            if (used + 4 > REC_CELLS) return REC_TABLE_FULL;
            cell[++used] = -'$';
            cell[++used] = -value;
            cell[++used] = counters++;
            cell[++used] = at->exits;
            at->exits = used;
            break;
        }
        case '\'': {
            if (i >= n) return REC_UNFINISHED;
            uint8_t d = text[i++];
            if (d == '/') {
                int32_t value = 0, sign = 1;
                if (i < n && text[i] == '-') {
                    sign = -1;
                    i++;
                }
                i = digits(text, n, i, 9, '\'', REC_BAD_CONSTANT, &value);
                if (i < 0) return -i;
                if (used + 2 > REC_CELLS) return REC_TABLE_FULL;
                cell[++used] = -175;
                cell[++used] = sign * value;
            } else if (d == '\'') {
                int32_t from = i;
                for (;; i++) {
                    if (i >= n) return REC_UNFINISHED;
                    if (text[i] == '\'') break;
                    if (text[i] < 32 || text[i] > 126) return REC_STRAY_MARK;
                }
                int32_t size = i - from;
                if (used + 2 + size > REC_CELLS) return REC_TABLE_FULL;
                cell[++used] = -167;
                cell[++used] = size;
                for (int32_t j = from; j < i; j++) cell[++used] = text[j];
                i++;
            } else {
                return REC_STRAY_MARK;
            }
            break;
        }
        default:
            return REC_STRAY_MARK;
        }
    }
    i = skip(text, n, i);
    if (i < 0) return -i;
    if (i != n) return REC_STRAY_MARK;
    *used_cells = (size_t)used;
    return 0;
}

int32_t plain_link(const uint8_t *text, size_t length, int32_t *cells, size_t room, size_t *used) {
    int32_t cell[REC_CELLS + 1];
    size_t n = room < REC_CELLS ? room : REC_CELLS;
    memset(cell, 0, sizeof cell);
    *used = 0;
    int32_t number = length > REC_TEXT ? REC_LONG_TEXT : link_cells(text, (int32_t)length, cell, used);
    if (number == 0 && n != 0) memcpy(cells, cell + 1, n * sizeof *cells);
    return number;
}
