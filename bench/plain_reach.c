/*
 * What a letter can reach, in plain C: every standing table is read once, its calls kept as the bits of a word, and a list of work follows them. The
 * list of work is a word too.
 */
#include "plain_reach.h"
#include "plain_store.h"

/* Reads a table of n used cells mark after mark: whether no cell that is met is damaged. The letters that it calls are set in *calls. */
static int read_table(const int32_t *cells, int n, uint32_t *calls) {
    int at = 1, stop = n - 2; /* cells[at] is due, and marks have their cells before cells[stop] */
    uint32_t letters = 0;
    while (at < stop) {
        int32_t x = cells[at];
        if (0 < x) {
            if (x < 2 || n < x) return 0;
            at++;
            continue;
        }
        switch (x) {
        case -'A': case -'L': case -'M': case -'P': case -'O': case -'X': case -'I': case -'+': case -'-': case -'*': case -'/':
            at++;
            break;
        case -'F': case -'S':
            if (stop < at + 2 || cells[at + 1] < 1 || 10 < cells[at + 1]) return 0;
            at += 2;
            break;
        case -'a': case -'b': case -'c': case -'d': case -'e': case -'f': case -'g': case -'h': case -'i': case -'j': case -'k': case -'l': case -'m':
        case -'n': case -'o': case -'p': case -'q': case -'r': case -'s': case -'t': case -'u': case -'v': case -'w': case -'x': case -'y': case -'z':
            letters |= UINT32_C(1) << (-x - 'a');
            /* fall through */
        case -'N': case -'0': case -'J':
            if (stop < at + 2 || cells[at + 1] < 2 || n < cells[at + 1]) return 0;
            at += 2;
            break;
        case -'$':
            if (stop < at + 4 || -1 < cells[at + 1] || cells[at + 1] < -9999 || cells[at + 2] < 0 || 15 < cells[at + 2]) return 0;
            if (cells[at + 3] < 2 || n < cells[at + 3]) return 0;
            at += 4;
            break;
        case -175:
            if (stop < at + 2 || outside(cells[at + 1])) return 0;
            at += 2;
            break;
        case -167: {
            if (stop < at + 2) return 0;
            int32_t k = cells[at + 1];
            if (k < 0 || stop - at - 2 < k) return 0;
            for (at += 2; 0 < k; k--) {
                int32_t b = cells[at++];
                if (b < 32 || 126 < b || b == '\'') return 0;
            }
            break;
        }
        default:
            return 0;
        }
    }
    *calls = letters;
    return cells[stop] == 0 && cells[stop + 1] == 1;
}

int32_t plain_reach(const rec_store *store, uint8_t letter, uint8_t reached[REC_LETTERS], uint8_t missing[REC_LETTERS]) {
    uint32_t calls[REC_LETTERS], standing = 0;
    if (!sound(store)) return REC_BAD_STORE;
    if (letter < 'a' || 'z' < letter) return REC_NO_SUCH_LETTER;
    if (store->used[letter - 'a'] == 0) return REC_NOT_STANDING;
    for (int k = 0; k < REC_LETTERS; k++) {
        calls[k] = 0;
        if (store->used[k] == 0) continue;
        standing |= UINT32_C(1) << k;
        if (!read_table(store->cells + k * REC_CELLS, (int)store->used[k], &calls[k])) return REC_DAMAGED;
    }
    uint32_t all = UINT32_C(1) << (letter - 'a');
    for (uint32_t work = all; work != 0;) {
        uint32_t more = calls[__builtin_ctz(work)] & ~all;
        work = (work & (work - 1)) | more;
        all |= more;
    }
    for (int k = 0; k < REC_LETTERS; k++) {
        reached[k] = all >> k & 1;
        missing[k] = (all & ~standing) >> k & 1;
    }
    return 0;
}
