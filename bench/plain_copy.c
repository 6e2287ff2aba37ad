/* A fair copy in plain C: the linker's number first, then one pass over the bytes of a text that is known to keep its form. */
#include "plain_copy.h"
#include "plain_linker.h"
#include "rec.h"
#include <string.h>

/* Digits from i on without leading zeros, one at least; minus zero loses its sign. Returns the place after them. */
static size_t number(const uint8_t *text, size_t i, uint8_t *copy, size_t *at) {
    int minus = text[i] == '-';
    i += (size_t)minus;
    while (text[i] == '0' && text[i + 1] >= '0' && text[i + 1] <= '9') i++;
    if (minus && text[i] != '0') copy[(*at)++] = '-';
    while (text[i] >= '0' && text[i] <= '9') copy[(*at)++] = text[i++];
    return i;
}

/* The copy of an accepted text: its length. */
__attribute__((noinline)) static size_t copy_marks(const uint8_t *text, size_t length, uint8_t *copy) {
    size_t at = 0;
    for (size_t i = 0; i < length; i++) {
        uint8_t b = text[i];
        switch (b) {
        case ' ': case '\n':
            break;
        case '"':
            while (text[++i] != '"') {}
            break;
        case ',':
            copy[at++] = ';';
            break;
        case '.':
            copy[at++] = ':';
            break;
        case '$':
            copy[at++] = '$';
            i = number(text, i + 1, copy, &at);
            copy[at++] = '$';
            break;
        case '\'':
            copy[at++] = '\'';
            copy[at++] = text[++i];
            if (text[i++] == '/') i = number(text, i, copy, &at);
            else while (text[i] != '\'') copy[at++] = text[i++];
            copy[at++] = '\'';
            break;
        default:
            copy[at++] = b;
        }
    }
    return at;
}

int32_t plain_fair_copy(const uint8_t *text, size_t length, uint8_t *paper, size_t room, size_t *written) {
    int32_t cells[REC_CELLS];
    uint8_t copy[REC_TEXT];
    size_t used;
    *written = 0;
    int32_t refusal = plain_link(text, length, cells, REC_CELLS, &used);
    if (refusal != 0) return refusal;
    size_t count = copy_marks(text, length, copy);
    if (room < count) return REC_SHORT_PAPER;
    memcpy(paper, copy, count);
    *written = count;
    return 0;
}
