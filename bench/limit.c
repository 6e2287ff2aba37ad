/*
 * The threaded, unchecked limit. Each cell of a table becomes a place, a mark's first place has the address of the code that obeys the mark, and
 * every such code jumps to the next one itself. The top of the list is kept apart from the values below it. Only the allowance is watched.
 */
#include "limit.h"
#include <string.h>

struct place {
    const void *obey;
    union {
        const struct place *to;
        int32_t value;
        int32_t *variable;
        uint32_t *count;
        const uint8_t *bytes;
    };
};

/* The codes that are no mark's byte. A constant has 175, a print 167, every call 'a'. */
enum { LAST, RETURN_TRUE, TRANSFER, TRANSFER_AND_RETURN, FINISHED_TRUE, FINISHED_FALSE };

static const void *const *address_of; /* by code */
static struct place threaded[REC_LETTERS][REC_CELLS + 1]; /* cell k of a letter at [k] */
static struct place first_call[4]; /* the run's own letter returns to [2] or [3], so a return need not ask for the depth */
static uint8_t printed[REC_LETTERS][REC_CELLS + 1]; /* a print's bytes, from its first cell on */
static uint32_t counts[REC_LETTERS * REC_COUNTERS];
static size_t counted; /* no counter's count lies here or after */
static int32_t variables[REC_VARIABLES];

/* Units, a point and two digits of cents, to the right. The units' eight digits are made at once, each a byte of a number, the first one lowest. */
static inline void write_value(uint8_t *to, int32_t value) {
    uint32_t size = (uint32_t)(value < 0 ? -value : value), units = size / 100, cents = size % 100;
    uint64_t fours = units / 10000 | (uint64_t)(units % 10000) << 32;
    uint64_t hundreds = (fours * 10486 >> 20) & 0x0000007f0000007f, twos = hundreds | (fours - 100 * hundreds) << 16;
    uint64_t tens = (twos * 103 >> 10) & 0x000f000f000f000f, digits = tens | (twos - 10 * tens) << 8;
    int zeros = __builtin_ctzll(digits | 1ull << 56) / 8;
    digits -= 0x1010101010101010 & ((1ull << 8 * zeros) - 1); /* so that these become blanks */
    digits += 0x3030303030303030;
    memset(to, ' ', REC_COLUMNS - 11);
    memcpy(to + REC_COLUMNS - 11, &digits, 8);
    if (value < 0) to[REC_COLUMNS - 12 + zeros] = '-';
    to[REC_COLUMNS - 3] = '.';
    to[REC_COLUMNS - 2] = (uint8_t)('0' + cents / 10);
    to[REC_COLUMNS - 1] = (uint8_t)('0' + cents % 10);
}

/* Short ones by two copies that overlap. */
static inline void copy(uint8_t *to, const uint8_t *from, size_t length) {
    if (32 < length) {
        memcpy(to, from, length);
    } else if (16 <= length) {
        memcpy(to, from, 16);
        memcpy(to + length - 16, from + length - 16, 16);
    } else if (8 <= length) {
        memcpy(to, from, 8);
        memcpy(to + length - 8, from + length - 8, 8);
    } else if (4 <= length) {
        memcpy(to, from, 4);
        memcpy(to + length - 4, from + length - 4, 4);
    } else {
        for (size_t i = 0; i < length; i++) to[i] = from[i];
    }
}

#define STEP if (--left < 0) goto spent
#define GO(place) do { at = (place); goto *at->obey; } while (0)
#define PUSH(value) do { *below++ = top; top = (value); } while (0)

/* Obeys from a place on; from NULL it only tells the addresses. */
static int32_t obey(const struct place *at, uint32_t allowance, const int32_t *inputs, int32_t *list, uint8_t *output, rec_report *report) {
    static const void *const addresses[] = {
        [LAST] = &&last, [RETURN_TRUE] = &&return_true, [TRANSFER] = &&transfer, [TRANSFER_AND_RETURN] = &&transfer_and_return,
        [FINISHED_TRUE] = &&finished_true, [FINISHED_FALSE] = &&finished_false, ['$'] = &&counter, ['+'] = &&add, ['-'] = &&subtract,
        ['*'] = &&multiply, ['/'] = &&divide, ['A'] = &&absolute, ['M'] = &&negate, ['L'] = &&drop, ['P'] = &&copy_top, ['I'] = &&input,
        ['O'] = &&write_top, ['X'] = &&newline, ['F'] = &&fetch, ['S'] = &&store, ['N'] = &&negative, ['0'] = &&zero, ['J'] = &&equal,
        ['a'] = &&call, [175] = &&constant, [167] = &&print};
    int32_t values[REC_LIST + 1], *below = values, top = 0; /* values[0] lies below the list's first */
    const struct place *calls[REC_CALLS + 1], **caller = calls;
    const int32_t *first_input = inputs;
    const uint8_t *first_byte = output;
    int64_t left = allowance;
    int32_t number = REC_FINISHED, truth = 0;
    if (at == NULL) { address_of = addresses; return 0; }
    *caller = first_call;
    goto *at->obey;

transfer: STEP; GO(at->to);
transfer_and_return: STEP; at = *caller--; GO(at + 2);
return_true: at = *caller--; GO(at + 2);
last: STEP; at = *caller--; GO(at[1].to);
call: STEP; *++caller = at; GO(at->to);
counter:
    STEP;
    if (*at[1].count < (uint32_t)at->value) { ++*at[1].count; GO(at + 4); }
    *at[1].count = 0;
    GO(at[3].to);
negative: STEP; if (top < 0) GO(at + 2); GO(at->to);
zero: STEP; if (top == 0) GO(at + 2); GO(at->to);
equal: STEP; if (top == below[-1]) GO(at + 2); GO(at->to);
add: STEP; top = *--below + top; GO(at + 1);
subtract: STEP; top = *--below - top; GO(at + 1);
multiply: STEP; top = *--below * top; GO(at + 1);
divide: STEP; below--; top = *below / top - (*below % top != 0 && (*below < 0) != (top < 0)); GO(at + 1);
absolute: STEP; top = top < 0 ? -top : top; GO(at + 1);
negate: STEP; top = -top; GO(at + 1);
drop: STEP; top = *--below; GO(at + 1);
copy_top: STEP; PUSH(top); GO(at + 1);
input: STEP; PUSH(*inputs++); GO(at + 1);
constant: STEP; PUSH(at->value); GO(at + 2);
fetch: STEP; PUSH(*at->variable); GO(at + 2);
store: STEP; *at->variable = top; GO(at + 2);
write_top: STEP; write_value(output, top); output += REC_COLUMNS; GO(at + 1);
newline: STEP; *output++ = '\n'; GO(at + 1);
print: {
    size_t length = (size_t)at[1].value;
    STEP;
    copy(output, at->bytes, length);
    output += length;
    GO(at + 2 + length);
}

spent:
    number = REC_SPENT;
    left = 0;
    goto finished_false;
finished_true:
    truth = 1;
finished_false:
    *below = top;
    size_t height = (size_t)(below - values);
    memcpy(list, values + 1, height * sizeof *list);
    memset(list + height, 0, (REC_LIST - height) * sizeof *list);
    *report = (rec_report){(size_t)truth, (size_t)(allowance - left), height, (size_t)(inputs - first_input), (size_t)(output - first_byte)};
    return number;
}

/* The places of a letter, whose cell k is t[k]. */
static void translate(int letter, const int32_t *t, int used) {
    struct place *own = threaded[letter];
    own[used].obey = address_of[RETURN_TRUE];
    for (int at = 2, cells; at < used; at += cells) {
        struct place *p = own + at;
        int code = -t[at];
        cells = 2;
        if (code < 0) {
            p->to = own + t[at];
            code = t[at] == used ? TRANSFER_AND_RETURN : TRANSFER;
            cells = 1;
        } else if (code == '$') {
            size_t which = (size_t)(letter * REC_COUNTERS + t[at + 2]);
            if (counted <= which) counted = which + 1;
            p->value = -t[at + 1];
            p[1].count = &counts[which];
            p[3].to = own + t[at + 3];
            cells = 4;
        } else if (code == 'F' || code == 'S') {
            p->variable = &variables[t[at + 1] % 10];
        } else if (code == 'N' || code == '0' || code == 'J') {
            p->to = own + t[at + 1];
        } else if ('a' <= code && code <= 'z') {
            p->to = threaded[code - 'a'] + 2;
            p[1].to = own + t[at + 1];
            code = 'a';
        } else if (code == 175) {
            p->value = t[at + 1];
        } else if (code == 167) {
            p->bytes = printed[letter] + at;
            p[1].value = t[at + 1];
            for (int i = 0; i < t[at + 1]; i++) printed[letter][at + i] = (uint8_t)t[at + 2 + i];
            cells = 2 + t[at + 1];
        } else {
            cells = 1;
        }
        p->obey = address_of[code];
    }
}

void limit_translate(const rec_store *store) {
    obey(NULL, 0, NULL, NULL, NULL, NULL);
    first_call[1].to = &first_call[3];
    first_call[2].obey = address_of[FINISHED_TRUE];
    first_call[3].obey = address_of[FINISHED_FALSE];
    counted = 0;
    for (int letter = 0; letter < REC_LETTERS; letter++)
        if (store->used[letter] != 0) translate(letter, store->cells + letter * REC_CELLS - 1, (int)store->used[letter]);
}

int32_t limit_run(rec_store *store, uint8_t letter, uint32_t role, uint32_t allowance, const int32_t *inputs, size_t count, int32_t *list,
                  size_t places, uint8_t *output, size_t room, rec_report *report) {
    (void)role, (void)count, (void)places, (void)room;
    memset(counts, 0, counted * sizeof *counts);
    memcpy(variables, store->vars, sizeof variables);
    int32_t number = obey(threaded[letter - 'a'] + 2, allowance, inputs, list, output, report);
    if (number == REC_FINISHED) memcpy(store->vars, variables, sizeof variables);
    return number;
}
