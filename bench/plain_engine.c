/* The calls of a store in plain C, with the checks of include/rec.h's. A run is one loop over the cells. */
#include "plain_engine.h"
#include "plain_linker.h"
#include "plain_store.h"
#include <string.h>

struct frame { int letter, next, exit; };

void plain_fresh(rec_store *store) { memset(store, 0, sizeof *store); }

int32_t plain_define(rec_store *store, uint8_t letter, uint32_t mark, const uint8_t *text, size_t length) {
    size_t used;
    if (!sound(store)) return REC_BAD_STORE;
    if (letter < 'a' || 'z' < letter) return REC_NO_SUCH_LETTER;
    if (mark > REC_STEWARDS) return REC_BAD_MARK;
    int32_t number = plain_link(text, length, store->cells + (letter - 'a') * REC_CELLS, REC_CELLS, &used);
    if (number != 0) return number;
    store->used[letter - 'a'] = used;
    store->marks[letter - 'a'] = mark;
    return 0;
}

int32_t plain_withdraw(rec_store *store, uint8_t letter) {
    if (!sound(store)) return REC_BAD_STORE;
    if (letter < 'a' || 'z' < letter) return REC_NO_SUCH_LETTER;
    if (store->used[letter - 'a'] == 0) return REC_NOT_STANDING;
    memset(store->cells + (letter - 'a') * REC_CELLS, 0, REC_CELLS * sizeof *store->cells);
    store->used[letter - 'a'] = 0;
    store->marks[letter - 'a'] = REC_OPEN;
    return 0;
}

static int target_of(int32_t x, int used) { return x < 2 || used < x ? 0 : x; }

/* The table of a letter, cell 1 at [1]. */
static inline const int32_t *table_of(const int32_t *cells, int letter) { return cells + letter * REC_CELLS - 1; }

/* "the greatest whole number not above the exact quotient": C drops the remainder toward zero. */
static inline int64_t quotient(int64_t a, int64_t b) { return a / b - (a % b != 0 && (a < 0) != (b < 0)); }

/* A run that is not refused. Apart from plain_run, inside which it is slower. */
__attribute__((noinline)) static int32_t obey(const int32_t *cells, const size_t *used, const uint32_t *marks, int32_t *kept, int letter, uint32_t role,
                                              uint32_t allowance, const int32_t *inputs, size_t count, int32_t *list, uint8_t *output, size_t room,
                                              rec_report *report) {
    int32_t stack[REC_LIST] = {0}, vars[REC_VARIABLES];
    size_t counts[REC_LETTERS * REC_COUNTERS] = {0};
    struct frame frames[REC_CALLS];
    int at = 2, height = 0, depth = 0, end = 0, truth = 0;
    size_t taken = 0, written = 0;
    uint32_t left = allowance;
    memcpy(vars, kept, sizeof vars);
    int n = (int)used[letter]; /* this and t change with the letter only */
    const int32_t *t = table_of(cells, letter);
    for (;;) {
        if (at < 2 || n < at) { end = REC_DAMAGED; break; }
        int32_t x = t[at];
        if (at == n) {
            if (x != 1) { end = REC_DAMAGED; break; }
            if (depth == 0) { truth = 1; break; }
            depth--; letter = frames[depth].letter; at = frames[depth].next;
            n = (int)used[letter]; t = table_of(cells, letter);
            continue;
        }
        if (at + 1 == n) {
            if (x != 0) { end = REC_DAMAGED; break; }
            if (left == 0) { end = REC_SPENT; break; }
            left--;
            if (depth == 0) break;
            depth--; letter = frames[depth].letter; at = frames[depth].exit;
            n = (int)used[letter]; t = table_of(cells, letter);
            continue;
        }
        if (0 < x) {
            if (x < 2 || n < x) { end = REC_DAMAGED; break; }
            if (left == 0) { end = REC_SPENT; break; }
            left--; at = x;
            continue;
        }
        switch (-x) {
        case '$': {
            if (n < at + 5) { end = REC_DAMAGED; goto out; }
            int32_t limit = t[at + 1], order = t[at + 2];
            int f = target_of(t[at + 3], n);
            if (-1 < limit || limit < -9999 || order < 0 || 15 < order || f == 0) { end = REC_DAMAGED; goto out; }
            if (left == 0) { end = REC_SPENT; goto out; }
            size_t *c = &counts[letter * 16 + order];
            left--;
            if (*c < (size_t)-limit) { ++*c; at += 4; } else { *c = 0; at = f; }
            break;
        }
        case '+': case '-': case '*': case '/': {
            if (left == 0) { end = REC_SPENT; goto out; }
            if (height < 2) { end = REC_LIST_EMPTY; goto out; }
            int64_t a = stack[height - 2], b = stack[height - 1], r;
            if (x == -'/' && b == 0) { end = REC_ZERO_DIVISOR; goto out; }
            r = x == -'+' ? a + b : x == -'-' ? a - b : x == -'*' ? a * b : quotient(a, b);
            if (r < -REC_VALUE_MAX || REC_VALUE_MAX < r) { end = REC_RANGE; goto out; }
            stack[height - 2] = (int32_t)r; stack[height - 1] = 0;
            height--; left--; at++;
            break;
        }
        case 'A': case 'M': {
            if (left == 0) { end = REC_SPENT; goto out; }
            if (height < 1) { end = REC_LIST_EMPTY; goto out; }
            int64_t a = stack[height - 1], r = x == -'M' || a < 0 ? -a : a;
            if (r < -REC_VALUE_MAX || REC_VALUE_MAX < r) { end = REC_RANGE; goto out; }
            stack[height - 1] = (int32_t)r;
            left--; at++;
            break;
        }
        case 'L':
            if (left == 0) { end = REC_SPENT; goto out; }
            if (height < 1) { end = REC_LIST_EMPTY; goto out; }
            stack[--height] = 0; left--; at++;
            break;
        case 'P':
            if (left == 0) { end = REC_SPENT; goto out; }
            if (height < 1) { end = REC_LIST_EMPTY; goto out; }
            if (REC_LIST <= height) { end = REC_LIST_FULL; goto out; }
            stack[height] = stack[height - 1]; height++; left--; at++;
            break;
        case 'I':
            if (left == 0) { end = REC_SPENT; goto out; }
            if (count <= taken) { end = REC_NO_INPUT; goto out; }
            if (REC_LIST <= height) { end = REC_LIST_FULL; goto out; }
            stack[height++] = inputs[taken++]; left--; at++;
            break;
        case 'O': {
            if (left == 0) { end = REC_SPENT; goto out; }
            if (height < 1) { end = REC_LIST_EMPTY; goto out; }
            if (room - written < REC_COLUMNS) { end = REC_PAPER_OUT; goto out; }
            int64_t v = stack[height - 1];
            uint64_t m = (uint64_t)(v < 0 ? -v : v), cents = m % 100;
            uint8_t *p = output + written;
            memset(p, ' ', REC_COLUMNS);
            p[REC_COLUMNS - 1] = (uint8_t)('0' + cents % 10);
            p[REC_COLUMNS - 2] = (uint8_t)('0' + cents / 10);
            p[REC_COLUMNS - 3] = '.';
            int k = REC_COLUMNS - 4;
            for (m /= 100; 9 < m; m /= 10) p[k--] = (uint8_t)('0' + m % 10);
            p[k] = (uint8_t)('0' + m);
            if (v < 0) p[k - 1] = '-';
            written += REC_COLUMNS; left--; at++;
            break;
        }
        case 'X':
            if (left == 0) { end = REC_SPENT; goto out; }
            if (room <= written) { end = REC_PAPER_OUT; goto out; }
            output[written++] = '\n'; left--; at++;
            break;
        case 'F': case 'S': {
            if (n < at + 3) { end = REC_DAMAGED; goto out; }
            int32_t d = t[at + 1];
            if (d < 1 || 10 < d) { end = REC_DAMAGED; goto out; }
            if (left == 0) { end = REC_SPENT; goto out; }
            if (x == -'F') {
                if (REC_LIST <= height) { end = REC_LIST_FULL; goto out; }
                stack[height++] = vars[d % 10];
            } else {
                if (height < 1) { end = REC_LIST_EMPTY; goto out; }
                vars[d % 10] = stack[height - 1];
            }
            left--; at += 2;
            break;
        }
        case 'N': case '0': case 'J': {
            int f = n < at + 3 ? 0 : target_of(t[at + 1], n);
            if (f == 0) { end = REC_DAMAGED; goto out; }
            if (left == 0) { end = REC_SPENT; goto out; }
            if (height < (x == -'J' ? 2 : 1)) { end = REC_LIST_EMPTY; goto out; }
            int32_t a = stack[height - 1];
            int yes = x == -'N' ? a < 0 : x == -'0' ? a == 0 : a == stack[height - 2];
            left--; at = yes ? at + 2 : f;
            break;
        }
        case 175: {
            if (n < at + 3) { end = REC_DAMAGED; goto out; }
            int32_t v = t[at + 1];
            if (v < -REC_VALUE_MAX || REC_VALUE_MAX < v) { end = REC_DAMAGED; goto out; }
            if (left == 0) { end = REC_SPENT; goto out; }
            if (REC_LIST <= height) { end = REC_LIST_FULL; goto out; }
            stack[height++] = v; left--; at += 2;
            break;
        }
        case 167: {
            if (n < at + 3) { end = REC_DAMAGED; goto out; }
            int32_t k = t[at + 1];
            if (k < 0 || 250 < k || n < at + 3 + k) { end = REC_DAMAGED; goto out; }
            for (int i = 0; i < k; i++) {
                int32_t b = t[at + 2 + i];
                if (b < 32 || 126 < b || b == 39) { end = REC_DAMAGED; goto out; }
            }
            if (left == 0) { end = REC_SPENT; goto out; }
            if (room - written < (size_t)k) { end = REC_PAPER_OUT; goto out; }
            for (int i = 0; i < k; i++) output[written + (size_t)i] = (uint8_t)t[at + 2 + i];
            written += (size_t)k; left--; at += 2 + k;
            break;
        }
        default:
            if (-x < 'a' || 'z' < -x) { end = REC_DAMAGED; goto out; }
            {
                int f = n < at + 3 ? 0 : target_of(t[at + 1], n), a = -x - 'a';
                if (f == 0) { end = REC_DAMAGED; goto out; }
                if (left == 0) { end = REC_SPENT; goto out; }
                if (used[a] == 0) { end = REC_NO_TEXT; goto out; }
                if (role == REC_CASHIER && marks[a] == REC_STEWARDS) { end = REC_STEWARD_CALL; goto out; }
                if (REC_CALLS <= depth) { end = REC_DEEP_CALLS; goto out; }
                frames[depth].letter = letter; frames[depth].next = at + 2; frames[depth].exit = f;
                depth++; letter = a; at = 2; left--;
                n = (int)used[letter]; t = table_of(cells, letter);
            }
        }
    }
out:
    memcpy(list, stack, sizeof stack);
    if (end == REC_FINISHED) memcpy(kept, vars, sizeof vars);
    *report = (rec_report){(size_t)truth, allowance - left, (size_t)height, taken, written};
    return end;
}

static int32_t refusal(const rec_store *store, uint8_t letter, uint32_t role, const int32_t *inputs, size_t count, size_t places) {
    if (!sound(store)) return REC_BAD_STORE;
    if (letter < 'a' || 'z' < letter) return REC_NO_SUCH_LETTER;
    if (role > REC_STEWARD) return REC_BAD_MARK;
    if (store->used[letter - 'a'] == 0) return REC_NOT_STANDING;
    if (role == REC_CASHIER && store->marks[letter - 'a'] == REC_STEWARDS) return REC_NOT_FOR_CASHIERS;
    for (size_t i = 0; i < count; i++)
        if (outside(inputs[i])) return REC_BAD_INPUT;
    return places == REC_LIST ? 0 : REC_BAD_LIST;
}

int32_t plain_run(rec_store *store, uint8_t letter, uint32_t role, uint32_t allowance, const int32_t *inputs, size_t count, int32_t *list,
                  size_t places, uint8_t *output, size_t room, rec_report *report) {
    int32_t refused = refusal(store, letter, role, inputs, count, places);
    if (refused != 0) {
        *report = (rec_report){0};
        return refused;
    }
    return obey(store->cells, store->used, store->marks, store->vars, letter - 'a', role, allowance, inputs, count, list, output, room, report);
}
