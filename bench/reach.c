/*
 * rec_reach beside plain C, in one run: both give the same numbers and marks on many stores, sound and damaged, and then the time of each on stores
 * with few, small, chained and full tables, and of refusals. bench/places builds and runs it, and holds each row to its own limit.
 */
#define _POSIX_C_SOURCE 199309L
#include "measure.h"
#include "plain_reach.h"
#include "rec.h"
#include <stdio.h>
#include <string.h>

enum { ROUNDS = 15, MANY = 40000, TURNS = 16 };

typedef int32_t call(const rec_store *, uint8_t, uint8_t *, uint8_t *);

static struct side {
    call *reach;
    int32_t number;
    uint8_t reached[REC_LETTERS], missing[REC_LETTERS];
} sides[2] = {{.reach = rec_reach}, {.reach = plain_reach}};

/* Full tables are read in several stores by turns: in one that is read over and over the processor foresees the marks, in a single call it cannot. */
static rec_store stores[TURNS];
static int turns;

static int alike(void) {
    const struct side *a = &sides[0], *b = &sides[1];
    return a->number == b->number && memcmp(a->reached, b->reached, sizeof a->reached) == 0 && memcmp(a->missing, b->missing, sizeof a->missing) == 0;
}

/* Both on a store: the same answer, over marks that would show what a refusal writes, and a store that stays as it was. */
static int same(const rec_store *store, uint8_t letter) {
    static rec_store before;
    before = *store;
    for (int who = 0; who < 2; who++) {
        struct side *s = &sides[who];
        memset(s->reached, 0x55, sizeof s->reached);
        memset(s->missing, 0x55, sizeof s->missing);
        s->number = s->reach(store, letter, s->reached, s->missing);
    }
    return alike() && memcmp(&before, store, sizeof before) == 0;
}

/* ---- many stores ---- */

static int32_t from_to(int32_t low, int32_t high) { return low + (int32_t)below((uint32_t)(high - low) + 1); }

/* A table of n used cells that keeps its form: random marks, each where it fits. */
static void some_table(int32_t *cells, int32_t n) {
    int32_t at = 0, stop = n - 2;
    cells[at++] = 2000;
    while (at < stop) {
        int32_t room = stop - at, kind = from_to(0, 9);
        if (kind == 0 && 2 <= room) {
            cells[at++] = -"FS"[below(2)];
            cells[at++] = from_to(1, 10);
        } else if (kind == 1 && 2 <= room) {
            cells[at++] = -175;
            cells[at++] = from_to(-1, 1) * REC_VALUE_MAX;
        } else if (kind == 2 && 2 <= room) {
            int32_t size = from_to(0, room - 2 < 20 ? room - 2 : 20);
            cells[at++] = -167;
            cells[at++] = size;
            while (size-- > 0) cells[at++] = "! az&(~"[below(7)];
        } else if (kind == 3 && 4 <= room) {
            cells[at++] = -'$';
            cells[at++] = -(below(2) ? 9999 : 1);
            cells[at++] = from_to(0, 15);
            cells[at++] = from_to(2, n);
        } else if (kind == 4 && 2 <= room) {
            cells[at++] = -"N0J"[below(3)];
            cells[at++] = from_to(2, n);
        } else if (kind == 5 && 2 <= room) {
            cells[at++] = -from_to('a', 'z');
            cells[at++] = from_to(2, n);
        } else if (kind == 6) {
            cells[at++] = from_to(2, n);
        } else {
            cells[at++] = -"ALMPOXI+-*/"[below(11)];
        }
    }
    cells[at++] = 0;
    cells[at] = 1;
}

/* Another number in a cell that is used: at or next to a bound, or far outside. */
static void damage(rec_store *store, uint8_t letter) {
    static const int32_t bounds[] = {0, 1, 2, 3, -1, 10, 15, 32, 39, 126, 250, -35, -36, -47, -48, -74, -'a', -'z', -167, -175, -255, -256, -256 - '+',
        -256 - 'a', -9999, REC_VALUE_MAX, -REC_VALUE_MAX, INT32_MAX - 1, INT32_MIN + 1};
    int32_t n = (int32_t)store->used[letter];
    if (n == 0) return;
    int32_t bound = below(6) == 0 ? n : bounds[below(sizeof bounds / sizeof *bounds)];
    int32_t at = below(4) == 0 ? n - 1 - from_to(0, 2) : from_to(1, n - 1);
    store->cells[letter * REC_CELLS + at] = bound + from_to(-1, 1);
}

/* Some letters with tables and either mark, and at times damaged cells, a bad count, mark or variable: the letter to ask for. */
static uint8_t some_store(rec_store *store) {
    uint8_t letter = (uint8_t)below(REC_LETTERS);
    uint32_t cleared = below(4), most = below(8) == 0 ? REC_CELLS : 12;
    memset(store, 0, sizeof *store);
    for (int k = 0; k < REC_LETTERS; k++) {
        if (k != letter && below(4) < cleared) continue;
        store->marks[k] = below(2);
        store->used[k] = (size_t)from_to(3, (int32_t)most);
        some_table(store->cells + k * REC_CELLS, (int32_t)store->used[k]);
    }
    for (uint32_t i = below(3); i != 0; i--) damage(store, (uint8_t)below(REC_LETTERS));
    if (below(16) == 0) store->used[below(REC_LETTERS)] = (size_t[]){0, 1, 2, REC_CELLS + 1, SIZE_MAX}[below(5)];
    if (below(32) == 0) store->marks[below(REC_LETTERS)] = (uint32_t[]){2, 256, 257, UINT32_MAX}[below(4)];
    if (below(16) == 0) store->vars[below(REC_VARIABLES)] = (below(2) ? 1 : -1) * (REC_VALUE_MAX + from_to(0, 1));
    return below(16) == 0 ? (uint8_t)below(256) : 'a' + letter;
}

static int same_on_many(void) {
    long numbers[REC_DAMAGED + 1] = {0}, missing = 0;
    for (int i = 0; i < MANY; i++) {
        uint8_t letter = some_store(stores);
        if (!same(stores, letter)) {
            printf("DIFFERENT ANSWERS: %d and %d\n", (int)sides[0].number, (int)sides[1].number);
            return 0;
        }
        numbers[sides[0].number]++;
        missing += sides[0].number == 0 && memchr(sides[0].missing, 1, REC_LETTERS) != NULL;
    }
    printf("%d stores, %ld of them reported, %ld with a letter missing, and %ld damaged: the same numbers and marks\n", MANY, numbers[0], missing,
        numbers[REC_DAMAGED]);
    return numbers[0] != 0 && missing != 0 && numbers[REC_NO_SUCH_LETTER] != 0 && numbers[REC_NOT_STANDING] != 0 && numbers[REC_BAD_STORE] != 0
        && numbers[REC_DAMAGED] != 0;
}

/* ---- the rows ---- */

static int32_t define_in(rec_store *store, char letter, const char *text) {
    return rec_define(store, (uint8_t)letter, REC_OPEN, (const uint8_t *)text, strlen(text));
}

/* One store, fresh. */
static void fresh(void) {
    rec_fresh(stores);
    turns = 1;
}

static int32_t define(char letter, const char *text) { return define_in(stores, letter, text); }

/* A till's text that calls a letter first, or none. */
static int32_t define_till(char letter, const char *called) {
    char text[REC_TEXT] = "(";
    return define(letter, strcat(strcat(text, called), &TILL_TEXT[1]));
}

/* All stores, every letter with a text of random pieces, as many as go into it and its table. */
static void fill(const char *const *pieces, uint32_t count) {
    char text[2 * REC_TEXT] = "(";
    for (turns = 0; turns < TURNS; turns++) {
        rec_fresh(&stores[turns]);
        for (char letter = 'a'; letter <= 'z'; letter++) {
            size_t length = 1;
            for (int refused = 0; refused < 30; refused++) {
                const char *piece = pieces[below(count)];
                strcat(strcpy(text + length, piece), ")");
                if (define_in(&stores[turns], letter, text) != 0) continue;
                length += strlen(piece);
                refused = 0;
            }
        }
    }
}

#define FILL(...) do { static const char *const p[] = {__VA_ARGS__}; fill(p, sizeof p / sizeof *p); } while (0)

/* Both in turn, nanoseconds for a call; the best of several rounds. The limit is the ratio that bench/places allows. */
static int row(const char *name, char letter, int32_t number, int times, double limit) {
    double best[2] = {1e9, 1e9};
    size_t cells = 0;
    int good = 1;
    for (int i = 0; i < turns; i++) {
        good &= same(&stores[i], (uint8_t)letter) && sides[0].number == number;
        for (int k = 0; k < REC_LETTERS; k++) cells += stores[i].used[k];
    }
    for (int round = 0; round < ROUNDS; round++)
        for (int who = 0; who < 2; who++) {
            struct side *s = &sides[who];
            double from = seconds();
            for (int i = 0, at = 0; i < times; i++, at = at + 1 < turns ? at + 1 : 0)
                s->number = s->reach(&stores[at], (uint8_t)letter, s->reached, s->missing);
            double took = (seconds() - from) / times * 1e9;
            if (took < best[who]) best[who] = took;
            good &= s->number == number;
        }
    good &= alike();
    if (!good) printf("DIFFERENT ANSWERS: %s\n", name);
    cells /= (size_t)turns;
    printf("%-36s %4zu cells  proved %7.1f ns  plain %7.1f ns  ratio %.2f  limit %.0f\n", name, cells, best[0], best[1], best[0] / best[1], limit);
    return !good;
}

int main(void) {
    int bad = !same_on_many();

    fresh();
    bad |= define('q', "('/5'N)");
    bad |= row("a letter alone", 'q', 0, 50000, 2);
    bad |= row("refused, not standing", 'e', REC_NOT_STANDING, 50000, 2);

    fresh();
    bad |= define_till('a', "b") | define_till('b', "c") | define_till('c', "m") | define_till('p', "") | define_till('t', "");
    bad |= row("five letters, a chain of three", 'a', 0, 10000, 2);
    bad |= sides[0].reached['c' - 'a'] != 1 || sides[0].missing['m' - 'a'] != 1 || sides[0].reached['p' - 'a'] != 0;

    fresh();
    for (char letter = 'a'; letter < 'z'; letter++) bad |= define(letter, (char[]){'(', (char)(letter + 1), ';', ')', 0});
    bad |= define('z', "(;)");
    bad |= row("26 letters in a chain", 'a', 0, 10000, 9); /* 25 rounds over all letters; plain C comes to each letter once */
    bad |= sides[0].reached['z' - 'a'] != 1;

    FILL("A", "L", "M", "P", "O", "X", "I", "+", "-", "*", "/", "P", "+", "F1", "S0", "N", "b");
    bad |= row("26 full tables, operators", 'a', 0, 160, 2);
    for (int i = 0; i < TURNS; i++) stores[i].cells[25 * REC_CELLS + stores[i].used[25] - 1] = 2;
    bad |= row("refused, z's last cell is damaged", 'a', REC_DAMAGED, 160, 2);

    FILL("''pay at window 3'", "''Total: '", "''*'", "''no bet on this race '", "X", "O", "N", "b");
    bad |= row("26 full tables, prints", 'a', 0, 160, 2);

    FILL("N", "0", "J", "a", "d", "k", "q", "z", "N", "d", "L", "'/5'");
    bad |= row("26 full tables, predicates and calls", 'a', 0, 160, 2);

    FILL("I", "S1", "F2", "*", "'/100'", "/", "N", "0", "''Pays '", "O", "X", "$3$", "P", "-", ";", ":", "(N;L)", "d", "t");
    bad |= row("26 full tables, as a till has them", 'a', 0, 160, 2);
    return bad;
}
