#include "damage.h"

#include <stdio.h>
#include <string.h>

#include "engine.h"

int32_t *table_of(struct rec_store *store, size_t letter)
{
    return store->cells + letter * REC_CELLS;
}

/* ---- what the cells of a table are ------------------------------------- */

static void add_spot(struct spots *spots, size_t cell, enum field field)
{
    if (cell <= REC_CELLS && spots->count < REC_CELLS) {
        spots->all[spots->count].cell = cell;
        spots->all[spots->count].field = field;
        spots->count++;
    }
}

/* The fields of the mark at a cell; gives the cells it takes. */
static size_t mark_spots(struct spots *spots, const int32_t *table, size_t cell)
{
    int32_t held = table[cell - 1];
    size_t length;
    add_spot(spots, cell, held > 0 ? TRANSFER : CODE);
    switch (held) {
    case -'F': case -'S':
        add_spot(spots, cell + 1, DIGIT);
        return 2;
    case -36:
        add_spot(spots, cell + 1, N);
        add_spot(spots, cell + 2, ORDER);
        add_spot(spots, cell + 3, ON_FALSE);
        return 4;
    case -175:
        add_spot(spots, cell + 1, VALUE);
        return 2;
    case -167:
        add_spot(spots, cell + 1, LENGTH);
        if (cell >= REC_CELLS || table[cell] < 0 || table[cell] > REC_CELLS)
            return 2;
        length = (size_t)table[cell];
        for (size_t i = 0; i < length; i++)
            add_spot(spots, cell + 2 + i, BYTE);
        return 2 + length;
    case -'N': case -'0': case -'J':
        add_spot(spots, cell + 1, ON_FALSE);
        return 2;
    default:
        if (held < -122 || held > -97)
            return 1;
        add_spot(spots, cell + 1, ON_FALSE);
        return 2;
    }
}

void find_spots(struct spots *spots, const int32_t *table, size_t used)
{
    size_t cell = 2;
    spots->count = 0;
    while (cell + 2 <= used)
        cell += mark_spots(spots, table, cell);
    add_spot(spots, used - 1, LAST);
    add_spot(spots, used, LAST);
}

/* ---- random damage ----------------------------------------------------- */

static int32_t extreme(struct random *r)
{
    static const int32_t values[] = {INT32_MIN, INT32_MIN + 1, INT32_MAX, INT32_MAX - 1,
                                     1000000000, -1000000000, 999999999, -999999999, 65536,
                                     -65536, 256, -256, 2000, 251, 250, 0, 1, -1, 2};
    return values[below(r, sizeof values / sizeof values[0])];
}

static int32_t good_code(struct random *r, size_t letters)
{
    static const int32_t codes[] = {-65, -76, -77, -80, -79, -88, -73, -43, -45, -42, -47,
                                    -70, -83, -78, -48, -74, -36, -175, -167};
    if (chance(r, 15))
        return -'a' - (int32_t)below(r, (uint32_t)letters);
    return codes[below(r, sizeof codes / sizeof codes[0])];
}

/* A value for a field: often lawful but another, else just outside. */
static int32_t field_value(struct random *r, size_t letters, enum field field, size_t used,
                           int32_t old)
{
    int32_t end = (int32_t)used;
    if (chance(r, 8))
        return extreme(r);
    if (chance(r, 6)) /* the same in its low byte or its low half */
        return (int32_t)((uint32_t)old
                         + (chance(r, 50) ? 256u : 65536u) * (uint32_t)between(r, -3, 3));
    switch (field) {
    case CODE:
        return chance(r, 60) ? good_code(r, letters) : -between(r, 1, 180);
    case TRANSFER:
    case ON_FALSE:
        return chance(r, 75) ? between(r, 2, end)
                             : (int32_t[]){0, 1, end + 1, end, end - 1, -2}[below(r, 6)];
    case DIGIT:
        return chance(r, 50) ? between(r, 1, 10) : between(r, -1, 12);
    case N:
        return chance(r, 50) ? -between(r, 1, 5)
                             : (int32_t[]){0, 1, -9999, -10000, -9998, 5}[below(r, 6)];
    case ORDER:
        return chance(r, 60) ? between(r, 0, chance(r, 60) ? 2 : 15) : between(r, -1, 17);
    case VALUE:
        return chance(r, 50) ? random_value(r)
                             : (int32_t[]){999999999, -999999999, 1000000000,
                                           -1000000000}[below(r, 4)];
    case LENGTH:
        return chance(r, 60) ? old + between(r, -2, 2) : between(r, -1, end);
    case BYTE:
        return chance(r, 50) ? between(r, 32, 126)
                             : (int32_t[]){31, 32, 126, 127, 39, 38, 40, 10, 255}[below(r, 9)];
    default:
        return between(r, -1, 3);
    }
}

/* A letter whose count leaves room for a table, or REC_LETTERS. */
static size_t tabled_letter(struct random *r, const struct rec_store *store, size_t letters)
{
    for (int tries = 0; tries < 10; tries++) {
        size_t letter = below(r, (uint32_t)letters);
        if (store->used[letter] >= 3 && store->used[letter] <= REC_CELLS)
            return letter;
    }
    return REC_LETTERS;
}

static void damage_field(struct random *r, struct rec_store *store, size_t letters, size_t letter)
{
    struct spots spots;
    struct spot spot;
    int32_t *cell;
    find_spots(&spots, table_of(store, letter), store->used[letter]);
    spot = spots.all[below(r, (uint32_t)spots.count)];
    cell = &table_of(store, letter)[spot.cell - 1];
    *cell = field_value(r, letters, spot.field, store->used[letter], *cell);
}

static void damage_any_cell(struct random *r, struct rec_store *store, size_t letters,
                            size_t letter)
{
    int32_t *cell = &table_of(store, letter)[below(r, REC_CELLS)];
    *cell = field_value(r, letters, (enum field)below(r, LAST + 1), store->used[letter],
                        *cell);
}

static void damage_used(struct random *r, struct rec_store *store, size_t letter)
{
    static const size_t odd[] = {1, 2, 251, 252, 2000, (size_t)1 << 31, SIZE_MAX, SIZE_MAX / 2};
    size_t used = store->used[letter];
    if (chance(r, 8))
        used = odd[below(r, sizeof odd / sizeof odd[0])];
    else if (chance(r, 6))
        used = 0;
    else if (chance(r, 60))
        used = used + below(r, 9) - 4;
    else
        used = (size_t)between(r, 3, REC_CELLS);
    store->used[letter] = used;
    if (used >= 3 && used <= REC_CELLS && chance(r, 40)) {
        table_of(store, letter)[used - 2] = 0;
        table_of(store, letter)[used - 1] = 1;
    }
}

/* Copies some cells from one table to another place, perhaps its own. */
static void damage_block(struct random *r, struct rec_store *store, size_t letters, size_t letter)
{
    enum { BLOCK = 12, ROOM = REC_CELLS - BLOCK };
    size_t length = 1 + below(r, BLOCK);
    size_t used = store->used[letter];
    size_t to = below(r, (uint32_t)(used < ROOM ? used : ROOM));
    int32_t cells[BLOCK];
    memcpy(cells, table_of(store, below(r, (uint32_t)letters)) + below(r, ROOM), sizeof cells);
    memcpy(table_of(store, letter) + to, cells, length * sizeof cells[0]);
}

/* A table of marks in any order, with sound or less sound fields. */
static void damage_table(struct random *r, struct rec_store *store, size_t letters, size_t letter)
{
    size_t used = (size_t)between(r, 3, chance(r, 70) ? 30 : REC_CELLS);
    int32_t *table = table_of(store, letter);
    for (size_t i = 1; i < REC_CELLS; i++)
        table[i] = chance(r, 45) ? good_code(r, letters) : between(r, 1, (int32_t)used);
    table[used - 2] = 0;
    table[used - 1] = 1;
    store->used[letter] = used;
}

static void damage_variable(struct random *r, struct rec_store *store)
{
    static const int32_t odd[] = {1000000000, -1000000000, INT32_MIN, INT32_MAX, 999999999,
                                  -999999999};
    store->variables[below(r, REC_VARIABLES)] = odd[below(r, 6)];
}

/* Of any letter, most often the other one of the two. */
static void damage_mark(struct random *r, struct rec_store *store, size_t letters)
{
    uint8_t *mark = &store->marks[below(r, (uint32_t)(chance(r, 70) ? letters : REC_LETTERS))];
    if (chance(r, 88))
        *mark = *mark == REC_OPEN ? REC_STEWARD_LETTER : REC_OPEN;
    else
        *mark = (uint8_t)(chance(r, 70) ? between(r, MARK_WIDE, UINT8_MAX)
                                        : between(r, REC_STEWARD_LETTER + 1, MARK_WIDE - 1));
}

void damage_once(struct random *r, struct rec_store *store, size_t letters)
{
    size_t letter = tabled_letter(r, store, letters);
    uint32_t pick = below(r, 100);
    if (chance(r, 8)) {
        damage_mark(r, store, letters);
        return;
    }
    if (letter == REC_LETTERS)
        return;
    if (pick < 66)
        damage_field(r, store, letters, letter);
    else if (pick < 80)
        damage_any_cell(r, store, letters, letter);
    else if (pick < 88)
        damage_used(r, store, letter);
    else if (pick < 94)
        damage_block(r, store, letters, letter);
    else if (pick < 98)
        damage_table(r, store, letters, letter);
    else
        damage_variable(r, store);
}

void damage_store(struct random *r, struct rec_store *store, size_t letters)
{
    int times = chance(r, 12) ? 0 : chance(r, 80) ? between(r, 1, 4) : between(r, 5, 30);
    while (times-- > 0)
        damage_once(r, store, letters);
}

/* ---- stores ------------------------------------------------------------ */

void make_store(struct random *r, struct rec_store *store, size_t letters)
{
    static const uint8_t all[] = "abcdefghijklmnopqrstuvwxyz";
    struct text text;
    uint32_t stewards = chance(r, 40) ? 0 : (uint32_t)between(r, 10, 40);
    rec_store_fresh(store);
    for (size_t i = 0; i < letters; i++) {
        struct taste taste = random_taste(r, all, letters);
        uint8_t mark = chance(r, stewards);
        store->marks[i] = mark;
        if (chance(r, 10))
            continue;
        text_random(r, &taste, &text);
        rec_store_define(store, all[i], mark, text.bytes, text.length);
    }
    for (size_t i = 0; i < REC_VARIABLES; i++)
        store->variables[i] = chance(r, 40) ? 0 : random_value(r);
}

/* ---- damage by hand ---------------------------------------------------- */

const char *const clause_words[REC_CLAUSES] = {
    "", "due cell outside", "last not 1", "last but one not 0", "holds 0", "transfer outside",
    "no code", "mark past used - 2", "false outside", "digit", "n", "order", "constant",
    "print length", "print byte"};

const struct hand_table hand_tables[] = {
    {REC_SOUND, 0, 3, {2000, 0, 1}},
    {REC_SOUND, 0, 3, {0, 0, 1}},
    {REC_SOUND, 0, 4, {2000, 4, 0, 1}},
    {REC_LAST_NOT_1, 4, 4, {2000, 4, 0, 0}},
    {REC_LAST_NOT_1, 4, 4, {2000, 4, 0, 2}},
    {REC_LAST_NOT_1, 4, 4, {2000, 4, 0, -1}},
    {REC_LAST_BUT_ONE_NOT_0, 2, 3, {2000, 1, 1}},
    {REC_LAST_BUT_ONE_NOT_0, 2, 3, {2000, -88, 1}},
    {REC_LAST_BUT_ONE_NOT_0, 3, 4, {2000, 3, 4, 1}},
    {REC_HOLDS_0, 2, 4, {2000, 0, 0, 1}},
    {REC_HOLDS_0, 3, 5, {2000, -88, 0, 0, 1}},
    {REC_TRANSFER_OUTSIDE, 2, 4, {2000, 5, 0, 1}},
    {REC_TRANSFER_OUTSIDE, 2, 4, {2000, 1, 0, 1}},
    {REC_TRANSFER_OUTSIDE, 2, 4, {2000, INT32_MAX, 0, 1}},
    {REC_NO_CODE, 2, 4, {2000, -1, 0, 1}},
    {REC_NO_CODE, 2, 4, {2000, -66, 0, 1}},
    {REC_NO_CODE, 2, 4, {2000, -96, 0, 1}},
    {REC_NO_CODE, 2, 4, {2000, -123, 0, 1}},
    {REC_NO_CODE, 2, 4, {2000, -174, 0, 1}},
    {REC_NO_CODE, 2, 4, {2000, -321, 0, 1}},
    {REC_NO_CODE, 2, 4, {2000, INT32_MIN, 0, 1}},
    {REC_MARK_TOO_LONG, 2, 4, {2000, -70, 0, 1}},
    {REC_MARK_TOO_LONG, 2, 4, {2000, -78, 0, 1}},
    {REC_MARK_TOO_LONG, 2, 4, {2000, -97, 0, 1}},
    {REC_MARK_TOO_LONG, 2, 6, {2000, -36, -1, 0, 0, 1}},
    {REC_MARK_TOO_LONG, 2, 4, {2000, -175, 0, 1}},
    {REC_MARK_TOO_LONG, 2, 4, {2000, -167, 0, 1}},
    {REC_MARK_TOO_LONG, 2, 5, {2000, -167, 1, 0, 1}},
    {REC_MARK_TOO_LONG, 2, 5, {2000, -167, INT32_MAX, 0, 1}},
    {REC_MARK_TOO_LONG, 2, 4, {2000, -70, 4, 1}},
    {REC_MARK_TOO_LONG, 2, 4, {2000, -97, 4, 1}},
    {REC_MARK_TOO_LONG, 2, 4, {2000, -175, 4, 1}},
    {REC_MARK_TOO_LONG, 2, 6, {2000, -36, -1, 0, 6, 1}},
    {REC_MARK_TOO_LONG, 2, 5, {2000, -36, -1, 0, 5}},
    {REC_MARK_TOO_LONG, 2, 6, {2000, -167, 2, 97, 98, 1}},
    {REC_MARK_TOO_LONG, 2, 6, {2000, -167, 3, 97, 98, 99}},
    {REC_MARK_TOO_LONG, 2, 6, {2000, -167, 4, 97, 98, 1, 99}},
    {REC_FALSE_OUTSIDE, 2, 5, {2000, -78, 6, 0, 1}},
    {REC_FALSE_OUTSIDE, 2, 5, {2000, -78, 1, 0, 1}},
    {REC_FALSE_OUTSIDE, 2, 5, {2000, -97, 0, 0, 1}},
    {REC_FALSE_OUTSIDE, 2, 7, {2000, -36, -1, 0, 8, 0, 1}},
    {REC_FALSE_OUTSIDE, 2, 7, {2000, -36, -1, 0, 1, 0, 1}},
    {REC_BAD_DIGIT, 2, 5, {2000, -70, 0, 0, 1}},
    {REC_BAD_DIGIT, 2, 5, {2000, -70, 11, 0, 1}},
    {REC_BAD_DIGIT, 2, 5, {2000, -83, -1, 0, 1}},
    {REC_SOUND, 0, 5, {2000, -70, 10, 0, 1}},
    {REC_BAD_N, 2, 7, {2000, -36, 0, 0, 7, 0, 1}},
    {REC_BAD_N, 2, 7, {2000, -36, 1, 0, 7, 0, 1}},
    {REC_BAD_N, 2, 7, {2000, -36, -10000, 0, 7, 0, 1}},
    {REC_BAD_N, 2, 7, {2000, -36, INT32_MIN, 0, 7, 0, 1}},
    {REC_SOUND, 0, 7, {2000, -36, -9999, 15, 7, 0, 1}},
    {REC_BAD_ORDER, 2, 7, {2000, -36, -1, -1, 7, 0, 1}},
    {REC_BAD_ORDER, 2, 7, {2000, -36, -1, 16, 7, 0, 1}},
    {REC_BAD_VALUE, 2, 5, {2000, -175, 1000000000, 0, 1}},
    {REC_BAD_VALUE, 2, 5, {2000, -175, -1000000000, 0, 1}},
    {REC_SOUND, 0, 5, {2000, -175, -999999999, 0, 1}},
    {REC_BAD_LENGTH, 2, 5, {2000, -167, -1, 0, 1}},
    {REC_BAD_LENGTH, 2, 5, {2000, -167, INT32_MIN, 0, 1}},
    {REC_SOUND, 0, 5, {2000, -167, 0, 0, 1}},
    {REC_BAD_BYTE, 2, 6, {2000, -167, 1, 31, 0, 1}},
    {REC_BAD_BYTE, 2, 6, {2000, -167, 1, 39, 0, 1}},
    {REC_BAD_BYTE, 2, 6, {2000, -167, 1, 127, 0, 1}},
    {REC_BAD_BYTE, 2, 6, {2000, -167, 1, 10, 0, 1}},
    {REC_BAD_BYTE, 2, 6, {2000, -167, 1, 288, 0, 1}},
    {REC_SOUND, 0, 6, {2000, -167, 1, 126, 0, 1}}};

const size_t hand_table_count = sizeof hand_tables / sizeof hand_tables[0];

/* Each letter's mark as either of the two, and as some of the others, by turns. */
static bool try_marks(const struct rec_store *sound,
                      bool (*try)(const struct rec_store *store, bool bad))
{
    enum { LOW = REC_STEWARD_LETTER + 1, WIDE = UINT8_MAX + 1 - MARK_WIDE, EACH = 4 };
    static struct rec_store store;
    bool good = true;
    for (size_t letter = 0; letter < REC_LETTERS && good; letter++) {
        store = *sound;
        for (size_t i = letter * EACH; i < (letter + 1) * EACH && good; i++) {
            store.marks[letter] = (uint8_t)(LOW + i);
            good &= try(&store, true);
            store.marks[letter] = (uint8_t)(MARK_WIDE + i % WIDE);
            good &= try(&store, true);
        }
        for (uint8_t mark = REC_OPEN; mark <= REC_STEWARD_LETTER && good; mark++) {
            store.marks[letter] = mark;
            good &= try(&store, false);
        }
    }
    return good;
}

bool try_bad_stores(bool (*try)(const struct rec_store *store, bool bad))
{
    static const size_t odd[] = {1, 2, 251, 252, 256, 259, 2000, (size_t)1 << 31, (size_t)1 << 32,
                                 ((size_t)1 << 32) + 3, SIZE_MAX / 2, SIZE_MAX - 249, SIZE_MAX};
    static const size_t even[] = {0, 3, 4, 249, 250};
    static const int32_t outside[] = {1000000000, -1000000000, INT32_MAX, INT32_MIN};
    static const int32_t inside[] = {999999999, -999999999};
    static struct rec_store sound, store;
    bool good = true;
    rec_store_fresh(&sound);
    rec_store_define(&sound, 'a', REC_OPEN, (const uint8_t *)"('/5'S0S1;)", 11);
    good &= try(&sound, false) && try_marks(&sound, try);
    for (size_t letter = 0; letter < REC_LETTERS && good; letter++) {
        for (size_t i = 0; i < sizeof odd / sizeof odd[0] && good; i++) {
            store = sound;
            store.used[letter] = odd[i];
            good &= try(&store, true);
        }
        for (size_t i = 0; i < sizeof even / sizeof even[0] && good && letter > 0; i++) {
            store = sound;
            store.used[letter] = even[i];
            good &= try(&store, false);
        }
    }
    for (size_t k = 0; k < REC_VARIABLES && good; k++) {
        for (size_t i = 0; i < 4 && good; i++) {
            store = sound;
            store.variables[k] = outside[i];
            good &= try(&store, true);
        }
        for (size_t i = 0; i < 2 && good; i++) {
            store = sound;
            store.variables[k] = inside[i];
            good &= try(&store, false);
        }
    }
    return good;
}

void show_store(const struct rec_store *store)
{
    for (size_t letter = 0; letter < REC_LETTERS; letter++) {
        size_t used = store->used[letter];
        if (used == 0)
            continue;
        printf("  table of %c, used %zu:", (char)('a' + letter), used);
        for (size_t i = 0; i < used && i < REC_CELLS; i++)
            printf("%s%ld", i ? "," : " ", (long)store->cells[letter * REC_CELLS + i]);
        putchar('\n');
    }
    printf("  marks of a to z:");
    for (size_t i = 0; i < REC_LETTERS; i++)
        printf(" %u", (unsigned)store->marks[i]);
    printf("\n  variables 1 to 9 and 0:");
    for (size_t i = 0; i < REC_VARIABLES; i++)
        printf(" %ld", (long)store->variables[i]);
    putchar('\n');
}
