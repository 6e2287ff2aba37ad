/* Compares rec_reach with the reference: the number, every letter reached or missing, and
 * the bytes around; the store stays as it was, byte for byte. On stores that lists of calls
 * make, where the engine is also held to what U2 and U7 say of its runs, and on damaged ones.
 *
 *     reaches [FIRST_SEED [ROUNDS]]      see work.h
 *
 * Built with damage.c, calls.c, engine.c, work.c, texts.c, the reference and librec.a. */
#include <stdio.h>
#include <string.h>

#include "calls.h"
#include "damage.h"
#include "work.h"

enum { ROUNDS = 4000, GUARD = 16, FEW = 6 /* letters that lively texts call */ };

static const uint8_t alphabet[] = "abcdefghijklmnopqrstuvwxyz";
static const uint8_t edges[] = {0, 'a' - 1, 'a', 'z', 'z' + 1, 255};

/* ---- letters as bits, `a` the lowest ------------------------------------ */

static uint32_t bit(size_t letter)
{
    return (uint32_t)1 << letter;
}

/* 0 where the byte is no letter. */
static uint32_t letter_bit(int64_t byte)
{
    return byte >= 'a' && byte <= 'z' ? bit((size_t)(byte - 'a')) : 0;
}

/* ---- what was met -------------------------------------------------------- */

/* How a store came to be: by calls from a fresh one, or by other changes too. */
enum origin { BY_CALLS, CHANGED, ORIGINS };

/* Places where a letter or the code of its call stands, and is no call. */
enum decoy {
    IN_PRINT, IN_COMMENT, IN_CONSTANT, IN_COUNTER, IN_CELL_1, PAST_USED, IN_CLEARED, DECOYS
};

enum sight {
    ITSELF_ALONE, SELF_CALL, CIRCLE, CHAIN_OF_26, NONE_MISSING, MISSING_NEXT, MISSING_FAR,
    STANDING_APART, CLEARED_APART, USED_3, USED_250, ALL_FULL, TABLE_CHANGED, DAMAGE_IN_ITSELF,
    DAMAGE_REACHED, DAMAGE_APART, SMALL_COUNT, LARGE_COUNT, BAD_VARIABLE, MARK_OF_STANDING,
    MARK_OF_CLEARED, BAD_BEFORE_1, BAD_BEFORE_10, BAD_BEFORE_29, LETTER_BEFORE_29,
    STANDING_BEFORE_29, STEWARDS_ITSELF, STEWARDS_LEADS, RUN_27, RUN_NOT_27, RUN_NONE_MISSING,
    RUN_34, RUN_NOT_34, SIGHTS
};

static const char *const decoy_words[DECOYS] = {
    "in a print", "in a comment", "as a constant", "as a counter's n", "in cell 1",
    "past the used cells", "in the cells of a cleared letter"};

static const char *const sight_words[SIGHTS] = {
    "nothing but itself", "call of itself", "circle of more letters", "chain of 26",
    "others reached, none missing", "missing letter that it calls", "missing letter further on",
    "standing letter not reached", "cleared letter not reached", "table of 3 cells",
    "table of 250 cells", "26 tables of 250 cells", "changed table read through",
    "29 by its own table", "29 by another that is reached", "29 by none that is reached",
    "13 by a count of 1 or 2", "13 by a count over 250", "13 by a variable",
    "13 by the mark of a standing letter", "13 by the mark of a cleared letter", "13 before 1",
    "13 before 10", "13 before 29", "1 before 29", "10 before 29", "steward letter asked for",
    "letter reached through steward letters alone", "run ended 27",
    "run ended otherwise, a letter missing", "run, no letter missing", "cashier's run ended 34",
    "cashier's run ended otherwise, a steward letter reached"};

static unsigned long long reaches, numbers[ORIGINS][REC_NUMBERS], bytes[256],
    clauses[REC_CLAUSES], sights[SIGHTS], decoys[DECOYS];

static void saw(bool seen, enum sight sight)
{
    sights[sight] += seen;
}

/* The numbers of document 02's order and no others: 13 and 29 never after calls alone. */
static bool reach_numbers_met(unsigned long long least)
{
    static const char *const words[ORIGINS] = {"store by calls", "changed store"};
    bool good = true;
    for (size_t i = 0; i < ORIGINS; i++)
        for (uint32_t n = 0; n < REC_NUMBERS; n++) {
            bool always = n == REC_FINISHED || n == REC_NO_SUCH_LETTER || n == REC_NOT_STANDING;
            bool damage = n == REC_BAD_STORE || n == REC_DAMAGED;
            good &= number_met(always || (damage && i == CHANGED), n, numbers[i][n], least, words[i]);
        }
    return good;
}

static bool counts(bool directed, bool full)
{
    unsigned long long least = directed ? 1 : full ? 20 : 0;
    bool good;
    printf("%s: %llu reaches\n", directed ? "directed cases" : "rounds", reaches);
    good = reach_numbers_met(least);
    for (size_t i = 0; i < sizeof edges; i++)
        good &= met(bytes[edges[i]], least, "letter byte %u", (unsigned)edges[i]);
    for (size_t i = 0; i < SIGHTS; i++)
        good &= met(sights[i], least, "%s", sight_words[i]);
    for (size_t i = 0; i < DECOYS; i++)
        good &= met(decoys[i], least, "letter not reached that stands %s", decoy_words[i]);
    good &= same("29 by no clause", 0, 0, (long long)clauses[REC_SOUND]);
    good &= same("29 by a due cell outside", 0, 0, (long long)clauses[REC_CELL_OUTSIDE]);
    for (size_t i = REC_CELL_OUTSIDE + 1; i < REC_CLAUSES; i++)
        good &= met(clauses[i], least, "29 by %s", clause_words[i]);
    for (size_t i = 0; i < 256 && directed; i++)
        good &= met(bytes[i], least, "letter byte %zu", i);
    reaches = 0;
    memset(numbers, 0, sizeof numbers);
    memset(bytes, 0, sizeof bytes);
    memset(clauses, 0, sizeof clauses);
    memset(sights, 0, sizeof sights);
    memset(decoys, 0, sizeof decoys);
    return good;
}

/* ---- a store, and what is to be seen in it ------------------------------- */

struct scene {
    enum origin origin;
    struct rec_store store;
    uint32_t comments[REC_LETTERS]; /* letters in the comments of the text */
    bool altered;                   /* a standing table is no text's */
    /* what follows is found by look */
    bool bad; /* number 13 */
    uint32_t standing;
    uint32_t damaged;       /* letters whose tables are */
    enum rec_clause clause; /* of the first of them */
    uint32_t calls[REC_LETTERS];
    uint32_t decoys[DECOYS][REC_LETTERS];
};

static uint32_t reach_number(const struct rec_store *store, uint8_t letter)
{
    uint8_t reached[REC_LETTERS], missing[REC_LETTERS];
    return rec_store_reach(store, letter, reached, missing);
}

/* The clause by which a table cannot be read mark after mark: that of a run which a
 * transfer in cell 2 sends to each mark. No run comes to the third cell of three. */
static enum rec_clause clause_of(const struct rec_store *store, size_t letter)
{
    static struct rec_store sent;
    struct rec_loan loan = {NULL, 0, (int32_t[REC_LIST]){0}, REC_LIST, NULL, 0};
    const int32_t *table = store->cells + letter * REC_CELLS;
    struct spots spots;
    find_spots(&spots, table, store->used[letter]);
    memcpy(sent.cells, table, REC_CELLS * sizeof table[0]);
    sent.used[0] = store->used[letter];
    for (size_t i = 0; i < spots.count; i++) {
        size_t cell = spots.all[i].cell;
        enum field field = spots.all[i].field;
        struct rec_answer a;
        if (field != CODE && field != TRANSFER && field != LAST)
            continue;
        if (cell == 3 && sent.used[0] == 3)
            return REC_LAST_NOT_1;
        sent.cells[1] = cell > 2 ? (int32_t)cell : table[1];
        a = rec_store_run(sent.cells, sent.used, sent.marks, sent.variables, 'a', REC_CASHIER,
                          cell > 2, &loan);
        if (a.number == REC_DAMAGED)
            return a.clause;
    }
    return REC_SOUND;
}

/* The tables that are damaged: those whose letter cannot be asked where it stands alone. */
static void look_for_damage(struct scene *s)
{
    static struct rec_store alone;
    alone = s->store;
    memset(alone.used, 0, sizeof alone.used);
    memset(alone.marks, REC_OPEN, sizeof alone.marks);
    memset(alone.variables, 0, sizeof alone.variables);
    for (size_t i = 0; i < REC_LETTERS; i++) {
        alone.used[i] = s->store.used[i];
        if (reach_number(&alone, alphabet[i]) == REC_DAMAGED) {
            if (s->damaged == 0)
                s->clause = clause_of(&s->store, i);
            s->damaged |= bit(i);
        }
        alone.used[i] = 0;
    }
}

static uint32_t codes(const int32_t *cells, size_t count)
{
    uint32_t letters = 0;
    while (count-- > 0)
        letters |= letter_bit(-(int64_t)*cells++);
    return letters;
}

static void look_at_table(struct scene *s, size_t letter, size_t used)
{
    const int32_t *table = s->store.cells + letter * REC_CELLS;
    struct spots spots;
    find_spots(&spots, table, used);
    for (size_t i = 0; i < spots.count; i++) {
        int64_t held = table[spots.all[i].cell - 1];
        switch (spots.all[i].field) {
        case CODE:
            s->calls[letter] |= letter_bit(-held);
            break;
        case BYTE:
            s->decoys[IN_PRINT][letter] |= letter_bit(held);
            break;
        case VALUE:
            s->decoys[IN_CONSTANT][letter] |= letter_bit(-held);
            break;
        case N:
            s->decoys[IN_COUNTER][letter] |= letter_bit(-held);
            break;
        default:
            break;
        }
    }
    s->decoys[IN_COMMENT][letter] = s->comments[letter];
}

/* The cells of a letter that no reach reads; calls leave none but 0 and 2000 there. */
static void look_at_unread(struct scene *s, size_t letter, size_t used)
{
    const int32_t *table = s->store.cells + letter * REC_CELLS;
    s->decoys[used == 0 ? IN_CLEARED : IN_CELL_1][letter] = codes(table, used == 0 ? REC_CELLS : 1);
    if (used > 0)
        s->decoys[PAST_USED][letter] = codes(table + used, REC_CELLS - used);
}

static void look(struct scene *s)
{
    s->bad = reach_number(&s->store, 0) == REC_BAD_STORE;
    s->standing = s->damaged = 0;
    s->clause = REC_SOUND;
    memset(s->calls, 0, sizeof s->calls);
    memset(s->decoys, 0, sizeof s->decoys);
    if (s->origin == CHANGED)
        look_for_damage(s);
    for (size_t i = 0; i < REC_LETTERS; i++) {
        size_t used = s->store.used[i];
        s->standing |= used > 0 ? bit(i) : 0;
        if (used >= 3 && used <= REC_CELLS && !(s->damaged & bit(i)))
            look_at_table(s, i, used);
        if (used <= REC_CELLS && s->origin == CHANGED)
            look_at_unread(s, i, used);
    }
}

/* ---- counting ------------------------------------------------------------ */

/* Some letter is 25 calls away, and no fewer. */
static bool is_chain_of_26(const struct scene *s, size_t letter)
{
    uint32_t all = bit(letter), last = all;
    for (int away = 1; away < REC_LETTERS && last != 0; away++) {
        uint32_t next = 0;
        for (size_t i = 0; i < REC_LETTERS; i++)
            next |= last & bit(i) ? s->calls[i] : 0;
        last = next & ~all;
        all |= last;
    }
    return last != 0;
}

static uint32_t stewards_of(const struct rec_store *store)
{
    uint32_t letters = 0;
    for (size_t i = 0; i < REC_LETTERS; i++)
        letters |= store->marks[i] == REC_STEWARD_LETTER ? bit(i) : 0;
    return letters;
}

/* What the letter reaches where other steward letters lead no further. */
static uint32_t reached_openly(const struct scene *s, size_t letter)
{
    uint32_t all = bit(letter), last = all, ends = stewards_of(&s->store) & ~all;
    while (last != 0) {
        uint32_t next = 0;
        for (size_t i = 0; i < REC_LETTERS; i++)
            next |= last & ~ends & bit(i) ? s->calls[i] : 0;
        last = next & ~all;
        all |= last;
    }
    return all;
}

static void count_report(const struct scene *s, size_t letter, uint32_t reached, uint32_t missing)
{
    uint32_t led[DECOYS] = {0}, all = bit(REC_LETTERS) - 1;
    bool circle = false, full = true;
    for (size_t i = 0; i < REC_LETTERS; i++) {
        full &= s->store.used[i] == REC_CELLS;
        circle |= i != letter && (reached & bit(i)) && (s->calls[i] & bit(letter));
        for (size_t d = 0; d < DECOYS; d++)
            led[d] |= reached & bit(i) ? s->decoys[d][i] : 0;
    }
    for (size_t d = 0; d < DECOYS; d++)
        decoys[d] += (led[d] & ~reached) != 0;
    saw(reached == bit(letter), ITSELF_ALONE);
    saw(s->calls[letter] & bit(letter), SELF_CALL);
    saw(circle, CIRCLE);
    saw(is_chain_of_26(s, letter), CHAIN_OF_26);
    saw(reached != bit(letter) && missing == 0, NONE_MISSING);
    saw(missing & s->calls[letter], MISSING_NEXT);
    saw(missing & ~s->calls[letter], MISSING_FAR);
    saw(s->standing & ~reached, STANDING_APART);
    saw(all & ~s->standing & ~reached, CLEARED_APART);
    saw(s->store.used[letter] == 3, USED_3);
    saw(s->store.used[letter] == REC_CELLS, USED_250);
    saw(full, ALL_FULL);
    saw(s->altered, TABLE_CHANGED);
    saw(stewards_of(&s->store) & bit(letter), STEWARDS_ITSELF);
    saw(reached != reached_openly(s, letter), STEWARDS_LEADS);
}

/* A damaged table leads to no letter, but may be led to. */
static void count_damage(const struct scene *s, size_t letter)
{
    static struct rec_store rest;
    uint8_t reached[REC_LETTERS], missing[REC_LETTERS];
    bool led = false;
    clauses[s->clause]++;
    if (s->damaged & bit(letter)) {
        saw(true, DAMAGE_IN_ITSELF);
        return;
    }
    rest = s->store;
    for (size_t i = 0; i < REC_LETTERS; i++)
        if (s->damaged & bit(i))
            rest.used[i] = 0;
    rec_store_reach(&rest, alphabet[letter], reached, missing);
    for (size_t i = 0; i < REC_LETTERS; i++)
        led |= reached[i] && (s->damaged & bit(i));
    saw(led, DAMAGE_REACHED);
    saw(!led, DAMAGE_APART);
}

static void count_bad(const struct scene *s)
{
    bool small = false, large = false, standing = false, cleared = false;
    for (size_t i = 0; i < REC_LETTERS; i++) {
        bool odd = s->store.marks[i] > REC_STEWARD_LETTER;
        small |= s->store.used[i] == 1 || s->store.used[i] == 2;
        large |= s->store.used[i] > REC_CELLS;
        standing |= odd && s->store.used[i] != 0;
        cleared |= odd && s->store.used[i] == 0;
    }
    saw(small, SMALL_COUNT);
    saw(large, LARGE_COUNT);
    saw(!small && !large && standing && !cleared, MARK_OF_STANDING);
    saw(!small && !large && !standing && cleared, MARK_OF_CLEARED);
    saw(!small && !large && !standing && !cleared, BAD_VARIABLE);
}

static void count_order(const struct scene *s, uint8_t letter)
{
    uint32_t it = letter_bit(letter);
    bool cleared = it != 0 && !(s->standing & it);
    saw(s->bad && it == 0, BAD_BEFORE_1);
    saw(s->bad && cleared, BAD_BEFORE_10);
    saw(s->bad && s->damaged, BAD_BEFORE_29);
    saw(!s->bad && it == 0 && s->damaged, LETTER_BEFORE_29);
    saw(!s->bad && cleared && s->damaged, STANDING_BEFORE_29);
}

static uint32_t marked(const uint8_t *marks)
{
    uint32_t letters = 0;
    for (size_t i = 0; i < REC_LETTERS; i++)
        letters |= marks[i] == 1 ? bit(i) : 0;
    return letters;
}

/* ---- one comparison ------------------------------------------------------ */

/* Lent places, between bytes that must stay. */
struct marks {
    uint8_t before[GUARD];
    uint8_t reached[REC_LETTERS];
    uint8_t between[GUARD];
    uint8_t missing[REC_LETTERS];
    uint8_t behind[GUARD];
};

struct report {
    uint32_t number;
    struct marks marks;
};

/* Neither 0 nor 1 anywhere: each mark that is written shows. */
static void soil_marks(struct random *r, struct marks *marks)
{
    uint8_t *all = (uint8_t *)marks;
    for (size_t i = 0; i < sizeof *marks; i++)
        all[i] = (uint8_t)between(r, 2, 255);
}

static bool same_places(const struct marks *expected, const struct marks *got)
{
    const uint8_t *one = (const uint8_t *)expected, *other = (const uint8_t *)got;
    bool good = true;
    if (memcmp(expected, got, sizeof *got) == 0)
        return true;
    for (size_t i = 0; i < REC_LETTERS; i++) {
        good &= same("reached", (long long)i, expected->reached[i], got->reached[i]);
        good &= same("missing", (long long)i, expected->missing[i], got->missing[i]);
    }
    for (size_t i = 0; i < sizeof *got && good; i++)
        good &= same("byte around them", (long long)i, one[i], other[i]);
    return false;
}

static void count_reach(const struct scene *s, uint8_t letter, const struct report *expected)
{
    size_t index = (size_t)(letter - 'a');
    reaches++;
    bytes[letter]++;
    numbers[s->origin][expected->number]++;
    count_order(s, letter);
    if (expected->number == REC_BAD_STORE)
        count_bad(s);
    if (expected->number == REC_DAMAGED)
        count_damage(s, index);
    if (expected->number == REC_FINISHED)
        count_report(s, index, marked(expected->marks.reached), marked(expected->marks.missing));
}

/* What the engine gave is in `got`. */
static bool compare(struct random *r, const struct scene *s, uint8_t letter, struct report *got)
{
    const struct rec_store *store = &s->store;
    struct report expected;
    struct marks soiled;
    bool good;
    soil_marks(r, &soiled);
    expected.marks = got->marks = soiled;
    expected.number =
        rec_store_reach(store, letter, expected.marks.reached, expected.marks.missing);
    good = engine_reach(store->cells, store->used, store->marks, store->variables, letter,
                        got->marks.reached, got->marks.missing, &got->number);
    good &= same("number", 0, expected.number, got->number);
    good &= same_places(expected.number == 0 ? &expected.marks : &soiled, &got->marks);
    good &= same_places(expected.number == 0 ? &expected.marks : &soiled, &expected.marks);
    if (s->origin == BY_CALLS && (got->number == REC_BAD_STORE || got->number == REC_DAMAGED)) {
        printf("  number %u on a store from such calls\n", (unsigned)got->number);
        good = false;
    }
    if (good) {
        count_reach(s, letter, &expected);
    } else {
        printf("  reach, letter %u\n", (unsigned)letter);
        show_store(store);
    }
    return good;
}

static bool compare_bytes(struct random *r, const struct scene *s, const uint8_t *letters,
                          size_t count)
{
    struct report got;
    bool good = true;
    for (size_t i = 0; i < count && good; i++)
        good = compare(r, s, letters[i], &got);
    return good;
}

static bool compare_all(struct random *r, const struct scene *s)
{
    return compare_bytes(r, s, alphabet, REC_LETTERS) && compare_bytes(r, s, edges, sizeof edges);
}

/* A letter, often one that stands; at times any byte. */
static uint8_t some_byte(struct random *r, const struct scene *s)
{
    uint8_t letter = alphabet[below(r, REC_LETTERS)];
    if (chance(r, 10))
        return chance(r, 50) ? edges[below(r, sizeof edges)] : (uint8_t)below(r, 256);
    for (int tries = 0; tries < 5 && !(s->standing & letter_bit(letter)); tries++)
        letter = alphabet[below(r, REC_LETTERS)];
    return letter;
}

static bool compare_some(struct random *r, const struct scene *s, int times)
{
    struct report got;
    bool good = true;
    while (times-- > 0 && good)
        good = compare(r, s, some_byte(r, s), &got);
    return good;
}

/* ---- lists of calls ------------------------------------------------------ */

/* The engine's store is the scene's. */
struct history {
    struct scene scene;
    struct rec_store reference;
    struct side expected, got; /* the same after each call, so the same before the next */
};

static bool begin(struct random *r, struct history *h)
{
    memset(&h->scene, 0, sizeof h->scene);
    rec_store_fresh(&h->reference);
    soil(r, &h->expected);
    h->got = h->expected;
    if (!fresh_engine(r, &h->scene.store))
        return false;
    look(&h->scene);
    return true;
}

/* What U2 says of a run: refused 13, 1 or 10 as a reach is, where its role is one of the
 * two, and ended 27 only where a letter is missing. By U7 ended 34 only where it is a
 * cashier's and a steward letter is reached. Both are the engine's, of the same store. */
static bool hold_run(const struct scene *s, const struct report *report, uint8_t role,
                     uint32_t number)
{
    bool refused = number == REC_NO_SUCH_LETTER || number == REC_NOT_STANDING;
    bool told = report->number == 0, ran = !is_refusal(number), good = true;
    bool lacks = told && marked(report->marks.missing) != 0;
    bool barred = told && role == REC_CASHIER
                  && (marked(report->marks.reached) & s->standing & stewards_of(&s->store)) != 0;
    if (number != REC_BAD_MARK)
        good = same("number of the reach before the run", 0, refused ? number : 0, report->number);
    if (number == REC_NO_TEXT && !lacks) {
        puts("  a run ended 27, and the reach before it marked no letter missing");
        good = false;
    }
    if (number == REC_STEWARD_CALL && !barred) {
        puts("  a run ended 34, and the reach before it marked no steward letter");
        good = false;
    }
    if (number == REC_BAD_STORE || number == REC_DAMAGED) {
        printf("  number %u on a store from such calls\n", (unsigned)number);
        good = false;
    }
    saw(number == REC_NO_TEXT, RUN_27);
    saw(ran && number != REC_NO_TEXT && lacks, RUN_NOT_27);
    saw(ran && !lacks, RUN_NONE_MISSING);
    saw(number == REC_STEWARD_CALL, RUN_34);
    saw(ran && number != REC_STEWARD_CALL && barred, RUN_NOT_34);
    return good;
}

static uint32_t letters_in_comments(const struct text *text)
{
    uint32_t letters = 0;
    for (size_t i = 0, length; i < text->length; i += length) {
        length = part_length(text->bytes + i);
        for (size_t j = 0; j < length && text->bytes[i] == '"'; j++)
            letters |= letter_bit(text->bytes[i + j]);
    }
    return letters;
}

static bool make_call(struct random *r, struct history *h, const struct call *call)
{
    struct scene *s = &h->scene;
    struct report report;
    bool good;
    if (call->kind == RUN && !compare(r, s, call->letter, &report))
        return false;
    call_store(&h->reference, call, &h->expected);
    good = call_engine(&s->store, call, &h->got);
    good &= same_sides(&h->expected, &h->got);
    good &= same_stores(&h->reference, &s->store);
    if (call->kind == RUN)
        good &= hold_run(s, &report, call->role, h->got.number);
    else if (h->got.number == 0)
        s->comments[call->letter - 'a'] =
            call->kind == DEFINE ? letters_in_comments(&call->text) : 0;
    look(s);
    if (!good)
        show_call(call);
    return good && compare(r, s, call->letter, &report) && compare_some(r, s, 2);
}

static bool define(struct random *r, struct history *h, uint8_t letter, uint8_t mark,
                   const struct text *text)
{
    static struct call call;
    call.kind = DEFINE;
    call.letter = letter;
    call.mark = mark;
    call.text = *text;
    return make_call(r, h, &call);
}

static bool define_words(struct random *r, struct history *h, uint8_t letter, uint8_t mark,
                         const char *words)
{
    struct text text;
    text_clear(&text);
    text_add(&text, words);
    return define(r, h, letter, mark, &text);
}

static bool withdraw(struct random *r, struct history *h, uint8_t letter)
{
    static struct call call;
    call.kind = WITHDRAW;
    call.letter = letter;
    return make_call(r, h, &call);
}

static bool run(struct random *r, struct history *h, uint8_t letter, uint8_t role,
                uint32_t allowance)
{
    static struct call call;
    call.kind = RUN;
    call.letter = letter;
    call.role = role;
    call.allowance = allowance;
    choose_loan(r, &call);
    return make_call(r, h, &call);
}

/* ---- directed cases ------------------------------------------------------ */

/* A reach with the number that document 02 gives it. */
static bool expect_number(struct random *r, const struct scene *s, uint8_t letter, uint32_t number)
{
    struct report got;
    return compare(r, s, letter, &got) && same("the number by hand", letter, number, got.number);
}

static uint32_t letters_of(const char *words)
{
    uint32_t letters = 0;
    while (*words != 0)
        letters |= letter_bit(*words++);
    return letters;
}

/* A reach with the letters that it marks. */
static bool expect_marks(struct random *r, const struct scene *s, uint8_t letter,
                         const char *reached, const char *missing)
{
    struct report got;
    return compare(r, s, letter, &got) && same("the number by hand", letter, 0, got.number)
           && same("letters reached", letter, letters_of(reached), marked(got.marks.reached))
           && same("letters missing", letter, letters_of(missing), marked(got.marks.missing));
}

/* Texts of letter `q`; all others are cleared. */
static bool texts_by_hand(struct random *r, struct history *h)
{
    static const struct {
        const char *text, *reached, *missing;
    } rows[] = {
        {"()", "q", ""}, {"(q;)", "q", ""}, {"(a;)", "qa", "a"}, {"(z)", "qz", "z"},
        {"(aqa)", "qa", "a"}, {"(abcdefghijklmnopqrstuvwxyz)", "abcdefghijklmnopqrstuvwxyz",
                               "abcdefghijklmnoprstuvwxyz"},
        /* calls that no run comes to */
        {"(;a)", "qa", "a"}, {"(:a)", "qa", "a"}, {"(b:c;d)", "qbcd", "bcd"},
        {"((((((((((k)l)m)n)o)p)r)s)t)u)", "qklmnoprstu", "klmnoprstu"},
        /* what is no call */
        {"(''abc')", "q", ""}, {"(''ab'c''de'f)", "qcf", "cf"}, {"('''z)", "qz", "z"},
        {"\"a(b)c\"(\"d\"e\"f\")\"g\"", "qe", "e"}, {"('/-97''/97''/-122''/122')", "q", ""},
        {"('/-97'b'/-99')", "qb", "b"}, {"('/-167''/-175''/-36'a)", "qa", "a"},
        {"($97$$122$)", "q", ""}, {"($97$b$99$)", "qb", "b"},
        {"(F1aS0bN'/-120'c$5$d''x'eXfJg)", "qabcdefg", "abcdefg"},
        /* a refused text leaves the one before */
        {"(w", "qabcdefg", "abcdefg"}, {"(w)w", "qabcdefg", "abcdefg"}};
    bool good = true;
    for (size_t i = 0; i < sizeof rows / sizeof rows[0] && good; i++)
        good = define_words(r, h, 'q', i % 2, rows[i].text)
               && expect_marks(r, &h->scene, 'q', rows[i].reached, rows[i].missing);
    return good;
}

/* Letters first to last, each calling the next, and the last the given byte; every third is
 * a steward letter. */
static bool make_chain(struct random *r, struct history *h, const char *order, char last)
{
    char words[] = "( ;)";
    bool good = begin(r, h);
    for (size_t i = 0; i < REC_LETTERS && good; i++) {
        words[1] = i + 1 < REC_LETTERS ? order[i + 1] : last;
        good = define_words(r, h, (uint8_t)order[i], i % 3 == 1, words);
    }
    return good;
}

/* Chains of 26: with an end, with a last letter that calls itself, as a circle, and with
 * a link that is missing. */
static bool chains(struct random *r, struct history *h)
{
    static const char *const orders[] = {
        "abcdefghijklmnopqrstuvwxyz", "zyxwvutsrqponmlkjihgfedcba", "azbycxdwevfugthsirjqkplomn",
        "mnlokpjqirhsgtfuevdwcxbyaz"};
    bool good = true;
    for (size_t i = 0; i < 4 && good; i++) {
        const char *order = orders[i];
        const uint8_t first = (uint8_t)order[0], last = (uint8_t)order[25];
        good = make_chain(r, h, order, ' ');
        for (size_t j = 0; j < REC_LETTERS && good; j++)
            good = expect_marks(r, &h->scene, (uint8_t)order[j], order + j, "");
        good = good && make_chain(r, h, order, order[25])
               && expect_marks(r, &h->scene, first, order, "")
               && expect_marks(r, &h->scene, last, order + 25, "")
               && make_chain(r, h, order, order[0]);
        for (size_t j = 0; j < REC_LETTERS && good; j++)
            good = expect_marks(r, &h->scene, (uint8_t)order[j], order, "");
        good = good && run(r, h, first, REC_STEWARD, 1000) && withdraw(r, h, last)
               && expect_marks(r, &h->scene, first, order, order + 25)
               && expect_number(r, &h->scene, last, REC_NOT_STANDING)
               && run(r, h, first, REC_STEWARD, 1000) && withdraw(r, h, (uint8_t)order[1]);
        if (good) {
            char reached[] = {order[0], order[1], 0}, missing[] = {order[1], 0};
            good = expect_marks(r, &h->scene, first, reached, missing)
                   && run(r, h, first, REC_CASHIER, 9)
                   && expect_number(r, &h->scene, (uint8_t)order[1], REC_NOT_STANDING);
        }
    }
    return good;
}

/* Runs and withdrawals: a cleared letter leads no further, a replaced one as it stands. */
static bool lists_by_hand(struct random *r, struct history *h)
{
    const struct scene *s = &h->scene;
    return begin(r, h) && define_words(r, h, 'd', 0, "(e;f)") && define_words(r, h, 'm', 0, "(Id;)")
           && define_words(r, h, 'e', 0, "(m;g)") && expect_marks(r, s, 'm', "mdefg", "fg")
           && expect_marks(r, s, 'e', "mdefg", "fg") && withdraw(r, h, 'd')
           && expect_marks(r, s, 'm', "md", "d") && expect_marks(r, s, 'e', "emdg", "dg")
           && expect_number(r, s, 'd', REC_NOT_STANDING) && run(r, h, 'e', 0, 100)
           && define_words(r, h, 'd', 0, "(d;)") && expect_marks(r, s, 'm', "md", "")
           /* missing, though no run comes to it */
           && define_words(r, h, 'm', 0, "(;w)") && expect_marks(r, s, 'm', "mw", "w")
           && run(r, h, 'm', 0, 9) && define_words(r, h, 'm', 0, "(w;)") && run(r, h, 'm', 0, 9)
           && define_words(r, h, 'w', 0, "()") && run(r, h, 'm', 0, 9);
}

/* Marks are nothing to a reach: `t` is a steward letter, and `s` is one, then open, then
 * cleared. Runs by both roles, and by neither. */
static bool stewards_by_hand(struct random *r, struct history *h)
{
    const struct scene *s = &h->scene;
    bool good = begin(r, h) && define_words(r, h, 'a', 0, "(s;)")
                && define_words(r, h, 't', 1, "(u;m)") && define_words(r, h, 'u', 0, "(;a)");
    for (int open = 0; open < 2 && good; open++)
        good = define_words(r, h, 's', !open, "(t;)") && expect_marks(r, s, 'a', "astum", "m")
               && expect_marks(r, s, 's', "astum", "m") && run(r, h, 'a', 0, 99)
               && run(r, h, 's', 0, 99) && run(r, h, 'u', 0, 9) && run(r, h, 'a', 1, 99)
               && run(r, h, 's', 1, 99) && run(r, h, 's', 2, 99) && run(r, h, 'm', 255, 99);
    return good && withdraw(r, h, 's') && expect_marks(r, s, 'a', "as", "s")
           && run(r, h, 'a', 0, 9) && define_words(r, h, 's', 2, "(;)")
           && expect_marks(r, s, 'a', "as", "s");
}

static bool lists_of_calls(struct random *r)
{
    static struct history h;
    return begin(r, &h) && compare_all(r, &h.scene) && texts_by_hand(r, &h) && chains(r, &h)
           && lists_by_hand(r, &h) && stewards_by_hand(r, &h);
}

static struct scene made; /* of the directed cases on changed stores */

static void define_made(uint8_t letter, const char *words)
{
    rec_store_define(&made.store, letter, REC_OPEN, (const uint8_t *)words, strlen(words));
}

static void fresh_made(void)
{
    memset(&made, 0, sizeof made);
    made.origin = CHANGED;
}

/* On a store in which `a` stands: 13 before 1, 10 and 29; else these in their order. The
 * table of another letter that stands has a last cell that is 0. */
static bool every_reach(const struct rec_store *store, bool bad)
{
    struct random r;
    bool damaged;
    random_seed(&r, 1);
    fresh_made();
    made.store = *store;
    look(&made);
    damaged = made.standing != bit(0);
    return expect_number(&r, &made, 0, bad ? REC_BAD_STORE : REC_NO_SUCH_LETTER)
           && expect_number(&r, &made, '{', bad ? REC_BAD_STORE : REC_NO_SUCH_LETTER)
           && expect_number(&r, &made, 'a', bad ? REC_BAD_STORE : damaged ? REC_DAMAGED : 0)
           && (store->used[25] != 0
               || expect_number(&r, &made, 'z', bad ? REC_BAD_STORE : REC_NOT_STANDING));
}

/* A table under a letter that `h` calls and `g` does not. */
static bool try_table(struct random *r, size_t letter, const int32_t *cells, size_t count,
                      size_t used, uint32_t number)
{
    static const uint8_t others[] = {'`', '{', 'A'};
    char words[] = "(y; )";
    bool good = true;
    fresh_made();
    words[3] = (char)alphabet[letter];
    define_made('h', words);
    define_made('g', "(g;x)");
    memcpy(table_of(&made.store, letter), cells, count * sizeof cells[0]);
    made.store.used[letter] = used;
    made.altered = true;
    for (int bad = 0; bad < 2 && good; bad++) {
        made.store.variables[0] = bad ? REC_VALUE + 1 : 0;
        look(&made);
        good = expect_number(r, &made, 'g', bad ? REC_BAD_STORE : number)
               && expect_number(r, &made, 'h', bad ? REC_BAD_STORE : number)
               && expect_number(r, &made, alphabet[letter], bad ? REC_BAD_STORE : number)
               && expect_number(r, &made, 'e', bad ? REC_BAD_STORE : REC_NOT_STANDING);
        for (size_t i = 0; i < sizeof others && good; i++)
            good = expect_number(r, &made, others[i], bad ? REC_BAD_STORE : REC_NO_SUCH_LETTER);
    }
    return good;
}

/* Tables in which a reader comes to other cells than a run does. */
static const struct hand_table readings[] = {
    {REC_NO_CODE, 3, 5, {2000, 5, -66, 0, 1}},
    {REC_NO_CODE, 3, 5, {2000, 2, -66, 0, 1}},
    {REC_FALSE_OUTSIDE, 3, 6, {2000, 6, -78, 9, 0, 1}},
    {REC_LAST_NOT_1, 4, 4, {2000, 2, 0, 2}},
    {REC_LAST_NOT_1, 3, 3, {2000, 0, 0}},
    {REC_LAST_NOT_1, 3, 3, {2000, 0, -97}},
    {REC_NO_CODE, 4, 6, {2000, -70, 3, -66, 0, 1}},
    {REC_NO_CODE, 6, 8, {2000, -36, -1, 0, 8, -66, 0, 1}},
    {REC_NO_CODE, 6, 8, {2000, -167, 2, 97, 98, -66, 0, 1}},
    /* transfers and falses into a mark lead a run alone to a damaged cell */
    {REC_SOUND, 0, 7, {2000, 4, -175, -123, 7, 0, 1}},
    {REC_SOUND, 0, 8, {2000, -36, -2, 0, 3, 3, 0, 1}},
    {REC_SOUND, 0, 5, {2000, -78, 3, 0, 1}}};

static bool tables_by_hand(struct random *r)
{
    static const size_t letters[] = {0, 2, 25};
    bool good = true;
    for (size_t i = 0; i < 3 && good; i++) {
        for (size_t j = 0; j < hand_table_count && good; j++)
            good = try_table(r, letters[i], hand_tables[j].cells, 10, hand_tables[j].used,
                             hand_tables[j].clause == REC_SOUND ? 0 : REC_DAMAGED);
        for (size_t j = 0; j < sizeof readings / sizeof readings[0] && good; j++)
            good = try_table(r, letters[i], readings[j].cells, 10, readings[j].used,
                             readings[j].clause == REC_SOUND ? 0 : REC_DAMAGED);
    }
    return good;
}

/* Every cell of a table with every kind of mark, and the cells around it, in turn with
 * values on either side of each limit. */
static bool every_cell(struct random *r)
{
    static const int32_t values[] = {
        INT32_MIN, -1000000000, -999999999, -65633, -10000, -9999, -353, -176, -175, -174, -168,
        -167, -166, -123, -122, -113, -98, -97, -96, -88, -83, -78, -75, -74, -70, -66, -65, -49,
        -48, -47, -37, -36, -35, -10, -2, -1, 0, 1, 2, 3, 9, 10, 11, 15, 16, 31, 32, 38, 39, 40,
        97, 126, 127, 250, 251, 256, 2000, 65536, 999999999, 1000000000, INT32_MAX};
    static const uint8_t letters[] = {'q', 'b', 'c'};
    int32_t *table = table_of(&made.store, 'q' - 'a');
    bool good = true;
    fresh_made();
    define_made('q', "(F1aS0(bN;)'/-97'0c:$97$d''xy'ePJ;+'''f)");
    define_made('c', "(q;)");
    define_made('b', "(b;)");
    made.altered = true;
    for (size_t cell = 1; cell <= made.store.used['q' - 'a'] + 2 && good; cell++) {
        int32_t held = table[cell - 1];
        for (size_t i = 0; i < sizeof values / sizeof values[0] && good; i++) {
            table[cell - 1] = values[i];
            look(&made);
            good = compare_bytes(r, &made, letters, sizeof letters);
        }
        table[cell - 1] = held;
    }
    return good;
}

/* A table of each used count, which ends with a call; then with each of its last cells
 * spoiled. */
static bool every_count(struct random *r)
{
    int32_t *table = table_of(&made.store, 25);
    bool good = true;
    for (size_t used = 3; used <= REC_CELLS && good; used++) {
        bool calls = used >= 5;
        fresh_made();
        made.altered = true;
        for (size_t i = 0; i < REC_CELLS; i++)
            table[i] = -'A';
        if (calls) {
            table[used - 4] = -'a';
            table[used - 3] = (int32_t)used;
        }
        table[used - 2] = 0;
        table[used - 1] = 1;
        made.store.used[25] = used;
        look(&made);
        good = expect_marks(r, &made, 'z', calls ? "az" : "z", calls ? "a" : "");
        for (size_t back = 1; back <= 4 && back < used && good; back++) {
            int32_t held = table[used - back];
            table[used - back] = back == 4 ? -'B' : 251;
            look(&made);
            good = expect_number(r, &made, 'z', REC_DAMAGED);
            table[used - back] = held;
        }
    }
    return good;
}

/* Every byte as the letter: where all is well, where a table is damaged, where 13 fits. */
static bool every_byte(struct random *r)
{
    bool good = true;
    fresh_made();
    define_made('a', "(z;)");
    define_made('k', "(k;b)");
    define_made('z', "(y;)");
    for (int fault = 0; fault < 3 && good; fault++) {
        if (fault == 1)
            table_of(&made.store, 'k' - 'a')[1] = -'B';
        if (fault == 2)
            made.store.used[1] = 2;
        look(&made);
        for (int byte = 0; byte < 256 && good; byte++) {
            uint32_t it = letter_bit(byte);
            uint32_t number = fault == 2             ? REC_BAD_STORE
                              : it == 0              ? REC_NO_SUCH_LETTER
                              : !(made.standing & it) ? REC_NOT_STANDING
                              : fault == 1           ? REC_DAMAGED
                                                     : 0;
            good = expect_number(r, &made, (uint8_t)byte, number);
        }
    }
    return good;
}

/* What is not read: cell 1, the cells past the used ones, those of cleared letters. `a` to
 * `m` are a chain, `n` stands apart, and `m` calls `o`, which is cleared. Then one cell
 * that is read. */
static bool unread_cells(struct random *r)
{
    char words[] = "( ;)";
    bool good = true;
    for (size_t letter = 0; letter < REC_LETTERS && good; letter++) {
        int32_t *table = table_of(&made.store, letter);
        fresh_made();
        define_made('n', "()");
        for (size_t i = 0; i <= 'm' - 'a'; i++) {
            words[1] = (char)(i < 'm' - 'a' ? 'b' + (char)i : 'o');
            define_made(alphabet[i], words);
        }
        table[0] = -'x';
        for (size_t i = made.store.used[letter]; i < REC_CELLS; i++)
            table[i] = i % 3 == 0 ? -'y' : i % 3 == 1 ? 5 : -'B';
        look(&made);
        good = expect_marks(r, &made, 'a', "abcdefghijklmo", "o")
               && expect_marks(r, &made, 'm', "mo", "o") && expect_marks(r, &made, 'n', "n", "")
               && expect_number(r, &made, 'z', REC_NOT_STANDING);
        if (letter <= 'n' - 'a' && good) {
            table[made.store.used[letter] - 1] = 2;
            look(&made);
            good = expect_number(r, &made, 'a', REC_DAMAGED)
                   && expect_number(r, &made, 'n', REC_DAMAGED)
                   && expect_number(r, &made, 'o', REC_NOT_STANDING);
        }
    }
    return good;
}

/* 26 tables of 250 cells, each calling the next with its last mark; then a false of that
 * mark and a last cell that are damaged. */
static bool full_tables(struct random *r)
{
    int32_t *last = made.store.cells + REC_LETTERS * REC_CELLS - 1;
    struct text text;
    fresh_made();
    for (size_t i = 0; i < REC_LETTERS; i++) {
        text_clear(&text);
        text_add(&text, "(X");
        text_fill(&text, "N", 122);
        text_byte(&text, alphabet[(i + 1) % REC_LETTERS]);
        text_add(&text, ")");
        rec_store_define(&made.store, alphabet[i], REC_STEWARD_LETTER, text.bytes, text.length);
    }
    look(&made);
    if (!compare_all(r, &made)
        || !expect_marks(r, &made, 'a', (const char *)alphabet, ""))
        return false;
    last[-2] = 251;
    look(&made);
    if (!compare_all(r, &made) || !expect_number(r, &made, 'm', REC_DAMAGED))
        return false;
    last[-2] = 250;
    last[0] = 2;
    look(&made);
    return compare_all(r, &made) && expect_number(r, &made, 'm', REC_DAMAGED);
}

static bool directed(void)
{
    struct random r;
    random_seed(&r, 1);
    return lists_of_calls(&r) && try_bad_stores(every_reach) && tables_by_hand(&r)
           && every_cell(&r) && every_count(&r) && every_byte(&r) && unread_cells(&r)
           && full_tables(&r);
}

/* ---- random texts full of calls ------------------------------------------ */

static uint8_t any_letter(struct random *r)
{
    return alphabet[below(r, REC_LETTERS)];
}

/* At times something that only looks like a call. */
static void add_decoy(struct random *r, struct text *text)
{
    uint32_t pick = below(r, 12);
    if (pick >= 4 || text->length > 170)
        return;
    text_add(text, pick == 0 ? "''" : pick == 1 ? "\"" : pick == 2 ? "'/-" : "$");
    if (pick < 2)
        for (int i = between(r, 0, 4); i > 0; i--)
            text_byte(text, any_letter(r));
    else
        text_number(text, any_letter(r));
    text_add(text, pick == 1 ? "\"" : pick == 3 ? "$" : "'");
}

/* A text that calls just these letters. */
static void text_calls(struct random *r, const uint8_t *letters, size_t count, struct text *text)
{
    static const char *const around[][2] = {{"(", ";)"}, {"(", ")"}, {"(;", ")"}, {"", ";"},
                                            {"", ":"},   {"X", ""},  {"", ""},    {"", ""}};
    text_clear(text);
    text_add(text, "(");
    for (size_t i = 0; i < count; i++) {
        size_t way = text->length > 200 ? 7 : below(r, 8);
        add_decoy(r, text);
        text_add(text, around[way][0]);
        text_byte(text, letters[i]);
        text_add(text, around[way][1]);
    }
    add_decoy(r, text);
    text_add(text, chance(r, 50) ? ";)" : ")");
}

/* Some of the first letters of an order. */
static void text_of_net(struct random *r, const uint8_t *order, size_t count, struct text *text)
{
    uint8_t letters[8];
    size_t calls = chance(r, 85) ? below(r, 3) : below(r, 8);
    for (size_t i = 0; i < calls; i++)
        letters[i] = order[below(r, (uint32_t)count)];
    text_calls(r, letters, calls, text);
}

static void shuffle(struct random *r, uint8_t *order)
{
    for (size_t i = REC_LETTERS - 1; i > 0; i--) {
        size_t j = below(r, (uint32_t)i + 1);
        uint8_t held = order[i];
        order[i] = order[j];
        order[j] = held;
    }
}

/* ---- rounds on stores that calls make ------------------------------------ */

/* Letters in an order: of a chain, in which each calls the next, or of a net. */
struct plan {
    enum { CHAIN, NET, LIVELY } shape;
    uint8_t order[REC_LETTERS];
    size_t count;
    uint8_t last;   /* what the last of a chain calls */
    uint32_t marks; /* percent of steward letters */
};

static void choose_plan(struct random *r, struct plan *plan)
{
    uint32_t pick = below(r, 100);
    plan->shape = pick < 35 ? CHAIN : pick < 75 ? NET : LIVELY;
    plan->marks = chance(r, 40) ? 0 : (uint32_t)between(r, 5, 60);
    memcpy(plan->order, alphabet, REC_LETTERS);
    if (plan->shape == LIVELY) {
        plan->count = FEW;
        return;
    }
    shuffle(r, plan->order);
    plan->count = chance(r, 30) ? REC_LETTERS : (size_t)between(r, 1, REC_LETTERS);
    plan->last = chance(r, 30)   ? plan->order[0]
                 : chance(r, 30) ? plan->order[below(r, (uint32_t)plan->count)]
                                 : any_letter(r);
}

static void choose_text(struct random *r, const struct plan *plan, size_t place, struct text *text)
{
    if (plan->shape == LIVELY) {
        text_lively(r, text);
    } else if (plan->shape == NET) {
        text_of_net(r, plan->order, plan->count, text);
    } else {
        const uint8_t *next = place + 1 < plan->count ? &plan->order[place + 1] : &plan->last;
        text_calls(r, next, next == &plan->last && chance(r, 30) ? 0 : 1, text);
    }
}

/* Texts of all the plan's letters, in any order. */
static bool define_all(struct random *r, struct history *h, const struct plan *plan)
{
    static struct text text;
    uint8_t places[REC_LETTERS];
    bool good = true;
    for (size_t i = 0; i < REC_LETTERS; i++)
        places[i] = (uint8_t)i;
    shuffle(r, places);
    for (size_t i = 0; i < REC_LETTERS && good; i++)
        if (places[i] < plan->count && !chance(r, 3)) {
            choose_text(r, plan, places[i], &text);
            good = define(r, h, plan->order[places[i]], chance(r, plan->marks), &text);
        }
    return good;
}

static bool any_call(struct random *r, struct history *h, const struct plan *plan)
{
    static struct text text;
    uint32_t pick = below(r, 100);
    size_t place = below(r, (uint32_t)plan->count);
    uint8_t letter = chance(r, 94) ? plan->order[place] : (uint8_t)below(r, 256);
    if (pick < 50)
        return run(r, h, letter, some_mark(r, 40), below(r, chance(r, 80) ? 500 : 3000));
    if (pick < 75)
        return withdraw(r, h, letter);
    choose_text(r, plan, place, &text);
    return define(r, h, letter, some_mark(r, plan->marks), &text);
}

static bool round_of_calls(struct random *r)
{
    static struct history h;
    struct plan plan;
    bool good;
    choose_plan(r, &plan);
    good = begin(r, &h) && define_all(r, &h, &plan);
    for (int i = between(r, 2, 15); i > 0 && good; i--)
        good = any_call(r, &h, &plan);
    return good && compare_all(r, &h.scene);
}

/* ---- rounds on changed stores -------------------------------------------- */

/* Nets of calls; of some of the letters, for others to be missing. */
static void make_net(struct random *r, struct rec_store *store)
{
    static struct text text;
    uint32_t percent = (uint32_t)between(r, 20, 100);
    rec_store_fresh(store);
    for (size_t i = 0; i < REC_LETTERS; i++)
        if (chance(r, percent)) {
            text_of_net(r, alphabet, REC_LETTERS, &text);
            rec_store_define(store, alphabet[i], chance(r, 30), text.bytes, text.length);
        }
}

/* 26 tables of 250 cells. */
static void make_full(struct random *r, struct rec_store *store)
{
    static struct text text;
    rec_store_fresh(store);
    for (size_t i = 0; i < REC_LETTERS; i++) {
        text_clear(&text);
        text_add(&text, "(");
        if (chance(r, 50)) {
            text_cells(r, &text, REC_CELLS - 3);
        } else {
            text_add(&text, "X");
            for (int marks = 123; marks > 0; marks--)
                text_byte(&text, chance(r, 2) ? any_letter(r) : 'N');
        }
        text_add(&text, ")");
        rec_store_define(store, alphabet[i], chance(r, 30), text.bytes, text.length);
    }
}

/* Cells that no reach reads. */
static void change_unread(struct random *r, struct rec_store *store)
{
    for (size_t i = 0; i < REC_LETTERS; i++) {
        int32_t *table = table_of(store, i);
        size_t used = store->used[i] <= REC_CELLS ? store->used[i] : REC_CELLS;
        if (chance(r, 50))
            continue;
        table[0] = -any_letter(r);
        if (used == 0 && chance(r, 50))
            memcpy(table, table_of(store, below(r, REC_LETTERS)), REC_CELLS * sizeof *table);
        else
            for (size_t cell = used; cell < REC_CELLS; cell++)
                table[cell] = chance(r, 20) ? -any_letter(r) : between(r, -180, 250);
    }
}

/* A table that stands has other cells to read than before. */
static bool is_altered(const struct rec_store *store, const struct rec_store *before)
{
    for (size_t i = 0; i < REC_LETTERS; i++) {
        size_t used = store->used[i], first = i * REC_CELLS + 1;
        if (used >= 3 && used <= REC_CELLS
            && (used != before->used[i]
                || memcmp(store->cells + first, before->cells + first,
                          (used - 1) * sizeof store->cells[0]) != 0))
            return true;
    }
    return false;
}

static bool round_of_changes(struct random *r)
{
    static struct scene s;
    static struct rec_store before;
    uint32_t pick = below(r, 100);
    size_t letters = pick < 30 ? FEW : REC_LETTERS;
    bool good = true;
    memset(&s, 0, sizeof s);
    s.origin = CHANGED;
    if (pick < 45)
        make_store(r, &s.store, letters);
    else if (pick < 90)
        make_net(r, &s.store);
    else
        make_full(r, &s.store);
    before = s.store;
    if (pick < 30)
        damage_store(r, &s.store, letters);
    for (int i = between(r, 1, 5); i > 0 && good; i--) {
        if (chance(r, 60))
            change_unread(r, &s.store);
        s.altered = is_altered(&s.store, &before);
        look(&s);
        good = compare_some(r, &s, 8);
        damage_once(r, &s.store, letters);
    }
    return good;
}

static bool round_of(uint64_t seed)
{
    struct random r;
    random_seed(&r, seed);
    return chance(&r, 40) ? round_of_calls(&r) : round_of_changes(&r);
}

int main(int count, char **words)
{
    static const struct work work_of_reaches = {ROUNDS, directed, round_of, counts};
    return work(&work_of_reaches, count, words);
}
