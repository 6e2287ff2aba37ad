#include "calls.h"

#include <stdio.h>
#include <string.h>

#include "work.h"

/* ---- the reference ------------------------------------------------------ */

static void keep_answer(struct side *side, struct rec_answer a)
{
    side->number = a.number;
    side->clause = a.clause;
    side->figures[0] = a.truth;
    side->figures[1] = a.steps;
    side->figures[2] = a.height;
    side->figures[3] = a.taken;
    side->figures[4] = a.written;
}

static struct rec_answer run_store(struct rec_store *store, uint8_t letter, uint8_t role,
                                   uint32_t allowance, const struct rec_loan *loan)
{
    return rec_store_run(store->cells, store->used, store->marks, store->variables, letter, role,
                         allowance, loan);
}

/* A book and a store are called alike. */
#define REFERENCE(name, type, define, withdraw, run)                                         \
    void name(type *it, const struct call *call, struct side *side)                          \
    {                                                                                        \
        struct rec_loan loan = {call->input, call->input_length, side->list,                 \
                                call->list_length, side->output, call->output_length};       \
        if (call->kind == DEFINE)                                                            \
            side->number = define(it, call->letter, call->mark, call->text.bytes,            \
                                  call->text.length);                                        \
        else if (call->kind == WITHDRAW)                                                     \
            side->number = withdraw(it, call->letter);                                       \
        else                                                                                 \
            keep_answer(side, run(it, call->letter, call->role, call->allowance, &loan));    \
    }

REFERENCE(call_store, struct rec_store, rec_store_define, rec_store_withdraw, run_store)
REFERENCE(call_book, struct rec_book, rec_book_define, rec_book_withdraw, rec_book_run)

/* ---- the engine --------------------------------------------------------- */

void soil(struct random *r, struct side *side)
{
    memset(side, 0, sizeof *side);
    for (size_t i = 0; i < FIGURES; i++)
        side->figures[i] = random_bits(r);
    for (size_t i = 0; i < LIST_ROOM; i++)
        side->list[i] = (int32_t)random_bits(r);
    for (size_t i = 0; i < OUTPUT_ROOM; i++)
        side->output[i] = (uint8_t)random_bits(r);
}

/* Store, list and output as they were, and a run's figures 0. */
static bool left_alone(const struct rec_store *store, const struct rec_store *store_before,
                       const struct call *call, const struct side *side, struct side *expected)
{
    bool good;
    expected->number = side->number;
    if (call->kind == RUN)
        memset(expected->figures, 0, sizeof expected->figures);
    good = same_sides(expected, side);
    good &= same_stores(store_before, store);
    if (!good)
        puts("  left by a refused call");
    return good;
}

bool is_refusal(uint32_t number)
{
    return (REC_NO_SUCH_LETTER <= number && number <= REC_BAD_LINE)
           || number == REC_NOT_FOR_CASHIERS || number == REC_BAD_MARK;
}

bool call_engine(struct rec_store *store, const struct call *call, struct side *side)
{
    static struct rec_store store_before;
    static struct side side_before;
    bool good;
    store_before = *store;
    side_before = *side;
    good = engine_call(store->cells, store->used, store->marks, store->variables, call, side);
    if (is_refusal(side->number))
        good &= left_alone(store, &store_before, call, side, &side_before);
    if (call->kind == RUN) {
        good &= same_marks(store_before.marks, store->marks);
        good &= same_tables(&store_before, store);
    }
    return good;
}

bool fresh_engine(struct random *r, struct rec_store *store)
{
    static const struct rec_store zeros;
    bool good;
    for (size_t i = 0; i < REC_LETTERS * REC_CELLS; i++)
        store->cells[i] = (int32_t)random_bits(r);
    for (size_t i = 0; i < REC_LETTERS; i++)
        store->used[i] = (size_t)random_bits(r) << 32 | random_bits(r);
    for (size_t i = 0; i < REC_LETTERS; i++)
        store->marks[i] = (uint8_t)random_bits(r);
    for (size_t i = 0; i < REC_VARIABLES; i++)
        store->variables[i] = (int32_t)random_bits(r);
    good = engine_fresh(store->cells, store->used, store->marks, store->variables);
    good &= same_stores(&zeros, store);
    if (!good)
        puts("  in a fresh store");
    return good;
}

/* ---- comparing --------------------------------------------------------- */

bool same(const char *what, long long index, long long expected, long long got)
{
    if (expected != got)
        printf("  %s %lld: expected %lld, got %lld\n", what, index, expected, got);
    return expected == got;
}

bool same_sides(const struct side *expected, const struct side *got)
{
    bool good = same("number", 0, expected->number, got->number);
    for (size_t i = 0; i < FIGURES; i++)
        good &= same("figure", (long long)i, (long long)expected->figures[i],
                     (long long)got->figures[i]);
    for (size_t i = 0; i < LIST_ROOM && good; i++)
        good &= same("list place", (long long)i, expected->list[i], got->list[i]);
    for (size_t i = 0; i < OUTPUT_ROOM && good; i++)
        good &= same("output byte", (long long)i, expected->output[i], got->output[i]);
    return good;
}

bool same_variables(const int32_t *expected, const int32_t *got)
{
    bool good = true;
    for (size_t i = 0; i < REC_VARIABLES; i++)
        good &= same("variable", (long long)(i + 1) % REC_VARIABLES, expected[i], got[i]);
    return good;
}

bool same_marks(const uint8_t *expected, const uint8_t *got)
{
    bool good = true;
    for (size_t i = 0; i < REC_LETTERS; i++)
        good &= same("mark of letter", (long long)i + 1, expected[i], got[i]);
    return good;
}

bool same_tables(const struct rec_store *expected, const struct rec_store *got)
{
    bool good = true;
    if (memcmp(expected->used, got->used, sizeof got->used) == 0
        && memcmp(expected->cells, got->cells, sizeof got->cells) == 0)
        return true;
    for (size_t i = 0; i < REC_LETTERS; i++)
        good &= same("used cells of letter", (long long)i + 1, (long long)expected->used[i],
                     (long long)got->used[i]);
    for (size_t i = 0; i < REC_LETTERS * REC_CELLS && good; i++)
        good &= same("cell (250 for each letter)", (long long)i + 1, expected->cells[i],
                     got->cells[i]);
    return good;
}

bool same_stores(const struct rec_store *expected, const struct rec_store *got)
{
    bool good = same_variables(expected->variables, got->variables);
    good &= same_marks(expected->marks, got->marks);
    good &= same_tables(expected, got);
    return good;
}

void show_call(const struct call *call)
{
    static const char *const words[CALL_KINDS] = {"define", "withdraw", "run"};
    printf("  %s, letter %u", words[call->kind], (unsigned)call->letter);
    if (call->kind == RUN)
        printf(", role %u, allowance %lu, %zu inputs, list %zu, output %zu", (unsigned)call->role,
               (unsigned long)call->allowance, call->input_length, call->list_length,
               call->output_length);
    if (call->kind == DEFINE) {
        printf(", mark %u, text of %zu bytes: ", (unsigned)call->mark, call->text.length);
        for (size_t i = 0; i < call->text.length && i < 400; i++) {
            uint8_t byte = call->text.bytes[i];
            printf(byte < 32 || byte > 126 || byte == '\\' ? "\\x%02x" : "%c", byte);
        }
    }
    putchar('\n');
}

bool fresh_three(struct random *r, struct three *t)
{
    rec_book_fresh(&t->book);
    memset(&t->store, 0, sizeof t->store);
    return fresh_engine(r, &t->engine);
}

bool call_three(struct random *r, struct three *t, const struct call *call)
{
    static struct side by_book, by_store;
    bool good;
    soil(r, &by_book);
    by_store = t->got = by_book;
    call_book(&t->book, call, &by_book);
    call_store(&t->store, call, &by_store);
    good = call_engine(&t->engine, call, &t->got);
    good &= same_sides(&by_book, &t->got);
    good &= same_sides(&by_store, &t->got);
    good &= same_variables(t->book.variables, t->engine.variables);
    good &= same_marks(t->book.marks, t->engine.marks);
    good &= same_stores(&t->store, &t->engine);
    if (!good)
        show_call(call);
    return good;
}

bool define_three(struct random *r, struct three *t, uint8_t letter, const char *words)
{
    static struct call call;
    call.kind = DEFINE;
    call.letter = letter;
    call.mark = REC_OPEN;
    text_clear(&call.text);
    text_add(&call.text, words);
    return call_three(r, t, &call) && same("number of a define", 0, 0, t->got.number);
}

void make_run(struct call *call, uint8_t letter, uint32_t allowance, size_t room)
{
    call->kind = RUN;
    call->letter = letter;
    call->role = REC_CASHIER;
    call->allowance = allowance;
    call->list_length = REC_LIST;
    call->output_length = room;
}

void choose_loan(struct random *r, struct call *call)
{
    static const size_t lists[] = {0, 63, 65, 1, 100};
    static const size_t outputs[] = {13, 14, 15, 27, 28, 29, 42, 100, 4095, 4096, 5200};
    static const int32_t odd[] = {1000000000, -1000000000, INT32_MIN, INT32_MAX};
    call->input_length = below(r, chance(r, 85) ? 8 : INPUT_ROOM);
    for (size_t i = 0; i < call->input_length; i++)
        call->input[i] = random_value(r);
    if (call->input_length > 0 && chance(r, 3))
        call->input[below(r, (uint32_t)call->input_length)] = odd[below(r, 4)];
    call->list_length = chance(r, 96) ? REC_LIST : lists[below(r, 5)];
    call->output_length = chance(r, 40)   ? 4096
                          : chance(r, 50) ? below(r, 30)
                                          : outputs[below(r, 11)];
}

uint8_t some_mark(struct random *r, uint32_t percent)
{
    static const uint8_t odd[] = {2, 3, 127, 128, 129, 254, 255};
    if (chance(r, 3))
        return chance(r, 70) ? odd[below(r, sizeof odd)] : (uint8_t)between(r, 2, 255);
    return chance(r, percent);
}

uint32_t suit_allowance(struct random *r, const struct side *ended, uint32_t trial)
{
    uint32_t steps = (uint32_t)ended->figures[1];
    switch (below(r, 9)) {
    case 0:
        return steps;
    case 1:
        return steps > 0 ? steps - 1 : 0;
    case 2:
        return below(r, steps + 2);
    case 3:
        return ended->number == REC_SPENT ? trial : UINT32_MAX - below(r, 2);
    case 4:
        return ended->number == REC_SPENT ? 3 : (uint32_t)1 << 31;
    case 5:
        return below(r, 4);
    default:
        return below(r, 1000);
    }
}

/* ---- what was met ------------------------------------------------------ */

void count_call(struct tally *tally, const struct call *call, const struct side *expected)
{
    tally->calls++;
    tally->numbers[call->kind][expected->number]++;
    if (call->kind != RUN)
        return;
    tally->clauses[expected->clause]++;
    if (!is_refusal(expected->number)) {
        size_t taken = expected->figures[3];
        tally->taken[expected->number != 0][taken < TAKEN ? taken : TAKEN - 1]++;
    }
    if (expected->number == REC_FINISHED) {
        tally->exact_steps += expected->figures[1] == call->allowance;
        tally->exact_paper += expected->figures[4] > 0
                              && expected->figures[4] == call->output_length;
    }
}

static bool is_listed(const uint8_t *numbers, uint32_t number)
{
    for (; *numbers != MUST_END; numbers++)
        if (*numbers == number)
            return true;
    return false;
}

bool numbers_met(const struct tally *tally, const struct must *must, unsigned long long least)
{
    static const char *const words[CALL_KINDS] = {"define", "withdraw", "run"};
    bool good = true;
    for (size_t kind = 0; kind < CALL_KINDS; kind++)
        for (uint32_t i = 0; i < REC_NUMBERS; i++)
            good &= number_met(is_listed(must->numbers[kind], i), i, tally->numbers[kind][i],
                               least, words[kind]);
    return good;
}

bool runs_met(const struct tally *tally, unsigned long long least)
{
    static const char *const words[TAKEN] = {"0", "1", "2", "3 or more"};
    bool good = true;
    for (size_t i = 0; i < 2; i++)
        for (size_t j = 0; j < TAKEN; j++)
            good &= met(tally->taken[i][j], least, "run %s, inputs taken: %s",
                        i ? "stopped" : "finished", words[j]);
    good &= met(tally->exact_steps, least, "run finished with its whole allowance");
    good &= met(tally->exact_paper, least, "run finished with its whole output");
    return good;
}
