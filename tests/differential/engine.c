#include "engine.h"

#include <stdio.h>
#include <string.h>

#include "../../include/rec.h"

/* ---- a store between places that must stay ------------------------------ */

enum { BESIDE = 64, STAYS = 0x5a };

static struct {
    uint8_t before[BESIDE];
    rec_store store;
    uint8_t between[BESIDE];
    rec_report report;
    uint8_t behind[BESIDE];
} lent;

static bool stayed(const uint8_t *places)
{
    for (size_t i = 0; i < BESIDE; i++)
        if (places[i] != STAYS)
            return false;
    return true;
}

static uint32_t word_of(uint8_t mark)
{
    static const uint32_t wide[UINT8_MAX + 1 - MARK_WIDE] = {
        254, 255, 256, 257, 512, 513, 1u << 15, 1u << 16, (1u << 16) + 1, 1u << 24, (1u << 24) + 1,
        1u << 31, (1u << 31) + 1, UINT32_MAX / 2, UINT32_MAX - 255, UINT32_MAX};
    return mark < MARK_WIDE ? mark : wide[mark - MARK_WIDE];
}

/* A mark that stayed keeps its byte. False: no byte stands for the word. */
static bool get_mark(uint32_t word, uint8_t *mark)
{
    if (word_of(*mark) == word)
        return true;
    *mark = (uint8_t)word;
    return word < MARK_WIDE;
}

/* the reference keeps variable 0 last, the engine first */
static void put(const int32_t *cells, const size_t *used, const uint8_t *marks,
                const int32_t *variables)
{
    memset(&lent, STAYS, sizeof lent);
    memcpy(lent.store.cells, cells, sizeof lent.store.cells);
    memcpy(lent.store.used, used, sizeof lent.store.used);
    for (size_t i = 0; i < REC_LETTERS; i++)
        lent.store.marks[i] = word_of(marks[i]);
    for (size_t i = 0; i < REC_VARIABLES; i++)
        lent.store.vars[(i + 1) % REC_VARIABLES] = variables[i];
}

static bool beside_stayed(void)
{
    if (stayed(lent.before) && stayed(lent.between) && stayed(lent.behind))
        return true;
    puts("  written beside the store or the report");
    return false;
}

static bool get(int32_t *cells, size_t *used, uint8_t *marks, int32_t *variables)
{
    bool good = true;
    memcpy(cells, lent.store.cells, sizeof lent.store.cells);
    memcpy(used, lent.store.used, sizeof lent.store.used);
    for (size_t i = 0; i < REC_LETTERS; i++)
        if (!get_mark(lent.store.marks[i], &marks[i])) {
            printf("  mark %zu is %lu\n", i, (unsigned long)lent.store.marks[i]);
            good = false;
        }
    for (size_t i = 0; i < REC_VARIABLES; i++)
        variables[i] = lent.store.vars[(i + 1) % REC_VARIABLES];
    return beside_stayed() && good;
}

/* ---- calls --------------------------------------------------------------- */

/* Where nothing is lent the pointer is null, which the header allows. */
#define LENT(pointer, length) ((length) == 0 ? NULL : (pointer))

static int32_t run(const struct call *call, struct side *side)
{
    rec_report *report = &lent.report;
    int32_t number =
        rec_run(&lent.store, call->letter, call->role, call->allowance,
                LENT(call->input, call->input_length), call->input_length,
                LENT(side->list, call->list_length), call->list_length,
                LENT(side->output, call->output_length), call->output_length, report);
    side->figures[0] = report->truth;
    side->figures[1] = report->steps;
    side->figures[2] = report->height;
    side->figures[3] = report->taken;
    side->figures[4] = report->written;
    return number;
}

bool engine_fresh(int32_t *cells, size_t *used, uint8_t *marks, int32_t *variables)
{
    put(cells, used, marks, variables);
    rec_fresh(&lent.store);
    return get(cells, used, marks, variables);
}

bool engine_call(int32_t *cells, size_t *used, uint8_t *marks, int32_t *variables,
                 const struct call *call, struct side *side)
{
    const struct text *text = &call->text;
    put(cells, used, marks, variables);
    side->number = (uint32_t)(
        call->kind == DEFINE ? rec_define(&lent.store, call->letter, call->mark,
                                          LENT(text->bytes, text->length), text->length)
        : call->kind == WITHDRAW ? rec_withdraw(&lent.store, call->letter)
                                 : run(call, side));
    return get(cells, used, marks, variables);
}

bool engine_reach(const int32_t *cells, const size_t *used, const uint8_t *marks,
                  const int32_t *variables, uint8_t letter, uint8_t *reached, uint8_t *missing,
                  uint32_t *number)
{
    static rec_store before;
    bool good = true;
    put(cells, used, marks, variables);
    before = lent.store;
    *number = (uint32_t)rec_reach(&lent.store, letter, reached, missing);
    if (memcmp(&before, &lent.store, sizeof before) != 0) {
        puts("  written in the store");
        good = false;
    }
    return beside_stayed() && good;
}

int32_t engine_check(const uint8_t *text, size_t length)
{
    return rec_check(text, length);
}

int32_t engine_link(const uint8_t *text, size_t length, int32_t *cells, size_t room, size_t *used)
{
    return rec_link(text, length, cells, room, used);
}

int32_t engine_fair_copy(const uint8_t *text, size_t length, uint8_t *paper, size_t room,
                         size_t *written)
{
    return rec_fair_copy(text, length, paper, room, written);
}

/* ---- a pool -------------------------------------------------------------- */

bool engine_dividend(uint32_t pool, uint32_t rate, uint32_t stakes, struct payout *payout,
                     uint32_t *number)
{
    static struct {
        uint8_t before[BESIDE];
        rec_dividend_report report;
        uint8_t between[BESIDE];
        uint64_t figures[5];
        uint8_t behind[BESIDE];
    } paid;
    const rec_dividend_report *report = &paid.report;
    uint32_t other;
    bool good = true;
    memset(&paid, STAYS, sizeof paid);
    *number = (uint32_t)rec_dividend(pool, rate, stakes, &paid.report);
    other = rec_dividend_figures(pool, rate, stakes, paid.figures);
    *payout = (struct payout){report->takeout, report->net, report->dividend, report->payments,
                              report->breakage};
    if (other != *number || memcmp(paid.figures, payout, sizeof paid.figures) != 0) {
        puts("  rec_dividend and rec_dividend_figures differ");
        good = false;
    }
    if (!stayed(paid.before) || !stayed(paid.between) || !stayed(paid.behind)) {
        puts("  written beside the report or the figures");
        good = false;
    }
    return good;
}
