/* One call, and the engine's functions through include/rec.h.
 *
 * That header and the reference's give the same names to limits and numbers, so no
 * file includes both: engine.c has the engine's, every other file the reference's. */
#ifndef ENGINE_H
#define ENGINE_H

#include <stdbool.h>
#include <stddef.h>
#include <stdint.h>

#include "texts.h"

enum {
    LIST_ROOM = 160,
    OUTPUT_ROOM = 5300,
    INPUT_ROOM = 100,
    FIGURES = 5 /* truth, steps, height, taken, written */
};

enum call_kind { DEFINE, WITHDRAW, RUN, CALL_KINDS };

struct call {
    enum call_kind kind;
    uint8_t letter;
    uint8_t mark;     /* of a define */
    struct text text; /* of a define; what follows is of a run */
    uint8_t role;
    uint32_t allowance;
    int32_t input[INPUT_ROOM];
    size_t input_length;
    size_t list_length;
    size_t output_length;
};

/* What a call gives beside the store. */
struct side {
    uint32_t number;
    uint32_t clause; /* of the reference's number 29 */
    size_t figures[FIGURES];
    int32_t list[LIST_ROOM];
    uint8_t output[OUTPUT_ROOM];
};

/* A store's contents, variable 1 first and variable 0 last, as the reference has
 * them. They go to a store of the engine, and come back after the call. False: the
 * call wrote beside the store or the report, or left a mark that no byte stands for.
 *
 * The engine's marks are words. A byte below MARK_WIDE stands for itself, and each from
 * there on for a word that most often is 0 or 1 in its low byte or its low half. */
enum { MARK_WIDE = 240 };

bool engine_fresh(int32_t *cells, size_t *used, uint8_t *marks, int32_t *variables);
bool engine_call(int32_t *cells, size_t *used, uint8_t *marks, int32_t *variables,
                 const struct call *call, struct side *side);

/* The same contents; 26 places each. False: the call wrote in the store or beside it. */
bool engine_reach(const int32_t *cells, const size_t *used, const uint8_t *marks,
                  const int32_t *variables, uint8_t letter, uint8_t *reached, uint8_t *missing,
                  uint32_t *number);

int32_t engine_check(const uint8_t *text, size_t length);
int32_t engine_link(const uint8_t *text, size_t length, int32_t *cells, size_t room, size_t *used);
int32_t engine_fair_copy(const uint8_t *text, size_t length, uint8_t *paper, size_t room,
                         size_t *written);

/* What a pool pays, in cents. */
struct payout {
    uint64_t takeout, net, dividend, payments, breakage;
};

/* By the header's function and by the archive's own. False: they differ, or one wrote
 * beside what it was lent. */
bool engine_dividend(uint32_t pool, uint32_t rate, uint32_t stakes, struct payout *payout,
                     uint32_t *number);

#endif
