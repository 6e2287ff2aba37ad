/* What the calls in plain C ask of a store. */
#ifndef PLAIN_STORE_H
#define PLAIN_STORE_H

#include "rec.h"

static int outside(int32_t value) { return value < -REC_VALUE_MAX || REC_VALUE_MAX < value; }

/* Whether the store keeps its form; else every call of it is refused. */
static int sound(const rec_store *store) {
    for (int i = 0; i < REC_LETTERS; i++)
        if (store->used[i] > REC_CELLS || store->used[i] == 1 || store->used[i] == 2 || store->marks[i] > REC_STEWARDS) return 0;
    for (int i = 0; i < REC_VARIABLES; i++)
        if (outside(store->vars[i])) return 0;
    return 1;
}

#endif
