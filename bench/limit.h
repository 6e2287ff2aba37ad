/* A threaded interpreter in C without checks: the limit beside which the rows of bench/run.c are shown. */
#ifndef LIMIT_H
#define LIMIT_H

#include "rec.h"

/* Makes threaded code of a store's tables, which keep their form. It is made before the runs and is not in their time. */
void limit_translate(const rec_store *store);

/* rec_run of the store translated last, for a run of open letters that finishes or is spent and whose output has the room. */
int32_t limit_run(rec_store *store, uint8_t letter, uint32_t role, uint32_t allowance, const int32_t *inputs, size_t count, int32_t *list,
                  size_t places, uint8_t *output, size_t room, rec_report *report);

#endif
