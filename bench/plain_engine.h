/* The calls of a store in plain C with the answers of include/rec.h's, to measure against. */
#ifndef PLAIN_ENGINE_H
#define PLAIN_ENGINE_H

#include "rec.h"

void plain_fresh(rec_store *store);
int32_t plain_define(rec_store *store, uint8_t letter, uint32_t mark, const uint8_t *text, size_t length);
int32_t plain_withdraw(rec_store *store, uint8_t letter);
int32_t plain_run(rec_store *store, uint8_t letter, uint32_t role, uint32_t allowance, const int32_t *inputs, size_t count, int32_t *list,
                  size_t places, uint8_t *output, size_t room, rec_report *report);

#endif
