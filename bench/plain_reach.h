/* What a letter can reach, in plain C with the answers of rec_reach, to measure against. */
#ifndef PLAIN_REACH_H
#define PLAIN_REACH_H

#include "rec.h"

int32_t plain_reach(const rec_store *store, uint8_t letter, uint8_t reached[REC_LETTERS], uint8_t missing[REC_LETTERS]);

#endif
