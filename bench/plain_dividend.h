/* A win dividend in plain C with the answers of rec_dividend, to measure against. */
#ifndef PLAIN_DIVIDEND_H
#define PLAIN_DIVIDEND_H

#include "rec.h"

int32_t plain_dividend(uint32_t pool, uint32_t rate, uint32_t stakes, rec_dividend_report *report);

#endif
