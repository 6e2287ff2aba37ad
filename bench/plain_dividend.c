/* A win dividend in plain C, with the same checks. */
#include "plain_dividend.h"

int32_t plain_dividend(uint32_t pool, uint32_t rate, uint32_t stakes, rec_dividend_report *report) {
    *report = (rec_dividend_report){0, 0, 0, 0, 0};
    if (pool > REC_POOL_MAX || rate > REC_RATE_MAX || stakes > REC_STAKES_MAX) return REC_BAD_POOL;
    if (stakes == 0) return REC_NO_WINNER;
    uint64_t step = (uint64_t)stakes * 10;
    report->takeout = (uint64_t)pool * rate / 1000;
    report->net = pool - report->takeout;
    report->dividend = report->net / step * 10;
    report->payments = report->dividend * stakes;
    report->breakage = report->net - report->payments;
    return 0;
}
