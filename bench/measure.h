/* What the benchmarks share: the clock, random numbers and some texts. */
#ifndef MEASURE_H
#define MEASURE_H

#include <stdint.h>
#include <time.h>

/* Processor time of this program, in seconds. Other programs do not count. */
static inline double seconds(void) {
    struct timespec t;
    clock_gettime(CLOCK_PROCESS_CPUTIME_ID, &t);
    return (double)t.tv_sec + 1e-9 * (double)t.tv_nsec;
}

/* A random number below n; every run has the same. */
static inline uint32_t below(uint32_t n) {
    static uint64_t state = 88172645463325252u;
    state ^= state << 13;
    state ^= state >> 7;
    state ^= state << 17;
    return (uint32_t)(state >> 32) % n;
}

/* Document 01's d, and a text as a till has them. */
#define D_TEXT "(0L'/1';'/1'-d'/2'*;)"
#define TILL_TEXT \
    "(\"stake by odds\" I S1 I S2 F1 F2 * '/100' / (N ''no bet' X ; P '/500' - N L ; L '/500') ''Pays ' O X ($3$ ''*' :) ; X)"

#endif
