/* Claims that a test program makes. */
#ifndef HOLDS_H
#define HOLDS_H

#include <stdio.h>

static int claims, broken;

/* Counts a claim, and says where it does not hold. */
#define HOLDS(claim) holds((claim), #claim, __LINE__)

static inline void holds(int claim, const char *text, int line) {
    claims++;
    if (claim) return;
    broken++;
    fprintf(stderr, "library: line %d: %s does not hold\n", line, text);
}

#endif
