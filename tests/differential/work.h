/* What the comparing programs share: rounds from seeds, crashes, and counts that
 * must be met. */
#ifndef WORK_H
#define WORK_H

#include <stdbool.h>
#include <stdint.h>

struct work {
    uint64_t rounds;                  /* of a full work, where the command line has no number */
    bool (*directed)(void);           /* the cases that come first; false: a difference */
    bool (*round)(uint64_t seed);     /* false: a difference */
    bool (*counts)(bool directed, bool full); /* false: a count is not met */
};

/* The main program:
 *
 *     PROGRAM [FIRST_SEED [ROUNDS]]
 *
 * Without FIRST_SEED the clock gives one. The command that repeats the work is
 * printed before it. Exit 0: no difference, and each count met. Exit 1: a
 * difference, a crash, or a round of over a minute, shown with its seed; or a
 * count that is not met. Counts of rounds are asked for only in a full work. */
int work(const struct work *work, int count, char **words);

/* Says how often something came, and that it is too seldom where it is; of the
 * directed cases only the latter. */
bool met(unsigned long long times, unsigned long long least, const char *form, ...);

/* Of the calls that `what` names, how often this number came: `least` times where it
 * is due, and else never. */
bool number_met(bool due, uint32_t number, unsigned long long times, unsigned long long least,
                const char *what);

/* The documents' word of a number. */
const char *number_word(uint32_t number);

#endif
