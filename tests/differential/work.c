#define _POSIX_C_SOURCE 200809L /* alarm */
#include "work.h"

#include <errno.h>
#include <signal.h>
#include <stdarg.h>
#include <stdio.h>
#include <stdlib.h>
#include <time.h>
#include <unistd.h>

enum { ROUND_SECONDS = 60 };

static const char *program;
static uint64_t seed;
static bool in_rounds;

static int differs(const char *what)
{
    if (in_rounds)
        printf("DIFFERENCE%s at seed %llu; repeat it with: %s %llu 1\n", what,
               (unsigned long long)seed, program, (unsigned long long)seed);
    else
        printf("DIFFERENCE%s in the directed cases; repeat it with: %s 1 0\n", what, program);
    fflush(stdout);
    return 1;
}

/* A crash, or no end, counts as a difference. */
static void crashed(int number)
{
    _Exit(differs(number == SIGALRM ? " (no end)" : " (a crash)"));
}

static uint64_t clock_seed(void)
{
    struct timespec now;
    timespec_get(&now, TIME_UTC);
    return (uint64_t)now.tv_sec * 1000000 + (uint64_t)now.tv_nsec / 1000;
}

static bool whole(const char *words, uint64_t *number)
{
    char *end;
    errno = 0;
    *number = strtoull(words, &end, 10);
    return words[0] >= '0' && words[0] <= '9' && *end == 0 && errno == 0;
}

int work(const struct work *w, int count, char **words)
{
    uint64_t rounds = w->rounds, first = clock_seed();
    program = words[0];
    if (count > 3 || (count > 1 && !whole(words[1], &first))
        || (count > 2 && !whole(words[2], &rounds))) {
        fprintf(stderr, "usage: %s [FIRST_SEED [ROUNDS]]\n", program);
        return 2;
    }
    printf("%s: %llu rounds from %s seed %llu; repeat with: %s %llu %llu\n", program,
           (unsigned long long)rounds, count > 1 ? "the" : "the fresh", (unsigned long long)first,
           program, (unsigned long long)first, (unsigned long long)rounds);
    fflush(stdout);
    signal(SIGABRT, crashed);
    signal(SIGSEGV, crashed);
    signal(SIGBUS, crashed);
    signal(SIGFPE, crashed);
    signal(SIGILL, crashed);
    signal(SIGALRM, crashed);
    alarm(ROUND_SECONDS);
    if (!w->directed())
        return differs("");
    if (!w->counts(true, true))
        return 1;
    in_rounds = true;
    for (seed = first; seed - first < rounds; seed++) {
        alarm(ROUND_SECONDS);
        if (!w->round(seed))
            return differs("");
    }
    alarm(0);
    printf("no difference: directed cases, and %llu rounds from seed %llu\n",
           (unsigned long long)rounds, (unsigned long long)first);
    if (rounds < w->rounds)
        printf("fewer rounds than %llu: their counts are not asked for\n",
               (unsigned long long)w->rounds);
    return w->counts(false, rounds >= w->rounds) ? 0 : 1;
}

bool met(unsigned long long times, unsigned long long least, const char *form, ...)
{
    va_list words;
    if (times >= least && !in_rounds)
        return true;
    if (times < least)
        printf("NOT MET, %llu times are asked for: ", least);
    va_start(words, form);
    vprintf(form, words);
    va_end(words);
    printf(": %llu times\n", times);
    fflush(stdout);
    return times >= least;
}

bool number_met(bool due, uint32_t number, unsigned long long times, unsigned long long least,
                const char *what)
{
    if (due)
        return met(times, least, "%s: number %u (%s)", what, (unsigned)number,
                   number_word(number));
    if (times > 0)
        printf("%s: number %u (%s) can not come here, but came %llu times\n", what,
               (unsigned)number, number_word(number), times);
    return times == 0;
}

const char *number_word(uint32_t number)
{
    static const char *const words[] = {
        "accepted or finished", "no such letter", "long text", "stray mark", "deep",
        "bad counter", "bad constant", "unfinished", "table full", "many counters",
        "not standing", "bad input", "bad list", "bad store", "bad line", NULL, NULL, NULL,
        NULL, NULL, "spent", "list empty", "list full", "range", "zero divisor", "no input",
        "paper out", "no text", "deep calls", "damaged", "short paper", "bad pool", "no winner",
        "not for cashiers", "steward call", "bad mark"};
    bool known = number < sizeof words / sizeof words[0] && words[number] != NULL;
    return known ? words[number] : "no number of the documents";
}
