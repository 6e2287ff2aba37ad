/* A desk program beside the reference desk, plain C, and perhaps beside the desk of another version: on 9,999 lines of short work (define, three runs,
 * withdraw, over and over), and on long runs.
 *
 *     desk PROGRAM REFERENCE [BEFORE]
 *
 * All read the same files and write to the null device, by turns. The time of an empty session is taken off the short lines; the best of several
 * rounds counts. */
#define _POSIX_C_SOURCE 200809L
#include <fcntl.h>
#include <stdio.h>
#include <stdlib.h>
#include <sys/wait.h>
#include <time.h>
#include <unistd.h>

enum { LINES = 9999, SHORT_ROUNDS = 60, LONG_ROUNDS = 5, PROGRAMS = 3 };

static double now(void) {
    struct timespec t;
    clock_gettime(CLOCK_MONOTONIC, &t);
    return (double)t.tv_sec + (double)t.tv_nsec * 1e-9;
}

/* the time of a program on an input, in seconds */
static double once(char *program, const char *input) {
    double began = now();
    pid_t child = fork();
    if (child == 0) {
        int in = open(input, O_RDONLY), out = open("/dev/null", O_WRONLY);
        if (in < 0 || out < 0 || dup2(in, 0) < 0 || dup2(out, 1) < 0) _exit(126);
        execl(program, program, (char *)0);
        _exit(127);
    }
    int status;
    if (child < 0 || waitpid(child, &status, 0) < 0 || status != 0) {
        fprintf(stderr, "bench/desk: %s did not end with status 0\n", program);
        exit(1);
    }
    return now() - began;
}

/* the best times of the programs on an input */
static void best(char **programs, const char *input, int rounds, double *least) {
    for (int k = 0; k < PROGRAMS; k++) least[k] = 1e9;
    for (int i = 0; i < rounds; i++)
        for (int k = 0; k < PROGRAMS && programs[k] != NULL; k++) {
            double took = once(programs[k], input);
            if (took < least[k]) least[k] = took;
        }
}

static void row(char **programs, const char *what, const char *unit, const double *cost) {
    printf("%-26s %7.3f %s   C %7.3f   ratio %.2f", what, cost[0], unit, cost[1], cost[0] / cost[1]);
    if (programs[2] != NULL) printf("   before %7.3f   ratio %.2f", cost[2], cost[0] / cost[2]);
    printf("\n");
}

static void short_lines(char **programs, char *session) {
    static const char *const work[] = {"D q ('/5'N)", "R q 9", "R q 9", "R q 9", "X q"};
    double with[PROGRAMS], without[PROGRAMS], cost[PROGRAMS];
    FILE *f = fopen(session, "w");
    for (int i = 0; i < LINES; i++) fprintf(f, "%s\n", work[i % 5]);
    fclose(f);
    best(programs, session, SHORT_ROUNDS, with);
    best(programs, "/dev/null", SHORT_ROUNDS, without);
    for (int k = 0; k < PROGRAMS; k++) cost[k] = (with[k] - without[k]) / LINES * 1e6;
    row(programs, "9,999 short lines, a line", "us", cost);
}

static void long_runs(char **programs, char *session) {
    static const struct {
        const char *name, *lines;
    } runs[] = {{"(:)", "D q (:)\n"},
                {"counter loop", "D c ('/0'($9999$'/1'+:;)L;)\nD q (c:)\n"},
                {"calls", "D d (0L'/1';'/1'-d'/2'*;)\nD q ('/20'dL:)\n"},
                {"variables, arithmetic", "D q (F1'/1'+'/7'*'/1000'/S1L:)\n"}};
    for (size_t i = 0; i < sizeof runs / sizeof runs[0]; i++) {
        double cost[PROGRAMS];
        FILE *f = fopen(session, "w");
        fprintf(f, "%sR q 100000000\n", runs[i].lines);
        fclose(f);
        best(programs, session, LONG_ROUNDS, cost);
        row(programs, runs[i].name, "s ", cost);
    }
}

int main(int argc, char **argv) {
    char session[] = "/tmp/rec-desk-XXXXXX", *programs[PROGRAMS] = {NULL};
    int file = mkstemp(session);
    if (argc < 3 || argc > 4 || file < 0) {
        fprintf(stderr, "usage: desk PROGRAM REFERENCE [BEFORE]\n");
        return 2;
    }
    close(file);
    for (int k = 0; k < argc - 1; k++) programs[k] = argv[k + 1];
    short_lines(programs, session);
    long_runs(programs, session);
    unlink(session);
    return 0;
}
