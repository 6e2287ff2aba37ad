/* Tries a desk program whose output or input fails, and when its answers come.
 *
 *     desk-faults DESK
 *
 * Prints a line for each case. Exit 0: all good; exit 1: a fault, with its case. */
#define _GNU_SOURCE /* pipe2, F_SETPIPE_SZ, cfmakeraw */
#include <errno.h>
#include <fcntl.h>
#include <poll.h>
#include <signal.h>
#include <stdarg.h>
#include <stdbool.h>
#include <stdio.h>
#include <stdlib.h>
#include <string.h>
#include <sys/resource.h>
#include <sys/socket.h>
#include <sys/wait.h>
#include <termios.h>
#include <time.h>
#include <unistd.h>

enum { ROOM = 1 << 16, CLOSED = -1, TRIES = 3, ALL_SECONDS = 120 };

/* Over two seconds each, were they obeyed. */
#define LONG_RUN "R q 999999999\n"
#define LONG_RUNS LONG_RUN LONG_RUN LONG_RUN

static const char *program, *name = "the start";
static char why[512]; /* the first fault of the case */

static bool fault(const char *form, ...)
{
    va_list words;
    va_start(words, form);
    if (why[0] == 0)
        vsnprintf(why, sizeof why, form, words);
    va_end(words);
    return false;
}

static double now(void)
{
    struct timespec t;
    clock_gettime(CLOCK_MONOTONIC, &t);
    return (double)t.tv_sec + 1e-9 * (double)t.tv_nsec;
}

/* ---- a desk that runs ---------------------------------------------------- */

struct desk {
    pid_t id;
    int errors;         /* what it says on standard error */
    struct rlimit file; /* a limit on the size of its output, or 0 */
    bool ignores_pipe;
};

static pid_t running; /* ended by the alarm */

static void must(bool good, const char *what)
{
    if (!good) {
        fprintf(stderr, "desk-faults: %s: %s: %s\n", name, what, strerror(errno));
        if (running > 0)
            kill(running, SIGKILL);
        exit(2);
    }
}

static void make_pipe(int ends[2])
{
    must(pipe2(ends, O_CLOEXEC) == 0, "pipe");
}

static void place(int from, int to)
{
    if (from == CLOSED)
        close(to);
    else if (dup2(from, to) < 0)
        _exit(126);
}

/* The desk with this input and output, which are closed here. */
static void start(struct desk *desk, int in, int out)
{
    int errors[2];
    make_pipe(errors);
    fflush(stdout);
    desk->id = fork();
    must(desk->id >= 0, "fork");
    if (desk->id == 0) {
        place(in, 0);
        place(errors[1], 2);
        place(out, 1);
        signal(SIGPIPE, desk->ignores_pipe ? SIG_IGN : SIG_DFL);
        signal(SIGXFSZ, SIG_IGN);
        if (desk->file.rlim_max > 0 && setrlimit(RLIMIT_FSIZE, &desk->file) != 0)
            _exit(126);
        execl(program, program, (char *)NULL);
        _exit(127);
    }
    running = desk->id;
    desk->errors = errors[0];
    close(errors[1]);
    if (in != CLOSED)
        close(in);
    if (out != CLOSED)
        close(out);
}

/* A desk that has ended takes nothing; the case finds that out by itself. */
static void send_words(int to, const char *words)
{
    size_t length = strlen(words);
    must(write(to, words, length) == (ssize_t)length || errno == EPIPE, "the input of the desk");
}

/* Waits for bytes; false where none come in time. At the end there are 0 bytes. */
static bool more(int from, char *to, size_t room, size_t *count, double seconds)
{
    struct pollfd one = {from, POLLIN, 0};
    ssize_t got;
    if (poll(&one, 1, seconds > 0 ? (int)(seconds * 1000) + 1 : 0) <= 0)
        return false;
    got = read(from, to, room);
    must(got >= 0, "what the desk prints");
    *count = (size_t)got;
    return true;
}

/* So many bytes, or up to the end where that comes before; false: not in time. */
static bool receive(int from, char *to, size_t wanted, size_t *length, double seconds)
{
    double until = now() + seconds;
    size_t got = 1;
    *length = 0;
    while (*length < wanted && got > 0) {
        if (!more(from, to + *length, wanted - *length, &got, until - now()))
            return false;
        *length += got;
    }
    return true;
}

/* Waits for the end of the desk; one that goes on is killed. */
static bool ends(struct desk *desk, double seconds, int *status)
{
    double until = now() + seconds;
    const struct timespec pause = {0, 2000000};
    pid_t ended;
    while ((ended = waitpid(desk->id, status, WNOHANG)) == 0 && now() < until)
        nanosleep(&pause, NULL);
    if (ended == 0) {
        kill(desk->id, SIGKILL);
        waitpid(desk->id, status, 0);
    }
    running = 0;
    return ended == desk->id || fault("the desk went on for %.1f s", seconds);
}

/* The desk ends with status 0, and all that it said on standard error. */
static bool ends_with_0(struct desk *desk, double seconds, char said[ROOM])
{
    size_t length = 0;
    int status = 0;
    bool good = ends(desk, seconds, &status);
    must(receive(desk->errors, said, ROOM - 1, &length, 1), "standard error");
    said[length] = 0;
    close(desk->errors);
    if (good && status != 0)
        good = WIFEXITED(status) ? fault("the desk ended with status %d", WEXITSTATUS(status))
                                 : fault("the desk was ended by signal %d", WTERMSIG(status));
    return good;
}

static bool ends_saying(struct desk *desk, const char *words, double seconds)
{
    char said[ROOM];
    return ends_with_0(desk, seconds, said)
           && (strcmp(said, words) == 0 || fault("on standard error: '%s', not '%s'", said, words));
}

static bool ends_stopped(struct desk *desk, const char *what, int lines)
{
    char words[100];
    snprintf(words, sizeof words, "desk: the %s; stopped after line %d\n", what, lines);
    return ends_saying(desk, words, 1.0);
}

#define UNWRITTEN "answers cannot be written"

static bool ends_unwritten(struct desk *desk, int lines)
{
    return ends_stopped(desk, UNWRITTEN, lines);
}

static bool ends_unread(struct desk *desk, int lines)
{
    return ends_stopped(desk, "input cannot be read", lines);
}

static bool ends_well(struct desk *desk)
{
    return ends_saying(desk, "", 2.0);
}

/* ---- answers ------------------------------------------------------------- */

struct answers {
    char bytes[ROOM];
    size_t length;
    int lines;
};

enum { ANSWER = 37 }; /* bytes of an answer without output */

static void add_answer(struct answers *a, int number, int steps)
{
    a->length += (size_t)snprintf(a->bytes + a->length, ROOM - a->length, "%4d%4d%3d%10d%4d%11d\n",
                                  ++a->lines, number, 0, steps, 0, 0);
}

/* `D q (:)` and some runs of it that are spent. */
static struct answers spent(int runs, int steps)
{
    static struct answers a;
    memset(&a, 0, sizeof a);
    add_answer(&a, 0, 0);
    while (runs-- > 0)
        add_answer(&a, 20, steps);
    return a;
}

static bool begins(const struct answers *a, const char *got, size_t length)
{
    return (length <= a->length && memcmp(a->bytes, got, length) == 0)
           || fault("other answers than '%.*s'", (int)a->length, a->bytes);
}

/* The next answers, all of them within these seconds. */
static bool comes(int from, const struct answers *a, size_t start, double seconds)
{
    char got[ROOM];
    size_t length, wanted = a->length - start;
    if (!receive(from, got, wanted, &length, seconds))
        return fault("%zu of %zu bytes of answers after %.1f s", length, wanted, seconds);
    return (length == wanted && memcmp(a->bytes + start, got, length) == 0)
           || fault("other answers than '%.*s'", (int)wanted, a->bytes + start);
}

/* ---- an output that fails ------------------------------------------------- */

/* A full device as output. The lines come in one read; the input stays open. */
static int start_full(struct desk *desk, const char *lines)
{
    int in[2], full = open("/dev/full", O_WRONLY | O_CLOEXEC);
    must(full >= 0, "/dev/full");
    make_pipe(in);
    send_words(in[1], lines);
    start(desk, in[0], full);
    return in[1];
}

static bool full_device(const char *lines, int obeyed)
{
    struct desk desk = {0};
    int input = start_full(&desk, lines);
    bool good = ends_unwritten(&desk, obeyed);
    close(input);
    return good;
}

static bool full_before_a_run(void)
{
    return full_device("D q (:)\nR q 9\n" LONG_RUNS, 2);
}

static bool full_before_a_read(void)
{
    return full_device("D q (:)\nR q 9\n", 2);
}

static bool full_at_the_end(void)
{
    struct desk desk = {0};
    close(start_full(&desk, "X q"));
    return ends_unwritten(&desk, 1);
}

/* More answers than the desk gathers: it stops before it has obeyed every line. */
static bool full_while_it_gathers(void)
{
    enum { LINES = 3000, MOST = ROOM / ANSWER };
    struct desk desk = {0};
    char lines[4 * LINES + 1], said[ROOM];
    int input, obeyed = 0, end = 0;
    bool good;
    for (size_t i = 0; i < LINES; i++)
        memcpy(lines + 4 * i, "X q\n", 5);
    input = start_full(&desk, lines);
    good = ends_with_0(&desk, 1.0, said);
    close(input);
    if (good && (sscanf(said, "desk: the " UNWRITTEN "; stopped after line %d\n%n", &obeyed, &end) != 1
                 || said[end] != 0 || obeyed < 1 || obeyed > MOST))
        good = fault("on standard error: '%s', and a line of 1 to %d is due", said, MOST);
    return good;
}

static bool closed_output(void)
{
    struct desk desk = {0};
    int in[2];
    bool good;
    make_pipe(in);
    send_words(in[1], "D q (:)\nR q 9\n" LONG_RUNS);
    start(&desk, in[0], CLOSED);
    good = ends_unwritten(&desk, 2);
    close(in[1]);
    return good;
}

/* Two answers are read, then the reader goes and more lines come. */
static void lose_reader(struct desk *desk, int *input, bool *good)
{
    struct answers expected = spent(1, 9);
    int in[2], out[2];
    make_pipe(in);
    make_pipe(out);
    start(desk, in[0], out[1]);
    send_words(in[1], "D q (:)\nR q 9\n");
    *good = comes(out[0], &expected, 0, 2.0);
    close(out[0]);
    send_words(in[1], "R q 9\n" LONG_RUNS);
    *input = in[1];
}

static bool reader_gone(void)
{
    struct desk desk = {.ignores_pipe = true};
    int input;
    bool good;
    lose_reader(&desk, &input, &good);
    good &= ends_unwritten(&desk, 3);
    close(input);
    return good;
}

static bool reader_gone_by_signal(void)
{
    struct desk desk = {0};
    int input, status = 0;
    bool good;
    lose_reader(&desk, &input, &good);
    good &= ends(&desk, 1.0, &status);
    close(desk.errors);
    close(input);
    if (good && status != 0 && !(WIFSIGNALED(status) && WTERMSIG(status) == SIGPIPE))
        good = fault("the desk ended in another way");
    return good;
}

/* A pipe of a page that does not block: more is printed than it takes. */
static bool blocked_pipe(void)
{
    enum { PAGE = 4096, LINES = 150 };
    struct desk desk = {0};
    struct answers expected = spent(LINES - 1, 9);
    char got[ROOM];
    size_t length;
    int in[2], out[2];
    bool good;
    make_pipe(in);
    make_pipe(out);
    must(fcntl(out[1], F_SETPIPE_SZ, PAGE) > 0 && fcntl(out[1], F_SETFL, O_NONBLOCK) == 0, "pipe");
    must(fcntl(out[1], F_GETPIPE_SZ) < LINES * ANSWER, "a small pipe");
    send_words(in[1], "D q (:)\n");
    for (int i = 1; i < LINES; i++)
        send_words(in[1], "R q 9\n");
    send_words(in[1], LONG_RUNS);
    start(&desk, in[0], out[1]);
    good = ends_unwritten(&desk, LINES);
    close(in[1]);
    must(receive(out[0], got, sizeof got, &length, 1.0), "the pipe");
    close(out[0]);
    return good && (length > 0 || fault("nothing was printed")) && begins(&expected, got, length);
}

/* A file that takes 100 bytes: a write is cut off, the next one fails. */
static bool limited_file(void)
{
    enum { BYTES = 100 };
    struct desk desk = {.file = {BYTES, BYTES}};
    struct answers expected = spent(2, 9);
    char got[ROOM], path[] = "/tmp/desk-faults-XXXXXX";
    size_t length;
    int in[2], file = mkostemp(path, O_CLOEXEC), again;
    bool good;
    must(file >= 0, path);
    again = open(path, O_RDONLY | O_CLOEXEC);
    unlink(path);
    must(again >= 0, path);
    make_pipe(in);
    send_words(in[1], "D q (:)\nR q 9\nR q 9\n" LONG_RUNS);
    start(&desk, in[0], file);
    good = ends_unwritten(&desk, 3);
    close(in[1]);
    must(receive(again, got, sizeof got, &length, 1.0), "the file");
    close(again);
    return good && (length == BYTES || fault("%zu bytes in the file", length))
           && begins(&expected, got, length);
}

/* ---- an input that fails -------------------------------------------------- */

/* No answer but these, and the end at once. */
static bool unread(int in, const struct answers *expected)
{
    struct desk desk = {0};
    int out[2];
    bool good;
    make_pipe(out);
    start(&desk, in, out[1]);
    good = ends_unread(&desk, expected->lines);
    good = comes(out[0], expected, 0, 1.0) && good;
    close(out[0]);
    return good;
}

static bool folder_as_input(void)
{
    static const struct answers none;
    int folder = open("/", O_RDONLY | O_CLOEXEC);
    must(folder >= 0, "the folder");
    return unread(folder, &none);
}

static bool closed_input(void)
{
    static const struct answers none;
    return unread(CLOSED, &none);
}

/* Two lines and a part of a third, which is not obeyed: the input has not ended. */
static bool input_fails_later(void)
{
    struct answers expected = spent(1, 9);
    int in[2];
    bool good;
    make_pipe(in);
    must(fcntl(in[0], F_SETFL, O_NONBLOCK) == 0, "pipe");
    send_words(in[1], "D q (:)\nR q 9\nR q 9");
    good = unread(in[0], &expected);
    close(in[1]);
    return good;
}

/* ---- when answers come ---------------------------------------------------- */

/* A desk between two pipes, with lines that come in one read. */
static void start_piped(struct desk *desk, const char *lines, int *input, int *output)
{
    int in[2], out[2];
    make_pipe(in);
    make_pipe(out);
    send_words(in[1], lines);
    start(desk, in[0], out[1]);
    *input = in[1];
    *output = out[0];
}

static bool ends_with_input(struct desk *desk, int input, int output)
{
    bool good;
    close(input);
    good = ends_well(desk);
    close(output);
    return good;
}

/* Four lines at once: the answers of three come before the fourth, a long run. */
static bool before_a_long_run(void)
{
    struct desk desk = {0};
    struct answers expected = spent(2, 9);
    int input, output;
    size_t start = expected.length;
    double third;
    bool good;
    start_piped(&desk, "D q (:)\nR q 9\nR q 9\n" LONG_RUN, &input, &output);
    good = comes(output, &expected, 0, 0.5);
    third = now();
    add_answer(&expected, 20, 999999999);
    good = good && comes(output, &expected, start, 15.0);
    if (good && now() - third < 0.5)
        good = fault("the fourth answer came after %.3f s", now() - third);
    return ends_with_input(&desk, input, output) && good;
}

/* Many runs at once, each a part of what is done between two writes. */
static bool spread_out(void)
{
    enum { RUNS = 600 };
    const double most = 0.25;
    static char lines[ROOM] = "D q (:)\n";
    struct desk desk = {0};
    struct answers expected = spent(RUNS, 900000);
    int input, output;
    double first, latest, longest = 0;
    bool good = true;
    for (size_t i = 0, end = 8; i < RUNS; i++, end += 11)
        strcpy(lines + end, "R q 900000\n");
    start_piped(&desk, lines, &input, &output);
    first = latest = now();
    for (size_t start = 0; start < expected.length && good; start += ANSWER) {
        struct answers next = expected;
        next.length = start + ANSWER;
        good = comes(output, &next, start, 5.0);
        if (now() - latest > longest)
            longest = now() - latest;
        latest = now();
    }
    if (good && longest > most)
        good = fault("%.3f s without an answer", longest);
    if (good && latest - first <= most)
        good = fault("all was over in %.3f s, which shows nothing", latest - first);
    return ends_with_input(&desk, input, output) && good;
}

/* The two sides of a terminal in raw mode: several lines come in one read. */
static void make_terminal(int *ours, int *desks)
{
    struct termios mode;
    *ours = posix_openpt(O_RDWR | O_NOCTTY | O_CLOEXEC);
    must(*ours >= 0 && grantpt(*ours) == 0 && unlockpt(*ours) == 0, "a terminal");
    *desks = open(ptsname(*ours), O_RDWR | O_NOCTTY | O_CLOEXEC);
    must(*desks >= 0 && tcgetattr(*desks, &mode) == 0, "a terminal");
    cfmakeraw(&mode);
    must(tcsetattr(*desks, TCSANOW, &mode) == 0, "a terminal");
}

/* Five lines at once from a terminal, the last two long runs. The output is a socket
 * that keeps writes apart: each has one answer, and the long runs' come apart. */
static bool from_a_terminal(void)
{
    static const int steps[] = {0, 9, 9, 200000000, 200000000};
    enum { LINES = sizeof steps / sizeof steps[0] };
    struct desk desk = {0};
    struct answers expected = {0};
    char got[ROOM];
    int terminal, in, out[2];
    double latest;
    bool good = true;
    make_terminal(&terminal, &in);
    must(socketpair(AF_UNIX, SOCK_SEQPACKET | SOCK_CLOEXEC, 0, out) == 0, "socketpair");
    send_words(terminal, "D q (:)\nR q 9\nR q 9\nR q 200000000\nR q 200000000\n");
    start(&desk, in, out[1]);
    latest = now();
    for (int i = 0; i < LINES && good; i++) {
        size_t length = 0, start = expected.length;
        add_answer(&expected, i == 0 ? 0 : 20, steps[i]);
        good = more(out[0], got, sizeof got, &length, 20.0) || fault("answer %d did not come", i + 1);
        if (good && (length != ANSWER || memcmp(got, expected.bytes + start, ANSWER) != 0))
            good = fault("write %d is not answer %d alone: '%.*s'", i + 1, i + 1, (int)length, got);
        if (good && steps[i] > 9 && now() - latest < 0.05)
            good = fault("answer %d came %.3f s after the one before", i + 1, now() - latest);
        latest = now();
    }
    close(terminal); /* which the desk sees as an end or as a fault of its input */
    good = ends_with_0(&desk, 2.0, got) && good;
    close(out[0]);
    return good;
}

/* Each answer before the next line is sent. Lines come in two parts, of which the
 * first is not obeyed. */
static bool line_by_line(void)
{
    struct desk desk = {0};
    struct answers expected = spent(0, 0);
    size_t start = expected.length;
    int input, output;
    char early[ROOM];
    bool good;
    start_piped(&desk, "D q (:)\n", &input, &output);
    good = comes(output, &expected, 0, 2.0);
    for (int i = 0; i < 10 && good; i++) {
        send_words(input, "R q 1");
        if (more(output, early, sizeof early, &(size_t){0}, 0.02))
            good = fault("a part of a line was answered");
        send_words(input, "5\n");
        add_answer(&expected, 20, 15);
        good = good && comes(output, &expected, start, 2.0);
        start = expected.length;
    }
    return ends_with_input(&desk, input, output) && good;
}

/* The last line has no newline: it is obeyed when the input ends, not before. */
static bool last_line(void)
{
    struct desk desk = {0};
    struct answers expected = spent(0, 0);
    size_t start = expected.length;
    int input, output;
    char early[ROOM];
    bool good;
    start_piped(&desk, "D q (:)\nR q 15", &input, &output);
    good = comes(output, &expected, 0, 2.0);
    if (more(output, early, sizeof early, &(size_t){0}, 0.05))
        good = fault("a line without its end was answered");
    close(input);
    add_answer(&expected, 20, 15);
    good = good && comes(output, &expected, start, 2.0);
    good = ends_well(&desk) && good;
    close(output);
    return good;
}

/* ---- the cases ------------------------------------------------------------- */

static const struct {
    const char *name;
    bool (*good)(void);
    int tries; /* a busy machine may spoil what is about time */
} cases[] = {
    {"full device, before a long run", full_before_a_run, 1},
    {"full device, before the next read", full_before_a_read, 1},
    {"full device, when no more is gathered", full_while_it_gathers, 1},
    {"full device, after the last line", full_at_the_end, 1},
    {"output closed", closed_output, 1},
    {"reader gone, the signal ignored", reader_gone, 1},
    {"reader gone, the signal not ignored", reader_gone_by_signal, 1},
    {"pipe that does not block", blocked_pipe, 1},
    {"file of limited size", limited_file, 1},
    {"folder as input", folder_as_input, 1},
    {"input closed", closed_input, 1},
    {"input that fails after two lines", input_fails_later, 1},
    {"answers before a long run", before_a_long_run, TRIES},
    {"answers of many runs, spread out", spread_out, TRIES},
    {"answers to a terminal, one by one", from_a_terminal, TRIES},
    {"answers line by line", line_by_line, TRIES},
    {"last line without a newline", last_line, TRIES},
};

static bool try(const char *what, bool (*good)(void), int tries)
{
    bool passed = false;
    name = what;
    for (int i = 0; i < tries && !passed; i++) {
        why[0] = 0;
        passed = good();
    }
    if (passed)
        printf("desk-faults: %s: good\n", name);
    else
        printf("desk-faults: %s: FAULT: %s\n", name, why);
    fflush(stdout);
    return passed;
}

static void too_long(int number)
{
    (void)number;
    if (running > 0)
        kill(running, SIGKILL);
    dprintf(2, "desk-faults: %s: no end\n", name);
    _exit(1);
}

int main(int count, char **words)
{
    bool good = true;
    if (count != 2 || access(words[1], X_OK) != 0) {
        fprintf(stderr, "usage: desk-faults DESK\n");
        return 2;
    }
    program = words[1];
    signal(SIGPIPE, SIG_IGN); /* a desk that has ended takes no more lines */
    signal(SIGALRM, too_long);
    alarm(ALL_SECONDS);
    for (size_t i = 0; i < sizeof cases / sizeof cases[0]; i++)
        good &= try(cases[i].name, cases[i].good, cases[i].tries);
    return good ? 0 : 1;
}
