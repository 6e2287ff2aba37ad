/* Runs a desk program whose input comes in parts, cut at random places: each read
 * gives one part, neither more nor less.
 *
 *     parts DESK SEED <session >answers
 *
 * The desk writes to standard output itself. Exit status: the desk's, or 2. */
#define _GNU_SOURCE /* SOCK_CLOEXEC */
#include <errno.h>
#include <signal.h>
#include <stdio.h>
#include <stdlib.h>
#include <string.h>
#include <sys/socket.h>
#include <sys/wait.h>
#include <unistd.h>

#include "texts.h"

enum { ROOM = 1 << 22, LARGEST = 1 << 16 };

static char session[ROOM];

static void must(bool good, const char *what)
{
    if (!good) {
        fprintf(stderr, "parts: %s: %s\n", what, strerror(errno));
        exit(2);
    }
}

/* Parts of one byte, of a few, of about a line, of about a page, or all that is left;
 * a session keeps to one of these or mixes them. */
static size_t part_size(struct random *r, uint32_t kind)
{
    switch (kind < 5 ? kind : below(r, 5)) {
    case 0: return 1;
    case 1: return 1 + below(r, 5);
    case 2: return 1 + below(r, 60);
    case 3: return 1 + below(r, 4096);
    default: return LARGEST;
    }
}

int main(int count, char **words)
{
    int ends[2], status;
    size_t length, sent = 0;
    struct random r;
    pid_t desk;
    must(count == 3, "usage: parts DESK SEED <session >answers");
    length = fread(session, 1, ROOM, stdin);
    must(!ferror(stdin) && length < ROOM, "the session cannot be read");
    random_seed(&r, strtoull(words[2], NULL, 10));
    uint32_t kind = below(&r, 7);
    must(socketpair(AF_UNIX, SOCK_SEQPACKET | SOCK_CLOEXEC, 0, ends) == 0, "socketpair");
    must((desk = fork()) >= 0, "fork");
    if (desk == 0) {
        if (dup2(ends[1], 0) < 0)
            _exit(126);
        execl(words[1], words[1], (char *)NULL);
        _exit(127);
    }
    close(ends[1]);
    signal(SIGPIPE, SIG_IGN);
    while (sent < length) {
        size_t part = part_size(&r, kind), left = length - sent;
        if (part > left)
            part = left;
        if (send(ends[0], session + sent, part, 0) < 0) {
            must(errno == EPIPE || errno == ECONNRESET, "send"); /* the desk has done its 9,999 lines */
            break;
        }
        sent += part;
    }
    close(ends[0]);
    must(waitpid(desk, &status, 0) == desk, "wait");
    return WIFEXITED(status) ? WEXITSTATUS(status) : 2;
}
