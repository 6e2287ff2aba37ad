/* The same calls from one thread, and from several at once, each with a store and buffers of its own: the answers are the same. */
#include <pthread.h>
#include <rec.h>
#include <stdlib.h>
#include <string.h>
#include "holds.h"

enum { THREADS = 8, CALLS = 20000, PAPER = 300, ALLOWANCE = 500 };

/* A list of calls, made of its seed alone, and what came of it. */
struct day {
    uint32_t seed;
    uint64_t sum; /* of all answers, figures, lists, outputs, fair copies, marks and of the store at the end */
    int finished, stopped, refused, barred, copied, reported;
};

static uint32_t draw(uint32_t *state, uint32_t below) {
    *state = *state * 1664525u + 1013904223u;
    return (*state >> 8) % below;
}

static void add(struct day *d, const void *at, size_t length) {
    const uint8_t *bytes = (const uint8_t *)at;
    for (size_t i = 0; i < length; i++) d->sum = (d->sum ^ bytes[i]) * 1099511628211u;
}

/* Counts an answer. */
static void add_answer(struct day *d, int32_t answer) {
    add(d, &answer, sizeof answer);
    if (answer == REC_FINISHED) d->finished++;
    else if ((answer >= REC_SPENT && answer <= REC_DAMAGED) || answer == REC_STEWARD_CALL) d->stopped++;
    else d->refused++;
}

/* A text of random marks; one in some is refused. */
static size_t write_text(char *text, uint32_t *state) {
    static const char *marks[] = {"'/12'", "'/-3'", "+", "-", "*", "/", "I", "P", "L", "M", "S1", "F1", "S0", "F2", "$3$", "a", "b", "c", "''x'", "O", "X",
                                  "N", "0", "J", ";", ":", "(N)", "(0L;)", "B", " ", "\n", "\"c\"", "'/-00'", "$02$", ",", "."};
    size_t count = draw(state, 20);
    strcpy(text, "('/4'");
    for (size_t i = 0; i < count; i++) strcat(text, marks[draw(state, sizeof marks / sizeof *marks)]);
    strcat(text, ";)");
    return strlen(text);
}

static void call(struct day *d, rec_store *store, uint32_t *state) {
    char text[256];
    int32_t list[REC_LIST], inputs[4];
    uint8_t paper[PAPER];
    rec_report report;
    uint8_t letter = (uint8_t)('a' + draw(state, 4));
    uint32_t kind = draw(state, 12);
    if (kind < 3) {
        uint8_t mark = draw(state, 5) == 0 ? REC_STEWARDS : REC_OPEN;
        add_answer(d, rec_define(store, letter, mark, (const uint8_t *)text, write_text(text, state)));
    } else if (kind == 3) {
        add_answer(d, rec_withdraw(store, letter));
    } else if (kind == 4) {
        size_t length = write_text(text, state), room = draw(state, 4) > 0 ? length : draw(state, (uint32_t)length), written;
        int32_t answer = rec_fair_copy((const uint8_t *)text, length, paper, room, &written);
        add_answer(d, answer);
        add(d, paper, written);
        if (answer == REC_FINISHED) d->copied++;
    } else if (kind == 5) {
        uint8_t reached[REC_LETTERS] = {0}, missing[REC_LETTERS] = {0};
        int32_t answer = rec_reach(store, letter, reached, missing);
        add_answer(d, answer);
        add(d, reached, sizeof reached);
        add(d, missing, sizeof missing);
        if (answer == REC_FINISHED) d->reported++;
    } else {
        uint8_t role = draw(state, 4) == 0 ? REC_STEWARD : REC_CASHIER;
        for (int i = 0; i < 4; i++) inputs[i] = (int32_t)draw(state, 1000) - 500;
        memset(list, 0, sizeof list);
        int32_t answer = rec_run(store, letter, role, ALLOWANCE, inputs, 4, list, REC_LIST, paper, PAPER, &report);
        add_answer(d, answer);
        add(d, &report, sizeof report);
        add(d, list, sizeof list);
        if (answer == REC_NOT_FOR_CASHIERS || answer == REC_STEWARD_CALL) d->barred++;
        add(d, paper, report.written);
    }
}

static void *work(void *at) {
    struct day *d = (struct day *)at;
    rec_store *store = (rec_store *)malloc(sizeof *store);
    uint32_t state = d->seed;
    if (store == NULL) return NULL;
    rec_fresh(store);
    for (int i = 0; i < CALLS; i++) call(d, store, &state);
    add(d, store, sizeof *store);
    free(store);
    return d;
}

int main(void) {
    struct day alone[THREADS], together[THREADS];
    pthread_t threads[THREADS];
    for (uint32_t k = 0; k < THREADS; k++) {
        alone[k] = together[k] = (struct day){.seed = k + 1};
        HOLDS(work(&alone[k]) != NULL);
    }
    for (int k = 0; k < THREADS; k++) HOLDS(pthread_create(&threads[k], NULL, work, &together[k]) == 0);
    for (int k = 0; k < THREADS; k++) HOLDS(pthread_join(threads[k], NULL) == 0);
    for (int k = 0; k < THREADS; k++) {
        HOLDS(together[k].sum == alone[k].sum);
        HOLDS(alone[k].finished > CALLS / 10 && alone[k].stopped > CALLS / 20 && alone[k].refused > CALLS / 20 && alone[k].barred > CALLS / 50 &&
              alone[k].copied > CALLS / 50 && alone[k].reported > CALLS / 50);
        HOLDS(k == 0 || alone[k].sum != alone[k - 1].sum);
    }
    printf("%d threads with %d calls each\n", THREADS, CALLS);
    return broken > 0;
}
