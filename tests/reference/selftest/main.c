/* Tries the reference itself.
 *
 *     selftest [FIRST_SEED [HISTORIES]]      see ../../differential/work.h
 *
 * The subjects, each with a file that says what it tries:
 *
 * - histories.c    the nested meaning against the table machine on random histories
 * - examples.c     every example of document 01
 * - fair_copy.c    U1's clean print against a second one
 * - damage.c       runs on damaged stores
 * - reach.c        U2's reach against two more accounts, of reach_accounts.c
 * - dividend.c     U4's win dividend against each sentence of U4
 * - division.c     U5's division against U5's sentence
 * - money.c        U6's columns against columns by hand, and read back
 * - roles.c        U7's marks and roles against each sentence of U7; at random in
 *                  roles_random.c
 * - desk.c         the desk, edge by edge
 * - short_texts.c  all short texts over a small set of bytes
 *
 * They share the checks (check.c), book and store side by side (sides.c), runs of both
 * (runs.c), and what is random (random.c, values.c). Texts go through a second reader too
 * (reader.c). Runs are held against U2's 27 (reach_accounts.c), U7's order of refusals
 * (roles_duties.c), and U7 by document 01 alone (roles_accounts.c).
 *
 * Built with ../rec.c, and with texts.c and work.c of ../../differential. desk.c includes
 * ../desk.c without its main. */
#include <stdio.h>

#include "../../differential/work.h"
#include "check.h"
#include "subjects.h"

enum { HISTORIES = 3000 };

struct subject {
    const char *name;
    void (*by_hand)(void);
    void (*at_last)(void); /* after all that is by hand */
    void (*round)(uint64_t seed);
    bool (*counts)(bool of_histories, unsigned least);
};

/* Rounds and counts begin with the histories, the directed cases with the examples. */
static const struct subject subjects[] = {
    {"histories", NULL, NULL, random_history, counts_of_histories},
    {"examples", examples_by_hand, NULL, NULL, NULL},
    {"fair copy", copies_by_hand, NULL, NULL, counts_of_prints},
    {"damaged stores", damage_by_hand, NULL, NULL, NULL},
    {"reach", reach_by_hand, NULL, random_reaches, counts_of_reaches},
    {"dividend", payouts_by_hand, NULL, random_payouts, counts_of_payouts},
    {"division", quotients_by_hand, NULL, random_quotients, counts_of_quotients},
    {"money", columns_by_hand, NULL, random_columns, counts_of_columns},
    {"marks and roles", duties_by_hand, NULL, random_duties, counts_of_duties},
    {"desk", desk_by_hand, NULL, NULL, NULL},
    {"short texts", NULL, all_short_texts, NULL, NULL},
};

enum { SUBJECTS = sizeof subjects / sizeof subjects[0] };

static unsigned wrong_in[SUBJECTS]; /* wrong checks of each */

enum tests { BY_HAND, AT_LAST, OF_A_ROUND };

/* Such tests of all subjects; the seed is for those of a round. */
static void try_subjects(enum tests tests, uint64_t seed)
{
    for (size_t i = 0; i < SUBJECTS; i++) {
        const struct subject *s = &subjects[i];
        unsigned before = wrong;
        if (tests == BY_HAND && s->by_hand)
            s->by_hand();
        else if (tests == AT_LAST && s->at_last)
            s->at_last();
        else if (tests == OF_A_ROUND && s->round)
            s->round(seed);
        wrong_in[i] += wrong - before;
    }
}

/* Names the subjects in which something was wrong. */
static bool none_wrong(void)
{
    const char *sign = ":";
    if (wrong == 0)
        return true;
    printf("wrong in");
    for (size_t i = 0; i < SUBJECTS; i++)
        if (wrong_in[i] > 0) {
            printf("%s %s", sign, subjects[i].name);
            sign = ",";
        }
    putchar('\n');
    return false;
}

static bool directed(void)
{
    try_subjects(BY_HAND, 0);
    printf("examples and edges: %u checks, %u wrong\n", tried, wrong);
    try_subjects(AT_LAST, 0);
    return none_wrong();
}

static bool one_history(uint64_t seed)
{
    in_histories = true;
    try_subjects(OF_A_ROUND, seed);
    return none_wrong();
}

/* Each once in the directed cases, ten times in a full work. */
static bool counts(bool only_directed, bool full)
{
    unsigned least = only_directed ? 1 : full ? 10 : 0;
    bool good = true;
    if (!only_directed)
        printf("%u checks\n", tried);
    for (size_t i = 0; i < SUBJECTS; i++)
        if (subjects[i].counts)
            good &= subjects[i].counts(!only_directed, least);
    return good;
}

int main(int count, char **words)
{
    static const struct work selftest = {HISTORIES, directed, one_history, counts};
    return work(&selftest, count, words);
}
