/* Every run of book and store: answers, lent places and variables are alike, and are what
 * the documents say of every run. */
#include "runs.h"

#include <stdlib.h>
#include <string.h>

#include "check.h"
#include "reach_accounts.h"
#include "roles_accounts.h"
#include "roles_duties.h"

static struct paper two_paper;

/* What the document says of every answer, whatever the run was. */
static void check_frame(const struct rec_answer *a, uint32_t allowance,
                        const struct rec_loan *loan)
{
    bool refused = is_refusal(a->number);
    size_t kept = refused ? 0 : REC_LIST;
    check((a->number <= 28 && a->number != 13) || (a->number >= 33 && a->number <= 35),
          "number on a sound store", "");
    check(a->number == 0 || a->truth == 0, "truth of an unfinished run", "");
    check(a->steps <= allowance, "steps over the allowance", "");
    check(a->number != REC_SPENT || a->steps == allowance, "spent too early", "");
    check(a->taken <= loan->input_length && a->written <= loan->output_length
              && a->height <= REC_LIST, "figures too high", "");
    if (refused)
        check(!a->truth && !a->steps && !a->height && !a->taken && !a->written,
              "figures of a refusal", "");
    for (size_t i = a->height; i < kept; i++)
        check(one_paper.list[i] == 0, "place above the height", "");
    check(memcmp(one_paper.list + kept, old_paper.list + kept,
                 sizeof one_paper.list - kept * sizeof(int32_t)) == 0,
          "list outside the run", "");
    check(memcmp(one_paper.output + a->written, old_paper.output + a->written,
                 sizeof one_paper.output - a->written) == 0,
          "output past its length", "");
}

/* A refusal comes exactly where one fits. */
static void check_refusal(const struct both *b, uint8_t letter, uint8_t role,
                          const struct rec_loan *loan, uint32_t number)
{
    bool standing = is_known(letter) && b->book.standing[letter - 'a'];
    uint8_t mark = is_known(letter) ? b->marks[letter - 'a'] : OPEN;
    uint32_t due = number_of_run(false, letter, standing, mark, role, loan);
    check(due == (is_refusal(number) ? number : 0), "refusal of a run", "");
}

struct rec_answer both_run_as(struct both *b, uint8_t letter, uint8_t role, uint32_t allowance,
                              const int32_t *input, size_t input_length, size_t list_length,
                              size_t output_length)
{
    struct rec_loan first = {input, input_length, one_paper.list, list_length,
                             one_paper.output, output_length};
    struct rec_loan second = first;
    struct rec_answer one, two;
    int32_t variables[REC_VARIABLES];
    const struct duty_run d = {&b->store, variables, letter, role, allowance, first};
    second.list = two_paper.list;
    second.output = two_paper.output;
    soil(&one_paper);
    two_paper = old_paper = one_paper;
    memcpy(variables, b->book.variables, sizeof variables);
    one = rec_book_run(&b->book, letter, role, allowance, &first);
    two = store_run_as(&b->store, letter, role, allowance, &second);
    check(same_answer(&one, &two), "run answers differ", "");
    check(memcmp(&one_paper, &two_paper, sizeof one_paper) == 0, "lent places differ", "");
    check(memcmp(b->book.variables, b->store.variables, sizeof variables) == 0,
          "variables differ", "");
    if (one.number != 0)
        check(memcmp(b->book.variables, variables, sizeof variables) == 0,
              "variables of an unfinished run", "");
    check_frame(&one, allowance, &first);
    check_refusal(b, letter, role, &first, one.number);
    check_marks(b, "after a run");
    check_reach_of_run(&b->store, letter, role, &one);
    if (!is_refusal(one.number) && (role == STEWARD || steward_letters(b->marks)))
        check_role(&d, &one, &one_paper);
    duties_of_run(b, letter, role, &one);
    return one;
}

struct rec_answer both_run(struct both *b, uint8_t letter, uint32_t allowance,
                           const int32_t *input, size_t input_length, size_t list_length,
                           size_t output_length)
{
    return both_run_as(b, letter, CASHIER, allowance, input, input_length, list_length,
                       output_length);
}

/* ---- by hand ----------------------------------------------------------- */

size_t read_inputs(const char *inputs, int32_t input[REC_LIST])
{
    size_t count = 0;
    char *rest = (char *)inputs;
    while (*rest)
        input[count++] = (int32_t)strtol(rest, &rest, 10);
    return count;
}

void expect_run_as(struct both *b, char letter, uint8_t role, uint32_t allowance,
                   const char *inputs, uint32_t number, bool truth, uint32_t steps,
                   uint32_t height, int32_t top, const char *what)
{
    int32_t input[REC_LIST];
    size_t count = read_inputs(inputs, input);
    struct rec_answer a;
    a = both_run_as(b, (uint8_t)letter, role, allowance, input, count, REC_LIST, 4096);
    check(a.number == number && a.truth == truth && a.steps == steps && a.height == height,
          "answer of a run", what);
    if (height > 0)
        check(one_paper.list[height - 1] == top, "top of a run", what);
}

void expect_run(struct both *b, char letter, uint32_t allowance, const char *inputs,
                uint32_t number, bool truth, uint32_t steps, uint32_t height, int32_t top,
                const char *what)
{
    expect_run_as(b, letter, CASHIER, allowance, inputs, number, truth, steps, height, top, what);
}

void expect_text(const char *text, uint32_t allowance, uint32_t number, bool truth,
                 uint32_t steps, uint32_t height, int32_t top)
{
    static struct both b;
    both_fresh(&b);
    check(define_text(&b, 'q', text) == 0, "define", text);
    expect_run(&b, 'q', allowance, "", number, truth, steps, height, top, text);
}

void expect_output(const char *text, const char *inputs, const char *output)
{
    static struct both b;
    int32_t input[REC_LIST];
    size_t count = read_inputs(inputs, input);
    struct rec_answer a;
    both_fresh(&b);
    check(define_text(&b, 'q', text) == 0, "define", text);
    a = both_run(&b, 'q', 1000, input, count, REC_LIST, 4096);
    check(a.written == strlen(output) && memcmp(one_paper.output, output, a.written) == 0,
          "output", text);
}
