/* Runs of book and store side by side, and against figures worked by hand. */
#ifndef RUNS_H
#define RUNS_H

#include "sides.h"

/* The same run of both, each on a soiled paper, the book's on `one_paper`. A cashier's where
 * no role is said. Returns the answer. */
struct rec_answer both_run_as(struct both *b, uint8_t letter, uint8_t role, uint32_t allowance,
                              const int32_t *input, size_t input_length, size_t list_length,
                              size_t output_length);
struct rec_answer both_run(struct both *b, uint8_t letter, uint32_t allowance,
                           const int32_t *input, size_t input_length, size_t list_length,
                           size_t output_length);

/* ---- by hand ---- */

/* Numbers parted by blanks; returns how many. */
size_t read_inputs(const char *inputs, int32_t input[REC_LIST]);

/* A run with these inputs. Top is looked at when the height is not 0. */
void expect_run_as(struct both *b, char letter, uint8_t role, uint32_t allowance,
                   const char *inputs, uint32_t number, bool truth, uint32_t steps,
                   uint32_t height, int32_t top, const char *what);
void expect_run(struct both *b, char letter, uint32_t allowance, const char *inputs,
                uint32_t number, bool truth, uint32_t steps, uint32_t height, int32_t top,
                const char *what);

/* A run of one text without inputs. */
void expect_text(const char *text, uint32_t allowance, uint32_t number, bool truth,
                 uint32_t steps, uint32_t height, int32_t top);

/* What a run of one text writes. */
void expect_output(const char *text, const char *inputs, const char *output);

#endif
