/* Random marks, letters, texts and damage that more than one subject takes. */
#ifndef RANDOM_H
#define RANDOM_H

#include "../../differential/texts.h"
#include "../rec.h"

/* A mark, or a role; neither of the two at times. */
uint8_t random_mark(struct random *r);

/* One of `a` to `z`. */
uint8_t any_letter(struct random *r);

/* Bytes that are often marks. */
void random_bytes(struct random *r, struct text *text);

/* A text that calls just these letters. */
void text_of_calls(struct random *r, const uint8_t *letters, size_t count, struct text *text);

/* Something that a clause of 29 may mind, in a table of so many cells. */
int32_t random_cell(struct random *r, size_t used);

/* Changes a cell mostly, else a used count, a variable or a mark. */
void spoil_store(struct random *r, struct rec_store *store);

#endif
