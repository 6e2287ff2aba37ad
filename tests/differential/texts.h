/* Random numbers from a seed, and random texts from the grammar of document 01. */
#ifndef TEXTS_H
#define TEXTS_H

#include <stdbool.h>
#include <stddef.h>
#include <stdint.h>

struct random {
    uint64_t state;
};

void random_seed(struct random *r, uint64_t seed);
uint32_t random_bits(struct random *r);
uint32_t below(struct random *r, uint32_t limit);           /* 0 to limit - 1 */
int32_t between(struct random *r, int32_t low, int32_t high); /* both may come */
bool chance(struct random *r, uint32_t percent);
int32_t random_value(struct random *r); /* within the values, edges often */

enum { TEXT_ROOM = 4096 };

struct text {
    uint8_t bytes[TEXT_ROOM];
    size_t length;
};

void text_clear(struct text *text);
void text_byte(struct text *text, uint8_t byte);
void text_add(struct text *text, const char *words);
void text_number(struct text *text, long long number);
void text_fill(struct text *text, const char *words, size_t times);

/* What a random text is like. */
struct taste {
    size_t size;      /* bytes to aim at */
    uint32_t wild;    /* percent of marks chosen without a look at the list */
    uint32_t calls;   /* percent of calls among the marks */
    uint32_t spaces;  /* percent of blanks and comments after a mark */
    uint32_t endless; /* percent of loops without a way out */
    uint32_t newlines; /* percent of newlines among what parts the marks */
    const uint8_t *letters; /* letters it may call */
    size_t letter_count;
};

struct taste random_taste(struct random *r, const uint8_t *letters, size_t count);
void text_random(struct random *r, const struct taste *taste, struct text *text);

/* Spoils bytes by edits, cuts and repeats. */
void text_spoil(struct random *r, struct text *text);

/* Texts that are good or bad: each of the numbers 0 and 2 to 9 comes. Newlines
 * stand in them, so no desk line can carry them. */
void text_hard(struct random *r, const uint8_t *letters, size_t count, struct text *text);
void text_soup(struct random *r, struct text *text); /* marks in any order */
void text_raw(struct random *r, struct text *text);  /* bytes of all values */

/* Texts for a list of calls: known ones whose runs meet something, random and hard
 * ones. They call the letters `a` to `f`. */
void text_lively(struct random *r, struct text *text);

/* Marks of so many cells, 16 counters at most, expressions closed. */
void text_cells(struct random *r, struct text *text, size_t cells);

/* About 256 bytes, of which a fair copy keeps all. */
void text_brim(struct random *r, struct text *text);

/* The marks of a fair copy, with what a fair copy takes away again: blanks, newlines,
 * comments, zeros, minus zero, `,` and `.`. At most 256 bytes. */
void text_muddle(struct random *r, const struct text *copy, struct text *text);

/* Bytes of a mark of an accepted text, or of the blank, newline or comment here. */
size_t part_length(const uint8_t *part);

#endif
