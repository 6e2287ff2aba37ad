/* An independent implementation of document 01 and of U1, U2, U4, U5, U6 and U7 of
 * document 02, to compare the engine with.
 *
 * rec_read         reads a text: accepts it, or gives its first fault's number
 * rec_table        lays the text out as a code table of 250 cells
 * rec_clean_print  writes the text's fair copy over the parsed tree (U1)
 * rec_book_*       the book: texts with their marks (U7), obeyed by the nested
 *                  meaning over the tree
 * rec_store_*      the store: code tables with their marks, obeyed cell by cell,
 *                  damaged or not
 * rec_store_reach  which letters a letter may call, read from the tables (U2)
 * rec_win_dividend what a pool pays its winners, the dividend by search (U4)
 *
 * The two ways to run share no code beside the limits below: the book divides by
 * search, the store by C's quotient, set right where U5 goes lower; the book sets
 * U6's columns from the right, the store from the left; the book asks for mark and
 * role at each call, the store draws up the letters that are barred to a run. */
#ifndef REFERENCE_H
#define REFERENCE_H

#include <stdbool.h>
#include <stddef.h>
#include <stdint.h>

enum {
    REC_LETTERS = 26,
    REC_TEXT = 256,
    REC_LEVELS = 10,
    REC_COUNTERS = 16,
    REC_CELLS = 250,
    REC_VARIABLES = 10,
    REC_LIST = 64,
    REC_CALLS = 100,
    REC_VALUE = 999999999,
    REC_COLUMNS = 14,       /* of `O`, U6 */
    REC_UNIT = 100,         /* cents, U6 */
    REC_CENT_DIGITS = 2,
    REC_POOL = 999999999,   /* cents */
    REC_RATE = 1000,        /* tenths of a percent */
    REC_WHOLE = 1000,       /* the rate that takes all */
    REC_STAKES = 999999999,
    REC_DIVIDEND_STEP = 10  /* cents */
};

/* U7: the mark of a letter, and the role of who runs one. */
enum { REC_OPEN = 0, REC_STEWARD_LETTER = 1 };
enum { REC_CASHIER = 0, REC_STEWARD = 1 };

enum rec_number {
    REC_FINISHED = 0,
    REC_NO_SUCH_LETTER = 1,
    REC_LONG_TEXT = 2,
    REC_STRAY_MARK = 3,
    REC_DEEP = 4,
    REC_BAD_COUNTER = 5,
    REC_BAD_CONSTANT = 6,
    REC_UNFINISHED = 7,
    REC_TABLE_FULL = 8,
    REC_MANY_COUNTERS = 9,
    REC_NOT_STANDING = 10,
    REC_BAD_INPUT = 11,
    REC_BAD_LIST = 12,
    REC_BAD_STORE = 13,
    REC_BAD_LINE = 14,
    REC_SPENT = 20,
    REC_LIST_EMPTY = 21,
    REC_LIST_FULL = 22,
    REC_RANGE = 23,
    REC_ZERO_DIVISOR = 24,
    REC_NO_INPUT = 25,
    REC_PAPER_OUT = 26,
    REC_NO_TEXT = 27,
    REC_DEEP_CALLS = 28,
    REC_DAMAGED = 29,
    REC_SHORT_PAPER = 30, /* document 02, U1 */
    REC_BAD_POOL = 31,    /* document 02, U4 */
    REC_NO_WINNER = 32,
    REC_NOT_FOR_CASHIERS = 33, /* document 02, U7: a refusal */
    REC_STEWARD_CALL = 34,     /* an ending */
    REC_BAD_MARK = 35,         /* a refusal */
    REC_NUMBERS = 36
};

/* The clauses of number 29, in the document's order. Only for statistics. */
enum rec_clause {
    REC_SOUND,
    REC_CELL_OUTSIDE,
    REC_LAST_NOT_1,
    REC_LAST_BUT_ONE_NOT_0,
    REC_HOLDS_0,
    REC_TRANSFER_OUTSIDE,
    REC_NO_CODE,
    REC_MARK_TOO_LONG,
    REC_FALSE_OUTSIDE,
    REC_BAD_DIGIT,
    REC_BAD_N,
    REC_BAD_ORDER,
    REC_BAD_VALUE,
    REC_BAD_LENGTH,
    REC_BAD_BYTE,
    REC_CLAUSES
};

/* A parsed text. An expression is known by its first segment. */
enum rec_kind {
    REC_OPERATOR,
    REC_FETCH,
    REC_KEEP,
    REC_PREDICATE,
    REC_CALL,
    REC_COUNTER,
    REC_CONSTANT,
    REC_PRINT,
    REC_INNER
};

enum { REC_NONE = 0xffff };

struct rec_item {
    uint8_t kind;
    uint8_t mark;    /* byte of an operator, a predicate or a call */
    uint8_t order;   /* of a counter, from 0 */
    uint16_t start;  /* of a print's bytes in the text */
    uint16_t length; /* of a print */
    uint16_t inner;  /* first segment of an inner expression */
    uint16_t next;   /* next item of the segment, or REC_NONE */
    int32_t value;   /* k of F and S, n of a counter, value of a constant */
};

struct rec_segment {
    uint8_t ender;  /* ';' ':' or ')' */
    uint16_t first; /* first item, or REC_NONE */
    uint16_t last;  /* last item, or REC_NONE */
    uint16_t next;  /* next segment of the expression, or REC_NONE */
};

struct rec_tree {
    uint8_t text[REC_TEXT];
    struct rec_item items[REC_TEXT];
    struct rec_segment segments[REC_TEXT];
    uint16_t item_count;
    uint16_t segment_count;
    uint16_t counters;
    uint16_t used; /* cells the text takes, cell 1 among them */
    uint16_t outermost;
};

struct rec_answer {
    uint32_t number;
    uint32_t truth;
    uint32_t steps;
    uint32_t height;
    uint32_t taken;
    uint32_t written;
    uint32_t clause; /* of number 29, else REC_SOUND */
};

/* What a caller lends to a run. */
struct rec_loan {
    const int32_t *input;
    size_t input_length;
    int32_t *list;
    size_t list_length;
    uint8_t *output;
    size_t output_length;
};

struct rec_book {
    bool standing[REC_LETTERS];
    uint8_t marks[REC_LETTERS]; /* open where no text stands */
    struct rec_tree texts[REC_LETTERS];
    int32_t variables[REC_VARIABLES];
};

struct rec_store {
    int32_t cells[REC_LETTERS * REC_CELLS];
    size_t used[REC_LETTERS];
    uint8_t marks[REC_LETTERS];
    int32_t variables[REC_VARIABLES];
};

/* Figures of U4, in cents. */
struct rec_payout {
    uint64_t takeout;
    uint64_t net;
    uint64_t dividend; /* of one stake */
    uint64_t payments; /* of all stakes */
    uint64_t breakage;
};

uint32_t rec_read(const uint8_t *text, size_t length, struct rec_tree *tree);
void rec_table(const struct rec_tree *tree, int32_t cells[REC_CELLS]);

/* The linker's refusal, else 30 where the copy is over `room` bytes, else 0 with
 * the copy at the start of the paper. A refusal, 30 too, writes nothing and its
 * length is 0. Text of length 0 and paper of room 0 may be NULL. */
uint32_t rec_clean_print(const uint8_t *text, size_t length, uint8_t *paper,
                         size_t room, size_t *written);

void rec_book_fresh(struct rec_book *book);
uint32_t rec_book_define(struct rec_book *book, uint8_t letter, uint8_t mark,
                         const uint8_t *text, size_t length);
uint32_t rec_book_withdraw(struct rec_book *book, uint8_t letter);
struct rec_answer rec_book_run(struct rec_book *book, uint8_t letter, uint8_t role,
                               uint32_t allowance, const struct rec_loan *loan);

void rec_store_fresh(struct rec_store *store);
uint32_t rec_store_define(struct rec_store *store, uint8_t letter, uint8_t mark,
                          const uint8_t *text, size_t length);
uint32_t rec_store_withdraw(struct rec_store *store, uint8_t letter);

/* cells: 26 tables of 250, cell 1 of `a` first; used and marks: 26; variables: 10,
 * variable 1 first and variable 0 (digit cell 10) last. */
struct rec_answer rec_store_run(const int32_t *cells, const size_t *used,
                                const uint8_t *marks, int32_t *variables,
                                uint8_t letter, uint8_t role, uint32_t allowance,
                                const struct rec_loan *loan);

/* The first of 13, 1, 10 and 29 that fits, with both arrays as they were; else 0,
 * with 1 or 0 for each of `a` to `z`. 29 is a refusal here: some standing table,
 * reached or not, cannot be read mark after mark to its end. U7's marks count for 13
 * alone. */
uint32_t rec_store_reach(const struct rec_store *store, uint8_t letter,
                         uint8_t reached[REC_LETTERS], uint8_t missing[REC_LETTERS]);

/* 31 where a figure is outside its bounds, else 32 where there are no stakes, with
 * all of the payout 0; else 0 with the payout. The three figures may be any. */
uint32_t rec_win_dividend(uint32_t pool, uint32_t rate, uint32_t stakes,
                          struct rec_payout *payout);

#endif
