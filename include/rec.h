/*
 * The REC engine for C and C++. Link with librec.a (pkg-config rec). docs/C.md is the guide, with a complete program.
 *
 * Every function returns for any text, letter, mark, role, store contents, inputs, allowance, pool and buffer contents. A function that answers with a
 * number answers 0 or a number of enum rec_number. A refused call (1 to 14, 30 to 33, 35, 50, and 29 of rec_reach) leaves the store, the list, the output,
 * the cells, the paper and the report's arrays as they were, and its figures are 0.
 *
 * What the caller sees to, and nothing checks:
 *   pointers    Each points to as many elements as its type or the length after it says, aligned for their type. Where the length is 0 it may be null.
 *               store, report, used, written, reached and missing are never null.
 *   overlap     What a call may write (the store, the list, the output, the report, the cells, the paper, reached, missing, *used, *written) overlaps nothing
 *               else that the call is passed. What it only reads (text, inputs, input) may overlap.
 *   threads     The library has no data of its own. Any thread may call it; calls at the same time use different stores and buffers.
 *   stack       Below 16 KiB for rec_run and 64 KiB for each other function (docs/C.md has the measured table).
 *
 * The library allocates nothing, reads and writes no file, and keeps no pointer after a call.
 */
#ifndef REC_H
#define REC_H

#include <stddef.h>
#include <stdint.h>

#ifdef __cplusplus
extern "C" {
#endif

/* The version of this header and of the archive beside it. */
#define REC_VERSION_MAJOR 1
#define REC_VERSION_MINOR 7
#define REC_VERSION "1.7"

/* Document 01's limits. */
#define REC_TEXT 256            /* bytes of a text */
#define REC_LEVELS 10           /* levels of parentheses */
#define REC_COUNTERS 16         /* counters of a text */
#define REC_LETTERS 26          /* letters of a store, a to z */
#define REC_CELLS 250           /* cells of a letter */
#define REC_VARIABLES 10        /* variables of a store */
#define REC_LIST 64             /* places of a run's list */
#define REC_CALLS 100           /* calls within calls */
#define REC_COLUMNS 14          /* bytes that `O` writes: units, a point and two digits of cents (document 02) */
#define REC_VALUE_MAX 999999999 /* values lie from -REC_VALUE_MAX to REC_VALUE_MAX */

/* Document 02's marks of a letter, and roles of a run's caller. */
#define REC_OPEN 0     /* anyone may run the letter */
#define REC_STEWARDS 1 /* only a steward may */
#define REC_CASHIER 0  /* may run open letters */
#define REC_STEWARD 1  /* may run every letter */

/* Document 02's bounds of a dividend; each figure is at least 0. */
#define REC_POOL_MAX 999999999   /* cents of a pool */
#define REC_RATE_MAX 1000        /* takeout, in tenths of a percent */
#define REC_STAKES_MAX 999999999 /* winning one-unit stakes */

/*
 * Document 01's and 02's numbers, and one of this library's own. 1 to 14, 33 and 35 refuse a call, 20 to 29 and 34 end a run, 29 also refuses a reach, 30
 * refuses a fair copy, 31 and 32 refuse a dividend, 50 refuses a day.
 */
enum rec_number {
    REC_FINISHED = 0,       /* a run that finished; any other call accepted */
    REC_NO_SUCH_LETTER = 1, /* not `a` to `z` */
    REC_LONG_TEXT = 2,      /* over 256 bytes */
    REC_STRAY_MARK = 3,     /* a byte that may not stand there, no other number fitting */
    REC_DEEP = 4,           /* an 11th level */
    REC_BAD_COUNTER = 5,    /* a byte breaks its form, or n is 0 at the closing `$` */
    REC_BAD_CONSTANT = 6,   /* a byte after `'/` breaks its form */
    REC_UNFINISHED = 7,     /* the text ends before its grammar does */
    REC_TABLE_FULL = 8,     /* a mark needs cell 251 (last `)`: both its cells) */
    REC_MANY_COUNTERS = 9,  /* a 17th */
    REC_NOT_STANDING = 10,  /* withdraw or run of a cleared letter */
    REC_BAD_INPUT = 11,     /* an input outside the values */
    REC_BAD_LIST = 12,      /* not 64 places */
    REC_BAD_STORE = 13,     /* a used count neither 0 nor 3 to 250, a variable outside the values, or a mark neither 0 nor 1 */
    REC_BAD_LINE = 14,      /* a desk line breaks its form */
    REC_SPENT = 20,         /* steps equal the allowance and another step is due */
    REC_LIST_EMPTY = 21,    /* too few values */
    REC_LIST_FULL = 22,     /* a push on 64 */
    REC_RANGE = 23,         /* result outside the values */
    REC_ZERO_DIVISOR = 24,  /* a division by 0 */
    REC_NO_INPUT = 25,      /* `I`, and no input is left */
    REC_PAPER_OUT = 26,     /* the bytes of a print, `O` or `X` do not all fit */
    REC_NO_TEXT = 27,       /* call of a cleared letter */
    REC_DEEP_CALLS = 28,    /* a 101st nested call */
    REC_DAMAGED = 29,       /* the due cell, or a cell of the mark there, breaks the form that a table's cells have (document 01 lists the clauses); a
                               table that keeps the form is obeyed, whether or not a text links to it */
    REC_SHORT_PAPER = 30,   /* rec_fair_copy: the copy does not fit */
    REC_BAD_POOL = 31,      /* rec_dividend: a figure outside its bounds */
    REC_NO_WINNER = 32,     /* rec_dividend: stakes are 0 */
    REC_NOT_FOR_CASHIERS = 33, /* a cashier runs a steward letter */
    REC_STEWARD_CALL = 34,  /* a cashier's run calls one */
    REC_BAD_MARK = 35,      /* a mark or role neither of the two */
    REC_SHORT_OUTPUT = 50   /* rec_day: what the day prints does not all fit */
};

/* A number's word, "not standing" for 10, and "?" for what is no number. */
static inline const char *rec_word(int32_t number) {
    switch (number) {
    case REC_FINISHED: return "finished";
    case REC_NO_SUCH_LETTER: return "no such letter";
    case REC_LONG_TEXT: return "long text";
    case REC_STRAY_MARK: return "stray mark";
    case REC_DEEP: return "deep";
    case REC_BAD_COUNTER: return "bad counter";
    case REC_BAD_CONSTANT: return "bad constant";
    case REC_UNFINISHED: return "unfinished";
    case REC_TABLE_FULL: return "table full";
    case REC_MANY_COUNTERS: return "many counters";
    case REC_NOT_STANDING: return "not standing";
    case REC_BAD_INPUT: return "bad input";
    case REC_BAD_LIST: return "bad list";
    case REC_BAD_STORE: return "bad store";
    case REC_BAD_LINE: return "bad line";
    case REC_SPENT: return "spent";
    case REC_LIST_EMPTY: return "list empty";
    case REC_LIST_FULL: return "list full";
    case REC_RANGE: return "range";
    case REC_ZERO_DIVISOR: return "zero divisor";
    case REC_NO_INPUT: return "no input";
    case REC_PAPER_OUT: return "paper out";
    case REC_NO_TEXT: return "no text";
    case REC_DEEP_CALLS: return "deep calls";
    case REC_DAMAGED: return "damaged";
    case REC_SHORT_PAPER: return "short paper";
    case REC_BAD_POOL: return "bad pool";
    case REC_NO_WINNER: return "no winner";
    case REC_NOT_FOR_CASHIERS: return "not for cashiers";
    case REC_STEWARD_CALL: return "steward call";
    case REC_BAD_MARK: return "bad mark";
    case REC_SHORT_OUTPUT: return "short output";
    default: return "?";
    }
}

/*
 * A store: the texts that stand under the letters, as code tables, with their marks, and the variables. The cells of letter a are cells[0] to cells[249],
 * with document 01's cell 1 first; used[0] says how many of them are used, and is 0 for a letter without a text; marks[0] is REC_OPEN or REC_STEWARDS. In a
 * store that only the calls below have changed since rec_fresh, a letter without a text is open. Variable k is vars[k]. A store has no pointer and no
 * padding: it may be copied, compared by memcmp, and kept in a file of the same kind of machine. Its contents may be anything: a store that breaks its form
 * is refused with 13, or a run of it ends with 29.
 */
typedef struct {
    int32_t cells[REC_LETTERS * REC_CELLS];
    size_t used[REC_LETTERS];
    uint32_t marks[REC_LETTERS];
    int32_t vars[REC_VARIABLES];
} rec_store;

/* The figures of a run: truth (0 or 1), steps taken, values on the list, inputs taken, bytes of output written. */
typedef struct {
    size_t truth, steps, height, taken, written;
} rec_report;

/* ---- the archive's own functions, which take a store's arrays one by one; use the functions after them ---- */

void rec_lent_fresh(int32_t *cells, size_t *used, uint32_t *marks, int32_t *vars);
uint32_t rec_lent_define(int32_t *cells, size_t *used, uint32_t *marks, const int32_t *vars, uint8_t letter, uint32_t mark, const uint8_t *text,
                         size_t length);
uint32_t rec_lent_withdraw(int32_t *cells, size_t *used, uint32_t *marks, const int32_t *vars, uint8_t letter);
uint32_t rec_lent_run(const int32_t *cells, const size_t *used, const uint32_t *marks, int32_t *vars, uint8_t letter, uint32_t role, uint32_t allowance,
                      const int32_t *inputs, size_t count, int32_t *list, size_t places, uint8_t *output, size_t room, size_t *figures);
uint32_t rec_lent_reach(const int32_t *cells, const size_t *used, const uint32_t *marks, const int32_t *vars, uint8_t letter, uint8_t *reached,
                        uint8_t *missing);

/* ---- a store ---- */

/* Every letter cleared and open, every variable 0, whatever the store held. */
static inline void rec_fresh(rec_store *store) { rec_lent_fresh(store->cells, store->used, store->marks, store->vars); }

/* The text becomes that of the letter, and the letter's mark becomes `mark`, REC_OPEN or REC_STEWARDS: 0, or 13, 1, 35, 2 to 9 in that order. */
static inline int32_t rec_define(rec_store *store, uint8_t letter, uint32_t mark, const uint8_t *text, size_t length) {
    return (int32_t)rec_lent_define(store->cells, store->used, store->marks, store->vars, letter, mark, text, length);
}

/* The letter's text goes, and the letter is open again: 0, or 13, 1, 10 in that order. */
static inline int32_t rec_withdraw(rec_store *store, uint8_t letter) {
    return (int32_t)rec_lent_withdraw(store->cells, store->used, store->marks, store->vars, letter);
}

/*
 * The letter's text is obeyed for a caller with this role, REC_CASHIER or REC_STEWARD, which is remembered nowhere: 0 where it finishes, 13, 1, 35, 10, 33,
 * 11, 12 (in that order) where it is refused, 20 to 29 or 34 where it is stopped. A cashier's run obeys no mark of a steward letter: of its own letter 33
 * says so, of a letter that is called 34, through however many letters. `places` is REC_LIST. Unless it is refused, list[0] is the bottom and the places
 * above the height are 0, the first `written` bytes of the output are written and the rest is as it was. Only a finished run changes the variables; no run
 * changes a table or a mark. A run takes at most `allowance` steps.
 */
static inline int32_t rec_run(rec_store *store, uint8_t letter, uint32_t role, uint32_t allowance, const int32_t *inputs, size_t count, int32_t *list,
                              size_t places, uint8_t *output, size_t room, rec_report *report) {
    size_t figures[5];
    uint32_t number =
        rec_lent_run(store->cells, store->used, store->marks, store->vars, letter, role, allowance, inputs, count, list, places, output, room, figures);
    report->truth = figures[0];
    report->steps = figures[1];
    report->height = figures[2];
    report->taken = figures[3];
    report->written = figures[4];
    return (int32_t)number;
}

/*
 * What the letter can reach, before it is run: reached[k] is 1 for each letter that some chain of calls in the standing tables leads to, the letter itself
 * included, and missing[k] is 1 for each of those that has no text; every other element of the two arrays is 0. Letter a has index 0. 0, or 13, 1, 10 in
 * that order, then REC_DAMAGED where reading any standing table mark after mark meets a cell that it describes: a refusal here, which leaves both arrays as
 * they were. In a store that only the calls above have changed since rec_fresh, a run of the letter ends with REC_NO_TEXT only where some letter is missing.
 */
static inline int32_t rec_reach(const rec_store *store, uint8_t letter, uint8_t reached[REC_LETTERS], uint8_t missing[REC_LETTERS]) {
    return (int32_t)rec_lent_reach(store->cells, store->used, store->marks, store->vars, letter, reached, missing);
}

/* ---- a text alone ---- */

/* 0 where the text links, else the number of its first fault, 2 to 9. */
int32_t rec_check(const uint8_t *text, size_t length);

/*
 * The same number, and the text's code table. Where the text links, *used is its used-cell count, and its cells are cells[0] to cells[249], or as many as
 * `room` has; cells past the 250th stay as they were. Where it is refused, *used is 0 and every cell stays as it was.
 */
int32_t rec_link(const uint8_t *text, size_t length, int32_t *cells, size_t room, size_t *used);

/*
 * The text's fair copy: the same marks in the same order, with no comments, no blanks or newlines outside prints, `;` for `,` and `:` for `.`, every
 * constant and counter without leading zeros, and minus zero as 0. It links to the very table of the text, a fair copy's fair copy is itself, and it is
 * never longer than the text: `length` bytes of paper are always enough. 0, and *written bytes at the start of the paper, whose other bytes stay as they
 * were. Where the text is refused, the number of its first fault, 2 to 9, and where the copy does not all fit, REC_SHORT_PAPER: *written is 0 and the
 * paper stays as it was.
 */
int32_t rec_fair_copy(const uint8_t *text, size_t length, uint8_t *paper, size_t room, size_t *written);

/* ---- a pool ---- */

/*
 * What a pool pays, in cents, and with it where every cent of the pool goes. takeout is pool * rate / 1000 with the rest dropped, and net what remains;
 * dividend is what one winning stake is paid, the greatest multiple of 10 that, times the stakes, is not above the net; payments are dividend * stakes,
 * and breakage is what is left of the net, less than 10 for each stake. takeout + payments + breakage is the pool, and no figure is above it.
 */
typedef struct {
    uint64_t takeout, net, dividend, payments, breakage;
} rec_dividend_report;

/* The archive's own function, with the five figures in that order; use the function after it. */
uint32_t rec_dividend_figures(uint32_t pool, uint32_t rate, uint32_t stakes, uint64_t *figures);

/*
 * The win dividend of a pool in cents (0 to REC_POOL_MAX), the takeout in tenths of a percent (0 to REC_RATE_MAX) and the number of winning one-unit
 * stakes (0 to REC_STAKES_MAX): 0, or REC_BAD_POOL where one of the three is above its bound, then REC_NO_WINNER where the stakes are 0; the figures of a
 * refused pool are 0.
 */
static inline int32_t rec_dividend(uint32_t pool, uint32_t rate, uint32_t stakes, rec_dividend_report *report) {
    uint64_t figures[5];
    uint32_t number = rec_dividend_figures(pool, rate, stakes, figures);
    report->takeout = figures[0];
    report->net = figures[1];
    report->dividend = figures[2];
    report->payments = figures[3];
    report->breakage = figures[4];
    return (int32_t)number;
}

/* ---- a day at the desk ---- */

/*
 * All that the desk program prints for an input, from a fresh store to the end of the input: 0, *written bytes, at the start of the output, whose other
 * bytes stay as they were. Where they do not all fit, REC_SHORT_OUTPUT, *written is 0 and the output stays as it was. The day is done twice, the first
 * time to see how long it is; so a call takes twice the time of its runs.
 */
int32_t rec_day(const uint8_t *input, size_t length, uint8_t *output, size_t room, size_t *written);

#ifdef __cplusplus
}
#endif

#endif
