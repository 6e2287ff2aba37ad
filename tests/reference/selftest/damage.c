/* Runs on damaged stores by hand: every clause of 29, and the refusals of a run. */
#include "check.h"
#include "roles_duties.h"
#include "sides.h"
#include "subjects.h"

/* Table of letter `a`, used count as given, against number and steps. */
static void expect_damage(const char *cells, size_t used, uint32_t allowance,
                          uint32_t number, uint32_t steps, uint32_t clause)
{
    static struct rec_store store;
    int32_t list[REC_LIST], input[] = {5, 6, 7, 8};
    uint8_t output[100];
    struct rec_loan loan = {input, 4, list, REC_LIST, output, sizeof output};
    struct rec_answer a;
    rec_store_fresh(&store);
    put_cells(store.cells, cells);
    store.used[0] = used;
    a = store_run(&store, 'a', allowance, &loan);
    check(a.number == number && a.steps == steps && a.clause == clause, "damaged", cells);
}

static void examples_of_damage(void)
{
    expect_damage("2000,0,1", 3, 9, 0, 1, REC_SOUND);
    expect_damage("7,0,1", 3, 9, 0, 1, REC_SOUND);
    expect_damage("2000,0,1", 1, 9, REC_BAD_STORE, 0, REC_SOUND);
    expect_damage("2000,0,1", 2, 9, REC_BAD_STORE, 0, REC_SOUND);
    expect_damage("2000,0,1", 251, 9, REC_BAD_STORE, 0, REC_SOUND);
    expect_damage("2000,0,1", SIZE_MAX, 9, REC_BAD_STORE, 0, REC_SOUND);
    expect_damage("2000,0,1", 0, 9, REC_NOT_STANDING, 0, REC_SOUND);
    expect_damage("2000,1,1", 3, 9, 29, 0, REC_LAST_BUT_ONE_NOT_0);
    expect_damage("2000,4,0,2", 4, 9, 29, 1, REC_LAST_NOT_1);
    expect_damage("2000,4,0,2", 4, 0, 20, 0, REC_SOUND);
    expect_damage("2000,4,0,2", 4, 1, 29, 1, REC_LAST_NOT_1);
    expect_damage("2000,0,0,1", 4, 9, 29, 0, REC_HOLDS_0);
    expect_damage("2000,1,0,1", 4, 9, 29, 0, REC_TRANSFER_OUTSIDE);
    expect_damage("2000,5,0,1", 4, 9, 29, 0, REC_TRANSFER_OUTSIDE);
    expect_damage("2000,5,0,1", 4, 0, 29, 0, REC_TRANSFER_OUTSIDE);
    expect_damage("2000,3,0,1", 4, 9, 0, 2, REC_SOUND);
    expect_damage("2000,-66,0,1", 4, 9, 29, 0, REC_NO_CODE);
    expect_damage("2000,-2147483648,0,1", 4, 9, 29, 0, REC_NO_CODE);
    expect_damage("2000,-78,0,1", 4, 9, 29, 0, REC_MARK_TOO_LONG);
    expect_damage("2000,-78,1,0,1", 5, 9, 29, 0, REC_FALSE_OUTSIDE);
    expect_damage("2000,-78,6,0,1", 5, 9, 29, 0, REC_FALSE_OUTSIDE);
    expect_damage("2000,-78,5,0,1", 5, 9, 21, 0, REC_SOUND);
    expect_damage("2000,-70,0,0,1", 5, 9, 29, 0, REC_BAD_DIGIT);
    expect_damage("2000,-83,11,0,1", 5, 9, 29, 0, REC_BAD_DIGIT);
    expect_damage("2000,-36,0,0,7,0,1", 7, 9, 29, 0, REC_BAD_N);
    expect_damage("2000,-36,-10000,0,7,0,1", 7, 9, 29, 0, REC_BAD_N);
    expect_damage("2000,-36,-9999,15,7,0,1", 7, 9, 0, 2, REC_SOUND);
    expect_damage("2000,-36,-2147483648,0,7,0,1", 7, 9, 29, 0, REC_BAD_N);
    expect_damage("2000,-36,-1,16,7,0,1", 7, 9, 29, 0, REC_BAD_ORDER);
    expect_damage("2000,-36,-1,-1,7,0,1", 7, 9, 29, 0, REC_BAD_ORDER);
    expect_damage("2000,-36,-1,0,0,1", 6, 9, 29, 0, REC_MARK_TOO_LONG);
    expect_damage("2000,-175,1000000000,0,1", 5, 9, 29, 0, REC_BAD_VALUE);
    expect_damage("2000,-175,-1000000000,0,1", 5, 9, 29, 0, REC_BAD_VALUE);
    expect_damage("2000,-175,-999999999,0,1", 5, 9, 0, 2, REC_SOUND);
    expect_damage("2000,-175,999999999,0,1", 5, 9, 0, 2, REC_SOUND);
    expect_damage("2000,-167,-1,0,1", 5, 9, 29, 0, REC_BAD_LENGTH);
    expect_damage("2000,-167,1,0,1", 5, 9, 29, 0, REC_MARK_TOO_LONG);
    expect_damage("2000,-167,2147483647,0,1", 5, 9, 29, 0, REC_MARK_TOO_LONG);
    expect_damage("2000,-167,0,0,1", 5, 9, 0, 2, REC_SOUND);
    expect_damage("2000,-167,1,39,0,1", 6, 9, 29, 0, REC_BAD_BYTE);
    expect_damage("2000,-167,1,127,0,1", 6, 9, 29, 0, REC_BAD_BYTE);
    expect_damage("2000,-167,1,126,0,1", 6, 9, 0, 2, REC_SOUND);
    expect_damage("2000,-167,1,32,0,1", 6, 9, 0, 2, REC_SOUND);
    expect_damage("2000,-167,1,31,0,1", 6, 9, 29, 0, REC_BAD_BYTE);
    expect_damage("2000,-167,1,321,0,1", 6, 9, 29, 0, REC_BAD_BYTE);
    expect_damage("2000,-329,0,1", 4, 9, 29, 0, REC_NO_CODE); /* X and 256 more */
    expect_damage("2000,-174,5,0,1", 5, 9, 29, 0, REC_NO_CODE);
    /* a transfer into the middle of a mark: cell 3 holds -2, no code */
    expect_damage("2000,-36,-2,0,8,3,0,1", 8, 9, 29, 2, REC_NO_CODE);
    /* three counters of one order: count 2 is not below 1, so false at once */
    expect_damage("2000,-36,-5,0,15,-36,-5,0,15,-36,-1,0,15,0,1", 15, 9, 0, 3, REC_SOUND);
}

/* The refusals of a run and their order, and the variables of a damaged run. */
static void refusals_of_runs(void)
{
    static struct rec_store store;
    int32_t list[REC_LIST + 1], input[] = {999999999, -999999999, 1000000000, -1000000000};
    uint8_t output[20];
    struct rec_loan loan = {input, 2, list, REC_LIST, output, sizeof output};
    const int32_t values[] = {999999999, -999999999, 1000000000, -1000000000, INT32_MIN};
    rec_store_fresh(&store);
    for (size_t i = 0; i < 5; i++) {
        uint32_t number = i < 2 ? REC_NOT_STANDING : REC_BAD_STORE;
        store.variables[9] = values[i];
        check(store_run(&store, 'a', 9, &loan).number == number, "variable", "run");
        check(rec_store_withdraw(&store, 'a') == number, "variable", "withdraw");
        check(rec_store_define(&store, 'b', OPEN, (const uint8_t *)"(", 1)
                  == (i < 2 ? REC_UNFINISHED : REC_BAD_STORE), "variable", "define");
    }
    check(store_run(&store, 'A', 9, &loan).number == REC_BAD_STORE, "13 before 1", "");
    store.variables[9] = 0;
    loan.list_length = REC_LIST + 1;
    loan.input_length = 3;
    check(store_run(&store, 'A', 9, &loan).number == REC_NO_SUCH_LETTER, "1 before 10", "");
    check(store_run(&store, 'z', 9, &loan).number == REC_NOT_STANDING, "10 before 11", "");
    rec_store_define(&store, 'z', OPEN, (const uint8_t *)"('/7'S1XX;)", 11);
    check(store_run(&store, 'z', 9, &loan).number == REC_BAD_INPUT, "11 before 12", "");
    loan.input = input + 1;
    loan.input_length = 1;
    check(store_run(&store, 'z', 9, &loan).number == REC_BAD_LIST, "12", "");
    loan.input = input + 3;
    loan.list_length = REC_LIST;
    check(store_run(&store, 'z', 9, &loan).number == REC_BAD_INPUT, "11 below", "");
    loan.input_length = 0;
    store.cells[25 * REC_CELLS + 6] = -66; /* the second X */
    check(store_run(&store, 'z', 9, &loan).number == REC_DAMAGED && store.variables[0] == 0,
          "variables of a damaged run", "");
    store.cells[25 * REC_CELLS + 6] = -88;
    check(store_run(&store, 'z', 9, &loan).number == REC_FINISHED && store.variables[0] == 7,
          "variables of a finished run", "");
}

void damage_by_hand(void)
{
    examples_of_damage();
    refusals_of_runs();
}
