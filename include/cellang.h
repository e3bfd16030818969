/*
 * Checking and running correction rules written in Cellang, setting and writing values by timed lists, pausing and resuming runs,
 * counting the zeros of rows, recognizing rules that move a pixel once, steps and runs by bands of rows, and comparing grids.
 *
 * Link libcellang.a (x86-64 Linux). It needs memset and memcpy and nothing else, allocates nothing and keeps
 * nothing between calls; calls on different memory may run at the same time. A run, and the step of a band, takes
 * about 200 KB of stack.
 *
 * A buffer passes as a pointer and then a number of elements. Buffers that a call writes to must not
 * overlap each other or anything else that is passed to it. A pointer of length 0 is never followed.
 * The calls have no other precondition: every wrong length or number has a reply.
 */
#ifndef CELLANG_H
#define CELLANG_H

#include <stddef.h>
#include <stdint.h>

#ifdef __cplusplus
extern "C" {
#endif

/* ---- what bounds a source and a run */

#define CELLANG_MOST_SOURCE 65535       /* bytes of a source */
#define CELLANG_MOST_TOKENS 4096        /* tokens of a source */
#define CELLANG_MOST_NAMES 256          /* names in use at one time */
#define CELLANG_MOST_FIELDS 8           /* fields of a cell */
#define CELLANG_MOST_DIMENSIONS 3       /* dimensions */
#define CELLANG_MOST_SIZE 4096          /* cells along a dimension */
#define CELLANG_MOST_CELLS 1048576      /* cells of a grid */
#define CELLANG_GREATEST_TIME 2147483647 /* start and steps together */

/* ---- the word table and the name list */

#define CELLANG_WORDS 16384     /* exact length of the word table: four words a token */
#define CELLANG_NAME_WORDS 1024 /* exact length of the name list: four words a name */

/* The words of a name record; record k has words 4k to 4k+3. Names are in order of declaration; an index variable has no record
 * once its loop has ended, so that none is left. */
enum cellang_name_word {
    CELLANG_NAME_START = 0,  /* the place of its first byte */
    CELLANG_NAME_LENGTH = 1, /* its length in bytes */
    CELLANG_NAME_KIND = 2,   /* one of the kinds below; 0 after the last name */
    CELLANG_NAME_VALUE = 3,  /* its value, in two's complement */
    CELLANG_NAME_RECORD = 4  /* words a record */
};

/* The kinds of names, and what their value is. */
enum cellang_kind {
    CELLANG_CONSTANT = 1,       /* the constant's value */
    CELLANG_ARRAY_CONSTANT = 2, /* how many values it has */
    CELLANG_FIELD = 3,          /* the field's number, from 0 */
    CELLANG_VARIABLE = 4,       /* 0 */
    CELLANG_INDEX = 5,          /* in no list that is left */
    CELLANG_CONST_FIELD = 6     /* the field's number, from 0 */
};

/* ---- the built-in list */

/* The predefined names. Every call that reads a source takes this list beside it: exactly these bytes, without the 0 after them. */
#define CELLANG_BUILT_IN "cell time random"
#define CELLANG_BUILT_IN_LENGTH 16

/* ---- replies */

/*
 * What a call returns. 1, then 2, are tried before any token; then the smallest place wins, then
 * the lowest number, where 40 to 45 rank between 9 and 12. 20 to 24 are tried in this order once the source is accepted, then 61
 * in a run with row counts, and then 50 to 56 and 58 on the lines of a value list: the lowest line wins, then the lowest number. In a run
 * under a plan 60 is tried last; the other calls on bands of rows say their own order. "At" says which byte of the source the place names,
 * where the end of the source is at its length; if it says nothing, the place is 0.
 */
enum cellang_reply {
    CELLANG_DONE = 0, /* the source is accepted, or all steps are done */

    /* the source is refused */
    CELLANG_ROOM_LENGTH = 1,            /* word table, name list or built-in list wrong: the first two of the wrong length, the list
                                           any other bytes than CELLANG_BUILT_IN */
    CELLANG_SOURCE_TOO_LONG = 2,        /* more than 65,535 bytes; the place is 65535 */
    CELLANG_NO_TOKEN = 3,               /* no token can be read; at its first byte */
    CELLANG_LITERAL_TOO_LARGE = 4,      /* a literal over 2147483647; at it */
    CELLANG_TOO_MANY_TOKENS = 5,        /* the 4,097th token; at it */
    CELLANG_NOT_TAKEN = 6,              /* a form of the language that is not taken: -> +% -% " agent random; [ after a field name
                                           being declared, a left side or a name that is no array constant; a comma after an
                                           assigned expression; no : after a forall name; missing .name; at it or in its stead */
    CELLANG_NOT_ALLOWED = 7,            /* a token that the grammar does not allow; at it */
    CELLANG_NAME_UNKNOWN = 8,           /* a name unknown, or of the wrong sort for a constant or index; at it */
    CELLANG_NAME_USED = 9,              /* a name already used, or not assignable; at it */
    CELLANG_WRONG_ACCESS = 12,          /* . on a plain number, an unknown field, an array constant without [, or a wrong count of
                                           indices; at that token or in its stead */
    CELLANG_RELATION_ON_RELATION = 13,  /* a relation on a bare relation; at the second operator */
    CELLANG_NESTED_TOO_DEEP = 14,       /* the 17th nesting; at the opening token */
    CELLANG_TOO_MANY_NAMES = 15,        /* a name declared where 256 are in use; at it */
    CELLANG_BAD_DIMENSIONS = 40,        /* dimensions not 1 to 3; at the constant */
    CELLANG_RANGE_REVERSED = 41,        /* a range reversed; at the upper bound's constant */
    CELLANG_LOOP_TOO_LONG = 42,         /* a forall range of more than 4,096 values; at the upper bound's constant */
    CELLANG_TOO_MANY_FIELDS = 43,       /* the ninth field; at its name */
    CELLANG_BAD_ARRAY_SIZE = 44,        /* an array's size not 1 to 1,024; at the size */
    CELLANG_VALUE_COUNT = 45,           /* too many values, at the extra comma, or too few, at the token after the last one */

    /* the source is accepted, but the run is not admitted */
    CELLANG_BAD_SHAPE = 20,        /* number or size of dimensions, or the total of cells, wrong */
    CELLANG_LENT_LENGTH = 21,      /* grid or scratch not cells times fields, or marks not one byte a cell; the room of a planner or of a run
                                      under a plan, or the rows or the room of a band, of another length than the call says */
    CELLANG_BAD_TIMES = 22,        /* start or steps negative, or their sum over 2147483647 */
    CELLANG_INDEX_TOO_FAR = 23,    /* an index, or an end of an index variable's range, larger in size than its dimension; at its
                                      first token, first in source order */
    CELLANG_ENTRY_OUT_OF_RANGE = 24, /* a field out of range on entry; the place is the number of the lowest such grid entry */

    /* the run began, and a cell faulted: the lowest faulting cell of the first faulting step */
    CELLANG_RESULT_OUT_OF_RANGE = 30,  /* an operation's result out of range; at the operator */
    CELLANG_ZERO_DIVISOR = 31,         /* a zero divisor; at the operator */
    CELLANG_ARRAY_INDEX = 32,          /* an array index out of range; at the [ */
    CELLANG_VALUE_OUTSIDE_FIELD = 33,  /* an assigned value outside the field; at the := before it */

    /* the source is accepted, but the run's value list is refused: CELLANG_REPORT_LINE is the line */
    CELLANG_LIST_BAD_LINE = 50,           /* no time and no cell with values, a line without an end, a cell before any time, a wrong
                                             count of indices, or a number over 2147483647 */
    CELLANG_LIST_OUTSIDE_GRID = 51,       /* an index that is not below the size of its dimension */
    CELLANG_LIST_TOO_MANY_VALUES = 52,    /* more values than fields, where missing ones count */
    CELLANG_LIST_VALUE_OUT_OF_RANGE = 53, /* a value outside the range of its field */
    CELLANG_LIST_TIME_NOT_RISING = 54,    /* a time that is not above the time before it */
    CELLANG_LIST_TIME_BEFORE_START = 55,  /* a time below start */
    CELLANG_LIST_TIME_PAST_END = 56,      /* a time above start plus steps */
    CELLANG_LIST_MOVED_ZERO = 58,         /* a value for `moved` that is 0, in a rule that moves a pixel once */

    /* the source and both grids are accepted, but the writer writes nothing */
    CELLANG_ROOM_TOO_SHORT = 57, /* the room is shorter than the text */

    /* bands of rows */
    CELLANG_NO_PLAN = 59,  /* the planner has no plan: with the border rows not one row can be held */
    CELLANG_BAD_PLAN = 60, /* the plan is not accepted, or the band could be part of no accepted plan */

    /* row counts: 61 in a run or in a question, 62 in a question */
    CELLANG_BAD_COUNTS = 61, /* in a run no such field, or counts not one a row; in a question reversed rows, rows outside the counts, or
                                counts that are not one a row of any grid */
    CELLANG_NO_ZERO_ROW = 62 /* no row has a zero */
};

/*
 * What the caller's memory holds afterwards, by the reply:
 *
 *             words and names         grid                      scratch and marks
 *   1, 2      as they were            as it was                 as they were
 *   3 to 15   zero                    as it was                 as they were
 *   40 to 45  zero                    as it was                 as they were
 *   20 to 24  the program, then zero  as it was                 as they were
 *   61        the program, then zero  as it was                 as they were
 *   50 to 56  the program, then zero  as it was                 as they were
 *   58        the program, then zero  as it was                 as they were
 *   60        the program, then zero  as it was                 as they were
 *   30 to 33  the program, then zero  after the steps done      zero
 *   0         the program, then zero  after all steps           zero, even after 0 steps
 *
 * In a run with a value list the block of the faulting step's time is set too (30 to 33), or that of the time after the last step (0).
 * cellang_run_pausing and cellang_run_resuming leave the same but for the marks at 0, which are left standing (see there).
 * Row counts are as they were after a refusal, and else those of the grid that is left (see there).
 * The writer leaves words and names as a run does; at 57 they hold the program. So do the calls on bands of rows, at 59 and 60 too.
 */

/* ---- spellings */

/*
 * A refusal that names a token of the source, 3 to 15 or 40 to 45, comes with the spelling of that token: a part of the
 * source, or of the built-in list. For `cell`, `time` and `random`, in any letter case, it is the name in the list; for 3 it is
 * the one byte at the place. At the end of the source, and with all other replies, there is none.
 */
enum cellang_spelling {
    CELLANG_SPELLING_NONE = 0,      /* first byte and length are 0 */
    CELLANG_SPELLING_IN_SOURCE = 1, /* so many bytes of the source */
    CELLANG_SPELLING_IN_LIST = 2    /* so many bytes of the built-in list */
};

/* ---- checking */

/* The entries of a reply. If the buffer has fewer, the first ones are written; any others stay. */
enum cellang_reply_entry {
    CELLANG_REPLY_NUMBER = 0,
    CELLANG_REPLY_PLACE = 1,
    CELLANG_REPLY_SPELLING = 2,        /* where the spelling is: a cellang_spelling */
    CELLANG_REPLY_SPELLING_START = 3,  /* its first byte */
    CELLANG_REPLY_SPELLING_LENGTH = 4, /* its length in bytes */
    CELLANG_REPLY_LENGTH = 5           /* entries in all */
};

/* Checks a source. Returns 0, or the number that refuses it. */
uint32_t cellang_check(
    const uint8_t *source, size_t source_length,
    const uint8_t *list, size_t list_length,
    uint32_t *words, size_t words_length,
    uint32_t *names, size_t names_length,
    uint32_t *reply, size_t reply_length);

/* ---- rules that move a pixel once */

/*
 * A source is in this profile if
 *
 *   1. it is accepted;
 *   2. it has a named field `moved` that is not const and whose range is 0..1;
 *   3. it has one statement, constants aside: `if cell.moved = 0 then` .. `end`, without `elsif` and `else`, whose last statement, constants
 *      aside, is `cell.moved := 1`. Both are exactly these tokens; letter case does not matter.
 *
 * Then in every run a cell whose `moved` is 1 never changes in a later step and never faults, and after one completed step `moved` is 1 in every
 * cell and no later step changes anything; of cellang_run_resuming this is said where joined calls lead back to cellang_run_pausing. The blocks of
 * a value list may set other fields of any cell at any time, and `moved` to 1. A run of such a source refuses a list that sets `moved` to 0, however
 * it is spelled, with 58; a missing value is none.
 */
enum cellang_profile {
    CELLANG_MOVES_ONCE = 0,         /* the source is in the profile */
    CELLANG_MISSES_ACCEPTANCE = 1,  /* rule 1 is missed: the source is refused */
    CELLANG_MISSES_FLAG = 2,        /* rule 2 is missed */
    CELLANG_MISSES_STATEMENT = 3    /* rule 3 is missed */
};

/* The entries that say whether a source is in the profile. If the buffer has fewer, the first ones are written; any others stay. */
enum cellang_profile_entry {
    CELLANG_PROFILE_RULE = 0,   /* a cellang_profile: the first rule that is missed, or 0 */
    CELLANG_PROFILE_NUMBER = 1, /* where rule 1 is missed, the number that refuses the source; else 0 */
    CELLANG_PROFILE_PLACE = 2,  /* its place */
    CELLANG_PROFILE_LENGTH = 3  /* entries in all */
};

/* Checks whether a source is in the profile. Returns 0, or the first rule that it misses. Words and names are left as cellang_check leaves them, also
 * where rule 2 or 3 is missed. */
uint32_t cellang_check_one_move(
    const uint8_t *source, size_t source_length,
    const uint8_t *list, size_t list_length,
    uint32_t *words, size_t words_length,
    uint32_t *names, size_t names_length,
    uint32_t *told, size_t told_length);

/* ---- running */

/* The entries of a report. If the buffer has fewer, the first ones are written; any others stay. */
enum cellang_report_entry {
    CELLANG_REPORT_NUMBER = 0, /* the reply's number */
    CELLANG_REPORT_PLACE = 1,  /* its place */
    CELLANG_REPORT_CELL = 2,   /* the number of the faulting cell, at 30 to 33; else 0 */
    CELLANG_REPORT_STEPS = 3,  /* the steps done, at 0 and 30 to 33; else 0 */
    CELLANG_REPORT_COUNT = 4,  /* how many times a cell was evaluated, at 0 and 30 to 33; else 0 */
    CELLANG_REPORT_SPELLING = 5,        /* where the spelling is: a cellang_spelling */
    CELLANG_REPORT_SPELLING_START = 6,  /* its first byte */
    CELLANG_REPORT_SPELLING_LENGTH = 7, /* its length in bytes */
    CELLANG_REPORT_LINE = 8,            /* the refused line of the value list, from 1, at 50 to 56 and 58; else 0 */
    CELLANG_REPORT_LENGTH = 9           /* entries in all */
};

/*
 * Runs a source on a grid: so many steps, the first at time start. Returns any of the replies up to 45.
 *
 * shape has the size of each dimension, in order. Cell [i,j,k] of sizes p,q,r has number (i*q+j)*r+k, and
 * likewise for fewer dimensions; its fields lie together in declared order. grid and scratch have cells times
 * fields entries, marks one byte a cell; what scratch and marks hold on entry does not matter.
 *
 * Each step of cellang_run_full evaluates every cell. Each step of cellang_run_quiet evaluates the open cells
 * alone: in the first step all, later those within whose reach a cell changed in the step before or by a block since, and where
 * `time` occurs in the source always all. Reply, place, line, cell, steps and grid are the same; the count is at
 * most the full one.
 *
 * These two take no value list: no block is set, and the line is 0.
 */
uint32_t cellang_run_full(
    const uint8_t *source, size_t source_length,
    const uint8_t *list, size_t list_length,
    uint32_t *words, size_t words_length,
    uint32_t *names, size_t names_length,
    const uint32_t *shape, size_t shape_length,
    int32_t *grid, size_t grid_length,
    int32_t *scratch, size_t scratch_length,
    uint8_t *marks, size_t marks_length,
    int64_t start, int64_t steps,
    uint64_t *report, size_t report_length);

uint32_t cellang_run_quiet(
    const uint8_t *source, size_t source_length,
    const uint8_t *list, size_t list_length,
    uint32_t *words, size_t words_length,
    uint32_t *names, size_t names_length,
    const uint32_t *shape, size_t shape_length,
    int32_t *grid, size_t grid_length,
    int32_t *scratch, size_t scratch_length,
    uint8_t *marks, size_t marks_length,
    int64_t start, int64_t steps,
    uint64_t *report, size_t report_length);

/* ---- running with a value list */

/*
 * A value list sets cells at chosen times. Each line is a time, which begins a block, or a cell with the values of its first fields:
 *
 *     40
 *     [0, 3] = 5, , 1
 *     [1, 3] = -2
 *     41
 *
 * Every LF and every CR ends a line (so CR LF ends two, the second of them blank); the last line needs an end too, and no line is blank.
 * Space, tab, VT and FF may come between numbers and signs. Numbers are written as in a source; a value may have one sign, a time or an
 * index none. There are no comments. A missing value, and a field after the last value, is left as it is; const fields may be set.
 * The list of 0 bytes has no line and passes.
 *
 * Both calls are as those without _list, and set the blocks of the list: each before the step at its time, or after the last step where it
 * is start plus steps; the lines of a block in order. The whole list is checked before the run begins, after
 * 20 to 24. A list that is refused, 50 to 56 or 58, leaves grid, scratch and marks as they were; CELLANG_REPORT_LINE is its line, from 1.
 */
uint32_t cellang_run_full_list(
    const uint8_t *source, size_t source_length,
    const uint8_t *list, size_t list_length,
    uint32_t *words, size_t words_length,
    uint32_t *names, size_t names_length,
    const uint32_t *shape, size_t shape_length,
    int32_t *grid, size_t grid_length,
    int32_t *scratch, size_t scratch_length,
    uint8_t *marks, size_t marks_length,
    const uint8_t *values, size_t values_length,
    int64_t start, int64_t steps,
    uint64_t *report, size_t report_length);

uint32_t cellang_run_quiet_list(
    const uint8_t *source, size_t source_length,
    const uint8_t *list, size_t list_length,
    uint32_t *words, size_t words_length,
    uint32_t *names, size_t names_length,
    const uint32_t *shape, size_t shape_length,
    int32_t *grid, size_t grid_length,
    int32_t *scratch, size_t scratch_length,
    uint8_t *marks, size_t marks_length,
    const uint8_t *values, size_t values_length,
    int64_t start, int64_t steps,
    uint64_t *report, size_t report_length);

/* ---- pausing and resuming */

/*
 * A quiet run made in several calls: each leaves its marks standing, and the next one goes on from them. Both functions are as
 * cellang_run_quiet_list, with the same arguments and replies, but for the marks, which are still one byte a cell:
 *
 *                         marks before                 after 0    after 30 to 33  after any other reply
 *   cellang_run_pausing   do not matter                standing   zero            as they were
 *   cellang_run_resuming  not 0 for an open cell       standing   zero            as they were
 *
 * In the first step of cellang_run_pausing all cells are open. In the first step of cellang_run_resuming those are open whose mark is not 0,
 * those within whose reach the block of the start time changed a cell, and where `time` occurs in the source all. The later steps are those of
 * every quiet run.
 *
 * Standing marks are 1 for a cell that would be open in one more step, else 0, also after 0 steps. They include what the block of the time
 * after the last step opens.
 *
 * Two calls are joined if
 *
 *   - the earlier is either of the two and returned 0, and the later is cellang_run_resuming and is admitted;
 *   - source and shape are the same, and grid and marks are as the earlier call left them;
 *   - the later start is the earlier start plus the earlier steps;
 *   - the times of the earlier value list, and then of the later one, rise strictly: a block of the time between them is in one of the lists.
 *
 * Joined calls of n and of m steps return what one call of n + m steps returns that begins as the earlier one, with the bytes of both lists,
 * one after the other: the same reply, place, cell, grid and marks, where steps and count are the sums. So do more calls, each joined to the one
 * before it. If the first is cellang_run_pausing, their reply, place, cell, steps and grid are those of the full run, and the count is at most the
 * full one.
 *
 * cellang_run_resuming takes any marks. Where they do not come from joined calls that begin with cellang_run_pausing, the run is as said above, and
 * cells that are not open keep their fields, but it need not agree with the full run. A call that faulted is joined to no later one.
 */
uint32_t cellang_run_pausing(
    const uint8_t *source, size_t source_length,
    const uint8_t *list, size_t list_length,
    uint32_t *words, size_t words_length,
    uint32_t *names, size_t names_length,
    const uint32_t *shape, size_t shape_length,
    int32_t *grid, size_t grid_length,
    int32_t *scratch, size_t scratch_length,
    uint8_t *marks, size_t marks_length,
    const uint8_t *values, size_t values_length,
    int64_t start, int64_t steps,
    uint64_t *report, size_t report_length);

uint32_t cellang_run_resuming(
    const uint8_t *source, size_t source_length,
    const uint8_t *list, size_t list_length,
    uint32_t *words, size_t words_length,
    uint32_t *names, size_t names_length,
    const uint32_t *shape, size_t shape_length,
    int32_t *grid, size_t grid_length,
    int32_t *scratch, size_t scratch_length,
    uint8_t *marks, size_t marks_length,
    const uint8_t *values, size_t values_length,
    int64_t start, int64_t steps,
    uint64_t *report, size_t report_length);

/* ---- row counts */

/*
 * A run can keep, beside the grid, how many cells of each row have 0 in one field. The rows are those of the first dimension; where there is
 * one dimension, each cell is a row. counts has one entry a row, in order, and field is the field's number, from 0, as the name list has it.
 *
 * The four functions are cellang_run_full_list, cellang_run_quiet_list, cellang_run_pausing and cellang_run_resuming with these two
 * arguments more. Report, grid, scratch and marks are the same, except for one more refusal: 61, with place 0, if there is no such field
 * or counts is not one entry a row. It is tried after 24 and before the value list.
 *
 * What counts holds on entry does not matter, also where a run is resumed: it is filled from the grid when the run is admitted. After 0
 * and 30 to 33 it holds the counts of the grid that is left: after all steps and blocks, and at a fault after the steps done, with the block
 * of the faulting step's time set. After every other reply it is as it was. A count is at most CELLANG_MOST_CELLS.
 */
uint32_t cellang_run_full_counts(
    const uint8_t *source, size_t source_length,
    const uint8_t *list, size_t list_length,
    uint32_t *words, size_t words_length,
    uint32_t *names, size_t names_length,
    const uint32_t *shape, size_t shape_length,
    int32_t *grid, size_t grid_length,
    int32_t *scratch, size_t scratch_length,
    uint8_t *marks, size_t marks_length,
    const uint8_t *values, size_t values_length,
    int64_t start, int64_t steps,
    uint32_t *counts, size_t counts_length,
    uint32_t field,
    uint64_t *report, size_t report_length);

uint32_t cellang_run_quiet_counts(
    const uint8_t *source, size_t source_length,
    const uint8_t *list, size_t list_length,
    uint32_t *words, size_t words_length,
    uint32_t *names, size_t names_length,
    const uint32_t *shape, size_t shape_length,
    int32_t *grid, size_t grid_length,
    int32_t *scratch, size_t scratch_length,
    uint8_t *marks, size_t marks_length,
    const uint8_t *values, size_t values_length,
    int64_t start, int64_t steps,
    uint32_t *counts, size_t counts_length,
    uint32_t field,
    uint64_t *report, size_t report_length);

uint32_t cellang_run_pausing_counts(
    const uint8_t *source, size_t source_length,
    const uint8_t *list, size_t list_length,
    uint32_t *words, size_t words_length,
    uint32_t *names, size_t names_length,
    const uint32_t *shape, size_t shape_length,
    int32_t *grid, size_t grid_length,
    int32_t *scratch, size_t scratch_length,
    uint8_t *marks, size_t marks_length,
    const uint8_t *values, size_t values_length,
    int64_t start, int64_t steps,
    uint32_t *counts, size_t counts_length,
    uint32_t field,
    uint64_t *report, size_t report_length);

uint32_t cellang_run_resuming_counts(
    const uint8_t *source, size_t source_length,
    const uint8_t *list, size_t list_length,
    uint32_t *words, size_t words_length,
    uint32_t *names, size_t names_length,
    const uint32_t *shape, size_t shape_length,
    int32_t *grid, size_t grid_length,
    int32_t *scratch, size_t scratch_length,
    uint8_t *marks, size_t marks_length,
    const uint8_t *values, size_t values_length,
    int64_t start, int64_t steps,
    uint32_t *counts, size_t counts_length,
    uint32_t field,
    uint64_t *report, size_t report_length);

/* The entries of an answer about row counts. If the buffer has fewer, the first ones are written; any others stay. */
enum cellang_rows_entry {
    CELLANG_ROWS_NUMBER = 0, /* the reply's number */
    CELLANG_ROWS_VALUE = 1,  /* how many, or the row, at 0; else 0 */
    CELLANG_ROWS_LENGTH = 2  /* entries in all */
};

/*
 * Two questions, answered from row counts alone, without a source or a grid. The answers are those that the whole grid would have, if
 * counts is as a run left it and nothing else wrote the grid or counts since.
 *
 * cellang_zeros_in_rows: how many cells of the rows first to last, both included, have 0 in the field. Returns 0, or 61 if last is below first
 * or is no row of counts.
 *
 * cellang_first_zero_row: the first row that has such a cell. Returns 0, or 62 if no row has one.
 *
 * Both return 61 if counts has 0 or more than CELLANG_MOST_SIZE entries.
 */
uint32_t cellang_zeros_in_rows(
    const uint32_t *counts, size_t counts_length,
    uint32_t first, uint32_t last,
    uint64_t *reply, size_t reply_length);

uint32_t cellang_first_zero_row(
    const uint32_t *counts, size_t counts_length,
    uint64_t *reply, size_t reply_length);

/* ---- bands of rows */

/*
 * A grid can be stepped by a caller who never holds it as a whole, but at most so many of its rows at a time: `held`. The rows are those of the
 * first dimension, numbered from 0; where there is one dimension, each cell is a row.
 *
 * A band is some rows in order, from its first to its last, both included. Its cells read other rows too: the border rows before it and after it.
 * How many there are on either side follows from the lowest and the highest value, in the first dimension, of the indices that are written anywhere in
 * the source; an index variable has all values of its range. The rows before row 0 are the last ones of the grid, and those after the last row the
 * first ones. A border row may be one of the band's own, and the same row may be a border row more than once; each counts, so that the band's rows with
 * borders are always before + own + behind.
 *
 * A plan is bands, two entries each: first and last row. It is accepted if no band is empty, the bands run from row 0 to the last in order without
 * gap or overlap, and the rows of each with borders are at most `held`. So a plan of no entries, or of an odd number, is not accepted.
 *
 * A step of the grid is a cellang_step_band for each band of an accepted plan, in order. It is the step that cellang_run_full makes at that time, if
 * it is admitted: the bands' next rows together are the grid that the run leaves, and their counts add up to its count. If a band faults, its fault is
 * the run's, with place and cell, and the counts up to it add up to the run's; the bands after it play no part, and the old rows are the grid that is
 * left. Next rows must not be written over old rows that a later band still reads.
 *
 * cellang_run_banded makes a run of such steps, for a caller who has the grid.
 *
 * shape is that of the whole grid. All these calls leave words and names as cellang_check does.
 */

/* The entries of border rows. If the buffer has fewer, the first ones are written; any others stay. */
enum cellang_border_entry {
    CELLANG_BORDER_NUMBER = 0,          /* the reply's number */
    CELLANG_BORDER_PLACE = 1,           /* its place */
    CELLANG_BORDER_BEFORE = 2,          /* how many border rows there are before a band, at 0; else 0 */
    CELLANG_BORDER_BEHIND = 3,          /* how many after it, at 0; else 0 */
    CELLANG_BORDER_SPELLING = 4,        /* where the spelling is: a cellang_spelling */
    CELLANG_BORDER_SPELLING_START = 5,  /* its first byte */
    CELLANG_BORDER_SPELLING_LENGTH = 6, /* its length in bytes */
    CELLANG_BORDER_LENGTH = 7           /* entries in all */
};

/* Returns how many border rows a source has, on either side at most as many as the grid has rows. Returns 0, or the first of: the replies of
 * cellang_check, 20, 23. */
uint32_t cellang_border_rows(
    const uint8_t *source, size_t source_length,
    const uint8_t *list, size_t list_length,
    uint32_t *words, size_t words_length,
    uint32_t *names, size_t names_length,
    const uint32_t *shape, size_t shape_length,
    uint32_t *reply, size_t reply_length);

/* Checks a plan. Returns 0 if it is accepted, or the first of: the replies of cellang_check, 20, 23, 60. The entries of the reply are those of
 * cellang_check. */
uint32_t cellang_check_plan(
    const uint8_t *source, size_t source_length,
    const uint8_t *list, size_t list_length,
    uint32_t *words, size_t words_length,
    uint32_t *names, size_t names_length,
    const uint32_t *shape, size_t shape_length,
    uint32_t held,
    const uint32_t *plan, size_t plan_length,
    uint32_t *reply, size_t reply_length);

/* The entries of a plan. If the buffer has fewer, the first ones are written; any others stay. */
enum cellang_planned_entry {
    CELLANG_PLANNED_NUMBER = 0,          /* the reply's number */
    CELLANG_PLANNED_PLACE = 1,           /* its place */
    CELLANG_PLANNED_BANDS = 2,           /* how many bands the plan has, at 0; else 0 */
    CELLANG_PLANNED_SPELLING = 3,        /* where the spelling is: a cellang_spelling */
    CELLANG_PLANNED_SPELLING_START = 4,  /* its first byte */
    CELLANG_PLANNED_SPELLING_LENGTH = 5, /* its length in bytes */
    CELLANG_PLANNED_LENGTH = 6           /* entries in all */
};

/*
 * The planner: writes the accepted plan whose bands, in turn, are as long as can be. Returns 0, or the first of: the replies of cellang_check, 20, 21,
 * 23, 59.
 *
 * bands is a room for one band a row: exactly two entries a row, else 21. At 0 the plan is at its front, and the rest stays. The reply is 59
 * exactly if no plan is accepted, which is if held is at most before + behind. Every refusal leaves bands as it was.
 */
uint32_t cellang_plan_bands(
    const uint8_t *source, size_t source_length,
    const uint8_t *list, size_t list_length,
    uint32_t *words, size_t words_length,
    uint32_t *names, size_t names_length,
    const uint32_t *shape, size_t shape_length,
    uint32_t held,
    uint32_t *bands, size_t bands_length,
    uint32_t *reply, size_t reply_length);

/*
 * Steps one band, from row first to row last, at a time. Returns 0, 30 to 33, or the first of: the replies of cellang_check; 20; 60, if the band is
 * reversed, ends past the last row, or has with borders more rows than held; 21; 22, as a run of one step that starts at the time; 23; 24, where the
 * place is the number of the lowest entry of rows that is out of range.
 *
 * rows has the band's old rows with borders, in order: the rows from first - before to last + behind, wrapped round the first dimension, each with the
 * fields of all its cells. room has as many entries as the band's own rows. Both lengths must be exactly these, else 21. Nothing else of the grid
 * plays a part.
 *
 * At 0 room holds the band's next rows, steps is 1, and the count is the number of the band's cells. At a fault room is zero, steps is 0, and the cell
 * is the lowest one of the band that faults, by its number in the whole grid; the count includes it. After every other reply room is as it was. The
 * line is always 0.
 */
uint32_t cellang_step_band(
    const uint8_t *source, size_t source_length,
    const uint8_t *list, size_t list_length,
    uint32_t *words, size_t words_length,
    uint32_t *names, size_t names_length,
    const uint32_t *shape, size_t shape_length,
    uint32_t first, uint32_t last, uint32_t held,
    const int32_t *rows, size_t rows_length,
    int32_t *room, size_t room_length,
    int64_t time,
    uint64_t *report, size_t report_length);

/*
 * Runs a source on a grid under a plan, as cellang_run_full_list does, or as cellang_run_full_counts if counted is not 0; but each step is made band by
 * band. Returns the replies of that run, and 60.
 *
 * plan has two entries a band. room is for the old rows of one band with borders: exactly held rows, each with the fields of all its cells. A room of
 * another length is refused 21, as grid, scratch and marks are. A plan that is not accepted is refused 60, with place 0, after everything else and also
 * where steps is 0. What room holds on entry does not matter.
 *
 * Under an accepted plan the report and all that is left are those of the run without a plan, and room is zero, also after 0 steps and after a fault.
 * After every refusal room is as it was. If counted is 0, counts and field play no part, and counts is as it was.
 */
uint32_t cellang_run_banded(
    const uint8_t *source, size_t source_length,
    const uint8_t *list, size_t list_length,
    uint32_t *words, size_t words_length,
    uint32_t *names, size_t names_length,
    const uint32_t *shape, size_t shape_length,
    int32_t *grid, size_t grid_length,
    int32_t *scratch, size_t scratch_length,
    uint8_t *marks, size_t marks_length,
    const uint8_t *values, size_t values_length,
    int64_t start, int64_t steps,
    uint32_t *counts, size_t counts_length,
    uint32_t counted, uint32_t field,
    uint32_t held,
    const uint32_t *plan, size_t plan_length,
    int32_t *room, size_t room_length,
    uint64_t *report, size_t report_length);

/* ---- writing a value list */

/* The entries of a writing. If the buffer has fewer, the first ones are written; any others stay. */
enum cellang_written_entry {
    CELLANG_WRITTEN_NUMBER = 0,          /* the reply's number */
    CELLANG_WRITTEN_PLACE = 1,           /* its place */
    CELLANG_WRITTEN_TEXT = 2,            /* the length of the text in bytes, at 0; else 0 */
    CELLANG_WRITTEN_SPELLING = 3,        /* where the spelling is: a cellang_spelling */
    CELLANG_WRITTEN_SPELLING_START = 4,  /* its first byte */
    CELLANG_WRITTEN_SPELLING_LENGTH = 5, /* its length in bytes */
    CELLANG_WRITTEN_LENGTH = 6           /* entries in all */
};

/* The most bytes of a text: a time's line, and a line for each cell that differs. */
#define CELLANG_MOST_TIME_LINE 11
#define CELLANG_MOST_CELL_LINE(dimensions, fields) (6 * (dimensions) + 13 * (fields) + 2)

/*
 * Writes the value list that leads from one grid to another: a line with the time, and then, in rising order, a line with all fields for
 * each cell whose fields differ. Returns 0, 1 to 15, 40 to 45, 20 to 24 or 57.
 *
 * Both grids are checked as for a run of 0 steps that starts at the time; the reply is the lower number, and at 24 the lowest entry of the earlier
 * grid that is out of range, else of the later. earlier and later may overlap.
 *
 * At 0 the text is at the front of the room, without a 0 after it, and the rest of the room stays. A room shorter than the text is refused,
 * 57; this and every other refusal leaves the room as it was. A room of CELLANG_MOST_TIME_LINE bytes and CELLANG_MOST_CELL_LINE for each cell that
 * differs is always long enough.
 *
 * A run with the text as its value list, on the earlier grid and with 0 steps from the time on, leaves the later grid. In a rule that moves a
 * pixel once a `moved` that is 0 in the later grid is left missing, its comma and spaces kept; there this holds if no cell has 1 for `moved` in
 * the earlier grid and 0 in the later.
 */
uint32_t cellang_write_list(
    const uint8_t *source, size_t source_length,
    const uint8_t *list, size_t list_length,
    uint32_t *words, size_t words_length,
    uint32_t *names, size_t names_length,
    const uint32_t *shape, size_t shape_length,
    const int32_t *earlier, size_t earlier_length,
    const int32_t *later, size_t later_length,
    int64_t time,
    uint8_t *room, size_t room_length,
    uint64_t *reply, size_t reply_length);

/* ---- comparing */

#define CELLANG_MOST_COMPARED 2147483647 /* entries of a grid to compare */

/* The entries of a comparison. If the buffer has fewer, the first ones are written; any others stay. */
enum cellang_comparison_entry {
    CELLANG_COMPARISON_NUMBER = 0, /* the reply's number */
    CELLANG_COMPARISON_TOTAL = 1,  /* how many entries differ, at 0; else 0 */
    CELLANG_COMPARISON_LENGTH = 2  /* entries in all */
};

/* The numbers of a difference; difference n has numbers 3n to 3n+2 of the room. */
enum cellang_difference_number {
    CELLANG_DIFFERENCE_ENTRY = 0, /* the number of the entry that differs, from 0 */
    CELLANG_DIFFERENCE_LEFT = 1,  /* its value in the left grid */
    CELLANG_DIFFERENCE_RIGHT = 2, /* its value in the right grid */
    CELLANG_DIFFERENCE_LENGTH = 3 /* numbers in all */
};

/*
 * Compares two grids, without a source, and lists the entries in which they differ, in rising order. Returns 0 or
 * CELLANG_LENT_LENGTH.
 *
 * The grids have equally many entries, at most 2147483647, of any value; the room has 3k numbers. At 0 the first
 * k differences are in the room, or all where there are fewer; the remaining room stays, and the total counts
 * them all. k may be 0. Where the grids are of unlike length or have more entries, or the room has another
 * length, the reply is 21, the total 0, and nothing is written to the room. Swapping the grids swaps the two
 * values of each difference and nothing else. left and right may overlap.
 */
uint32_t cellang_compare(
    const int32_t *left, size_t left_length,
    const int32_t *right, size_t right_length,
    size_t k,
    int32_t *room, size_t room_length,
    uint32_t *reply, size_t reply_length);

#ifdef __cplusplus
}
#endif

#endif
