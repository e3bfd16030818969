/* Calls the library from C: the marked examples M1 to M13, spellings, value lists and their writer, runs that are paused and resumed,
 * row counts, rules that move a pixel once, bands of rows, comparisons of grids, and what the caller's memory holds afterwards. */
#ifndef _DEFAULT_SOURCE
#define _DEFAULT_SOURCE /* for mmap of memory without a file */
#endif
#include "cellang.h"

#include <stdio.h>
#include <string.h>
#include <sys/mman.h>

#define S "1 dimensions of 0..1 "
#define MOST_CELLS 8
#define UNTOUCHED 77
#define LIST (const uint8_t *)CELLANG_BUILT_IN, CELLANG_BUILT_IN_LENGTH

static uint32_t words[CELLANG_WORDS];
static uint32_t names[CELLANG_NAME_WORDS];
static int32_t scratch[MOST_CELLS];
static uint8_t marks[MOST_CELLS];
static int32_t grid[MOST_CELLS];
static int passed, failed;

static void expect(int holds, const char *what) {
    if (holds) {
        passed++;
    } else {
        failed++;
        printf("failed: %s\n", what);
    }
}

/* Whether every one of so many bytes has the value. */
static int all_bytes(const void *room, size_t size, uint8_t value) {
    const uint8_t *bytes = (const uint8_t *)room;
    for (size_t i = 0; i < size; i++) {
        if (bytes[i] != value) {
            return 0;
        }
    }
    return 1;
}

static void expect_check(const char *what, const char *source, uint32_t number, uint32_t place) {
    uint32_t reply[CELLANG_REPLY_LENGTH];
    uint32_t given;
    memset(words, UNTOUCHED, sizeof words);
    memset(names, UNTOUCHED, sizeof names);
    given = cellang_check((const uint8_t *)source, strlen(source), LIST, words, CELLANG_WORDS, names, CELLANG_NAME_WORDS,
                          reply, CELLANG_REPLY_LENGTH);
    expect(given == number, what);
    expect(reply[CELLANG_REPLY_NUMBER] == number && reply[CELLANG_REPLY_PLACE] == place, what);
    if (number != CELLANG_DONE) {
        expect(all_bytes(words, sizeof words, 0) && all_bytes(names, sizeof names, 0), what);
    }
}

struct expected {
    uint64_t report[CELLANG_REPORT_LENGTH];
    int32_t grid[MOST_CELLS];
};

typedef uint32_t run_call(const uint8_t *, size_t, const uint8_t *, size_t, uint32_t *, size_t, uint32_t *, size_t,
                          const uint32_t *, size_t, int32_t *, size_t, int32_t *, size_t, uint8_t *, size_t, int64_t, int64_t,
                          uint64_t *, size_t);
typedef uint32_t list_run_call(const uint8_t *, size_t, const uint8_t *, size_t, uint32_t *, size_t, uint32_t *, size_t,
                               const uint32_t *, size_t, int32_t *, size_t, int32_t *, size_t, uint8_t *, size_t, const uint8_t *,
                               size_t, int64_t, int64_t, uint64_t *, size_t);

/* The runs that take a value list. The last two leave their marks standing, and the last one begins from the caller's marks. */
#define LIST_RUNS 4
static list_run_call *const list_runs[LIST_RUNS] = {cellang_run_full_list, cellang_run_quiet_list, cellang_run_pausing,
                                                    cellang_run_resuming};

typedef uint32_t count_run_call(const uint8_t *, size_t, const uint8_t *, size_t, uint32_t *, size_t, uint32_t *, size_t,
                                const uint32_t *, size_t, int32_t *, size_t, int32_t *, size_t, uint8_t *, size_t, const uint8_t *,
                                size_t, int64_t, int64_t, uint32_t *, size_t, uint32_t, uint64_t *, size_t);

/* The same runs with row counts. */
static count_run_call *const count_runs[LIST_RUNS] = {cellang_run_full_counts, cellang_run_quiet_counts, cellang_run_pausing_counts,
                                                      cellang_run_resuming_counts};

static int began(uint64_t number) {
    return number == CELLANG_DONE || (number >= CELLANG_RESULT_OUT_OF_RANGE && number <= CELLANG_VALUE_OUTSIDE_FIELD);
}

/* Runs a source on a row of cells of one field each. */
static void expect_run(const char *what, run_call *run, const char *source, const int32_t *before, uint32_t cells,
                       int64_t start, int64_t steps, const struct expected *after) {
    uint64_t report[CELLANG_REPORT_LENGTH];
    uint32_t given;
    uint8_t left = began(after->report[0]) ? 0 : UNTOUCHED;
    memcpy(grid, before, cells * sizeof *grid);
    memset(scratch, UNTOUCHED, sizeof scratch);
    memset(marks, UNTOUCHED, sizeof marks);
    given = run((const uint8_t *)source, strlen(source), LIST, words, CELLANG_WORDS, names, CELLANG_NAME_WORDS, &cells, 1,
                grid, cells, scratch, cells, marks, cells, start, steps, report, CELLANG_REPORT_LENGTH);
    expect(given == after->report[0], what);
    expect(memcmp(report, after->report, sizeof report) == 0, what);
    expect(memcmp(grid, after->grid, cells * sizeof *grid) == 0, what);
    expect(all_bytes(scratch, cells * sizeof *scratch, left) && all_bytes(marks, cells, left), what);
}

/* Runs full and quiet; the counts may differ. */
static void expect_runs(const char *what, const char *source, const int32_t *before, uint32_t cells, int64_t start,
                        int64_t steps, struct expected after, uint64_t quiet_count) {
    expect_run(what, cellang_run_full, source, before, cells, start, steps, &after);
    after.report[CELLANG_REPORT_COUNT] = quiet_count;
    expect_run(what, cellang_run_quiet, source, before, cells, start, steps, &after);
}

static void expect_value(const char *what, const char *source, int32_t value) {
    int32_t before[1] = {0};
    struct expected after = {{0, 0, 0, 1, 1}, {0}};
    after.grid[0] = value;
    expect_runs(what, source, before, 1, 0, 1, after, 1);
}

static void marked_examples(void) {
    const int32_t one[] = {1, 0, 0, 0, 0}, nought[] = {0, 0}, climbing[] = {0, 2, 1}, row[] = {1, 2, 3, 4, 5};
    const struct expected m5 = {{0, 0, 0, 2, 10}, {0, 0, 1, 0, 0}};
    const struct expected m6 = {{0, 0, 0, 3, 6}, {2, 2}};
    const struct expected m7 = {{CELLANG_VALUE_OUTSIDE_FIELD, 26, 1, 1, 5}, {1, 3, 2}};
    const struct expected m12_own = {{0, 0, 0, 1, 5}, {1, 2, 3, 4, 5}};
    const struct expected m12_far = {{CELLANG_INDEX_TOO_FAR, 30, 0, 0, 0}, {1, 2, 3, 4, 5}};
    expect_check("M1", "", CELLANG_NOT_ALLOWED, 0);
    expect_check("M2", S, CELLANG_DONE, 0);
    expect_check("M3", S "x := y", CELLANG_NAME_UNKNOWN, 26);
    expect_check("M4", S "cell := 1 < 2 < 3", CELLANG_RELATION_ON_RELATION, 35);
    expect_runs("M5", S "cell := [-1]", one, 5, 0, 2, m5, 8);
    expect_runs("M6", "1 dimensions of 0..9 cell := time", nought, 2, 0, 3, m6, 6);
    expect_runs("M7", "1 dimensions of 0..3 cell := cell + 1", climbing, 3, 0, 5, m7, 5);
    expect_value("M8", "1 dimensions of -99..99 cell := 1 | 0 & 0", 0);
    expect_value("M9", "1 dimensions of -99..99 cell := 7 / -2", -3);
    expect_value("M10", "1 dimensions of -99..99 cell := -7 % 2", -1);
    expect_value("M11", "1 dimensions of -99..99 cell := 7 % -2", 1);
    expect_runs("M12, own cell", "1 dimensions of 0..9 cell := [5]", row, 5, 0, 1, m12_own, 5);
    expect_runs("M12, too far", "1 dimensions of 0..9 cell := [6]", row, 5, 0, 1, m12_far, 0);
    expect_check("M13", "4 dimensions of 0..1", CELLANG_BAD_DIMENSIONS, 0);
}

/* Whether the three numbers of a spelling name these bytes of the source or of the list. */
static int spells(const char *source, uint64_t stands, uint64_t start, uint64_t length, const char *expected) {
    const char *from = stands == CELLANG_SPELLING_IN_LIST ? CELLANG_BUILT_IN : source;
    if (stands == CELLANG_SPELLING_NONE) {
        return start == 0 && length == 0 && *expected == 0;
    }
    return start + length <= strlen(from) && length == strlen(expected) && memcmp(from + start, expected, length) == 0;
}

/* Checks and runs a source that is refused with a spelling. */
static void expect_spelling(const char *source, uint32_t number, enum cellang_spelling stands, const char *expected) {
    const uint32_t shape[] = {1};
    uint32_t reply[CELLANG_REPLY_LENGTH];
    uint64_t report[CELLANG_REPORT_LENGTH];
    uint32_t given = cellang_check((const uint8_t *)source, strlen(source), LIST, words, CELLANG_WORDS, names,
                                   CELLANG_NAME_WORDS, reply, CELLANG_REPLY_LENGTH);
    expect(given == number && reply[CELLANG_REPLY_SPELLING] == (uint32_t)stands, source);
    expect(spells(source, reply[CELLANG_REPLY_SPELLING], reply[CELLANG_REPLY_SPELLING_START],
                  reply[CELLANG_REPLY_SPELLING_LENGTH], expected), source);
    given = cellang_run_quiet((const uint8_t *)source, strlen(source), LIST, words, CELLANG_WORDS, names, CELLANG_NAME_WORDS,
                              shape, 1, grid, 1, scratch, 1, marks, 1, 0, 1, report, CELLANG_REPORT_LENGTH);
    expect(given == number && report[CELLANG_REPORT_SPELLING] == (uint64_t)stands, source);
    expect(spells(source, report[CELLANG_REPORT_SPELLING], report[CELLANG_REPORT_SPELLING_START],
                  report[CELLANG_REPORT_SPELLING_LENGTH], expected), source);
}

static void spellings(void) {
    expect_spelling(S "x := y", CELLANG_NAME_UNKNOWN, CELLANG_SPELLING_IN_SOURCE, "y");
    expect_spelling(S "x := Y_1z", CELLANG_NAME_UNKNOWN, CELLANG_SPELLING_IN_SOURCE, "Y_1z");
    expect_spelling(S "12ab", CELLANG_NO_TOKEN, CELLANG_SPELLING_IN_SOURCE, "1");
    expect_spelling(S "cell := 9_999_999_999", CELLANG_LITERAL_TOO_LARGE, CELLANG_SPELLING_IN_SOURCE, "9_999_999_999");
    expect_spelling(S "AGENT", CELLANG_NOT_TAKEN, CELLANG_SPELLING_IN_SOURCE, "AGENT");
    expect_spelling(S "cell := 1 -> 2", CELLANG_NOT_TAKEN, CELLANG_SPELLING_IN_SOURCE, "->");
    expect_spelling(S "cell := Otherwise", CELLANG_NOT_ALLOWED, CELLANG_SPELLING_IN_SOURCE, "Otherwise");
    expect_spelling(S "cell := RanDom", CELLANG_NOT_TAKEN, CELLANG_SPELLING_IN_LIST, "random");
    expect_spelling(S "forall CELL : 0..1 end", CELLANG_NAME_USED, CELLANG_SPELLING_IN_LIST, "cell");
    expect_spelling("const Time := 1", CELLANG_NAME_USED, CELLANG_SPELLING_IN_LIST, "time");
    expect_spelling("4 dimensions of 0..1", CELLANG_BAD_DIMENSIONS, CELLANG_SPELLING_IN_SOURCE, "4");
    expect_spelling("1 dimensions of 1..-1", CELLANG_RANGE_REVERSED, CELLANG_SPELLING_IN_SOURCE, "1");
    expect_spelling(S "forall i : 0..4096 end", CELLANG_LOOP_TOO_LONG, CELLANG_SPELLING_IN_SOURCE, "4096");
    expect_spelling("1 dimensions of a,b,c,d,e,f,g,h,i of 0..1 end", CELLANG_TOO_MANY_FIELDS, CELLANG_SPELLING_IN_SOURCE, "i");
    expect_spelling("const a[] for 1025 := 1", CELLANG_BAD_ARRAY_SIZE, CELLANG_SPELLING_IN_SOURCE, "1025");
    expect_spelling("const a[] for 2 := 1,2,3 " S, CELLANG_VALUE_COUNT, CELLANG_SPELLING_IN_SOURCE, ",");
    expect_spelling(S "const a[] for 2 := 1 CELL := 1", CELLANG_VALUE_COUNT, CELLANG_SPELLING_IN_LIST, "cell");
    expect_spelling(S "const a[] for 3 := 1,2", CELLANG_VALUE_COUNT, CELLANG_SPELLING_NONE, "");
    expect_spelling("", CELLANG_NOT_ALLOWED, CELLANG_SPELLING_NONE, "");
    expect_spelling(S "if 1 then", CELLANG_NOT_ALLOWED, CELLANG_SPELLING_NONE, "");
}

static void another_list(void) {
    const char *lists[] = {"", "cell", "Cell time random", "time cell random", "cell time rando", "cell time random ",
                           "cell time random\n"};
    const char *source = S "x := y";
    for (size_t i = 0; i < sizeof lists / sizeof *lists; i++) {
        const uint8_t *list = (const uint8_t *)lists[i];
        const uint32_t shape[] = {1};
        const uint32_t told[CELLANG_REPLY_LENGTH] = {CELLANG_ROOM_LENGTH, 0, 0, 0, 0};
        const uint64_t told_of_run[CELLANG_REPORT_LENGTH] = {CELLANG_ROOM_LENGTH, 0, 0, 0, 0, 0, 0, 0, 0};
        const uint64_t told_of_writing[CELLANG_WRITTEN_LENGTH] = {CELLANG_ROOM_LENGTH, 0, 0, 0, 0, 0};
        const uint32_t told_of_rows[CELLANG_BORDER_LENGTH] = {CELLANG_ROOM_LENGTH, 0, 0, 0, 0, 0, 0};
        const uint32_t whole[] = {0, 0};
        const int32_t pair[] = {0, 1};
        uint32_t of_rows[CELLANG_BORDER_LENGTH], bands[2];
        uint32_t count = UNTOUCHED;
        uint8_t room[4];
        uint32_t reply[CELLANG_REPLY_LENGTH];
        uint64_t report[CELLANG_REPORT_LENGTH];
        run_call *runs[] = {cellang_run_full, cellang_run_quiet};
        memset(words, UNTOUCHED, sizeof words);
        memset(names, UNTOUCHED, sizeof names);
        memset(grid, UNTOUCHED, sizeof grid);
        memset(scratch, UNTOUCHED, sizeof scratch);
        memset(marks, UNTOUCHED, sizeof marks);
        memset(room, UNTOUCHED, sizeof room);
        memset(bands, UNTOUCHED, sizeof bands);
        expect(cellang_check((const uint8_t *)source, strlen(source), list, strlen(lists[i]), words, CELLANG_WORDS, names,
                             CELLANG_NAME_WORDS, reply, CELLANG_REPLY_LENGTH) == CELLANG_ROOM_LENGTH, "another list");
        expect(memcmp(reply, told, sizeof told) == 0, "another list is told");
        expect(cellang_check_one_move((const uint8_t *)source, strlen(source), list, strlen(lists[i]), words, CELLANG_WORDS, names,
                                      CELLANG_NAME_WORDS, reply, CELLANG_PROFILE_LENGTH) == CELLANG_MISSES_ACCEPTANCE,
               "another list beside a rule that moves a pixel once");
        expect(reply[CELLANG_PROFILE_RULE] == CELLANG_MISSES_ACCEPTANCE && reply[CELLANG_PROFILE_NUMBER] == CELLANG_ROOM_LENGTH
                   && reply[CELLANG_PROFILE_PLACE] == 0, "another list beside such a rule is told");
        for (size_t k = 0; k < 2; k++) {
            expect(runs[k]((const uint8_t *)source, strlen(source), list, strlen(lists[i]), words, CELLANG_WORDS, names,
                           CELLANG_NAME_WORDS, shape, 1, grid, 1, scratch, 1, marks, 1, 0, 1, report, CELLANG_REPORT_LENGTH)
                       == CELLANG_ROOM_LENGTH, "another list in a run");
            expect(memcmp(report, told_of_run, sizeof told_of_run) == 0, "another list in a run is told");
        }
        for (size_t k = 0; k < LIST_RUNS; k++) {
            expect(list_runs[k]((const uint8_t *)source, strlen(source), list, strlen(lists[i]), words, CELLANG_WORDS, names,
                                CELLANG_NAME_WORDS, shape, 1, grid, 1, scratch, 1, marks, 1, (const uint8_t *)"x", 1, 0, 1, report,
                                CELLANG_REPORT_LENGTH) == CELLANG_ROOM_LENGTH, "another list beside a value list");
            expect(memcmp(report, told_of_run, sizeof told_of_run) == 0, "another list beside a value list is told");
            expect(count_runs[k]((const uint8_t *)source, strlen(source), list, strlen(lists[i]), words, CELLANG_WORDS, names,
                                 CELLANG_NAME_WORDS, shape, 1, grid, 1, scratch, 1, marks, 1, (const uint8_t *)"x", 1, 0, 1, &count, 1,
                                 9, report, CELLANG_REPORT_LENGTH) == CELLANG_ROOM_LENGTH, "another list in a run with counts");
            expect(memcmp(report, told_of_run, sizeof told_of_run) == 0 && count == UNTOUCHED,
                   "another list in a run with counts is told");
        }
        expect(cellang_write_list((const uint8_t *)source, strlen(source), list, strlen(lists[i]), words, CELLANG_WORDS, names,
                                  CELLANG_NAME_WORDS, shape, 1, pair, 1, pair + 1, 1, 0, room, sizeof room, report,
                                  CELLANG_WRITTEN_LENGTH) == CELLANG_ROOM_LENGTH, "another list in a writing");
        expect(memcmp(report, told_of_writing, sizeof told_of_writing) == 0, "another list in a writing is told");
        expect(cellang_border_rows((const uint8_t *)source, strlen(source), list, strlen(lists[i]), words, CELLANG_WORDS, names,
                                   CELLANG_NAME_WORDS, shape, 1, of_rows, CELLANG_BORDER_LENGTH) == CELLANG_ROOM_LENGTH
                   && memcmp(of_rows, told_of_rows, sizeof of_rows) == 0, "another list beside border rows");
        expect(cellang_check_plan((const uint8_t *)source, strlen(source), list, strlen(lists[i]), words, CELLANG_WORDS, names,
                                  CELLANG_NAME_WORDS, shape, 1, 1, whole, 2, of_rows, CELLANG_REPLY_LENGTH) == CELLANG_ROOM_LENGTH
                   && memcmp(of_rows, told_of_rows, sizeof of_rows) == 0, "another list beside a plan");
        expect(cellang_plan_bands((const uint8_t *)source, strlen(source), list, strlen(lists[i]), words, CELLANG_WORDS, names,
                                  CELLANG_NAME_WORDS, shape, 1, 1, bands, 2, of_rows, CELLANG_PLANNED_LENGTH) == CELLANG_ROOM_LENGTH
                   && memcmp(of_rows, told_of_rows, sizeof of_rows) == 0 && all_bytes(bands, sizeof bands, UNTOUCHED),
               "another list in the planner");
        expect(cellang_step_band((const uint8_t *)source, strlen(source), list, strlen(lists[i]), words, CELLANG_WORDS, names,
                                 CELLANG_NAME_WORDS, shape, 1, 0, 0, 1, pair, 1, grid, 1, 0, report, CELLANG_REPORT_LENGTH)
                       == CELLANG_ROOM_LENGTH
                   && memcmp(report, told_of_run, sizeof told_of_run) == 0, "another list beside a band");
        expect(cellang_run_banded((const uint8_t *)source, strlen(source), list, strlen(lists[i]), words, CELLANG_WORDS, names,
                                  CELLANG_NAME_WORDS, shape, 1, grid, 1, scratch, 1, marks, 1, (const uint8_t *)"x", 1, 0, 1, &count, 1,
                                  1, 9, 1, whole, 2, scratch + 1, 1, report, CELLANG_REPORT_LENGTH) == CELLANG_ROOM_LENGTH
                   && memcmp(report, told_of_run, sizeof told_of_run) == 0 && count == UNTOUCHED, "another list in a run under a plan");
        expect(all_bytes(words, sizeof words, UNTOUCHED) && all_bytes(names, sizeof names, UNTOUCHED)
                   && all_bytes(grid, sizeof grid, UNTOUCHED) && all_bytes(scratch, sizeof scratch, UNTOUCHED)
                   && all_bytes(marks, sizeof marks, UNTOUCHED) && all_bytes(room, sizeof room, UNTOUCHED),
               "another list: nothing is touched");
    }
}

static void lengths(void) {
    static uint8_t longest[CELLANG_MOST_SOURCE + 1];
    uint32_t reply[CELLANG_REPLY_LENGTH + 1];
    for (size_t i = 0; i <= CELLANG_REPLY_LENGTH; i++) {
        reply[i] = UNTOUCHED;
    }
    memset(words, UNTOUCHED, sizeof words);
    memset(names, UNTOUCHED, sizeof names);
    expect(cellang_check(longest, sizeof longest, LIST, words, CELLANG_WORDS - 1, names, CELLANG_NAME_WORDS, reply,
                         CELLANG_REPLY_LENGTH + 1) == CELLANG_ROOM_LENGTH, "rooms before source");
    expect(reply[0] == CELLANG_ROOM_LENGTH && all_bytes(reply + 1, 4 * sizeof *reply, 0)
               && reply[CELLANG_REPLY_LENGTH] == UNTOUCHED, "entries that are not told stay");
    expect(cellang_check(longest, sizeof longest, LIST, words, CELLANG_WORDS, names, CELLANG_NAME_WORDS, reply, 1)
               == CELLANG_SOURCE_TOO_LONG, "source too long");
    expect(reply[0] == CELLANG_SOURCE_TOO_LONG && reply[1] == 0, "one entry is told");
    expect(all_bytes(words, sizeof words, UNTOUCHED) && all_bytes(names, sizeof names, UNTOUCHED), "1 and 2 touch nothing");
    expect(cellang_check(NULL, 0, NULL, 0, NULL, 0, NULL, 0, NULL, 0) == CELLANG_ROOM_LENGTH, "nothing lent");
    expect(cellang_check_one_move(NULL, 0, NULL, 0, NULL, 0, NULL, 0, NULL, 0) == CELLANG_MISSES_ACCEPTANCE,
           "nothing lent beside a rule that moves a pixel once");
    expect(cellang_run_quiet(NULL, 0, NULL, 0, NULL, 0, NULL, 0, NULL, 0, NULL, 0, NULL, 0, NULL, 0, 0, 0, NULL, 0)
               == CELLANG_ROOM_LENGTH, "nothing lent to a run");
    expect(cellang_run_full_list(NULL, 0, NULL, 0, NULL, 0, NULL, 0, NULL, 0, NULL, 0, NULL, 0, NULL, 0, NULL, 0, 0, 0, NULL, 0)
               == CELLANG_ROOM_LENGTH, "nothing lent to a run with a value list");
    expect(cellang_run_pausing(NULL, 0, NULL, 0, NULL, 0, NULL, 0, NULL, 0, NULL, 0, NULL, 0, NULL, 0, NULL, 0, 0, 0, NULL, 0)
               == CELLANG_ROOM_LENGTH, "nothing lent to a run that is to be paused");
    expect(cellang_run_resuming(NULL, 0, NULL, 0, NULL, 0, NULL, 0, NULL, 0, NULL, 0, NULL, 0, NULL, 0, NULL, 0, 0, 0, NULL, 0)
               == CELLANG_ROOM_LENGTH, "nothing lent to a run that is to be resumed");
    for (size_t k = 0; k < LIST_RUNS; k++) {
        expect(count_runs[k](NULL, 0, NULL, 0, NULL, 0, NULL, 0, NULL, 0, NULL, 0, NULL, 0, NULL, 0, NULL, 0, 0, 0, NULL, 0, 0, NULL, 0)
                   == CELLANG_ROOM_LENGTH, "nothing lent to a run with counts");
    }
    expect(cellang_write_list(NULL, 0, NULL, 0, NULL, 0, NULL, 0, NULL, 0, NULL, 0, NULL, 0, 0, NULL, 0, NULL, 0)
               == CELLANG_ROOM_LENGTH, "nothing lent to the writer");
    expect(cellang_border_rows(NULL, 0, NULL, 0, NULL, 0, NULL, 0, NULL, 0, NULL, 0) == CELLANG_ROOM_LENGTH, "nothing lent for border rows");
    expect(cellang_check_plan(NULL, 0, NULL, 0, NULL, 0, NULL, 0, NULL, 0, 0, NULL, 0, NULL, 0) == CELLANG_ROOM_LENGTH,
           "nothing lent beside a plan");
    expect(cellang_plan_bands(NULL, 0, NULL, 0, NULL, 0, NULL, 0, NULL, 0, 0, NULL, 0, NULL, 0) == CELLANG_ROOM_LENGTH,
           "nothing lent to the planner");
    expect(cellang_step_band(NULL, 0, NULL, 0, NULL, 0, NULL, 0, NULL, 0, 0, 0, 0, NULL, 0, NULL, 0, 0, NULL, 0) == CELLANG_ROOM_LENGTH,
           "nothing lent to a band");
    expect(cellang_run_banded(NULL, 0, NULL, 0, NULL, 0, NULL, 0, NULL, 0, NULL, 0, NULL, 0, NULL, 0, NULL, 0, 0, 0, NULL, 0, 0, 0, 0, NULL,
                              0, NULL, 0, NULL, 0) == CELLANG_ROOM_LENGTH, "nothing lent to a run under a plan");
}

static void name_list(void) {
    const char *source = "const low := -3 1 dimensions of a of low..9 const b of 0..1 end forall i : 0..1 x := i end";
    const uint32_t expected[] = {6,  3, CELLANG_CONSTANT, (uint32_t)-3, 32, 1, CELLANG_FIELD,    0,
                                 50, 1, CELLANG_CONST_FIELD, 1,         80, 1, CELLANG_VARIABLE, 0};
    const size_t told = sizeof expected / sizeof *expected;
    expect_check("names", source, CELLANG_DONE, 0);
    expect(memcmp(names, expected, sizeof expected) == 0, "name records");
    expect(all_bytes(names + told, sizeof names - sizeof expected, 0), "zero behind the names");
}

/* ---- value lists */

#define PLANE "2 dimensions of a of -9..9 b of 0..1 c of 0..100 end"
#define PLANE_ENTRIES 24

/* Runs with a value list on a grid of 2 by 4 cells with three fields, which is zero, from time 3 on, 5 steps. A list that is refused leaves
 * the marks as they were in every run. */
static void expect_list(const char *list, uint32_t number, uint64_t line, const int32_t *left) {
    static const int32_t zero[PLANE_ENTRIES] = {0};
    static uint32_t words_of_check[CELLANG_WORDS], names_of_check[CELLANG_NAME_WORDS];
    const uint32_t shape[] = {2, 4};
    const size_t runs = number == CELLANG_DONE ? 2 : LIST_RUNS;
    cellang_check((const uint8_t *)PLANE, strlen(PLANE), LIST, words_of_check, CELLANG_WORDS, names_of_check, CELLANG_NAME_WORDS,
                  NULL, 0);
    for (size_t k = 0; k < runs; k++) {
        uint64_t report[CELLANG_REPORT_LENGTH] = {0};
        const uint64_t refused[CELLANG_REPORT_LENGTH] = {number, 0, 0, 0, 0, 0, 0, 0, line};
        int32_t plane[PLANE_ENTRIES] = {0}, plane_scratch[PLANE_ENTRIES];
        uint8_t plane_marks[8], rest = number == CELLANG_DONE ? 0 : UNTOUCHED;
        uint32_t given;
        memset(plane_scratch, UNTOUCHED, sizeof plane_scratch);
        memset(plane_marks, UNTOUCHED, sizeof plane_marks);
        memset(words, UNTOUCHED, sizeof words);
        memset(names, UNTOUCHED, sizeof names);
        given = list_runs[k]((const uint8_t *)PLANE, strlen(PLANE), LIST, words, CELLANG_WORDS, names, CELLANG_NAME_WORDS, shape, 2,
                             plane, PLANE_ENTRIES, plane_scratch, PLANE_ENTRIES, plane_marks, 8, (const uint8_t *)list,
                             strlen(list), 3, 5, report, CELLANG_REPORT_LENGTH);
        expect(given == number && report[CELLANG_REPORT_NUMBER] == number && report[CELLANG_REPORT_LINE] == line, list);
        if (number == CELLANG_DONE) {
            expect(report[CELLANG_REPORT_STEPS] == 5, list);
        } else {
            expect(memcmp(report, refused, sizeof refused) == 0, list);
        }
        expect(memcmp(plane, left == NULL ? zero : left, sizeof plane) == 0, list);
        expect(all_bytes(plane_scratch, sizeof plane_scratch, rest) && all_bytes(plane_marks, sizeof plane_marks, rest), list);
        expect(memcmp(words, words_of_check, sizeof words) == 0 && memcmp(names, names_of_check, sizeof names) == 0, list);
    }
}

static void value_lists(void) {
    int32_t set[PLANE_ENTRIES] = {0};
    expect_list("", CELLANG_DONE, 0, NULL);
    expect_list("3\n8\n", CELLANG_DONE, 0, NULL);
    expect_list("3\r[0, 0] =\r", CELLANG_DONE, 0, NULL);
    set[9] = 5;
    set[11] = 1;
    set[21] = -8;
    set[22] = 1;
    expect_list("3\n[0, 3] = 5, , 1\n8\n[1, 3] = -9\n\t[ 1,0_3 ] = - 8 , +1\n", CELLANG_DONE, 0, set);
    expect_list("3\n\n", CELLANG_LIST_BAD_LINE, 2, NULL);
    expect_list("3\r\n", CELLANG_LIST_BAD_LINE, 2, NULL);
    expect_list("3\n[0, 3] = 5", CELLANG_LIST_BAD_LINE, 2, NULL);
    expect_list("[0, 3] = 5\n3\n", CELLANG_LIST_BAD_LINE, 1, NULL);
    expect_list("3\n[9] = 5\n", CELLANG_LIST_BAD_LINE, 2, NULL);
    expect_list("3\n[0, 3] = 2147483648\n", CELLANG_LIST_BAD_LINE, 2, NULL);
    expect_list("3\n[0, 3] = --1\n", CELLANG_LIST_BAD_LINE, 2, NULL);
    expect_list("3\n[0, 3] = 1_\n", CELLANG_LIST_BAD_LINE, 2, NULL);
    expect_list("3\n[2, 3] = 5\n", CELLANG_LIST_OUTSIDE_GRID, 2, NULL);
    expect_list("3\n[0, 4] = 10, 2, , 1\n", CELLANG_LIST_OUTSIDE_GRID, 2, NULL);
    expect_list("3\n[0, 3] = , , ,\n", CELLANG_LIST_TOO_MANY_VALUES, 2, NULL);
    expect_list("3\n[1, 3] = 5, 2\n", CELLANG_LIST_VALUE_OUT_OF_RANGE, 2, NULL);
    expect_list("5\n5\n", CELLANG_LIST_TIME_NOT_RISING, 2, NULL);
    expect_list("0_2\n", CELLANG_LIST_TIME_BEFORE_START, 1, NULL);
    expect_list("3\n4\n9\n", CELLANG_LIST_TIME_PAST_END, 3, NULL);
    expect_list("3\n[0, 3] = 5\n[0, 3] = 5\n[0, 4] = 5\n\n", CELLANG_LIST_OUTSIDE_GRID, 4, NULL);
}

/* Runs with a value list on two cells that count up, from time 5 on; the resumed run begins with both open. */
static void expect_block(const char *what, const char *list, int64_t steps, const uint64_t *told, int32_t first, int32_t second) {
    const char *source = "1 dimensions of 0..9 cell := cell + 1";
    const uint32_t shape[] = {2};
    for (size_t k = 0; k < LIST_RUNS; k++) {
        uint64_t report[CELLANG_REPORT_LENGTH];
        memset(grid, 0, sizeof grid);
        memset(marks, UNTOUCHED, sizeof marks);
        expect(list_runs[k]((const uint8_t *)source, strlen(source), LIST, words, CELLANG_WORDS, names, CELLANG_NAME_WORDS, shape, 1,
                            grid, 2, scratch, 2, marks, 2, (const uint8_t *)list, strlen(list), 5, steps, report,
                            CELLANG_REPORT_LENGTH) == told[0], what);
        expect(memcmp(report, told, sizeof report) == 0, what);
        expect(grid[0] == first && grid[1] == second, what);
        expect(all_bytes(marks, 2, k >= 2 && told[0] == CELLANG_DONE), what);
    }
}

static void blocks(void) {
    const uint64_t none[CELLANG_REPORT_LENGTH] = {0}, two[CELLANG_REPORT_LENGTH] = {0, 0, 0, 2, 4};
    const uint64_t fault[CELLANG_REPORT_LENGTH] = {CELLANG_VALUE_OUTSIDE_FIELD, 26, 1, 1, 4};
    expect_block("a block at the start", "5\n[1] = 4\n", 2, two, 2, 6);
    expect_block("a block before the second step", "6\n[1] = 4\n", 2, two, 2, 5);
    expect_block("a block after the last step", "7\n[1] = 4\n", 2, two, 2, 4);
    expect_block("a block of a run of 0 steps", "5\n[1] = 4\n[1] = 3\n", 0, none, 0, 3);
    expect_block("a fault behind a block", "6\n[0] = 2\n[1] = 9\n7\n[0] = 7\n", 4, fault, 2, 9);
}

/* Fewer entries than there are: the first ones are written, and the others stay. */
static void report_lengths(void) {
    const char *list = "0\n[1] = 1\n";
    const uint32_t shape[] = {1};
    const uint64_t told[] = {CELLANG_LIST_OUTSIDE_GRID, 0, 0, 0, 0, 0, 0, 0, 2};
    for (size_t lent = 0; lent <= CELLANG_REPORT_LENGTH + 1; lent++) {
        uint64_t report[CELLANG_REPORT_LENGTH + 2], plain[CELLANG_REPORT_LENGTH + 2];
        for (size_t i = 0; i < CELLANG_REPORT_LENGTH + 2; i++) {
            report[i] = plain[i] = UNTOUCHED;
        }
        grid[0] = 0;
        expect(cellang_run_quiet_list((const uint8_t *)S, strlen(S), LIST, words, CELLANG_WORDS, names, CELLANG_NAME_WORDS, shape, 1,
                                      grid, 1, scratch, 1, marks, 1, (const uint8_t *)list, strlen(list), 0, 1, report, lent)
                   == CELLANG_LIST_OUTSIDE_GRID, "a report of any length");
        expect(cellang_run_full((const uint8_t *)S, strlen(S), LIST, words, CELLANG_WORDS, names, CELLANG_NAME_WORDS, shape, 1, grid, 1,
                                scratch, 1, marks, 1, 0, 1, plain, lent) == CELLANG_DONE, "a report of any length, without a list");
        for (size_t i = 0; i < CELLANG_REPORT_LENGTH + 2; i++) {
            int is_told = i < lent && i < CELLANG_REPORT_LENGTH;
            uint64_t of_plain = i == CELLANG_REPORT_STEPS || i == CELLANG_REPORT_COUNT;
            expect(report[i] == (is_told ? told[i] : UNTOUCHED), "an entry of a report");
            expect(plain[i] == (is_told ? of_plain : UNTOUCHED), "an entry of a report without a list");
        }
    }
}

/* ---- pausing and resuming */

#define SHIFT S "cell := [-1]"
#define COUNT "1 dimensions of 0..3 cell := cell + 1"
#define TIME "1 dimensions of 0..9 cell := time"
#define ROW 5
#define ANY {UNTOUCHED, UNTOUCHED, UNTOUCHED, UNTOUCHED, UNTOUCHED}

/* A call on a row of cells of one field, and what it is to leave. */
struct slice {
    const char *what;
    list_run_call *run;
    const char *source;
    uint32_t cells;
    int32_t grid[ROW];
    uint8_t marks[ROW];
    int64_t start, steps;
    const char *list;
    uint64_t report[CELLANG_REPORT_LENGTH];
    int32_t grid_after[ROW];
    uint8_t marks_after[ROW];
};

/* Each "then" begins from the grid and the marks that the call before it leaves. */
static const struct slice slices[] = {
    {"pausing, 0 steps", cellang_run_pausing, SHIFT, 5, {1, 0, 0, 0, 0}, ANY, 0, 0, "",
     {0, 0, 0, 0, 0}, {1, 0, 0, 0, 0}, {1, 1, 1, 1, 1}},
    {"pausing, 1 step", cellang_run_pausing, SHIFT, 5, {1, 0, 0, 0, 0}, ANY, 0, 1, "",
     {0, 0, 0, 1, 5}, {0, 1, 0, 0, 0}, {1, 1, 1, 0, 0}},
    {"then resuming", cellang_run_resuming, SHIFT, 5, {0, 1, 0, 0, 0}, {1, 1, 1, 0, 0}, 1, 1, "",
     {0, 0, 0, 1, 3}, {0, 0, 1, 0, 0}, {0, 1, 1, 1, 0}},
    {"one mark", cellang_run_resuming, SHIFT, 5, {1, 0, 0, 0, 0}, {0, 7, 0, 0, 0}, 0, 1, "",
     {0, 0, 0, 1, 1}, {1, 1, 0, 0, 0}, {0, 1, 1, 0, 0}},
    {"no mark", cellang_run_resuming, SHIFT, 5, {1, 0, 0, 0, 0}, {0, 0, 0, 0, 0}, 0, 2, "",
     {0, 0, 0, 2, 0}, {1, 0, 0, 0, 0}, {0, 0, 0, 0, 0}},
    {"a block in the earlier call", cellang_run_pausing, SHIFT, 5, {1, 0, 0, 0, 0}, ANY, 0, 1, "1\n[3] = 1\n",
     {0, 0, 0, 1, 5}, {0, 1, 0, 1, 0}, {1, 1, 1, 1, 1}},
    {"then resuming, without a list", cellang_run_resuming, SHIFT, 5, {0, 1, 0, 1, 0}, {1, 1, 1, 1, 1}, 1, 1, "",
     {0, 0, 0, 1, 5}, {0, 0, 1, 0, 1}, {1, 1, 1, 1, 1}},
    {"no block in the earlier call", cellang_run_pausing, SHIFT, 5, {1, 0, 0, 0, 0}, ANY, 0, 1, "",
     {0, 0, 0, 1, 5}, {0, 1, 0, 0, 0}, {1, 1, 1, 0, 0}},
    {"then resuming, with the block", cellang_run_resuming, SHIFT, 5, {0, 1, 0, 0, 0}, {1, 1, 1, 0, 0}, 1, 1, "1\n[3] = 1\n",
     {0, 0, 0, 1, 5}, {0, 0, 1, 0, 1}, {1, 1, 1, 1, 1}},
    {"resuming, 0 steps and a block", cellang_run_resuming, SHIFT, 5, {0, 0, 1, 0, 0}, {0, 0, 3, 0, 0}, 4, 0, "4\n[0] = 1\n",
     {0, 0, 0, 0, 0}, {1, 0, 1, 0, 0}, {1, 1, 1, 0, 0}},
    {"changed and changed back", cellang_run_pausing, SHIFT, 5, {1, 0, 0, 0, 0}, ANY, 0, 1, "1\n[0] = 1\n[1] = 0\n",
     {0, 0, 0, 1, 5}, {1, 0, 0, 0, 0}, {1, 1, 1, 0, 0}},
    {"a fault", cellang_run_pausing, COUNT, 3, {0, 2, 1}, ANY, 0, 5, "",
     {CELLANG_VALUE_OUTSIDE_FIELD, 26, 1, 1, 5}, {1, 3, 2}, {0, 0, 0}},
    {"time opens all cells", cellang_run_resuming, TIME, 2, {0, 0}, {0, 0}, 1, 2, "",
     {0, 0, 0, 2, 4}, {2, 2}, {1, 1}},

    /* faults: only open cells fault, and the marks are zero */
    {"a cell that is not open does not fault", cellang_run_resuming, COUNT, 3, {0, 3, 1}, {200, 0, 1}, 0, 2, "",
     {0, 0, 0, 2, 4}, {2, 3, 3}, {1, 0, 1}},
    {"a fault from lent marks", cellang_run_resuming, COUNT, 3, {0, 3, 1}, {0, 5, 1}, 7, 2, "",
     {CELLANG_VALUE_OUTSIDE_FIELD, 26, 1, 0, 1}, {0, 3, 1}, {0, 0, 0}},
    {"a fault behind a block", cellang_run_resuming, COUNT, 3, {0, 3, 1}, {1, 0, 0}, 0, 3, "1\n[1] = 2\n2\n[2] = 0\n",
     {CELLANG_VALUE_OUTSIDE_FIELD, 26, 1, 2, 5}, {2, 3, 0}, {0, 0, 0}},

    /* refusals: nothing is touched */
    {"sizes", cellang_run_pausing, "2 dimensions of 0..1", 5, {1, 0, 0, 0, 0}, {0, 1, 2, 3, 255}, 0, 1, "",
     {CELLANG_BAD_SHAPE}, {1, 0, 0, 0, 0}, {0, 1, 2, 3, 255}},
    {"times", cellang_run_resuming, SHIFT, 5, {1, 0, 0, 0, 0}, {0, 1, 2, 3, 255}, CELLANG_GREATEST_TIME, 1, "",
     {CELLANG_BAD_TIMES}, {1, 0, 0, 0, 0}, {0, 1, 2, 3, 255}},
    {"an entry out of range", cellang_run_resuming, SHIFT, 5, {1, 0, 2, 0, 0}, {0, 1, 2, 3, 255}, 0, 1, "",
     {CELLANG_ENTRY_OUT_OF_RANGE, 2}, {1, 0, 2, 0, 0}, {0, 1, 2, 3, 255}},
    {"a list that is refused", cellang_run_pausing, SHIFT, 5, {1, 0, 0, 0, 0}, {0, 1, 2, 3, 255}, 0, 1, "0\n[5] = 1\n",
     {CELLANG_LIST_OUTSIDE_GRID, 0, 0, 0, 0, 0, 0, 0, 2}, {1, 0, 0, 0, 0}, {0, 1, 2, 3, 255}},
    {"a block of a time gone by", cellang_run_resuming, SHIFT, 5, {1, 0, 0, 0, 0}, {0, 1, 2, 3, 255}, 3, 1, "2\n[0] = 0\n",
     {CELLANG_LIST_TIME_BEFORE_START, 0, 0, 0, 0, 0, 0, 0, 1}, {1, 0, 0, 0, 0}, {0, 1, 2, 3, 255}},
};

/* Runs on the current row and marks. */
static uint32_t run_slice(list_run_call *run, const char *source, uint32_t cells, uint32_t marks_length, const char *list,
                          int64_t start, int64_t steps, uint64_t *report) {
    memset(scratch, UNTOUCHED, sizeof scratch);
    return run((const uint8_t *)source, strlen(source), LIST, words, CELLANG_WORDS, names, CELLANG_NAME_WORDS, &cells, 1, grid,
               cells, scratch, cells, marks, marks_length, (const uint8_t *)list, strlen(list), start, steps, report,
               CELLANG_REPORT_LENGTH);
}

static void expect_slice(const struct slice *slice) {
    const uint32_t cells = slice->cells;
    uint64_t report[CELLANG_REPORT_LENGTH];
    memcpy(grid, slice->grid, cells * sizeof *grid);
    memcpy(marks, slice->marks, cells);
    expect(run_slice(slice->run, slice->source, cells, cells, slice->list, slice->start, slice->steps, report) == slice->report[0],
           slice->what);
    expect(memcmp(report, slice->report, sizeof report) == 0, slice->what);
    expect(memcmp(grid, slice->grid_after, cells * sizeof *grid) == 0, slice->what);
    expect(memcmp(marks, slice->marks_after, cells) == 0, slice->what);
    expect(all_bytes(scratch, cells * sizeof *scratch, began(slice->report[0]) ? 0 : UNTOUCHED), slice->what);
}

/* Marks that are not one a cell are refused, and nothing is touched. */
static void wrong_marks(void) {
    const uint64_t refused[CELLANG_REPORT_LENGTH] = {CELLANG_LENT_LENGTH};
    const uint32_t lengths[] = {0, ROW - 1, ROW + 1};
    for (size_t i = 0; i < 3; i++) {
        for (size_t k = 2; k < LIST_RUNS; k++) {
            uint64_t report[CELLANG_REPORT_LENGTH];
            memset(grid, 0, sizeof grid);
            memset(marks, UNTOUCHED, sizeof marks);
            expect(run_slice(list_runs[k], SHIFT, ROW, lengths[i], "0\n[0] = 1\n", 0, 1, report) == CELLANG_LENT_LENGTH, "21");
            expect(memcmp(report, refused, sizeof report) == 0, "21 is told");
            expect(all_bytes(grid, sizeof grid, 0) && all_bytes(marks, sizeof marks, UNTOUCHED)
                       && all_bytes(scratch, sizeof scratch, UNTOUCHED), "21 touches nothing");
        }
    }
}

/* Every choice of open cells: these take their left neighbour, and the others keep what they have. */
static void any_marks(void) {
    const int32_t before[ROW] = {1, 0, 1, 1, 0};
    for (unsigned choice = 0; choice < 1u << ROW; choice++) {
        uint64_t told[CELLANG_REPORT_LENGTH] = {0, 0, 0, 1, 0}, report[CELLANG_REPORT_LENGTH];
        int32_t after[ROW];
        uint8_t standing[ROW];
        for (unsigned cell = 0; cell < ROW; cell++) {
            int open = choice >> cell & 1;
            grid[cell] = before[cell];
            marks[cell] = (uint8_t)(open ? 1 + 50 * cell : 0);
            after[cell] = before[open ? (cell + ROW - 1) % ROW : cell];
            told[CELLANG_REPORT_COUNT] += (uint64_t)open;
        }
        for (unsigned cell = 0; cell < ROW; cell++) {
            unsigned left = (cell + ROW - 1) % ROW;
            standing[cell] = before[cell] != after[cell] || before[left] != after[left];
        }
        expect(run_slice(cellang_run_resuming, SHIFT, ROW, ROW, "", 0, 1, report) == CELLANG_DONE, "any marks");
        expect(memcmp(report, told, sizeof report) == 0, "any marks: the report");
        expect(memcmp(grid, after, sizeof after) == 0, "any marks: the grid");
        expect(memcmp(marks, standing, sizeof standing) == 0, "any marks: those that stand");
    }
}

/* ---- joined calls */

#define JOINED_START 3
#define JOINED_STEPS 6
#define JOINED_BLOCKS 4

static const char *const joined_blocks[JOINED_BLOCKS] = {"3\n[3] = 1\n", "5\n[0] = 1\n[1] = 0\n", "6\n[5] = 1\n", "9\n[2] = 1\n"};
static const int64_t joined_times[JOINED_BLOCKS] = {3, 5, 6, 9};

/* What calls leave: the last one's report, with the steps and the counts of all, and grid and marks. */
struct joined {
    uint64_t report[CELLANG_REPORT_LENGTH];
    int32_t grid[MOST_CELLS];
    uint8_t marks[MOST_CELLS];
};

/* Lends a row and its marks, for a chain of calls that begins. */
static void begin_chain(struct joined *chain, const int32_t *row, const uint8_t *lent) {
    memset(chain, 0, sizeof *chain);
    memcpy(chain->grid, row, sizeof chain->grid);
    memcpy(chain->marks, lent, sizeof chain->marks);
}

/* One more call, with these blocks; after a fault or a refusal there is none. */
static void add_call(struct joined *chain, list_run_call *run, const char *source, size_t first, size_t end, int64_t start,
                     int64_t steps) {
    uint64_t report[CELLANG_REPORT_LENGTH];
    char list[64] = "";
    if (chain->report[0] != CELLANG_DONE) {
        return;
    }
    for (size_t i = first; i < end; i++) {
        strcat(list, joined_blocks[i]);
    }
    memcpy(grid, chain->grid, sizeof grid);
    memcpy(marks, chain->marks, sizeof marks);
    run_slice(run, source, MOST_CELLS, MOST_CELLS, list, start, steps, report);
    report[CELLANG_REPORT_STEPS] += chain->report[CELLANG_REPORT_STEPS];
    report[CELLANG_REPORT_COUNT] += chain->report[CELLANG_REPORT_COUNT];
    memcpy(chain->report, report, sizeof report);
    memcpy(chain->grid, grid, sizeof grid);
    memcpy(chain->marks, marks, sizeof marks);
}

static void expect_same(const char *what, const struct joined *chain, const struct joined *at_once) {
    expect(memcmp(chain->report, at_once->report, sizeof chain->report) == 0, what);
    expect(memcmp(chain->grid, at_once->grid, sizeof chain->grid) == 0, what);
    expect(memcmp(chain->marks, at_once->marks, sizeof chain->marks) == 0, what);
}

/* Six steps at once, and the same steps in two calls and in seven. */
static void expect_joined(const char *source, uint64_t number, list_run_call *run, const int32_t *row, const uint8_t *lent) {
    const int64_t start = JOINED_START;
    struct joined at_once, chain;
    begin_chain(&at_once, row, lent);
    add_call(&at_once, run, source, 0, JOINED_BLOCKS, start, JOINED_STEPS);
    expect(at_once.report[0] == number, source);
    /* divided after each number of steps, with a block of that time in either list */
    for (int64_t steps = 0; steps <= JOINED_STEPS; steps++) {
        for (size_t parted = 0; parted <= JOINED_BLOCKS; parted++) {
            if ((parted == 0 || joined_times[parted - 1] <= start + steps)
                && (parted == JOINED_BLOCKS || joined_times[parted] >= start + steps)) {
                begin_chain(&chain, row, lent);
                add_call(&chain, run, source, 0, parted, start, steps);
                add_call(&chain, cellang_run_resuming, source, parted, JOINED_BLOCKS, start + steps, JOINED_STEPS - steps);
                expect_same(source, &chain, &at_once);
            }
        }
    }
    /* one step a call, and then none */
    begin_chain(&chain, row, lent);
    for (int64_t steps = 0, first = 0; steps <= JOINED_STEPS; steps++) {
        int64_t end = first + (first < JOINED_BLOCKS && joined_times[first] == start + steps);
        add_call(&chain, steps == 0 ? run : cellang_run_resuming, source, (size_t)first, (size_t)end, start + steps,
                 steps < JOINED_STEPS);
        first = end;
    }
    expect_same(source, &chain, &at_once);
    /* a run that begins with all cells open is the quiet run, and agrees with the full one */
    if (run == cellang_run_pausing) {
        begin_chain(&chain, row, lent);
        add_call(&chain, cellang_run_quiet_list, source, 0, JOINED_BLOCKS, start, JOINED_STEPS);
        memcpy(chain.marks, at_once.marks, sizeof chain.marks);
        expect_same(source, &chain, &at_once);
        begin_chain(&chain, row, lent);
        add_call(&chain, cellang_run_full_list, source, 0, JOINED_BLOCKS, start, JOINED_STEPS);
        expect(chain.report[CELLANG_REPORT_COUNT] >= at_once.report[CELLANG_REPORT_COUNT], source);
        chain.report[CELLANG_REPORT_COUNT] = at_once.report[CELLANG_REPORT_COUNT];
        memcpy(chain.marks, at_once.marks, sizeof chain.marks);
        expect_same(source, &chain, &at_once);
    }
}

static void pauses(void) {
    const char *sources[] = {SHIFT, S "cell := [-1] != [2]", "1 dimensions of 0..9 cell := cell + 1 when time > 4",
                             "1 dimensions of 0..5 cell := cell + 1 when [1] < 5"};
    const uint64_t numbers[] = {CELLANG_DONE, CELLANG_DONE, CELLANG_DONE, CELLANG_VALUE_OUTSIDE_FIELD};
    const int32_t rows[][MOST_CELLS] = {{1, 0, 0, 0, 0, 0, 0, 0}, {0, 1, 1, 0, 1, 0, 0, 1}};
    const uint8_t lent[][MOST_CELLS] = {{0}, {0, 3, 0, 0, 255, 0, 0, 1}, {1, 1, 1, 1, 1, 1, 1, 1}};
    for (size_t i = 0; i < sizeof slices / sizeof *slices; i++) {
        expect_slice(&slices[i]);
    }
    wrong_marks();
    any_marks();
    for (size_t i = 0; i < sizeof sources / sizeof *sources; i++) {
        for (size_t row = 0; row < sizeof rows / sizeof *rows; row++) {
            expect_joined(sources[i], numbers[i], cellang_run_pausing, rows[row], lent[0]);
            for (size_t k = 0; k < sizeof lent / sizeof *lent; k++) {
                expect_joined(sources[i], numbers[i], cellang_run_resuming, rows[row], lent[k]);
            }
        }
    }
}

/* ---- row counts */

#define MOST_ROWS 6
#define COUNTED_PLANE "2 dimensions of 0..1"
#define PIXELS "2 dimensions of a of 0..9 m of 0..1 end if cell.m = 0 then cell.a := [0,1].a cell.m := 1 end"

/* A run with row counts from time 0 on, and what it is to leave. Of a refusal the counts are to be as they were. */
struct counting {
    const char *what;
    const char *source;
    uint32_t shape[3];
    size_t dimensions, entries, cells;
    int32_t grid[ROW * 2];
    int64_t steps;
    const char *list;
    uint32_t field;
    size_t counts;
    uint64_t number, place, cell, steps_done, line;
    int32_t grid_after[ROW * 2];
    uint32_t counts_after[MOST_ROWS];
};

static const struct counting countings[] = {
    {"0 steps", SHIFT, {5}, 1, 5, 5, {1, 0, 0, 0, 0}, 0, "", 0, 5, 0, 0, 0, 0, 0, {1, 0, 0, 0, 0}, {0, 1, 1, 1, 1}},
    {"2 steps", SHIFT, {5}, 1, 5, 5, {1, 0, 0, 0, 0}, 2, "", 0, 5, 0, 0, 0, 2, 0, {0, 0, 1, 0, 0}, {1, 1, 0, 1, 1}},
    {"a fault", COUNT, {3}, 1, 3, 3, {0, 2, 1}, 5, "", 0, 3, CELLANG_VALUE_OUTSIDE_FIELD, 26, 1, 1, 0, {1, 3, 2}, {0, 0, 0}},
    {"a fault behind a block", COUNT, {3}, 1, 3, 3, {0, 2, 1}, 5, "1\n[0] = 0\n", 0, 3, CELLANG_VALUE_OUTSIDE_FIELD, 26, 1, 1, 0,
     {0, 3, 2}, {1, 0, 0}},
    {"rows of two cells", COUNTED_PLANE, {5, 2}, 2, 10, 10, {0, 0, 1, 1, 0, 1, 1, 0, 1, 1}, 0, "", 0, 5, 0, 0, 0, 0, 0,
     {0, 0, 1, 1, 0, 1, 1, 0, 1, 1}, {2, 0, 1, 1, 0}},
    {"a block of the start time", COUNTED_PLANE, {5, 2}, 2, 10, 10, {0, 0, 1, 1, 0, 1, 1, 0, 1, 1}, 0, "0\n[1, 1] = 0\n", 0, 5, 0, 0, 0,
     0, 0, {0, 0, 1, 0, 0, 1, 1, 0, 1, 1}, {2, 1, 1, 1, 0}},
    {"a block behind the last step", COUNTED_PLANE, {5, 2}, 2, 10, 10, {0, 0, 1, 1, 0, 1, 1, 0, 1, 1}, 3, "3\n[0, 0] = 1\n", 0, 5, 0, 0,
     0, 3, 0, {1, 0, 1, 1, 0, 1, 1, 0, 1, 1}, {1, 0, 1, 1, 0}},
    {"the first of two fields", PIXELS, {2, 2}, 2, 8, 4, {3, 0, 0, 0, 5, 1, 0, 0}, 1, "", 0, 2, 0, 0, 0, 1, 0, {0, 1, 3, 1, 5, 1, 5, 1},
     {1, 0}},
    {"the second of two fields", PIXELS, {2, 2}, 2, 8, 4, {3, 0, 0, 1, 5, 1, 0, 0}, 0, "", 1, 2, 0, 0, 0, 0, 0, {3, 0, 0, 1, 5, 1, 0, 0},
     {1, 1}},
    {"the second of two fields, a step on", PIXELS, {2, 2}, 2, 8, 4, {3, 0, 0, 1, 5, 1, 0, 0}, 1, "1\n[0, 1] = , 0\n", 1, 2, 0, 0, 0, 1, 0,
     {0, 1, 0, 0, 5, 1, 5, 1}, {1, 0}},
    {"rows that are planes", "3 dimensions of 0..1", {2, 2, 2}, 3, 8, 8, {0, 1, 0, 0, 1, 1, 1, 1}, 2, "", 0, 2, 0, 0, 0, 2, 0,
     {0, 1, 0, 0, 1, 1, 1, 1}, {3, 0}},

    /* refusals */
    {"no such field", SHIFT, {5}, 1, 5, 5, {1, 0, 0, 0, 0}, 2, "", 1, 5, CELLANG_BAD_COUNTS, 0, 0, 0, 0, {1, 0, 0, 0, 0}, {0}},
    {"no such field by far", SHIFT, {5}, 1, 5, 5, {1, 0, 0, 0, 0}, 2, "", UINT32_MAX, 5, CELLANG_BAD_COUNTS, 0, 0, 0, 0,
     {1, 0, 0, 0, 0}, {0}},
    {"no third field", PIXELS, {2, 2}, 2, 8, 4, {3, 0, 0, 0, 5, 1, 0, 0}, 1, "", 2, 2, CELLANG_BAD_COUNTS, 0, 0, 0, 0,
     {3, 0, 0, 0, 5, 1, 0, 0}, {0}},
    {"counts too few, before the list", SHIFT, {5}, 1, 5, 5, {1, 0, 0, 0, 0}, 2, "\n", 0, 4, CELLANG_BAD_COUNTS, 0, 0, 0, 0,
     {1, 0, 0, 0, 0}, {0}},
    {"counts too many", SHIFT, {5}, 1, 5, 5, {1, 0, 0, 0, 0}, 2, "", 0, 6, CELLANG_BAD_COUNTS, 0, 0, 0, 0, {1, 0, 0, 0, 0}, {0}},
    {"no counts", SHIFT, {5}, 1, 5, 5, {1, 0, 0, 0, 0}, 2, "", 0, 0, CELLANG_BAD_COUNTS, 0, 0, 0, 0, {1, 0, 0, 0, 0}, {0}},
    {"counts of cells", COUNTED_PLANE, {2, 3}, 2, 6, 6, {0}, 2, "", 0, 6, CELLANG_BAD_COUNTS, 0, 0, 0, 0, {0}, {0}},
    {"an entry before the counts", SHIFT, {5}, 1, 5, 5, {1, 0, 2, 0, 0}, 2, "", 0, 4, CELLANG_ENTRY_OUT_OF_RANGE, 2, 0, 0, 0,
     {1, 0, 2, 0, 0}, {0}},
    {"times before the counts", SHIFT, {5}, 1, 5, 5, {1, 0, 0, 0, 0}, -1, "", 9, 4, CELLANG_BAD_TIMES, 0, 0, 0, 0, {1, 0, 0, 0, 0}, {0}},
    {"sizes before the counts", SHIFT, {0}, 1, 5, 5, {1, 0, 0, 0, 0}, 2, "", 9, 4, CELLANG_BAD_SHAPE, 0, 0, 0, 0, {1, 0, 0, 0, 0}, {0}},
    {"a list behind the counts", SHIFT, {5}, 1, 5, 5, {1, 0, 0, 0, 0}, 2, "9\n", 0, 5, CELLANG_LIST_TIME_PAST_END, 0, 0, 0, 1,
     {1, 0, 0, 0, 0}, {0}},
    {"a line behind the counts", SHIFT, {5}, 1, 5, 5, {1, 0, 0, 0, 0}, 2, "1\n[5] = 1\n", 0, 5, CELLANG_LIST_OUTSIDE_GRID, 0, 0, 0, 2,
     {1, 0, 0, 0, 0}, {0}},
};

/* Runs in each manner, a resumed run with all cells open, and holds it to what is expected and to the run without counts. */
static void expect_counting(const struct counting *c) {
    for (size_t k = 0; k < LIST_RUNS; k++) {
        const uint8_t *source = (const uint8_t *)c->source, *list = (const uint8_t *)c->list;
        const size_t grid_size = c->entries * sizeof(int32_t);
        uint64_t report[CELLANG_REPORT_LENGTH], plain[CELLANG_REPORT_LENGTH];
        int32_t left[ROW * 2], plain_left[ROW * 2], row_scratch[ROW * 2];
        uint8_t row_marks[ROW * 2], plain_marks[ROW * 2];
        uint32_t counts[MOST_ROWS];
        memcpy(left, c->grid, grid_size);
        memcpy(plain_left, c->grid, grid_size);
        memset(row_scratch, UNTOUCHED, sizeof row_scratch);
        memset(row_marks, UNTOUCHED, sizeof row_marks);
        memset(plain_marks, UNTOUCHED, sizeof plain_marks);
        memset(counts, UNTOUCHED, sizeof counts);
        expect(count_runs[k](source, strlen(c->source), LIST, words, CELLANG_WORDS, names, CELLANG_NAME_WORDS, c->shape, c->dimensions,
                             left, c->entries, row_scratch, c->entries, row_marks, c->cells, list, strlen(c->list), 0, c->steps, counts,
                             c->counts, c->field, report, CELLANG_REPORT_LENGTH) == c->number, c->what);
        expect(report[CELLANG_REPORT_NUMBER] == c->number && report[CELLANG_REPORT_PLACE] == c->place
                   && report[CELLANG_REPORT_CELL] == c->cell && report[CELLANG_REPORT_STEPS] == c->steps_done
                   && report[CELLANG_REPORT_LINE] == c->line, c->what);
        expect(memcmp(left, c->grid_after, grid_size) == 0, c->what);
        if (began(c->number)) {
            expect(memcmp(counts, c->counts_after, c->counts * sizeof *counts) == 0, c->what);
            expect(all_bytes(counts + c->counts, sizeof counts - c->counts * sizeof *counts, UNTOUCHED), c->what);
            expect(all_bytes(row_scratch, grid_size, 0), c->what);
        } else {
            expect(all_bytes(counts, sizeof counts, UNTOUCHED), c->what);
            expect(all_bytes(row_scratch, sizeof row_scratch, UNTOUCHED) && all_bytes(row_marks, sizeof row_marks, UNTOUCHED), c->what);
        }
        if (c->number == CELLANG_BAD_COUNTS) {
            const uint64_t refused[CELLANG_REPORT_LENGTH] = {CELLANG_BAD_COUNTS};
            expect(memcmp(report, refused, sizeof report) == 0, c->what);
        } else {
            expect(list_runs[k](source, strlen(c->source), LIST, words, CELLANG_WORDS, names, CELLANG_NAME_WORDS, c->shape, c->dimensions,
                                plain_left, c->entries, row_scratch, c->entries, plain_marks, c->cells, list, strlen(c->list), 0, c->steps,
                                plain, CELLANG_REPORT_LENGTH) == c->number, c->what);
            expect(memcmp(report, plain, sizeof report) == 0 && memcmp(left, plain_left, grid_size) == 0
                       && memcmp(row_marks, plain_marks, sizeof row_marks) == 0, c->what);
        }
    }
}

/* A paused run, and the one that resumes it: the counts are filled anew. */
static void counts_of_slices(void) {
    const uint32_t shape[] = {ROW}, after[] = {1, 0, 1, 0, 1}, later[] = {1, 1, 0, 1, 0};
    const char *list = "1\n[3] = 1\n";
    const int32_t row[ROW] = {1, 0, 0, 0, 0};
    uint64_t report[CELLANG_REPORT_LENGTH];
    uint32_t counts[ROW];
    memcpy(grid, row, sizeof row);
    memset(counts, UNTOUCHED, sizeof counts);
    expect(cellang_run_pausing_counts((const uint8_t *)SHIFT, strlen(SHIFT), LIST, words, CELLANG_WORDS, names, CELLANG_NAME_WORDS, shape,
                                      1, grid, ROW, scratch, ROW, marks, ROW, (const uint8_t *)list, strlen(list), 0, 1, counts, ROW, 0,
                                      report, CELLANG_REPORT_LENGTH) == CELLANG_DONE, "a slice with counts");
    expect(memcmp(counts, after, sizeof counts) == 0, "the counts of a slice");
    memset(counts, UNTOUCHED, sizeof counts);
    expect(cellang_run_resuming_counts((const uint8_t *)SHIFT, strlen(SHIFT), LIST, words, CELLANG_WORDS, names, CELLANG_NAME_WORDS, shape,
                                       1, grid, ROW, scratch, ROW, marks, ROW, NULL, 0, 1, 1, counts, ROW, 0, report,
                                       CELLANG_REPORT_LENGTH) == CELLANG_DONE, "a later slice with counts");
    expect(memcmp(counts, later, sizeof counts) == 0, "the counts of a later slice");
}

/* Asks how many zeros there are in rows, by replies of any length. */
static void expect_zeros(const uint32_t *counts, size_t length, uint32_t first, uint32_t last, uint32_t number, uint64_t value) {
    const uint64_t told[CELLANG_ROWS_LENGTH] = {number, value};
    for (size_t lent = 0; lent <= CELLANG_ROWS_LENGTH + 1; lent++) {
        uint64_t reply[CELLANG_ROWS_LENGTH + 1] = {UNTOUCHED, UNTOUCHED, UNTOUCHED};
        expect(cellang_zeros_in_rows(counts, length, first, last, reply, lent) == number, "how many zeros");
        for (size_t i = 0; i <= CELLANG_ROWS_LENGTH; i++) {
            expect(reply[i] == (i < lent && i < CELLANG_ROWS_LENGTH ? told[i] : UNTOUCHED), "how many zeros are told");
        }
    }
}

/* Asks which is the first row with a zero. */
static void expect_first(const uint32_t *counts, size_t length, uint32_t number, uint64_t row) {
    const uint64_t told[CELLANG_ROWS_LENGTH] = {number, row};
    for (size_t lent = 0; lent <= CELLANG_ROWS_LENGTH + 1; lent++) {
        uint64_t reply[CELLANG_ROWS_LENGTH + 1] = {UNTOUCHED, UNTOUCHED, UNTOUCHED};
        expect(cellang_first_zero_row(counts, length, reply, lent) == number, "the first row with a zero");
        for (size_t i = 0; i <= CELLANG_ROWS_LENGTH; i++) {
            expect(reply[i] == (i < lent && i < CELLANG_ROWS_LENGTH ? told[i] : UNTOUCHED), "the first row with a zero is told");
        }
    }
}

static void row_counts(void) {
    static uint32_t most[CELLANG_MOST_SIZE + 1];
    const uint32_t five[] = {2, 0, 1, 1, 0}, later[] = {0, 0, 1, 1, 0}, none[] = {0, 0}, large[] = {UINT32_MAX, UINT32_MAX};
    for (size_t i = 0; i < sizeof countings / sizeof *countings; i++) {
        expect_counting(&countings[i]);
    }
    counts_of_slices();
    expect_zeros(five, 5, 1, 3, CELLANG_DONE, 2);
    expect_zeros(five, 5, 0, 4, CELLANG_DONE, 4);
    expect_zeros(five, 5, 4, 4, CELLANG_DONE, 0);
    expect_zeros(five, 5, 0, 0, CELLANG_DONE, 2);
    expect_zeros(five, 5, 3, 1, CELLANG_BAD_COUNTS, 0);
    expect_zeros(five, 5, 0, 5, CELLANG_BAD_COUNTS, 0);
    expect_zeros(five, 5, 5, 5, CELLANG_BAD_COUNTS, 0);
    expect_zeros(five, 5, UINT32_MAX, UINT32_MAX, CELLANG_BAD_COUNTS, 0);
    expect_zeros(NULL, 0, 0, 0, CELLANG_BAD_COUNTS, 0);
    expect_zeros(large, 2, 0, 1, CELLANG_DONE, 2 * (uint64_t)UINT32_MAX);
    expect_first(five, 5, CELLANG_DONE, 0);
    expect_first(later, 5, CELLANG_DONE, 2);
    expect_first(none, 2, CELLANG_NO_ZERO_ROW, 0);
    expect_first(NULL, 0, CELLANG_BAD_COUNTS, 0);
    expect_first(most, CELLANG_MOST_SIZE, CELLANG_NO_ZERO_ROW, 0);
    expect_first(most, CELLANG_MOST_SIZE + 1, CELLANG_BAD_COUNTS, 0);
    most[CELLANG_MOST_SIZE - 1] = 3;
    expect_first(most, CELLANG_MOST_SIZE, CELLANG_DONE, CELLANG_MOST_SIZE - 1);
    expect_zeros(most, CELLANG_MOST_SIZE, 0, CELLANG_MOST_SIZE - 1, CELLANG_DONE, 3);
    expect_zeros(most, CELLANG_MOST_SIZE + 1, 0, 1, CELLANG_BAD_COUNTS, 0);
}

/* ---- bands of rows */

#define TENS "1 dimensions of 0..9 "
#define FROM_BEFORE TENS "cell := [-1]"
#define MOST_PLAN 24
#define STRIP 16

/* What cellang_check returns of a source and leaves. */
static uint32_t checked[CELLANG_REPLY_LENGTH], checked_words[CELLANG_WORDS], checked_names[CELLANG_NAME_WORDS];

/* Checks a source, and makes words and names ready for a call that is to leave them so. */
static void check_beside(const char *source) {
    memset(checked_words, UNTOUCHED, sizeof checked_words);
    memset(checked_names, UNTOUCHED, sizeof checked_names);
    cellang_check((const uint8_t *)source, strlen(source), LIST, checked_words, CELLANG_WORDS, checked_names, CELLANG_NAME_WORDS,
                  checked, CELLANG_REPLY_LENGTH);
    memset(words, UNTOUCHED, sizeof words);
    memset(names, UNTOUCHED, sizeof names);
}

static int left_as_checked(void) {
    return memcmp(words, checked_words, sizeof words) == 0 && memcmp(names, checked_names, sizeof names) == 0;
}

/* Whether of a reply, which held UNTOUCHED and of which so many entries were passed, the first ones are written and the others stayed. */
static int told_first(const uint32_t *reply, size_t lent, const uint32_t *told, size_t length) {
    for (size_t i = 0; i <= length; i++) {
        if (reply[i] != (i < lent && i < length ? told[i] : UNTOUCHED)) {
            return 0;
        }
    }
    return 1;
}

/* Asks for the border rows of a source, by replies of any length. */
static void expect_border(const char *source, const uint32_t *shape, size_t dimensions, uint32_t number, uint32_t place, uint32_t before,
                          uint32_t behind) {
    for (size_t lent = 0; lent <= CELLANG_BORDER_LENGTH + 1; lent++) {
        uint32_t told[CELLANG_BORDER_LENGTH] = {number, place, before, behind, 0, 0, 0};
        uint32_t reply[CELLANG_BORDER_LENGTH + 1];
        for (size_t i = 0; i <= CELLANG_BORDER_LENGTH; i++) {
            reply[i] = UNTOUCHED;
        }
        check_beside(source);
        memcpy(told + CELLANG_BORDER_SPELLING, checked + CELLANG_REPLY_SPELLING, 3 * sizeof *told);
        expect(cellang_border_rows((const uint8_t *)source, strlen(source), LIST, words, CELLANG_WORDS, names, CELLANG_NAME_WORDS, shape,
                                   dimensions, reply, lent) == number, source);
        expect(told_first(reply, lent, told, CELLANG_BORDER_LENGTH) && left_as_checked(), source);
    }
}

static void borders(void) {
    const uint32_t five[] = {5}, three[] = {3}, plane[] = {4, 3}, space[] = {3, 2, 2}, wide[] = {3, 32}, none[] = {0}, most[] = {4096};
    expect_border(TENS, five, 1, CELLANG_DONE, 0, 0, 0);
    expect_border(FROM_BEFORE, five, 1, CELLANG_DONE, 0, 1, 0);
    expect_border(TENS "cell := [-1] + [2]", five, 1, CELLANG_DONE, 0, 1, 2);
    expect_border(TENS "cell := [2] + [4]", five, 1, CELLANG_DONE, 0, 0, 4);
    expect_border(TENS "if 0 then cell := [-3] end", three, 1, CELLANG_DONE, 0, 3, 0);
    expect_border(TENS "forall i : -3..2 cell := [i] end", three, 1, CELLANG_DONE, 0, 3, 2);
    expect_border(TENS "cell := [-4096] + [4096]", most, 1, CELLANG_DONE, 0, 4096, 4096);
    expect_border("2 dimensions of 0..9 cell := [0,3] + [1,-2]", plane, 2, CELLANG_DONE, 0, 0, 1);
    expect_border("3 dimensions of 0..9 cell := [-2,1,2] + [0,2,-2]", space, 3, CELLANG_DONE, 0, 2, 0);
    /* more than 256 places */
    expect_border("2 dimensions of 0..9 forall i : -2..1 forall j : -32..32 cell := [i,j] end end", wide, 2, CELLANG_DONE, 0, 2, 1);
    expect_border(TENS "cell := [6] + x", none, 0, CELLANG_NAME_UNKNOWN, 35, 0, 0);
    expect_border("const Time := 1", five, 1, CELLANG_NAME_USED, 6, 0, 0);
    expect_border("4 dimensions of 0..1", five, 1, CELLANG_BAD_DIMENSIONS, 0, 0, 0);
    expect_border(TENS "cell := [6]", plane, 2, CELLANG_BAD_SHAPE, 0, 0, 0);
    expect_border(TENS "cell := [6]", none, 1, CELLANG_BAD_SHAPE, 0, 0, 0);
    expect_border(TENS "cell := [6]", five, 1, CELLANG_INDEX_TOO_FAR, 30, 0, 0);
    expect_border("2 dimensions of 0..9 cell := [1,4]", plane, 2, CELLANG_INDEX_TOO_FAR, 32, 0, 0);
}

/* Checks a plan, by replies of any length. */
static void expect_plan(const char *what, const char *source, const uint32_t *shape, size_t dimensions, uint32_t held,
                        const uint32_t *plan, size_t plan_length, uint32_t number, uint32_t place) {
    for (size_t lent = 0; lent <= CELLANG_REPLY_LENGTH + 1; lent++) {
        uint32_t told[CELLANG_REPLY_LENGTH] = {number, place, 0, 0, 0};
        uint32_t reply[CELLANG_REPLY_LENGTH + 1];
        for (size_t i = 0; i <= CELLANG_REPLY_LENGTH; i++) {
            reply[i] = UNTOUCHED;
        }
        check_beside(source);
        memcpy(told + CELLANG_REPLY_SPELLING, checked + CELLANG_REPLY_SPELLING, 3 * sizeof *told);
        expect(cellang_check_plan((const uint8_t *)source, strlen(source), LIST, words, CELLANG_WORDS, names, CELLANG_NAME_WORDS, shape,
                                  dimensions, held, plan, plan_length, reply, lent) == number, what);
        expect(told_first(reply, lent, told, CELLANG_REPLY_LENGTH) && left_as_checked(), what);
    }
}

/* Plans in a room of which so many entries are passed, by replies of any length; the plan is to be at its front, and the rest is to stay. */
static void expect_planned(const char *what, const char *source, const uint32_t *shape, size_t dimensions, uint32_t held, size_t length,
                           uint32_t number, uint32_t place, uint32_t bands, const uint32_t *plan) {
    for (size_t lent = 0; lent <= CELLANG_PLANNED_LENGTH + 1; lent++) {
        uint32_t told[CELLANG_PLANNED_LENGTH] = {number, place, bands, 0, 0, 0};
        uint32_t reply[CELLANG_PLANNED_LENGTH + 1], room[MOST_PLAN];
        for (size_t i = 0; i <= CELLANG_PLANNED_LENGTH; i++) {
            reply[i] = UNTOUCHED;
        }
        memset(room, UNTOUCHED, sizeof room);
        check_beside(source);
        memcpy(told + CELLANG_PLANNED_SPELLING, checked + CELLANG_REPLY_SPELLING, 3 * sizeof *told);
        expect(cellang_plan_bands((const uint8_t *)source, strlen(source), LIST, words, CELLANG_WORDS, names, CELLANG_NAME_WORDS, shape,
                                  dimensions, held, room, length, reply, lent) == number, what);
        expect(told_first(reply, lent, told, CELLANG_PLANNED_LENGTH) && left_as_checked(), what);
        expect(bands == 0 || memcmp(room, plan, 2 * bands * sizeof *room) == 0, what);
        expect(all_bytes(room + 2 * bands, sizeof room - 2 * bands * sizeof *room, UNTOUCHED), what);
    }
}

static void plans(void) {
    const uint32_t five[] = {5}, ten[] = {10}, three[] = {3}, one[] = {1}, plane[] = {2, 3}, square[] = {5, 5}, none[] = {0};
    const uint32_t twos[] = {0, 1, 2, 3, 4, 4}, ones[] = {0, 0, 1, 1, 2, 2, 3, 3, 4, 4}, four[] = {0, 3, 4, 4}, whole[] = {0, 4};
    const uint32_t threes[] = {0, 2, 3, 5, 6, 8, 9, 9}, other[] = {0, 0, 1, 2, 3, 4}, gap[] = {0, 0, 2, 3, 4, 4};
    const uint32_t overlap[] = {0, 1, 1, 2, 3, 4}, early[] = {0, 1, 2, 3}, long_band[] = {0, 2, 3, 4}, reversed[] = {0, 1, 3, 2, 4, 4};
    const uint32_t odd[] = {0, 1, 2, 3, 4}, past[] = {0, 1, 2, 3, 4, 5}, late[] = {1, 2, 3, 4}, turned[] = {2, 3, 0, 1, 4, 4};
    const uint32_t empty[] = {0, UINT32_MAX, 0, 1, 2, 3, 4, 4};
    const char *both = TENS "cell := [-1] + [1]", *round = TENS "cell := [-3] + [3]", *far = TENS "cell := [6]";
    expect_planned("two rows a band", FROM_BEFORE, five, 1, 3, 10, CELLANG_DONE, 0, 3, twos);
    expect_planned("one row a band", FROM_BEFORE, five, 1, 2, 10, CELLANG_DONE, 0, 5, ones);
    expect_planned("no row beside the border row", FROM_BEFORE, five, 1, 1, 10, CELLANG_NO_PLAN, 0, 0, NULL);
    expect_planned("no row", FROM_BEFORE, five, 1, 0, 10, CELLANG_NO_PLAN, 0, 0, NULL);
    expect_planned("four rows, and one", FROM_BEFORE, five, 1, 5, 10, CELLANG_DONE, 0, 2, four);
    expect_planned("all rows", FROM_BEFORE, five, 1, 6, 10, CELLANG_DONE, 0, 1, whole);
    expect_planned("more than all rows", FROM_BEFORE, five, 1, UINT32_MAX, 10, CELLANG_DONE, 0, 1, whole);
    expect_planned("border rows on both sides", both, ten, 1, 5, 20, CELLANG_DONE, 0, 4, threes);
    expect_planned("as many border rows as rows", round, three, 1, 7, 6, CELLANG_DONE, 0, 3, ones);
    expect_planned("too many border rows", round, three, 1, 6, 6, CELLANG_NO_PLAN, 0, 0, NULL);
    expect_planned("all rows with as many on both sides", round, three, 1, 9, 6, CELLANG_DONE, 0, 1, long_band);
    expect_planned("the first dimension counts", "2 dimensions of 0..9 cell := [0,2] + [1,0]", plane, 2, 2, 4, CELLANG_DONE, 0, 2, ones);
    expect_planned("no border rows", TENS, five, 1, 1, 10, CELLANG_DONE, 0, 5, ones);
    expect_planned("no border rows, and no row", TENS, five, 1, 0, 10, CELLANG_NO_PLAN, 0, 0, NULL);
    expect_planned("a room too short", FROM_BEFORE, five, 1, 3, 8, CELLANG_LENT_LENGTH, 0, 0, NULL);
    expect_planned("a room too short by one", FROM_BEFORE, five, 1, 3, 9, CELLANG_LENT_LENGTH, 0, 0, NULL);
    expect_planned("a room too long", FROM_BEFORE, five, 1, 3, 11, CELLANG_LENT_LENGTH, 0, 0, NULL);
    expect_planned("a room of the plan's length", FROM_BEFORE, five, 1, 3, 6, CELLANG_LENT_LENGTH, 0, 0, NULL);
    expect_planned("no room", FROM_BEFORE, five, 1, 0, 0, CELLANG_LENT_LENGTH, 0, 0, NULL);
    expect_planned("a room of entries a cell", "2 dimensions of 0..9", plane, 2, 1, 12, CELLANG_LENT_LENGTH, 0, 0, NULL);
    expect_planned("a source that is refused", TENS "cell := [6] + x", square, 2, 0, 0, CELLANG_NAME_UNKNOWN, 35, 0, NULL);
    expect_planned("sizes", far, square, 2, 0, 0, CELLANG_BAD_SHAPE, 0, 0, NULL);
    expect_planned("a size of 0", far, none, 1, 0, 1, CELLANG_BAD_SHAPE, 0, 0, NULL);
    expect_planned("a room before an index", far, five, 1, 0, 8, CELLANG_LENT_LENGTH, 0, 0, NULL);
    expect_planned("an index too far", far, one, 1, 0, 2, CELLANG_INDEX_TOO_FAR, 30, 0, NULL);
    expect_plan("the planner's", FROM_BEFORE, five, 1, 3, twos, 6, CELLANG_DONE, 0);
    expect_plan("another one", FROM_BEFORE, five, 1, 3, other, 6, CELLANG_DONE, 0);
    expect_plan("one row a band", FROM_BEFORE, five, 1, 2, ones, 10, CELLANG_DONE, 0);
    expect_plan("one row a band where more can be held", FROM_BEFORE, five, 1, UINT32_MAX, ones, 10, CELLANG_DONE, 0);
    expect_plan("one row too many", FROM_BEFORE, five, 1, 1, ones, 10, CELLANG_BAD_PLAN, 0);
    expect_plan("a gap", FROM_BEFORE, five, 1, 3, gap, 6, CELLANG_BAD_PLAN, 0);
    expect_plan("an overlap", FROM_BEFORE, five, 1, 3, overlap, 6, CELLANG_BAD_PLAN, 0);
    expect_plan("an early end", FROM_BEFORE, five, 1, 3, early, 4, CELLANG_BAD_PLAN, 0);
    expect_plan("four rows with the border row", FROM_BEFORE, five, 1, 3, long_band, 4, CELLANG_BAD_PLAN, 0);
    expect_plan("four rows that can be held", FROM_BEFORE, five, 1, 4, long_band, 4, CELLANG_DONE, 0);
    expect_plan("an empty band", FROM_BEFORE, five, 1, 3, reversed, 6, CELLANG_BAD_PLAN, 0);
    expect_plan("an empty band at the front", FROM_BEFORE, five, 1, 3, empty, 8, CELLANG_BAD_PLAN, 0);
    expect_plan("an odd number of entries", FROM_BEFORE, five, 1, 3, odd, 5, CELLANG_BAD_PLAN, 0);
    expect_plan("no entries", FROM_BEFORE, five, 1, 3, NULL, 0, CELLANG_BAD_PLAN, 0);
    expect_plan("past the last row", FROM_BEFORE, five, 1, 3, past, 6, CELLANG_BAD_PLAN, 0);
    expect_plan("not from row 0", FROM_BEFORE, five, 1, 3, late, 4, CELLANG_BAD_PLAN, 0);
    expect_plan("out of order", FROM_BEFORE, five, 1, 3, turned, 6, CELLANG_BAD_PLAN, 0);
    expect_plan("a source that is refused", TENS "cell := [6] + x", square, 2, 0, NULL, 0, CELLANG_NAME_UNKNOWN, 35);
    expect_plan("a name of the list", "const Time := 1", square, 2, 0, NULL, 0, CELLANG_NAME_USED, 6);
    expect_plan("sizes", far, square, 2, 0, NULL, 0, CELLANG_BAD_SHAPE, 0);
    expect_plan("an index too far", far, five, 1, 0, NULL, 0, CELLANG_INDEX_TOO_FAR, 30);
    expect_plan("an index that is not too far", TENS "cell := [5]", five, 1, 9, whole, 2, CELLANG_BAD_PLAN, 0);
    expect_plan("and can be held", TENS "cell := [5]", five, 1, 10, whole, 2, CELLANG_DONE, 0);
}

/* One band's call, and what it is to return and leave. */
struct band_call {
    const char *what;
    const char *source;
    uint32_t shape[2];
    size_t dimensions;
    uint32_t first, last, held;
    int32_t rows[STRIP];
    size_t rows_length, room_length;
    int64_t time;
    uint64_t number, place, cell, count;
    int32_t next[4];
};

static const struct band_call band_calls[] = {
    /* the grid 5 6 7 8 9 in two bands */
    {"the first band", FROM_BEFORE, {5}, 1, 0, 1, 4, {9, 5, 6}, 3, 2, 0, 0, 0, 0, 2, {9, 5}},
    {"the second band", FROM_BEFORE, {5}, 1, 2, 4, 4, {6, 7, 8, 9}, 4, 3, 0, 0, 0, 0, 3, {6, 7, 8}},
    {"two border rows of two rows", TENS "cell := [-2]", {2}, 1, 0, 0, 3, {5, 6, 5}, 3, 1, 0, 0, 0, 0, 1, {5}},
    {"rows of two cells", "2 dimensions of 0..9 cell := [1,0]", {3, 2}, 2, 2, 2, 2, {7, 8, 1, 2}, 4, 2, 0, 0, 0, 0, 2, {1, 2}},
    {"columns wrap", "2 dimensions of 0..9 cell := [1,1]", {3, 2}, 2, 2, 2, UINT32_MAX, {7, 8, 1, 2}, 4, 2, 0, 0, 0, 0, 2, {2, 1}},
    {"two fields", "1 dimensions of a, b of 0..9 end cell.a := [1].b", {3}, 1, 1, 1, 2, {1, 2, 3, 4}, 4, 2, 0, 0, 0, 0, 1, {4, 2}},
    {"the time", "1 dimensions of 0..2147483647 cell := time", {3}, 1, 1, 2, 2, {1, 2}, 2, 2, 2147483646, 0, 0, 0, 2,
     {2147483646, 2147483646}},
    /* faults: the cell by its number in the whole grid */
    {"a fault in a band's first cell", COUNT, {5}, 1, 1, 2, 2, {3, 1}, 2, 2, 0, CELLANG_VALUE_OUTSIDE_FIELD, 26, 1, 1, {0, 0}},
    {"a fault in a band's last cell", COUNT, {5}, 1, 3, 4, 2, {2, 3}, 2, 2, 0, CELLANG_VALUE_OUTSIDE_FIELD, 26, 4, 2, {0, 0}},
    {"a fault in rows of two cells", "2 dimensions of 0..9 cell := 6 / cell", {4, 2}, 2, 2, 3, 2, {1, 2, 0, 0}, 4, 4, 0,
     CELLANG_ZERO_DIVISOR, 31, 6, 3, {0, 0, 0, 0}},
    {"no fault in a border row", TENS "cell := 6 / cell + [-1]", {5}, 1, 2, 2, 2, {0, 2}, 2, 1, 0, 0, 0, 0, 1, {3}},
    /* refusals, in their order */
    {"a source that is refused", TENS "cell := [6] + x", {5, 5}, 2, 1, 0, 0, {0}, 0, 1, -1, CELLANG_NAME_UNKNOWN, 35, 0, 0, {0}},
    {"sizes", TENS "cell := [6]", {5, 5}, 2, 1, 0, 0, {0}, 0, 1, -1, CELLANG_BAD_SHAPE, 0, 0, 0, {0}},
    {"a band too long, before the rows", TENS "cell := [6]", {5}, 1, 0, 0, 6, {0}, 0, 1, -1, CELLANG_BAD_PLAN, 0, 0, 0, {0}},
    {"rows before the time", TENS "cell := [6]", {5}, 1, 0, 0, 7, {0}, 0, 1, -1, CELLANG_LENT_LENGTH, 0, 0, 0, {0}},
    {"the time before an index", TENS "cell := [6]", {5}, 1, 0, 0, 7, {5, 6, 7, 8, 9, 5, 10}, 7, 1, -1, CELLANG_BAD_TIMES, 0, 0, 0, {0}},
    {"an index before an entry", TENS "cell := [6]", {5}, 1, 0, 0, 7, {5, 6, 7, 8, 9, 5, 10}, 7, 1, 0, CELLANG_INDEX_TOO_FAR, 30, 0, 0, {0}},
    {"an entry of a border row", TENS "cell := [5]", {5}, 1, 0, 0, 6, {5, 6, 7, 8, 9, 10}, 6, 1, 0, CELLANG_ENTRY_OUT_OF_RANGE, 5, 0, 0, {0}},
    {"the lowest entry", FROM_BEFORE, {5}, 1, 2, 4, 4, {6, -1, 8, 10}, 4, 3, 0, CELLANG_ENTRY_OUT_OF_RANGE, 1, 0, 0, {0}},
    {"an entry before a fault", COUNT, {5}, 1, 3, 4, 2, {3, 4}, 2, 2, 0, CELLANG_ENTRY_OUT_OF_RANGE, 1, 0, 0, {0}},
    /* 60 */
    {"a reversed band", FROM_BEFORE, {5}, 1, 2, 1, 4, {0}, 1, 1, 0, CELLANG_BAD_PLAN, 0, 0, 0, {0}},
    {"a reversed band, however many rows are held", FROM_BEFORE, {5}, 1, 1, 0, UINT32_MAX, {5}, 1, 1, 0, CELLANG_BAD_PLAN, 0, 0, 0, {0}},
    {"past the last row", FROM_BEFORE, {5}, 1, 4, 5, 4, {8, 9, 5}, 3, 2, 0, CELLANG_BAD_PLAN, 0, 0, 0, {0}},
    {"past all rows", FROM_BEFORE, {5}, 1, UINT32_MAX, UINT32_MAX, 4, {8, 9}, 2, 1, 0, CELLANG_BAD_PLAN, 0, 0, 0, {0}},
    {"from 0 past all rows", FROM_BEFORE, {5}, 1, 0, UINT32_MAX, UINT32_MAX, {8, 9}, 2, 1, 0, CELLANG_BAD_PLAN, 0, 0, 0, {0}},
    {"too many rows", FROM_BEFORE, {5}, 1, 2, 4, 3, {6, 7, 8, 9}, 4, 3, 0, CELLANG_BAD_PLAN, 0, 0, 0, {0}},
    {"no rows held", TENS, {5}, 1, 0, 0, 0, {5}, 1, 1, 0, CELLANG_BAD_PLAN, 0, 0, 0, {0}},
    /* 21 */
    {"a row too few", FROM_BEFORE, {5}, 1, 2, 4, 4, {7, 8, 9}, 3, 3, 0, CELLANG_LENT_LENGTH, 0, 0, 0, {0}},
    {"a row too many", FROM_BEFORE, {5}, 1, 2, 3, 4, {6, 7, 8, 9}, 4, 2, 0, CELLANG_LENT_LENGTH, 0, 0, 0, {0}},
    {"no rows", FROM_BEFORE, {5}, 1, 2, 4, 4, {0}, 0, 3, 0, CELLANG_LENT_LENGTH, 0, 0, 0, {0}},
    {"a room too short", FROM_BEFORE, {5}, 1, 2, 4, 4, {6, 7, 8, 9}, 4, 2, 0, CELLANG_LENT_LENGTH, 0, 0, 0, {0}},
    {"a room too long", FROM_BEFORE, {5}, 1, 2, 4, 4, {6, 7, 8, 9}, 4, 4, 0, CELLANG_LENT_LENGTH, 0, 0, 0, {0}},
    {"no room", FROM_BEFORE, {5}, 1, 2, 4, 4, {6, 7, 8, 9}, 4, 0, 0, CELLANG_LENT_LENGTH, 0, 0, 0, {0}},
    {"rows of one cell too few", "2 dimensions of 0..9 cell := [1,0]", {3, 2}, 2, 2, 2, 2, {7, 8, 1}, 3, 2, 0, CELLANG_LENT_LENGTH, 0, 0, 0,
     {0}},
    /* 22 */
    {"the last time of a step", COUNT, {5}, 1, 3, 4, 2, {2, 1}, 2, 2, 2147483646, 0, 0, 0, 2, {3, 2}},
    {"a time past it", COUNT, {5}, 1, 3, 4, 2, {2, 7}, 2, 2, 2147483647, CELLANG_BAD_TIMES, 0, 0, 0, {0}},
    {"a negative time", COUNT, {5}, 1, 3, 4, 2, {2, 7}, 2, 2, INT64_MIN, CELLANG_BAD_TIMES, 0, 0, 0, {0}},
};

/* Steps a band, by reports of any length. */
static void expect_band(const struct band_call *c) {
    for (size_t lent = 0; lent <= CELLANG_REPORT_LENGTH + 1; lent++) {
        uint64_t told[CELLANG_REPORT_LENGTH] = {c->number, c->place, c->cell, c->number == CELLANG_DONE, c->count, 0, 0, 0, 0};
        uint64_t report[CELLANG_REPORT_LENGTH + 1];
        int32_t room[5];
        const size_t size = c->room_length * sizeof *room;
        for (size_t i = 0; i <= CELLANG_REPORT_LENGTH; i++) {
            report[i] = UNTOUCHED;
        }
        memset(room, UNTOUCHED, sizeof room);
        check_beside(c->source);
        for (size_t i = 0; i < 3; i++) {
            told[CELLANG_REPORT_SPELLING + i] = checked[CELLANG_REPLY_SPELLING + i];
        }
        expect(cellang_step_band((const uint8_t *)c->source, strlen(c->source), LIST, words, CELLANG_WORDS, names, CELLANG_NAME_WORDS,
                                 c->shape, c->dimensions, c->first, c->last, c->held, c->rows, c->rows_length, room, c->room_length, c->time,
                                 report, lent) == c->number, c->what);
        for (size_t i = 0; i <= CELLANG_REPORT_LENGTH; i++) {
            expect(report[i] == (i < lent && i < CELLANG_REPORT_LENGTH ? told[i] : UNTOUCHED), c->what);
        }
        expect(began(c->number) ? memcmp(room, c->next, size) == 0 : all_bytes(room, size, UNTOUCHED), c->what);
        expect(all_bytes(room + c->room_length, sizeof room - size, UNTOUCHED) && left_as_checked(), c->what);
    }
}

/* Steps each band of a plan by its old rows, until one faults, and puts the next rows together. Returns the last report, with the sum of the counts. */
static void step_by_bands(const char *source, const uint32_t *shape, size_t dimensions, size_t row, uint32_t held, const uint32_t *plan,
                          uint32_t bands, const uint32_t *border, const int32_t *old, int32_t *next, int64_t time, uint64_t *told) {
    uint64_t count = 0;
    for (uint32_t band = 0; band < bands && (band == 0 || told[CELLANG_REPORT_NUMBER] == CELLANG_DONE); band++) {
        const uint32_t first = plan[2 * band], last = plan[2 * band + 1], before = border[CELLANG_BORDER_BEFORE];
        const uint32_t with = before + (last - first + 1) + border[CELLANG_BORDER_BEHIND];
        int32_t lent[4 * STRIP];
        for (uint32_t i = 0; i < with; i++) {
            memcpy(lent + i * row, old + (first + i + shape[0] - before) % shape[0] * row, row * sizeof *lent);
        }
        cellang_step_band((const uint8_t *)source, strlen(source), LIST, words, CELLANG_WORDS, names, CELLANG_NAME_WORDS, shape, dimensions,
                          first, last, held, lent, with * row, next + first * row, (last - first + 1) * row, time, told,
                          CELLANG_REPORT_LENGTH);
        count += told[CELLANG_REPORT_COUNT];
    }
    told[CELLANG_REPORT_COUNT] = count;
}

/* A run under a plan, and what it is to return and leave. counts_after is of a run that began and counts; where counted is 0 the counts are to be as
 * they were. */
struct banded_run {
    const char *what;
    const char *source;
    uint32_t shape[2];
    size_t dimensions, entries, cells;
    int32_t grid[STRIP];
    int64_t start, steps;
    const char *list;
    uint32_t counted, field;
    size_t counts;
    uint32_t held, plan[10];
    size_t plan_length, room_length;
    uint64_t number, place, cell, steps_done, count, line;
    int32_t grid_after[STRIP];
    uint32_t counts_after[ROW];
};

#define PLAIN "", 0, 0, 0
#define TWO_BANDS 4, {0, 1, 2, 4}, 4, 4
#define THREE_BANDS 2, {0, 0, 1, 2, 3, 4}, 6, 2
#define NUMBERS {5, 6, 7, 8, 9}
#define SHIFTED {9, 5, 6, 7, 8}
#define FIVE_CELLS {5}, 1, 5, 5
#define TWO_FIELDS "2 dimensions of a, b of 0..9 end cell.a := [-1,1].b cell.b := [1,0].a"

static const struct banded_run banded_runs[] = {
    {"one step", FROM_BEFORE, FIVE_CELLS, NUMBERS, 0, 1, PLAIN, TWO_BANDS, 0, 0, 0, 1, 5, 0, SHIFTED, {0}},
    {"three steps, from time 7 on", FROM_BEFORE, FIVE_CELLS, NUMBERS, 7, 3, PLAIN, TWO_BANDS, 0, 0, 0, 3, 15, 0, {7, 8, 9, 5, 6}, {0}},
    {"0 steps", FROM_BEFORE, FIVE_CELLS, NUMBERS, 0, 0, PLAIN, TWO_BANDS, 0, 0, 0, 0, 0, 0, NUMBERS, {0}},
    {"0 steps, a block and counts", FROM_BEFORE, FIVE_CELLS, NUMBERS, 1, 0, "1\n[0] = 0\n", 1, 0, 5, TWO_BANDS, 0, 0, 0, 0, 0, 0,
     {0, 6, 7, 8, 9}, {1, 0, 0, 0, 0}},
    {"a list", FROM_BEFORE, FIVE_CELLS, NUMBERS, 0, 2, "0\n[1] = 3\n1\n[0] = 0\n2\n[4] = 1\n", 0, 0, 0, TWO_BANDS, 0, 0, 0, 2, 10, 0,
     {8, 0, 5, 3, 1}, {0}},
    {"a list and counts", FROM_BEFORE, FIVE_CELLS, NUMBERS, 0, 2, "0\n[1] = 3\n1\n[0] = 0\n2\n[4] = 1\n", UINT32_MAX, 0, 5, TWO_BANDS, 0, 0,
     0, 2, 10, 0, {8, 0, 5, 3, 1}, {0, 1, 0, 0, 0}},
    {"counts that are not asked for", FROM_BEFORE, FIVE_CELLS, NUMBERS, 0, 1, "", 0, 9, 3, TWO_BANDS, 0, 0, 0, 1, 5, 0, SHIFTED, {0}},
    {"one row a band", FROM_BEFORE, FIVE_CELLS, NUMBERS, 0, 1, PLAIN, 2, {0, 0, 1, 1, 2, 2, 3, 3, 4, 4}, 10, 2, 0, 0, 0, 1, 5, 0, SHIFTED,
     {0}},
    {"one band", FROM_BEFORE, FIVE_CELLS, NUMBERS, 0, 1, PLAIN, 6, {0, 4}, 2, 6, 0, 0, 0, 1, 5, 0, SHIFTED, {0}},
    {"more rows than there are", FROM_BEFORE, FIVE_CELLS, NUMBERS, 0, 1, PLAIN, 13, {0, 4}, 2, 13, 0, 0, 0, 1, 5, 0, SHIFTED, {0}},
    {"rows that repeat", TENS "cell := ([-3] + [3] + [1]) % 10", {3}, 1, 3, 3, {1, 5, 9}, 0, 1, PLAIN, 7, {0, 0, 1, 1, 2, 2}, 6, 7, 0, 0, 0, 1,
     3, 0, {7, 9, 9}, {0}},
    {"two fields, the second counted", TWO_FIELDS, {2, 2}, 2, 8, 4, {1, 2, 3, 0, 5, 6, 0, 8}, 0, 1, "", 1, 1, 2, 3, {0, 0, 1, 1}, 4, 12, 0, 0, 0,
     1, 4, 0, {8, 5, 6, 0, 0, 1, 2, 3}, {1, 0}},
    /* faults */
    {"a fault in the second band", COUNT, FIVE_CELLS, {0, 3, 1, 3, 2}, 0, 1, PLAIN, THREE_BANDS, CELLANG_VALUE_OUTSIDE_FIELD, 26, 1, 0, 2, 0,
     {0, 3, 1, 3, 2}, {0}},
    {"a fault in the first band", COUNT, FIVE_CELLS, {3, 3, 1, 3, 2}, 0, 1, PLAIN, THREE_BANDS, CELLANG_VALUE_OUTSIDE_FIELD, 26, 0, 0, 1, 0,
     {3, 3, 1, 3, 2}, {0}},
    {"a fault in the last band, a step on, behind a block", COUNT, FIVE_CELLS, {0, 1, 0, 0, 0}, 0, 4, "1\n[4] = 3\n[0] = 0\n", 1, 0, 5,
     THREE_BANDS, CELLANG_VALUE_OUTSIDE_FIELD, 26, 4, 1, 10, 0, {0, 2, 1, 1, 3}, {1, 0, 0, 0, 0}},
    /* refusals, in their order */
    {"a source that is refused", TENS "cell := [6] + x", {5, 1}, 2, 5, 5, {5, 6, 7, 8, 10}, -1, 1, "x", 1, 9, 4, 4, {0}, 0, 3,
     CELLANG_NAME_UNKNOWN, 35, 0, 0, 0, 0, {5, 6, 7, 8, 10}, {0}},
    {"sizes", TENS "cell := [6]", {5, 1}, 2, 5, 5, {5, 6, 7, 8, 10}, -1, 1, "x", 1, 9, 4, 4, {0}, 0, 3, CELLANG_BAD_SHAPE, 0, 0, 0, 0, 0,
     {5, 6, 7, 8, 10}, {0}},
    {"marks", TENS "cell := [6]", {5}, 1, 5, 4, {5, 6, 7, 8, 10}, -1, 1, "x", 1, 9, 4, 4, {0}, 0, 4, CELLANG_LENT_LENGTH, 0, 0, 0, 0, 0,
     {5, 6, 7, 8, 10}, {0}},
    {"the room", TENS "cell := [6]", FIVE_CELLS, {5, 6, 7, 8, 10}, -1, 1, "x", 1, 9, 4, 4, {0}, 0, 3, CELLANG_LENT_LENGTH, 0, 0, 0, 0, 0,
     {5, 6, 7, 8, 10}, {0}},
    {"times", TENS "cell := [6]", FIVE_CELLS, {5, 6, 7, 8, 10}, -1, 1, "x", 1, 9, 4, 4, {0}, 0, 4, CELLANG_BAD_TIMES, 0, 0, 0, 0, 0,
     {5, 6, 7, 8, 10}, {0}},
    {"an index", TENS "cell := [6]", FIVE_CELLS, {5, 6, 7, 8, 10}, 0, 1, "x", 1, 9, 4, 4, {0}, 0, 4, CELLANG_INDEX_TOO_FAR, 30, 0, 0, 0, 0,
     {5, 6, 7, 8, 10}, {0}},
    {"an entry", FROM_BEFORE, FIVE_CELLS, {5, 6, 7, 8, 10}, 0, 1, "x", 1, 9, 4, 4, {0}, 0, 4, CELLANG_ENTRY_OUT_OF_RANGE, 4, 0, 0, 0, 0,
     {5, 6, 7, 8, 10}, {0}},
    {"no such field", FROM_BEFORE, FIVE_CELLS, NUMBERS, 0, 1, "x", 1, 1, 5, 4, {0}, 0, 4, CELLANG_BAD_COUNTS, 0, 0, 0, 0, 0, NUMBERS, {0}},
    {"counts too few", FROM_BEFORE, FIVE_CELLS, NUMBERS, 0, 1, "x", 1, 0, 4, 4, {0}, 0, 4, CELLANG_BAD_COUNTS, 0, 0, 0, 0, 0, NUMBERS, {0}},
    {"a list that is refused", FROM_BEFORE, FIVE_CELLS, NUMBERS, 0, 1, "0\n[5] = 1\n", 1, 0, 5, 4, {0}, 0, 4, CELLANG_LIST_OUTSIDE_GRID, 0, 0,
     0, 0, 2, NUMBERS, {0}},
    {"no plan", FROM_BEFORE, FIVE_CELLS, NUMBERS, 0, 1, "0\n[4] = 1\n", 1, 0, 5, 4, {0}, 0, 4, CELLANG_BAD_PLAN, 0, 0, 0, 0, 0, NUMBERS, {0}},
    /* 60, also of 0 steps */
    {"no plan for 0 steps", FROM_BEFORE, FIVE_CELLS, NUMBERS, 0, 0, PLAIN, 4, {0}, 0, 4, CELLANG_BAD_PLAN, 0, 0, 0, 0, 0, NUMBERS, {0}},
    {"an early end", FROM_BEFORE, FIVE_CELLS, NUMBERS, 0, 1, PLAIN, 4, {0, 1, 2, 3}, 4, 4, CELLANG_BAD_PLAN, 0, 0, 0, 0, 0, NUMBERS, {0}},
    {"an odd plan", FROM_BEFORE, FIVE_CELLS, NUMBERS, 0, 1, PLAIN, 4, {0, 1, 2, 4, 0}, 5, 4, CELLANG_BAD_PLAN, 0, 0, 0, 0, 0, NUMBERS, {0}},
    {"a band too long", FROM_BEFORE, FIVE_CELLS, NUMBERS, 0, 1, PLAIN, 3, {0, 1, 2, 4}, 4, 3, CELLANG_BAD_PLAN, 0, 0, 0, 0, 0, NUMBERS, {0}},
    {"no rows held", FROM_BEFORE, FIVE_CELLS, NUMBERS, 0, 1, PLAIN, 0, {0, 4}, 2, 0, CELLANG_BAD_PLAN, 0, 0, 0, 0, 0, NUMBERS, {0}},
    {"a plan before a fault", COUNT, FIVE_CELLS, {3, 3, 1, 3, 2}, 0, 1, PLAIN, 1, {0, 1, 2, 4}, 4, 1, CELLANG_BAD_PLAN, 0, 0, 0, 0, 0,
     {3, 3, 1, 3, 2}, {0}},
    /* 21 for the room */
    {"a room too short", FROM_BEFORE, FIVE_CELLS, NUMBERS, 0, 1, PLAIN, 4, {0, 1, 2, 4}, 4, 3, CELLANG_LENT_LENGTH, 0, 0, 0, 0, 0, NUMBERS, {0}},
    {"a room too long", FROM_BEFORE, FIVE_CELLS, NUMBERS, 0, 1, PLAIN, 4, {0, 1, 2, 4}, 4, 5, CELLANG_LENT_LENGTH, 0, 0, 0, 0, 0, NUMBERS, {0}},
    {"no room", FROM_BEFORE, FIVE_CELLS, NUMBERS, 0, 1, PLAIN, 4, {0, 1, 2, 4}, 4, 0, CELLANG_LENT_LENGTH, 0, 0, 0, 0, 0, NUMBERS, {0}},
    {"a room of one field", TWO_FIELDS, {2, 2}, 2, 8, 4, {1, 2, 3, 0, 5, 6, 0, 8}, 0, 1, PLAIN, 3, {0, 0, 1, 1}, 4, 6, CELLANG_LENT_LENGTH, 0, 0,
     0, 0, 0, {1, 2, 3, 0, 5, 6, 0, 8}, {0}},
    {"a room that no memory can be", FROM_BEFORE, FIVE_CELLS, NUMBERS, 0, 1, PLAIN, UINT32_MAX, {0, 4}, 2, 4, CELLANG_LENT_LENGTH, 0, 0, 0, 0, 0,
     NUMBERS, {0}},
};

/* Makes a run under a plan, by reports of any length. */
static void expect_banded(const struct banded_run *c) {
    for (size_t lent = 0; lent <= CELLANG_REPORT_LENGTH + 1; lent++) {
        const size_t size = c->entries * sizeof(int32_t), room_size = c->room_length * sizeof(int32_t);
        const uint8_t left = began(c->number) ? 0 : UNTOUCHED;
        uint64_t told[CELLANG_REPORT_LENGTH] = {c->number, c->place, c->cell, c->steps_done, c->count, 0, 0, 0, c->line};
        uint64_t report[CELLANG_REPORT_LENGTH + 1];
        int32_t run_grid[STRIP], run_scratch[STRIP], room[STRIP];
        uint8_t run_marks[STRIP];
        uint32_t counts[ROW];
        for (size_t i = 0; i <= CELLANG_REPORT_LENGTH; i++) {
            report[i] = UNTOUCHED;
        }
        memcpy(run_grid, c->grid, sizeof run_grid);
        memset(run_scratch, UNTOUCHED, sizeof run_scratch);
        memset(run_marks, UNTOUCHED, sizeof run_marks);
        memset(counts, UNTOUCHED, sizeof counts);
        memset(room, UNTOUCHED, sizeof room);
        check_beside(c->source);
        for (size_t i = 0; i < 3; i++) {
            told[CELLANG_REPORT_SPELLING + i] = checked[CELLANG_REPLY_SPELLING + i];
        }
        expect(cellang_run_banded((const uint8_t *)c->source, strlen(c->source), LIST, words, CELLANG_WORDS, names, CELLANG_NAME_WORDS,
                                  c->shape, c->dimensions, run_grid, c->entries, run_scratch, c->entries, run_marks, c->cells,
                                  (const uint8_t *)c->list, strlen(c->list), c->start, c->steps, counts, c->counts, c->counted, c->field,
                                  c->held, c->plan, c->plan_length, room, c->room_length, report, lent) == c->number, c->what);
        for (size_t i = 0; i <= CELLANG_REPORT_LENGTH; i++) {
            expect(report[i] == (i < lent && i < CELLANG_REPORT_LENGTH ? told[i] : UNTOUCHED), c->what);
        }
        expect(memcmp(run_grid, c->grid_after, sizeof run_grid) == 0 && left_as_checked(), c->what);
        expect(all_bytes(run_scratch, size, left) && all_bytes(run_marks, c->cells, left) && all_bytes(room, room_size, left), c->what);
        expect(all_bytes(room + c->room_length, sizeof room - room_size, UNTOUCHED), c->what);
        if (began(c->number) && c->counted != 0) {
            expect(memcmp(counts, c->counts_after, c->counts * sizeof *counts) == 0, c->what);
        } else {
            expect(all_bytes(counts, sizeof counts, UNTOUCHED), c->what);
        }
    }
}

/* Makes runs of some steps under a plan, and holds report, grid, scratch, marks and counts to those of the full run. A plan of no bands is to be
 * refused. */
static void expect_run_by_bands(const char *source, const uint32_t *shape, size_t dimensions, size_t row, size_t cells, const int32_t *old,
                                int64_t time, uint32_t held, const uint32_t *plan, uint32_t bands) {
    const char *list = "";
    const size_t entries = shape[0] * row, size = entries * sizeof *old;
    for (int64_t steps = 0; steps <= 3; steps++) {
        uint64_t full[CELLANG_REPORT_LENGTH], told[CELLANG_REPORT_LENGTH], refused[CELLANG_REPORT_LENGTH] = {CELLANG_BAD_PLAN};
        int32_t after[STRIP], after_scratch[STRIP], left[STRIP], left_scratch[STRIP], room[4 * STRIP];
        uint8_t after_marks[STRIP], left_marks[STRIP];
        uint32_t counts[STRIP], left_counts[STRIP];
        memcpy(after, old, size);
        memcpy(left, old, size);
        memset(left_scratch, UNTOUCHED, sizeof left_scratch);
        memset(left_marks, UNTOUCHED, sizeof left_marks);
        memset(left_counts, UNTOUCHED, sizeof left_counts);
        memset(room, UNTOUCHED, sizeof room);
        cellang_run_full_counts((const uint8_t *)source, strlen(source), LIST, words, CELLANG_WORDS, names, CELLANG_NAME_WORDS, shape,
                                dimensions, after, entries, after_scratch, entries, after_marks, cells, (const uint8_t *)list, 0, time, steps,
                                counts, shape[0], 0, full, CELLANG_REPORT_LENGTH);
        cellang_run_banded((const uint8_t *)source, strlen(source), LIST, words, CELLANG_WORDS, names, CELLANG_NAME_WORDS, shape, dimensions,
                           left, entries, left_scratch, entries, left_marks, cells, (const uint8_t *)list, 0, time, steps, left_counts,
                           shape[0], 1, 0, held, plan, 2 * bands, room, held * row, told, CELLANG_REPORT_LENGTH);
        if (bands == 0) {
            expect(memcmp(told, refused, sizeof told) == 0 && memcmp(left, old, size) == 0, source);
            expect(all_bytes(left_scratch, size, UNTOUCHED) && all_bytes(left_marks, cells, UNTOUCHED), source);
            expect(all_bytes(left_counts, sizeof left_counts, UNTOUCHED) && all_bytes(room, sizeof room, UNTOUCHED), source);
            continue;
        }
        expect(began(full[0]) && memcmp(told, full, sizeof full) == 0 && memcmp(left, after, size) == 0, source);
        expect(memcmp(left_scratch, after_scratch, size) == 0 && memcmp(left_marks, after_marks, cells) == 0, source);
        expect(memcmp(left_counts, counts, shape[0] * sizeof *counts) == 0, source);
        expect(all_bytes(room, held * row * sizeof *room, 0), source);
        expect(all_bytes(room + held * row, sizeof room - held * row * sizeof *room, UNTOUCHED), source);
    }
}

/* Steps a grid by the planner's bands, whatever can be held, and holds it to the full run of one step; and makes runs under that plan. */
static void expect_step_by_bands(const char *source, const uint32_t *shape, size_t dimensions, size_t row, size_t cells,
                                 const int32_t *old, int64_t time, uint32_t before, uint32_t behind) {
    const size_t entries = shape[0] * row;
    uint64_t full[CELLANG_REPORT_LENGTH], told[CELLANG_REPORT_LENGTH];
    uint32_t border[CELLANG_BORDER_LENGTH], planned[CELLANG_PLANNED_LENGTH], plan[MOST_PLAN];
    int32_t after[STRIP], after_scratch[STRIP], next[STRIP];
    uint8_t after_marks[STRIP];
    memcpy(after, old, entries * sizeof *old);
    cellang_run_full((const uint8_t *)source, strlen(source), LIST, words, CELLANG_WORDS, names, CELLANG_NAME_WORDS, shape, dimensions, after,
                     entries, after_scratch, entries, after_marks, cells, time, 1, full, CELLANG_REPORT_LENGTH);
    expect(began(full[0]), source);
    expect(cellang_border_rows((const uint8_t *)source, strlen(source), LIST, words, CELLANG_WORDS, names, CELLANG_NAME_WORDS, shape,
                               dimensions, border, CELLANG_BORDER_LENGTH) == CELLANG_DONE, source);
    expect(border[CELLANG_BORDER_BEFORE] == before && border[CELLANG_BORDER_BEHIND] == behind, source);
    for (uint32_t held = 0; held <= before + shape[0] + behind + 1; held++) {
        uint32_t given = cellang_plan_bands((const uint8_t *)source, strlen(source), LIST, words, CELLANG_WORDS, names, CELLANG_NAME_WORDS,
                                            shape, dimensions, held, plan, 2 * shape[0], planned, CELLANG_PLANNED_LENGTH);
        if (held <= before + behind) {
            expect(given == CELLANG_NO_PLAN, source);
            expect_run_by_bands(source, shape, dimensions, row, cells, old, time, held, NULL, 0);
            continue;
        }
        expect(given == CELLANG_DONE, source);
        expect(cellang_check_plan((const uint8_t *)source, strlen(source), LIST, words, CELLANG_WORDS, names, CELLANG_NAME_WORDS, shape,
                                  dimensions, held, plan, 2 * planned[CELLANG_PLANNED_BANDS], NULL, 0) == CELLANG_DONE, source);
        step_by_bands(source, shape, dimensions, row, held, plan, planned[CELLANG_PLANNED_BANDS], border, old, next, time, told);
        expect(memcmp(told, full, sizeof full) == 0, source);
        expect(full[0] != CELLANG_DONE || memcmp(next, after, entries * sizeof *next) == 0, source);
        expect_run_by_bands(source, shape, dimensions, row, cells, old, time, held, plan, planned[CELLANG_PLANNED_BANDS]);
    }
}

static void bands_of_rows(void) {
    const uint32_t five[] = {5}, three[] = {3}, one[] = {1}, plane[] = {4, 3}, pairs[] = {4, 2}, space[] = {3, 2, 2};
    const int32_t numbers[STRIP] = {5, 6, 7, 8, 9, 0, 1, 4, 2, 3, 1, 7, 9, 2, 6, 3}, climbing[] = {0, 3, 1, 3, 2}, low[] = {0, 1, 2, 0, 3};
    borders();
    plans();
    for (size_t i = 0; i < sizeof band_calls / sizeof *band_calls; i++) {
        expect_band(&band_calls[i]);
    }
    for (size_t i = 0; i < sizeof banded_runs / sizeof *banded_runs; i++) {
        expect_banded(&banded_runs[i]);
    }
    expect_step_by_bands(FROM_BEFORE, five, 1, 1, 5, numbers, 0, 1, 0);
    expect_step_by_bands(TENS "cell := ([-2] + cell + [1] + time) % 10", five, 1, 1, 5, numbers, 7, 2, 1);
    expect_step_by_bands(TENS "cell := ([-3] + [3] + [2]) % 10", three, 1, 1, 3, numbers, 0, 3, 3);
    expect_step_by_bands(TENS "cell := [1]", one, 1, 1, 1, numbers, 0, 0, 1);
    expect_step_by_bands(TENS "cell := 9 - cell", five, 1, 1, 5, numbers, 0, 0, 0);
    expect_step_by_bands("2 dimensions of 0..9 cell := ([-4,-1] + [1,2] + 3 * [0,1]) % 10", plane, 2, 3, 12, numbers, 0, 4, 1);
    expect_step_by_bands("2 dimensions of a, b of 0..9 end cell.a := [-1,1].b cell.b := ([2,0].a + [0,1].b) % 10", pairs, 2, 4, 8, numbers,
                         0, 1, 2);
    expect_step_by_bands("3 dimensions of 0..9 cell := ([-1,1,0] + [3,-1,1]) % 10", space, 3, 4, 12, numbers, 0, 1, 3);
    expect_step_by_bands("3 dimensions of 0..9 x := 0 forall i : -1..1 x := x + [i,i,0] end cell := x % 10", space, 3, 4, 12, numbers, 0, 1, 1);
    /* faults in several bands */
    expect_step_by_bands(COUNT, five, 1, 1, 5, climbing, 0, 0, 0);
    expect_step_by_bands("1 dimensions of 0..3 cell := cell + [-1]", five, 1, 1, 5, climbing, 0, 1, 0);
    expect_step_by_bands("1 dimensions of 0..3 cell := 3 / [2]", five, 1, 1, 5, low, 0, 0, 2);
    expect_step_by_bands("1 dimensions of 0..3 cell := cell + 1", five, 1, 1, 5, low, 0, 0, 0);
    expect_step_by_bands("2 dimensions of 0..9 cell := cell / ([0,1] - [-1,0])", pairs, 2, 2, 8, numbers, 0, 1, 0);
}

/* ---- the writer */

#define MOST_ROOM 64

static const uint32_t no_shape[1] = {0};

/* Writes into the front of a room, of which `length` bytes are passed; the text is to be there, and the rest of the room is to stay. */
static void expect_written(const char *what, const char *source, const uint32_t *shape, size_t dimensions, const int32_t *earlier,
                           size_t earlier_length, const int32_t *later, size_t later_length, int64_t time, size_t length,
                           uint32_t number, uint64_t place, const char *text) {
    uint64_t reply[CELLANG_WRITTEN_LENGTH];
    uint8_t room[MOST_ROOM];
    uint32_t given;
    memset(room, UNTOUCHED, sizeof room);
    memset(words, UNTOUCHED, sizeof words);
    given = cellang_write_list((const uint8_t *)source, strlen(source), LIST, words, CELLANG_WORDS, names, CELLANG_NAME_WORDS, shape,
                               dimensions, earlier, earlier_length, later, later_length, time, room, length, reply,
                               CELLANG_WRITTEN_LENGTH);
    expect(given == number && reply[CELLANG_WRITTEN_NUMBER] == number && reply[CELLANG_WRITTEN_PLACE] == place, what);
    expect(reply[CELLANG_WRITTEN_TEXT] == strlen(text), what);
    expect(memcmp(room, text, strlen(text)) == 0, what);
    expect(all_bytes(room + strlen(text), sizeof room - strlen(text), UNTOUCHED), what);
    if (number == CELLANG_NAME_UNKNOWN) {
        expect(all_bytes(words, sizeof words, 0), what);
        expect(reply[CELLANG_WRITTEN_SPELLING] == CELLANG_SPELLING_IN_SOURCE && reply[CELLANG_WRITTEN_SPELLING_START] == place
                   && reply[CELLANG_WRITTEN_SPELLING_LENGTH] == 1, what);
    } else {
        expect(words[0] != 0 && words[CELLANG_WORDS - 1] == 0, what);
        expect(reply[CELLANG_WRITTEN_SPELLING] == CELLANG_SPELLING_NONE && reply[CELLANG_WRITTEN_SPELLING_START] == 0
                   && reply[CELLANG_WRITTEN_SPELLING_LENGTH] == 0, what);
    }
}

/* Writes the list from one grid to another, and reads it back. */
static void expect_read_back(const char *source, const uint32_t *shape, size_t dimensions, const int32_t *earlier,
                             const int32_t *later, size_t entries, size_t cells, int64_t time) {
    uint8_t room[CELLANG_MOST_TIME_LINE + MOST_CELLS * CELLANG_MOST_CELL_LINE(3, 2)];
    uint64_t reply[CELLANG_WRITTEN_LENGTH], report[CELLANG_REPORT_LENGTH];
    const uint64_t done[CELLANG_REPORT_LENGTH] = {0};
    list_run_call *runs[] = {cellang_run_full_list, cellang_run_quiet_list};
    expect(cellang_write_list((const uint8_t *)source, strlen(source), LIST, words, CELLANG_WORDS, names, CELLANG_NAME_WORDS, shape,
                              dimensions, earlier, entries, later, entries, time, room, sizeof room, reply, CELLANG_WRITTEN_LENGTH)
               == CELLANG_DONE, source);
    for (size_t k = 0; k < 2; k++) {
        memcpy(grid, earlier, entries * sizeof *grid);
        expect(runs[k]((const uint8_t *)source, strlen(source), LIST, words, CELLANG_WORDS, names, CELLANG_NAME_WORDS, shape,
                       dimensions, grid, entries, scratch, entries, marks, cells, room, (size_t)reply[CELLANG_WRITTEN_TEXT], time, 0,
                       report, CELLANG_REPORT_LENGTH) == CELLANG_DONE, source);
        expect(memcmp(report, done, sizeof done) == 0, source);
        expect(memcmp(grid, later, entries * sizeof *grid) == 0, source);
    }
}

static void writings(void) {
    const char *pairs = "2 dimensions of a of 0..9 b of -99..99 end", *bits = S "cell := [3]";
    const char *text = "40\n[0, 1] = 0, 4\n[1, 1] = 7, -12\n";
    const char *wide = "3 dimensions of -2147483647..2147483647";
    const uint32_t square[] = {2, 2}, cube[] = {2, 2, 2}, two[] = {2}, three[] = {3};
    const int32_t earlier[] = {1, 2, 3, 4, 5, 6, 7, 8}, later[] = {1, 2, 0, 4, 5, 6, 7, -12};
    const int32_t least[] = {0, 1, -1, -INT32_MAX, -INT32_MAX, -INT32_MAX, INT32_MAX, 10};
    const int32_t zero[] = {0, 0, 0}, third[] = {0, 0, 2}, second[] = {0, 2, 0}, one[] = {1, 1, 1};
    uint64_t reply[CELLANG_WRITTEN_LENGTH];
    uint8_t room[MOST_ROOM];
    expect_written("a text", pairs, square, 2, earlier, 8, later, 8, 40, 33, CELLANG_DONE, 0, text);
    expect_written("a text, and the rest of the room", pairs, square, 2, earlier, 8, later, 8, 40, 35, CELLANG_DONE, 0, text);
    expect_written("a time alone", pairs, square, 2, later, 8, later, 8, 40, 35, CELLANG_DONE, 0, "40\n");
    expect_written("the last time", pairs, square, 2, later, 8, later, 8, CELLANG_GREATEST_TIME, 11, CELLANG_DONE, 0, "2147483647\n");
    expect_written("a room too short", pairs, square, 2, earlier, 8, later, 8, 40, 32, CELLANG_ROOM_TOO_SHORT, 0, "");
    expect_written("no room", pairs, square, 2, earlier, 8, later, 8, 40, 0, CELLANG_ROOM_TOO_SHORT, 0, "");
    expect_written("a source that is refused", S "x := y", no_shape, 0, NULL, 0, NULL, 0, -1, 9, CELLANG_NAME_UNKNOWN, 26, "");
    expect_written("sizes", bits, no_shape, 1, zero, 3, third, 3, -5, 9, CELLANG_BAD_SHAPE, 0, "");
    expect_written("length of the later grid", bits, three, 1, third, 3, zero, 2, 5, 9, CELLANG_LENT_LENGTH, 0, "");
    expect_written("length of the earlier grid", bits, three, 1, zero, 2, third, 3, 5, 9, CELLANG_LENT_LENGTH, 0, "");
    expect_written("a negative time", bits, three, 1, third, 3, third, 3, -1, 9, CELLANG_BAD_TIMES, 0, "");
    expect_written("a time too far", bits, three, 1, zero, 3, one, 3, 2147483648, 9, CELLANG_BAD_TIMES, 0, "");
    expect_written("an index too far", bits, two, 1, zero, 2, one, 2, 5, 9, CELLANG_INDEX_TOO_FAR, 30, "");
    expect_written("the earlier grid's entry", bits, three, 1, third, 3, second, 3, 5, 9, CELLANG_ENTRY_OUT_OF_RANGE, 2, "");
    expect_written("the later grid's entry", bits, three, 1, one, 3, second, 3, 5, 9, CELLANG_ENTRY_OUT_OF_RANGE, 1, "");
    expect_written("all is in order", bits, three, 1, zero, 3, one, 3, 5, 9, CELLANG_ROOM_TOO_SHORT, 0, "");
    expect_read_back(pairs, square, 2, earlier, later, 8, 4, 40);
    expect_read_back(pairs, square, 2, later, earlier, 8, 4, 0);
    expect_read_back(pairs, square, 2, later, later, 8, 4, 7);
    expect_read_back(wide, cube, 3, earlier, least, 8, 8, CELLANG_GREATEST_TIME);
    expect_read_back(wide, cube, 3, least, later, 8, 8, 1);
    for (size_t lent = 0; lent <= CELLANG_WRITTEN_LENGTH; lent++) {
        for (size_t i = 0; i < CELLANG_WRITTEN_LENGTH; i++) {
            reply[i] = UNTOUCHED;
        }
        expect(cellang_write_list((const uint8_t *)pairs, strlen(pairs), LIST, words, CELLANG_WORDS, names, CELLANG_NAME_WORDS, square,
                                  2, earlier, 8, later, 8, 40, room, sizeof room, reply, lent) == CELLANG_DONE, "a reply of any length");
        for (size_t i = 0; i < CELLANG_WRITTEN_LENGTH; i++) {
            uint64_t told = i == CELLANG_WRITTEN_TEXT ? strlen(text) : 0;
            expect(reply[i] == (i < lent ? told : UNTOUCHED), "an entry of a writing");
        }
    }
}

/* ---- rules that move a pixel once */

#define MOVING_FIELDS "2 dimensions of c of 0..9 moved of 0..1 d of 0..1 end "
#define MOVING MOVING_FIELDS "if cell.moved = 0 then cell.c := [0,1].c cell.moved := 1 end"
#define MOVING_ENTRIES 12

/* Checks whether a source is in the profile, with any number of entries; words and names are left as a check leaves them. */
static void expect_profile(const char *source, uint32_t rule, uint32_t number, uint32_t place) {
    static uint32_t words_of_check[CELLANG_WORDS], names_of_check[CELLANG_NAME_WORDS];
    const uint32_t told[CELLANG_PROFILE_LENGTH] = {rule, number, place};
    memset(words_of_check, UNTOUCHED, sizeof words_of_check);
    memset(names_of_check, UNTOUCHED, sizeof names_of_check);
    cellang_check((const uint8_t *)source, strlen(source), LIST, words_of_check, CELLANG_WORDS, names_of_check, CELLANG_NAME_WORDS,
                  NULL, 0);
    for (size_t lent = 0; lent <= CELLANG_PROFILE_LENGTH + 1; lent++) {
        uint32_t given[CELLANG_PROFILE_LENGTH + 1] = {UNTOUCHED, UNTOUCHED, UNTOUCHED, UNTOUCHED};
        memset(words, UNTOUCHED, sizeof words);
        memset(names, UNTOUCHED, sizeof names);
        expect(cellang_check_one_move((const uint8_t *)source, strlen(source), LIST, words, CELLANG_WORDS, names, CELLANG_NAME_WORDS,
                                      given, lent) == rule, source);
        for (size_t i = 0; i <= CELLANG_PROFILE_LENGTH; i++) {
            expect(given[i] == (i < lent && i < CELLANG_PROFILE_LENGTH ? told[i] : UNTOUCHED), source);
        }
        expect(memcmp(words, words_of_check, sizeof words) == 0 && memcmp(names, names_of_check, sizeof names) == 0, source);
    }
}

static void profiles(void) {
    expect_profile(MOVING, CELLANG_MOVES_ONCE, 0, 0);
    expect_profile("CONST one := 1 1 dimensions of a, Moved of -0..ONE end const k := 1 IF Cell . MOVED = 0#\nthen const l := 2 x := [l].a "
                   "cell.moved := 1 const m := 3 end const n[] for 2 := 1, -1", CELLANG_MOVES_ONCE, 0, 0);
    expect_profile("", CELLANG_MISSES_ACCEPTANCE, CELLANG_NOT_ALLOWED, 0);
    expect_profile(S "x := y", CELLANG_MISSES_ACCEPTANCE, CELLANG_NAME_UNKNOWN, 26);
    expect_profile(MOVING " end", CELLANG_MISSES_ACCEPTANCE, CELLANG_NOT_ALLOWED, (uint32_t)strlen(MOVING " "));
    expect_profile("1 dimensions of const moved of 0..1 end if cell.moved = 0 then cell.moved := 1 end", CELLANG_MISSES_ACCEPTANCE,
                   CELLANG_NAME_USED, 68);
    expect_profile(S, CELLANG_MISSES_FLAG, 0, 0);
    expect_profile(S "if cell = 0 then cell := 1 end", CELLANG_MISSES_FLAG, 0, 0);
    expect_profile("1 dimensions of moved of 0..2 end if cell.moved = 0 then cell.moved := 1 end", CELLANG_MISSES_FLAG, 0, 0);
    expect_profile("1 dimensions of const moved of 0..1 end if cell.moved = 0 then end", CELLANG_MISSES_FLAG, 0, 0);
    expect_profile("1 dimensions of mo_ved of 0..1 end if cell.mo_ved = 0 then cell.mo_ved := 1 end", CELLANG_MISSES_FLAG, 0, 0);
    expect_profile(MOVING_FIELDS, CELLANG_MISSES_STATEMENT, 0, 0);
    expect_profile(MOVING " x := 1", CELLANG_MISSES_STATEMENT, 0, 0);
    expect_profile(MOVING_FIELDS "if cell.moved = 00 then cell.moved := 1 end", CELLANG_MISSES_STATEMENT, 0, 0);
    expect_profile(MOVING_FIELDS "if 0 = cell.moved then cell.moved := 1 end", CELLANG_MISSES_STATEMENT, 0, 0);
    expect_profile(MOVING_FIELDS "if (cell.moved = 0) then cell.moved := 1 end", CELLANG_MISSES_STATEMENT, 0, 0);
    expect_profile(MOVING_FIELDS "if [0,0].moved = 0 then cell.moved := 1 end", CELLANG_MISSES_STATEMENT, 0, 0);
    expect_profile(MOVING_FIELDS "if cell.moved = 0 then cell.moved := 1 else end", CELLANG_MISSES_STATEMENT, 0, 0);
    expect_profile(MOVING_FIELDS "if cell.moved = 0 then cell.moved := 1 elsif 1 then end", CELLANG_MISSES_STATEMENT, 0, 0);
    expect_profile(MOVING_FIELDS "if cell.moved = 0 then cell.moved := 1 when 1 end", CELLANG_MISSES_STATEMENT, 0, 0);
    expect_profile(MOVING_FIELDS "if cell.moved = 0 then if 1 then cell.moved := 1 end end", CELLANG_MISSES_STATEMENT, 0, 0);
    expect_profile("const one := 1 " MOVING_FIELDS "if cell.moved = 0 then cell.moved := one end", CELLANG_MISSES_STATEMENT, 0, 0);
}

/* Runs with a list from time 3 on, 2 steps, on a row of four cells; a refusal leaves all but words and names. */
static void expect_moving(const char *source, const char *list, uint32_t number, uint64_t line) {
    static const int32_t before[MOVING_ENTRIES] = {1, 0, 0, 2, 1, 0, 3, 0, 1, 4, 1, 1};
    const uint64_t refused[CELLANG_REPORT_LENGTH] = {number, 0, 0, 0, 0, 0, 0, 0, line};
    const uint32_t shape[] = {1, 4};
    for (size_t k = 0; k < 2 * LIST_RUNS; k++) {
        uint64_t report[CELLANG_REPORT_LENGTH];
        int32_t row[MOVING_ENTRIES], row_scratch[MOVING_ENTRIES];
        uint8_t row_marks[4];
        uint32_t given, counts[1] = {UNTOUCHED};
        memcpy(row, before, sizeof row);
        memset(row_scratch, UNTOUCHED, sizeof row_scratch);
        memset(row_marks, UNTOUCHED, sizeof row_marks);
        if (k < LIST_RUNS) {
            given = list_runs[k]((const uint8_t *)source, strlen(source), LIST, words, CELLANG_WORDS, names, CELLANG_NAME_WORDS, shape, 2,
                                 row, MOVING_ENTRIES, row_scratch, MOVING_ENTRIES, row_marks, 4, (const uint8_t *)list, strlen(list), 3, 2,
                                 report, CELLANG_REPORT_LENGTH);
        } else {
            given = count_runs[k - LIST_RUNS]((const uint8_t *)source, strlen(source), LIST, words, CELLANG_WORDS, names,
                                              CELLANG_NAME_WORDS, shape, 2, row, MOVING_ENTRIES, row_scratch, MOVING_ENTRIES, row_marks, 4,
                                              (const uint8_t *)list, strlen(list), 3, 2, counts, 1, 1, report, CELLANG_REPORT_LENGTH);
        }
        expect(given == number && report[CELLANG_REPORT_LINE] == line, list);
        if (number == CELLANG_DONE) {
            expect(report[CELLANG_REPORT_STEPS] == 2, list);
            continue;
        }
        expect(memcmp(report, refused, sizeof report) == 0 && memcmp(row, before, sizeof row) == 0, list);
        expect(all_bytes(row_scratch, sizeof row_scratch, UNTOUCHED) && all_bytes(row_marks, sizeof row_marks, UNTOUCHED), list);
        expect(counts[0] == UNTOUCHED, list);
    }
}

/* The first step moves what has not moved, and no later one changes anything. */
static void expect_settled(void) {
    const uint32_t shape[] = {1, 4};
    const int32_t after[MOVING_ENTRIES] = {2, 1, 0, 2, 1, 0, 4, 1, 1, 4, 1, 1};
    for (int64_t steps = 1; steps <= 4; steps++) {
        for (size_t k = 0; k < LIST_RUNS; k++) {
            int32_t row[MOVING_ENTRIES] = {1, 0, 0, 2, 1, 0, 3, 0, 1, 4, 1, 1}, row_scratch[MOVING_ENTRIES];
            uint8_t row_marks[4] = {1, 1, 1, 1};
            expect(list_runs[k]((const uint8_t *)MOVING, strlen(MOVING), LIST, words, CELLANG_WORDS, names, CELLANG_NAME_WORDS, shape, 2,
                                row, MOVING_ENTRIES, row_scratch, MOVING_ENTRIES, row_marks, 4, NULL, 0, 0, steps, NULL, 0)
                       == CELLANG_DONE, "a rule that moves a pixel once");
            expect(memcmp(row, after, sizeof row) == 0, "what moved stays");
        }
    }
}

/* Writes the last of four cells, whose values are 5 for c, 0 for moved and 1 for d, in the order of the fields. */
static void expect_shown(const char *fields, const int32_t *last, size_t count, int32_t falls, const char *end) {
    const uint32_t shape[] = {1, 4};
    int32_t earlier[MOVING_ENTRIES] = {0}, later[MOVING_ENTRIES] = {0};
    char source[200], text[MOST_ROOM];
    const size_t entries = 4 * count;
    memcpy(later + 3 * count, last, count * sizeof *last);
    earlier[entries - 1] = falls;
    snprintf(source, sizeof source, "2 dimensions of %s end if cell.moved = 0 then cell.moved := 1 end", fields);
    snprintf(text, sizeof text, "40\n[0, 3] = %s\n", end);
    expect_written(end, source, shape, 2, earlier, entries, later, entries, 40, strlen(text), CELLANG_DONE, 0, text);
    expect_written(end, source, shape, 2, earlier, entries, later, entries, 40, strlen(text) + 2, CELLANG_DONE, 0, text);
    expect_written(end, source, shape, 2, earlier, entries, later, entries, 40, strlen(text) - 1, CELLANG_ROOM_TOO_SHORT, 0, "");
    if (!falls) {
        expect_read_back(source, shape, 2, earlier, later, entries, 4, 40);
    }
}

static void one_move(void) {
    const int32_t middle[] = {5, 0, 1}, first[] = {0, 5}, last[] = {5, 0}, alone[] = {0};
    profiles();
    expect_moving(MOVING, "", CELLANG_DONE, 0);
    expect_moving(MOVING, "3\n[0, 0] = 5\n4\n[0, 1] = , , 1\n5\n[0, 2] = 0, 1, 0\n", CELLANG_DONE, 0);
    expect_moving(MOVING, "3\n[0, 0] = 5, 0\n", CELLANG_LIST_MOVED_ZERO, 2);
    expect_moving(MOVING, "3\n[0, 0] = 5, -0, 1\n", CELLANG_LIST_MOVED_ZERO, 2);
    expect_moving(MOVING, "3\n[0, 1] = , 00\n", CELLANG_LIST_MOVED_ZERO, 2);
    expect_moving(MOVING, "3\n4\n5\n[0, 1] = , 0\n6\n", CELLANG_LIST_MOVED_ZERO, 4);
    expect_moving(MOVING, "3\n[0, 0] = 5, 0 x\n", CELLANG_LIST_BAD_LINE, 2);
    expect_moving(MOVING, "3\n[0, 4] = 5, 0\n", CELLANG_LIST_OUTSIDE_GRID, 2);
    expect_moving(MOVING, "3\n[0, 0] = 5, 0, 1, 1\n", CELLANG_LIST_TOO_MANY_VALUES, 2);
    expect_moving(MOVING, "3\n[0, 0] = 5, 0, 2\n", CELLANG_LIST_VALUE_OUT_OF_RANGE, 2);
    expect_moving(MOVING, "3\n[0, 0] = 10\n[0, 0] = 5, 0\n", CELLANG_LIST_VALUE_OUT_OF_RANGE, 2);
    expect_moving(MOVING, "3\n[0, 0] = 5, 0\n3\n", CELLANG_LIST_MOVED_ZERO, 2);
    expect_moving(MOVING " x := 1", "3\n[0, 0] = 5, 0\n", CELLANG_DONE, 0);
    expect_settled();
    expect_shown("c of 0..9 moved of 0..1 d of 0..1", middle, 3, 0, "5, , 1");
    expect_shown("moved of 0..1 c of 0..9", first, 2, 0, ", 5");
    expect_shown("c of 0..9 moved of 0..1", last, 2, 0, "5, ");
    expect_shown("c of 0..9 moved of 0..1", last, 2, 1, "5, ");
    expect_shown("moved of 0..1", alone, 1, 1, "");
}

/* ---- comparing */

#define MOST_LISTED 3

/* Compares two grids in a room of nines, of which `written` numbers are to be as in `listed`. */
static void expect_compare(const char *what, const int32_t *left, size_t left_length, const int32_t *right,
                           size_t right_length, size_t k, size_t room_length, uint32_t number, uint32_t total,
                           const int32_t *listed, size_t written) {
    int32_t room[3 * MOST_LISTED + 1];
    uint32_t reply[CELLANG_COMPARISON_LENGTH];
    uint32_t given;
    size_t i;
    for (i = 0; i < 3 * MOST_LISTED + 1; i++) {
        room[i] = 9;
    }
    given = cellang_compare(left, left_length, right, right_length, k, room, room_length, reply, CELLANG_COMPARISON_LENGTH);
    expect(given == number, what);
    expect(reply[CELLANG_COMPARISON_NUMBER] == number && reply[CELLANG_COMPARISON_TOTAL] == total, what);
    for (i = 0; i < 3 * MOST_LISTED + 1; i++) {
        expect(room[i] == (i < written ? listed[i] : 9), what);
    }
}

static void comparisons(void) {
    const int32_t a[] = {1, 2, 3}, b[] = {1, 5, 4}, edges[] = {INT32_MIN, INT32_MAX}, turned[] = {INT32_MAX, INT32_MIN};
    const int32_t a_b[] = {1, 2, 5, 2, 3, 4}, b_a[] = {1, 5, 2, 2, 4, 3};
    const int32_t extremes[] = {0, INT32_MIN, INT32_MAX, 1, INT32_MAX, INT32_MIN};
    const size_t too_many = (size_t)CELLANG_MOST_COMPARED + 1;
    uint32_t reply[2] = {UNTOUCHED, UNTOUCHED};
    int32_t room[3];
    void *far;
    expect_compare("equal grids", a, 3, a, 3, 1, 3, CELLANG_DONE, 0, NULL, 0);
    expect_compare("the total for k = 0", a, 3, b, 3, 0, 0, CELLANG_DONE, 2, NULL, 0);
    expect_compare("the first difference", a, 3, b, 3, 1, 3, CELLANG_DONE, 2, a_b, 3);
    expect_compare("the remaining room stays", a, 3, b, 3, 3, 9, CELLANG_DONE, 2, a_b, 6);
    expect_compare("swapped grids", b, 3, a, 3, 3, 9, CELLANG_DONE, 2, b_a, 6);
    expect_compare("least and greatest values", edges, 2, turned, 2, 2, 6, CELLANG_DONE, 2, extremes, 6);
    expect_compare("empty grids", NULL, 0, NULL, 0, 1, 3, CELLANG_DONE, 0, NULL, 0);
    expect_compare("unlike lengths", a, 3, b, 2, 1, 3, CELLANG_LENT_LENGTH, 0, NULL, 0);
    expect_compare("a room too short", a, 3, b, 3, 1, 2, CELLANG_LENT_LENGTH, 0, NULL, 0);
    expect_compare("a room too long", a, 3, b, 3, 1, 6, CELLANG_LENT_LENGTH, 0, NULL, 0);
    expect_compare("3k out of 64 bits", a, 3, b, 3, (size_t)0xAAAAAAAAAAAAAAAB, 1, CELLANG_LENT_LENGTH, 0, NULL, 0);
    expect(cellang_compare(a, 3, b, 3, 1, room, 3, reply, 1) == CELLANG_DONE && reply[0] == 0 && reply[1] == UNTOUCHED,
           "one entry of a comparison is told");
    /* memory that cannot be read: grids that are too long are refused by their length */
    far = mmap(NULL, too_many * sizeof(int32_t), PROT_NONE, MAP_PRIVATE | MAP_ANONYMOUS | MAP_NORESERVE, -1, 0);
    expect(far != MAP_FAILED, "memory for grids that are too long");
    expect_compare("too many entries", (const int32_t *)far, too_many, (const int32_t *)far, too_many, 1, 3,
                   CELLANG_LENT_LENGTH, 0, NULL, 0);
    munmap(far, too_many * sizeof(int32_t));
}

int main(void) {
    marked_examples();
    spellings();
    another_list();
    lengths();
    name_list();
    value_lists();
    blocks();
    report_lengths();
    pauses();
    row_counts();
    bands_of_rows();
    writings();
    one_move();
    comparisons();
    printf("%d passed, %d failed\n", passed, failed);
    return failed != 0;
}
