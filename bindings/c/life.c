/* Life on a torus: a glider, four steps on. */
#include "cellang.h"

#include <stdio.h>
#include <string.h>

#define SIZE 8
#define CELLS (SIZE * SIZE)

static const char life[] =
    "2 dimensions of 0..1\n"
    "n := -cell\n"
    "forall i : -1..1 forall j : -1..1 n := n + [i, j] end end\n"
    "cell := 1 when n = 3 := cell when n = 2 := 0 otherwise\n";

static uint32_t words[CELLANG_WORDS];
static uint32_t names[CELLANG_NAME_WORDS];

int main(void) {
    const uint32_t shape[] = {SIZE, SIZE};
    int32_t grid[CELLS] = {0}, scratch[CELLS];
    uint8_t marks[CELLS];
    uint64_t report[CELLANG_REPORT_LENGTH];
    uint32_t number;

    grid[1] = grid[SIZE + 2] = grid[2 * SIZE] = grid[2 * SIZE + 1] = grid[2 * SIZE + 2] = 1;
    number = cellang_run_quiet((const uint8_t *)life, strlen(life), (const uint8_t *)CELLANG_BUILT_IN, CELLANG_BUILT_IN_LENGTH,
                               words, CELLANG_WORDS, names, CELLANG_NAME_WORDS, shape, 2, grid, CELLS, scratch, CELLS, marks, CELLS,
                               0, 4, report, CELLANG_REPORT_LENGTH);
    printf("reply %u at %llu\n", (unsigned)number, (unsigned long long)report[CELLANG_REPORT_PLACE]);
    printf("steps done: %llu\n", (unsigned long long)report[CELLANG_REPORT_STEPS]);
    printf("cells evaluated: %llu\n", (unsigned long long)report[CELLANG_REPORT_COUNT]);
    for (int row = 0; row < SIZE; row++) {
        for (int column = 0; column < SIZE; column++) {
            putchar(grid[row * SIZE + column] ? '#' : '.');
        }
        putchar('\n');
    }
    return number == CELLANG_DONE ? 0 : 1;
}
