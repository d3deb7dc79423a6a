/* Loops that gcc makes of each other from -O3 on: the outer one goes through the rows then, by the branch of its own line. */
#include "flexpret.h"
#define ROWS 25
#define COLUMNS 18
static uint32_t pixels[ROWS][COLUMNS];

__attribute__((noinline)) static void brighten(uint32_t rows)
{
    FP_LOOP(column, 18);
    for (uint32_t column = 0; column < COLUMNS; column++) { FP_ROUND(column);
        FP_LOOP(row, 25);
        for (uint32_t row = 0; row < rows; row++)
            { FP_ROUND(row); pixels[row][column] += 3; }
    }
}
void main0(void)
{
    for (;;) {
        FP_MARK(work_begin);
        brighten(FP_PORT + 10);
        FP_MARK(work_end);
    }
}
