/*
 * Rows to the cells of a spreadsheet, and back in whole numbers. Weight and sum have two columns each, the second for the low part of a number
 * from 2^53 on; what is not used stays empty. The lines written are what a spreadsheet takes in; then the numbers are had back from the cells.
 * examples/README.md says more.
 */
#include "tankcurve.h"

#include <inttypes.h>
#include <stdio.h>

/* A weight or a sum in the spreadsheet: how many of its two cells are filled, and with what. */
struct cells {
    uint64_t used;
    double cell[TANKCURVE_DOUBLES_LEN];
};

/* The cells of a weight or a sum; weight is the row's for both. A list of this length is not refused. */
static struct cells to_cells(uint64_t weight, uint64_t number)
{
    struct cells cells = {0, {0, 0}};
    uint64_t answer = tankcurve_doubles(weight, number, cells.cell, TANKCURVE_DOUBLES_LEN);
    if (tankcurve_number(answer) == TANKCURVE_ACCEPTED)
        cells.used = tankcurve_detail(answer);
    return cells;
}

/* The number, whole: each cell by itself, and added as whole numbers. Added as doubles, 2^53 and 1 would give 2^53. */
static uint64_t from_cells(struct cells cells)
{
    uint64_t number = 0;
    for (uint64_t k = 0; k < cells.used; k++)
        number += (uint64_t)cells.cell[k];
    return number;
}

/* Two columns, of which a used one has all digits of its double. */
static void put(struct cells cells)
{
    for (uint64_t k = 0; k < TANKCURVE_DOUBLES_LEN; k++) {
        if (k < cells.used)
            printf(",%.0f", cells.cell[k]);
        else
            printf(",");
    }
}

/* The row of a mark as a line of the spreadsheet; whether both numbers were had back. */
static bool line(const uint16_t *minutes, const uint16_t *values, size_t samples, uint16_t mark, uint32_t half)
{
    uint64_t row[TANKCURVE_ROW_LEN];
    uint64_t answer = tankcurve_evaluate(minutes, samples, values, samples, mark, half, row, TANKCURVE_ROW_LEN);
    if (tankcurve_number(answer) != TANKCURVE_ACCEPTED)
        return false;
    struct cells weight = to_cells(row[TANKCURVE_ROW_WEIGHT], row[TANKCURVE_ROW_WEIGHT]);
    struct cells sum = to_cells(row[TANKCURVE_ROW_WEIGHT], row[TANKCURVE_ROW_SUM]);
    printf("%" PRIu16, mark);
    put(weight);
    put(sum);
    printf("\n");
    return from_cells(weight) == row[TANKCURVE_ROW_WEIGHT] && from_cells(sum) == row[TANKCURVE_ROW_SUM];
}

int main(void)
{
    const uint16_t minutes[] = {10, 20, 20, 35}, values[] = {40, 60, 80, 20};
    /* As many readings as there may be, one minute before the mark, each of the greatest value. */
    static uint16_t late[TANKCURVE_MAX_SAMPLES], high[TANKCURVE_MAX_SAMPLES];
    for (size_t k = 0; k < TANKCURVE_MAX_SAMPLES; k++) {
        late[k] = 65534;
        high[k] = 65535;
    }
    printf("mark,weight,weight low,sum,sum low\n");
    bool well = line(minutes, values, 4, 20, 10) && line(minutes, values, 4, 60, 20) &&
                line(late, high, TANKCURVE_MAX_SAMPLES, 65535, TANKCURVE_MAX_BANDWIDTH);
    /* What the two parts are when they are added as doubles. */
    const struct cells odd = to_cells(1, UINT64_C(9007199254740993));
    volatile double added = odd.cell[TANKCURVE_DOUBLES_HIGH] + odd.cell[TANKCURVE_DOUBLES_LOW];
    printf("9007199254740993: %.0f as doubles, %" PRIu64 " as whole numbers\n", added, from_cells(odd));
    return well && from_cells(odd) == UINT64_C(9007199254740993) && fflush(stdout) == 0 ? 0 : 1;
}
