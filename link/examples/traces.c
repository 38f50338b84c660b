/*
 * A sheet of either kind from standard input: its curve as ranges, for a spreadsheet, and the first mark at which the tank may move whatever the true
 * values are. Both sums have two columns each, the second for the low part of a number from 2^53 on, as spreadsheet.c has them; what is not used stays
 * empty. Each number is had back from its cells. examples/README.md says more.
 */
#include "tankcurve.h"

#include <inttypes.h>
#include <stdio.h>

/* The limit that the highest value has to reach. */
#define LIMIT 300

static uint16_t minutes[TANKCURVE_MAX_SAMPLES], lows[TANKCURVE_MAX_SAMPLES], highs[TANKCURVE_MAX_SAMPLES], points[TANKCURVE_MAX_POINTS];
static uint32_t bandwidths[TANKCURVE_MAX_POINTS];
static uint64_t rows[TANKCURVE_MAX_POINTS * TANKCURVE_RANGE_ROW_LEN];

/* Tells a report; the status to end with. */
static int refused(uint64_t answer)
{
    printf("report %d, %s, at %" PRIu64 "\n", (int)tankcurve_number(answer), tankcurve_word(tankcurve_number(answer)), tankcurve_detail(answer));
    return 1;
}

/* A sum in its two columns; whether it was had back, as whole numbers. */
static bool cells(uint64_t weight, uint64_t sum)
{
    double cell[TANKCURVE_DOUBLES_LEN];
    uint64_t answer = tankcurve_doubles(weight, sum, cell, TANKCURVE_DOUBLES_LEN), back = 0;
    if (tankcurve_number(answer) != TANKCURVE_ACCEPTED)
        return false;
    for (uint64_t k = 0; k < TANKCURVE_DOUBLES_LEN; k++) {
        if (k < tankcurve_detail(answer)) {
            printf(",%.0f", cell[k]);
            back += (uint64_t)cell[k];
        } else {
            printf(",");
        }
    }
    return back == sum;
}

/* The row of a mark as a line of the spreadsheet; whether both sums were had back. */
static bool line(uint16_t mark, const uint64_t *row)
{
    printf("%" PRIu16, mark);
    bool well = cells(row[TANKCURVE_RANGE_ROW_WEIGHT], row[TANKCURVE_RANGE_ROW_LOW_SUM]) &&
                cells(row[TANKCURVE_RANGE_ROW_WEIGHT], row[TANKCURVE_RANGE_ROW_HIGH_SUM]);
    /* Both values are missing, or none. */
    if (tankcurve_present(row))
        printf(",%" PRIu64 ",%" PRIu64 "\n", row[TANKCURVE_RANGE_ROW_LOW_VALUE], row[TANKCURVE_RANGE_ROW_HIGH_VALUE]);
    else
        printf(",,\n");
    return well;
}

int main(void)
{
    /* One byte more than a sheet may have decides that it is too long. */
    static uint8_t sheet[TANKCURVE_MAX_SHEET + 1];
    uint64_t counts[TANKCURVE_RANGE_COUNTS_LEN];
    size_t sheet_len = fread(sheet, 1, sizeof sheet, stdin);
    if (ferror(stdin)) {
        fputs("traces: standard input cannot be read\n", stderr);
        return 1;
    }
    uint64_t answer = tankcurve_read_ranges(sheet, sheet_len, minutes, TANKCURVE_MAX_SAMPLES, lows, TANKCURVE_MAX_SAMPLES, highs,
                                            TANKCURVE_MAX_SAMPLES, points, TANKCURVE_MAX_POINTS, bandwidths, TANKCURVE_MAX_POINTS, counts,
                                            TANKCURVE_RANGE_COUNTS_LEN);
    if (tankcurve_number(answer) != TANKCURVE_ACCEPTED)
        return refused(answer);
    const size_t samples = (size_t)counts[TANKCURVE_RANGE_COUNTS_SAMPLES], marks = (size_t)counts[TANKCURVE_RANGE_COUNTS_POINTS];
    printf("%s\n", counts[TANKCURVE_RANGE_COUNTS_KIND] == TANKCURVE_KIND_RANGES ? "ranges" : "plain");
    answer = tankcurve_smooth_ranges(minutes, samples, lows, samples, highs, samples, points, marks, bandwidths, marks, rows,
                                     marks * TANKCURVE_RANGE_ROW_LEN);
    if (tankcurve_number(answer) != TANKCURVE_ACCEPTED)
        return refused(answer);

    printf("mark,sum from,its low part,sum to,its low part,from,to\n");
    bool well = true;
    size_t first = marks;
    for (size_t k = 0; k < marks; k++) {
        const uint64_t *row = rows + k * TANKCURVE_RANGE_ROW_LEN;
        well = line(points[k], row) && well;
        /* A missing value is not low. */
        if (first == marks && tankcurve_present(row) && row[TANKCURVE_RANGE_ROW_HIGH_VALUE] <= LIMIT)
            first = k;
    }
    if (first < marks)
        printf("at most %d first at %" PRIu16 ", whatever the true values\n", LIMIT, points[first]);
    else
        printf("nowhere at most %d for certain\n", LIMIT);
    return well && fflush(stdout) == 0 ? 0 : 1;
}
