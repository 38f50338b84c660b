/*
 * Every call once, as a panel would make them: reads a sheet from standard input, draws its curve by the sweep, with readings known only as ranges
 * (traces.c has a sheet of them), and, mark by mark, by a running record, which then turns back to the first mark; asks at one mark, whose weight
 * and sum it has as doubles too, there once more with softer weights, and when the tank may move; sets the tank against a twin; draws once more with
 * half widths by neighbours and at marks of the filler; counts readings by minute and temperature; writes the text. Says each report by its number,
 * word and place.
 */
#include "tankcurve.h"

#include <inttypes.h>
#include <stdio.h>

static uint16_t minutes[TANKCURVE_MAX_SAMPLES], values[TANKCURVE_MAX_SAMPLES], points[TANKCURVE_MAX_POINTS];
static uint16_t lows[TANKCURVE_MAX_SAMPLES], highs[TANKCURVE_MAX_SAMPLES];
static uint32_t bandwidths[TANKCURVE_MAX_POINTS];
static uint64_t rows[TANKCURVE_MAX_POINTS * TANKCURVE_RANGE_ROW_LEN];
static uint8_t out[TANKCURVE_MAX_OUTPUT];
/* One byte more than a sheet may have decides that it is too long. */
static uint8_t sheet[TANKCURVE_MAX_SHEET + 1];

/* Whether a call has accepted; says the report if not. */
static bool accepted(const char *call, uint64_t answer)
{
    enum tankcurve_report report = tankcurve_number(answer);
    if (report == TANKCURVE_ACCEPTED)
        return true;
    printf("%s: report %d, %s, at %" PRIu64 "\n", call, (int)report, tankcurve_word(report), tankcurve_detail(answer));
    return false;
}

/* A missing value is a dash: the number that stands for it is no value. */
static void show(const char *call, const uint64_t *row)
{
    printf("%s: left %" PRIu64 ", right %" PRIu64 ", weight %" PRIu64 ", sum %" PRIu64 ", value ", call, row[TANKCURVE_ROW_LEFT],
           row[TANKCURVE_ROW_RIGHT], row[TANKCURVE_ROW_WEIGHT], row[TANKCURVE_ROW_SUM]);
    if (tankcurve_present(row))
        printf("%" PRIu64 "\n", row[TANKCURVE_ROW_VALUE]);
    else
        printf("-\n");
}

/* The whole curve in one call: exactly five numbers a point. */
static bool sweep(size_t samples, size_t marks)
{
    uint64_t answer = tankcurve_smooth(minutes, samples, values, samples, points, marks, bandwidths, marks, rows, marks * TANKCURVE_ROW_LEN);
    if (!accepted("smooth", answer))
        return false;
    for (size_t k = 0; k < marks; k++)
        show("smooth", rows + k * TANKCURVE_ROW_LEN);
    printf("smooth: passes %" PRIu64 "\n", tankcurve_detail(answer));
    return true;
}

/* The sheet once more by the reader of both kinds, and its curve where the detector tells nothing at or below a floor: exactly seven numbers a point. */
static bool over_ranges(size_t sheet_len, uint16_t floor)
{
    uint64_t counts[TANKCURVE_RANGE_COUNTS_LEN];
    if (!accepted("read_ranges", tankcurve_read_ranges(sheet, sheet_len, minutes, TANKCURVE_MAX_SAMPLES, lows, TANKCURVE_MAX_SAMPLES, highs,
                                                       TANKCURVE_MAX_SAMPLES, points, TANKCURVE_MAX_POINTS, bandwidths, TANKCURVE_MAX_POINTS, counts,
                                                       TANKCURVE_RANGE_COUNTS_LEN)))
        return false;
    size_t samples = counts[TANKCURVE_RANGE_COUNTS_SAMPLES], marks = counts[TANKCURVE_RANGE_COUNTS_POINTS];
    printf("read_ranges: %s\n", counts[TANKCURVE_RANGE_COUNTS_KIND] == TANKCURVE_KIND_PLAIN ? "plain" : "ranges");
    for (size_t k = 0; k < samples; k++)
        if (highs[k] <= floor)
            lows[k] = 0;
    uint64_t answer = tankcurve_smooth_ranges(minutes, samples, lows, samples, highs, samples, points, marks, bandwidths, marks, rows,
                                              marks * TANKCURVE_RANGE_ROW_LEN);
    if (!accepted("smooth_ranges", answer))
        return false;
    for (size_t k = 0; k < marks; k++) {
        const uint64_t *row = rows + k * TANKCURVE_RANGE_ROW_LEN;
        printf("smooth_ranges: sum %" PRIu64 " to %" PRIu64 ", value ", row[TANKCURVE_RANGE_ROW_LOW_SUM], row[TANKCURVE_RANGE_ROW_HIGH_SUM]);
        if (tankcurve_present(row))
            printf("%" PRIu64 " to %" PRIu64 "\n", row[TANKCURVE_RANGE_ROW_LOW_VALUE], row[TANKCURVE_RANGE_ROW_HIGH_VALUE]);
        else
            printf("-\n");
    }
    printf("smooth_ranges: passes %" PRIu64 "\n", tankcurve_detail(answer));
    return true;
}

/* The curve while the knob is turned: a small one, or none where the sheet has too much for it. */
static bool preview(size_t samples, size_t marks)
{
    uint64_t answer = tankcurve_preview(minutes, samples, values, samples, points, marks, bandwidths, marks, rows, marks * TANKCURVE_ROW_LEN);
    if (tankcurve_number(answer) == TANKCURVE_TOO_MANY) {
        printf("preview: none\n");
        return true;
    }
    if (!accepted("preview", answer))
        return false;
    for (size_t k = 0; k < marks; k++)
        show("preview", rows + k * TANKCURVE_ROW_LEN);
    return true;
}

/* The same curve mark by mark, from a record that begins as all zero; a row is asked at the mark and half width of the step or turn before it. */
static bool steps(size_t samples, size_t marks)
{
    uint64_t record[TANKCURVE_RECORD_LEN] = {0}, row[TANKCURVE_ROW_LEN];
    for (size_t k = 0; k < marks; k++) {
        if (!accepted("advance", tankcurve_advance(record, TANKCURVE_RECORD_LEN, minutes, samples, values, samples, points[k], bandwidths[k])) ||
            !accepted("row", tankcurve_row(record, TANKCURVE_RECORD_LEN, points[k], bandwidths[k], row, TANKCURVE_ROW_LEN)))
            return false;
        if (!tankcurve_of_readings(row)) {
            printf("row: no row of readings\n");
            return false;
        }
        show("row", row);
    }
    if (marks > 0) {
        /* Back to the first mark: a turn goes there, a step only on. */
        if (!accepted("turn", tankcurve_turn(record, TANKCURVE_RECORD_LEN, minutes, samples, values, samples, points[0], bandwidths[0])) ||
            !accepted("row", tankcurve_row(record, TANKCURVE_RECORD_LEN, points[0], bandwidths[0], row, TANKCURVE_ROW_LEN)))
            return false;
        show("turn", row);
    }
    return true;
}

/* When the tank may move: the first mark whose value is at or below a limit. None is a number of its own, and no position. */
static bool may_move(size_t samples, size_t marks, uint16_t limit)
{
    uint64_t position[TANKCURVE_POSITION_LEN];
    uint64_t answer = tankcurve_first_at_most(minutes, samples, values, samples, points, marks, bandwidths, marks, limit, position,
                                              TANKCURVE_POSITION_LEN);
    if (!accepted("first_at_most", answer))
        return false;
    if (position[0] == TANKCURVE_NO_POSITION)
        printf("first_at_most: %" PRIu16 " nowhere, passes %" PRIu64 "\n", limit, tankcurve_detail(answer));
    else
        printf("first_at_most: %" PRIu16 " at minute %" PRIu16 ", passes %" PRIu64 "\n", limit, points[position[0]], tankcurve_detail(answer));
    return true;
}

/* Which reading decides: the injection to repeat before the tank is moved, as without it alone the value at the mark would be on the other side
   of the limit. */
static bool repeat_which(size_t samples, uint16_t point, uint32_t bandwidth, uint16_t limit)
{
    uint64_t position[TANKCURVE_POSITION_LEN];
    if (!accepted("decisive", tankcurve_decisive(minutes, samples, values, samples, point, bandwidth, limit, position, TANKCURVE_POSITION_LEN)))
        return false;
    if (position[0] == TANKCURVE_NO_POSITION)
        printf("decisive: at %" PRIu16 " no reading\n", limit);
    else
        printf("decisive: at %" PRIu16 " reading %" PRIu64 ", minute %" PRIu16 ", value %" PRIu16 "\n", limit, position[0], minutes[position[0]],
               values[position[0]]);
    return true;
}

/* Each mark's half width by its k nearest readings: wide where readings are rare, so that every mark has a value. A sheet with fewer readings
   than k has no such curve. The lists of half widths and of rows are written. */
static bool by_neighbours(size_t samples, size_t marks, size_t k)
{
    uint64_t answer = tankcurve_neighbours(minutes, samples, values, samples, points, marks, k, bandwidths, marks, rows, marks * TANKCURVE_ROW_LEN);
    if (tankcurve_number(answer) == TANKCURVE_TOO_FEW_SAMPLES) {
        printf("neighbours: %zu are too many for %zu samples\n", k, samples);
        return true;
    }
    if (!accepted("neighbours", answer))
        return false;
    for (size_t j = 0; j < marks; j++) {
        printf("neighbours: half width %" PRIu32 "\n", bandwidths[j]);
        show("neighbours", rows + j * TANKCURVE_ROW_LEN);
    }
    return true;
}

/* A weight or a sum of a row as doubles; spreadsheet.c has them as cells, and back. */
static bool as_doubles(const char *call, uint64_t weight, uint64_t number)
{
    double doubles[TANKCURVE_DOUBLES_LEN];
    uint64_t answer = tankcurve_doubles(weight, number, doubles, TANKCURVE_DOUBLES_LEN);
    if (!accepted("doubles", answer))
        return false;
    printf("%s as doubles:", call);
    for (uint64_t k = 0; k < tankcurve_detail(answer); k++)
        printf(" %.0f", doubles[k]);
    printf("\n");
    return true;
}

/* The question at one mark: its row, and the values inside its window. */
static bool one_mark(size_t samples, uint16_t point, uint32_t bandwidth)
{
    uint64_t row[TANKCURVE_ROW_LEN], bounds[TANKCURVE_BOUNDS_LEN];
    if (!accepted("evaluate", tankcurve_evaluate(minutes, samples, values, samples, point, bandwidth, row, TANKCURVE_ROW_LEN)) ||
        !accepted("window", tankcurve_window(minutes, samples, values, samples, point, bandwidth, bounds, TANKCURVE_BOUNDS_LEN)))
        return false;
    show("evaluate", row);
    printf("window:");
    for (uint64_t k = bounds[TANKCURVE_ROW_LEFT]; k < bounds[TANKCURVE_ROW_RIGHT]; k++)
        printf(" %" PRIu16, values[k]);
    printf("\n");
    return as_doubles("weight", row[TANKCURVE_ROW_WEIGHT], row[TANKCURVE_ROW_WEIGHT]) &&
           as_doubles("sum", row[TANKCURVE_ROW_WEIGHT], row[TANKCURVE_ROW_SUM]);
}

/* The tank beside a twin that lacks its last reading: where they part, which is higher there, and that one's values. */
static bool twins(size_t samples, size_t marks)
{
    uint64_t parting[TANKCURVE_PARTING_LEN];
    size_t fewer = samples > 0 ? samples - 1 : 0;
    uint64_t answer = tankcurve_compare(minutes, samples, values, samples, minutes, fewer, values, fewer, points, marks, bandwidths, marks,
                                        parting, TANKCURVE_PARTING_LEN);
    if (!accepted("compare", answer))
        return false;
    if (tankcurve_detail(answer) == TANKCURVE_ALIKE) {
        printf("compare: alike\n");
        return true;
    }
    printf("compare: %s at %" PRIu64 ":", tankcurve_detail(answer) == TANKCURVE_FIRST ? "first" : "second", parting[TANKCURVE_PARTING_POINT]);
    /* Both tanks have the same list of values here; of two lists it is the higher tank's. */
    for (uint64_t k = parting[TANKCURVE_PARTING_LEFT]; k < parting[TANKCURVE_PARTING_RIGHT]; k++)
        printf(" %" PRIu16, values[k]);
    printf("\n");
    return true;
}

/* The softer curve at one mark: biweight weights over 720 minutes on each side, whatever half width the sheet has there. */
static bool softer(size_t samples, uint16_t point)
{
    uint64_t row[TANKCURVE_ROW_LEN];
    if (!accepted("biweight", tankcurve_biweight(minutes, samples, values, samples, point, row, TANKCURVE_ROW_LEN)))
        return false;
    show("biweight", row);
    return true;
}

/* Readings by minute and temperature: a sheet has no temperatures, so all of them are those of a cellar at 12.0 degrees. Of the sheet's marks as many
   are taken as this call may have; boxes.c has more. */
static bool by_temperature(size_t samples, size_t marks)
{
    static uint8_t temperatures[TANKCURVE_MAX_SAMPLES];
    static uint64_t boxes[TANKCURVE_BOX_LEN * TANKCURVE_BOX_MAX_POINTS];
    static uint32_t counts[TANKCURVE_CELLS_LEN], sums[TANKCURVE_CELLS_LEN];
    const uint8_t degrees[] = {120};
    const uint32_t widths[] = {5};
    if (marks > TANKCURVE_BOX_MAX_POINTS)
        marks = TANKCURVE_BOX_MAX_POINTS;
    for (size_t k = 0; k < samples; k++)
        temperatures[k] = 120;
    if (!accepted("boxes", tankcurve_boxes(minutes, samples, temperatures, samples, values, samples, points, marks, bandwidths, marks, degrees, 1, widths,
                                           1, boxes, TANKCURVE_BOX_LEN * marks, counts, TANKCURVE_CELLS_LEN, sums, TANKCURVE_CELLS_LEN)))
        return false;
    for (size_t j = 0; j < marks; j++)
        printf("boxes: count %" PRIu64 ", sum %" PRIu64 "\n", boxes[TANKCURVE_BOX_LEN * j + TANKCURVE_BOX_COUNT],
               boxes[TANKCURVE_BOX_LEN * j + TANKCURVE_BOX_SUM]);
    return true;
}

/* What the program writes of the sheet: its curve, or its refusal. */
static bool text(size_t sheet_len)
{
    uint64_t answer = tankcurve_text(sheet, sheet_len, out, TANKCURVE_MAX_OUTPUT);
    if (!accepted("text", answer))
        answer = tankcurve_refusal_text(tankcurve_number(answer), tankcurve_detail(answer), out, TANKCURVE_MAX_OUTPUT);
    return accepted("refusal_text", answer) && fwrite(out, 1, tankcurve_detail(answer), stdout) == tankcurve_detail(answer);
}

int main(void)
{
    /* A header of another version may have other numbers and lengths. */
    if (tankcurve_version() != TANKCURVE_VERSION) {
        fputs("calls: the archive is of another version than the header\n", stderr);
        return 1;
    }
    size_t sheet_len = fread(sheet, 1, sizeof sheet, stdin);
    if (ferror(stdin)) {
        fputs("calls: standard input cannot be read\n", stderr);
        return 1;
    }
    uint64_t counts[TANKCURVE_COUNTS_LEN];
    uint64_t answer = tankcurve_read(sheet, sheet_len, minutes, TANKCURVE_MAX_SAMPLES, values, TANKCURVE_MAX_SAMPLES, points,
                                     TANKCURVE_MAX_POINTS, bandwidths, TANKCURVE_MAX_POINTS, counts, TANKCURVE_COUNTS_LEN);
    bool well = text(sheet_len);
    if (accepted("read", answer)) {
        size_t samples = counts[TANKCURVE_COUNTS_SAMPLES], marks = counts[TANKCURVE_COUNTS_POINTS];
        printf("read: %zu samples, %zu points\n", samples, marks);
        well = well && sweep(samples, marks) && over_ranges(sheet_len, 60) && steps(samples, marks) && one_mark(samples, points[0], bandwidths[0]) &&
               softer(samples, points[0]) && may_move(samples, marks, 58) && may_move(samples, marks, 57) &&
               repeat_which(samples, points[0], bandwidths[0], 60) && repeat_which(samples, points[0], bandwidths[0], 59) && twins(samples, marks) &&
               by_temperature(samples, marks) &&
               by_neighbours(samples, marks, 2) && by_neighbours(samples, marks, 5);
        /* Four marks from minute 10, one every 15 minutes, with the half width of the knob's position 0. */
        well = well && accepted("fill", tankcurve_fill(10, 15, 0, points, 4, bandwidths, 4)) && preview(samples, 4) && sweep(samples, 4);
    }
    return well && fflush(stdout) == 0 ? 0 : 1;
}
