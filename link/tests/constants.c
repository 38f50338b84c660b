/*
 * Holds every constant and every enumerator of tankcurve.h against the archive: each limit is the last that is accepted, each length the only
 * one, and each report is got once by its name, with its word. Ends with a message and status 1 at the first difference.
 */
#include "tankcurve.h"

#include <inttypes.h>
#include <stdio.h>
#include <stdlib.h>
#include <string.h>

/* Lists that are longer than any limit. */
static uint16_t minutes[2 * TANKCURVE_MAX_SAMPLES], values[2 * TANKCURVE_MAX_SAMPLES], highs[2 * TANKCURVE_MAX_SAMPLES];
static uint16_t points[2 * TANKCURVE_MAX_POINTS];
static uint32_t bandwidths[2 * TANKCURVE_MAX_POINTS];
static uint64_t numbers[16];
static double doubles[4];
static uint8_t degrees[2 * TANKCURVE_MAX_SAMPLES];
static uint64_t boxes[4 * TANKCURVE_BOX_LEN * TANKCURVE_BOX_MAX_POINTS * TANKCURVE_BOX_MAX_POINTS];
static uint32_t cell_counts[2 * TANKCURVE_CELLS_LEN], cell_sums[2 * TANKCURVE_CELLS_LEN];
static uint8_t out[2 * TANKCURVE_MAX_OUTPUT];
static char sheet[2 * TANKCURVE_MAX_SHEET];

static int compared;

/* An answer has this number, and this place if it is a report. */
static void gives(const char *what, uint64_t answer, enum tankcurve_report report, uint64_t place)
{
    if (tankcurve_number(answer) != report || (report != TANKCURVE_ACCEPTED && tankcurve_detail(answer) != place)) {
        printf("constants: %s: %s (%d) at %" PRIu64 " and not %s (%d) at %" PRIu64 "\n", what, tankcurve_word(tankcurve_number(answer)),
               (int)tankcurve_number(answer), tankcurve_detail(answer), tankcurve_word(report), (int)report, place);
        exit(1);
    }
    compared++;
}

static void same(const char *what, uint64_t got, uint64_t expected)
{
    if (got != expected) {
        printf("constants: %s: %" PRIu64 " and not %" PRIu64 "\n", what, got, expected);
        exit(1);
    }
    compared++;
}

static uint64_t evaluate(size_t samples, uint32_t bandwidth, size_t row_len)
{
    return tankcurve_evaluate(minutes, samples, values, samples, 0, bandwidth, numbers, row_len);
}

/* Marks that are all 0, with the half width of the knob's position 0. */
static uint64_t preview(size_t samples, size_t marks)
{
    static uint64_t rows[2 * TANKCURVE_PREVIEW_MAX_POINTS * TANKCURVE_ROW_LEN];
    uint64_t answer = tankcurve_fill(0, 0, 0, points, marks, bandwidths, marks);
    if (tankcurve_number(answer) != TANKCURVE_ACCEPTED)
        return answer;
    return tankcurve_preview(minutes, samples, values, samples, points, marks, bandwidths, marks, rows, marks * TANKCURVE_ROW_LEN);
}

/* One sample, with half widths of its own. */
static uint64_t by_neighbours(size_t k, size_t marks, size_t bandwidths_len, size_t rows_len)
{
    static uint32_t widths[4];
    return tankcurve_neighbours(minutes, 1, values, 1, points, marks, k, widths, bandwidths_len, numbers, rows_len);
}

/* Points that are all 0, and bandwidths of 1 but for the first of the temperatures. */
static uint64_t in_boxes(size_t samples, size_t minute_points, size_t temperature_points, uint32_t first, size_t boxes_len, size_t counts_len,
                         size_t sums_len)
{
    static const uint16_t at[2 * TANKCURVE_BOX_MAX_POINTS];
    static uint32_t wide[2 * TANKCURVE_BOX_MAX_POINTS], high[2 * TANKCURVE_BOX_MAX_POINTS];
    for (size_t k = 0; k < 2 * TANKCURVE_BOX_MAX_POINTS; k++)
        wide[k] = high[k] = 1;
    high[0] = first;
    return tankcurve_boxes(minutes, samples, degrees, samples, values, samples, at, minute_points, wide, minute_points, degrees, temperature_points, high,
                           temperature_points, boxes, boxes_len, cell_counts, counts_len, cell_sums, sums_len);
}

/* The same with lists of the lengths that belong to them. */
static uint64_t fit_boxes(size_t samples, size_t minute_points, size_t temperature_points, uint32_t first)
{
    return in_boxes(samples, minute_points, temperature_points, first, TANKCURVE_BOX_LEN * minute_points * temperature_points, TANKCURVE_CELLS_LEN,
                    TANKCURVE_CELLS_LEN);
}

static uint64_t read_lists(const char *text, size_t length, size_t samples_len, size_t points_len, size_t counts_len)
{
    return tankcurve_read((const uint8_t *)text, length, minutes, samples_len, values, samples_len, points, points_len, bandwidths, points_len,
                          numbers, counts_len);
}

static uint64_t read_sheet(const char *text)
{
    return read_lists(text, strlen(text), TANKCURVE_MAX_SAMPLES, TANKCURVE_MAX_POINTS, TANKCURVE_COUNTS_LEN);
}

static uint64_t read_range_lists(const char *text, size_t length, size_t samples_len, size_t points_len, size_t counts_len)
{
    return tankcurve_read_ranges((const uint8_t *)text, length, minutes, samples_len, values, samples_len, highs, samples_len, points, points_len,
                                 bandwidths, points_len, numbers, counts_len);
}

static uint64_t read_either(const char *text)
{
    return read_range_lists(text, strlen(text), TANKCURVE_MAX_SAMPLES, TANKCURVE_MAX_POINTS, TANKCURVE_RANGE_COUNTS_LEN);
}

/* The calls that read a sheet answer with this report and place. */
static void reads(const char *what, const char *text, enum tankcurve_report report, uint64_t place)
{
    gives(what, read_sheet(text), report, place);
    gives(what, read_either(text), report, place);
    gives(what, tankcurve_text((const uint8_t *)text, strlen(text), out, TANKCURVE_MAX_OUTPUT), report, place);
}

/* A sheet without a fault of this many bytes: readings of injection 1, which are not kept, fill it up. */
static void fill_sheet(size_t length)
{
    const char head[] = "mark,half\n0,1\n\nminute,inj,vdk\n";
    size_t done = strlen(head);
    memcpy(sheet, head, done);
    while (done < length) {
        const char *line = (length - done) % 6 == 0 ? "0,1,0\n" : "0,1,10\n";
        memcpy(sheet + done, line, strlen(line));
        done += strlen(line);
    }
    same("the made sheet's length", done, length);
}

/* A sheet with this many points and kept samples; gives where its last line begins. */
static size_t many(int marks, int readings)
{
    size_t done = 0, last = 0;
    done += (size_t)sprintf(sheet + done, "mark,half\n");
    for (int k = 0; k < marks; k++)
        done += (size_t)sprintf(sheet + (last = done), "0,1\n");
    if (marks > TANKCURVE_MAX_POINTS)
        return last;
    done += (size_t)sprintf(sheet + done, "\nminute,inj,vdk\n");
    for (int k = 0; k < readings; k++)
        done += (size_t)sprintf(sheet + (last = done), "0,3,0\n");
    return last;
}

static void limits(void)
{
    gives("the most samples", evaluate(TANKCURVE_MAX_SAMPLES, 1, TANKCURVE_ROW_LEN), TANKCURVE_ACCEPTED, 0);
    gives("a sample more", evaluate(TANKCURVE_MAX_SAMPLES + 1, 1, TANKCURVE_ROW_LEN), TANKCURVE_TOO_MANY, 0);
    gives("the most points", tankcurve_fill(0, 0, 0, points, TANKCURVE_MAX_POINTS, bandwidths, TANKCURVE_MAX_POINTS), TANKCURVE_ACCEPTED, 0);
    gives("a point more", tankcurve_fill(0, 0, 0, points, TANKCURVE_MAX_POINTS + 1, bandwidths, TANKCURVE_MAX_POINTS + 1), TANKCURVE_TOO_MANY,
          0);
    gives("the most of a preview", preview(TANKCURVE_PREVIEW_MAX_SAMPLES, TANKCURVE_PREVIEW_MAX_POINTS), TANKCURVE_ACCEPTED, 0);
    gives("a sample more of a preview", preview(TANKCURVE_PREVIEW_MAX_SAMPLES + 1, 1), TANKCURVE_TOO_MANY, 0);
    gives("a point more of a preview", preview(1, TANKCURVE_PREVIEW_MAX_POINTS + 1), TANKCURVE_TOO_MANY, 0);
    gives("the least bandwidth", evaluate(1, TANKCURVE_MIN_BANDWIDTH, TANKCURVE_ROW_LEN), TANKCURVE_ACCEPTED, 0);
    gives("a bandwidth less", evaluate(1, TANKCURVE_MIN_BANDWIDTH - 1, TANKCURVE_ROW_LEN), TANKCURVE_BANDWIDTH_OUT_OF_RANGE, 0);
    gives("the greatest bandwidth", evaluate(1, TANKCURVE_MAX_BANDWIDTH, TANKCURVE_ROW_LEN), TANKCURVE_ACCEPTED, 0);
    gives("a bandwidth more", evaluate(1, TANKCURVE_MAX_BANDWIDTH + 1, TANKCURVE_ROW_LEN), TANKCURVE_BANDWIDTH_OUT_OF_RANGE, 0);
    gives("the most points of both directions", fit_boxes(TANKCURVE_MAX_SAMPLES, TANKCURVE_BOX_MAX_POINTS, TANKCURVE_BOX_MAX_POINTS, 1),
          TANKCURVE_ACCEPTED, 0);
    gives("a point of the minutes more", fit_boxes(1, TANKCURVE_BOX_MAX_POINTS + 1, 1, 1), TANKCURVE_TOO_MANY, 0);
    gives("a point of the temperatures more", fit_boxes(1, 1, TANKCURVE_BOX_MAX_POINTS + 1, 1), TANKCURVE_TOO_MANY, 0);
    gives("a sample more in boxes", fit_boxes(TANKCURVE_MAX_SAMPLES + 1, 1, 1, 1), TANKCURVE_TOO_MANY, 0);
    gives("the greatest bandwidth of a temperature", fit_boxes(1, 1, 1, TANKCURVE_MAX_TEMPERATURE_BANDWIDTH), TANKCURVE_ACCEPTED, 0);
    gives("a bandwidth of a temperature more", fit_boxes(1, 1, 1, TANKCURVE_MAX_TEMPERATURE_BANDWIDTH + 1), TANKCURVE_BANDWIDTH_OUT_OF_RANGE, 0);
    fill_sheet(TANKCURVE_MAX_SHEET);
    gives("the longest sheet", tankcurve_text((const uint8_t *)sheet, TANKCURVE_MAX_SHEET, out, TANKCURVE_MAX_OUTPUT), TANKCURVE_ACCEPTED, 0);
    fill_sheet(TANKCURVE_MAX_SHEET + 1);
    gives("a byte more", tankcurve_text((const uint8_t *)sheet, TANKCURVE_MAX_SHEET + 1, out, TANKCURVE_MAX_OUTPUT), TANKCURVE_TOO_LONG,
          TANKCURVE_MAX_SHEET);
}

/* Each length of a list is accepted; one less and one more are not. */
static void lengths(void)
{
    const char text[] = "mark,half\n0,1\n\nminute,inj,vdk\n";
    for (int by = -1; by <= 1; by++) {
        enum tankcurve_report report = by == 0 ? TANKCURVE_ACCEPTED : TANKCURVE_LENGTH_MISMATCH;
        size_t d = (size_t)by;
        gives("row", evaluate(1, 1, TANKCURVE_ROW_LEN + d), report, 0);
        gives("rows", tankcurve_smooth(minutes, 1, values, 1, points, 2, bandwidths, 2, numbers, 2 * TANKCURVE_ROW_LEN + d), report, 0);
        gives("rows over ranges",
              tankcurve_smooth_ranges(minutes, 1, values, 1, values, 1, points, 2, bandwidths, 2, numbers, 2 * TANKCURVE_RANGE_ROW_LEN + d), report, 0);
        gives("bandwidths by neighbours", by_neighbours(1, 2, 2 + d, 2 * TANKCURVE_ROW_LEN), report, 0);
        gives("rows by neighbours", by_neighbours(1, 2, 2, 2 * TANKCURVE_ROW_LEN + d), report, 0);
        gives("biweight row", tankcurve_biweight(minutes, 1, values, 1, 0, numbers, TANKCURVE_ROW_LEN + d), report, 0);
        gives("bounds", tankcurve_window(minutes, 1, values, 1, 0, 1, numbers, TANKCURVE_BOUNDS_LEN + d), report, 0);
        gives("doubles", tankcurve_doubles(5, 3, doubles, TANKCURVE_DOUBLES_LEN + d), report, 0);
        gives("position", tankcurve_first_at_most(minutes, 1, values, 1, points, 2, bandwidths, 2, 0, numbers, TANKCURVE_POSITION_LEN + d), report, 0);
        gives("position of a sample", tankcurve_decisive(minutes, 1, values, 1, 0, 1, 0, numbers, TANKCURVE_POSITION_LEN + d), report, 0);
        gives("parting", tankcurve_compare(minutes, 1, values, 1, minutes, 1, values, 1, points, 2, bandwidths, 2, numbers, TANKCURVE_PARTING_LEN + d), report, 0);
        gives("boxes", in_boxes(1, 2, 3, 1, TANKCURVE_BOX_LEN * 6 + d, TANKCURVE_CELLS_LEN, TANKCURVE_CELLS_LEN), report, 0);
        gives("counts of cells", in_boxes(1, 2, 3, 1, TANKCURVE_BOX_LEN * 6, TANKCURVE_CELLS_LEN + d, TANKCURVE_CELLS_LEN), report, 0);
        gives("sums of cells", in_boxes(1, 2, 3, 1, TANKCURVE_BOX_LEN * 6, TANKCURVE_CELLS_LEN, TANKCURVE_CELLS_LEN + d), report, 0);
        memset(numbers, 0, sizeof numbers);
        gives("record", tankcurve_advance(numbers, TANKCURVE_RECORD_LEN + d, minutes, 1, values, 1, 0, 1), report, 0);
        gives("record of a row", tankcurve_row(numbers, TANKCURVE_RECORD_LEN + d, 0, 1, numbers + 10, TANKCURVE_ROW_LEN), report, 0);
        gives("row of a record", tankcurve_row(numbers, TANKCURVE_RECORD_LEN, 0, 1, numbers + 10, TANKCURVE_ROW_LEN + d), report, 0);
        gives("samples", read_lists(text, strlen(text), TANKCURVE_MAX_SAMPLES + d, TANKCURVE_MAX_POINTS, TANKCURVE_COUNTS_LEN), report, 0);
        gives("points", read_lists(text, strlen(text), TANKCURVE_MAX_SAMPLES, TANKCURVE_MAX_POINTS + d, TANKCURVE_COUNTS_LEN), report, 0);
        gives("counts", read_lists(text, strlen(text), TANKCURVE_MAX_SAMPLES, TANKCURVE_MAX_POINTS, TANKCURVE_COUNTS_LEN + d), report, 0);
        gives("ranges", read_range_lists(text, strlen(text), TANKCURVE_MAX_SAMPLES + d, TANKCURVE_MAX_POINTS, TANKCURVE_RANGE_COUNTS_LEN), report, 0);
        gives("points of ranges", read_range_lists(text, strlen(text), TANKCURVE_MAX_SAMPLES, TANKCURVE_MAX_POINTS + d, TANKCURVE_RANGE_COUNTS_LEN),
              report, 0);
        gives("counts of ranges", read_range_lists(text, strlen(text), TANKCURVE_MAX_SAMPLES, TANKCURVE_MAX_POINTS, TANKCURVE_RANGE_COUNTS_LEN + d),
              report, 0);
        gives("text", tankcurve_text((const uint8_t *)text, strlen(text), out, TANKCURVE_MAX_OUTPUT + d), report, 0);
        gives("text of a refusal", tankcurve_refusal_text(1, 2, out, TANKCURVE_MAX_OUTPUT + d), report, 0);
    }
}

/* One sheet or call for each report, by its name, and its word. */
static void reports(void)
{
    const char head[] = "mark,half\n5,2\n\nminute,inj,vdk\n";
    char text[100];
    fill_sheet(TANKCURVE_MAX_SHEET + 1);
    reads("accepted", head, TANKCURVE_ACCEPTED, 0);
    reads("too long", sheet, TANKCURVE_TOO_LONG, TANKCURVE_MAX_SHEET);
    reads("bad header", "mark,half\n5,2\n\nminute,inj\n", TANKCURVE_BAD_HEADER, 15);
    reads("malformed line", "mark,half\n5,2\n5;2\n", TANKCURVE_MALFORMED_LINE, 14);
    sprintf(text, "%s7,3,1\n6,3,1\n", head);
    reads("sample out of order", text, TANKCURVE_SAMPLE_OUT_OF_ORDER, strlen(head) + 6);
    reads("point out of order", "mark,half\n5,2\n4,2\n", TANKCURVE_POINT_OUT_OF_ORDER, 14);
    size_t last = many(TANKCURVE_MAX_POINTS + 1, 0);
    reads("too many points", sheet, TANKCURVE_TOO_MANY, last);
    last = many(1, TANKCURVE_MAX_SAMPLES + 1);
    reads("too many samples", sheet, TANKCURVE_TOO_MANY, last);
    reads("no points", "mark,half\n\n", TANKCURVE_NO_POINTS, 10);
    reads("no points, carriage returns", "mark,half\r\n\r\n", TANKCURVE_NO_POINTS, 11);
    reads("a second carriage return", "mark,half\r\n5,2\r\r\n", TANKCURVE_MALFORMED_LINE, 11);
    gives("length mismatch", tankcurve_evaluate(minutes, 2, values, 1, 0, 1, numbers, TANKCURVE_ROW_LEN), TANKCURVE_LENGTH_MISMATCH, 0);
    reads("bandwidth out of range", "mark,half\n5,2\n5,65537\n", TANKCURVE_BANDWIDTH_OUT_OF_RANGE, 14);
    reads("edge decreases", "mark,half\n5,2\n6,4\n", TANKCURVE_EDGE_DECREASES, 14);
    uint64_t record[TANKCURVE_RECORD_LEN] = {1, 0, 0, 0, 0, 0, 0, 0};
    gives("invalid record", tankcurve_advance(record, TANKCURVE_RECORD_LEN, minutes, 1, values, 1, 0, 1), TANKCURVE_INVALID_RECORD, 0);
    gives("unknown preset", tankcurve_fill(0, 0, 12, points, 1, bandwidths, 1), TANKCURVE_UNKNOWN_PRESET, 0);
    gives("grid overflow", tankcurve_fill(65535, 1, 11, points, 2, bandwidths, 2), TANKCURVE_GRID_OVERFLOW, 0);
    gives("too few samples, k of 0", by_neighbours(0, 1, 1, TANKCURVE_ROW_LEN), TANKCURVE_TOO_FEW_SAMPLES, 0);
    gives("too few samples", by_neighbours(2, 1, 1, TANKCURVE_ROW_LEN), TANKCURVE_TOO_FEW_SAMPLES, 0);
    const uint16_t falling[] = {7, 6};
    const uint32_t one[] = {1};
    gives("crossed range", tankcurve_smooth_ranges(falling, 1, falling, 1, falling + 1, 1, falling, 1, one, 1, numbers, TANKCURVE_RANGE_ROW_LEN),
          TANKCURVE_CROSSED_RANGE, 0);
    gives("crossed range of a sheet", read_either("mark,half\n5,2\n\nminute,inj,low,high\n1,3,5,5\n1,1,6,5\n"), TANKCURVE_CROSSED_RANGE, 43);
    gives("second series", tankcurve_compare(falling, 1, falling, 1, falling, 2, falling, 2, falling, 1, one, 1, numbers, TANKCURVE_PARTING_LEN),
          TANKCURVE_SECOND_SERIES, 1);
    const uint8_t cold[] = {7, 6};
    const uint32_t ones[] = {1, 1};
    gives("temperature out of order",
          tankcurve_boxes(minutes, 1, cold, 1, values, 1, points, 1, ones, 1, cold, 2, ones, 2, boxes, 2 * TANKCURVE_BOX_LEN, cell_counts,
                          TANKCURVE_CELLS_LEN, cell_sums, TANKCURVE_CELLS_LEN),
          TANKCURVE_TEMPERATURE_OUT_OF_ORDER, 1);
}

/* The trade's words, in the order of the numbers. */
static void words(void)
{
    static const char *const trade[] = {"accepted",   "overlong",   "heading",   "torn line",      "early reading", "early mark",
                                        "crowded",    "no marks",   "uneven",    "half width",     "edge back",     "foreign record",
                                        "knob",       "past the clock", "too few", "crossed range", "second tank",   "early temperature mark"};
    for (unsigned number = 0; number < TANKCURVE_DETAIL_UNIT; number++) {
        const char *word = tankcurve_word(tankcurve_number(number));
        const char *expected = number < sizeof trade / sizeof *trade ? trade[number] : "unknown";
        same(expected, (uint64_t)strcmp(word, expected), 0);
    }
}

/* The value of no weight, and that a value is present by its weight and not by its number. */
static void missing(void)
{
    gives("no samples", evaluate(0, 1, TANKCURVE_ROW_LEN), TANKCURVE_ACCEPTED, 0);
    same("the value of weight 0", numbers[TANKCURVE_ROW_VALUE], TANKCURVE_MISSING);
    same("a missing value is present", tankcurve_present(numbers), 0);
    minutes[0] = values[0] = 0;
    gives("a sample of value 0", evaluate(1, 1, TANKCURVE_ROW_LEN), TANKCURVE_ACCEPTED, 0);
    same("the value 0", numbers[TANKCURVE_ROW_VALUE], 0);
    same("the value 0 is present", tankcurve_present(numbers), 1);
    /* A record that no readings gave: its value is 65,536 with a weight. */
    const uint64_t record[TANKCURVE_RECORD_LEN] = {0, 0, 1, 0, 0, TANKCURVE_MISSING, 0, 0};
    gives("a foreign record", tankcurve_row(record, TANKCURVE_RECORD_LEN, 0, 1, numbers, TANKCURVE_ROW_LEN), TANKCURVE_ACCEPTED, 0);
    same("its value", numbers[TANKCURVE_ROW_VALUE], TANKCURVE_MISSING);
    same("its value is present", tankcurve_present(numbers), 1);
    const uint64_t without[TANKCURVE_ROW_LEN] = {0, 1, 0, 0, 70};
    same("a value without weight is present", tankcurve_present(without), 0);
}

/* Where the fields stand: a row, a record and counts of which all numbers differ. The expected ones are those of the second implementation. */
static void fields(void)
{
    const uint16_t at[] = {3, 8, 8, 15, 21, 40}, of[] = {5, 7, 11, 13, 29, 31};
    uint64_t row[TANKCURVE_ROW_LEN], record[TANKCURVE_RECORD_LEN] = {0, 3, 100, 200, 300, 400, 500, UINT64_MAX, 40};
    gives("fields of a row", tankcurve_evaluate(at, 6, of, 6, 14, 7, row, TANKCURVE_ROW_LEN), TANKCURVE_ACCEPTED, 0);
    same("left", row[TANKCURVE_ROW_LEFT], 1);
    same("right", row[TANKCURVE_ROW_RIGHT], 5);
    same("weight", row[TANKCURVE_ROW_WEIGHT], 74);
    same("sum", row[TANKCURVE_ROW_SUM], 858);
    same("value", row[TANKCURVE_ROW_VALUE], 12);
    gives("fields of a record", tankcurve_advance(record, TANKCURVE_RECORD_LEN, at, 6, of, 6, 16, 8), TANKCURVE_ACCEPTED, 0);
    same("left of a record", record[TANKCURVE_RECORD_LEFT], 1);
    same("right of a record", record[TANKCURVE_RECORD_RIGHT], 5);
    same("s00", record[TANKCURVE_RECORD_S00], 101);
    same("s10", record[TANKCURVE_RECORD_S10], 233);
    same("s20", record[TANKCURVE_RECORD_S20], 957);
    same("s01", record[TANKCURVE_RECORD_S01], 437);
    same("s11", record[TANKCURVE_RECORD_S11], 1289);
    same("s21", record[TANKCURVE_RECORD_S21], 15668);
    same("passes", record[TANKCURVE_RECORD_PASSES], 43);
    gives("fields of counts", read_sheet("mark,half\n5,2\n6,2\n\nminute,inj,vdk\n1,3,1\n2,1,1\n3,3,1\n4,3,1\n"), TANKCURVE_ACCEPTED, 0);
    same("samples", numbers[TANKCURVE_COUNTS_SAMPLES], 3);
    same("points", numbers[TANKCURVE_COUNTS_POINTS], 2);
}

/* The same of a row over ranges and of the counts of both kinds of sheet. */
static void fields_of_ranges(void)
{
    const uint16_t at[] = {3, 8, 8, 15, 21, 40}, low[] = {4, 0, 10, 6, 13, 31}, high[] = {5, 7, 11, 13, 29, 31}, point[] = {14};
    const uint32_t seven[] = {7};
    uint64_t row[TANKCURVE_RANGE_ROW_LEN];
    gives("fields over ranges", tankcurve_smooth_ranges(at, 6, low, 6, high, 6, point, 1, seven, 1, row, TANKCURVE_RANGE_ROW_LEN), TANKCURVE_ACCEPTED, 0);
    same("left over ranges", row[TANKCURVE_RANGE_ROW_LEFT], 1);
    same("right over ranges", row[TANKCURVE_RANGE_ROW_RIGHT], 5);
    same("weight over ranges", row[TANKCURVE_RANGE_ROW_WEIGHT], 74);
    same("low sum", row[TANKCURVE_RANGE_ROW_LOW_SUM], 418);
    same("high sum", row[TANKCURVE_RANGE_ROW_HIGH_SUM], 858);
    same("low value", row[TANKCURVE_RANGE_ROW_LOW_VALUE], 6);
    same("high value", row[TANKCURVE_RANGE_ROW_HIGH_VALUE], 12);
    same("it is present", tankcurve_present(row), 1);
    gives("no ranges", tankcurve_smooth_ranges(at, 0, low, 0, high, 0, point, 1, seven, 1, row, TANKCURVE_RANGE_ROW_LEN), TANKCURVE_ACCEPTED, 0);
    same("the low value of weight 0", row[TANKCURVE_RANGE_ROW_LOW_VALUE], TANKCURVE_MISSING);
    same("the high value of weight 0", row[TANKCURVE_RANGE_ROW_HIGH_VALUE], TANKCURVE_MISSING);
    same("missing values are present", tankcurve_present(row), 0);
    gives("fields of ranges", read_either("mark,half\n5,2\n6,2\n\nminute,inj,low,high\n1,3,0,1\n2,1,1,1\n3,3,1,1\n4,3,1,1\n"), TANKCURVE_ACCEPTED, 0);
    same("samples of ranges", numbers[TANKCURVE_RANGE_COUNTS_SAMPLES], 3);
    same("points of ranges", numbers[TANKCURVE_RANGE_COUNTS_POINTS], 2);
    same("kind of ranges", numbers[TANKCURVE_RANGE_COUNTS_KIND], TANKCURVE_KIND_RANGES);
    gives("fields of a plain sheet", read_either("mark,half\n5,2\n\nminute,inj,vdk\n"), TANKCURVE_ACCEPTED, 0);
    same("kind of a plain sheet", numbers[TANKCURVE_RANGE_COUNTS_KIND], TANKCURVE_KIND_PLAIN);
}

/* Readings reach the greatest weight and sum; a row with a number over them is none of readings. */
static void bounds(void)
{
    for (size_t k = 0; k < TANKCURVE_MAX_SAMPLES; k++) {
        minutes[k] = 0;
        values[k] = 65535;
    }
    gives("the greatest weight", evaluate(TANKCURVE_MAX_SAMPLES, TANKCURVE_MAX_BANDWIDTH, TANKCURVE_ROW_LEN), TANKCURVE_ACCEPTED, 0);
    same("its weight", numbers[TANKCURVE_ROW_WEIGHT], TANKCURVE_MAX_WEIGHT);
    same("its sum", numbers[TANKCURVE_ROW_SUM], TANKCURVE_MAX_SUM);
    same("it is of readings", tankcurve_of_readings(numbers), 1);
    numbers[TANKCURVE_ROW_WEIGHT]++;
    same("a weight over it is of readings", tankcurve_of_readings(numbers), 0);
    numbers[TANKCURVE_ROW_WEIGHT]--;
    numbers[TANKCURVE_ROW_SUM]++;
    same("a sum over it is of readings", tankcurve_of_readings(numbers), 0);
    numbers[TANKCURVE_ROW_SUM]--;
    numbers[TANKCURVE_ROW_VALUE]++;
    same("a value over it is of readings", tankcurve_of_readings(numbers), 0);
    gives("no samples", evaluate(0, 1, TANKCURVE_ROW_LEN), TANKCURVE_ACCEPTED, 0);
    same("a missing value is of readings", tankcurve_of_readings(numbers), 1);
}

/* The same of the biweight row, whose edges are those of its bandwidth. */
static void biweight_bounds(void)
{
    for (size_t k = 0; k < TANKCURVE_MAX_SAMPLES; k++) {
        minutes[k] = 5;
        values[k] = 65535;
    }
    gives("the greatest biweight row", tankcurve_biweight(minutes, TANKCURVE_MAX_SAMPLES, values, TANKCURVE_MAX_SAMPLES, 5, numbers, TANKCURVE_ROW_LEN),
          TANKCURVE_ACCEPTED, 0);
    same("its weight", numbers[TANKCURVE_ROW_WEIGHT], TANKCURVE_BIWEIGHT_MAX_WEIGHT);
    same("its sum", numbers[TANKCURVE_ROW_SUM], TANKCURVE_BIWEIGHT_MAX_SUM);
    same("its value", numbers[TANKCURVE_ROW_VALUE], 65535);
    /* From 17 samples at the point on the weight is over what other rows have. */
    for (size_t n = 16; n <= 17; n++) {
        gives("16 or 17 at the point", tankcurve_biweight(minutes, n, values, n, 5, numbers, TANKCURVE_ROW_LEN), TANKCURVE_ACCEPTED, 0);
        same("their weight", numbers[TANKCURVE_ROW_WEIGHT], n * UINT64_C(268738560000));
        same("their value", numbers[TANKCURVE_ROW_VALUE], 65535);
        same("within the bounds of other rows", tankcurve_of_readings(numbers), n == 16);
    }
    gives("a sample more", tankcurve_biweight(minutes, TANKCURVE_MAX_SAMPLES + 1, values, TANKCURVE_MAX_SAMPLES + 1, 5, numbers, TANKCURVE_ROW_LEN),
          TANKCURVE_TOO_MANY, 0);
    for (unsigned d = 0; d <= 1; d++) {
        gives("at the edge and behind it", tankcurve_biweight(minutes, 1, values, 1, (uint16_t)(5 + TANKCURVE_BIWEIGHT_BANDWIDTH + d), numbers,
                                                              TANKCURVE_ROW_LEN),
              TANKCURVE_ACCEPTED, 0);
        same("left of it", numbers[TANKCURVE_ROW_LEFT], d);
        same("its value is present", tankcurve_present(numbers), 0);
    }
}

/* Rows of a record that is not of the point and bandwidth asked for: their value is 0 or 1 and has a weight. */
static void rows_of_another_window(void)
{
    static const uint16_t at[] = {10, 20, 20, 35}, of[] = {40, 60, 80, 20};
    static const struct {
        /* The steps, and where the row is asked. */
        uint16_t first, second, point;
        uint32_t first_bandwidth, second_bandwidth, bandwidth;
        uint64_t value;
        bool of_readings;
    } cases[] = {
        {20, 20, 20, 10, 10, 10, 70, true}, {20, 20, 60, 10, 10, 20, 1, false}, {20, 20, 60, 10, 10, 40, 1, false},
        {20, 20, 20, 10, 10, 5, 0, false},  {35, 20, 20, 5, 5, 5, 1, false}, /* edges that lie back */
    };
    for (size_t k = 0; k < sizeof cases / sizeof *cases; k++) {
        uint64_t record[TANKCURVE_RECORD_LEN] = {0};
        gives("a step", tankcurve_advance(record, TANKCURVE_RECORD_LEN, at, 4, of, 4, cases[k].first, cases[k].first_bandwidth),
              TANKCURVE_ACCEPTED, 0);
        gives("a second step", tankcurve_advance(record, TANKCURVE_RECORD_LEN, at, 4, of, 4, cases[k].second, cases[k].second_bandwidth),
              TANKCURVE_ACCEPTED, 0);
        gives("its row", tankcurve_row(record, TANKCURVE_RECORD_LEN, cases[k].point, cases[k].bandwidth, numbers, TANKCURVE_ROW_LEN),
              TANKCURVE_ACCEPTED, 0);
        same("its row is present", tankcurve_present(numbers), 1);
        same("its row's value", numbers[TANKCURVE_ROW_VALUE], cases[k].value);
        same("its row is of readings", tankcurve_of_readings(numbers), cases[k].of_readings);
    }
}

/* Of no readings no value is low enough, and none decides. */
static void no_position(void)
{
    uint64_t position[TANKCURVE_POSITION_LEN] = {0};
    gives("no position", tankcurve_first_at_most(minutes, 0, values, 0, points, 1, bandwidths, 1, 65535, position, TANKCURVE_POSITION_LEN),
          TANKCURVE_ACCEPTED, 0);
    same("no position", position[0], TANKCURVE_NO_POSITION);
    position[0] = 0;
    gives("no sample", tankcurve_decisive(minutes, 0, values, 0, 0, 1, 65535, position, TANKCURVE_POSITION_LEN), TANKCURVE_ACCEPTED, 0);
    same("no sample", position[0], TANKCURVE_NO_POSITION);
}

/* Each tank by its name, and the fields of a parting: the last of three readings, at the second of two points. */
static void tanks(void)
{
    static const uint16_t at[] = {1, 2, 5}, of[] = {9, 9, 9}, other[] = {9, 9, 8}, marks[] = {1, 5};
    static const uint32_t wide[] = {1, 1};
    uint64_t parting[TANKCURVE_PARTING_LEN] = {0};
    gives("alike", tankcurve_compare(at, 3, of, 3, at, 3, of, 3, marks, 2, wide, 2, parting, TANKCURVE_PARTING_LEN), TANKCURVE_ACCEPTED,
          TANKCURVE_ALIKE);
    gives("the second", tankcurve_compare(at, 3, other, 3, at, 3, of, 3, marks, 2, wide, 2, parting, TANKCURVE_PARTING_LEN), TANKCURVE_ACCEPTED,
          TANKCURVE_SECOND);
    gives("the first", tankcurve_compare(at, 3, of, 3, at, 3, other, 3, marks, 2, wide, 2, parting, TANKCURVE_PARTING_LEN), TANKCURVE_ACCEPTED,
          TANKCURVE_FIRST);
    same("a parting's point", parting[TANKCURVE_PARTING_POINT], 1);
    same("a parting's left", parting[TANKCURVE_PARTING_LEFT], 2);
    same("a parting's right", parting[TANKCURVE_PARTING_RIGHT], 3);
}

/* Where the parts of a number stand. */
static void parts(void)
{
    gives("parts", tankcurve_doubles(1, UINT64_C(9007199254740993), doubles, TANKCURVE_DOUBLES_LEN), TANKCURVE_ACCEPTED, 0);
    same("high", (uint64_t)doubles[TANKCURVE_DOUBLES_HIGH], UINT64_C(9007199254740992));
    same("low", (uint64_t)doubles[TANKCURVE_DOUBLES_LOW], 1);
}

/* Where count and sum of a pair stand, that the last cell is the last, and the greatest sum of a cell. */
static void cells(void)
{
    static const uint16_t at[] = {5, 9};
    static const uint32_t wide[] = {1, 1};
    static const uint8_t warm[] = {3, 8};
    for (size_t k = 0; k < TANKCURVE_MAX_SAMPLES; k++) {
        minutes[k] = 9;
        values[k] = 65535;
        degrees[k] = 3;
    }
    const size_t n = TANKCURVE_MAX_SAMPLES;
    gives("the fullest cell", tankcurve_boxes(minutes, n, degrees, n, values, n, at, 2, wide, 2, warm, 2, wide, 2, boxes, 8, cell_counts, TANKCURVE_CELLS_LEN,
                                              cell_sums, TANKCURVE_CELLS_LEN),
          TANKCURVE_ACCEPTED, 0);
    same("its count", boxes[TANKCURVE_BOX_LEN * (1 * 2 + 0) + TANKCURVE_BOX_COUNT], n);
    same("its sum", boxes[TANKCURVE_BOX_LEN * (1 * 2 + 0) + TANKCURVE_BOX_SUM], TANKCURVE_MAX_CELL_SUM);
    /* Cuts 4, 7, 8, 11 and 2, 5, 7, 10. */
    same("the count of its cell", cell_counts[TANKCURVE_STRIPS * 3 + 1], n);
    same("the sum of its cell", cell_sums[TANKCURVE_STRIPS * 3 + 1], TANKCURVE_MAX_CELL_SUM);
    same("all strips", TANKCURVE_STRIPS * TANKCURVE_STRIPS, TANKCURVE_CELLS_LEN);
    same("strips of 32 points", TANKCURVE_STRIPS, 2 * TANKCURVE_BOX_MAX_POINTS + 1);
}

int main(void)
{
    same("the version", tankcurve_version(), TANKCURVE_VERSION);
    limits();
    memset(bandwidths, 0, sizeof bandwidths);
    bandwidths[0] = bandwidths[1] = 1;
    lengths();
    reports();
    words();
    missing();
    no_position();
    tanks();
    parts();
    cells();
    fields();
    fields_of_ranges();
    bounds();
    biweight_bounds();
    rows_of_another_window();
    printf("constants: %d comparisons passed\n", compared);
    return 0;
}
