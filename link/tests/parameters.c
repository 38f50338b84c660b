/*
 * Calls each export through tankcurve.h with values that tell all its parameters apart: where two of them were exchanged in a declaration,
 * an answer here would be another one. Ends with a message and status 1 at the first difference.
 *
 * The expected numbers are those of the second implementation in reference/.
 */
#include "tankcurve.h"

#include <inttypes.h>
#include <stdio.h>
#include <stdlib.h>
#include <string.h>

#define SAMPLES 6

static const uint16_t minutes[SAMPLES] = {3, 8, 8, 15, 21, 40};
static const uint16_t values[SAMPLES] = {5, 7, 11, 13, 29, 31};
/* Minutes of which that at position 4 is below the one before. */
static const uint16_t falling[SAMPLES] = {3, 8, 8, 15, 14, 40};

static const char sheet[] = "mark,half\n12,7\n14,9\n\nminute,inj,vdk\n11,3,21\n12,1,22\n13,4,23\n30,5,24\n";
/* The same with a carriage return in the endings of both names lines, the empty line and a line of values each. */
static const char office_sheet[] = "mark,half\r\n12,7\r\n14,9\n\r\nminute,inj,vdk\r\n11,3,21\n12,1,22\n13,4,23\r\n30,5,24\n";
static const char curve[] = "mark,half,left,right,weight,sum,vdk\n12,7,0,2,96,2112,22\n14,9,0,2,152,3352,22\n\nkept,passes\n3,2\n";
/* A sheet whose line at byte 52 has a minute below the one before. */
static const char falling_sheet[] = "mark,half\n12,7\n14,9\n\nminute,inj,vdk\n11,3,21\n12,1,22\n11,4,23\n30,5,24\n";
/* Lows and highs for the minutes above, and lows of which that at position 4 is above its high. */
static const uint16_t lows[SAMPLES] = {4, 0, 10, 6, 13, 31};
static const uint16_t highs[SAMPLES] = {5, 7, 11, 13, 29, 31};
static const uint16_t crossed[SAMPLES] = {4, 0, 10, 6, 30, 31};
static const char range_sheet[] = "mark,half\n12,7\n14,9\n\nminute,inj,low,high\n11,3,0,21\n12,1,22,22\n13,4,23,25\n30,5,20,24\n";
static const char range_curve[] = "mark,half,left,right,weight,sumlow,sumhigh,vdklow,vdkhigh\n"
                                  "12,7,0,2,96,1104,2208,12,23\n14,9,0,2,152,1840,3512,12,23\n\nkept,passes\n3,2\n";
/* A sheet whose line at byte 51, which is not kept, has a low above its high. */
static const char crossed_sheet[] = "mark,half\n12,7\n14,9\n\nminute,inj,low,high\n11,3,0,21\n12,1,23,22\n13,4,23,25\n30,5,20,24\n";
static const char falling_text[] = "refused,place\n4,52\n";

static int compared;

static void same(const char *what, uint64_t got, uint64_t expected)
{
    if (got != expected) {
        printf("parameters: %s: %" PRIu64 " and not %" PRIu64 "\n", what, got, expected);
        exit(1);
    }
    compared++;
}

/* Compares a list as it is in memory. */
static void same_list(const char *what, const void *got, const void *expected, size_t size)
{
    for (size_t i = 0; i < size; i++) {
        if (((const uint8_t *)got)[i] != ((const uint8_t *)expected)[i]) {
            printf("parameters: %s differs at byte %zu\n", what, i);
            exit(1);
        }
    }
    compared++;
}

static void answers(void)
{
    same("number of an answer", tankcurve_number(TANKCURVE_DETAIL_UNIT * 52 + 13), TANKCURVE_GRID_OVERFLOW);
    same("detail of an answer", tankcurve_detail(TANKCURVE_DETAIL_UNIT * 52 + 13), 52);
    same("the greatest number of an answer", tankcurve_number(TANKCURVE_DETAIL_UNIT * 52 + 255), 255);
    same("detail beside it", tankcurve_detail(TANKCURVE_DETAIL_UNIT * 52 + 255), 52);
}

static void evaluate(void)
{
    const uint64_t before[] = {90, 91, 92, 93, 94, 95};
    const uint64_t after[] = {1, 5, 74, 858, 12, 95};
    uint64_t row[TANKCURVE_ROW_LEN + 1] = {90, 91, 92, 93, 94, 95};
    same("evaluate, falling minutes", tankcurve_evaluate(falling, SAMPLES, values, SAMPLES, 14, 7, row, TANKCURVE_ROW_LEN),
         TANKCURVE_DETAIL_UNIT * 4 + TANKCURVE_SAMPLE_OUT_OF_ORDER);
    same("evaluate, one value less", tankcurve_evaluate(minutes, SAMPLES, values, SAMPLES - 1, 14, 7, row, TANKCURVE_ROW_LEN),
         TANKCURVE_LENGTH_MISMATCH);
    same("evaluate, a longer row", tankcurve_evaluate(minutes, SAMPLES, values, SAMPLES, 14, 7, row, TANKCURVE_ROW_LEN + 1),
         TANKCURVE_LENGTH_MISMATCH);
    same_list("evaluate, row of a refusal", row, before, sizeof before);
    same("evaluate", tankcurve_evaluate(minutes, SAMPLES, values, SAMPLES, 14, 7, row, TANKCURVE_ROW_LEN), 0);
    same_list("evaluate, row", row, after, sizeof after);
}

/* Empty lists have a pointer that is not null: case C4. */
static void empty_lists(void)
{
    const uint64_t after[] = {0, 0, 0, 0, TANKCURVE_MISSING};
    uint64_t row[TANKCURVE_ROW_LEN] = {90, 91, 92, 93, 94};
    same("evaluate, no samples", tankcurve_evaluate(minutes, 0, values, 0, 5, 1, row, TANKCURVE_ROW_LEN), 0);
    same_list("evaluate, row of no samples", row, after, sizeof after);
}

/* A point whose window begins behind the first three samples. */
static void biweight(void)
{
    const uint64_t before[] = {90, 91, 92, 93, 94, 95};
    const uint64_t after[] = {3, 6, 1325419441, UINT64_C(40939945039), 31, 95};
    const uint64_t on_the_edge[] = {0, 1, 0, 0, TANKCURVE_MISSING, 95};
    const uint16_t edge[] = {TANKCURVE_BIWEIGHT_BANDWIDTH}, seven[] = {7};
    uint64_t row[TANKCURVE_ROW_LEN + 1] = {90, 91, 92, 93, 94, 95};
    same("biweight, falling minutes", tankcurve_biweight(falling, SAMPLES, values, SAMPLES, 735, row, TANKCURVE_ROW_LEN),
         TANKCURVE_DETAIL_UNIT * 4 + TANKCURVE_SAMPLE_OUT_OF_ORDER);
    same("biweight, one value less", tankcurve_biweight(minutes, SAMPLES, values, SAMPLES - 1, 735, row, TANKCURVE_ROW_LEN),
         TANKCURVE_LENGTH_MISMATCH);
    same("biweight, a longer row", tankcurve_biweight(minutes, SAMPLES, values, SAMPLES, 735, row, TANKCURVE_ROW_LEN + 1),
         TANKCURVE_LENGTH_MISMATCH);
    same_list("biweight, row of a refusal", row, before, sizeof before);
    same("biweight", tankcurve_biweight(minutes, SAMPLES, values, SAMPLES, 735, row, TANKCURVE_ROW_LEN), 0);
    same_list("biweight, row", row, after, sizeof after);
    same("biweight, a sample on the edge", tankcurve_biweight(edge, 1, seven, 1, 0, row, TANKCURVE_ROW_LEN), 0);
    same_list("biweight, its row", row, on_the_edge, sizeof on_the_edge);
}

static void window(void)
{
    const uint64_t before[] = {90, 91, 92};
    const uint64_t after[] = {1, 5, 92};
    uint64_t bounds[TANKCURVE_BOUNDS_LEN + 1] = {90, 91, 92};
    same("window, falling minutes", tankcurve_window(falling, SAMPLES, values, SAMPLES, 14, 7, bounds, TANKCURVE_BOUNDS_LEN),
         TANKCURVE_DETAIL_UNIT * 4 + TANKCURVE_SAMPLE_OUT_OF_ORDER);
    same("window, one value less", tankcurve_window(minutes, SAMPLES, values, SAMPLES - 1, 14, 7, bounds, TANKCURVE_BOUNDS_LEN),
         TANKCURVE_LENGTH_MISMATCH);
    same("window, longer bounds", tankcurve_window(minutes, SAMPLES, values, SAMPLES, 14, 7, bounds, TANKCURVE_BOUNDS_LEN + 1),
         TANKCURVE_LENGTH_MISMATCH);
    same_list("window, bounds of a refusal", bounds, before, sizeof before);
    same("window", tankcurve_window(minutes, SAMPLES, values, SAMPLES, 14, 7, bounds, TANKCURVE_BOUNDS_LEN), 0);
    same_list("window, bounds", bounds, after, sizeof after);
}

static void advance(void)
{
    const uint64_t before[] = {0, 3, 100, 200, 300, 400, 500, UINT64_MAX, 40, 90};
    const uint64_t after[] = {1, 5, 101, 233, 957, 437, 1289, 15668, 43, 90};
    const uint64_t crossed[] = {3, 1, 0, 0, 0, 0, 0, 0, 0};
    uint64_t record[TANKCURVE_RECORD_LEN + 1] = {0, 3, 100, 200, 300, 400, 500, UINT64_MAX, 40, 90};
    uint64_t other[TANKCURVE_RECORD_LEN] = {3, 1, 0, 0, 0, 0, 0, 0, 0};
    same("advance, bandwidth 0", tankcurve_advance(record, TANKCURVE_RECORD_LEN, minutes, SAMPLES, values, SAMPLES, 16, 0),
         TANKCURVE_BANDWIDTH_OUT_OF_RANGE);
    same("advance, one value less", tankcurve_advance(record, TANKCURVE_RECORD_LEN, minutes, SAMPLES, values, SAMPLES - 1, 16, 8),
         TANKCURVE_LENGTH_MISMATCH);
    same("advance, a longer record", tankcurve_advance(record, TANKCURVE_RECORD_LEN + 1, minutes, SAMPLES, values, SAMPLES, 16, 8),
         TANKCURVE_LENGTH_MISMATCH);
    same_list("advance, record of a refusal", record, before, sizeof before);
    same("advance, a crossed record", tankcurve_advance(other, TANKCURVE_RECORD_LEN, minutes, SAMPLES, values, SAMPLES, 16, 8),
         TANKCURVE_INVALID_RECORD);
    same_list("advance, the crossed record", other, crossed, sizeof crossed);
    same("advance", tankcurve_advance(record, TANKCURVE_RECORD_LEN, minutes, SAMPLES, values, SAMPLES, 16, 8), 0);
    same_list("advance, record", record, after, sizeof after);
}

/* Forth as the step goes, and back, which no step does. */
static void turn(void)
{
    const uint64_t before[] = {0, 3, 100, 200, 300, 400, 500, UINT64_MAX, 40, 90};
    const uint64_t after[] = {1, 5, 101, 233, 957, 437, 1289, 15668, 43, 90};
    const uint64_t back[] = {0, 3, 100, 200, 300, 400, 500, UINT64_MAX, 46, 90};
    const uint64_t crossed[] = {3, 1, 0, 0, 0, 0, 0, 0, 0};
    uint64_t record[TANKCURVE_RECORD_LEN + 1] = {0, 3, 100, 200, 300, 400, 500, UINT64_MAX, 40, 90};
    uint64_t other[TANKCURVE_RECORD_LEN] = {3, 1, 0, 0, 0, 0, 0, 0, 0};
    same("turn, bandwidth 0", tankcurve_turn(record, TANKCURVE_RECORD_LEN, minutes, SAMPLES, values, SAMPLES, 16, 0),
         TANKCURVE_BANDWIDTH_OUT_OF_RANGE);
    same("turn, minutes that fall", tankcurve_turn(record, TANKCURVE_RECORD_LEN, falling, SAMPLES, values, SAMPLES, 16, 0),
         TANKCURVE_DETAIL_UNIT * 4 + TANKCURVE_SAMPLE_OUT_OF_ORDER);
    same("turn, one value less", tankcurve_turn(record, TANKCURVE_RECORD_LEN, minutes, SAMPLES, values, SAMPLES - 1, 16, 8),
         TANKCURVE_LENGTH_MISMATCH);
    same("turn, a longer record", tankcurve_turn(record, TANKCURVE_RECORD_LEN + 1, minutes, SAMPLES, values, SAMPLES, 16, 8),
         TANKCURVE_LENGTH_MISMATCH);
    same_list("turn, record of a refusal", record, before, sizeof before);
    same("turn, a crossed record", tankcurve_turn(other, TANKCURVE_RECORD_LEN, minutes, SAMPLES, values, SAMPLES, 16, 8),
         TANKCURVE_INVALID_RECORD);
    same_list("turn, the crossed record", other, crossed, sizeof crossed);
    same("turn", tankcurve_turn(record, TANKCURVE_RECORD_LEN, minutes, SAMPLES, values, SAMPLES, 16, 8), 0);
    same_list("turn, record", record, after, sizeof after);
    same("turn, back", tankcurve_turn(record, TANKCURVE_RECORD_LEN, minutes, SAMPLES, values, SAMPLES, 8, 5), 0);
    same_list("turn, record back", record, back, sizeof back);
}

static void smooth(void)
{
    const uint16_t points[] = {9, 14, 22};
    const uint32_t bandwidths[] = {6, 7, 8};
    const uint32_t widening[] = {6, 7, 16};
    const uint64_t before[] = {90, 91, 92, 93, 94, 95, 96, 97, 98, 99, 100, 101, 102, 103, 104, 105};
    const uint64_t after[] = {0, 4, 70, 630, 9, 1, 5, 74, 858, 12, 3, 5, 78, 2022, 26, 105};
    uint64_t rows[] = {90, 91, 92, 93, 94, 95, 96, 97, 98, 99, 100, 101, 102, 103, 104, 105};
    same("smooth, an edge decreases", tankcurve_smooth(minutes, SAMPLES, values, SAMPLES, points, 3, widening, 3, rows, 15),
         TANKCURVE_DETAIL_UNIT * 2 + TANKCURVE_EDGE_DECREASES);
    same("smooth, one value less", tankcurve_smooth(minutes, SAMPLES, values, SAMPLES - 1, points, 3, bandwidths, 3, rows, 15),
         TANKCURVE_LENGTH_MISMATCH);
    same("smooth, one bandwidth less", tankcurve_smooth(minutes, SAMPLES, values, SAMPLES, points, 3, bandwidths, 2, rows, 15),
         TANKCURVE_LENGTH_MISMATCH);
    same("smooth, longer rows", tankcurve_smooth(minutes, SAMPLES, values, SAMPLES, points, 3, bandwidths, 3, rows, 16),
         TANKCURVE_LENGTH_MISMATCH);
    same_list("smooth, rows of a refusal", rows, before, sizeof before);
    same("smooth", tankcurve_smooth(minutes, SAMPLES, values, SAMPLES, points, 3, bandwidths, 3, rows, 15), TANKCURVE_DETAIL_UNIT * 8);
    same_list("smooth, rows", rows, after, sizeof after);
}

/* The row of a record: that of evaluate where the record is of its window, and modulo 2^64 for one of any origin. */
static void row_of_a_record(void)
{
    const uint64_t before[] = {90, 91, 92, 93, 94, 95};
    const uint64_t of_window[] = {1, 5, 74, 858, 12, 95};
    const uint64_t foreign[TANKCURVE_RECORD_LEN + 1] = {3, 7, 100, 200, 300, 400, 500, 9, 2, 8};
    const uint64_t of_foreign[] = {3, 7, 20500, 73591, 4, 95};
    const uint64_t wrapping[TANKCURVE_RECORD_LEN] = {3, 7, 2, 0, 0, UINT64_MAX, 0, 0, 0};
    const uint64_t of_wrapping[] = {3, 7, 2, UINT64_MAX, UINT64_C(9223372036854775808), 95};
    uint64_t record[TANKCURVE_RECORD_LEN] = {0};
    uint64_t row[TANKCURVE_ROW_LEN + 1] = {90, 91, 92, 93, 94, 95};
    same("row, a longer record", tankcurve_row(foreign, TANKCURVE_RECORD_LEN + 1, 16, 20, row, TANKCURVE_ROW_LEN), TANKCURVE_LENGTH_MISMATCH);
    same("row, a longer row", tankcurve_row(foreign, TANKCURVE_RECORD_LEN, 16, 20, row, TANKCURVE_ROW_LEN + 1), TANKCURVE_LENGTH_MISMATCH);
    same_list("row, row of a refusal", row, before, sizeof before);
    same("row, the step before", tankcurve_advance(record, TANKCURVE_RECORD_LEN, minutes, SAMPLES, values, SAMPLES, 14, 7), 0);
    same("row", tankcurve_row(record, TANKCURVE_RECORD_LEN, 14, 7, row, TANKCURVE_ROW_LEN), 0);
    same_list("row, row", row, of_window, sizeof of_window);
    same("row, a foreign record", tankcurve_row(foreign, TANKCURVE_RECORD_LEN, 16, 20, row, TANKCURVE_ROW_LEN), 0);
    same_list("row, row of a foreign record", row, of_foreign, sizeof of_foreign);
    same("row, sums that wrap", tankcurve_row(wrapping, TANKCURVE_RECORD_LEN, 0, 1, row, TANKCURVE_ROW_LEN), 0);
    same_list("row, row of sums that wrap", row, of_wrapping, sizeof of_wrapping);
}

/* Numbers of 32 bits arrive whole: a declaration of 16 bits would cut these to others. */
static void widths(void)
{
    const uint32_t h = TANKCURVE_MAX_BANDWIDTH, greatest = UINT32_MAX, preset = 65536 + 4;
    const uint64_t whole_row[] = {0, 6, 25769802857, 412316836773, 16};
    const uint64_t whole_bounds[] = {0, 6};
    const uint64_t whole_record[] = {0, 6, 6, 95, 2403, 96, 2203, 66511, 6};
    const uint64_t foreign[TANKCURVE_RECORD_LEN] = {3, 7, 100, 200, 300, 400, 500, 9};
    const uint64_t of_greatest[] = {3, 7, UINT64_C(18446743214716073016), UINT64_C(18446740637735628807), 1};
    uint64_t row[TANKCURVE_ROW_LEN], bounds[TANKCURVE_BOUNDS_LEN], record[TANKCURVE_RECORD_LEN] = {0};
    uint16_t points[1];
    uint32_t bandwidths[1];
    same("evaluate, the greatest bandwidth", tankcurve_evaluate(minutes, SAMPLES, values, SAMPLES, 14, h, row, TANKCURVE_ROW_LEN), 0);
    same_list("evaluate, row of the greatest bandwidth", row, whole_row, sizeof whole_row);
    same("window, the greatest bandwidth", tankcurve_window(minutes, SAMPLES, values, SAMPLES, 14, h, bounds, TANKCURVE_BOUNDS_LEN), 0);
    same_list("window, bounds of the greatest bandwidth", bounds, whole_bounds, sizeof whole_bounds);
    same("advance, the greatest bandwidth", tankcurve_advance(record, TANKCURVE_RECORD_LEN, minutes, SAMPLES, values, SAMPLES, 14, h), 0);
    same_list("advance, record of the greatest bandwidth", record, whole_record, sizeof whole_record);
    same("turn, the greatest bandwidth", tankcurve_turn(record, TANKCURVE_RECORD_LEN, minutes, SAMPLES, values, SAMPLES, 14, h), 0);
    same_list("turn, record of the greatest bandwidth", record, whole_record, sizeof whole_record);
    same("row, a bandwidth of 32 bits", tankcurve_row(foreign, TANKCURVE_RECORD_LEN, 16, greatest, row, TANKCURVE_ROW_LEN), 0);
    same_list("row, row of a bandwidth of 32 bits", row, of_greatest, sizeof of_greatest);
    same("fill, a preset of 17 bits", tankcurve_fill(100, 7, preset, points, 1, bandwidths, 1), TANKCURVE_UNKNOWN_PRESET);
}

static void preview(void)
{
    static const uint16_t many[TANKCURVE_PREVIEW_MAX_SAMPLES + 1];
    const uint16_t points[] = {9, 14, 22};
    const uint32_t bandwidths[] = {6, 7, 8};
    const uint32_t widening[] = {6, 7, 16};
    const uint64_t before[] = {90, 91, 92, 93, 94, 95, 96, 97, 98, 99, 100, 101, 102, 103, 104, 105};
    const uint64_t after[] = {0, 4, 70, 630, 9, 1, 5, 74, 858, 12, 3, 5, 78, 2022, 26, 105};
    uint64_t rows[] = {90, 91, 92, 93, 94, 95, 96, 97, 98, 99, 100, 101, 102, 103, 104, 105};
    same("preview, an edge decreases", tankcurve_preview(minutes, SAMPLES, values, SAMPLES, points, 3, widening, 3, rows, 15),
         TANKCURVE_DETAIL_UNIT * 2 + TANKCURVE_EDGE_DECREASES);
    same("preview, one value less", tankcurve_preview(minutes, SAMPLES, values, SAMPLES - 1, points, 3, bandwidths, 3, rows, 15),
         TANKCURVE_LENGTH_MISMATCH);
    same("preview, one bandwidth less", tankcurve_preview(minutes, SAMPLES, values, SAMPLES, points, 3, bandwidths, 2, rows, 15),
         TANKCURVE_LENGTH_MISMATCH);
    same("preview, longer rows", tankcurve_preview(minutes, SAMPLES, values, SAMPLES, points, 3, bandwidths, 3, rows, 16),
         TANKCURVE_LENGTH_MISMATCH);
    same("preview, too many samples",
         tankcurve_preview(many, TANKCURVE_PREVIEW_MAX_SAMPLES + 1, many, TANKCURVE_PREVIEW_MAX_SAMPLES + 1, points, 3, bandwidths, 3, rows, 15),
         TANKCURVE_TOO_MANY);
    same_list("preview, rows of a refusal", rows, before, sizeof before);
    same("preview", tankcurve_preview(minutes, SAMPLES, values, SAMPLES, points, 3, bandwidths, 3, rows, 15), TANKCURVE_DETAIL_UNIT * 8);
    same_list("preview, rows", rows, after, sizeof after);
}

/* As many points as samples, so that no exchange of lists shows in their lengths. */
static void smooth_lists_of_one_length(void)
{
    const uint16_t points[SAMPLES] = {9, 14, 22, 30, 31, 40};
    const uint32_t bandwidths[SAMPLES] = {6, 7, 8, 9, 10, 11};
    const uint64_t after[] = {0, 4, 70, 630, 9, 1, 5, 74, 858, 12, 3, 5, 78, 2022, 26, 4, 5, 0, 0, TANKCURVE_MISSING,
                              4, 6, 19, 589, 31, 5, 6, 121, 3751, 31};
    uint64_t rows[SAMPLES * TANKCURVE_ROW_LEN] = {0};
    same("smooth, six points",
         tankcurve_smooth(minutes, SAMPLES, values, SAMPLES, points, SAMPLES, bandwidths, SAMPLES, rows, SAMPLES * TANKCURVE_ROW_LEN),
         TANKCURVE_DETAIL_UNIT * 11);
    same_list("smooth, rows of six points", rows, after, sizeof after);
    memset(rows, 0, sizeof rows);
    same("preview, six points",
         tankcurve_preview(minutes, SAMPLES, values, SAMPLES, points, SAMPLES, bandwidths, SAMPLES, rows, SAMPLES * TANKCURVE_ROW_LEN),
         TANKCURVE_DETAIL_UNIT * 11);
    same_list("preview, rows of six points", rows, after, sizeof after);
}

/* Falling values, so that limits tell the points apart: their rows have 21, 15, 8, none, 5 and 5. As many points as samples, so that no
   exchange of lists shows in their lengths. */
static void first_at_most(void)
{
    const uint16_t points[SAMPLES] = {9, 14, 22, 30, 31, 40};
    const uint32_t bandwidths[SAMPLES] = {6, 7, 8, 9, 10, 11};
    const uint32_t narrowing[SAMPLES] = {6, 7, 8, 9, 10, 0};
    const uint16_t falling_values[SAMPLES] = {31, 29, 13, 11, 7, 5};
    const struct {
        uint16_t limit;
        uint64_t position, passes;
    } asked[] = {{65535, 0, 4}, {21, 0, 4}, {20, 1, 6}, {15, 1, 6}, {14, 2, 8}, {7, 4, 10}, {5, 4, 10}, {4, TANKCURVE_NO_POSITION, 11}};
    uint64_t position[] = {90, 91};
    same("first_at_most, a bandwidth of 0",
         tankcurve_first_at_most(minutes, SAMPLES, falling_values, SAMPLES, points, SAMPLES, narrowing, SAMPLES, 65535, position, 1),
         TANKCURVE_DETAIL_UNIT * 5 + TANKCURVE_BANDWIDTH_OUT_OF_RANGE);
    same("first_at_most, a minute below the one before",
         tankcurve_first_at_most(falling, SAMPLES, falling_values, SAMPLES, points, SAMPLES, bandwidths, SAMPLES, 65535, position, 1),
         TANKCURVE_DETAIL_UNIT * 4 + TANKCURVE_SAMPLE_OUT_OF_ORDER);
    same("first_at_most, one value less",
         tankcurve_first_at_most(minutes, SAMPLES, falling_values, SAMPLES - 1, points, SAMPLES, bandwidths, SAMPLES, 65535, position, 1),
         TANKCURVE_LENGTH_MISMATCH);
    same("first_at_most, one bandwidth less",
         tankcurve_first_at_most(minutes, SAMPLES, falling_values, SAMPLES, points, SAMPLES, bandwidths, SAMPLES - 1, 65535, position, 1),
         TANKCURVE_LENGTH_MISMATCH);
    same("first_at_most, a longer list",
         tankcurve_first_at_most(minutes, SAMPLES, falling_values, SAMPLES, points, SAMPLES, bandwidths, SAMPLES, 65535, position, 2),
         TANKCURVE_LENGTH_MISMATCH);
    same("first_at_most, the list of a refusal", position[0], 90);
    for (size_t k = 0; k < sizeof asked / sizeof asked[0]; k++) {
        same("first_at_most",
             tankcurve_first_at_most(minutes, SAMPLES, falling_values, SAMPLES, points, SAMPLES, bandwidths, SAMPLES, asked[k].limit, position, 1),
             TANKCURVE_DETAIL_UNIT * asked[k].passes);
        same("first_at_most, position", position[0], asked[k].position);
    }
    same("first_at_most, behind its list", position[1], 91);
}

/* At 14 with bandwidth 8 the value is 13, and 13, 15, 14, 13, 11 and 13 without each sample in turn; with bandwidth 7 it is 12, and 12, 13,
   12, 9, 12 and 12. */
static void decisive(void)
{
    const struct {
        uint32_t bandwidth;
        uint16_t limit;
        uint64_t position;
    } asked[] = {{7, 8, TANKCURVE_NO_POSITION}, {7, 9, 3}, {7, 11, 3}, {7, 12, 1}, {7, 13, TANKCURVE_NO_POSITION}, {8, 10, TANKCURVE_NO_POSITION},
                 {8, 11, 4}, {8, 12, 4}, {8, 13, 1}, {8, 14, 1}, {8, 15, TANKCURVE_NO_POSITION}, {8, 65535, TANKCURVE_NO_POSITION}};
    uint64_t position[] = {90, 91};
    same("decisive, falling minutes", tankcurve_decisive(falling, SAMPLES, values, SAMPLES, 14, 7, 12, position, 1),
         TANKCURVE_DETAIL_UNIT * 4 + TANKCURVE_SAMPLE_OUT_OF_ORDER);
    same("decisive, one value less", tankcurve_decisive(minutes, SAMPLES, values, SAMPLES - 1, 14, 7, 12, position, 1),
         TANKCURVE_LENGTH_MISMATCH);
    same("decisive, a bandwidth of 0", tankcurve_decisive(minutes, SAMPLES, values, SAMPLES, 14, 0, 12, position, 1),
         TANKCURVE_BANDWIDTH_OUT_OF_RANGE);
    same("decisive, a longer list", tankcurve_decisive(minutes, SAMPLES, values, SAMPLES, 14, 7, 12, position, 2), TANKCURVE_LENGTH_MISMATCH);
    same("decisive, the list of a refusal", position[0], 90);
    for (size_t k = 0; k < sizeof asked / sizeof asked[0]; k++) {
        same("decisive", tankcurve_decisive(minutes, SAMPLES, values, SAMPLES, 14, asked[k].bandwidth, asked[k].limit, position, 1), 0);
        same("decisive, position", position[0], asked[k].position);
    }
    same("decisive, behind its list", position[1], 91);
}

/* As many points as samples, so that no exchange of lists shows in their lengths, and a k that is none of their numbers. */
static void neighbours(void)
{
    const uint16_t points[SAMPLES] = {9, 14, 22, 30, 31, 40};
    const uint32_t widths_before[] = {80, 81, 82, 83, 84, 85, 86}, widths_after[] = {2, 7, 8, 11, 11, 20, 86};
    const uint32_t widths_of_all[] = {32, 27, 20, 28, 29, 38, 86};
    const uint64_t rows_after[] = {1, 3, 6,  54,   9,  1, 5, 74, 858,  12, 3, 5, 78,  2022,  26,
                                   4, 6, 61, 1811, 30, 4, 6, 61, 1849, 30, 4, 6, 439, 13531, 31, 92};
    uint32_t bandwidths[] = {80, 81, 82, 83, 84, 85, 86};
    uint64_t rows[SAMPLES * TANKCURVE_ROW_LEN + 1], rows_before[SAMPLES * TANKCURVE_ROW_LEN + 1];
    const size_t width = SAMPLES * TANKCURVE_ROW_LEN;
    for (size_t i = 0; i <= width; i++)
        rows[i] = rows_before[i] = 92;
    same("neighbours, none", tankcurve_neighbours(minutes, SAMPLES, values, SAMPLES, points, SAMPLES, 0, bandwidths, SAMPLES, rows, width),
         TANKCURVE_TOO_FEW_SAMPLES);
    same("neighbours, one too many",
         tankcurve_neighbours(minutes, SAMPLES, values, SAMPLES, points, SAMPLES, SAMPLES + 1, bandwidths, SAMPLES, rows, width),
         TANKCURVE_TOO_FEW_SAMPLES);
    same("neighbours, a minute below the one before",
         tankcurve_neighbours(falling, SAMPLES, values, SAMPLES, points, SAMPLES, 2, bandwidths, SAMPLES, rows, width),
         TANKCURVE_DETAIL_UNIT * 4 + TANKCURVE_SAMPLE_OUT_OF_ORDER);
    same("neighbours, one value less",
         tankcurve_neighbours(minutes, SAMPLES, values, SAMPLES - 1, points, SAMPLES, 2, bandwidths, SAMPLES, rows, width),
         TANKCURVE_LENGTH_MISMATCH);
    same("neighbours, one bandwidth more",
         tankcurve_neighbours(minutes, SAMPLES, values, SAMPLES, points, SAMPLES, 2, bandwidths, SAMPLES + 1, rows, width),
         TANKCURVE_LENGTH_MISMATCH);
    same("neighbours, longer rows",
         tankcurve_neighbours(minutes, SAMPLES, values, SAMPLES, points, SAMPLES, 2, bandwidths, SAMPLES, rows, width + 1),
         TANKCURVE_LENGTH_MISMATCH);
    same_list("neighbours, bandwidths of a refusal", bandwidths, widths_before, sizeof widths_before);
    same_list("neighbours, rows of a refusal", rows, rows_before, sizeof rows_before);
    same("neighbours", tankcurve_neighbours(minutes, SAMPLES, values, SAMPLES, points, SAMPLES, 2, bandwidths, SAMPLES, rows, width), 0);
    same_list("neighbours, bandwidths", bandwidths, widths_after, sizeof widths_after);
    same_list("neighbours, rows", rows, rows_after, sizeof rows_after);
    same("neighbours, all of them",
         tankcurve_neighbours(minutes, SAMPLES, values, SAMPLES, points, SAMPLES, SAMPLES, bandwidths, SAMPLES, rows, width), 0);
    same_list("neighbours, bandwidths of all", bandwidths, widths_of_all, sizeof widths_of_all);
}

/* Numbers about the places where a cell changes, compared as they are in memory: -0 and 0 differ there. */
static void doubles(void)
{
    const struct {
        uint64_t weight, number, used;
        double first, second;
    } asked[] = {
        {0, 0, 0, 90.5, 91.5},
        {0, 9, 0, 90.5, 91.5},
        {0, UINT64_MAX, 0, 90.5, 91.5},
        {5, 0, 1, 0.0, 91.5},
        {5, 3, 1, 3.0, 91.5},
        {5, UINT64_C(4294967295), 1, 4294967295.0, 91.5},
        {5, UINT64_C(4294967296), 1, 4294967296.0, 91.5},
        {5, UINT64_C(9007199254740991), 1, 9007199254740991.0, 91.5},
        {5, UINT64_C(9007199254740992), 2, 9007199254740992.0, 0.0},
        {5, UINT64_C(9007199254740993), 2, 9007199254740992.0, 1.0},
        {5, TANKCURVE_MAX_SUM, 2, 288225978105200640.0, 0.0},
        {5, UINT64_C(18034464286310400000), 2, 18034464283156283392.0, 3154116608.0},
        {UINT64_MAX, UINT64_MAX, 2, 18446744069414584320.0, 4294967295.0},
    };
    for (size_t k = 0; k < sizeof asked / sizeof *asked; k++) {
        const double after[] = {asked[k].first, asked[k].second, 92.5};
        double list[] = {90.5, 91.5, 92.5};
        same("doubles", tankcurve_doubles(asked[k].weight, asked[k].number, list, TANKCURVE_DOUBLES_LEN), TANKCURVE_DETAIL_UNIT * asked[k].used);
        same_list("doubles, list", list, after, sizeof after);
        same("doubles, number", asked[k].used < 2 || (uint64_t)list[TANKCURVE_DOUBLES_HIGH] + (uint64_t)list[TANKCURVE_DOUBLES_LOW] == asked[k].number, 1);
    }
    const double before[] = {90.5, 91.5, 92.5};
    double list[] = {90.5, 91.5, 92.5};
    same("doubles, a longer list", tankcurve_doubles(5, 3, list, TANKCURVE_DOUBLES_LEN + 1), TANKCURVE_LENGTH_MISMATCH);
    same("doubles, a shorter list", tankcurve_doubles(5, 3, list, TANKCURVE_DOUBLES_LEN - 1), TANKCURVE_LENGTH_MISMATCH);
    same_list("doubles, list of a refusal", list, before, sizeof before);
    /* Doubles that are not numbers, each with bits of its own: unused ones keep them. */
    const uint64_t bits[] = {UINT64_C(0x7ff80000deadbeef), UINT64_C(0xfff0000000000001)};
    const uint64_t three[] = {UINT64_C(0x4008000000000000), UINT64_C(0xfff0000000000001)};
    memcpy(list, bits, sizeof bits);
    same("doubles, none used of no numbers", tankcurve_doubles(0, 3, list, TANKCURVE_DOUBLES_LEN), 0);
    same_list("doubles, no numbers", list, bits, sizeof bits);
    same("doubles, one used of no numbers", tankcurve_doubles(5, 3, list, TANKCURVE_DOUBLES_LEN), TANKCURVE_DETAIL_UNIT);
    same_list("doubles, a number and none", list, three, sizeof three);
}

static void fill(void)
{
    const uint16_t points_before[] = {90, 91, 92};
    const uint32_t bandwidths_before[] = {93, 94, 95};
    const uint16_t points_after[] = {100, 107, 114};
    const uint32_t bandwidths_after[] = {120, 120, 120};
    uint16_t points[] = {90, 91, 92};
    uint32_t bandwidths[] = {93, 94, 95};
    same("fill, preset 12", tankcurve_fill(100, 7, 12, points, 3, bandwidths, 3), TANKCURVE_UNKNOWN_PRESET);
    same("fill, past 65535", tankcurve_fill(65530, 3, 4, points, 3, bandwidths, 3), TANKCURVE_GRID_OVERFLOW);
    same("fill, no points", tankcurve_fill(100, 7, 4, points, 0, bandwidths, 0), TANKCURVE_NO_POINTS);
    same("fill, one bandwidth less", tankcurve_fill(100, 7, 4, points, 3, bandwidths, 2), TANKCURVE_LENGTH_MISMATCH);
    same_list("fill, points of a refusal", points, points_before, sizeof points_before);
    same_list("fill, bandwidths of a refusal", bandwidths, bandwidths_before, sizeof bandwidths_before);
    same("fill", tankcurve_fill(100, 7, 4, points, 3, bandwidths, 3), 0);
    same_list("fill, points", points, points_after, sizeof points_after);
    same_list("fill, bandwidths", bandwidths, bandwidths_after, sizeof bandwidths_after);
}

static void read(void)
{
    static uint16_t read_minutes[TANKCURVE_MAX_SAMPLES], read_values[TANKCURVE_MAX_SAMPLES], points[TANKCURVE_MAX_POINTS];
    static uint32_t bandwidths[TANKCURVE_MAX_POINTS];
    uint64_t counts[] = {94, 95};
    /* The expected lists: at first the lent ones, then with the used parts in front. */
    static uint16_t all_minutes[TANKCURVE_MAX_SAMPLES], all_values[TANKCURVE_MAX_SAMPLES], all_points[TANKCURVE_MAX_POINTS];
    static uint32_t all_bandwidths[TANKCURVE_MAX_POINTS];
    const uint64_t counts_before[] = {94, 95};
    const uint16_t used_minutes[] = {11, 13, 30}, used_values[] = {21, 23, 24}, used_points[] = {12, 14};
    const uint32_t used_bandwidths[] = {7, 9};
    const uint64_t counts_after[] = {3, 2};
    for (size_t i = 0; i < TANKCURVE_MAX_SAMPLES; i++) {
        read_minutes[i] = all_minutes[i] = 90;
        read_values[i] = all_values[i] = 91;
    }
    for (size_t i = 0; i < TANKCURVE_MAX_POINTS; i++) {
        points[i] = all_points[i] = 92;
        bandwidths[i] = all_bandwidths[i] = 93;
    }
    same("read, a line out of order",
         tankcurve_read((const uint8_t *)falling_sheet, strlen(falling_sheet), read_minutes, TANKCURVE_MAX_SAMPLES, read_values,
                        TANKCURVE_MAX_SAMPLES, points, TANKCURVE_MAX_POINTS, bandwidths, TANKCURVE_MAX_POINTS, counts,
                        TANKCURVE_COUNTS_LEN),
         TANKCURVE_DETAIL_UNIT * 52 + TANKCURVE_SAMPLE_OUT_OF_ORDER);
    /* A list of another length, each in turn. */
    for (int k = 0; k < 5; k++)
        same("read, a shorter list",
             tankcurve_read((const uint8_t *)sheet, strlen(sheet), read_minutes, TANKCURVE_MAX_SAMPLES - (k == 0), read_values,
                            TANKCURVE_MAX_SAMPLES - (k == 1), points, TANKCURVE_MAX_POINTS - (k == 2), bandwidths,
                            TANKCURVE_MAX_POINTS - (k == 3), counts, TANKCURVE_COUNTS_LEN - (k == 4)),
             TANKCURVE_LENGTH_MISMATCH);
    same_list("read, minutes of a refusal", read_minutes, all_minutes, sizeof all_minutes);
    same_list("read, values of a refusal", read_values, all_values, sizeof all_values);
    same_list("read, points of a refusal", points, all_points, sizeof all_points);
    same_list("read, bandwidths of a refusal", bandwidths, all_bandwidths, sizeof all_bandwidths);
    same_list("read, counts of a refusal", counts, counts_before, sizeof counts_before);

    same("read",
         tankcurve_read((const uint8_t *)sheet, strlen(sheet), read_minutes, TANKCURVE_MAX_SAMPLES, read_values, TANKCURVE_MAX_SAMPLES,
                        points, TANKCURVE_MAX_POINTS, bandwidths, TANKCURVE_MAX_POINTS, counts, TANKCURVE_COUNTS_LEN),
         0);
    memcpy(all_minutes, used_minutes, sizeof used_minutes);
    memcpy(all_values, used_values, sizeof used_values);
    memcpy(all_points, used_points, sizeof used_points);
    memcpy(all_bandwidths, used_bandwidths, sizeof used_bandwidths);
    same_list("read, minutes", read_minutes, all_minutes, sizeof all_minutes);
    same_list("read, values", read_values, all_values, sizeof all_values);
    same_list("read, points", points, all_points, sizeof all_points);
    same_list("read, bandwidths", bandwidths, all_bandwidths, sizeof all_bandwidths);
    same_list("read, counts", counts, counts_after, sizeof counts_after);
}

/* Lists of one length, so that no exchange of lists shows in their lengths. */
static void smooth_ranges(void)
{
    const uint16_t points[] = {9, 14, 22, 30, 31, 40}, falling_points[] = {9, 14, 22, 30, 40, 31};
    const uint32_t bandwidths[] = {6, 7, 8, 9, 10, 11}, widening[] = {6, 7, 8, 9, 10, 30}, none[] = {6, 7, 8, 0, 10, 11};
    const uint64_t after[] = {0, 4, 70, 350, 630, 5, 9, 1, 5, 74, 418, 858, 6, 12, 3, 5, 78, 909, 2022, 12, 26,
                              4, 5, 0, 0, 0, TANKCURVE_MISSING, TANKCURVE_MISSING, 4, 6, 19, 589, 589, 31, 31, 5, 6, 121, 3751, 3751, 31, 31, 99};
    uint64_t before[6 * TANKCURVE_RANGE_ROW_LEN + 1], rows[6 * TANKCURVE_RANGE_ROW_LEN + 1];
    const size_t n = SAMPLES, len = 6 * TANKCURVE_RANGE_ROW_LEN;
    for (size_t k = 0; k <= len; k++)
        before[k] = rows[k] = 99;
    for (int k = 0; k < 6; k++)
        same("ranges, one element less in a list",
             tankcurve_smooth_ranges(minutes, n - (k == 0), lows, n - (k == 1), highs, n - (k == 2), points, 6 - (k == 3), bandwidths, 6 - (k == 4),
                                     rows, len - (k == 5)),
             TANKCURVE_LENGTH_MISMATCH);
    same("ranges, longer rows", tankcurve_smooth_ranges(minutes, n, lows, n, highs, n, points, 6, bandwidths, 6, rows, len + 1),
         TANKCURVE_LENGTH_MISMATCH);
    same("ranges, falling minutes and a crossed range", tankcurve_smooth_ranges(falling, n, crossed, n, highs, n, points, 6, bandwidths, 6, rows, len),
         TANKCURVE_DETAIL_UNIT * 4 + TANKCURVE_SAMPLE_OUT_OF_ORDER);
    same("ranges, a crossed range", tankcurve_smooth_ranges(minutes, n, crossed, n, highs, n, falling_points, 6, bandwidths, 6, rows, len),
         TANKCURVE_DETAIL_UNIT * 4 + TANKCURVE_CROSSED_RANGE);
    same("ranges, falling points", tankcurve_smooth_ranges(minutes, n, lows, n, highs, n, falling_points, 6, bandwidths, 6, rows, len),
         TANKCURVE_DETAIL_UNIT * 5 + TANKCURVE_POINT_OUT_OF_ORDER);
    same("ranges, a bandwidth of 0", tankcurve_smooth_ranges(minutes, n, lows, n, highs, n, points, 6, none, 6, rows, len),
         TANKCURVE_DETAIL_UNIT * 3 + TANKCURVE_BANDWIDTH_OUT_OF_RANGE);
    same("ranges, an edge decreases", tankcurve_smooth_ranges(minutes, n, lows, n, highs, n, points, 6, widening, 6, rows, len),
         TANKCURVE_DETAIL_UNIT * 5 + TANKCURVE_EDGE_DECREASES);
    same_list("ranges, rows of a refusal", rows, before, sizeof before);
    same("ranges", tankcurve_smooth_ranges(minutes, n, lows, n, highs, n, points, 6, bandwidths, 6, rows, len), TANKCURVE_DETAIL_UNIT * 11);
    same_list("ranges, rows", rows, after, sizeof after);
}

static void read_ranges(void)
{
    static uint16_t read_minutes[TANKCURVE_MAX_SAMPLES], read_lows[TANKCURVE_MAX_SAMPLES], read_highs[TANKCURVE_MAX_SAMPLES];
    static uint16_t points[TANKCURVE_MAX_POINTS];
    static uint32_t bandwidths[TANKCURVE_MAX_POINTS];
    uint64_t counts[] = {94, 95, 96};
    /* The expected lists: at first the lent ones, then with the used parts in front. */
    static uint16_t all_minutes[TANKCURVE_MAX_SAMPLES], all_lows[TANKCURVE_MAX_SAMPLES], all_highs[TANKCURVE_MAX_SAMPLES];
    static uint16_t all_points[TANKCURVE_MAX_POINTS];
    static uint32_t all_bandwidths[TANKCURVE_MAX_POINTS];
    const uint64_t counts_before[] = {94, 95, 96}, of_ranges[] = {3, 2, TANKCURVE_KIND_RANGES}, of_values[] = {3, 2, TANKCURVE_KIND_PLAIN};
    const uint16_t used_minutes[] = {11, 13, 30}, used_lows[] = {0, 23, 20}, used_highs[] = {21, 25, 24}, used_points[] = {12, 14};
    const uint16_t used_values[] = {21, 23, 24};
    const uint32_t used_bandwidths[] = {7, 9};
    const size_t n = TANKCURVE_MAX_SAMPLES, m = TANKCURVE_MAX_POINTS, len = TANKCURVE_RANGE_COUNTS_LEN;
    for (size_t i = 0; i < n; i++) {
        read_minutes[i] = all_minutes[i] = 90;
        read_lows[i] = all_lows[i] = 91;
        read_highs[i] = all_highs[i] = 92;
    }
    for (size_t i = 0; i < m; i++) {
        points[i] = all_points[i] = 93;
        bandwidths[i] = all_bandwidths[i] = 94;
    }
    same("read ranges, a crossed line",
         tankcurve_read_ranges((const uint8_t *)crossed_sheet, strlen(crossed_sheet), read_minutes, n, read_lows, n, read_highs, n, points, m, bandwidths,
                               m, counts, len),
         TANKCURVE_DETAIL_UNIT * 51 + TANKCURVE_CROSSED_RANGE);
    /* A list of another length, each in turn. */
    for (int k = 0; k < 6; k++)
        same("read ranges, a shorter list",
             tankcurve_read_ranges((const uint8_t *)range_sheet, strlen(range_sheet), read_minutes, n - (k == 0), read_lows, n - (k == 1), read_highs,
                                   n - (k == 2), points, m - (k == 3), bandwidths, m - (k == 4), counts, len - (k == 5)),
             TANKCURVE_LENGTH_MISMATCH);
    same_list("read ranges, minutes of a refusal", read_minutes, all_minutes, sizeof all_minutes);
    same_list("read ranges, lows of a refusal", read_lows, all_lows, sizeof all_lows);
    same_list("read ranges, highs of a refusal", read_highs, all_highs, sizeof all_highs);
    same_list("read ranges, points of a refusal", points, all_points, sizeof all_points);
    same_list("read ranges, bandwidths of a refusal", bandwidths, all_bandwidths, sizeof all_bandwidths);
    same_list("read ranges, counts of a refusal", counts, counts_before, sizeof counts_before);

    same("read ranges",
         tankcurve_read_ranges((const uint8_t *)range_sheet, strlen(range_sheet), read_minutes, n, read_lows, n, read_highs, n, points, m, bandwidths, m,
                               counts, len),
         0);
    memcpy(all_minutes, used_minutes, sizeof used_minutes);
    memcpy(all_lows, used_lows, sizeof used_lows);
    memcpy(all_highs, used_highs, sizeof used_highs);
    memcpy(all_points, used_points, sizeof used_points);
    memcpy(all_bandwidths, used_bandwidths, sizeof used_bandwidths);
    same_list("read ranges, minutes", read_minutes, all_minutes, sizeof all_minutes);
    same_list("read ranges, lows", read_lows, all_lows, sizeof all_lows);
    same_list("read ranges, highs", read_highs, all_highs, sizeof all_highs);
    same_list("read ranges, points", points, all_points, sizeof all_points);
    same_list("read ranges, bandwidths", bandwidths, all_bandwidths, sizeof all_bandwidths);
    same_list("read ranges, counts", counts, of_ranges, sizeof of_ranges);

    same("read ranges, a plain sheet",
         tankcurve_read_ranges((const uint8_t *)sheet, strlen(sheet), read_minutes, n, read_lows, n, read_highs, n, points, m, bandwidths, m, counts,
                               len),
         0);
    memcpy(all_lows, used_values, sizeof used_values);
    memcpy(all_highs, used_values, sizeof used_values);
    same_list("read ranges, lows of a plain sheet", read_lows, all_lows, sizeof all_lows);
    same_list("read ranges, highs of a plain sheet", read_highs, all_highs, sizeof all_highs);
    same_list("read ranges, counts of a plain sheet", counts, of_values, sizeof of_values);
    same("read, a sheet with ranges",
         tankcurve_read((const uint8_t *)range_sheet, strlen(range_sheet), read_minutes, n, read_lows, n, points, m, bandwidths, m, counts,
                        TANKCURVE_COUNTS_LEN),
         TANKCURVE_DETAIL_UNIT * 21 + TANKCURVE_BAD_HEADER);
}

static void text(void)
{
    static uint8_t out[TANKCURVE_MAX_OUTPUT + 1], all[TANKCURVE_MAX_OUTPUT + 1];
    memset(out, 90, sizeof out);
    memset(all, 90, sizeof all);
    same("text, a shorter buffer", tankcurve_text((const uint8_t *)sheet, strlen(sheet), out, TANKCURVE_MAX_OUTPUT - 1),
         TANKCURVE_LENGTH_MISMATCH);
    same("text, a longer buffer", tankcurve_text((const uint8_t *)sheet, strlen(sheet), out, TANKCURVE_MAX_OUTPUT + 1),
         TANKCURVE_LENGTH_MISMATCH);
    same("text, a refused sheet and a shorter buffer",
         tankcurve_text((const uint8_t *)falling_sheet, strlen(falling_sheet), out, TANKCURVE_MAX_OUTPUT - 1), TANKCURVE_LENGTH_MISMATCH);
    same("text, a refused sheet", tankcurve_text((const uint8_t *)falling_sheet, strlen(falling_sheet), out, TANKCURVE_MAX_OUTPUT),
         TANKCURVE_DETAIL_UNIT * 52 + TANKCURVE_SAMPLE_OUT_OF_ORDER);
    same_list("text, buffer of a refusal", out, all, sizeof all);
    same("text", tankcurve_text((const uint8_t *)sheet, strlen(sheet), out, TANKCURVE_MAX_OUTPUT), TANKCURVE_DETAIL_UNIT * 94);
    memcpy(all, curve, strlen(curve));
    same_list("text, buffer", out, all, sizeof all);
    memset(out, 90, sizeof out);
    same("text, carriage returns", tankcurve_text((const uint8_t *)office_sheet, strlen(office_sheet), out, TANKCURVE_MAX_OUTPUT),
         TANKCURVE_DETAIL_UNIT * 94);
    same_list("text, buffer of carriage returns", out, all, sizeof all);
    same("text, a crossed range", tankcurve_text((const uint8_t *)crossed_sheet, strlen(crossed_sheet), out, TANKCURVE_MAX_OUTPUT),
         TANKCURVE_DETAIL_UNIT * 51 + TANKCURVE_CROSSED_RANGE);
    same_list("text, buffer of a crossed range", out, all, sizeof all);
    same("text, ranges", tankcurve_text((const uint8_t *)range_sheet, strlen(range_sheet), out, TANKCURVE_MAX_OUTPUT),
         TANKCURVE_DETAIL_UNIT * strlen(range_curve));
    memcpy(all, range_curve, strlen(range_curve));
    same_list("text, buffer of ranges", out, all, sizeof all);
}

static void refusal_text(void)
{
    static uint8_t out[TANKCURVE_MAX_OUTPUT + 1], all[TANKCURVE_MAX_OUTPUT + 1];
    const char wide[] = "refused,place\n18446744073709551615,9876543210\n";
    memset(out, 90, sizeof out);
    memset(all, 90, sizeof all);
    same("refusal text, a shorter buffer", tankcurve_refusal_text(4, 52, out, TANKCURVE_MAX_OUTPUT - 1), TANKCURVE_LENGTH_MISMATCH);
    same("refusal text, a longer buffer", tankcurve_refusal_text(4, 52, out, TANKCURVE_MAX_OUTPUT + 1), TANKCURVE_LENGTH_MISMATCH);
    same_list("refusal text, buffer of a refusal", out, all, sizeof all);
    same("refusal text", tankcurve_refusal_text(4, 52, out, TANKCURVE_MAX_OUTPUT), TANKCURVE_DETAIL_UNIT * 19);
    memcpy(all, falling_text, strlen(falling_text));
    same_list("refusal text, buffer", out, all, sizeof all);
    /* A number that no call reports. */
    same("refusal text, any number", tankcurve_refusal_text(UINT64_MAX, 9876543210, out, TANKCURVE_MAX_OUTPUT), TANKCURVE_DETAIL_UNIT * 46);
    memcpy(all, wide, strlen(wide));
    same_list("refusal text, buffer of any number", out, all, sizeof all);
}

static void compare(void)
{
    const uint16_t twin[] = {3, 8, 8, 15, 21}, twin_values[] = {5, 7, 11, 13, 35};
    const uint16_t points[] = {9, 14, 22}, falling_points[] = {9, 14, 13};
    const uint32_t bandwidths[] = {6, 7, 8}, widening[] = {6, 7, 16};
    const uint64_t before[] = {90, 91, 92, 93}, after[] = {2, 3, 5, 93};
    uint64_t out[TANKCURVE_PARTING_LEN + 1] = {90, 91, 92, 93};
    const size_t n = SAMPLES, m = 5, len = TANKCURVE_PARTING_LEN;
    same("compare, one value less", tankcurve_compare(minutes, n, values, n - 1, twin, m, twin_values, m, points, 3, bandwidths, 3, out, len),
         TANKCURVE_LENGTH_MISMATCH);
    same("compare, one bandwidth less", tankcurve_compare(minutes, n, values, n, twin, m, twin_values, m, points, 3, bandwidths, 2, out, len),
         TANKCURVE_LENGTH_MISMATCH);
    same("compare, a longer out", tankcurve_compare(minutes, n, values, n, twin, m, twin_values, m, points, 3, bandwidths, 3, out, len + 1),
         TANKCURVE_LENGTH_MISMATCH);
    same("compare, falling minutes", tankcurve_compare(falling, n, values, n, twin, m, twin_values, m, points, 3, bandwidths, 3, out, len),
         TANKCURVE_DETAIL_UNIT * 4 + TANKCURVE_SAMPLE_OUT_OF_ORDER);
    same("compare, falling points", tankcurve_compare(minutes, n, values, n, twin, m, twin_values, m, falling_points, 3, bandwidths, 3, out, len),
         TANKCURVE_DETAIL_UNIT * 2 + TANKCURVE_POINT_OUT_OF_ORDER);
    same("compare, an edge decreases", tankcurve_compare(minutes, n, values, n, falling, n, values, n, points, 3, widening, 3, out, len),
         TANKCURVE_DETAIL_UNIT * 2 + TANKCURVE_EDGE_DECREASES);
    same("compare, the second's minutes fall", tankcurve_compare(twin, m, twin_values, m, falling, n, values, n, points, 3, bandwidths, 3, out, len),
         TANKCURVE_DETAIL_UNIT * 4 + TANKCURVE_SECOND_SERIES);
    same("compare, the second has one value less",
         tankcurve_compare(minutes, n, values, n, twin, m, twin_values, m - 1, points, 3, bandwidths, 3, out, len), TANKCURVE_SECOND_SERIES);
    same("compare, alike", tankcurve_compare(minutes, n, values, n, minutes, n, values, n, points, 3, bandwidths, 3, out, len), TANKCURVE_ALIKE);
    same_list("compare, out where nothing parts", out, before, sizeof before);
    same("compare, the second", tankcurve_compare(minutes, n, values, n, twin, m, twin_values, m, points, 3, bandwidths, 3, out, len),
         TANKCURVE_DETAIL_UNIT * TANKCURVE_SECOND);
    same_list("compare, out", out, after, sizeof after);
    out[TANKCURVE_PARTING_POINT] = out[TANKCURVE_PARTING_LEFT] = out[TANKCURVE_PARTING_RIGHT] = 0;
    same("compare, the first", tankcurve_compare(twin, m, twin_values, m, minutes, n, values, n, points, 3, bandwidths, 3, out, len),
         TANKCURVE_DETAIL_UNIT * TANKCURVE_FIRST);
    same_list("compare, out of the first", out, after, sizeof after);
}

/* Count and sum of each pair, 90 behind them; a list of cells of 70s, and what a call leaves in it. */
static void boxes(void)
{
    enum { PAIRS = 8, CELLS = TANKCURVE_CELLS_LEN };
    static const uint8_t temperatures[SAMPLES] = {60, 10, 200, 61, 62, 9};
    const uint16_t points[] = {8, 20}, falling_points[] = {20, 8};
    const uint32_t bandwidths[] = {5, 12}, no_bandwidth[] = {5, 0};
    const uint8_t degrees[] = {10, 61}, falling_degrees[] = {61, 10};
    const uint32_t widths[] = {1, 2}, too_wide[] = {257, 2};
    const uint64_t boxes_before[] = {90, 91, 92, 93, 94, 95, 96, 97, 98}, boxes_after[] = {1, 7, 1, 5, 1, 7, 2, 42, 98};
    static const struct {
        size_t cell;
        uint32_t count, sum;
    } used[] = {{68, 1, 5}, {131, 1, 7}, {134, 1, 11}, {198, 2, 42}, {261, 1, 31}};
    static uint32_t counts[CELLS + 1], sums[CELLS + 1], before[CELLS + 1], counts_after[CELLS + 1], sums_after[CELLS + 1];
    uint64_t list[PAIRS + 1];
    memcpy(list, boxes_before, sizeof list);
    for (size_t i = 0; i <= CELLS; i++)
        counts[i] = sums[i] = before[i] = 70;
    counts_after[CELLS] = sums_after[CELLS] = 70;
    for (size_t k = 0; k < sizeof used / sizeof *used; k++) {
        counts_after[used[k].cell] = used[k].count;
        sums_after[used[k].cell] = used[k].sum;
    }
    /* Each length by itself one more. */
    for (size_t which = 0; which < 10; which++) {
        const size_t fit[10] = {SAMPLES - 1, SAMPLES - 1, SAMPLES - 1, 1, 1, 1, 1, 2, CELLS, CELLS};
        size_t len[10];
        memcpy(len, fit, sizeof len);
        len[which]++;
        same("boxes, a list of one more",
             tankcurve_boxes(minutes, len[0], temperatures, len[1], values, len[2], points, len[3], bandwidths, len[4], degrees, len[5], widths, len[6],
                             list, len[7], counts, len[8], sums, len[9]),
             TANKCURVE_LENGTH_MISMATCH);
    }
    same("boxes, falling points",
         tankcurve_boxes(minutes, SAMPLES, temperatures, SAMPLES, values, SAMPLES, falling_points, 2, no_bandwidth, 2, falling_degrees, 2, widths, 2, list,
                         PAIRS, counts, CELLS, sums, CELLS),
         TANKCURVE_DETAIL_UNIT + TANKCURVE_POINT_OUT_OF_ORDER);
    same("boxes, falling degrees",
         tankcurve_boxes(minutes, SAMPLES, temperatures, SAMPLES, values, SAMPLES, points, 2, no_bandwidth, 2, falling_degrees, 2, widths, 2, list, PAIRS,
                         counts, CELLS, sums, CELLS),
         TANKCURVE_DETAIL_UNIT + TANKCURVE_TEMPERATURE_OUT_OF_ORDER);
    same("boxes, a bandwidth of 0",
         tankcurve_boxes(minutes, SAMPLES, temperatures, SAMPLES, values, SAMPLES, points, 2, no_bandwidth, 2, degrees, 2, too_wide, 2, list, PAIRS, counts,
                         CELLS, sums, CELLS),
         TANKCURVE_DETAIL_UNIT + TANKCURVE_BANDWIDTH_OUT_OF_RANGE);
    same("boxes, a bandwidth of 257",
         tankcurve_boxes(minutes, SAMPLES, temperatures, SAMPLES, values, SAMPLES, points, 2, bandwidths, 2, degrees, 2, too_wide, 2, list, PAIRS, counts,
                         CELLS, sums, CELLS),
         TANKCURVE_BANDWIDTH_OUT_OF_RANGE);
    same_list("boxes of a refusal", list, boxes_before, sizeof boxes_before);
    same_list("counts of a refusal", counts, before, sizeof before);
    same_list("sums of a refusal", sums, before, sizeof before);
    same("boxes",
         tankcurve_boxes(minutes, SAMPLES, temperatures, SAMPLES, values, SAMPLES, points, 2, bandwidths, 2, degrees, 2, widths, 2, list, PAIRS, counts,
                         CELLS, sums, CELLS),
         TANKCURVE_ACCEPTED);
    same_list("boxes, the list of boxes", list, boxes_after, sizeof boxes_after);
    same_list("boxes, counts", counts, counts_after, sizeof counts_after);
    same_list("boxes, sums", sums, sums_after, sizeof sums_after);
    /* The same minutes in another order. */
    const uint16_t turned[] = {40, 21, 15, 8, 8, 3}, turned_values[] = {31, 29, 13, 11, 7, 5};
    static const uint8_t turned_temperatures[] = {9, 62, 61, 200, 10, 60};
    same("boxes, readings in another order",
         tankcurve_boxes(turned, SAMPLES, turned_temperatures, SAMPLES, turned_values, SAMPLES, points, 2, bandwidths, 2, degrees, 2, widths, 2, list, PAIRS,
                         counts, CELLS, sums, CELLS),
         TANKCURVE_ACCEPTED);
    same_list("boxes of another order", list, boxes_after, sizeof boxes_after);
    same_list("counts of another order", counts, counts_after, sizeof counts_after);
    same_list("sums of another order", sums, sums_after, sizeof sums_after);
}

int main(void)
{
    answers();
    evaluate();
    empty_lists();
    biweight();
    window();
    advance();
    turn();
    smooth();
    preview();
    row_of_a_record();
    widths();
    smooth_lists_of_one_length();
    first_at_most();
    decisive();
    neighbours();
    doubles();
    boxes();
    fill();
    read();
    smooth_ranges();
    read_ranges();
    text();
    refusal_text();
    compare();
    printf("parameters: %d comparisons passed\n", compared);
    return 0;
}
