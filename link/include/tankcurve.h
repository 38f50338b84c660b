/*
 * The tank curve for C: kernel regression in exact whole numbers, with the Epanechnikov kernel and, in tankcurve_biweight, the biweight one, and counts
 * and sums with the uniform kernel over minute and temperature, in tankcurve_boxes, proved in Rattle. Link libtankcurve_abi.a, which `link/archive`
 * writes to target/staticlib; `link/install PREFIX` puts both with a pkg-config file under a prefix.
 *
 * A list is a pointer and its number of elements. Every call ends, whatever its lists contain and however long they are, so that nothing
 * has to be tested before it. The calls use no heap and no global memory and keep nothing from call to call, so that they may run in several
 * threads and in interrupts at once, each on lists of its own. What the calls mean stands in docs/SPECIFICATION.md; a title in square brackets
 * names its section. Words in quotes are the trade's. A minute counts from pitching; a value is in tenths of a microgram per litre.
 *
 * Every call but tankcurve_version returns TANKCURVE_DETAIL_UNIT * detail + number. Number 0 means accepted; what the detail then is stands at
 * each call. Number 1 to 17 is a report and the detail its place; every list that was lent then holds what it held before: a row that is
 * still there is that of an earlier call. Each call gives the first of its reports whose condition holds, in the order that stands at it. A
 * place is 0 unless something else is said there.
 *
 * Report 8 is about the lengths of the lists that the caller lends, found before all else, at place 0. A list for the answer (row, bounds,
 * record, counts, position, doubles, boxes, sums, out, and the readers' minutes, values, lows, highs, points and bandwidths) has exactly the length
 * that is stated: a longer one is refused too. rows has exactly TANKCURVE_ROW_LEN times as many elements as there are points, in
 * tankcurve_smooth_ranges TANKCURVE_RANGE_ROW_LEN times: pass that product and not what the array could hold. In tankcurve_read,
 * tankcurve_read_ranges and tankcurve_text every other number is about the sheet, and its place a byte of the sheet, counted from 0; in all other
 * calls a place is a position in a list, from 0.
 *
 * An empty list has length 0 and a pointer that is neither null nor misaligned; nothing is read or written there. Pass that of any object of
 * the element's type, such as `uint16_t none;` and `&none, 0`.
 *
 * A sheet, in which LF is the byte 10, CR the byte 13, and no byte may stand that is not named here, as no blank [The sheet]:
 *   sheet   = "mark,half" END, mark END once or more, END, "minute,inj,vdk" END, reading END any number of times
 *   END     = LF, or CR LF; each line may have either
 *   mark    = number "," number                   point and bandwidth, the point up to 65,535, the bandwidth 1 to 65,536
 *   reading = number "," number "," number        minute and value up to 65,535; between them the injection, 1 to 65,535
 *   number  = one to five digits, of which the first is not 0 unless it is the only one
 * A sheet with ranges, which tankcurve_read_ranges and tankcurve_text take too [Ranges]: the second names line is "minute,inj,low,high", and
 *   reading = number "," number "," number "," number        minute, injection, low and high; both ends up to 65,535, low at most high
 * A reading of injection 1 or 2 is checked as every other, and the next one against its minute, but it is not kept. A CR that is not
 * directly before an LF is a wrong byte, and so is the first of two there. Every CR counts in the sheet's length and in places.
 *
 * The proof is about the calls on Rattle's abstract machine, where a slice is what it says. Outside it are:
 *   - null pointers, also for empty lists;
 *   - dangling or misaligned pointers, and lengths that do not belong to their pointers;
 *   - a list that is written and overlaps another; lists that are only read may overlap;
 *   - lists that someone else writes, or reads while they are written, during the call;
 *   - the stack: on sheets of 1,024 samples and 512 points tankcurve_text took less than 39 KB, tankcurve_read_ranges less than 10 KB and tankcurve_read
 *     less than 8 KB; tankcurve_boxes took 72,104 bytes on lists of the greatest lengths, most of them for two tables of 66 times 66 numbers; every
 *     other call took under 1 KB;
 *   - the compiler's back end below the proof, memcpy and memset, which the archive takes from the host, the linker and the machine. The
 *     archive links only into programs for x86-64 Linux;
 *   - this header: nothing compares it with the Rattle source but the tests in link/tests and the examples in link/examples.
 */
#ifndef TANKCURVE_H
#define TANKCURVE_H

#include <stdbool.h>
#include <stddef.h>
#include <stdint.h>

#ifdef __cplusplus
extern "C" {
#endif

/* A call whose answer must not be dropped: a refusal that goes unseen leaves the numbers of an earlier call in place. */
#if defined(__GNUC__) || defined(__clang__)
#define TANKCURVE_ANSWER __attribute__((warn_unused_result))
#else
#define TANKCURVE_ANSWER
#endif

/*
 * The version that this header belongs to, 3.1.0: major * 65536 + minor * 256 + patch. tankcurve_version gives that of the archive. What is
 * counted by it stands in link/abi-3.1.0.
 */
#define TANKCURVE_VERSION 0x030100

/* The lengths and limits. */
#define TANKCURVE_MAX_SAMPLES 1024 /* samples ("readings") in a list, and the length of the reader's lists of them */
#define TANKCURVE_MAX_POINTS 512   /* points ("marks") in a list, and the length of the reader's lists of them */
#define TANKCURVE_PREVIEW_MAX_SAMPLES 256 /* samples of a preview */
#define TANKCURVE_PREVIEW_MAX_POINTS 64   /* points of a preview */
#define TANKCURVE_MAX_SHEET 32768  /* bytes of a sheet, and the greatest place of a report */
#define TANKCURVE_MAX_OUTPUT 44113 /* bytes of a text; the length of a text's out */
#define TANKCURVE_ROW_LEN 5        /* enum tankcurve_row_field: left, right, weight, sum, value */
#define TANKCURVE_RANGE_ROW_LEN 7  /* enum tankcurve_range_row_field: left, right, weight, low sum, high sum, low value, high value */
#define TANKCURVE_BOUNDS_LEN 2     /* left, right, as in a row */
#define TANKCURVE_RECORD_LEN 9     /* enum tankcurve_record_field: left, right, s00, s10, s20, s01, s11, s21, passes */
#define TANKCURVE_COUNTS_LEN 2     /* enum tankcurve_counts_field: samples, points */
#define TANKCURVE_RANGE_COUNTS_LEN 3 /* enum tankcurve_range_counts_field: samples, points, kind */
#define TANKCURVE_POSITION_LEN 1   /* a position, or TANKCURVE_NO_POSITION */
#define TANKCURVE_PARTING_LEN 3    /* enum tankcurve_parting_field: point, left, right */
#define TANKCURVE_DOUBLES_LEN 2    /* enum tankcurve_doubles_field: a high part, or all of a number, and a low part */
#define TANKCURVE_BOX_MAX_POINTS 32 /* points of a direction of tankcurve_boxes */
#define TANKCURVE_BOX_LEN 2        /* enum tankcurve_box_field: count, sum */
#define TANKCURVE_STRIPS 65        /* the cells of a minute strip in a list of cells */
#define TANKCURVE_CELLS_LEN 4225   /* a list of cells: TANKCURVE_STRIPS for each of TANKCURVE_STRIPS minute strips */

/* Where a field stands in its list: row[TANKCURVE_ROW_VALUE]; that of row k of a sweep is rows[TANKCURVE_ROW_LEN * k + TANKCURVE_ROW_VALUE]. */
enum tankcurve_row_field {
    TANKCURVE_ROW_LEFT = 0,
    TANKCURVE_ROW_RIGHT = 1,
    TANKCURVE_ROW_WEIGHT = 2,
    TANKCURVE_ROW_SUM = 3,
    TANKCURVE_ROW_VALUE = 4
};
/* Where a field of a row over ranges stands; that of row k of a sweep is rows[TANKCURVE_RANGE_ROW_LEN * k + TANKCURVE_RANGE_ROW_LOW_VALUE]. */
enum tankcurve_range_row_field {
    TANKCURVE_RANGE_ROW_LEFT = 0,
    TANKCURVE_RANGE_ROW_RIGHT = 1,
    TANKCURVE_RANGE_ROW_WEIGHT = 2,
    TANKCURVE_RANGE_ROW_LOW_SUM = 3,
    TANKCURVE_RANGE_ROW_HIGH_SUM = 4,
    TANKCURVE_RANGE_ROW_LOW_VALUE = 5,
    TANKCURVE_RANGE_ROW_HIGH_VALUE = 6
};
enum tankcurve_record_field {
    TANKCURVE_RECORD_LEFT = 0,
    TANKCURVE_RECORD_RIGHT = 1,
    TANKCURVE_RECORD_S00 = 2,
    TANKCURVE_RECORD_S10 = 3,
    TANKCURVE_RECORD_S20 = 4,
    TANKCURVE_RECORD_S01 = 5,
    TANKCURVE_RECORD_S11 = 6,
    TANKCURVE_RECORD_S21 = 7,
    TANKCURVE_RECORD_PASSES = 8
};
enum tankcurve_counts_field {
    TANKCURVE_COUNTS_SAMPLES = 0,
    TANKCURVE_COUNTS_POINTS = 1
};
enum tankcurve_range_counts_field {
    TANKCURVE_RANGE_COUNTS_SAMPLES = 0,
    TANKCURVE_RANGE_COUNTS_POINTS = 1,
    TANKCURVE_RANGE_COUNTS_KIND = 2
};
enum tankcurve_parting_field {
    TANKCURVE_PARTING_POINT = 0,
    TANKCURVE_PARTING_LEFT = 1,
    TANKCURVE_PARTING_RIGHT = 2
};

/* The detail of tankcurve_compare: which tank is higher. */
enum tankcurve_tank {
    TANKCURVE_ALIKE = 0,
    TANKCURVE_FIRST = 1,
    TANKCURVE_SECOND = 2
};
/* The kind of a sheet, which tankcurve_read_ranges counts: by its second names line alone. */
enum tankcurve_kind {
    TANKCURVE_KIND_PLAIN = 0, /* minute,inj,vdk */
    TANKCURVE_KIND_RANGES = 1 /* minute,inj,low,high */
};
enum tankcurve_doubles_field {
    TANKCURVE_DOUBLES_HIGH = 0,
    TANKCURVE_DOUBLES_LOW = 1
};
enum tankcurve_box_field {
    TANKCURVE_BOX_COUNT = 0,
    TANKCURVE_BOX_SUM = 1
};

/*
 * What stands for no position in the answer of a question with a limit. It is no position of any list: ask whether an answer is this number
 * before it is used as an index.
 */
#define TANKCURVE_NO_POSITION UINT64_MAX

/* What one of a detail counts for in what a call returns; every number is below it. */
#define TANKCURVE_DETAIL_UNIT 256

/*
 * The value of a row of weight 0: missing. WARNING: it needs 17 bits. In a uint16_t, the type of every other value, it becomes 0, which reads
 * as beer without diacetyl; -Wall -Wextra do not warn, -Wconversion does. Ask tankcurve_present before a value is used or stored. Never
 * compare with this number instead: the value of a row of tankcurve_row may be 65,536 with a weight.
 */
#define TANKCURVE_MISSING 65536

/* The greatest weight and sum of a row of readings: 1,024 samples at the point, the greatest bandwidth, and each value 65,535. */
#define TANKCURVE_MAX_WEIGHT ((uint64_t)1 << 42)
#define TANKCURVE_MAX_SUM (((uint64_t)1 << 58) - ((uint64_t)1 << 42))

/* The least and the greatest bandwidth ("half width"). */
#define TANKCURVE_MIN_BANDWIDTH 1
#define TANKCURVE_MAX_BANDWIDTH 65536

/* The greatest bandwidth of a temperature, and the greatest sum of a cell of tankcurve_boxes: 1,024 samples, and each value 65,535. */
#define TANKCURVE_MAX_TEMPERATURE_BANDWIDTH 256
#define TANKCURVE_MAX_CELL_SUM 67107840

/* The bandwidth of tankcurve_biweight, and the greatest weight and sum of its row: 1,024 samples at the point, and each value 65,535. */
#define TANKCURVE_BIWEIGHT_BANDWIDTH 720
#define TANKCURVE_BIWEIGHT_MAX_WEIGHT UINT64_C(275188285440000)
#define TANKCURVE_BIWEIGHT_MAX_SUM UINT64_C(18034464286310400000)

/* So that in C++ too every number that an answer can have is a value of the reports' type; without it one over 31 is undefined there. */
#if defined(__cplusplus) && __cplusplus >= 201103L
#define TANKCURVE_REPORT_TYPE : int
#else
#define TANKCURVE_REPORT_TYPE
#endif

/* The reports and their conditions [Reports]. */
enum tankcurve_report TANKCURVE_REPORT_TYPE {
    TANKCURVE_ACCEPTED = 0,
    TANKCURVE_TOO_LONG = 1,               /* "overlong": a sheet has more than 32,768 bytes */
    TANKCURVE_BAD_HEADER = 2,             /* "heading": where a names line of a sheet belongs, the sheet ends, or another text stands, or
                                             no line feed follows it */
    TANKCURVE_MALFORMED_LINE = 3,         /* "torn line": a line of a point or of a sample has another form, or a number that is out of
                                             range (a bandwidth's range is report 9), or no line feed; or a sheet ends without an empty line
                                             behind its points */
    TANKCURVE_SAMPLE_OUT_OF_ORDER = 4,    /* "early reading": a minute is below the one before */
    TANKCURVE_POINT_OUT_OF_ORDER = 5,     /* "early mark": a point is below the one before */
    TANKCURVE_TOO_MANY = 6,               /* "crowded": more than 1,024 samples, on a sheet kept ones, or more than 512 points; in
                                             tankcurve_preview more than 256 samples or 64 points, in tankcurve_boxes more than 32 points
                                             of a direction */
    TANKCURVE_NO_POINTS = 7,              /* "no marks": there is no point */
    TANKCURVE_LENGTH_MISMATCH = 8,        /* "uneven": lists that belong together, or a list for the answer, have other lengths */
    TANKCURVE_BANDWIDTH_OUT_OF_RANGE = 9, /* "half width": a bandwidth is 0 or over 65,536, that of a temperature over 256 */
    TANKCURVE_EDGE_DECREASES = 10,        /* "edge back": point - bandwidth or point + bandwidth is below that of the point before */
    TANKCURVE_INVALID_RECORD = 11,        /* "foreign record": left is over right, or right over the number of samples */
    TANKCURVE_UNKNOWN_PRESET = 12,        /* "knob": the preset is over 11 */
    TANKCURVE_GRID_OVERFLOW = 13,         /* "past the clock": the last point would be over 65,535 */
    TANKCURVE_TOO_FEW_SAMPLES = 14,       /* "too few": k is 0 or over the number of samples */
    TANKCURVE_CROSSED_RANGE = 15,         /* "crossed range": a low is above its high */
    TANKCURVE_SECOND_SERIES = 16,         /* "second tank": the second tank's lists have the condition of 8, 6 or 4 */
    TANKCURVE_TEMPERATURE_OUT_OF_ORDER = 17 /* "early temperature mark": a point of the temperatures is below the one before */
};

/* The number of what a call returned: 0 or a report. */
static inline enum tankcurve_report tankcurve_number(uint64_t answer)
{
    return (enum tankcurve_report)(answer % TANKCURVE_DETAIL_UNIT);
}

/* The detail of what a call returned: of a report its place. */
static inline uint64_t tankcurve_detail(uint64_t answer)
{
    return answer / TANKCURVE_DETAIL_UNIT;
}

/* The trade's word for a report; "accepted" for 0, and "unknown" for a number that this header does not know. */
static inline const char *tankcurve_word(enum tankcurve_report report)
{
    switch (report) {
    case TANKCURVE_ACCEPTED: return "accepted";
    case TANKCURVE_TOO_LONG: return "overlong";
    case TANKCURVE_BAD_HEADER: return "heading";
    case TANKCURVE_MALFORMED_LINE: return "torn line";
    case TANKCURVE_SAMPLE_OUT_OF_ORDER: return "early reading";
    case TANKCURVE_POINT_OUT_OF_ORDER: return "early mark";
    case TANKCURVE_TOO_MANY: return "crowded";
    case TANKCURVE_NO_POINTS: return "no marks";
    case TANKCURVE_LENGTH_MISMATCH: return "uneven";
    case TANKCURVE_BANDWIDTH_OUT_OF_RANGE: return "half width";
    case TANKCURVE_EDGE_DECREASES: return "edge back";
    case TANKCURVE_INVALID_RECORD: return "foreign record";
    case TANKCURVE_UNKNOWN_PRESET: return "knob";
    case TANKCURVE_GRID_OVERFLOW: return "past the clock";
    case TANKCURVE_TOO_FEW_SAMPLES: return "too few";
    case TANKCURVE_CROSSED_RANGE: return "crossed range";
    case TANKCURVE_SECOND_SERIES: return "second tank";
    case TANKCURVE_TEMPERATURE_OUT_OF_ORDER: return "early temperature mark";
    }
    return "unknown";
}

/*
 * Whether a row, TANKCURVE_ROW_LEN numbers, has a value: its weight is not 0. Of row k of a sweep pass rows + TANKCURVE_ROW_LEN * k. Of a row over
 * ranges, whose weight stands at the same place, it says whether it has both values: pass rows + TANKCURVE_RANGE_ROW_LEN * k.
 */
static inline bool tankcurve_present(const uint64_t *row)
{
    return row[TANKCURVE_ROW_WEIGHT] != 0;
}

/*
 * Whether the numbers of a row are within what a row of readings has: weight and sum up to their greatest, and a value of 16 bits if one is
 * present. False for many rows of tankcurve_row that are not of the record's last accepted step or turn, since their weight or sum has wrapped
 * around; not for all: what a row must have come by stands there. Not for rows of tankcurve_biweight, whose numbers are greater, nor for rows over ranges,
 * whose fields stand elsewhere.
 */
static inline bool tankcurve_of_readings(const uint64_t *row)
{
    return row[TANKCURVE_ROW_WEIGHT] <= TANKCURVE_MAX_WEIGHT && row[TANKCURVE_ROW_SUM] <= TANKCURVE_MAX_SUM &&
           (!tankcurve_present(row) || row[TANKCURVE_ROW_VALUE] < TANKCURVE_MISSING);
}

/* The version of the archive, to be held against TANKCURVE_VERSION. It is no answer: it has neither number nor detail. */
TANKCURVE_ANSWER
uint32_t tankcurve_version(void);

/*
 * The estimate at one point z with bandwidth h ("the question at one mark": the row) [The row]. row: 5 numbers. left: how many minutes are
 * below z - h; right: how many are at most z + h; weight: the sum over the run, the samples from position left up to but without right, of
 * h^2 - (minute - z)^2; sum: the same, each times its value; value: sum / weight to the nearest whole number, a half to the even neighbour,
 * at most 65,535, or TANKCURVE_MISSING if weight is 0: ask tankcurve_present. Detail 0. Reports: 8 (minutes and values differ in length, or
 * row has another length), 6, 4 (place: the lowest position that is below the one before), 9.
 */
TANKCURVE_ANSWER
uint64_t tankcurve_evaluate(const uint16_t *minutes, size_t minutes_len, const uint16_t *values, size_t values_len, uint16_t point,
                            uint32_t bandwidth, uint64_t *row, size_t row_len);

/*
 * The samples inside the window of one point ("the question at one mark": the run) [The row]. bounds: 2 numbers, left and right: the run is
 * values from left up to but without right. Detail 0. Reports and places as for tankcurve_evaluate, with bounds for row.
 */
TANKCURVE_ANSWER
uint64_t tankcurve_window(const uint16_t *minutes, size_t minutes_len, const uint16_t *values, size_t values_len, uint16_t point,
                          uint32_t bandwidth, uint64_t *bounds, size_t bounds_len);

/*
 * The softer estimate at one point z, over 720 minutes on each side ("the biweight row") [The biweight row]. row: 5 numbers. left, right and the
 * run are those of tankcurve_evaluate and tankcurve_window at z with TANKCURVE_BIWEIGHT_BANDWIDTH; weight: the sum over the run of
 * (518,400 - (minute - z)^2)^2; sum: the same, each times its value; value: as in a row of tankcurve_evaluate, TANKCURVE_MISSING if weight is
 * 0: ask tankcurve_present. A sample 720 minutes away is in the run and has no weight. No bandwidth is given, so none is reported. WARNING: the
 * sum has up to 64 bits; doubled it may wrap. Detail 0. Reports: 8 (minutes and values differ in length, or row has another length), 6, 4 (place:
 * the lowest position that is below the one before).
 */
TANKCURVE_ANSWER
uint64_t tankcurve_biweight(const uint16_t *minutes, size_t minutes_len, const uint16_t *values, size_t values_len, uint16_t point,
                            uint64_t *row, size_t row_len);

/*
 * Moves a running record to the next point ("a step") [The running record and the book]. record: 9 numbers, read and written: left, right,
 * six sums s00, s10, s20, s01, s11, s21, spq that of minute^p * value^q, and the passes, how far both edges have gone; sums and passes
 * modulo 2^64. A fresh record is all zero. The step moves right and then left, never back, adds the samples that right has reached and
 * subtracts those that left has passed. From a fresh record, over the
 * same ordered minutes and with no accepted step whose edges lie back, the sums are those over the run of the last accepted point; of another
 * record only what was added and subtracted is said. The order of the minutes and of the edges is not looked at. Detail 0. Reports: 8
 * (minutes and values differ in length, or record has another length), 6, 11, 9.
 */
TANKCURVE_ANSWER
uint64_t tankcurve_advance(uint64_t *record, size_t record_len, const uint16_t *minutes, size_t minutes_len, const uint16_t *values,
                           size_t values_len, uint16_t point, uint32_t bandwidth);

/*
 * Turns a running record to any point and bandwidth ("the turn"), forth or back [The turn]. record: 9 numbers, read and written, as those of
 * tankcurve_advance. left and right become those of the window's row; the sums gain those over the new run and lose those over the old one,
 * and the passes gain the distances of both edges, all modulo 2^64. From a record that steps and turns over the same minutes and values have
 * led to, beginning with a fresh one, the sums are then those over the new run, and tankcurve_row at that point and bandwidth gives the row
 * of tankcurve_evaluate. Detail 0. Reports: 8 (minutes and values differ in length, or record has another length), 6, 4 at the lowest
 * position whose minute is below the one before, 11, 9.
 */
TANKCURVE_ANSWER
uint64_t tankcurve_turn(uint64_t *record, size_t record_len, const uint16_t *minutes, size_t minutes_len, const uint16_t *values,
                        size_t values_len, uint16_t point, uint32_t bandwidth);

/*
 * The row of a running record ("the row of a record") at one point z with bandwidth h [The running record and the book]. record: 9 numbers of
 * any origin, which are read; row: 5 numbers. left and right are the record's; weight: (h^2 - z^2) * s00 + 2 * z * s10 - s20, and sum the same
 * of s01, s11 and s21, both modulo 2^64; value: sum / weight to the nearest whole number, a half to the even neighbour, or TANKCURVE_MISSING if
 * weight is 0.
 *
 * WARNING: pass the point and bandwidth of the last accepted step or turn; at others the row may look like a good one with value 0 or 1. Where the
 * record has the edges and sums of the window of z and h, as after an accepted tankcurve_advance at z with h from a fresh record, over the same
 * ordered minutes and with no edge back, it is the row of tankcurve_evaluate, and a value that is present is at most 65,535. Of any other
 * record, and at any other point or bandwidth, it may have all 64 bits: ask tankcurve_of_readings before it goes into a smaller type, which
 * finds many of these rows and not all. Every point and every bandwidth is taken, 0 and those over 65,536 too. Detail 0. Report: 8 (record or
 * row has another length).
 */
TANKCURVE_ANSWER
uint64_t tankcurve_row(const uint64_t *record, size_t record_len, uint16_t point, uint32_t bandwidth, uint64_t *row, size_t row_len);

/*
 * The estimates at all points ("the sweep") [The row]. rows: exactly TANKCURVE_ROW_LEN numbers a point, each as a row of tankcurve_evaluate.
 * Detail: the passes, last left plus last right. Reports: 8 (minutes with values, points with bandwidths, or rows), 6, 7, 4, 5, 9, 10; the
 * places of the last four are the lowest position at which the condition holds, for 4, 5 and 10 that of the later one.
 */
TANKCURVE_ANSWER
uint64_t tankcurve_smooth(const uint16_t *minutes, size_t minutes_len, const uint16_t *values, size_t values_len, const uint16_t *points,
                          size_t points_len, const uint32_t *bandwidths, size_t bandwidths_len, uint64_t *rows, size_t rows_len);

/*
 * The sweep over readings known as ranges, each a low and a high [Ranges]. rows: exactly TANKCURVE_RANGE_ROW_LEN numbers a point: left, right and
 * weight, which no value moves, the sums of all lows and of all highs, and the value of each, TANKCURVE_MISSING for both if weight is 0: ask
 * tankcurve_present. However the true values lie in their ranges, sum and value of their row of tankcurve_smooth lie between, and both ends are
 * reached. Detail: the passes, last left plus last right. Reports: 8 (minutes with lows and with highs, points with bandwidths, or rows), 6, 7, 4,
 * 15, 5, 9, 10; the places of the last five are the lowest position at which the condition holds, for 4, 5 and 10 that of the later one.
 */
TANKCURVE_ANSWER
uint64_t tankcurve_smooth_ranges(const uint16_t *minutes, size_t minutes_len, const uint16_t *lows, size_t lows_len, const uint16_t *highs,
                                 size_t highs_len, const uint16_t *points, size_t points_len, const uint32_t *bandwidths, size_t bandwidths_len,
                                 uint64_t *rows, size_t rows_len);

/*
 * The preview ("the preview on the panel") [The preview]: tankcurve_smooth for a small curve, TANKCURVE_PREVIEW_MAX_SAMPLES samples and
 * TANKCURVE_PREVIEW_MAX_POINTS points at most. More of either is 6, or 8 where tankcurve_smooth gives 8; otherwise it answers and writes what
 * tankcurve_smooth does, reports and places included.
 */
TANKCURVE_ANSWER
uint64_t tankcurve_preview(const uint16_t *minutes, size_t minutes_len, const uint16_t *values, size_t values_len, const uint16_t *points,
                           size_t points_len, const uint32_t *bandwidths, size_t bandwidths_len, uint64_t *rows, size_t rows_len);

/*
 * Fills an evaluation grid ("the mark filler") [Presets and grid]: point k, from 0, is first + k * spacing; each bandwidth is that of
 * preset, "the knob"'s position: from 0 to 5 it is 30, 45, 60, 90, 120 or 180, from 6 to 11 it is 240, 360, 480, 720, 1080 or 1440. Detail
 * 0. Reports: 8 (points and bandwidths differ in length), 7, 6, 12, 13.
 */
TANKCURVE_ANSWER
uint64_t tankcurve_fill(uint16_t first, uint16_t spacing, uint32_t preset, uint16_t *points, size_t points_len, uint32_t *bandwidths,
                        size_t bandwidths_len);

/*
 * Reads a sheet ("the reader of the tank sheet") [The sheet]. minutes and values: 1,024 each; points and bandwidths: 512 each; counts: 2
 * numbers, how many samples are kept and how many points there are. The kept samples and the points stand at the front of their lists, and
 * what is behind them is untouched. Detail 0. Reports: 8 (any of the five lists has another length), 1 (place 32,768), then line by line that
 * of the first faulty line: 2, 7, or 3, 4 or 5, 9, 10, 6. Its place is the offset of the line's first byte, counted from 0, and the sheet's
 * length where the sheet ends in front of a names line or the empty line. An empty line that is missing in the midst of a sheet is 3 at the
 * first line that is no line of a point, as a rule the second names line. A sheet with ranges is 2 at that line: tankcurve_read_ranges takes both.
 */
TANKCURVE_ANSWER
uint64_t tankcurve_read(const uint8_t *sheet, size_t sheet_len, uint16_t *minutes, size_t minutes_len, uint16_t *values, size_t values_len,
                        uint16_t *points, size_t points_len, uint32_t *bandwidths, size_t bandwidths_len, uint64_t *counts,
                        size_t counts_len);

/*
 * Reads a sheet of either kind, plain or with ranges [Ranges]. minutes, lows and highs: 1,024 each; points and bandwidths: 512 each; counts: 3
 * numbers, how many samples are kept, how many points there are, and the kind, TANKCURVE_KIND_PLAIN or TANKCURVE_KIND_RANGES, which the second names
 * line alone tells. A value of a plain sheet stands as low and high. The kept samples and the points stand at the front of their lists, and what is
 * behind them is untouched. Detail 0. Reports and places as for tankcurve_read, with six lists for 8; within a line of a sample the order is 3, 4, 15,
 * 6, and lines of injection 1 and 2 earn 15 too. What is accepted tankcurve_smooth_ranges accepts.
 */
TANKCURVE_ANSWER
uint64_t tankcurve_read_ranges(const uint8_t *sheet, size_t sheet_len, uint16_t *minutes, size_t minutes_len, uint16_t *lows, size_t lows_len,
                               uint16_t *highs, size_t highs_len, uint16_t *points, size_t points_len, uint32_t *bandwidths,
                               size_t bandwidths_len, uint64_t *counts, size_t counts_len);

/*
 * Writes the curve of a sheet of either kind, as the program writes it, to the start of out, which has TANKCURVE_MAX_OUTPUT bytes; what is behind
 * it is untouched [Output] [Ranges]. Detail: the bytes written. Reports: 8 (out has another length), then what tankcurve_read_ranges reports of the
 * sheet, at the same place: 1 (place 32,768), or that of the first faulty line, 2, 7, or 3, 4 or 5, 15, 9, 10, 6. out is then as it was;
 * tankcurve_refusal_text writes what the program writes of that number and place.
 */
TANKCURVE_ANSWER
uint64_t tankcurve_text(const uint8_t *sheet, size_t sheet_len, uint8_t *out, size_t out_len);

/*
 * Writes the text of a refusal, as the program writes it, to the start of out, which has TANKCURVE_MAX_OUTPUT bytes; what is behind it is
 * untouched [Output]. It is `refused,place` and, on a second line, number, a comma and place in decimal; each line ends in a line feed.
 * number and place may be any: whether a call reports them is not looked at. Detail: the bytes written, 18 to 56. Report: 8 (out has another
 * length).
 */
TANKCURVE_ANSWER
uint64_t tankcurve_refusal_text(uint64_t number, uint64_t place, uint8_t *out, size_t out_len);

/*
 * The first point whose value is present and at or below limit ("when may the tank move") [Questions with a limit]. position: 1 number, the
 * lowest such position in points, from 0, or TANKCURVE_NO_POSITION where there is none. It is what the rows of tankcurve_smooth would say: only
 * the first such point is asked for, and the curve may rise behind it. Every limit is fit; a missing value is not low at any. Detail: the
 * passes up to and with that point, left plus right of its row; where there is none, those of all points. Values from right of that row on
 * have no influence. Reports and places as for tankcurve_smooth, of whole lists and before any answer, with position for rows.
 */
TANKCURVE_ANSWER
uint64_t tankcurve_first_at_most(const uint16_t *minutes, size_t minutes_len, const uint16_t *values, size_t values_len,
                                 const uint16_t *points, size_t points_len, const uint32_t *bandwidths, size_t bandwidths_len,
                                 uint16_t limit, uint64_t *position, size_t position_len);

/*
 * The sample on which the answer at one point hangs ("which reading decides") [Questions with a limit]. position: 1 number, the lowest
 * position in minutes and values, from 0, such that without that sample alone tankcurve_evaluate has a value that is present and at or below
 * limit where it had none such, or none such where it had one; TANKCURVE_NO_POSITION where there is no such sample. Only a sample of weight
 * above 0 decides, and where the value is missing there is none. Every limit is fit. Detail 0. Reports and places as for tankcurve_evaluate,
 * with position for row.
 */
TANKCURVE_ANSWER
uint64_t tankcurve_decisive(const uint16_t *minutes, size_t minutes_len, const uint16_t *values, size_t values_len, uint16_t point,
                            uint32_t bandwidth, uint16_t limit, uint64_t *position, size_t position_len);

/*
 * Two tanks set against each other over the same points [Two tanks]. The first point at which their values differ decides, and there a missing
 * value is higher than every other. Detail: TANKCURVE_ALIKE where the values of all points agree; else the higher tank, TANKCURVE_FIRST or
 * TANKCURVE_SECOND, and only then out, 3 numbers, is written: the point's position, and left and right of the higher tank's row there, whose run
 * is that part of that tank's own values. Reports: 8 (the first tank's minutes with its values, points with bandwidths, or out has another
 * length), 6, 7, 4, 5, 9, 10 as for tankcurve_smooth with the first tank; then 16, at the place that the second tank's lists alone would get
 * with 8, 6 or 4.
 */
TANKCURVE_ANSWER
uint64_t tankcurve_compare(const uint16_t *minutes1, size_t minutes1_len, const uint16_t *values1, size_t values1_len,
                           const uint16_t *minutes2, size_t minutes2_len, const uint16_t *values2, size_t values2_len,
                           const uint16_t *points, size_t points_len, const uint32_t *bandwidths, size_t bandwidths_len, uint64_t *out,
                           size_t out_len);

/*
 * Bandwidths by neighbours and the estimates with them [Half widths by neighbours]: the bandwidth of a point becomes 1 more than the k-th
 * smallest distance of a sample to it, samples of one distance counted each, so that k samples or more have a weight. bandwidths, written:
 * one a point; rows, written: exactly TANKCURVE_ROW_LEN numbers a point, each the row of its point and new bandwidth. What the two lists hold
 * before is not looked at. No value is missing. Detail 0. Reports: 8 (minutes with values, points with bandwidths, or rows), 6, 7, 4, 5, 14; the
 * places of 4 and 5 are the lowest position at which the condition holds, that of the later one. Neither 9 nor 10 can come: these bandwidths are
 * in range, and with points in order none of their edges goes back.
 */
TANKCURVE_ANSWER
uint64_t tankcurve_neighbours(const uint16_t *minutes, size_t minutes_len, const uint16_t *values, size_t values_len, const uint16_t *points,
                              size_t points_len, size_t k, uint32_t *bandwidths, size_t bandwidths_len, uint64_t *rows, size_t rows_len);

/*
 * A weight or a sum of a row as doubles, for a spreadsheet whose cells hold nothing else [Sums for the spreadsheet]. weight is the row's, also
 * where number is the sum. doubles: 2. Detail: how many of them are used; the others stay as they were.
 *   0: weight is 0. The cell stays empty, whatever number is, and stands for 0.
 *   1: number is below 2^53. The first double is number.
 *   2: doubles[TANKCURVE_DOUBLES_LOW] is the remainder of number by 2^32, doubles[TANKCURVE_DOUBLES_HIGH] the rest.
 * Each double used is exactly that whole number. A number is had back as a whole number: cast each used double to uint64_t and add these; no call
 * does it. WARNING: added as doubles, in the spreadsheet too, the two parts are not exact from 2^53 on: 2^53 and 1 give 2^53. A row of
 * readings has no sum without weight; of a row of any other origin a sum above 0 with weight 0 is lost. Report: 8 (doubles has another length).
 */
TANKCURVE_ANSWER
uint64_t tankcurve_doubles(uint64_t weight, uint64_t number, double *doubles, size_t doubles_len);

/*
 * Minute and temperature together [Minute and temperature together]: how many samples lie in the box of each pair of points, and the sum of their
 * values, with the uniform kernel. A sample has a minute, a temperature in tenths of a degree and a value; it lies in a box if its minute is no
 * further from the pair's point than that point's bandwidth, and its temperature likewise. points and bandwidths are those of the minutes, up to 32;
 * temperature_points and temperature_bandwidths those of the temperatures, up to 32 too, the bandwidths 1 to 256. Samples stand in any order, and
 * edges may go back; points of each direction may not.
 * boxes, written: exactly TANKCURVE_BOX_LEN numbers for each pair, all pairs of the first point of the minutes first:
 * the count of points j and k stands at TANKCURVE_BOX_LEN * (j * temperature_points_len + k) + TANKCURVE_BOX_COUNT.
 * counts and sums, written: TANKCURVE_CELLS_LEN each. The cuts of a direction are point - bandwidth and point + bandwidth + 1 of each of its points,
 * equal ones once; a cut may be negative, so compute it in signed numbers, as int64_t. A sample's strip is how many cuts lie at or below it, 0 to 64,
 * and its cell TANKCURVE_STRIPS * strip of the minute + strip of the temperature. counts has how many samples are in each cell, at most 1,024, sums
 * their values, at most TANKCURVE_MAX_CELL_SUM; cells without samples have 0. Every sample is in one cell, and a box is the sum of the cells of its
 * strips.
 * Detail 0. Reports: 8 (minutes with temperatures and values, points with bandwidths of each direction, boxes, counts or sums), 6, 7, 5, 17, 9; the
 * places of 5, 17 and 9 are the lowest position at which the condition holds. 9 is looked for in the bandwidths of the minutes first, and does
 * not tell which direction it is.
 */
TANKCURVE_ANSWER
uint64_t tankcurve_boxes(const uint16_t *minutes, size_t minutes_len, const uint8_t *temperatures, size_t temperatures_len,
                         const uint16_t *values, size_t values_len, const uint16_t *points, size_t points_len, const uint32_t *bandwidths,
                         size_t bandwidths_len, const uint8_t *temperature_points, size_t temperature_points_len,
                         const uint32_t *temperature_bandwidths, size_t temperature_bandwidths_len, uint64_t *boxes, size_t boxes_len,
                         uint32_t *counts, size_t counts_len, uint32_t *sums, size_t sums_len);

#ifdef __cplusplus
}
#endif

#endif
