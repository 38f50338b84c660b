/*
 * Drops the answer of every call. tests/link compiles it and wants a warning for each: an answer that is not looked at may be a refusal, after
 * which the numbers of an earlier call stand in the lists.
 */
#include "tankcurve.h"

void ignored(uint16_t *shorts, uint32_t *words, uint64_t *numbers, uint8_t *bytes, double *doubles);

void ignored(uint16_t *shorts, uint32_t *words, uint64_t *numbers, uint8_t *bytes, double *doubles)
{
    tankcurve_version();
    tankcurve_evaluate(shorts, 1, shorts, 1, 0, 1, numbers, TANKCURVE_ROW_LEN);
    tankcurve_biweight(shorts, 1, shorts, 1, 0, numbers, TANKCURVE_ROW_LEN);
    tankcurve_window(shorts, 1, shorts, 1, 0, 1, numbers, TANKCURVE_BOUNDS_LEN);
    tankcurve_advance(numbers, TANKCURVE_RECORD_LEN, shorts, 1, shorts, 1, 0, 1);
    tankcurve_turn(numbers, TANKCURVE_RECORD_LEN, shorts, 1, shorts, 1, 0, 1);
    tankcurve_row(numbers, TANKCURVE_RECORD_LEN, 0, 1, numbers, TANKCURVE_ROW_LEN);
    tankcurve_smooth(shorts, 1, shorts, 1, shorts, 1, words, 1, numbers, TANKCURVE_ROW_LEN);
    tankcurve_preview(shorts, 1, shorts, 1, shorts, 1, words, 1, numbers, TANKCURVE_ROW_LEN);
    tankcurve_compare(shorts, 1, shorts, 1, shorts, 1, shorts, 1, shorts, 1, words, 1, numbers, TANKCURVE_PARTING_LEN);
    tankcurve_fill(0, 0, 0, shorts, 1, words, 1);
    tankcurve_read(bytes, 1, shorts, 1, shorts, 1, shorts, 1, words, 1, numbers, TANKCURVE_COUNTS_LEN);
    tankcurve_text(bytes, 1, bytes, TANKCURVE_MAX_OUTPUT);
    tankcurve_refusal_text(1, 0, bytes, TANKCURVE_MAX_OUTPUT);
    tankcurve_doubles(0, 0, doubles, TANKCURVE_DOUBLES_LEN);
    tankcurve_first_at_most(shorts, 1, shorts, 1, shorts, 1, words, 1, 0, numbers, TANKCURVE_POSITION_LEN);
    tankcurve_decisive(shorts, 1, shorts, 1, 0, 1, 0, numbers, TANKCURVE_POSITION_LEN);
    tankcurve_smooth_ranges(shorts, 1, shorts, 1, shorts, 1, shorts, 1, words, 1, numbers, TANKCURVE_RANGE_ROW_LEN);
    tankcurve_read_ranges(bytes, 1, shorts, 1, shorts, 1, shorts, 1, shorts, 1, words, 1, numbers, TANKCURVE_RANGE_COUNTS_LEN);
    tankcurve_neighbours(shorts, 1, shorts, 1, shorts, 1, 1, words, 1, numbers, TANKCURVE_ROW_LEN);
    tankcurve_boxes(shorts, 1, bytes, 1, shorts, 1, shorts, 1, words, 1, bytes, 1, words, 1, numbers, 2, words, 1, words, 1);
}
