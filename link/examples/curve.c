/*
 * Reads a sheet from standard input and writes its curve, or why it was refused; then the estimates of lists given here, five numbers a
 * point, with a dash for a missing value, and the passes.
 */
#include "tankcurve.h"

#include <inttypes.h>
#include <stdio.h>

/* Tells a report that this program's own lists and buffers should not earn; the status to end with. */
static int refused(uint64_t answer)
{
    printf("report %d, %s, at %" PRIu64 "\n", (int)tankcurve_number(answer), tankcurve_word(tankcurve_number(answer)), tankcurve_detail(answer));
    return 1;
}

int main(void)
{
    /* One byte more than a sheet may have decides that it is too long. */
    static uint8_t sheet[TANKCURVE_MAX_SHEET + 1];
    static uint8_t out[TANKCURVE_MAX_OUTPUT];
    size_t sheet_len = fread(sheet, 1, sizeof sheet, stdin);
    if (ferror(stdin)) {
        fputs("curve: standard input cannot be read\n", stderr);
        return 1;
    }
    uint64_t answer = tankcurve_text(sheet, sheet_len, out, sizeof out);
    if (tankcurve_number(answer) != TANKCURVE_ACCEPTED)
        answer = tankcurve_refusal_text(tankcurve_number(answer), tankcurve_detail(answer), out, sizeof out);
    if (tankcurve_number(answer) != TANKCURVE_ACCEPTED)
        return refused(answer);
    fwrite(out, 1, tankcurve_detail(answer), stdout);

    const uint16_t minutes[] = {10, 20, 20, 35};
    const uint16_t values[] = {40, 60, 80, 20};
    const uint16_t points[] = {20, 25, 60};
    const uint32_t bandwidths[] = {10, 15, 20};
    uint64_t rows[3 * TANKCURVE_ROW_LEN];
    answer = tankcurve_smooth(minutes, 4, values, 4, points, 3, bandwidths, 3, rows, 3 * TANKCURVE_ROW_LEN);
    if (tankcurve_number(answer) != TANKCURVE_ACCEPTED)
        return refused(answer);
    for (size_t k = 0; k < 3; k++) {
        const uint64_t *row = rows + k * TANKCURVE_ROW_LEN;
        printf("%" PRIu64 " %" PRIu64 " %" PRIu64 " %" PRIu64, row[TANKCURVE_ROW_LEFT], row[TANKCURVE_ROW_RIGHT], row[TANKCURVE_ROW_WEIGHT],
               row[TANKCURVE_ROW_SUM]);
        if (tankcurve_present(row))
            printf(" %" PRIu64 "\n", row[TANKCURVE_ROW_VALUE]);
        else
            printf(" -\n");
    }
    printf("passes %" PRIu64 "\n", tankcurve_detail(answer));
    return fflush(stdout) == 0 ? 0 : 1;
}
