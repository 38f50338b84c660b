/*
 * Minute and temperature together: of one tank's readings, how many fall into each span of minutes and each span of cellar temperatures, and their mean. Then
 * the cells, of which the boxes are made: those that hold readings, and a span of them added up by hand, which is a box again.
 */
#include "tankcurve.h"

#include <inttypes.h>
#include <stdio.h>

#define SAMPLES 9
#define DAYS 3
#define SPANS 2

/* Readings as they came in, in no order: the second half of the list is another panel's. Temperatures are in tenths of a degree. */
static const uint16_t minutes[SAMPLES] = {600, 1320, 2100, 2760, 3480, 690, 1410, 2070, 2820};
static const uint8_t temperatures[SAMPLES] = {118, 121, 124, 152, 155, 148, 151, 119, 154};
static const uint16_t values[SAMPLES] = {4210, 3950, 3610, 2480, 1990, 3700, 3020, 3580, 2390};

/* Six hours to each side of minute 720 and twelve of 1,440 and of 2,880; temperatures around 12.0 and 15.2 degrees. */
static const uint16_t points[DAYS] = {720, 1440, 2880};
static const uint32_t bandwidths[DAYS] = {360, 720, 720};
static const uint8_t degrees[SPANS] = {120, 152};
static const uint32_t widths[SPANS] = {8, 8};

static uint64_t boxes[TANKCURVE_BOX_LEN * DAYS * SPANS];
static uint32_t counts[TANKCURVE_CELLS_LEN], sums[TANKCURVE_CELLS_LEN];

int main(void)
{
    uint64_t answer =
        tankcurve_boxes(minutes, SAMPLES, temperatures, SAMPLES, values, SAMPLES, points, DAYS, bandwidths, DAYS, degrees, SPANS, widths, SPANS, boxes,
                        TANKCURVE_BOX_LEN * DAYS * SPANS, counts, TANKCURVE_CELLS_LEN, sums, TANKCURVE_CELLS_LEN);
    if (tankcurve_number(answer) != TANKCURVE_ACCEPTED) {
        printf("report %d, %s, at %" PRIu64 "\n", (int)tankcurve_number(answer), tankcurve_word(tankcurve_number(answer)), tankcurve_detail(answer));
        return 1;
    }
    printf("minute,tenths,count,sum,mean\n");
    for (size_t j = 0; j < DAYS; j++) {
        for (size_t k = 0; k < SPANS; k++) {
            const uint64_t *box = boxes + TANKCURVE_BOX_LEN * (j * SPANS + k);
            uint64_t count = box[TANKCURVE_BOX_COUNT], sum = box[TANKCURVE_BOX_SUM];
            printf("%" PRIu16 ",%" PRIu8 ",%" PRIu64 ",%" PRIu64 ",", points[j], degrees[k], count, sum);
            /* A box without readings has no mean. */
            if (count != 0)
                printf("%" PRIu64 "\n", sum / count);
            else
                printf("-\n");
        }
    }
    printf("\nstrip,strip,count,sum\n");
    for (size_t cell = 0; cell < TANKCURVE_CELLS_LEN; cell++)
        if (counts[cell] != 0)
            printf("%zu,%zu,%" PRIu32 ",%" PRIu32 "\n", cell / TANKCURVE_STRIPS, cell % TANKCURVE_STRIPS, counts[cell], sums[cell]);
    /* The cuts of the minutes are 360, 720, 1081, 2160, 2161 and 3601. The second span begins at 720 and ends before 2161: strips 2 to 4. The
       warm span begins at 144, the third cut of the temperatures 112, 129, 144, 161, and ends before 161: strip 3. */
    uint64_t count = 0, sum = 0;
    for (size_t strip = 2; strip <= 4; strip++) {
        count += counts[TANKCURVE_STRIPS * strip + 3];
        sum += sums[TANKCURVE_STRIPS * strip + 3];
    }
    printf("\nby cells: %" PRIu64 ",%" PRIu64 "\n", count, sum);
    const uint64_t *warm = boxes + TANKCURVE_BOX_LEN * (1 * SPANS + 1);
    return count == warm[TANKCURVE_BOX_COUNT] && sum == warm[TANKCURVE_BOX_SUM] && fflush(stdout) == 0 ? 0 : 1;
}
