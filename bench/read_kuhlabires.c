/*
 * A text read so many times into tables that are sized by counting it so many times.
 *
 *     read_kuhlabires FILE COUNTINGS READINGS        the best time of each, the most memory held, and what was read
 */
#include "tables.h"

static double least(double best, double from)
{
    const double spent = seconds() - from;
    return spent < best ? spent : best;
}

int main(int count, char **arguments)
{
    if (count < 4)
        return 2;
    size_t n;
    uint8_t *text = (uint8_t *)bytes_of(arguments[1], &n);
    double counting = 1e9, reading = 1e9;
    for (long times = atol(arguments[2]); times > 0; times--) {
        const double from = seconds();
        lend_tables(text, n);
        counting = least(counting, from);
    }
    for (long times = atol(arguments[3]); times > 0; times--) {
        const double from = seconds();
        const kuhlabires_reading r = kuhlabires_tables_read(&tables, text, n);
        reading = least(reading, from);
        if (r.refusal) {
            printf("refused with %u at %zu\n", r.refusal, r.place);
            return 1;
        }
    }
    printf("counting %.9f reading %.9f peak %ld vertices %u corners %u\n", counting, reading, peak(), tables.used.v, tables.used.corners / KUHLABIRES_CORNER_WIDTH);
}
