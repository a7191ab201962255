/*
 * The sweep of a file's tables, so many times over, each time of the tables as read.
 *
 *     sweep FILE TIMES        how many records there are, how many are dropped, and the time of the sweeps alone
 */
#include <stdint.h>
#include <string.h>

#include "tables.h"

int main(int count, char **arguments)
{
    if (count < 3)
        return 2;
    read_file(arguments[1]);
    const kuhlabires_used used = tables.used;
    const size_t listed = (size_t)used.v + used.vt + used.vn + used.vp;
    uint32_t *numbers = malloc(listed * sizeof *numbers + 1);
    void *kept = malloc(tables_size + 1);
    if (!numbers || !kept)
        return 2;
    memcpy(kept, tables.v, tables_size);
    kuhlabires_swept r = {0};
    double spent = 0;
    for (long times = atol(arguments[2]); times > 0; times--) {
        memcpy(tables.v, kept, tables_size);
        double from = seconds();
        r = kuhlabires_sweep(used, KUHLABIRES_LEND(&tables), numbers, listed);
        spent += seconds() - from;
    }
    if (r.refusal)
        return 2;
    printf("records %zu dropped %zu seconds %.9f\n", listed + used.corners / KUHLABIRES_CORNER_WIDTH + used.elements + used.bodies + used.parameters + used.loops,
           (size_t)r.dropped.v + r.dropped.vt + r.dropped.vn + r.dropped.vp, spent);
}
