/*
 * The polyline of a curve of a file, and the run that is as straight.
 *
 *     polyline FILE ELEMENT TOLERANCE counts          points, intervals looked at, and the fewest steps of a run whose every chord is as straight
 *     polyline FILE ELEMENT TOLERANCE cut TIMES       the polyline so many times: its time
 *     polyline FILE ELEMENT STEPS run TIMES           the run so many times: its time
 *
 * TOLERANCE is in millionths. A chord is straight where twice the point at the middle of its interval, rounded down, is within twice the tolerance
 * of the sum of its two ends on each axis. The intervals are counted by a splitter of its own, over points asked for alone.
 */
#include <stdint.h>
#include <string.h>

#include "tables.h"

static uint32_t element;
static int32_t tolerance, points[3 * (KUHLABIRES_MOST_STEPS + 1)];

static kuhlabires_point at(int64_t t)
{
    return kuhlabires_tables_point_on_curve(&tables, element, (int32_t)t);
}

static int is_near(int32_t p, int32_t m, int32_t q)
{
    int64_t off = 2 * (int64_t)m - ((int64_t)p + q);
    return (off < 0 ? -off : off) <= 2 * (int64_t)tolerance;
}

static int64_t middle_of(int64_t a, int64_t b)
{
    return (a + b - ((a + b) & 1)) / 2;
}

static int is_straight(int64_t a, int64_t b)
{
    kuhlabires_point p = at(a), m = at(middle_of(a, b)), q = at(b);
    return is_near(p.x, m.x, q.x) && is_near(p.y, m.y, q.y) && is_near(p.z, m.z, q.z);
}

/* How many intervals are looked at from a to b, this one included. */
static long intervals(int depth, int64_t a, int64_t b)
{
    if (depth == 0 || b - a <= 1 || is_straight(a, b))
        return 1;
    return 1 + intervals(depth - 1, a, middle_of(a, b)) + intervals(depth - 1, middle_of(a, b), b);
}

static int run_is_straight(int64_t start, int64_t end, long steps)
{
    for (long j = 0; j < steps; j++)
        if (!is_straight(start + j * (end - start) / steps, start + (j + 1) * (end - start) / steps))
            return 0;
    return 1;
}

static void counts(void)
{
    const uint32_t body = tables.elements[KUHLABIRES_ELEMENT_WIDTH * (element - 1) + KUHLABIRES_ELEMENT_BODY];
    const int64_t start = tables.ranges[KUHLABIRES_RANGE_WIDTH * (body - 1)], end = tables.ranges[KUHLABIRES_RANGE_WIDTH * (body - 1) + 1];
    kuhlabires_polyline_answer cut = kuhlabires_tables_polyline(&tables, element, tolerance, points, 3 * KUHLABIRES_MOST_POLYLINE_POINTS, 0);
    long steps = 1;
    while (steps <= KUHLABIRES_MOST_STEPS && !run_is_straight(start, end, steps))
        steps++;
    printf("points %u intervals %ld steps %ld\n", cut.points, intervals(12, start, end), steps);
}

int main(int count, char **arguments)
{
    if (count < 5)
        return 2;
    read_file(arguments[1]);
    element = (uint32_t)atoi(arguments[2]);
    tolerance = atoi(arguments[3]);
    if (!strcmp(arguments[4], "counts")) {
        counts();
        return 0;
    }
    const int cut = !strcmp(arguments[4], "cut");
    const long times = atol(arguments[5]);
    double from = seconds();
    for (long i = 0; i < times; i++) {
        if (cut)
            kuhlabires_tables_polyline(&tables, element, tolerance, points, 3 * KUHLABIRES_MOST_POLYLINE_POINTS, 0);
        else
            kuhlabires_tables_run_on_curve(&tables, element, (uint32_t)tolerance, points, sizeof points / sizeof *points, 0);
    }
    printf("seconds %.9f\n", seconds() - from);
}
