/*
 * Points on one curve or surface, by one library, so many of them; prints the time and how many there were.
 *
 *     points LIBRARY BASIS SURFACE SEGMENTS MODE COUNT
 *
 * LIBRARY is kuhlabires, sisl or gsl, BASIS bezier or bspline, SURFACE 0 or 1. The curve is cubic, the surface bicubic, with 3 SEGMENTS + 1
 * controls along each direction: so many Bezier segments, or a B-spline with clamped whole knots. MODE alone asks for each point by a call of its
 * own, in no order; run for 1,001 points in one call, grid for 101 times 101, by what the library has for it. MODE steps asks for each point at a
 * 64th of a segment of a Bezier curve, by a call of its own. MODE outside is of kuhlabires alone: each call asks before the range, so that it is
 * refused as soon as the element is held against the rules.
 * `points difference BASIS SURFACE SEGMENTS MODE 0` prints how far the answers of the libraries lie apart at most.
 */
#include <gsl/gsl_bspline.h>
#include <math.h>
#include <sisl.h>
#include <stdint.h>
#include <string.h>

#include "driver.h"
#include "kuhlabires.h"

#define MILLION 1000000
#define MOST_SIDE 64
#define MOST_CONTROLS (MOST_SIDE * MOST_SIDE)
#define SPREAD 1024
#define STEPS 1000
#define SIDE 101

static int surface, segments, bspline, outside, steps;
static int side, controls, parameters, knots, end; /* along one direction; controls of all */
static double knot[MOST_SIDE + 4], control[3 * MOST_CONTROLS];
static int32_t spread[SPREAD];     /* parameters in no order .. */
static double spread_real[SPREAD]; /* .. and the same as numbers */
static double along_run[STEPS + 1], along_grid[SIDE];
static int32_t grid_parameter[SIDE]; /* along_grid in millionths */
static double answer[3 * SIDE * SIDE];
static double grid_normal[3 * SIDE * SIDE];

/* ---- this library ---- */

static int32_t v[4 * MOST_CONTROLS], ranges[4], parameter[2 * (MOST_SIDE + 4)];
static uint32_t corners[3 * MOST_CONTROLS], elements[9], bodies[9];
static kuhlabires_tables tables = {.v = v, .v_length = 4 * MOST_CONTROLS, .corners = corners, .corners_length = 3 * MOST_CONTROLS,
                                   .elements = elements, .elements_length = 9, .bodies = bodies, .bodies_length = 9, .ranges = ranges,
                                   .ranges_length = 4, .parameters = parameter, .parameters_length = 2 * (MOST_SIDE + 4)};
static int32_t run[3 * (STEPS + 1)];

static void make_kuhlabires(void)
{
    char *text = malloc(64 * MOST_CONTROLS), *at = text;
    for (int i = 0; i < controls; i++)
        at += sprintf(at, "v %.6f %.6f %.6f\n", control[3 * i], control[3 * i + 1], control[3 * i + 2]);
    at += sprintf(at, "cstype %s\ndeg 3%s\n%s 0 %d", bspline ? "bspline" : "bezier", surface ? " 3" : "", surface ? "surf" : "curv", end);
    if (surface)
        at += sprintf(at, " 0 %d", end);
    for (int i = 0; i < controls; i++)
        at += sprintf(at, " %d", i + 1);
    for (int direction = 0; direction <= surface; direction++) {
        at += sprintf(at, "\nparm %s", direction ? "v" : "u");
        for (int i = 0; i < parameters; i++)
            at += bspline ? sprintf(at, " %.0f", knot[i]) : sprintf(at, " %d", i);
    }
    at += sprintf(at, "\nend\n");
    kuhlabires_reading reading = kuhlabires_tables_read(&tables, (uint8_t *)text, (size_t)(at - text));
    if (reading.refusal) {
        fprintf(stderr, "refusal %u at %zu\n", reading.refusal, reading.place);
        exit(2);
    }
    free(text);
}

/* Point j of the steps, one segment after the other. */
static uint32_t segment_of(int j)
{
    return (uint32_t)(j / 64 % segments);
}

static uint32_t step_of(int j)
{
    return (uint32_t)(j % 64);
}

static void keep(int j, kuhlabires_point point)
{
    answer[3 * j] = point.x;
    answer[3 * j + 1] = point.y;
    answer[3 * j + 2] = point.z;
}

static void alone_kuhlabires(int n)
{
    for (int j = 0; j < n; j++) {
        if (steps) {
            keep(j, kuhlabires_tables_cubic_at(&tables, 1, segment_of(j), step_of(j)));
            continue;
        }
        int32_t t = outside ? -1 : spread[j];
        keep(j, surface ? kuhlabires_tables_point_on_surface(&tables, 1, t, spread[SPREAD - 1 - j])
                        : kuhlabires_tables_point_on_curve(&tables, 1, t));
    }
}

static void run_kuhlabires(void)
{
    kuhlabires_tables_run_on_curve(&tables, 1, STEPS, run, 3 * (STEPS + 1), 0);
}

static void grid_kuhlabires(void)
{
    for (int j = 0; j < SIDE; j++)
        for (int i = 0; i < SIDE; i++)
            keep(SIDE * j + i, kuhlabires_tables_point_on_surface(&tables, 1, grid_parameter[i], grid_parameter[j]));
}

/* ---- SISL: a Bezier curve is one with threefold knots ---- */

static SISLCurve *sisl_curve;
static SISLSurf *sisl_surface;

static void make_sisl(void)
{
    if (surface)
        sisl_surface = newSurf(side, side, 4, 4, knot, knot, control, 1, 3, 1);
    else
        sisl_curve = newCurve(side, 4, knot, control, 1, 3, 1);
}

static void alone_sisl(int n)
{
    int left = 0, left_v = 0, status;
    for (int j = 0; j < n; j++)
        if (surface) {
            double at[2] = {spread_real[j], spread_real[SPREAD - 1 - j]};
            s1424(sisl_surface, 0, 0, at, &left, &left_v, answer + 3 * j, &status);
        } else
            s1227(sisl_curve, 0, spread_real[j], &left, answer + 3 * j, &status);
}

static void run_sisl(void)
{
    int status;
    s1542(sisl_curve, STEPS + 1, along_run, answer, &status);
}

static void grid_sisl(void)
{
    int status;
    s1506(sisl_surface, 0, SIDE, along_grid, SIDE, along_grid, answer, grid_normal, &status);
}

/* ---- GSL: its four basis functions that are not zero, and the sums over the controls ---- */

static gsl_bspline_workspace *gsl;
static gsl_vector *basis_u, *basis_v;

static void make_gsl(void)
{
    gsl = gsl_bspline_alloc(4, (size_t)side - 2);
    for (int i = 0; i < knots; i++)
        gsl_vector_set(gsl->knots, (size_t)i, knot[i]);
    basis_u = gsl_vector_alloc(4);
    basis_v = gsl_vector_alloc(4);
}

static void weigh(const double *weights, size_t first, double *point)
{
    point[0] = point[1] = point[2] = 0;
    for (size_t k = 0; k < 4; k++)
        for (size_t axis = 0; axis < 3; axis++)
            point[axis] += weights[k] * control[3 * (first + k) + axis];
}

static void curve_gsl(double t, double *point)
{
    size_t first, last;
    gsl_bspline_eval_nonzero(t, basis_u, &first, &last, gsl);
    weigh(basis_u->data, first, point);
}

static void cross_gsl(const double *weights_u, size_t first_u, const double *weights_v, size_t first_v, double *point)
{
    point[0] = point[1] = point[2] = 0;
    for (size_t k = 0; k < 4; k++) {
        double row[3];
        weigh(weights_u, (first_v + k) * (size_t)side + first_u, row);
        for (size_t axis = 0; axis < 3; axis++)
            point[axis] += weights_v[k] * row[axis];
    }
}

static void alone_gsl(int n)
{
    for (int j = 0; j < n; j++)
        if (surface) {
            size_t first_u, first_v, last;
            gsl_bspline_eval_nonzero(spread_real[j], basis_u, &first_u, &last, gsl);
            gsl_bspline_eval_nonzero(spread_real[SPREAD - 1 - j], basis_v, &first_v, &last, gsl);
            cross_gsl(basis_u->data, first_u, basis_v->data, first_v, answer + 3 * j);
        } else
            curve_gsl(spread_real[j], answer + 3 * j);
}

static void run_gsl(void)
{
    for (int j = 0; j <= STEPS; j++)
        curve_gsl(along_run[j], answer + 3 * j);
}

static void grid_gsl(void)
{
    static double weights[4 * SIDE];
    static size_t first[SIDE];
    size_t last;
    for (int j = 0; j < SIDE; j++) {
        gsl_bspline_eval_nonzero(along_grid[j], basis_u, first + j, &last, gsl);
        memcpy(weights + 4 * j, basis_u->data, 4 * sizeof(double));
    }
    for (int j = 0; j < SIDE; j++)
        for (int i = 0; i < SIDE; i++)
            cross_gsl(weights + 4 * i, first[i], weights + 4 * j, first[j], answer + 3 * (SIDE * j + i));
}

/* ---- */

static const struct {
    const char *name;
    void (*make)(void), (*alone)(int), (*run)(void), (*grid)(void);
} library[] = {
    {"kuhlabires", make_kuhlabires, alone_kuhlabires, run_kuhlabires, grid_kuhlabires},
    {"sisl", make_sisl, alone_sisl, run_sisl, grid_sisl},
    {"gsl", make_gsl, alone_gsl, run_gsl, grid_gsl},
};

static void make_shape(void)
{
    uint32_t seed = 1;
    side = 3 * segments + 1;
    controls = surface ? side * side : side;
    knots = side + 4;
    parameters = bspline ? knots : segments + 1;
    end = bspline ? side - 3 : segments;
    for (int i = 0; i < knots; i++) {
        int inner = bspline ? i - 3 : (i - 1) / 3;
        knot[i] = inner < 0 ? 0 : end < inner ? end : inner;
    }
    for (int i = 0; i < 3 * controls; i++) {
        seed = seed * 1664525u + 1013904223u;
        control[i] = (double)((int32_t)(seed >> 4) % (100 * MILLION)) / MILLION;
    }
    for (int j = 0; j < SPREAD; j++) {
        seed = seed * 1664525u + 1013904223u;
        spread[j] = (int32_t)((uint64_t)seed * (uint64_t)end * MILLION >> 32);
        spread_real[j] = (double)spread[j] / MILLION;
    }
    for (int j = 0; j <= STEPS; j++)
        along_run[j] = (double)((int64_t)j * end * MILLION / STEPS) / MILLION;
    for (int j = 0; j < SIDE; j++) {
        grid_parameter[j] = (int32_t)((int64_t)j * end * MILLION / (SIDE - 1));
        along_grid[j] = (double)grid_parameter[j] / MILLION;
    }
}

/* One batch of points; answers how many. */
static int batch(int which, const char *mode)
{
    outside = !strcmp(mode, "outside");
    if (outside || steps || !strcmp(mode, "alone")) {
        library[which].alone(SPREAD);
        return SPREAD;
    }
    if (!strcmp(mode, "run")) {
        library[which].run();
        return STEPS + 1;
    }
    library[which].grid();
    return SIDE * SIDE;
}

static double difference(const char *mode)
{
    static double ours[3 * SIDE * SIDE];
    double most = 0;
    for (int which = 0; which < 3; which++) {
        library[which].make();
        int count = 3 * batch(which, mode);
        for (int i = 0; i < count; i++) {
            if (which == 0)
                ours[i] = (!strcmp(mode, "run") ? run[i] : answer[i]) / MILLION;
            else
                most = fmax(most, fabs(ours[i] - answer[i]));
        }
    }
    return most;
}

int main(int count, char **arguments)
{
    if (count != 7)
        return 2;
    bspline = !strcmp(arguments[2], "bspline");
    surface = atoi(arguments[3]);
    segments = atoi(arguments[4]);
    make_shape();
    steps = !strcmp(arguments[5], "steps");
    for (int j = 0; steps && j < SPREAD; j++)
        spread_real[j] = segment_of(j) + step_of(j) / 64.0;
    if (!strcmp(arguments[1], "difference")) {
        printf("difference %.9f\n", difference(arguments[5]));
        return 0;
    }
    int which = 0;
    while (strcmp(library[which].name, arguments[1]))
        if (++which == 3)
            return 2;
    library[which].make();
    long points = 0, wanted = atol(arguments[6]);
    double from = seconds();
    while (points < wanted)
        points += batch(which, arguments[5]);
    printf("seconds %.9f points %ld\n", seconds() - from, points);
}
