/*
 * The fuzz target: on any text, what the library answers has to agree with itself, whatever the tables and buffers that it is lent; abort() where it
 * does not. With -DREPLAY it is a program that runs the target on each file that it is given.
 */
#include "lent.h"
#include <xmmintrin.h>

#define HOLD(fact)                                                                                                                                   \
    do {                                                                                                                                             \
        if (!(fact)) {                                                                                                                               \
            fprintf(stderr, "%s:%d: not so: %s\n", __FILE__, __LINE__, #fact);                                                                       \
            abort();                                                                                                                                 \
        }                                                                                                                                            \
    } while (0)

static const kuhlabires_used NONE;

static int same_used(kuhlabires_used a, kuhlabires_used b) {
    return memcmp(&a, &b, sizeof a) == 0;
}

static uint32_t entry(const struct tables *t, int table, size_t at) {
    uint32_t number;
    memcpy(&number, t->of[table].data + 4 * at, 4);
    return number;
}

static int zeros(const struct tables *t) {
    for (int i = 0; i < TABLES; i++)
        if (!all_from(t->of[i], 0, 0)) return 0;
    return 1;
}

/* Equal as far as the shorter goes, and 0 after it. */
static int same_table(struct block a, struct block b) {
    size_t both = a.size < b.size ? a.size : b.size;
    return memcmp(a.data, b.data, both) == 0 && all_from(a, both, 0) && all_from(b, both, 0);
}

static int same_tables(const struct tables *a, const struct tables *b) {
    for (int i = 0; i < TABLES; i++)
        if (!same_table(a->of[i], b->of[i])) return 0;
    return 1;
}

/* ---- Reading and tidying, with what always holds ---- */

static kuhlabires_reading read_into(struct block text, const struct tables *t) {
    kuhlabires_reading r = kuhlabires_read(text.data, text.size, LEND(t));
    HOLD(intact(text) && tables_intact(t));
    HOLD(r.place <= text.size);
    if (r.refusal == 0) {
        size_t lengths[TABLES];
        entries_of(r.used, lengths);
        HOLD(r.place == 0);
        for (int i = 0; i < TABLES; i++) HOLD(4 * lengths[i] <= t->of[i].size && all_from(t->of[i], 4 * lengths[i], 0));
    } else {
        HOLD(r.refusal >= 2 && r.refusal <= 14);
        HOLD(same_used(r.used, NONE) && zeros(t));
    }
    return r;
}

static kuhlabires_tidying tidy_into(struct block text, uint32_t weights, const struct tables *t, struct block out) {
    kuhlabires_tidying r = kuhlabires_tidy(text.data, text.size, weights, LEND(t), out.data, out.size);
    HOLD(intact(text) && tables_intact(t) && intact(out));
    HOLD(r.length <= out.size && all_from(out, r.length, FILLER));
    if (r.refusal != 0) HOLD(r.length == 0);
    return r;
}

/* What is told of a place is what reading the text up to its line comes to: the counts of what is read there, or that a body is open. */
static void explained(struct block text, size_t place) {
    kuhlabires_advice a = kuhlabires_explain(text.data, text.size, place);
    HOLD(intact(text) && a.key <= text.size && a.words <= text.size);
    struct block before = lend_copy(text.data, a.key);
    size_t lengths[TABLES];
    rooms_of(before, lengths);
    struct tables t = lend_tables(lengths);
    kuhlabires_reading r = read_into(before, &t);
    if (a.tally.kind == 0) {
        uint32_t curves = 0;
        for (size_t i = 0; i < r.used.elements; i++) curves += entry(&t, ELEMENTS, KUHLABIRES_ELEMENT_WIDTH * i) == KUHLABIRES_CURV2;
        HOLD(r.refusal == 0 && a.tally.opened == 0 && a.controls == 0 && a.tally.curves == curves);
        HOLD(r.used.v == a.tally.v && r.used.vt == a.tally.vt && r.used.vn == a.tally.vn && r.used.vp == a.tally.vp);
    } else {
        HOLD(r.refusal == 10 && r.place == before.size && a.tally.opened < before.size);
    }
    take_tables_back(&t);
    take_back(before);
}

/* Refused is refused for any room, with the same number and place unless a table lacks room before. */
static void refused(struct block text, kuhlabires_reading first) {
    const size_t none[TABLES] = {0};
    explained(text, first.place);
    kuhlabires_explain(text.data, text.size, SIZE_MAX);
    struct tables t = lend_tables(none);
    kuhlabires_reading r = read_into(text, &t);
    HOLD(r.refusal == 14 ? r.place <= first.place : r.refusal == first.refusal && r.place == first.place);
    struct block out = lend(text.size);
    for (uint32_t weights = 0; weights < 3; weights++) {
        kuhlabires_tidying tidied = tidy_into(text, weights, &t, out);
        HOLD(tidied.refusal == r.refusal && tidied.place == r.place && same_used(tidied.used, NONE));
    }
    take_back(out);
    take_tables_back(&t);
}

/* Read in just the room it needs, and 14 with less of any table. */
static void just_room(struct block text, const struct tables *whole, kuhlabires_used used) {
    size_t lengths[TABLES];
    entries_of(used, lengths);
    struct tables t = lend_tables(lengths);
    kuhlabires_reading r = read_into(text, &t);
    HOLD(r.refusal == 0 && same_used(r.used, used) && same_tables(whole, &t));
    take_tables_back(&t);
    for (int i = 0; i < TABLES; i++) {
        const size_t needed = lengths[i], less[] = {needed - 1, needed / 2};
        for (int j = 0; needed > 0 && j < 2; j++) {
            lengths[i] = less[j];
            t = lend_tables(lengths);
            HOLD(read_into(text, &t).refusal == 14);
            take_tables_back(&t);
        }
        lengths[i] = needed;
    }
}

/* ---- Names ---- */

static size_t next_name(struct block text, size_t at, size_t end, size_t *length) {
    while (at < end && strchr("\t \\\r\n", text.data[at]) != NULL && text.data[at] != 0) at++;
    size_t start = at;
    while (at < end && (text.data[at] == 0 || strchr("\t \\\r\n", text.data[at]) == NULL)) at++;
    *length = at - start;
    return start;
}

static int same_names(struct block a, kuhlabires_part in_a, struct block b, kuhlabires_part in_b) {
    size_t at = in_a.place, bt = in_b.place, la, lb;
    HOLD(at + in_a.length <= a.size && bt + in_b.length <= b.size);
    do {
        at = next_name(a, at, in_a.place + in_a.length, &la);
        bt = next_name(b, bt, in_b.place + in_b.length, &lb);
        if (la != lb || memcmp(a.data + at, b.data + bt, la) != 0) return 0;
        at += la;
        bt += lb;
    } while (la > 0);
    return 1;
}

static int same_element(struct block a, const struct tables *ta, struct block b, const struct tables *tb, kuhlabires_used used, uint32_t number) {
    size_t at = KUHLABIRES_ELEMENT_WIDTH * (size_t)(number - 1);
    for (size_t field = 0; field < KUHLABIRES_ELEMENT_GROUP_PLACE; field++)
        if (entry(ta, ELEMENTS, at + field) != entry(tb, ELEMENTS, at + field)) return 0;
    return same_names(a, kuhlabires_group_of(a.data, a.size, used, TABLE(ta, ELEMENTS, const uint32_t), number), b,
                      kuhlabires_group_of(b.data, b.size, used, TABLE(tb, ELEMENTS, const uint32_t), number)) &&
           same_names(a, kuhlabires_material_of(a.data, a.size, used, TABLE(ta, ELEMENTS, const uint32_t), number), b,
                      kuhlabires_material_of(b.data, b.size, used, TABLE(tb, ELEMENTS, const uint32_t), number));
}

/* The tidy text by a choice of weights, nothing where it is too long: it reads to the same tables, names aside, and is its own tidy text; it is written
   exactly where it finds room. */
static struct block tidied(struct block text, uint32_t weights, const struct tables *whole, kuhlabires_used used) {
    size_t lengths[TABLES];
    entries_of(used, lengths);
    struct tables t = lend_tables(lengths);
    struct block wide = lend(16 * text.size + 4096);
    kuhlabires_tidying r = tidy_into(text, weights, &t, wide);
    HOLD(r.place == 0 && same_used(r.used, used) && same_tables(whole, &t));
    if (r.refusal == 16 && wide.size > KUHLABIRES_MOST_BYTES) {
        take_back(wide);
        take_tables_back(&t);
        return lend(0);
    }
    HOLD(r.refusal == 0);

    struct block tidy = lend(r.length);
    HOLD(tidy_into(text, weights, &t, tidy).refusal == 0 && memcmp(tidy.data, wide.data, r.length) == 0);
    for (size_t room = r.length; room > 0; room -= room / 4) {
        struct block narrow = lend(--room);
        kuhlabires_tidying full = tidy_into(text, weights, &t, narrow);
        HOLD(full.refusal == 16 && full.place == 0 && full.needed == r.length && same_used(full.used, used) && same_tables(whole, &t));
        take_back(narrow);
    }

    struct tables again = lend_tables(lengths);
    struct block twice = lend(r.length);
    r = tidy_into(tidy, weights, &again, twice);
    HOLD(r.refusal == 0 && same_used(r.used, used) && r.length == twice.size);
    HOLD(memcmp(tidy.data, twice.data, twice.size) == 0);
    for (int i = 0; i < TABLES; i++)
        if (i != ELEMENTS) HOLD(same_table(whole->of[i], again.of[i]));
    for (uint32_t number = 1; number <= used.elements; number++) HOLD(same_element(text, whole, tidy, &again, used, number));

    take_back(twice);
    take_back(wide);
    take_tables_back(&again);
    take_tables_back(&t);
    return tidy;
}

static size_t unit_weights(const struct tables *t, kuhlabires_used used) {
    size_t many = 0;
    for (size_t at = 3; at < KUHLABIRES_V_WIDTH * (size_t)used.v; at += KUHLABIRES_V_WIDTH) many += entry(t, V, at) == 1000000;
    return many;
}

/* Of the two forms each, tidied by the other choice, is the other; they differ by the weights left off; a number that is no choice is 0. */
static void both_forms(struct block text, const struct tables *whole, kuhlabires_used used) {
    struct block forms[] = {tidied(text, KUHLABIRES_WEIGHTS_WHEN_NEEDED, whole, used), tidied(text, KUHLABIRES_WEIGHTS_ALWAYS, whole, used)};
    size_t lengths[TABLES];
    entries_of(used, lengths);
    for (uint32_t weights = 0; weights < 3; weights++) {
        struct block from = forms[weights == 0], wanted = forms[weights == 1];
        if (wanted.size == 0 || from.size == 0) continue;
        struct tables t = lend_tables(lengths);
        struct block out = lend(wanted.size);
        kuhlabires_tidying r = tidy_into(from, weights, &t, out);
        HOLD(r.refusal == 0 && r.length == wanted.size && memcmp(out.data, wanted.data, wanted.size) == 0);
        take_back(out);
        take_tables_back(&t);
    }
    HOLD(forms[1].size == 0 || forms[1].size == forms[0].size + 9 * unit_weights(whole, used));
    take_back(forms[0]);
    take_back(forms[1]);
}


/* ---- Sampling ---- */

static int refused_point(kuhlabires_point p, uint32_t refusal) {
    return p.refusal == refusal && p.axes == 0 && p.x == 0 && p.y == 0 && p.z == 0;
}

/* Each coordinate lies between the least and the greatest among the element's controls. */
static void within(const struct tables *t, kuhlabires_used used, uint32_t number, uint32_t corners, kuhlabires_point p) {
    const int32_t point[3] = {p.x, p.y, p.z};
    for (uint32_t axis = 0; axis < p.axes; axis++) {
        int32_t least = INT32_MAX, greatest = INT32_MIN;
        for (uint32_t k = 0; k < corners; k++) {
            kuhlabires_corner c = kuhlabires_corner_of(used, TABLE(t, ELEMENTS, const uint32_t), TABLE(t, CORNERS, const uint32_t), number, k);
            HOLD(c.v >= 1);
            int32_t x = (int32_t)(p.axes == 2 ? entry(t, VP, 4 * (size_t)(c.v - 1) + 1 + axis) : entry(t, V, 4 * (size_t)(c.v - 1) + axis));
            if (x < least) least = x;
            if (x > greatest) greatest = x;
        }
        HOLD(least <= point[axis] && point[axis] <= greatest);
    }
}

static kuhlabires_point curve_at(const struct tables *t, kuhlabires_used used, uint32_t number, int64_t at) {
    return kuhlabires_point_on_curve(used, LEND(t), number, (int32_t)at);
}

/* Whether the point is control k of the element. */
static int is_control(const struct tables *t, kuhlabires_used used, uint32_t number, uint32_t k, kuhlabires_point p) {
    kuhlabires_corner c = kuhlabires_corner_of(used, TABLE(t, ELEMENTS, const uint32_t), TABLE(t, CORNERS, const uint32_t), number, k);
    HOLD(c.v >= 1);
    size_t at = 4 * (size_t)(c.v - 1);
    if (p.axes == 2) return (int32_t)entry(t, VP, at + 1) == p.x && (int32_t)entry(t, VP, at + 2) == p.y;
    return (int32_t)entry(t, V, at) == p.x && (int32_t)entry(t, V, at + 1) == p.y && (int32_t)entry(t, V, at + 2) == p.z;
}

/* At the start or end of a Bezier segment a point is that control, on a surface where both parameters are. */
static void segment_ends(const struct tables *t, kuhlabires_used used, uint32_t number, uint32_t body, const int64_t limits[4], int is_surface) {
    size_t at = KUHLABIRES_BODY_WIDTH * (size_t)(body - 1);
    if (entry(t, BODIES, at + KUHLABIRES_BODY_TYPE) != KUHLABIRES_BEZIER || entry(t, BODIES, at + KUHLABIRES_BODY_RATIONAL) != 0) return;
    uint32_t m = entry(t, BODIES, at + KUHLABIRES_BODY_U_DEGREE), n = entry(t, BODIES, at + KUHLABIRES_BODY_V_DEGREE);
    uint32_t first = entry(t, BODIES, at + KUHLABIRES_BODY_FIRST_PARAMETER), p = entry(t, BODIES, at + KUHLABIRES_BODY_U_PARAMETERS);
    uint32_t q = is_surface ? entry(t, BODIES, at + KUHLABIRES_BODY_V_PARAMETERS) : 1;
    for (uint32_t h = 0; h < q && h < 9; h++) {
        int64_t v = is_surface ? (int32_t)entry(t, PARAMETERS, first + p + h) : 0;
        if (is_surface && (v < limits[2] || limits[3] < v)) continue;
        for (uint32_t g = 0; g < p && g < 9; g++) {
            int64_t u = (int32_t)entry(t, PARAMETERS, first + g);
            if (u < limits[0] || limits[1] < u) continue;
            kuhlabires_point made = is_surface ? kuhlabires_point_on_surface(used, LEND(t), number, (int32_t)u, (int32_t)v) : curve_at(t, used, number, u);
            HOLD(made.refusal == 0 && is_control(t, used, number, h * n * (m * (p - 1) + 1) + g * m, made));
        }
    }
}

static void run(const struct tables *t, kuhlabires_used used, uint32_t number, uint32_t axes, int64_t start, int64_t end) {
    const uint32_t steps = 3;
    const size_t place = 1, needed = (size_t)axes * (steps + 1);
    struct block points = lend(4 * (place + needed));
    kuhlabires_run r = kuhlabires_run_on_curve(used, LEND(t), number, steps, (int32_t *)(void *)points.data, place + needed - 1, place);
    HOLD(r.refusal == 16 && r.numbers == 0 && all_from(points, 0, FILLER));
    r = kuhlabires_run_on_curve(used, LEND(t), number, steps, (int32_t *)(void *)points.data, place + needed, place);
    HOLD(r.refusal == 0 && r.numbers == needed && intact(points));
    for (uint32_t j = 0; j <= steps; j++) {
        kuhlabires_point p = curve_at(t, used, number, start + j * (end - start) / steps);
        const int32_t point[3] = {p.x, p.y, p.z};
        HOLD(p.refusal == 0 && p.axes == axes);
        HOLD(memcmp(points.data + 4 * (place + (size_t)axes * j), point, 4 * axes) == 0);
    }
    take_back(points);
}

static int near_chord(int64_t tolerance, int32_t p, int32_t m, int32_t q) {
    int64_t off = 2 * (int64_t)m - ((int64_t)p + q);
    return (off < 0 ? -off : off) <= 2 * tolerance;
}

/* The ends of the chords from a to b, split as the rule says; how many numbers they have. */
static size_t cut(const struct tables *t, kuhlabires_used used, uint32_t number, int32_t tolerance, int depth, int64_t a, int64_t b, int32_t *ends) {
    int64_t middle = (a + b - ((a + b) & 1)) / 2;
    kuhlabires_point p = curve_at(t, used, number, a), m = curve_at(t, used, number, middle), q = curve_at(t, used, number, b);
    if (depth == 0 || b - a <= 1 || (near_chord(tolerance, p.x, m.x, q.x) && near_chord(tolerance, p.y, m.y, q.y) && near_chord(tolerance, p.z, m.z, q.z))) {
        const int32_t point[3] = {q.x, q.y, q.z};
        memcpy(ends, point, 4 * q.axes);
        return q.axes;
    }
    size_t first = cut(t, used, number, tolerance, depth - 1, a, middle, ends);
    return first + cut(t, used, number, tolerance, depth - 1, middle, b, ends + first);
}

/* A polyline is what the rule gives from points sampled alone, in just its room; in less it is 16 and nothing is written. */
static void polyline(const struct tables *t, kuhlabires_used used, uint32_t number, uint32_t axes, int64_t start, int64_t end) {
    static const int32_t tolerances[] = {INT32_MAX, 100000000, 1000000};
    static int32_t wanted[3 * KUHLABIRES_MOST_POLYLINE_POINTS];
    const size_t place = 1;
    for (size_t i = 0; i < sizeof tolerances / sizeof *tolerances; i++) {
        kuhlabires_point first = curve_at(t, used, number, start);
        const int32_t point[3] = {first.x, first.y, first.z};
        memcpy(wanted, point, 4 * axes);
        size_t needed = axes + cut(t, used, number, tolerances[i], 12, start, end, wanted + axes);
        struct block points = lend(4 * (place + needed));
        int32_t *table = (int32_t *)(void *)points.data;
        kuhlabires_polyline_answer r = kuhlabires_polyline(used, LEND(t), number, tolerances[i], table, place + needed - 1, place);
        HOLD(r.refusal == 16 && r.points == 0 && all_from(points, 0, FILLER));
        r = kuhlabires_polyline(used, LEND(t), number, -1, table, place + needed, place);
        HOLD(r.refusal == 19 && r.points == 0 && all_from(points, 0, FILLER));
        r = kuhlabires_polyline(used, LEND(t), number, tolerances[i], table, place + needed, place);
        HOLD(intact(points) && r.refusal == 0 && (size_t)r.points * axes == needed);
        HOLD(memcmp(table + place, wanted, 4 * needed) == 0);
        take_back(points);
    }
}

/* Every step: of a cubic Bezier 19 at most, its point between its controls, and the last of a segment the first of the next; 18 of any other curve. */
static void cubic(const struct tables *t, kuhlabires_used used, uint32_t number, uint32_t corners, uint32_t body) {
    size_t at = KUHLABIRES_BODY_WIDTH * (size_t)(body - 1);
    int is_cubic = entry(t, BODIES, at + KUHLABIRES_BODY_TYPE) == KUHLABIRES_BEZIER && entry(t, BODIES, at + KUHLABIRES_BODY_U_DEGREE) == 3;
    uint32_t segments = entry(t, BODIES, at + KUHLABIRES_BODY_U_PARAMETERS) - 1;
    kuhlabires_point last = {.refusal = 19};
    for (uint32_t g = 0; g < segments && g < 4; g++) {
        for (uint32_t j = 0; j <= KUHLABIRES_CUBIC_STEPS; j++) {
            kuhlabires_point p = kuhlabires_cubic_at(used, LEND(t), number, g, j);
            HOLD(is_cubic ? p.refusal == 0 || refused_point(p, 19) : refused_point(p, 18));
            if (p.refusal == 0) within(t, used, number, corners, p);
            if (is_cubic && g > 0 && j == 0) HOLD(memcmp(&p, &last, sizeof p) == 0);
            last = p;
        }
    }
    uint32_t none = is_cubic ? 19 : 18;
    HOLD(refused_point(kuhlabires_cubic_at(used, LEND(t), number, segments, 0), none));
    HOLD(refused_point(kuhlabires_cubic_at(used, LEND(t), number, 0, KUHLABIRES_CUBIC_STEPS + 1), none));
}

/* The same points, however the caller has doubles rounded. */
static void rounded(const struct tables *t, kuhlabires_used used, uint32_t number, int64_t u, int64_t v, kuhlabires_point curve, kuhlabires_point surface) {
    static const unsigned other[] = {_MM_ROUND_DOWN, _MM_ROUND_UP, _MM_ROUND_TOWARD_ZERO};
    for (size_t i = 0; i < sizeof other / sizeof *other; i++) {
        _MM_SET_ROUNDING_MODE(other[i]);
        kuhlabires_point on_curve = curve_at(t, used, number, u);
        kuhlabires_point on_surface = kuhlabires_point_on_surface(used, LEND(t), number, (int32_t)u, (int32_t)v);
        _MM_SET_ROUNDING_MODE(_MM_ROUND_NEAREST);
        HOLD(memcmp(&on_curve, &curve, sizeof curve) == 0 && memcmp(&on_surface, &surface, sizeof surface) == 0);
    }
}

/* Elements as read: 15 never, 17 for another kind, 19 outside; points between their controls, and a run the same points. */
static void sampled(const struct tables *t, kuhlabires_used used, uint32_t number) {
    size_t at = KUHLABIRES_ELEMENT_WIDTH * (size_t)(number - 1);
    uint32_t kind = entry(t, ELEMENTS, at), corners = entry(t, ELEMENTS, at + KUHLABIRES_ELEMENT_CORNERS);
    uint32_t body = entry(t, ELEMENTS, at + KUHLABIRES_ELEMENT_BODY);
    int64_t limits[4] = {0};
    for (size_t i = 0; body > 0 && i < 4; i++) limits[i] = (int32_t)entry(t, RANGES, 4 * (size_t)(body - 1) + i);
    for (int j = 0; j < 4; j++) {
        int64_t u = limits[0] + j * (limits[1] - limits[0]) / 3, v = limits[2] + j * (limits[3] - limits[2]) / 3;
        kuhlabires_point curve = curve_at(t, used, number, u);
        kuhlabires_point surface = kuhlabires_point_on_surface(used, LEND(t), number, (int32_t)u, (int32_t)v);
        rounded(t, used, number, u, v, curve, surface);
        int is_curve = kind == KUHLABIRES_CURV || kind == KUHLABIRES_CURV2, is_surface = kind == KUHLABIRES_SURF;
        HOLD(is_curve ? curve.refusal == 0 || refused_point(curve, 18) : refused_point(curve, 17));
        HOLD(is_surface ? surface.refusal == 0 || refused_point(surface, 18) : refused_point(surface, 17));
        if (is_curve && curve.refusal == 0) {
            HOLD(curve.axes == (kind == KUHLABIRES_CURV2 ? 2u : 3u));
            within(t, used, number, corners, curve);
            HOLD(refused_point(curve_at(t, used, number, limits[0] - 1), 19) && refused_point(curve_at(t, used, number, limits[1] + 1), 19));
            if (j == 0) run(t, used, number, curve.axes, limits[0], limits[1]);
            if (j == 0) polyline(t, used, number, curve.axes, limits[0], limits[1]);
            if (j == 0) cubic(t, used, number, corners, body);
            if (j == 0) segment_ends(t, used, number, body, limits, 0);
        }
        if (is_surface && surface.refusal == 0) {
            within(t, used, number, corners, surface);
            if (j == 0) segment_ends(t, used, number, body, limits, 1);
        }
    }
    for (uint32_t k = 0; k <= corners; k++) {
        kuhlabires_corner c = kuhlabires_corner_of(used, TABLE(t, ELEMENTS, const uint32_t), TABLE(t, CORNERS, const uint32_t), number, k);
        size_t first = entry(t, ELEMENTS, at + KUHLABIRES_ELEMENT_FIRST_CORNER) + 3 * (size_t)k;
        if (k < corners) HOLD(c.v == entry(t, CORNERS, first) && c.vt == entry(t, CORNERS, first + 1) && c.vn == entry(t, CORNERS, first + 2));
        else HOLD(c.v == 0 && c.vt == 0 && c.vn == 0);
    }
}

/* ---- The sweep ---- */

/* Where the records of each kind begin in the list of new numbers. */
static size_t listed(kuhlabires_used used, int kind) {
    const uint32_t counts[4] = {used.v, used.vt, used.vn, used.vp};
    size_t from = 0;
    for (int i = 0; i < kind; i++) from += counts[i];
    return from;
}

static const size_t WIDTH[4] = {KUHLABIRES_V_WIDTH, KUHLABIRES_VT_WIDTH, KUHLABIRES_VN_WIDTH, KUHLABIRES_VP_WIDTH};

/* The kind of vertex that place j of a corner of an element of that kind names. */
static int names(uint32_t kind, int j) {
    return j == 0 && kind == KUHLABIRES_CURV2 ? VP : j;
}

/* Every corner names a record with the same numbers as before, and the list says which. */
static void same_shown(const struct tables *before, kuhlabires_used used, const struct tables *after, const uint32_t *numbers) {
    for (size_t i = 0; i < used.elements; i++) {
        size_t at = KUHLABIRES_ELEMENT_WIDTH * i, first = entry(before, ELEMENTS, at + KUHLABIRES_ELEMENT_FIRST_CORNER);
        uint32_t kind = entry(before, ELEMENTS, at), corners = entry(before, ELEMENTS, at + KUHLABIRES_ELEMENT_CORNERS);
        for (size_t k = 0; k < KUHLABIRES_CORNER_WIDTH * (size_t)corners; k++) {
            uint32_t was = entry(before, CORNERS, first + k), is = entry(after, CORNERS, first + k);
            int table = names(kind, (int)(k % KUHLABIRES_CORNER_WIDTH));
            if (was == 0) {
                HOLD(is == 0);
                continue;
            }
            HOLD(is >= 1 && is == numbers[listed(used, table) + was - 1]);
            HOLD(memcmp(before->of[table].data + 4 * WIDTH[table] * (was - 1), after->of[table].data + 4 * WIDTH[table] * (is - 1), 4 * WIDTH[table]) == 0);
        }
    }
}

/* The new numbers of a kind are 1, 2, .. in order where a corner names the record, else 0; what is dropped is what no corner names. */
static void renumbered(const struct tables *before, kuhlabires_used used, int kind, uint32_t count, const uint32_t *numbers, uint32_t kept, uint32_t dropped) {
    uint8_t *named = calloc((size_t)count + 1, 1);
    HOLD(named != NULL);
    for (size_t i = 0; i < used.elements; i++) {
        size_t at = KUHLABIRES_ELEMENT_WIDTH * i, first = entry(before, ELEMENTS, at + KUHLABIRES_ELEMENT_FIRST_CORNER);
        for (size_t k = 0; k < KUHLABIRES_CORNER_WIDTH * (size_t)entry(before, ELEMENTS, at + KUHLABIRES_ELEMENT_CORNERS); k++)
            if (names(entry(before, ELEMENTS, at), (int)(k % KUHLABIRES_CORNER_WIDTH)) == kind) named[entry(before, CORNERS, first + k)] = 1;
    }
    uint32_t next = 0;
    for (size_t k = 1; k <= count; k++) HOLD(numbers[listed(used, kind) + k - 1] == (named[k] ? ++next : 0));
    HOLD(next == kept && count - next == dropped);
    free(named);
}

/* Swept in just the room of its list, and 16 with less; the same points, nothing left over, and a second sweep changes no table. */
static void swept(const struct tables *whole, kuhlabires_used used) {
    size_t lengths[TABLES], needed = listed(used, 4);
    entries_of(used, lengths);
    struct tables t;
    for (int i = 0; i < TABLES; i++) t.of[i] = lend_copy(whole->of[i].data, whole->of[i].size);
    struct block list = lend(4 * (needed + 2));
    uint32_t *numbers = (uint32_t *)(void *)list.data;
    if (needed > 0) {
        kuhlabires_swept full = kuhlabires_sweep(used, LEND(&t), numbers, needed - 1);
        HOLD(full.refusal == 16 && same_used(full.used, NONE) && same_tables(whole, &t) && all_from(list, 0, FILLER));
    }
    kuhlabires_swept r = kuhlabires_sweep(used, LEND(&t), numbers, needed + 2);
    HOLD(r.refusal == 0 && tables_intact(&t) && intact(list) && all_from(list, 4 * needed, FILLER));
    const uint32_t counts[4] = {used.v, used.vt, used.vn, used.vp}, kept[4] = {r.used.v, r.used.vt, r.used.vn, r.used.vp};
    const uint32_t dropped[4] = {r.dropped.v, r.dropped.vt, r.dropped.vn, r.dropped.vp};
    for (int kind = 0; kind < 4; kind++) renumbered(whole, used, kind, counts[kind], numbers, kept[kind], dropped[kind]);
    same_shown(whole, used, &t, numbers);
    entries_of(r.used, lengths);
    for (int i = 0; i < TABLES; i++) {
        HOLD(all_from(t.of[i], 4 * lengths[i], 0));
        if (i > CORNERS) HOLD(memcmp(t.of[i].data, whole->of[i].data, t.of[i].size) == 0);
    }
    for (uint32_t number = 1; number <= used.elements; number++) {
        uint32_t body = entry(&t, ELEMENTS, KUHLABIRES_ELEMENT_WIDTH * (size_t)(number - 1) + KUHLABIRES_ELEMENT_BODY);
        if (body == 0) continue;
        int32_t u = (int32_t)entry(&t, RANGES, 4 * (size_t)(body - 1)), v = (int32_t)entry(&t, RANGES, 4 * (size_t)(body - 1) + 2);
        kuhlabires_point a = curve_at(whole, used, number, u), b = curve_at(&t, r.used, number, u);
        HOLD(memcmp(&a, &b, sizeof a) == 0);
        a = kuhlabires_point_on_surface(used, LEND(whole), number, u, v);
        b = kuhlabires_point_on_surface(r.used, LEND(&t), number, u, v);
        HOLD(memcmp(&a, &b, sizeof a) == 0);
    }
    struct tables again;
    for (int i = 0; i < TABLES; i++) again.of[i] = lend_copy(t.of[i].data, t.of[i].size);
    kuhlabires_swept second = kuhlabires_sweep(r.used, LEND(&again), numbers, needed + 2);
    const kuhlabires_dropped none = {0};
    HOLD(second.refusal == 0 && same_used(second.used, r.used) && memcmp(&second.dropped, &none, sizeof none) == 0 && same_tables(&t, &again));
    take_tables_back(&again);
    take_back(list);
    take_tables_back(&t);
}

/* Tables changed at random are answered too, and nothing lent is written but a run's or a polyline's own part. */
static void broken(struct block text, const struct tables *whole, kuhlabires_used used) {
    static const uint32_t odd[] = {0, 1, 2, 3, 4, 5, 9, 20, 21, 65536, 1000000, 2000000001, 0x7fffffff, 0x80000000, 0xffffffff, 0xfffffffe};
    uint64_t chance = 88172645463325252u;
    for (size_t at = 0; at < text.size; at++) chance = (chance ^ text.data[at]) * 1099511628211u;
    size_t lengths[TABLES];
    entries_of(used, lengths);
    for (int turn = 0; turn < 8; turn++) {
        struct tables t;
        for (int i = 0; i < TABLES; i++) t.of[i] = lend_copy(whole->of[i].data, 4 * lengths[i]);
        for (int change = 0; change < 2; change++) {
            chance ^= chance << 13, chance ^= chance >> 7, chance ^= chance << 17;
            struct block table = t.of[chance % TABLES];
            if (table.size == 0) continue;
            uint8_t *number = table.data + 4 * ((chance >> 8) % (table.size / 4));
            uint32_t before;
            memcpy(&before, number, 4);
            uint32_t after = chance >> 40 & 1 ? odd[(chance >> 41) % (sizeof odd / sizeof *odd)] : before + (uint32_t)(chance >> 41) % 7 - 3;
            memcpy(number, &after, 4);
        }
        kuhlabires_used counts = used;
        if (turn == 7) counts.elements = 0xffffffff, counts.corners = 0xffffffff;
        struct block points = lend(4 * 12);
        for (uint32_t number = 0; number <= used.elements + 1; number++) {
            kuhlabires_point p = kuhlabires_point_on_curve(counts, LEND(&t), number, 0);
            HOLD(p.refusal == 0 ? p.axes == 2 || p.axes == 3 : refused_point(p, p.refusal));
            p = kuhlabires_cubic_at(counts, LEND(&t), number, 0, 32);
            HOLD(p.refusal == 0 ? p.axes == 2 || p.axes == 3 : refused_point(p, p.refusal));
            p = kuhlabires_point_on_surface(counts, LEND(&t), number, 0, 0);
            HOLD(p.refusal == 0 ? p.axes == 3 : refused_point(p, p.refusal));
            kuhlabires_run r = kuhlabires_run_on_curve(counts, LEND(&t), number, 2, (int32_t *)(void *)points.data, 12, 3);
            HOLD(intact(points) && (r.refusal == 0 ? r.numbers == 9 || r.numbers == 6 : r.numbers == 0));
            HOLD(all_from(points, 4 * (3 + r.numbers), FILLER));
            memset(points.data, FILLER, points.size);
            kuhlabires_polyline_answer line = kuhlabires_polyline(counts, LEND(&t), number, INT32_MAX, (int32_t *)(void *)points.data, 12, 3);
            HOLD(intact(points) && (line.refusal == 0 ? line.points >= 2 && line.points <= 4 : line.points == 0));
            HOLD(all_from(points, 4 * (3 + 3 * (size_t)line.points), FILLER));
            memset(points.data, FILLER, points.size);
            kuhlabires_part part = kuhlabires_group_of(text.data, text.size, counts, TABLE(&t, ELEMENTS, const uint32_t), number);
            HOLD(part.place <= text.size && part.length <= text.size - part.place);
            part = kuhlabires_material_of(text.data, text.size, counts, TABLE(&t, ELEMENTS, const uint32_t), number);
            HOLD(part.place <= text.size && part.length <= text.size - part.place);
            kuhlabires_corner_of(counts, TABLE(&t, ELEMENTS, const uint32_t), TABLE(&t, CORNERS, const uint32_t), number, (uint32_t)(chance >> 32));
        }
        struct block list = lend(4 * (listed(used, 4) + 1));
        struct tables kept;
        for (int i = 0; i < TABLES; i++) kept.of[i] = lend_copy(t.of[i].data, t.of[i].size);
        kuhlabires_swept sweep = kuhlabires_sweep(counts, LEND(&t), (uint32_t *)(void *)list.data, list.size / 4);
        HOLD(intact(list) && (sweep.refusal == 0 || sweep.refusal == 15));
        if (sweep.refusal != 0) HOLD(same_used(sweep.used, NONE) && same_tables(&kept, &t) && all_from(list, 0, FILLER));
        take_tables_back(&kept);
        take_back(list);
        HOLD(tables_intact(&t) && intact(text));
        take_back(points);
        take_tables_back(&t);
    }
}

int LLVMFuzzerTestOneInput(const uint8_t *data, size_t size);
int LLVMFuzzerTestOneInput(const uint8_t *data, size_t size) {
    set_guard();
    struct block text = lend_copy(data, size);
    size_t lengths[TABLES];
    HOLD(rooms_of(text, lengths));
    struct tables whole = lend_tables(lengths);
    kuhlabires_reading r = read_into(text, &whole);
    HOLD(r.refusal != 14);
    if (r.refusal != 0) {
        refused(text, r);
    } else {
        just_room(text, &whole, r.used);
        both_forms(text, &whole, r.used);
        for (uint32_t number = 1; number <= r.used.elements; number++) sampled(&whole, r.used, number);
        swept(&whole, r.used);
        broken(text, &whole, r.used);
    }
    HOLD(memcmp(text.data, data, size) == 0);
    take_tables_back(&whole);
    take_back(text);
    return 0;
}

#ifdef REPLAY
int main(int count, char **names) {
    for (int i = 1; i < count; i++) {
        FILE *file = fopen(names[i], "rb");
        if (file == NULL || fseek(file, 0, SEEK_END) != 0) {
            perror(names[i]);
            return 2;
        }
        size_t size = (size_t)ftell(file);
        uint8_t *data = malloc(size + 1);
        rewind(file);
        if (data == NULL || fread(data, 1, size, file) != size) {
            perror(names[i]);
            return 2;
        }
        fclose(file);
        LLVMFuzzerTestOneInput(data, size);
        free(data);
    }
    printf("fuzz: %d texts replayed\n", count - 1);
    return 0;
}
#endif
