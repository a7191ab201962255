/*
 * The library behind a stream of requests: a request on standard input, its answer on standard output, one after the other.
 * A request is a letter, its numbers (64 bits each, least byte first), and bytes:
 *     R read      text length, eleven table lengths; the text
 *     O rooms     text length; the text. It is read into tables of the lengths that kuhlabires_rooms gives
 *     T tidy      text length, eleven table lengths, buffer length, number of the weights; the text
 *     S set       text length, nine used counts, eleven table lengths; the text, the tables' bytes. No answer
 *     W sweep     length of the list of new numbers. The tables and used counts are then those that it leaves
 * and of the text, the tables and the used counts that one of these left:
 *     C curve     element, t
 *     F surface   element, s, t
 *     B cubic     element, segment, j
 *     N run       element, steps, point table's length, place
 *     P polyline  element, tolerance, point table's length, place
 *     E element   element
 *     Y body      body
 *     U curv2     the curv2's number among the curv2
 *     K corner    element, corner
 *     G group     element
 *     M material  element
 *     X explain   place
 * An answer is the letter, a byte (0 where all canaries stand and nothing lent to be read has changed), the numbers of the C struct (of explain its
 * tally's), of an element and a body its bytes, and the bytes of everything that was lent to be written; of a group or material its length and, where
 * that is not 0, its place and its bytes. That of O is reading's, each table as far as it is used; its byte is 1, too, where the lengths are more than
 * is promised or what is not used is not 0.
 */
#include "lent.h"

enum { USED = 9 };

static struct block text, text_before;
static struct tables tables, tables_before;
static kuhlabires_used used;

static int take(void *into, size_t size) {
    return fread(into, 1, size, stdin) == size;
}

static void must_take(void *into, size_t size) {
    if (!take(into, size)) {
        fprintf(stderr, "a request breaks off\n");
        exit(2);
    }
}

static uint64_t number(void) {
    uint64_t n;
    must_take(&n, sizeof n);
    return n;
}

static void say(const void *from, size_t size) {
    if (fwrite(from, 1, size, stdout) != size) {
        perror("drive");
        exit(2);
    }
}

static void say_number(uint64_t n) {
    say(&n, sizeof n);
}

static void say_used(void) {
    uint32_t counts[USED];
    memcpy(counts, &used, sizeof counts);
    for (int i = 0; i < USED; i++) say_number(counts[i]);
}

static void say_tables(void) {
    for (int i = 0; i < TABLES; i++) say(tables.of[i].data, tables.of[i].size);
}

static void say_head(char letter, int kept) {
    say(&letter, 1);
    say(kept ? "\0" : "\1", 1);
}

static int unchanged(struct block lent, struct block before) {
    return intact(lent) && memcmp(lent.data, before.data, lent.size) == 0;
}

static int all_unchanged(void) {
    for (int i = 0; i < TABLES; i++)
        if (!unchanged(tables.of[i], tables_before.of[i])) return 0;
    return unchanged(text, text_before);
}

static void forget(void) {
    take_back(text);
    take_back(text_before);
    take_tables_back(&tables);
    take_tables_back(&tables_before);
}

static void keep_tables(void) {
    for (int i = 0; i < TABLES; i++) tables_before.of[i] = lend_copy(tables.of[i].data, tables.of[i].size);
}

static void take_lengths(size_t lengths[TABLES]) {
    for (int i = 0; i < TABLES; i++) lengths[i] = number();
}

static void take_text(size_t length) {
    text = lend(length);
    must_take(text.data, length);
    text_before = lend_copy(text.data, length);
}

/* For memcheck: what a block holds is not to be looked at before it is written. */
static void not_to_be_looked_at(struct block lent) {
    (void)VALGRIND_MAKE_MEM_UNDEFINED(lent.data, lent.size);
}

static void left_as_it_was(struct block lent, size_t from, size_t to) {
    if (from < to && to <= lent.size) (void)VALGRIND_MAKE_MEM_DEFINED(lent.data + from, to - from);
}

/* ---- The requests ---- */

static void read_text(void) {
    size_t length = number(), lengths[TABLES];
    take_lengths(lengths);
    forget();
    take_text(length);
    tables = lend_tables(lengths);
    for (int i = 0; i < TABLES; i++) not_to_be_looked_at(tables.of[i]);
    kuhlabires_reading r = kuhlabires_read(text.data, text.size, LEND(&tables));
    used = r.used;
    say_head('R', unchanged(text, text_before) && tables_intact(&tables));
    say_number(r.refusal);
    say_number(r.place);
    say_used();
    say_tables();
    keep_tables();
}

static void read_in_rooms(void) {
    size_t length = number(), lengths[TABLES];
    forget();
    take_text(length);
    int few = rooms_of(text, lengths);
    tables = lend_tables(lengths);
    for (int i = 0; i < TABLES; i++) not_to_be_looked_at(tables.of[i]);
    kuhlabires_reading r = kuhlabires_read(text.data, text.size, LEND(&tables));
    used = r.used;
    entries_of(used, lengths);
    for (int i = 0; i < TABLES; i++) few = few && 4 * lengths[i] <= tables.of[i].size && all_from(tables.of[i], 4 * lengths[i], 0);
    say_head('O', few && unchanged(text, text_before) && tables_intact(&tables));
    say_number(r.refusal);
    say_number(r.place);
    say_used();
    for (int i = 0; i < TABLES; i++) say(tables.of[i].data, 4 * lengths[i]);
    keep_tables();
}

static void tidy_text(void) {
    size_t length = number(), lengths[TABLES];
    take_lengths(lengths);
    struct block out = lend(number());
    uint32_t weights = (uint32_t)number();
    forget();
    take_text(length);
    tables = lend_tables(lengths);
    for (int i = 0; i < TABLES; i++) not_to_be_looked_at(tables.of[i]);
    not_to_be_looked_at(out);
    kuhlabires_tidying r = kuhlabires_tidy(text.data, text.size, weights, LEND(&tables), out.data, out.size);
    used = r.used;
    left_as_it_was(out, r.length, out.size);
    say_head('T', unchanged(text, text_before) && tables_intact(&tables) && intact(out));
    say_number(r.refusal);
    say_number(r.place);
    say_number(r.length);
    say_number(r.needed);
    say_used();
    say_tables();
    say(out.data, out.size);
    take_back(out);
    keep_tables();
}

static void set(void) {
    size_t length = number(), lengths[TABLES];
    uint32_t counts[USED];
    for (int i = 0; i < USED; i++) counts[i] = (uint32_t)number();
    memcpy(&used, counts, sizeof counts);
    take_lengths(lengths);
    forget();
    take_text(length);
    tables = lend_tables(lengths);
    for (int i = 0; i < TABLES; i++) must_take(tables.of[i].data, tables.of[i].size);
    keep_tables();
}

static void sweep(void) {
    size_t length = number();
    struct block numbers = lend(4 * length);
    size_t needed = 4 * ((size_t)used.v + used.vt + used.vn + used.vp);
    not_to_be_looked_at(numbers);
    kuhlabires_swept r = kuhlabires_sweep(used, LEND(&tables), (uint32_t *)(void *)numbers.data, length);
    left_as_it_was(numbers, r.refusal == 0 ? needed : 0, numbers.size);
    kuhlabires_used before = used;
    used = r.used;
    say_head('W', unchanged(text, text_before) && tables_intact(&tables) && intact(numbers));
    say_number(r.refusal);
    say_used();
    say_number(r.dropped.v);
    say_number(r.dropped.vt);
    say_number(r.dropped.vn);
    say_number(r.dropped.vp);
    say_tables();
    say(numbers.data, numbers.size);
    if (r.refusal != 0) used = before;
    take_back(numbers);
    take_tables_back(&tables_before);
    keep_tables();
}

static void point(char letter) {
    uint32_t element = (uint32_t)number();
    uint32_t s = letter == 'C' ? 0 : (uint32_t)number(), t = (uint32_t)number();
    kuhlabires_point p = letter == 'F'   ? kuhlabires_point_on_surface(used, LEND(&tables), element, (int32_t)s, (int32_t)t)
                         : letter == 'B' ? kuhlabires_cubic_at(used, LEND(&tables), element, s, t)
                                         : kuhlabires_point_on_curve(used, LEND(&tables), element, (int32_t)t);
    say_head(letter, all_unchanged());
    say_number(p.refusal);
    say_number(p.axes);
    say_number((uint32_t)p.x);
    say_number((uint32_t)p.y);
    say_number((uint32_t)p.z);
}

/* How many numbers a point of that element has; an element that has points is in the table. */
static size_t axes_of(uint32_t element) {
    size_t at = KUHLABIRES_ELEMENT_WIDTH * ((size_t)element - 1);
    uint32_t kind = 0;
    if (element > 0 && 4 * (at + 1) <= tables.of[ELEMENTS].size) memcpy(&kind, tables.of[ELEMENTS].data + 4 * at, sizeof kind);
    return kind == KUHLABIRES_CURV2 ? 2 : 3;
}

static void run(void) {
    uint32_t element = (uint32_t)number(), steps = (uint32_t)number();
    size_t length = number(), at = number();
    struct block points = lend(4 * length);
    not_to_be_looked_at(points);
    kuhlabires_run r = kuhlabires_run_on_curve(used, LEND(&tables), element, steps, (int32_t *)(void *)points.data, length, at);
    size_t from = r.numbers > 0 ? 4 * at : 0;
    left_as_it_was(points, 0, from);
    left_as_it_was(points, from + 4 * r.numbers, points.size);
    say_head('N', all_unchanged() && intact(points));
    say_number(r.refusal);
    say_number(r.numbers);
    say(points.data, points.size);
    take_back(points);
}

static void polyline(void) {
    uint32_t element = (uint32_t)number();
    int32_t tolerance = (int32_t)number();
    size_t length = number(), at = number();
    struct block points = lend(4 * length);
    not_to_be_looked_at(points);
    kuhlabires_polyline_answer r = kuhlabires_polyline(used, LEND(&tables), element, tolerance, (int32_t *)(void *)points.data, length, at);
    size_t numbers = (size_t)r.points * axes_of(element);
    size_t from = numbers > 0 ? 4 * at : 0;
    left_as_it_was(points, 0, from);
    left_as_it_was(points, from + 4 * numbers, points.size);
    say_head('P', all_unchanged() && intact(points));
    say_number(r.refusal);
    say_number(r.points);
    say(points.data, points.size);
    take_back(points);
}

static void element(void) {
    kuhlabires_element e = kuhlabires_element_of(used, TABLE(&tables, ELEMENTS, const uint32_t), (uint32_t)number());
    say_head('E', all_unchanged());
    say(&e, sizeof e);
}

static void body(void) {
    kuhlabires_body b = kuhlabires_body_of(used, TABLE(&tables, BODIES, const uint32_t), TABLE(&tables, RANGES, const int32_t), (uint32_t)number());
    say_head('Y', all_unchanged());
    say(&b, sizeof b);
}

static void curv2(void) {
    uint32_t found = kuhlabires_curv2_element(used, TABLE(&tables, ELEMENTS, const uint32_t), (uint32_t)number());
    say_head('U', all_unchanged());
    say_number(found);
}

static void corner(void) {
    uint32_t element = (uint32_t)number(), k = (uint32_t)number();
    kuhlabires_corner c = kuhlabires_corner_of(used, TABLE(&tables, ELEMENTS, const uint32_t), TABLE(&tables, CORNERS, const uint32_t), element, k);
    say_head('K', all_unchanged());
    say_number(c.v);
    say_number(c.vt);
    say_number(c.vn);
}

static void part(char letter) {
    uint32_t element = (uint32_t)number();
    kuhlabires_part p = letter == 'G' ? kuhlabires_group_of(text.data, text.size, used, TABLE(&tables, ELEMENTS, const uint32_t), element)
                                      : kuhlabires_material_of(text.data, text.size, used, TABLE(&tables, ELEMENTS, const uint32_t), element);
    int stands = p.place <= text.size && p.length <= text.size - p.place;
    say_head(letter, all_unchanged() && stands);
    say_number(p.length);
    if (p.length == 0 || !stands) return;
    say_number(p.place);
    say(text.data + p.place, p.length);
}

static void explain(void) {
    size_t place = number();
    const kuhlabires_tally a = kuhlabires_explain(text.data, text.size, place).tally;
    say_head('X', unchanged(text, text_before));
    say_number(a.v);
    say_number(a.vt);
    say_number(a.vn);
    say_number(a.vp);
    say_number(a.curves);
    say_number(a.kind);
    say_number(a.opened);
}

int main(void) {
    const size_t none[TABLES] = {0};
    char letter;
    set_guard();
    text = lend(0);
    text_before = lend(0);
    tables = lend_tables(none);
    keep_tables();
    while (take(&letter, 1)) {
        switch (letter) {
        case 'R': read_text(); break;
        case 'O': read_in_rooms(); break;
        case 'T': tidy_text(); break;
        case 'S': set(); break;
        case 'W': sweep(); break;
        case 'B':
        case 'C':
        case 'F': point(letter); break;
        case 'N': run(); break;
        case 'P': polyline(); break;
        case 'E': element(); break;
        case 'Y': body(); break;
        case 'U': curv2(); break;
        case 'K': corner(); break;
        case 'G':
        case 'M': part(letter); break;
        case 'X': explain(); break;
        default: fprintf(stderr, "no request: %d\n", letter); return 2;
        }
    }
    forget();
    return fflush(stdout) == 0 ? 0 : 2;
}
