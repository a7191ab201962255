/*
 * Kuhlabires: a verified reader, tidier and sampler of Wavefront .obj files.
 *
 * Link the archive that `python3 host/library.py` makes, target/staticlib/libkuhlabires.a, or the one that `host/install.sh PREFIX` installs.
 *
 * The functions whose names begin with kuhlabires_tables_ take the tables as one struct, and are the ones to begin with: they stand at the end,
 * with the words of a refusal and the line of a place.
 *
 * Memory. Everything is lent and nothing is kept: a call reads and writes only the arrays it is given, allocates nothing, opens nothing, holds no
 * state between calls and always returns. So any thread may call, as long as no array is written by one call while another uses it.
 *   - An array goes as a pointer and then a length, which counts entries (for a text: bytes), never bytes of 32-bit tables.
 *   - A pointer may be NULL where its length is 0: nothing is read or written there. Tables are aligned as their type asks.
 *   - Arrays that a call writes overlap no other array of the same call.
 *
 * Units. Every int32_t is a number of the file in millionths: 1500000 is 1.5. Parameters of curves are in millionths too.
 *
 * Numbering. References, elements, bodies and curv2s count from 1; 0 is none. Every "first" field, and a corner of an element, counts from 0.
 * A place is a byte offset in the text, from 0.
 *
 * Every function takes any contents of its arrays and any numbers: there is no input for which its behaviour is not stated.
 */
#ifndef KUHLABIRES_H
#define KUHLABIRES_H

#include <stddef.h>
#include <stdint.h>
#include <string.h>

#ifdef __cplusplus
extern "C" {
#endif

#define KUHLABIRES_VERSION_MAJOR 0
#define KUHLABIRES_VERSION_MINOR 1
#define KUHLABIRES_VERSION_PATCH 0
#define KUHLABIRES_VERSION "0.1.0"

/* The longest text that is read, in bytes; also the longest tidy text. */
#define KUHLABIRES_MOST_BYTES 16777216u
/* The most steps of a run. */
#define KUHLABIRES_MOST_STEPS 65536u
/* The most points of a polyline: 12 halvings, and the start. */
#define KUHLABIRES_MOST_POLYLINE_POINTS 4097u
/* The steps of a segment of a cubic: j is 0 to 64. */
#define KUHLABIRES_CUBIC_STEPS 64u

/* ---- The eleven tables: how many entries one record has, and where each of its numbers stands in it ---- */

/* v, int32_t: x, y, z, w (w is 1000000 where the file gives none). */
#define KUHLABIRES_V_WIDTH 4
/* vt, int32_t: u, v, w (0 where the file gives none). */
#define KUHLABIRES_VT_WIDTH 3
/* vn, int32_t: i, j, k. */
#define KUHLABIRES_VN_WIDTH 3
/* vp, int32_t: how many were given (1 to 3; a plain count), u, v, w (v is 0, w is 1000000 where not given). */
#define KUHLABIRES_VP_WIDTH 4
/* corners, uint32_t: v, vt, vn (0 for none); of a control of a curv2 its vp number, 0, 0. */
#define KUHLABIRES_CORNER_WIDTH 3
/* elements, uint32_t: see enum kuhlabires_element_field. */
#define KUHLABIRES_ELEMENT_WIDTH 9
/* bodies, uint32_t: see enum kuhlabires_body_field. */
#define KUHLABIRES_BODY_WIDTH 9
/* ranges, int32_t, one record a body: u start, u end, v start, v end. */
#define KUHLABIRES_RANGE_WIDTH 4
/* parameters, int32_t, one number a record: of a body first those along u, then those along v. */
#define KUHLABIRES_PARAMETER_WIDTH 1
/* loops, uint32_t, one record a loop part: what begins with it (1 a trim, 2 a hole, 0 the loop goes on), the number of the curv2. */
#define KUHLABIRES_LOOP_WIDTH 2
/* spans, int32_t, one record a loop part, beside loops: its two numbers. */
#define KUHLABIRES_SPAN_WIDTH 2

enum kuhlabires_element_field {
    KUHLABIRES_ELEMENT_KIND = 0,            /* enum kuhlabires_kind */
    KUHLABIRES_ELEMENT_FIRST_CORNER = 1,    /* in numbers of the corner table, from 0 */
    KUHLABIRES_ELEMENT_CORNERS = 2,         /* how many corners */
    KUHLABIRES_ELEMENT_BODY = 3,            /* the body's number, 0 for none (p, l, f) */
    KUHLABIRES_ELEMENT_SMOOTHING = 4,       /* 0 for off */
    KUHLABIRES_ELEMENT_GROUP_PLACE = 5,     /* from the first byte of the first name .. */
    KUHLABIRES_ELEMENT_GROUP_LENGTH = 6,    /* .. to the last byte of the last; both 0 for none */
    KUHLABIRES_ELEMENT_MATERIAL_PLACE = 7,
    KUHLABIRES_ELEMENT_MATERIAL_LENGTH = 8
};

enum kuhlabires_body_field {
    KUHLABIRES_BODY_TYPE = 0,               /* enum kuhlabires_type */
    KUHLABIRES_BODY_RATIONAL = 1,           /* 0 or 1 */
    KUHLABIRES_BODY_U_DEGREE = 2,
    KUHLABIRES_BODY_V_DEGREE = 3,           /* 0 on a curve, as the v counts and ranges are */
    KUHLABIRES_BODY_FIRST_PARAMETER = 4,    /* in parameters, from 0 */
    KUHLABIRES_BODY_U_PARAMETERS = 5,
    KUHLABIRES_BODY_V_PARAMETERS = 6,
    KUHLABIRES_BODY_FIRST_LOOP_PART = 7,    /* in loop parts, from 0 */
    KUHLABIRES_BODY_LOOP_PARTS = 8
};

/* The kinds of element. */
enum kuhlabires_kind {
    KUHLABIRES_P = 1,
    KUHLABIRES_L = 2,
    KUHLABIRES_F = 3,
    KUHLABIRES_CURV = 4,
    KUHLABIRES_CURV2 = 5,
    KUHLABIRES_SURF = 6
};

/* The types of body. */
enum kuhlabires_type {
    KUHLABIRES_BEZIER = 1,
    KUHLABIRES_BSPLINE = 2,
    KUHLABIRES_CARDINAL = 3,
    KUHLABIRES_TAYLOR = 4
};

/*
 * The numbers of refusal; 0 is none. 1 to 14 are of reading and come with a place: the first line at fault is reported, by its keyword, its word
 * or its byte. Tidying gives these or 16. Sampling gives, in this order, 17, 15, 18, 19, 16. The sweep gives 15, then 16.
 */
enum kuhlabires_refusal {
    KUHLABIRES_ACCEPTED = 0,
    KUHLABIRES_TEXT_TOO_LONG = 1,           /* over 16,777,216 bytes; at 0 */
    KUHLABIRES_BYTE_NOT_ALLOWED = 2,        /* at that byte */
    KUHLABIRES_KEYWORD_UNKNOWN = 3,         /* at the keyword */
    KUHLABIRES_KNOWN_AND_REFUSED = 4,       /* at the keyword or the type */
    KUHLABIRES_WORD_COUNT = 5,              /* at the keyword */
    KUHLABIRES_WORD_MALFORMED = 6,          /* at the word */
    KUHLABIRES_OUT_OF_RANGE = 7,            /* a number, a degree or a smoothing; at the word */
    KUHLABIRES_REFERENCE_TO_NOTHING = 8,    /* at the word */
    KUHLABIRES_PATTERN_DIFFERS = 9,         /* a corner's pattern differs from the first; at the word */
    KUHLABIRES_NOT_ALLOWED_HERE = 10,       /* at the keyword; at the text's length where the text ends in a body */
    KUHLABIRES_TYPE_DEGREE_OR_PARM = 11,    /* one of them is missing; at the keyword */
    KUHLABIRES_CONTROL_COUNT = 12,          /* at `end`; at the word of a curv2 control with one coordinate */
    KUHLABIRES_PARAMETER_ORDER = 13,        /* or range, or an inner knot too often; at `end` */
    KUHLABIRES_TABLE_LACKS_ROOM = 14,       /* at the keyword; exactly when the entries needed pass the lent length */
    KUHLABIRES_RECORDS_BREAK_RULES = 15,    /* a record of the element, or a vertex it names, breaks a rule or passes the used or lent entries; for the
                                               sweep any record, or runs that do not follow on */
    KUHLABIRES_OUTPUT_LACKS_ROOM = 16,      /* the tidy text passes the lent buffer or 16,777,216 bytes; a run or a polyline passes the point table, the
                                               new numbers of a sweep their list */
    KUHLABIRES_NO_SUCH_ELEMENT = 17,        /* no element of that number, or one of another kind */
    KUHLABIRES_NOT_SAMPLED = 18,            /* the body is rational, cardinal or taylor; for a step of a cubic of another type or degree */
    KUHLABIRES_PARAMETER_OUTSIDE = 19       /* outside start..end; a run of 0 or over 65,536 steps; a negative tolerance; no such step or segment of a cubic */
};

/* Whether the tidy text has the w of a v, its weight, where it is 1.000000 too. A number that is not one of these counts as 0. */
enum kuhlabires_weights {
    KUHLABIRES_WEIGHTS_WHEN_NEEDED = 0,
    KUHLABIRES_WEIGHTS_ALWAYS = 1
};

/* ---- Records that pass by value ---- */

/* How many records of each table are used, but for the corners, which count numbers. Ranges share the bodies' count, spans the loops'. */
typedef struct kuhlabires_used {
    uint32_t v, vt, vn, vp, corners, elements, bodies, parameters, loops;
} kuhlabires_used;

/* How many entries of each table a text can need. */
typedef struct kuhlabires_room {
    size_t v, vt, vn, vp, corners, elements, bodies, ranges, parameters, loops, spans;
} kuhlabires_room;

/* The answer of reading. Where refusal is 0, place is 0; else every count of used is 0. */
typedef struct kuhlabires_reading {
    uint32_t refusal;
    size_t place;
    kuhlabires_used used;
} kuhlabires_reading;

/*
 * The answer of tidying: length bytes of the tidy text were written. Where refusal is 16 the tables are filled, used counts them, and needed is the
 * length of the tidy text: a buffer as long has room for it. It is KUHLABIRES_MOST_BYTES + 1 where the tidy text passes that: no buffer has room
 * then. Else needed is 0.
 */
typedef struct kuhlabires_tidying {
    uint32_t refusal;
    size_t place;
    size_t length;
    size_t needed;
    kuhlabires_used used;
} kuhlabires_tidying;

/* A point: with 3 axes x, y, z (curv, surf); with 2 axes u and v in x and y (curv2). All 0 but refusal where it is refused. */
typedef struct kuhlabires_point {
    uint32_t refusal;
    uint32_t axes;
    int32_t x, y, z;
} kuhlabires_point;

/* A run: how many numbers were written, (steps + 1) times 3 for a curv, times 2 for a curv2. */
typedef struct kuhlabires_run {
    uint32_t refusal;
    size_t numbers;
} kuhlabires_run;

/* A polyline: how many points were written, of 3 numbers each for a curv, of 2 for a curv2. */
typedef struct kuhlabires_polyline_answer {
    uint32_t refusal;
    uint32_t points;
} kuhlabires_polyline_answer;

/* How many records of each kind a sweep dropped. */
typedef struct kuhlabires_dropped {
    uint32_t v, vt, vn, vp;
} kuhlabires_dropped;

/* The answer of a sweep: the used counts after it, and what it dropped. All 0 but refusal where it is refused: the counts from before it then hold. */
typedef struct kuhlabires_swept {
    uint32_t refusal;
    kuhlabires_used used;
    kuhlabires_dropped dropped;
} kuhlabires_swept;

/* An element, its fields as enum kuhlabires_element_field says; all 0 for no such element. */
typedef struct kuhlabires_element {
    uint32_t kind, first_corner, corners, body, smoothing, group_place, group_length, material_place, material_length;
} kuhlabires_element;

/* A body, its fields as enum kuhlabires_body_field says, and its range; all 0 for no such body. */
typedef struct kuhlabires_body {
    uint32_t type, rational, u_degree, v_degree, first_parameter, u_parameters, v_parameters, first_loop_part, loop_parts;
    int32_t u_start, u_end, v_start, v_end;
} kuhlabires_body;

/* A corner's references, each from 1; 0 for none. */
typedef struct kuhlabires_corner {
    uint32_t v, vt, vn;
} kuhlabires_corner;

/* A part of the caller's text; length 0 for none. */
typedef struct kuhlabires_part {
    size_t place;
    size_t length;
} kuhlabires_part;

/* ---- The functions ---- */

/* The eleven tables as parameters, in the order in which every function takes them: to be written, and to be read. */
#define KUHLABIRES_TABLES_OUT                                                                                                                        \
    int32_t *v, size_t v_length, int32_t *vt, size_t vt_length, int32_t *vn, size_t vn_length, int32_t *vp, size_t vp_length, uint32_t *corners,     \
        size_t corners_length, uint32_t *elements, size_t elements_length, uint32_t *bodies, size_t bodies_length, int32_t *ranges,                  \
        size_t ranges_length, int32_t *parameters, size_t parameters_length, uint32_t *loops, size_t loops_length, int32_t *spans,                   \
        size_t spans_length
#define KUHLABIRES_TABLES_IN                                                                                                                         \
    const int32_t *v, size_t v_length, const int32_t *vt, size_t vt_length, const int32_t *vn, size_t vn_length, const int32_t *vp,                  \
        size_t vp_length, const uint32_t *corners, size_t corners_length, const uint32_t *elements, size_t elements_length, const uint32_t *bodies,  \
        size_t bodies_length, const int32_t *ranges, size_t ranges_length, const int32_t *parameters, size_t parameters_length,                      \
        const uint32_t *loops, size_t loops_length, const int32_t *spans, size_t spans_length

/*
 * How many entries of each table the text can need: with at least these lengths lent, refusal 14 never comes, whatever the text. All eleven together
 * are at most 22 for each word of the text, and so at most 11 * (text_length + 1). All 0 for a text over KUHLABIRES_MOST_BYTES, which is refused.
 */
kuhlabires_room kuhlabires_rooms(const uint8_t *text, size_t text_length);

/*
 * Reads a text into the tables. Every entry of every table is written: records, and 0 after the used ones. After a refusal all are 0.
 */
kuhlabires_reading kuhlabires_read(const uint8_t *text, size_t text_length, KUHLABIRES_TABLES_OUT);

/*
 * Reads a text into the tables and writes its tidy text, its weights as the number says, to the front of out. Of out only the first length bytes are
 * written, and none where it is refused. After 16 the tables stay filled; after any other refusal all are 0.
 */
kuhlabires_tidying kuhlabires_tidy(const uint8_t *text, size_t text_length, uint32_t weights, KUHLABIRES_TABLES_OUT, uint8_t *out, size_t out_length);

/* The point at t of the curv or curv2 of that number. Refuses 17, 15, 18, 19. */
kuhlabires_point kuhlabires_point_on_curve(kuhlabires_used used, KUHLABIRES_TABLES_IN, uint32_t element, int32_t t);

/*
 * The point at j/64 of a segment of the curv or curv2 of that number, a cubic Bezier; segments count from 0, j is 0 to 64. From one table of weights:
 * the sum is divided once, and each coordinate is within half a millionth of the exact value. Refuses 17, 15, 18, 19.
 */
kuhlabires_point kuhlabires_cubic_at(kuhlabires_used used, KUHLABIRES_TABLES_IN, uint32_t element, uint32_t segment, uint32_t j);

/* The point at s along u and t along v of the surf of that number. Refuses 17, 15, 18, 19. */
kuhlabires_point kuhlabires_point_on_surface(kuhlabires_used used, KUHLABIRES_TABLES_IN, uint32_t element, int32_t s, int32_t t);

/*
 * steps + 1 points of the curv or curv2 of that number, point j at start + floor(j (end - start) / steps), written to points from entry `at` on;
 * no other entry is written, and none where it is refused. Refuses 17, 15, 18, 19, 16.
 */
kuhlabires_run kuhlabires_run_on_curve(kuhlabires_used used, KUHLABIRES_TABLES_IN, uint32_t element, uint32_t steps, int32_t *points,
                                       size_t points_length, size_t at);

/*
 * The polyline of the curv or curv2 of that number: the range is halved, at most 12 times, until twice the sampled middle of an interval is within
 * twice the tolerance of the sum of its two end points on each axis, or the interval is one millionth long. The points, from start to end, are
 * written to points from entry `at` on; no other entry is written, and none where it is refused. Refuses 17, 15, 18, 19 (a negative tolerance), 16.
 * Only the middle of an interval is looked at: a curve that swings to both sides of a chord and crosses it at its middle passes for straight.
 */
kuhlabires_polyline_answer kuhlabires_polyline(kuhlabires_used used, KUHLABIRES_TABLES_IN, uint32_t element, int32_t tolerance, int32_t *points,
                                               size_t points_length, size_t at);

/*
 * Removes every v, vt, vn and vp that no corner names, closes the gaps and renumbers the corners; kept records keep their order, and entries after the
 * used ones are 0 in all tables. To numbers goes, for each old record, all v, then vt, vn, vp, its new number, or 0 where it was dropped:
 * used.v + used.vt + used.vn + used.vp entries; the rest of the list stays as it was. Refuses 15, where any record breaks a rule (names aside) or
 * passes the used or lent entries, or the runs of corners, parameters and loop parts do not follow on to the last used entry as reading lays
 * them; then 16, where the list lacks room. A refusal changes nothing.
 */
kuhlabires_swept kuhlabires_sweep(kuhlabires_used used, KUHLABIRES_TABLES_OUT, uint32_t *numbers, size_t numbers_length);

/* The element of that number; all 0 for one that is not used, or does not stand whole in the table. */
kuhlabires_element kuhlabires_element_of(kuhlabires_used used, const uint32_t *elements, size_t elements_length, uint32_t element);

/* The body of that number, with its range; all 0 for one that is not used, or does not stand whole in both tables. */
kuhlabires_body kuhlabires_body_of(kuhlabires_used used, const uint32_t *bodies, size_t bodies_length, const int32_t *ranges, size_t ranges_length,
                                   uint32_t body);

/* The number of the element that is the curv2 of that number, as a loop part names it, counted over the curv2 alone; 0 for none. */
uint32_t kuhlabires_curv2_element(kuhlabires_used used, const uint32_t *elements, size_t elements_length, uint32_t curve);

/* Corner k, from 0, of the element of that number; three zeros for no such corner. */
kuhlabires_corner kuhlabires_corner_of(kuhlabires_used used, const uint32_t *elements, size_t elements_length, const uint32_t *corners,
                                       size_t corners_length, uint32_t element, uint32_t k);

/* The part of the text that holds the element's group names, from the first to the last; length 0 for none, and for no such element. */
kuhlabires_part kuhlabires_group_of(const uint8_t *text, size_t text_length, kuhlabires_used used, const uint32_t *elements, size_t elements_length,
                                    uint32_t element);

/* The same for its material's name. */
kuhlabires_part kuhlabires_material_of(const uint8_t *text, size_t text_length, kuhlabires_used used, const uint32_t *elements,
                                       size_t elements_length, uint32_t element);

/*
 * The spelling of row `row`, from 0, of the table of keywords, in the appendix's order, written to the front of out; how many bytes that are. 0 where
 * there is no such row, or no room; nothing is written then. Ten bytes hold every spelling. docs/KEYWORDS.md lists the rows.
 */
size_t kuhlabires_keyword(size_t row, uint8_t *out, size_t out_length);

/* The same of the fixed words after a keyword. */
size_t kuhlabires_argument(size_t row, uint8_t *out, size_t out_length);

/* ---- What is told of a refusal besides its number and place: advice ---- */

/* How many v, vt, vn, vp and ended curv2 there are so far; the kind of the open body's element, 0 where none is open, and the place of its keyword. */
typedef struct kuhlabires_tally {
    uint32_t v;
    uint32_t vt;
    uint32_t vn;
    uint32_t vp;
    uint32_t curves;
    uint32_t kind;
    size_t opened;
} kuhlabires_tally;

/*
 * The parameters along one direction of the open body: where the numbers of its last parm start, 0 where there is none, and how many they are; how many
 * controls the type asks for them; 1 where a bspline's are enough; the number, from 1, of the first parameter that may not stand after the one before it,
 * 0 where all may; the ends of the widest range; the range, and 1 where all are in order and it stands within the widest.
 */
typedef struct kuhlabires_along {
    size_t place;
    uint32_t parameters;
    size_t controls;
    uint32_t enough;
    uint32_t wrong;
    int32_t low;
    int32_t high;
    int32_t start;
    int32_t end;
    uint32_t fits;
} kuhlabires_along;

/*
 * The keyword of the line that holds the place, and how many words follow it; what the lines before say; the type and the degrees in force, 0 for none; of
 * the open body how many controls it has, and its parameters along u and v.
 */
typedef struct kuhlabires_advice {
    size_t key;
    size_t words;
    kuhlabires_tally tally;
    uint32_t basis;
    uint32_t degree_u;
    uint32_t degree_v;
    size_t controls;
    kuhlabires_along u;
    kuhlabires_along v;
} kuhlabires_advice;

/* What is told of the place of a refusal of kuhlabires_read or kuhlabires_tidy in that text. */
kuhlabires_advice kuhlabires_explain(const uint8_t *text, size_t text_length, size_t place);

/* What a word has to be. */
enum kuhlabires_form {
    KUHLABIRES_ANYTHING = 0,
    KUHLABIRES_NUMBER = 1,
    KUHLABIRES_V_CORNER = 2,   /* v */
    KUHLABIRES_VT_CORNER = 3,  /* v or v/vt */
    KUHLABIRES_ANY_CORNER = 4, /* v, v/vt, v//vn or v/vt/vn */
    KUHLABIRES_CONTROL = 5,    /* a vp */
    KUHLABIRES_CURVE = 6,      /* a curv2 */
    KUHLABIRES_DIRECTION = 7,
    KUHLABIRES_TYPE = 8,
    KUHLABIRES_RATIONAL = 9,
    KUHLABIRES_DEGREE = 10,
    KUHLABIRES_SMOOTHING = 11,
    KUHLABIRES_NAME = 12
};

/*
 * A keyword's rules: where its statement stands (0 outside a body, 1 in one, 2 in a surf's, 3 as a parm); how many words follow it, at least, at most
 * (KUHLABIRES_MOST_BYTES for any number), and a multiple of how many; the form of a word, and the least and the greatest value that it may have, of a name
 * how many bytes.
 */
typedef struct kuhlabires_rule_row {
    uint32_t standing;
    size_t least;
    size_t most;
    size_t multiple;
    uint32_t form;
    int32_t low;
    int32_t high;
} kuhlabires_rule_row;

/* The rules of the keyword that the bytes begin with, and the form of word `index`, from 0, of `words` words after it. */
kuhlabires_rule_row kuhlabires_rules(const uint8_t *keyword, size_t keyword_length, size_t words, size_t index);

/* ---- The same with the tables in one struct, for shorter calls ---- */

/* The eleven tables, each a pointer and a length in entries, and their used counts, which reading, tidying and the sweep set. */
typedef struct kuhlabires_tables {
    int32_t *v;
    size_t v_length;
    int32_t *vt;
    size_t vt_length;
    int32_t *vn;
    size_t vn_length;
    int32_t *vp;
    size_t vp_length;
    uint32_t *corners;
    size_t corners_length;
    uint32_t *elements;
    size_t elements_length;
    uint32_t *bodies;
    size_t bodies_length;
    int32_t *ranges;
    size_t ranges_length;
    int32_t *parameters;
    size_t parameters_length;
    uint32_t *loops;
    size_t loops_length;
    int32_t *spans;
    size_t spans_length;
    kuhlabires_used used;
} kuhlabires_tables;

/* The eleven tables of a kuhlabires_tables as arguments. */
#define KUHLABIRES_LEND(t)                                                                                                                           \
    (t)->v, (t)->v_length, (t)->vt, (t)->vt_length, (t)->vn, (t)->vn_length, (t)->vp, (t)->vp_length, (t)->corners, (t)->corners_length,             \
        (t)->elements, (t)->elements_length, (t)->bodies, (t)->bodies_length, (t)->ranges, (t)->ranges_length, (t)->parameters,                      \
        (t)->parameters_length, (t)->loops, (t)->loops_length, (t)->spans, (t)->spans_length

/* How many entries the eleven tables of these lengths have together, of four bytes each. */
static inline size_t kuhlabires_room_entries(kuhlabires_room room)
{
    return room.v + room.vt + room.vn + room.vp + room.corners + room.elements + room.bodies + room.ranges + room.parameters + room.loops +
           room.spans;
}

/*
 * Tables of these lengths, one after the other in memory that has kuhlabires_room_entries(room) entries and is aligned for them, as malloc's is. All
 * are empty where memory is NULL.
 */
static inline kuhlabires_tables kuhlabires_tables_in(kuhlabires_room room, void *memory)
{
    kuhlabires_tables t;
    int32_t *next = (int32_t *)memory;
    memset(&t, 0, sizeof t);
    if (!next)
        return t;
#define KUHLABIRES_TAKE(table, type)                                                                                                                 \
    t.table = (type *)(void *)next;                                                                                                                  \
    t.table##_length = room.table;                                                                                                                   \
    next += room.table
    KUHLABIRES_TAKE(v, int32_t);
    KUHLABIRES_TAKE(vt, int32_t);
    KUHLABIRES_TAKE(vn, int32_t);
    KUHLABIRES_TAKE(vp, int32_t);
    KUHLABIRES_TAKE(corners, uint32_t);
    KUHLABIRES_TAKE(elements, uint32_t);
    KUHLABIRES_TAKE(bodies, uint32_t);
    KUHLABIRES_TAKE(ranges, int32_t);
    KUHLABIRES_TAKE(parameters, int32_t);
    KUHLABIRES_TAKE(loops, uint32_t);
    KUHLABIRES_TAKE(spans, int32_t);
#undef KUHLABIRES_TAKE
    return t;
}

static inline kuhlabires_reading kuhlabires_tables_read(kuhlabires_tables *t, const uint8_t *text, size_t text_length)
{
    const kuhlabires_reading reading = kuhlabires_read(text, text_length, KUHLABIRES_LEND(t));
    t->used = reading.used;
    return reading;
}

static inline kuhlabires_tidying kuhlabires_tables_tidy(kuhlabires_tables *t, const uint8_t *text, size_t text_length, uint32_t weights,
                                                        uint8_t *out, size_t out_length)
{
    const kuhlabires_tidying tidying = kuhlabires_tidy(text, text_length, weights, KUHLABIRES_LEND(t), out, out_length);
    t->used = tidying.used;
    return tidying;
}

static inline kuhlabires_point kuhlabires_tables_point_on_curve(const kuhlabires_tables *t, uint32_t element, int32_t at)
{
    return kuhlabires_point_on_curve(t->used, KUHLABIRES_LEND(t), element, at);
}

static inline kuhlabires_point kuhlabires_tables_cubic_at(const kuhlabires_tables *t, uint32_t element, uint32_t segment, uint32_t j)
{
    return kuhlabires_cubic_at(t->used, KUHLABIRES_LEND(t), element, segment, j);
}

static inline kuhlabires_point kuhlabires_tables_point_on_surface(const kuhlabires_tables *t, uint32_t element, int32_t along_u, int32_t along_v)
{
    return kuhlabires_point_on_surface(t->used, KUHLABIRES_LEND(t), element, along_u, along_v);
}

static inline kuhlabires_run kuhlabires_tables_run_on_curve(const kuhlabires_tables *t, uint32_t element, uint32_t steps, int32_t *points,
                                                            size_t points_length, size_t at)
{
    return kuhlabires_run_on_curve(t->used, KUHLABIRES_LEND(t), element, steps, points, points_length, at);
}

static inline kuhlabires_polyline_answer kuhlabires_tables_polyline(const kuhlabires_tables *t, uint32_t element, int32_t tolerance, int32_t *points,
                                                                    size_t points_length, size_t at)
{
    return kuhlabires_polyline(t->used, KUHLABIRES_LEND(t), element, tolerance, points, points_length, at);
}

/* After a refusal the used counts are as before, as the tables are. */
static inline kuhlabires_swept kuhlabires_tables_sweep(kuhlabires_tables *t, uint32_t *numbers, size_t numbers_length)
{
    const kuhlabires_swept swept = kuhlabires_sweep(t->used, KUHLABIRES_LEND(t), numbers, numbers_length);
    if (!swept.refusal)
        t->used = swept.used;
    return swept;
}

static inline kuhlabires_element kuhlabires_tables_element(const kuhlabires_tables *t, uint32_t element)
{
    return kuhlabires_element_of(t->used, t->elements, t->elements_length, element);
}

static inline kuhlabires_body kuhlabires_tables_body(const kuhlabires_tables *t, uint32_t body)
{
    return kuhlabires_body_of(t->used, t->bodies, t->bodies_length, t->ranges, t->ranges_length, body);
}

static inline uint32_t kuhlabires_tables_curv2_element(const kuhlabires_tables *t, uint32_t curve)
{
    return kuhlabires_curv2_element(t->used, t->elements, t->elements_length, curve);
}

static inline kuhlabires_corner kuhlabires_tables_corner(const kuhlabires_tables *t, uint32_t element, uint32_t k)
{
    return kuhlabires_corner_of(t->used, t->elements, t->elements_length, t->corners, t->corners_length, element, k);
}

static inline kuhlabires_part kuhlabires_tables_group(const kuhlabires_tables *t, const uint8_t *text, size_t text_length, uint32_t element)
{
    return kuhlabires_group_of(text, text_length, t->used, t->elements, t->elements_length, element);
}

static inline kuhlabires_part kuhlabires_tables_material(const kuhlabires_tables *t, const uint8_t *text, size_t text_length, uint32_t element)
{
    return kuhlabires_material_of(text, text_length, t->used, t->elements, t->elements_length, element);
}

/* ---- For a person ---- */

/* What a number of refusal means, in the words of docs/REFUSALS.md. */
static inline const char *kuhlabires_refusal_words(uint32_t refusal)
{
    switch (refusal) {
    case KUHLABIRES_ACCEPTED:
        return "not refused";
    case KUHLABIRES_TEXT_TOO_LONG:
        return "the text has over 16,777,216 bytes";
    case KUHLABIRES_BYTE_NOT_ALLOWED:
        return "a byte is not allowed";
    case KUHLABIRES_KEYWORD_UNKNOWN:
        return "the keyword is unknown";
    case KUHLABIRES_KNOWN_AND_REFUSED:
        return "the keyword or the type is known and refused";
    case KUHLABIRES_WORD_COUNT:
        return "the count of words";
    case KUHLABIRES_WORD_MALFORMED:
        return "a word is malformed";
    case KUHLABIRES_OUT_OF_RANGE:
        return "a number, a degree or a smoothing is out of range";
    case KUHLABIRES_REFERENCE_TO_NOTHING:
        return "a reference to nothing";
    case KUHLABIRES_PATTERN_DIFFERS:
        return "a corner's pattern differs from the first";
    case KUHLABIRES_NOT_ALLOWED_HERE:
        return "the statement is not allowed here; the text ends in a body";
    case KUHLABIRES_TYPE_DEGREE_OR_PARM:
        return "no type or degree (at the line of curv, curv2, surf), no parm (at end)";
    case KUHLABIRES_CONTROL_COUNT:
        return "control counts disagree";
    case KUHLABIRES_PARAMETER_ORDER:
        return "parameter order or range, or a bspline's inner knot more than n times";
    case KUHLABIRES_TABLE_LACKS_ROOM:
        return "a lent table lacks room";
    case KUHLABIRES_RECORDS_BREAK_RULES:
        return "a record of the element, names aside, or a vertex that it names breaks a rule or passes the used or lent entries; for a sweep any "
               "record, or runs of corners, parameters or loop parts that do not follow on";
    case KUHLABIRES_OUTPUT_LACKS_ROOM:
        return "the tidy text passes the lent buffer or 16,777,216 bytes (at place 0); a run or a polyline passes the lent point table, a sweep's "
               "new numbers the lent list";
    case KUHLABIRES_NO_SUCH_ELEMENT:
        return "no element of that number, or one of another kind";
    case KUHLABIRES_NOT_SAMPLED:
        return "the body is rational, cardinal or taylor; for a cubic in steps also of another type or degree";
    case KUHLABIRES_PARAMETER_OUTSIDE:
        return "a parameter outside start..end; a run of 0 or over 65,536 steps; a negative tolerance; no such step or segment of a cubic, or one "
               "outside start..end";
    default:
        return "no number of refusal";
    }
}

/* Where a place stands for a person: line and column count from 1, columns in bytes. */
typedef struct kuhlabires_position {
    size_t line, column;
} kuhlabires_position;

/* Line and column of a place; one past the text's end counts as its end. Lines end at LF, whether or not a backslash joins the next. */
static inline kuhlabires_position kuhlabires_position_of(const uint8_t *text, size_t text_length, size_t place)
{
    kuhlabires_position position = {1, 1};
    for (size_t i = 0; i < text_length && i < place; i++) {
        position.column++;
        if (text[i] == '\n') {
            position.line++;
            position.column = 1;
        }
    }
    return position;
}

#ifdef __cplusplus
}
#endif

#endif
