/*
 * The library with nothing lent: a pointer may be NULL where its length is 0. Then a text read into tables that are filled once, and asked. Prints what
 * is wrong; ends with 1 then.
 */
#include <stdio.h>
#include <stdlib.h>

#include "kuhlabires.h"

static int wrong;

#define HOLD(test)                                                                                                                                   \
    do {                                                                                                                                             \
        if (!(test)) {                                                                                                                               \
            printf("line %d: not %s\n", __LINE__, #test);                                                                                            \
            wrong = 1;                                                                                                                               \
        }                                                                                                                                            \
    } while (0)

static const char TEXT[] = "v 0 0 0\nv 1 0 0\nv 1 1 0\nvp 0 0\nvp 1 1\nusemtl oak\ng top left\nf 1 2 3\ncstype bezier\ndeg 1\n"
                           "curv2 1 2\nparm u 0 1\nend\ncurv 0 1 1 3\nparm u 0 1\nend\ncurv2 2 1\nparm u 0 2\nend\n";

static void nothing_lent(void)
{
    kuhlabires_tables none = kuhlabires_tables_in(kuhlabires_rooms(NULL, 0), NULL);
    HOLD(kuhlabires_room_entries(kuhlabires_rooms(NULL, 0)) == 0);
    HOLD(kuhlabires_tables_read(&none, NULL, 0).refusal == KUHLABIRES_ACCEPTED);
    HOLD(kuhlabires_tables_tidy(&none, NULL, 0, KUHLABIRES_WEIGHTS_ALWAYS, NULL, 0).refusal == KUHLABIRES_ACCEPTED);
    HOLD(kuhlabires_tables_sweep(&none, NULL, 0).refusal == KUHLABIRES_ACCEPTED);
    const kuhlabires_reading full = kuhlabires_tables_read(&none, (const uint8_t *)TEXT, sizeof TEXT - 1);
    HOLD(full.refusal == KUHLABIRES_TABLE_LACKS_ROOM && full.place == 0);
    /* Any counts: what they name is not there. */
    none.used.v = none.used.corners = none.used.elements = none.used.bodies = none.used.loops = UINT32_MAX;
    for (uint32_t number = 0; number < 3; number++) {
        const uint32_t lacking = number ? KUHLABIRES_RECORDS_BREAK_RULES : KUHLABIRES_NO_SUCH_ELEMENT;
        HOLD(kuhlabires_tables_point_on_curve(&none, number, 0).refusal == lacking);
        HOLD(kuhlabires_tables_point_on_surface(&none, number, 0, 0).refusal == lacking);
        HOLD(kuhlabires_tables_cubic_at(&none, number, 0, 0).refusal == lacking);
        HOLD(kuhlabires_tables_run_on_curve(&none, number, 1, NULL, 0, 0).refusal == lacking);
        HOLD(kuhlabires_tables_polyline(&none, number, 1, NULL, 0, 0).refusal == lacking);
        HOLD(kuhlabires_tables_element(&none, number).kind == 0 && kuhlabires_tables_body(&none, number).type == 0);
        HOLD(kuhlabires_tables_curv2_element(&none, number) == 0 && kuhlabires_tables_corner(&none, number, 0).v == 0);
        HOLD(kuhlabires_tables_group(&none, NULL, 0, number).length == 0 && kuhlabires_tables_material(&none, NULL, 0, number).length == 0);
    }
    HOLD(kuhlabires_tables_sweep(&none, NULL, 0).refusal == KUHLABIRES_RECORDS_BREAK_RULES && none.used.v == UINT32_MAX);
    HOLD(kuhlabires_keyword(0, NULL, 0) == 0 && kuhlabires_argument(0, NULL, 0) == 0);
    HOLD(kuhlabires_position_of(NULL, 0, 9).line == 1);
}

static void asked(void)
{
    const uint8_t *text = (const uint8_t *)TEXT;
    const size_t length = sizeof TEXT - 1;
    const kuhlabires_room room = kuhlabires_rooms(text, length);
    void *memory = malloc(kuhlabires_room_entries(room) * sizeof(int32_t));
    kuhlabires_tables t = kuhlabires_tables_in(room, memory);
    HOLD(memory && kuhlabires_tables_read(&t, text, length).refusal == KUHLABIRES_ACCEPTED && t.used.elements == 4);
    HOLD(kuhlabires_tables_element(&t, 1).kind == KUHLABIRES_F && kuhlabires_tables_element(&t, 1).corners == 3);
    HOLD(kuhlabires_tables_element(&t, 4).kind == KUHLABIRES_CURV2 && kuhlabires_tables_element(&t, 5).kind == 0);
    const kuhlabires_body body = kuhlabires_tables_body(&t, kuhlabires_tables_element(&t, 4).body);
    HOLD(body.type == KUHLABIRES_BEZIER && body.u_degree == 1 && body.u_start == 0 && body.u_end == 2000000 && body.u_parameters == 2);
    HOLD(body.first_parameter == 4 && kuhlabires_tables_body(&t, 4).type == 0);
    HOLD(kuhlabires_tables_curv2_element(&t, 1) == 2 && kuhlabires_tables_curv2_element(&t, 2) == 4);
    HOLD(kuhlabires_tables_curv2_element(&t, 0) == 0 && kuhlabires_tables_curv2_element(&t, 3) == 0);
    HOLD(kuhlabires_tables_corner(&t, 1, 2).v == 3 && kuhlabires_tables_corner(&t, 1, 3).v == 0);
    const kuhlabires_part group = kuhlabires_tables_group(&t, text, length, 1), material = kuhlabires_tables_material(&t, text, length, 1);
    HOLD(group.length == 8 && !memcmp(text + group.place, "top left", 8) && material.length == 3 && !memcmp(text + material.place, "oak", 3));
    HOLD(kuhlabires_tables_point_on_curve(&t, 3, 500000).y == 500000);
    const kuhlabires_tidying short_of = kuhlabires_tables_tidy(&t, text, length, KUHLABIRES_WEIGHTS_WHEN_NEEDED, NULL, 0);
    HOLD(short_of.refusal == KUHLABIRES_OUTPUT_LACKS_ROOM && short_of.place == 0 && short_of.length == 0 && t.used.elements == 4);
    uint8_t *out = malloc(short_of.needed);
    const kuhlabires_tidying tidy = kuhlabires_tables_tidy(&t, text, length, KUHLABIRES_WEIGHTS_WHEN_NEEDED, out, short_of.needed);
    HOLD(out && tidy.refusal == KUHLABIRES_ACCEPTED && tidy.length == short_of.needed && tidy.needed == 0);
    const kuhlabires_tidying one_less = kuhlabires_tables_tidy(&t, text, length, KUHLABIRES_WEIGHTS_WHEN_NEEDED, out, short_of.needed - 1);
    HOLD(one_less.refusal == KUHLABIRES_OUTPUT_LACKS_ROOM && one_less.needed == short_of.needed);
    free(out);
    uint32_t numbers[5];
    HOLD(kuhlabires_tables_sweep(&t, numbers, 5).refusal == KUHLABIRES_ACCEPTED && t.used.v == 3 && numbers[4] == 2);
    free(memory);
}

int main(void)
{
    nothing_lent();
    asked();
    return wrong;
}
