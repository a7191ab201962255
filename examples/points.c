/*
 * Prints points of a curve of an .obj file, one a line: a run of so many steps, or its polyline within a tolerance in millionths.
 *
 *     python3 host/library.py
 *     gcc -O2 -Iinclude examples/points.c target/staticlib/libkuhlabires.a -o points
 *     ./points examples/chair-rail.obj 1 8
 *     ./points examples/foam-wing.obj 1 polyline 500
 *
 * Ends with 1 where the file or the call is refused, with 2 where the arguments are not these or the file cannot be read.
 */
#include <errno.h>
#include <inttypes.h>
#include <stdio.h>
#include <stdlib.h>
#include <string.h>

#include "kuhlabires.h"

/* The file's bytes, at most one more than is ever read; NULL where it cannot be read. */
static uint8_t *bytes_of(const char *name, size_t *length)
{
    const size_t most = (size_t)KUHLABIRES_MOST_BYTES + 1;
    uint8_t *text = malloc(most);
    FILE *file = fopen(name, "rb");
    *length = file && text ? fread(text, 1, most, file) : 0;
    if (!file || !text || ferror(file)) {
        free(text);
        text = NULL;
    }
    if (file)
        fclose(file);
    return text;
}

/* Memory for so many 32-bit entries; NULL for none, which an empty table may be. */
static void *memory_for(size_t entries)
{
    void *memory = entries ? malloc(entries * sizeof(int32_t)) : NULL;
    if (entries && !memory) {
        fprintf(stderr, "no memory for %zu entries\n", entries);
        exit(2);
    }
    return memory;
}

/* A whole number of digits alone, up to that one; else -1. */
static int64_t number_of(const char *word, uint32_t most)
{
    char *end;
    if (*word < '0' || *word > '9')
        return -1;
    errno = 0;
    const unsigned long long number = strtoull(word, &end, 10);
    return errno || *end || number > most ? -1 : (int64_t)number;
}

/* A number in millionths, with six places. */
static void print_number(int32_t number, const char *after)
{
    const uint32_t whole = number < 0 ? 0u - (uint32_t)number : (uint32_t)number;
    printf("%s%" PRIu32 ".%06" PRIu32 "%s", number < 0 ? "-" : "", whole / 1000000, whole % 1000000, after);
}

static void print_points(const int32_t *points, size_t numbers, size_t axes)
{
    for (size_t i = 0; i < numbers; i++)
        print_number(points[i], (i + 1) % axes ? " " : "\n");
}

static int refused(uint32_t element, uint32_t refusal)
{
    fprintf(stderr, "element %" PRIu32 ": refused %" PRIu32 ": %s\n", element, refusal, kuhlabires_refusal_words(refusal));
    return 1;
}

static int print_polyline(const kuhlabires_tables *t, uint32_t element, int32_t tolerance)
{
    const size_t room = 3 * (size_t)KUHLABIRES_MOST_POLYLINE_POINTS;
    int32_t *points = memory_for(room);
    const kuhlabires_polyline_answer line = kuhlabires_tables_polyline(t, element, tolerance, points, room, 0);
    if (!line.refusal) {
        const size_t axes = kuhlabires_tables_element(t, element).kind == KUHLABIRES_CURV2 ? 2 : 3;
        print_points(points, axes * line.points, axes);
    }
    free(points);
    return line.refusal ? refused(element, line.refusal) : 0;
}

static int print_run(const kuhlabires_tables *t, uint32_t element, uint32_t steps)
{
    const size_t room = steps > KUHLABIRES_MOST_STEPS ? 0 : 3 * ((size_t)steps + 1);
    int32_t *points = memory_for(room);
    const kuhlabires_run run = kuhlabires_tables_run_on_curve(t, element, steps, points, room, 0);
    if (!run.refusal)
        print_points(points, run.numbers, run.numbers / ((size_t)steps + 1));
    free(points);
    return run.refusal ? refused(element, run.refusal) : 0;
}

int main(int count, char **words)
{
    const int polyline = count == 5 && !strcmp(words[3], "polyline");
    const int64_t element = count > 2 ? number_of(words[2], UINT32_MAX) : -1;
    const int64_t number = polyline ? number_of(words[4], INT32_MAX) : count == 4 ? number_of(words[3], UINT32_MAX) : -1;
    if (element < 0 || number < 0) {
        fprintf(stderr, "usage: points FILE ELEMENT STEPS, or points FILE ELEMENT polyline TOLERANCE, the tolerance in millionths\n");
        return 2;
    }
    size_t length;
    uint8_t *text = bytes_of(words[1], &length);
    if (!text) {
        perror(words[1]);
        return 2;
    }
    const kuhlabires_room room = kuhlabires_rooms(text, length);
    void *memory = memory_for(kuhlabires_room_entries(room));
    kuhlabires_tables t = kuhlabires_tables_in(room, memory);
    const kuhlabires_reading reading = kuhlabires_tables_read(&t, text, length);
    int failed = 1;
    if (reading.refusal) {
        const kuhlabires_position at = kuhlabires_position_of(text, length, reading.place);
        fprintf(stderr, "%s:%zu:%zu: refused %" PRIu32 " at %zu: %s\n", words[1], at.line, at.column, reading.refusal, reading.place,
                kuhlabires_refusal_words(reading.refusal));
    } else
        failed = polyline ? print_polyline(&t, (uint32_t)element, (int32_t)number) : print_run(&t, (uint32_t)element, (uint32_t)number);
    free(memory);
    free(text);
    return failed;
}
