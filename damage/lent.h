/*
 * Memory to lend: each block stands between two canaries, or alone in an allocation of exactly its size where valgrind or AddressSanitizer watches.
 * A block is filled before it is lent, so that what a call leaves alone and what it writes are both seen.
 */
#ifndef LENT_H
#define LENT_H

#include "kuhlabires.h"
#include <stdint.h>
#include <stdio.h>
#include <stdlib.h>
#include <string.h>
#include <valgrind/memcheck.h>

enum { TABLES = 11, V = 0, VP = 3, CORNERS = 4, ELEMENTS = 5, BODIES = 6, RANGES = 7, PARAMETERS = 8, FILLER = 0xa5 };

#if defined(__has_feature)
#if __has_feature(address_sanitizer)
#define WATCHED 1
#endif
#endif
#ifndef WATCHED
#define WATCHED RUNNING_ON_VALGRIND
#endif

/* Bytes before and after a block; with 68 a table is aligned to its entries and to no more. */
static size_t guard;

static inline void set_guard(void) {
    guard = WATCHED ? 0 : 68;
}

struct block {
    uint8_t *data;
    size_t size;
};

struct tables {
    struct block of[TABLES];
};

#define TABLE(t, i, type) (type *)(void *)(t)->of[i].data, (t)->of[i].size / 4
#define LEND(t)                                                                                                                                      \
    TABLE(t, 0, int32_t), TABLE(t, 1, int32_t), TABLE(t, 2, int32_t), TABLE(t, 3, int32_t), TABLE(t, 4, uint32_t), TABLE(t, 5, uint32_t),            \
        TABLE(t, 6, uint32_t), TABLE(t, 7, int32_t), TABLE(t, 8, int32_t), TABLE(t, 9, uint32_t), TABLE(t, 10, int32_t)

static inline uint8_t canary(size_t at) {
    return (uint8_t)(at * 37 + 11);
}

static inline struct block lend(size_t size) {
    uint8_t *start = malloc(size + 2 * guard);
    if (start == NULL) {
        fprintf(stderr, "no memory for %zu bytes\n", size);
        exit(2);
    }
    for (size_t at = 0; at < guard; at++) {
        start[at] = canary(at);
        start[guard + size + at] = canary(at);
    }
    struct block lent = {start + guard, size};
    memset(lent.data, FILLER, size);
    return lent;
}

static inline struct block lend_copy(const void *data, size_t size) {
    struct block lent = lend(size);
    if (size > 0) memcpy(lent.data, data, size);
    return lent;
}

static inline int intact(struct block lent) {
    for (size_t at = 0; at < guard; at++)
        if ((lent.data - guard)[at] != canary(at) || lent.data[lent.size + at] != canary(at)) return 0;
    return 1;
}

static inline void take_back(struct block lent) {
    free(lent.data - guard);
}

static inline struct tables lend_tables(const size_t lengths[TABLES]) {
    struct tables lent;
    for (int i = 0; i < TABLES; i++) lent.of[i] = lend(4 * lengths[i]);
    return lent;
}

static inline int tables_intact(const struct tables *lent) {
    for (int i = 0; i < TABLES; i++)
        if (!intact(lent->of[i])) return 0;
    return 1;
}

static inline void take_tables_back(const struct tables *lent) {
    for (int i = 0; i < TABLES; i++) take_back(lent->of[i]);
}

/* The lengths in which a text finds room, and whether they are as few as is promised. */
static inline int rooms_of(struct block text, size_t lengths[TABLES]) {
    const kuhlabires_room room = kuhlabires_rooms(text.data, text.size);
    const size_t entries[TABLES] = {room.v,      room.vt,     room.vn,         room.vp,    room.corners, room.elements,
                                    room.bodies, room.ranges, room.parameters, room.loops, room.spans};
    size_t all = 0;
    for (int i = 0; i < TABLES; i++) all += lengths[i] = entries[i];
    return all <= 11 * (text.size + 1);
}

/* How many entries of each table are used. */
static inline void entries_of(kuhlabires_used used, size_t lengths[TABLES]) {
    const size_t entries[TABLES] = {4 * (size_t)used.v,        3 * (size_t)used.vt,      3 * (size_t)used.vn,     4 * (size_t)used.vp,
                                    used.corners,              9 * (size_t)used.elements, 9 * (size_t)used.bodies, 4 * (size_t)used.bodies,
                                    used.parameters,           2 * (size_t)used.loops,   2 * (size_t)used.loops};
    memcpy(lengths, entries, sizeof entries);
}

/* Whether every byte from one on is that one. */
static inline int all_from(struct block lent, size_t from, uint8_t byte) {
    for (size_t at = from; at < lent.size; at++)
        if (lent.data[at] != byte) return 0;
    return 1;
}

#endif
