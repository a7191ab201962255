/* Tables of a text's rooms, and a file read into them, for the drivers that ask of them. */
#ifndef TABLES_H
#define TABLES_H

#include "driver.h"
#include "kuhlabires.h"

/* One after the other in so many bytes, from tables.v on. */
static kuhlabires_tables tables;
static size_t tables_size;

static inline void lend_tables(const uint8_t *text, size_t n)
{
    const kuhlabires_room room = kuhlabires_rooms(text, n);
    free(tables.v);
    tables_size = kuhlabires_room_entries(room) * sizeof(int32_t);
    tables = kuhlabires_tables_in(room, malloc(tables_size));
}

static inline void read_file(const char *name)
{
    size_t n;
    uint8_t *text = (uint8_t *)bytes_of(name, &n);
    lend_tables(text, n);
    if (kuhlabires_tables_read(&tables, text, n).refusal)
        exit(2);
}

#endif
