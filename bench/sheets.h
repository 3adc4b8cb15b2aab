/* The sheets that are measured, built in memory, always the same bytes. */
#ifndef SHEETS_H
#define SHEETS_H

#include <stddef.h>
#include <stdint.h>

#define SHEET_MOST 60000

struct shape {
    const char *name;
    void (*fill)(const struct shape *shape, size_t size);
    int floor;      /* for the sheets of one kind: which, and the scope of its loops */
    uint32_t scope;
};

/* The shapes that are timed, and those that are only run for their stack. Each list ends with a null name. */
extern const struct shape shapes[], worst[];

/* Writes the sheet of this shape with at most so many bytes; returns how many. The place must have room for SHEET_MOST. */
size_t build_sheet(const struct shape *shape, size_t size, uint8_t *place);

const struct shape *shape_named(const char *name);

#endif
