/* Waivers: rows of an office for a rule and a block of a sheet, which the library's own calls judge. */
#ifndef WAIVERS_H
#define WAIVERS_H

#include "window.h"

/* A table of waivers in memory, as the library takes it. */
typedef struct {
    uint32_t memory[HLQ_TABLE_NUMBERS];
    hlq_table table;
} waiver_table;

/* The waivers of both offices on a sheet, each put in by the library's call. */
waiver_table *read_waivers(line *l, uint32_t i, uint32_t j);

/* A row more or less. They give the refusal: 21 no office, 8 no key, 22 the row is there or is not, 12 the office has
 * 256 rows on that sheet, 14 the office has no such rule. Nothing is changed where it is not 0. */
hlq_refusal add_waiver(line *l, uint32_t office, uint32_t rule, block b, const char *note, const char *by,
                       const char *at);
hlq_refusal remove_waiver(line *l, uint32_t office, uint32_t rule, block b);

/* Waivers that go in together. */
typedef struct {
    uint32_t office, rule;
    block b;
    const char *note, *by, *at;
    const char *where; /* for messages; NULL where it is plain */
} waiver;

/* Adds those that are not there yet, and gives their number; or ends, with nothing added, where an office would have
 * more than 256 rows on a sheet, or has no such rule. */
uint64_t add_waivers(line *l, const waiver *rows, size_t count);

#endif
