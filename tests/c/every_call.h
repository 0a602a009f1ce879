/* Every call of prowcurl.h as a task: the slices that it is lent, with their exact lengths, and its numbers, so that a
 * test can run all calls in one way, by the library or by the reference. */
#ifndef EVERY_CALL_H
#define EVERY_CALL_H

#include "support.h"

enum { MOST_SLICES = 8, RESULT = 8 };

/* A slice as it is lent: `written` where the call may write it. */
typedef struct {
    void *at;
    size_t size, len;
    int written;
} slice;

typedef struct {
    uint32_t m, s, m2, s2, s3, key, feature, row, column, height, width, level, office, id;
    size_t n, n2, used, in_force, rows, leaves;
    slice slices[MOST_SLICES];
    int count; /* of slices */
    uint64_t result[RESULT];
} task;

typedef struct {
    const char *name;
    void (*library)(task *t), (*reference)(task *t);
} known_call;

enum { EVERY_CALL = 34 };
extern const known_call every_call[EVERY_CALL];

/* The call on a random map, accepted, with exactly the lengths that it needs; the slices lie in memory of their own.
 * The map is of a kind of fill_raster. */
task new_task(int which, uint32_t m, uint32_t s, uint32_t kind);
task copy_of_task(const task *t);
void free_task(task *t);
/* Whether result and slices are the same. */
int same_task(const task *a, const task *b);

#endif
