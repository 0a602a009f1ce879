/* A call of the library beside the same call of the reference: buffers as they are lent, in pieces of exactly their
 * size, and the end of the fuzzer where the two answer or write otherwise. */
#ifndef COMPARE_H
#define COMPARE_H

#include "reference.h"

#include <stdio.h>
#include <stdlib.h>
#include <string.h>

/* Short stacks of memory, and little of it kept after it was given back: most of the time goes there. */
const char *__asan_default_options(void);
const char *__asan_default_options(void) { return "detect_leaks=0:malloc_context_size=2:quarantine_size_mb=1"; }

/* The two copies of a buffer of numbers that a call writes: the library's and the reference's. */
typedef struct {
    uint32_t *ours, *theirs;
    size_t len;
} pair;

static inline void must(int truth, const char *words) {
    if (truth) return;
    fprintf(stderr, "FAILED: %s\n", words);
    abort();
}

/* All but the last elements hold what no call would write unseen. */
static inline pair lend(size_t len) {
    pair p = { malloc(len ? 4 * len : 1), malloc(len ? 4 * len : 1), len };
    memset(p.ours, 0xa5, 4 * len);
    memset(p.theirs, 0xa5, 4 * len);
    return p;
}

static inline void same(pair *p, const char *what) {
    must(p->len == 0 || memcmp(p->ours, p->theirs, 4 * p->len) == 0, what);
    free(p->ours);
    free(p->theirs);
}

/* Bytes in a piece of exactly their size. */
static inline uint8_t *exactly(const uint8_t *bytes, size_t size) {
    uint8_t *copy = malloc(size ? size : 1);
    if (size) memcpy(copy, bytes, size);
    return copy;
}

/* The input, from the front; zeros follow it. */
typedef struct {
    const uint8_t *at;
    size_t left;
} input;

static inline uint8_t take_byte(input *in) {
    if (in->left == 0) return 0;
    in->left--;
    return *in->at++;
}

/* A number of up to four bytes, mostly a small one. */
static inline uint32_t take_number(input *in) {
    uint32_t number = take_byte(in);
    if (number < 224) return number;
    number = take_byte(in);
    for (int i = 1; i < 4; i++) number |= (uint32_t)take_byte(in) << 8 * i;
    return number;
}

#define SAME_ANSWER(a, b, what) must(memcmp(&(a), &(b), sizeof(a)) == 0, what)

#endif
