/* Every call with every slice at the end of a page before one that is not mapped, and at the begin of a page after one
 * that is not: with its exact length, and with 0 and 1 elements, while the other slices are exact. Slices that a call
 * only reads lie in pages that cannot be written. Result and slices are the reference's, and nothing else in the pages
 * is touched. */
#define _DEFAULT_SOURCE
#include "every_call.h"

#include <signal.h>
#include <stdio.h>
#include <string.h>
#include <sys/mman.h>
#include <sys/wait.h>
#include <unistd.h>

enum { PATTERN = 0xA5 };

/* Pages between two that are not mapped. */
typedef struct {
    uint8_t *begin, *end;
} pages;

static size_t page;
static pages for_slice[MOST_SLICES];
static unsigned long tried_ways;
static char now[200];

static pages new_pages(size_t bytes) {
    size_t length = (bytes + page - 1) / page * page;
    uint8_t *at = mmap(NULL, length + 2 * page, PROT_NONE, MAP_PRIVATE | MAP_ANONYMOUS, -1, 0);
    must(at != MAP_FAILED && mprotect(at + page, length, PROT_READ | PROT_WRITE) == 0, "no memory");
    return (pages){ at + page, at + page + length };
}

static void outside(int number) {
    static const char words[] = "FAILED: outside of a slice, or a write into one that is only read: ";
    (void)!write(1, words, sizeof words - 1);
    (void)!write(1, now, strlen(now));
    _exit(number);
}

/* The pages around a slice that are looked at: those that it touches, and up to a page more. */
static pages around(const slice *a, const pages *in, int at_end) {
    size_t length = (a->size * a->len / page + 1) * page;
    must(length <= (size_t)(in->end - in->begin), "more pages");
    return at_end ? (pages){ in->end - length, in->end } : (pages){ in->begin, in->begin + length };
}

/* The slice's elements at the begin or the end of its pages, and the pattern around them. */
static void put(slice *a, const pages *in, const void *from, int at_end) {
    size_t bytes = a->size * a->len, length = (size_t)(in->end - in->begin);
    pages near = around(a, in, at_end);
    must(mprotect(in->begin, length, PROT_READ | PROT_WRITE) == 0, "pages to write");
    memset(near.begin, PATTERN, (size_t)(near.end - near.begin));
    a->at = at_end ? near.end - bytes : near.begin;
    memcpy(a->at, from, bytes);
    if (!a->written) must(mprotect(in->begin, length, PROT_READ) == 0, "pages to read");
}

static int nothing_around(const slice *a, const pages *in, int at_end) {
    pages near = around(a, in, at_end);
    const uint8_t *begin = a->at, *end = begin + a->size * a->len;
    for (const uint8_t *b = near.begin; b < near.end; b++) if ((b < begin || b >= end) && *b != PATTERN) return 0;
    return 1;
}

/* One slice with another length; it and the others at one edge of their pages. */
static void one_way(int which, const task *exact, int other, size_t len, int at_end) {
    task expected = *exact, t;
    snprintf(now, sizeof now, "%s at m %u, slice %d of %zu elements, all at the %s of their pages\n",
             every_call[which].name, exact->m, other, len, at_end ? "end" : "begin");
    if (other >= 0) expected.slices[other].len = len;
    t = expected;
    expected = copy_of_task(&expected);
    for (int i = 0; i < t.count; i++) put(&t.slices[i], &for_slice[i], expected.slices[i].at, at_end);
    every_call[which].library(&t);
    every_call[which].reference(&expected);
    must(same_task(&t, &expected), now);
    for (int i = 0; i < t.count; i++) must(nothing_around(&t.slices[i], &for_slice[i], at_end), now);
    free_task(&expected);
    tried_ways++;
}

static void every_way(int which, uint32_t m, uint32_t kind) {
    task exact = new_task(which, m, 1 + below(below(2) ? 4 : HLQ_MOST_SLOTS), kind);
    for (int at_end = 0; at_end < 2; at_end++) {
        one_way(which, &exact, -1, 0, at_end);
        for (int i = 0; i < exact.count; i++)
            for (size_t len = 0; len < 2 && len < exact.slices[i].len; len++) one_way(which, &exact, i, len, at_end);
    }
    /* a place less of each; and all of them empty */
    for (int i = 0; i < exact.count; i++)
        if (exact.slices[i].len > 2) one_way(which, &exact, i, exact.slices[i].len - 1, 1);
    for (int i = 0; i < exact.count; i++) exact.slices[i].len = 0;
    one_way(which, &exact, -1, 0, 1);
    free_task(&exact);
}

/* A place past a slice is noticed: by a process of its own. */
static void must_notice(void) {
    int status;
    pid_t child = fork();
    must(child >= 0, "no process");
    if (child == 0) {
        must(freopen("/dev/null", "w", stdout) != NULL, "nowhere to say it");
        *(volatile uint8_t *)for_slice[0].end = 1;
        _exit(0);
    }
    must(waitpid(child, &status, 0) == child && WIFEXITED(status) && WEXITSTATUS(status) == SIGSEGV,
         "a write past the end of the pages is not noticed");
}

int main(void) {
    page = (size_t)sysconf(_SC_PAGESIZE);
    for (int i = 0; i < MOST_SLICES; i++) for_slice[i] = new_pages(1 << 18);
    signal(SIGSEGV, outside), signal(SIGBUS, outside);
    must_notice();
    for (int which = 0; which < EVERY_CALL; which++)
        for (uint32_t m = 0; m <= 6; m++)
            for (uint32_t kind = 0; kind < (m < 4 ? 5u : SOME(2u)); kind++) {
                seed(1000 * (uint32_t)which + 10 * m + kind);
                every_way(which, m, kind);
            }
    printf("pages: %d calls in %lu ways, each slice at the edge of its pages\n", EVERY_CALL, tried_ways);
    return 0;
}
