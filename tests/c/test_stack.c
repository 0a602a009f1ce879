/* How much stack each call needs, at the deepest m and the most slots: the calls run on a stack of our own that was
 * filled with a pattern, and the lowest place that has lost it tells. Fails where that passes HLQ_STACK_BYTES. Then all
 * run once more, on a stack of exactly so many bytes below which nothing is mapped. */
#define _GNU_SOURCE
#include "prowcurl.h"

#include <signal.h>
#include <stdio.h>
#include <stdlib.h>
#include <string.h>
#include <sys/mman.h>
#include <ucontext.h>
#include <unistd.h>

enum {
    M = HLQ_DEEPEST_M,
    S = HLQ_MOST_SLOTS,
    EDGE = 1 << M,
    PIXELS = EDGE * EDGE,
    MOST = HLQ_MOST_RECORDS(M),
    LOG = MOST + 16 * EDGE,
    PLACES = HLQ_SUMMARY_PLACES(M, S),
    STACK = 1 << 18
};

static uint8_t raster[PIXELS], back[PIXELS], file[HLQ_FILE_BYTES(MOST, S)], log_file[HLQ_LOG_FILE_BYTES(LOG)];
static uint32_t keys[MOST], bits[MOST], log_keys[LOG], log_values[LOG], answer[PIXELS], found_ids[PIXELS];
static uint32_t summary[PLACES], leaf_keys[PIXELS], leaf_features[PIXELS];
static size_t n, used, in_force, leaves, two;
static uint32_t two_keys[MOST], two_bits[MOST];
static uint8_t node_bits[HLQ_NODE_STRING_BYTES(MOST)], leaf_bits[HLQ_LEAF_STRING_BYTES(MOST)];
static uint32_t combined_keys[2 * MOST], combined_bits[2 * MOST];
static uint8_t table[S * S];

/* What the calls are asked: set before each. */
static uint32_t key, row, column, height, width, feature;
static const hlq_rule rules[] = { { 1, 0, 0, EDGE, EDGE, 3 },
                                  { 2, 1, 1, EDGE - 2, EDGE - 2, 5 },
                                  { 9, 7, 0, 500, EDGE, 0 } };
static uint32_t offices[HLQ_TABLE_PLACES], waiver_ids[HLQ_TABLE_PLACES], waiver_keys[HLQ_TABLE_PLACES];
static size_t rows;
static uint64_t refusal;

static void call_interface(void) { refusal = hlq_interface() == HLQ_INTERFACE ? HLQ_ACCEPTED : HLQ_SETTINGS; }
static void call_key_at(void) { refusal = hlq_key_at(M, row, column, M).refusal; }
static void call_block_of(void) { refusal = hlq_block_of(M, key).refusal; }
static void call_build(void) {
    hlq_counted built = hlq_build(M, S, raster, PIXELS, keys, MOST, bits, MOST, summary, PLACES);
    refusal = built.refusal, n = built.count;
}
static void call_raster(void) { refusal = hlq_raster(M, S, keys, MOST, bits, MOST, n, back, PIXELS).refusal; }
static void call_standing(void) { refusal = hlq_standing(M, S, keys, MOST, bits, MOST, n, key).refusal; }
static void call_part(void) { refusal = hlq_part(M, S, keys, MOST, bits, MOST, n, key).length == 0; }
static void call_exist(void) {
    refusal = hlq_exist(M, S, keys, MOST, bits, MOST, n, row, column, height, width, feature).refusal;
}
static void call_report(void) {
    refusal = hlq_report(M, S, keys, MOST, bits, MOST, n, row, column, height, width).refusal;
}
static void call_select(void) {
    refusal = hlq_select(M, S, keys, MOST, bits, MOST, n, row, column, height, width, feature, answer, PIXELS).refusal;
}
/* The map against a map of one leaf, which is its first record under the bits of one feature. */
static void call_combine(void) {
    static const uint32_t leaf_key[] = { 0 }, leaf_bits[] = { 2 };
    refusal = hlq_combine(M, S, keys, MOST, bits, MOST, n, M, S, leaf_key, 1, leaf_bits, 1, 1, S, table, sizeof table,
                          combined_keys, n, combined_bits, n)
                  .refusal;
    if (refusal == HLQ_ACCEPTED) /* and against itself, which has to be counted first in so little room */
        refusal = hlq_combine(M, S, keys, MOST, bits, MOST, n, M, S, keys, MOST, bits, MOST, n, S, table, sizeof table,
                              combined_keys, n, combined_bits, n)
                      .refusal;
}
static void call_fill(void) {
    refusal = hlq_fill_summary(M, S, keys, MOST, bits, MOST, n, summary, PLACES).refusal;
}
static void call_area(void) {
    refusal = hlq_area(M, S, keys, MOST, bits, MOST, n, summary, PLACES, row, column, height, width, feature).refusal;
}
/* The same windows, a row and a column further north-west: some reach over the edge. */
static void call_exist_clipped(void) {
    refusal = hlq_exist_clipped(M, S, keys, MOST, bits, MOST, n, (int32_t)row - 1, (int32_t)column - 1, height, width,
                                feature)
                  .refusal;
}
static void call_report_clipped(void) {
    refusal = hlq_report_clipped(M, S, keys, MOST, bits, MOST, n, (int32_t)row - 1, (int32_t)column - 1, height, width)
                  .refusal;
}
static void call_select_clipped(void) {
    refusal = hlq_select_clipped(M, S, keys, MOST, bits, MOST, n, (int32_t)row - 1, (int32_t)column - 1, height, width,
                                 feature, answer, PIXELS)
                  .refusal;
}
static void call_area_clipped(void) {
    refusal = hlq_area_clipped(M, S, keys, MOST, bits, MOST, n, summary, PLACES, (int32_t)row - 1, (int32_t)column - 1,
                               height, width, feature)
                  .refusal;
}
static void call_batch(void) {
    const hlq_question questions[] = {
        { 0, (int32_t)row - 1, (int32_t)column - 1, height, width, feature },
        { 1, (int32_t)row - 1, (int32_t)column - 1, height, width, feature },
        { 0, -1, -1, 1, 1, S },
    };
    refusal = hlq_batch(M, S, keys, MOST, bits, MOST, n, questions, 3, found_ids, 3, answer, 3).refusal;
}
static void call_paint(void) {
    hlq_edited e = hlq_paint(M, S, keys, MOST, bits, MOST, n, summary, PLACES, log_keys, LOG, log_values, LOG, used,
                             in_force, key, feature);
    refusal = e.refusal, n = e.n, used = e.used, in_force = e.in_force;
}
static void call_paint_window(void) {
    hlq_edited e = hlq_paint_window(M, S, keys, MOST, bits, MOST, n, summary, PLACES, log_keys, LOG, log_values, LOG,
                                    used, in_force, row, column, height, width, feature);
    refusal = e.refusal, n = e.n, used = e.used, in_force = e.in_force;
}
static void call_take_back(void) {
    hlq_edited e = hlq_take_back(M, S, keys, MOST, bits, MOST, n, summary, PLACES, log_keys, LOG, log_values, LOG,
                                 used, in_force);
    refusal = e.refusal, n = e.n, used = e.used, in_force = e.in_force;
}
static void call_redo(void) {
    hlq_edited e = hlq_redo(M, S, keys, MOST, bits, MOST, n, summary, PLACES, log_keys, LOG, log_values, LOG, used,
                            in_force);
    refusal = e.refusal, n = e.n, used = e.used, in_force = e.in_force;
}
static void call_empty(void) { refusal = hlq_empty().used; }
static void call_findings(void) {
    refusal = hlq_findings(M, S, keys, MOST, bits, MOST, n, 0, rules, 3, offices, HLQ_TABLE_PLACES, waiver_ids,
                           HLQ_TABLE_PLACES, waiver_keys, HLQ_TABLE_PLACES, rows, found_ids, PIXELS, answer, PIXELS)
                  .refusal;
}
static void call_add_waiver(void) {
    hlq_counted c = hlq_add_waiver(M, 0, offices, HLQ_TABLE_PLACES, waiver_ids, HLQ_TABLE_PLACES, waiver_keys,
                                   HLQ_TABLE_PLACES, rows, 1, 0);
    refusal = c.refusal, rows = c.count;
}
static void call_remove_waiver(void) {
    hlq_counted c = hlq_remove_waiver(M, 0, offices, HLQ_TABLE_PLACES, waiver_ids, HLQ_TABLE_PLACES, waiver_keys,
                                      HLQ_TABLE_PLACES, rows, 1, 0);
    refusal = c.refusal, rows = c.count;
}
static void call_store(void) { refusal = hlq_store(M, S, keys, MOST, bits, MOST, n, file, sizeof file).refusal; }
static void call_load(void) { refusal = hlq_load(file, HLQ_FILE_BYTES(n, S), keys, MOST, bits, MOST).refusal; }
static void call_store_log(void) {
    refusal = hlq_store_log(M, S, log_keys, LOG, log_values, LOG, used, in_force, log_file, sizeof log_file).refusal;
}
static void call_load_log(void) {
    refusal = hlq_load_log(log_file, HLQ_LOG_FILE_BYTES(used), log_keys, LOG, log_values, LOG).refusal;
}
static void call_write_leaves(void) {
    hlq_counted w = hlq_write_leaves(M, S, keys, MOST, bits, MOST, n, leaf_keys, PIXELS, leaf_features, PIXELS);
    refusal = w.refusal, leaves = w.count;
}
static void call_read_leaves(void) {
    refusal = hlq_read_leaves(M, S, leaf_keys, PIXELS, leaf_features, PIXELS, leaves, keys, MOST, bits, MOST).refusal;
}
static void call_write(void) {
    refusal = hlq_write_bit_strings(M, 2, two_keys, MOST, two_bits, MOST, two, node_bits, sizeof node_bits, leaf_bits,
                                    sizeof leaf_bits)
                  .refusal;
}
static void call_read(void) {
    refusal = hlq_read_bit_strings(M, 2, node_bits, HLQ_NODE_STRING_BYTES(two), leaf_bits, HLQ_LEAF_STRING_BYTES(two),
                                   two_keys, MOST, two_bits, MOST)
                  .refusal;
}

typedef struct {
    const char *name;
    void (*run)(void);
    size_t deepest;
} call;

enum { INTERFACE, KEY_AT, BLOCK_OF, BUILD, RASTER, STANDING, PART, EXIST, REPORT, SELECT, FILL_SUMMARY, AREA,
       EXIST_CLIPPED, REPORT_CLIPPED, SELECT_CLIPPED, AREA_CLIPPED, BATCH, PAINT, PAINT_WINDOW, TAKE_BACK, REDO, EMPTY,
       ADD_WAIVER, FINDINGS, REMOVE_WAIVER, STORE, LOAD, STORE_LOG, LOAD_LOG, WRITE_LEAVES, READ_LEAVES,
       WRITE, READ, COMBINE, CALLS };
static call calls[CALLS] = {
    { "interface", call_interface, 0 },
    { "key_at", call_key_at, 0 },       { "block_of", call_block_of, 0 }, { "build", call_build, 0 },
    { "raster", call_raster, 0 },       { "standing", call_standing, 0 }, { "part", call_part, 0 },
    { "exist", call_exist, 0 },         { "report", call_report, 0 },     { "select", call_select, 0 },
    { "fill_summary", call_fill, 0 },   { "area", call_area, 0 },
    { "exist_clipped", call_exist_clipped, 0 },   { "report_clipped", call_report_clipped, 0 },
    { "select_clipped", call_select_clipped, 0 }, { "area_clipped", call_area_clipped, 0 },
    { "batch", call_batch, 0 },
    { "paint", call_paint, 0 },         { "paint_window", call_paint_window, 0 },
    { "take_back", call_take_back, 0 }, { "redo", call_redo, 0 },
    { "empty", call_empty, 0 },
    { "add_waiver", call_add_waiver, 0 }, { "findings", call_findings, 0 },
    { "remove_waiver", call_remove_waiver, 0 },   { "store", call_store, 0 },       { "load", call_load, 0 },
    { "store_log", call_store_log, 0 }, { "load_log", call_load_log, 0 },
    { "write_leaves", call_write_leaves, 0 }, { "read_leaves", call_read_leaves, 0 },
    { "write_bit_strings", call_write, 0 },       { "read_bit_strings", call_read, 0 },
    { "combine", call_combine, 0 },
};

static _Alignas(64) uint8_t stack[STACK];
static uint8_t *caller; /* where the stack of the call and its arguments begins */
static void (*running)(void);
static ucontext_t outside, inside;

static void on_the_stack(void) {
    caller = __builtin_frame_address(0);
    running();
}

/* Where the pattern is this one, the call runs on the narrow stack. */
enum { NARROW = 0 };
static uint8_t *narrow;
static const char *now = "none";

static void run_on(uint8_t *at, size_t size, int which) {
    if (getcontext(&inside) != 0) abort();
    inside.uc_stack.ss_sp = at;
    inside.uc_stack.ss_size = size;
    inside.uc_link = &outside;
    running = calls[which].run, now = calls[which].name;
    makecontext(&inside, on_the_stack, 0);
    if (swapcontext(&outside, &inside) != 0) abort();
    if (refusal != HLQ_ACCEPTED) {
        printf("FAILED: %s was refused: %s\n", now, hlq_refusal_text(refusal));
        exit(1);
    }
}

/* A call may itself write the pattern where it goes deepest: there are two, and the narrow stack has the last word. */
static void measure(int which, uint8_t pattern) {
    if (pattern == NARROW) {
        run_on(narrow, HLQ_STACK_BYTES, which);
        return;
    }
    memset(stack, pattern, STACK);
    run_on(stack, STACK, which);
    size_t untouched = 0;
    while (untouched < STACK && stack[untouched] == pattern) untouched++;
    size_t depth = (size_t)(caller - (stack + untouched));
    if (depth > calls[which].deepest) calls[which].deepest = depth;
}

static void below_the_stack(int number) {
    static const char words[] = "FAILED: below a stack of HLQ_STACK_BYTES: ";
    (void)!write(1, words, sizeof words - 1);
    (void)!write(1, now, strlen(now));
    (void)!write(1, "\n", 1);
    _exit(number);
}

/* The narrow stack, with a page before it that is not mapped, and a handler that has a stack of its own. */
static void make_narrow_stack(void) {
    static uint8_t for_handler[1 << 16];
    size_t page = (size_t)sysconf(_SC_PAGESIZE), length = (HLQ_STACK_BYTES / page + 1) * page;
    uint8_t *at = mmap(NULL, page + length, PROT_NONE, MAP_PRIVATE | MAP_ANONYMOUS, -1, 0);
    stack_t handler = { .ss_sp = for_handler, .ss_size = sizeof for_handler };
    struct sigaction action = { .sa_handler = below_the_stack, .sa_flags = SA_ONSTACK };
    narrow = at + page;
    if (at == MAP_FAILED || mprotect(narrow, length, PROT_READ | PROT_WRITE) != 0) abort();
    if (sigaltstack(&handler, NULL) != 0 || sigaction(SIGSEGV, &action, NULL) != 0) abort();
}

static void ask_window(uint32_t a, uint32_t b, uint32_t c, uint32_t d, uint8_t pattern) {
    row = a, column = b, height = c, width = d;
    for (feature = 0; feature < S; feature += 3)
        for (int which = EXIST; which <= BATCH; which++) measure(which, pattern);
}

/* The list of the same map with its features taken in pairs, for the calls that want two. */
static void two_features(void) {
    enum { TWO_PLACES = HLQ_SUMMARY_PLACES(M, 2) };
    static uint32_t two_summary[TWO_PLACES];
    for (size_t i = 0; i < PIXELS; i++) back[i] = raster[i] & 1;
    two = hlq_build(M, 2, back, PIXELS, two_keys, MOST, two_bits, MOST, two_summary, TWO_PLACES).count;
}

/* The log into a file and back. */
static void log_there_and_back(uint8_t pattern) {
    measure(STORE_LOG, pattern);
    measure(LOAD_LOG, pattern);
}

/* A window painted, taken back, redone and taken back. */
static void paint_window(uint32_t a, uint32_t b, uint32_t c, uint32_t d, uint8_t pattern) {
    row = a, column = b, height = c, width = d, feature = 7;
    measure(PAINT_WINDOW, pattern);
    measure(TAKE_BACK, pattern);
    measure(REDO, pattern);
    measure(TAKE_BACK, pattern);
    log_there_and_back(pattern);
}

static void every_call(uint8_t pattern) {
    /* the root, two large blocks, three pixels, and four pixels at the last corner */
    static const uint32_t blocks[] = { 0, 1953125, 4 * 1953125 + 390625, 7324218, 2441406, 9765624, 9765620 };
    used = 0, in_force = 0;
    measure(BUILD, pattern);
    measure(RASTER, pattern);
    measure(EMPTY, pattern);
    ask_window(0, 0, EDGE, EDGE, pattern);
    ask_window(1, 1, EDGE - 2, EDGE - 2, pattern);
    ask_window(EDGE - 1, EDGE - 1, 1, 1, pattern);
    ask_window(EDGE / 2 - 1, 3, 2, EDGE - 7, pattern);
    measure(ADD_WAIVER, pattern);
    measure(FINDINGS, pattern);
    measure(REMOVE_WAIVER, pattern);
    measure(STORE, pattern);
    measure(LOAD, pattern);
    measure(COMBINE, pattern);
    measure(WRITE_LEAVES, pattern);
    measure(READ_LEAVES, pattern);
    two_features();
    measure(WRITE, pattern);
    measure(READ, pattern);
    for (size_t i = 0; i < sizeof blocks / sizeof *blocks; i++) {
        key = blocks[i], feature = (uint32_t)i;
        measure(INTERFACE, pattern);
        measure(KEY_AT, pattern);
        measure(BLOCK_OF, pattern);
        measure(STANDING, pattern);
        measure(PART, pattern);
        measure(PAINT, pattern);
        measure(TAKE_BACK, pattern);
        measure(REDO, pattern);
        measure(TAKE_BACK, pattern);
        log_there_and_back(pattern);
    }
    /* windows, of which the first has blocks of every size */
    paint_window(1, 1, EDGE - 2, EDGE - 2, pattern);
    paint_window(EDGE / 2 - 1, 3, 2, EDGE - 7, pattern);
    paint_window(0, 0, EDGE, EDGE, pattern);
    paint_window(EDGE - 1, EDGE - 1, 1, 1, pattern);
    /* several entries in one log, and single pixels into a map of one leaf */
    key = 0, feature = 1;
    measure(PAINT, pattern);
    for (size_t i = 5; i >= 3; i--) {
        key = blocks[i], feature = (uint32_t)i;
        measure(PAINT, pattern);
    }
    log_there_and_back(pattern);
    for (size_t i = 0; i < 4; i++) measure(TAKE_BACK, pattern);
}

static uint32_t below(uint32_t limit) {
    static uint64_t state = 88172645463325252u;
    state ^= state << 13, state ^= state >> 7, state ^= state << 17;
    return (uint32_t)((state >> 16) % limit);
}

int main(void) {
    make_narrow_stack();
    for (size_t i = 0; i < sizeof table; i++) table[i] = (uint8_t)((i / S + i % S) % S);
    for (int kind = 0; kind < 4; kind++) {
        memset(raster, 3, PIXELS);
        for (size_t i = 0; i < PIXELS; i++) {
            if (kind == 1) raster[i] = (uint8_t)below(S);
            if (kind == 2) raster[i] = (uint8_t)((i ^ i >> M) & 1);
            if (kind == 3 && below(5000) == 0) raster[i] = (uint8_t)below(S);
        }
        every_call(kind % 2 ? 0xA5 : 0x5A);
        every_call(NARROW);
    }
    size_t deepest = 0;
    for (int i = 0; i < CALLS; i++) {
        printf("  %-14s %5zu bytes of stack\n", calls[i].name, calls[i].deepest);
        if (calls[i].deepest > deepest) deepest = calls[i].deepest;
    }
    printf("stack: %zu bytes at most; the header says %d, and all calls ran in that\n", deepest, HLQ_STACK_BYTES);
    return deepest > HLQ_STACK_BYTES;
}
