/* The benchmark: each call of the library against the same work in plain C (plain.c), on the same input, in one run.
 * In the emulator it counts instructions, which count.c tells it; elsewhere it measures nanoseconds. It fails where the
 * two give different answers, and nowhere else: a ratio is no test. */
#define _GNU_SOURCE
#include "plain.h"

#include <stdio.h>
#include <stdlib.h>
#include <string.h>
#include <time.h>
#include <unistd.h>

enum { M = 10, S = 8, EDGE = 1 << M, PIXELS = EDGE * EDGE, MOST = HLQ_MOST_RECORDS(M) };
enum { PLACES = HLQ_SUMMARY_PLACES(M, S), LOG = 2 * MOST, ABSENT = S - 1 /* a feature that no map has */ };

static uint8_t raster[PIXELS], back[PIXELS], other_back[PIXELS], *file, *other_file;
static uint32_t keys[MOST], bits[MOST], other_keys[MOST], other_bits[MOST], summary[PLACES], other_summary[PLACES];
static uint32_t answer_keys[MOST], answer_bits[MOST]; /* a list that the library gives beside the map's */
static uint32_t answer[PIXELS], other_answer[PIXELS], answer2[PIXELS], other_answer2[PIXELS];
static uint32_t log_keys[LOG], log_values[LOG], other_log_keys[LOG], other_log_values[LOG];
static size_t n; /* the records of the map's list */

/* ---- measuring */

enum { COUNT_SO_FAR = 9999 }; /* no system call of Linux: bench/count.c answers it */

static int counting, rounds = 7, failed;
static double asking; /* what reading the count or the clock takes itself */

static double now(void) {
    uint64_t executed = 0;
    struct timespec t;
    if (counting) return syscall(COUNT_SO_FAR, &executed), (double)executed;
    clock_gettime(CLOCK_MONOTONIC, &t);
    return (double)t.tv_sec * 1e9 + (double)t.tv_nsec;
}

static void begin(void) {
    uint64_t executed = 0;
    syscall(COUNT_SO_FAR, &executed);
    counting = executed != 0;
    if (counting) rounds = 1; /* the next would count the same */
    asking = 1e18;
    for (int i = 0; i < 100; i++) {
        double start = now(), taken = now() - start;
        if (taken < asking) asking = taken;
    }
}

typedef struct {
    const char *call, *variant, *map;
    double ratio, library;
} line;
static line lines[400];
static size_t lines_count;
static const char *map;

static void note(const char *call, const char *variant, double library, double plain, int agree) {
    line l = { call, variant, map, library / plain, library };
    printf("%-22s %-22s %-8s %12.0f %12.0f %7.2f%s\n", call, variant, map, library, plain, l.ratio,
           agree ? "" : "  THE TWO DIFFER");
    fflush(stdout);
    failed |= !agree;
    if (lines_count < sizeof lines / sizeof *lines) lines[lines_count++] = l;
}

/* What a piece of work takes, if that is less than the best so far. */
#define MEASURE(best, repeats, work) \
    do { \
        const int turns = (repeats); \
        double start = now(); \
        for (int again = 0; again < turns; again++) { work; } \
        double taken = (now() - start - asking) / turns; \
        if (taken < (best)) (best) = taken; \
    } while (0)

/* The best of the rounds of each, in turn, so that both see the same machine; then whether the answers agree. */
#define COMPARE(call, variant, repeats, library, plain, agree) \
    do { \
        double best_library = 1e18, best_plain = 1e18; \
        for (int round = 0; round < rounds; round++) { \
            MEASURE(best_library, repeats, library); \
            MEASURE(best_plain, repeats, plain); \
        } \
        note(call, variant, best_library, best_plain, agree); \
    } while (0)

/* How often a round repeats a call: on a short list it takes less time than reading the clock. */
static int times(void) { return n > 1000 ? 1 : counting ? 10 : 1000; }

static int equal(const uint32_t *a, const uint32_t *b, size_t count) { return memcmp(a, b, 4 * count) == 0; }

static int rising(const void *a, const void *b) {
    double x = *(const double *)a, y = *(const double *)b;
    return (x > y) - (x < y);
}

/* The worst variant of each call on each map, and the median of all that are not small. */
static void print_worst(const char *const *maps) {
    double all[sizeof lines / sizeof *lines];
    size_t count = 0;
    printf("\n%-22s %-26s %-26s %s\n", "worst of", maps[0], maps[1], maps[2]);
    for (size_t i = 0; i < lines_count; i++) {
        size_t j = 0;
        while (strcmp(lines[j].call, lines[i].call) != 0) j++;
        if (lines[i].library >= 20000) all[count++] = lines[i].ratio;
        if (j < i) continue;
        printf("%-22s", lines[i].call);
        for (int k = 0; k < 3; k++) {
            const line *worst = NULL;
            for (j = i; j < lines_count; j++)
                if (!strcmp(lines[j].call, lines[i].call) && !strcmp(lines[j].map, maps[k]))
                    if (!worst || lines[j].ratio > worst->ratio) worst = lines + j;
            if (worst) printf(" %5.2f %-20s", worst->ratio, worst->variant);
            else printf(" %-26s", "");
        }
        printf("\n");
    }
    qsort(all, count, sizeof *all, rising);
    printf("\nmedian of the %zu ratios of calls of 20,000 %s or more: %.2f\n", count,
           counting ? "instructions" : "nanoseconds", count ? all[count / 2] : 0.0);
}

/* ---- maps */

static uint64_t state = 88172645463325252u;

static uint32_t below(uint32_t limit) {
    state ^= state << 13, state ^= state >> 7, state ^= state << 17;
    return (uint32_t)((state >> 16) % limit);
}

/* 0 one feature, 1 patches, 2 noise. */
static void fill(int kind) {
    memset(raster, 3, PIXELS);
    if (kind == 1)
        for (int i = 0; i < 300; i++) {
            uint32_t h = 1 + below(120), w = 1 + below(120), r = below(EDGE - h), c = below(EDGE - w);
            int feature = (int)below(ABSENT);
            for (uint32_t y = r; y < r + h; y++) memset(raster + (size_t)y * EDGE + c, feature, w);
        }
    if (kind == 2)
        for (size_t i = 0; i < PIXELS; i++) raster[i] = (uint8_t)below(ABSENT);
}

#define LIST M, S, keys, MOST, bits, MOST, n

/* ---- calls that need no map */

static void blocks(void) {
    uint64_t a = 0, b = 0;
    for (uint32_t level = 3; level <= M; level += M - 3) {
        char *variant = level == M ? "level 10" : "level 3";
        uint32_t step = level == M ? 1 : 78125, first = level == M ? 2441406 : 2421875; /* keys 111.. in base 5 */
        COMPARE("key at", variant, 1000, a += hlq_key_at(M, (uint32_t)again, 1023 - (uint32_t)again, level).key,
                b += plain_key_at(M, (uint32_t)again, 1023 - (uint32_t)again, level).key, a == b);
        COMPARE("block of", variant, 1000, a += hlq_block_of(M, first + step * (uint32_t)(again % 2)).column,
                b += plain_block_of(M, first + step * (uint32_t)(again % 2)).column, a == b);
    }
}

/* Full but for the row in the middle of office 1, which is added and removed. */
static void tables(void) {
    enum { TABLE = HLQ_TABLE_PLACES };
    static uint32_t offices[2][TABLE], ids[2][TABLE], waived[2][TABLE];
    double best[2][2] = { { 1e18, 1e18 }, { 1e18, 1e18 } };
    size_t rows = TABLE, other = TABLE;
    for (uint32_t i = 0; i < 2 * TABLE; i++)
        offices[i / TABLE][i % TABLE] = i % TABLE / HLQ_OFFICE_ROWS, ids[i / TABLE][i % TABLE] = i % HLQ_OFFICE_ROWS;
    for (int round = 0; round < 10 * rounds; round++) {
        MEASURE(best[0][0], 1,
                rows = hlq_remove_waiver(M, 1, offices[0], TABLE, ids[0], TABLE, waived[0], TABLE, rows, 128, 0).count);
        MEASURE(best[0][1], 1, other = plain_remove_waiver(M, 1, offices[1], ids[1], waived[1], other, 128, 0));
        MEASURE(best[1][0], 1,
                rows = hlq_add_waiver(M, 1, offices[0], TABLE, ids[0], TABLE, waived[0], TABLE, rows, 128, 0).count);
        MEASURE(best[1][1], 1, other = plain_add_waiver(M, 1, offices[1], ids[1], waived[1], other, 128, 0));
    }
    int agree = rows == TABLE && other == TABLE && equal(offices[0], offices[1], TABLE) &&
                equal(ids[0], ids[1], TABLE) && equal(waived[0], waived[1], TABLE);
    note("remove waiver", "full table", best[0][0], best[0][1], agree);
    note("add waiver", "full table", best[1][0], best[1][1], agree);
}

/* ---- a list and its raster */

static void build(void) {
    size_t a = 0, b = 0, made = n;
    for (int tight = 0; tight < 2; tight++) {
        size_t room = tight ? made : MOST;
        COMPARE("build", tight ? "exactly its room" : "room for any list", 1,
                a = hlq_build(M, S, raster, PIXELS, keys, room, bits, room, summary, PLACES).count,
                b = plain_survey(M, S, raster, other_keys, other_bits, room, other_summary),
                a == b && equal(keys, other_keys, a) && equal(bits, other_bits, a) &&
                equal(summary, other_summary, PLACES));
    }
}

static void lists(void) {
    hlq_done done;
    COMPARE("raster", "", 1, done = hlq_raster(LIST, back, PIXELS), {
        if (plain_is_list(M, S, keys, bits, n)) plain_raster(M, bits, other_back);
    }, done.refusal == 0 && memcmp(back, other_back, PIXELS) == 0);
    for (int leaf = 0; leaf < 2; leaf++) {
        uint32_t key = leaf ? keys[n - 1] : 0;
        const char *variant = leaf ? "the last leaf" : "the root";
        hlq_stands a, b = { 0, 0, 0, 0, 0, 0 };
        hlq_span c, d = { 0, 0 };
        COMPARE("standing", variant, times(), a = hlq_standing(LIST, key), {
            if (plain_is_list(M, S, keys, bits, n)) b = plain_standing(M, keys, bits, n, key);
        }, memcmp(&a, &b, sizeof a) == 0);
        COMPARE("part", variant, times(), c = hlq_part(LIST, key), {
            if (plain_is_list(M, S, keys, bits, n)) d = plain_part(M, keys, bits, n, key);
        }, memcmp(&c, &d, sizeof c) == 0);
    }
}

/* ---- questions */

typedef struct {
    const char *variant;
    int32_t row, column;
    uint32_t side, feature;
} asked;

static void strict(asked q) {
    uint32_t r = (uint32_t)q.row, c = (uint32_t)q.column, w = q.side;
    uint64_t a = 0, b = 0;
    COMPARE("exist", q.variant, times(), a = hlq_exist(LIST, r, c, w, w, q.feature).yes, {
        if (plain_is_list(M, S, keys, bits, n)) b = (uint64_t)plain_exist(M, keys, bits, n, r, c, w, w, q.feature);
    }, a == b);
    COMPARE("report", q.variant, times(), a = hlq_report(LIST, r, c, w, w).bits, {
        if (plain_is_list(M, S, keys, bits, n)) b = plain_report(M, keys, bits, n, r, c, w, w);
    }, a == b);
    COMPARE("select", q.variant, times(), a = hlq_select(LIST, r, c, w, w, q.feature, answer, PIXELS).count, {
        if (plain_is_list(M, S, keys, bits, n))
            b = plain_select(M, keys, bits, n, r, c, w, w, q.feature, other_answer, PIXELS);
    }, a == b && equal(answer, other_answer, a));
    COMPARE("area", q.variant, times(), a = hlq_area(LIST, summary, PLACES, r, c, w, w, q.feature).pixels,
            b = plain_area(M, S, keys, bits, n, summary, r, c, w, w, q.feature), a == b);
}

/* Over the north-west corner; plain C gets what is left of the window. */
static void clipped(asked q) {
    uint32_t r = 0, c = 0, h = q.side - (uint32_t)-q.row, w = q.side - (uint32_t)-q.column;
    uint64_t a = 0, b = 0;
    COMPARE("exist clipped", q.variant, times(),
            a = hlq_exist_clipped(LIST, q.row, q.column, q.side, q.side, q.feature).yes, {
                if (plain_is_list(M, S, keys, bits, n))
                    b = (uint64_t)plain_exist(M, keys, bits, n, r, c, h, w, q.feature);
            }, a == b);
    COMPARE("report clipped", q.variant, times(),
            a = hlq_report_clipped(LIST, q.row, q.column, q.side, q.side).bits, {
                if (plain_is_list(M, S, keys, bits, n)) b = plain_report(M, keys, bits, n, r, c, h, w);
            }, a == b);
    COMPARE("select clipped", q.variant, times(),
            a = hlq_select_clipped(LIST, q.row, q.column, q.side, q.side, q.feature, answer, PIXELS).count, {
                if (plain_is_list(M, S, keys, bits, n))
                    b = plain_select(M, keys, bits, n, r, c, h, w, q.feature, other_answer, PIXELS);
            }, a == b && equal(answer, other_answer, a));
    COMPARE("area clipped", q.variant, times(),
            a = hlq_area_clipped(LIST, summary, PLACES, q.row, q.column, q.side, q.side, q.feature).pixels,
            b = plain_area(M, S, keys, bits, n, summary, r, c, h, w, q.feature), a == b);
}

static void windows(void) {
    hlq_done done;
    int right = 0;
    COMPARE("fill summary", "", times(), done = hlq_fill_summary(LIST, summary, PLACES),
            right = plain_fill_summary(M, S, keys, bits, n, other_summary),
            done.refusal == 0 && right && equal(summary, other_summary, PLACES));
    strict((asked){ "side 8", 301, 277, 8, 3 });
    strict((asked){ "side 512", 301, 277, 512, 3 });
    strict((asked){ "side 512, not there", 301, 277, 512, ABSENT });
    clipped((asked){ "side 200", -40, -70, 200, 3 });
}

/* Half of them exist, half report, some over the edge or beyond it. */
static void batch(void) {
    enum { QUESTIONS = 5000 };
    static hlq_question questions[QUESTIONS];
    size_t a = 0, b = 0;
    for (uint32_t i = 0; i < QUESTIONS; i++)
        questions[i] = (hlq_question){ i % 2, (int32_t)below(EDGE) - 40, (int32_t)below(EDGE) - 40, 1 + below(200),
                                       1 + below(200), below(S) };
    COMPARE("batch", "5,000 questions", 1,
            a = hlq_batch(LIST, questions, QUESTIONS, answer, QUESTIONS, answer2, QUESTIONS).count,
            b = plain_batch(M, S, keys, bits, n, questions, QUESTIONS, other_answer, other_answer2),
            a == b && equal(answer, other_answer, a) && equal(answer2, other_answer2, a));
}

/* ---- edits */

/* A block's key, or where the height is not 0 a window. */
typedef struct {
    uint32_t key, row, column, height, width;
} stroke;

#define SURVEY LIST, summary, PLACES, log_keys, LOG, log_values, LOG, e.used, e.in_force
#define OTHER M, S, other_keys, other_bits, other_n

static hlq_edited paint(stroke w, hlq_edited e) {
    return w.height ? hlq_paint_window(SURVEY, w.row, w.column, w.height, w.width, 5) : hlq_paint(SURVEY, w.key, 5);
}

static size_t plain_stroke(stroke w, size_t other_n, plain_counts *c) {
    return w.height ? plain_paint_window(OTHER, MOST, other_summary, other_log_keys, other_log_values, LOG, c, w.row,
                                         w.column, w.height, w.width, 5)
                    : plain_paint(OTHER, other_summary, other_log_keys, other_log_values, c, w.key, 5);
}

static int same_survey(hlq_edited e, size_t other_n, plain_counts c) {
    return e.refusal == 0 && n == other_n && e.used == c.used && e.in_force == c.in_force &&
           equal(keys, other_keys, n) && equal(bits, other_bits, n) && equal(summary, other_summary, PLACES) &&
           equal(log_keys, other_log_keys, c.used) && equal(log_values, other_log_values, c.used);
}

/* Painted, taken back, redone, and taken back again: list and summary are then those of before. */
static void edits(const char *variant, stroke w) {
    static const char *const names[][3] = { { "paint", "take back", "redo" },
                                            { "paint window", "take back window", "redo window" } };
    double best[3][2] = { { 1e18, 1e18 }, { 1e18, 1e18 }, { 1e18, 1e18 } };
    int agree = 1;
    size_t other_n = n;
    memcpy(other_summary, summary, sizeof summary);
    memcpy(other_keys, keys, 4 * n), memcpy(other_bits, bits, 4 * n);
    for (int round = 0; round < rounds; round++) {
        hlq_edited e = { 0, n, 0, 0 };
        plain_counts c = { 0, 0 };
        MEASURE(best[0][0], 1, e = paint(w, e); n = e.n);
        MEASURE(best[0][1], 1, other_n = plain_stroke(w, other_n, &c));
        agree &= same_survey(e, other_n, c);
        for (int last = 0; last < 2; last++) {
            MEASURE(best[1][0], 1, e = hlq_take_back(SURVEY); n = e.n);
            MEASURE(best[1][1], 1,
                    other_n = plain_take_back(OTHER, MOST, other_summary, other_log_keys, other_log_values, &c));
            agree &= same_survey(e, other_n, c);
            if (last) break;
            MEASURE(best[2][0], 1, e = hlq_redo(SURVEY); n = e.n);
            MEASURE(best[2][1], 1,
                    other_n = plain_redo(OTHER, MOST, other_summary, other_log_keys, other_log_values, &c));
            agree &= same_survey(e, other_n, c);
        }
    }
    for (int i = 0; i < 3; i++) note(names[w.height > 0][i], variant, best[i][0], best[i][1], agree);
}

/* ---- findings */

/* The pixels of a small block in key order, or the block itself; sometimes it, or one around it that begins after the
 * last waiver, as well. */
static size_t waive_small(uint32_t key, uint32_t last, uint32_t *waived) {
    uint32_t step = 1, pixels = 1;
    size_t count = 0;
    for (; pixels < 256 && key % (5 * step) == 0; step *= 5) pixels *= 4;
    uint32_t around = key - key % (5 * step);
    if (last < around && around < key && below(4) == 0) waived[count++] = around;
    if (pixels == 1 || pixels == 256 || below(4) == 0) waived[count++] = key;
    if (pixels == 1 || pixels == 256) return count;
    for (uint32_t i = 0; i < pixels; i++) {
        uint32_t pixel = key;
        for (uint32_t p = pixels / 4, f = step / 5; p > 0; p /= 4, f /= 5) pixel += (1 + i / p % 4) * f;
        waived[count++] = pixel;
    }
    return count;
}

/* Waivers that are findings; or, where they are small, blocks below findings, some nested in others. Office 0 has as
 * many rows as office 1, which asks. */
static void findings(uint32_t rules_count, int small, const char *variant) {
    enum { RULES = 1000, WAIVERS = HLQ_OFFICE_ROWS, MORE = 80, TABLE = HLQ_TABLE_PLACES, FOUND = 1 << 22 };
    static uint32_t offices[TABLE], table_ids[TABLE], table_keys[TABLE], ids[WAIVERS + MORE], waived[WAIVERS + MORE];
    static uint32_t found_ids[FOUND], found_keys[FOUND], other_ids[FOUND], other_found[FOUND];
    static hlq_rule rules[RULES];
    size_t waivers = 0, hidden = 0, live = 0;
    for (uint32_t i = 0; i < rules_count; i++) {
        uint32_t h = 20 + below(80), w = 20 + below(80), last = 0;
        rules[i] = (hlq_rule) { 10 * i, below(EDGE - h), below(EDGE - w), h, w, below(S) };
        size_t count = plain_select(M, keys, bits, n, rules[i].row, rules[i].column, h, w, rules[i].feature, answer,
                                    PIXELS);
        for (size_t j = 0; j < count && waivers < 12 * (i + 1) && waivers < WAIVERS; j += 2) {
            size_t more = small ? waive_small(answer[j], last, waived + waivers) : (waived[waivers] = answer[j], 1);
            for (size_t k = 0; k < more; k++) ids[waivers++] = rules[i].id;
            if (more) last = waived[waivers - 1];
        }
    }
    if (waivers > WAIVERS) waivers = WAIVERS;
    for (size_t i = 0; i < waivers; i++) offices[i] = 0, table_ids[i] = (uint32_t)i, table_keys[i] = 0;
    for (size_t i = 0; i < waivers; i++)
        offices[waivers + i] = 1, table_ids[waivers + i] = ids[i], table_keys[waivers + i] = waived[i];
    hlq_found found;
    COMPARE("findings", variant, 1,
            found = hlq_findings(LIST, 1, rules, rules_count, offices, TABLE, table_ids, TABLE, table_keys, TABLE,
                                 2 * waivers, found_ids, FOUND, found_keys, FOUND),
            live = plain_findings(M, S, keys, bits, n, 1, rules, rules_count, offices, table_ids, table_keys,
                                  2 * waivers, other_ids, other_found, &hidden),
            found.refusal == 0 && found.live == live && found.hidden == hidden && equal(found_ids, other_ids, live) &&
            equal(found_keys, other_found, live));
}

/* ---- files, deliveries, bit strings */

static void files(uint32_t s, const char *variant) {
    size_t room = HLQ_FILE_BYTES(MOST, s), bytes = HLQ_FILE_BYTES(n, s), a = 0, b = 0;
    COMPARE("store", variant, times(), a = hlq_store(M, s, keys, MOST, bits, MOST, n, file, room).count, {
        if (plain_is_list(M, s, keys, bits, n)) b = plain_store(M, s, keys, bits, n, other_file);
    }, a == bytes && b == bytes && memcmp(file, other_file, bytes) == 0);
    COMPARE("load", variant, times(), a = hlq_load(file, bytes, answer_keys, MOST, answer_bits, MOST).n,
            b = plain_load(file, other_keys, other_bits),
            a == n && b == n && equal(answer_keys, other_keys, n) && equal(answer_bits, other_bits, n));
}

/* The log of one paint of the whole map: its entry has every record of the list. */
static void log_files(void) {
    size_t used = n + 2, bytes = HLQ_LOG_FILE_BYTES(used), a = 0, b = 0;
    memcpy(log_keys, keys, 4 * n), memcpy(log_values, bits, 4 * n);
    log_keys[n] = log_keys[n + 1] = 0, log_values[n] = (uint32_t)n, log_values[n + 1] = 0;
    COMPARE("store log", "", times(),
            a = hlq_store_log(M, S, log_keys, used, log_values, used, used, used, file, bytes).count,
            b = plain_store_log(M, S, log_keys, log_values, used, used, other_file),
            a == bytes && b == bytes && memcmp(file, other_file, bytes) == 0);
    COMPARE("load log", "", times(),
            a = hlq_load_log(other_file, bytes, log_keys, used, log_values, used).used,
            b = plain_load_log(other_file, other_log_keys, other_log_values),
            a == used && b == used && equal(log_keys, other_log_keys, used) &&
            equal(log_values, other_log_values, used));
}

/* Each pixel of the raster as a leaf of its own, in key order. */
static void deliver_pixels(uint32_t *leaf_keys, uint32_t *leaf_features) {
    for (uint32_t i = 0; i < PIXELS; i++) {
        uint32_t row = 0, column = 0;
        for (uint32_t b = 0; b < M; b++) row |= (i >> (2 * b + 1) & 1) << b, column |= (i >> 2 * b & 1) << b;
        leaf_keys[i] = (uint32_t)plain_key_at(M, row, column, M).key;
        leaf_features[i] = raster[(size_t)row * EDGE + column];
    }
}

static void read_leaves(const char *variant, size_t leaves, int repeats) {
    size_t a = 0, b = 0;
    COMPARE("read leaves", variant, repeats,
            a = hlq_read_leaves(M, S, answer, leaves, answer2, leaves, leaves, answer_keys, MOST, answer_bits, MOST)
                    .count,
            b = plain_read_leaves(M, S, answer, answer2, leaves, other_keys, other_bits, MOST),
            a == n && b == n && equal(answer_keys, keys, n) && equal(other_keys, keys, n) &&
            equal(answer_bits, bits, n) && equal(other_bits, bits, n));
}

static void leaf_lists(void) {
    size_t a = 0, b = 0;
    COMPARE("write leaves", "", times(), a = hlq_write_leaves(LIST, answer, PIXELS, answer2, PIXELS).count, {
        if (plain_is_list(M, S, keys, bits, n)) b = plain_write_leaves(keys, bits, n, other_answer, other_answer2);
    }, a == b && equal(answer, other_answer, a) && equal(answer2, other_answer2, a));
    read_leaves("merged", n - n / 4, times());
    deliver_pixels(answer, answer2);
    read_leaves("single pixels", PIXELS, 1);
}

/* The same map with its features taken in pairs. */
static void bit_strings(void) {
    enum { TWO_PLACES = HLQ_SUMMARY_PLACES(M, 2) };
    static uint32_t two_keys[MOST], two_bits[MOST], two_summary[TWO_PLACES];
    static uint8_t nodes[2][HLQ_NODE_STRING_BYTES(MOST)], leaves[2][HLQ_LEAF_STRING_BYTES(MOST)];
    for (size_t i = 0; i < PIXELS; i++) back[i] = raster[i] & 1;
    size_t two = hlq_build(M, 2, back, PIXELS, two_keys, MOST, two_bits, MOST, two_summary, TWO_PLACES).count;
    size_t node_bytes = HLQ_NODE_STRING_BYTES(two), leaf_bytes = HLQ_LEAF_STRING_BYTES(two), a = 0, b = 0;
    COMPARE("write bit strings", "", times(),
            a = hlq_write_bit_strings(M, 2, two_keys, MOST, two_bits, MOST, two, nodes[0], sizeof nodes[0], leaves[0],
                                      sizeof leaves[0])
                    .leaf_bytes,
            {
                if (plain_is_list(M, 2, two_keys, two_bits, two))
                    b = (plain_write_bits(two_bits, two, nodes[1], leaves[1]) + 7) / 8;
            },
            a == b && memcmp(nodes[0], nodes[1], node_bytes) == 0 && memcmp(leaves[0], leaves[1], leaf_bytes) == 0);
    COMPARE("read bit strings", "", times(),
            a = hlq_read_bit_strings(M, 2, nodes[0], node_bytes, leaves[0], leaf_bytes, answer_keys, MOST, answer_bits,
                                     MOST)
                    .count,
            b = plain_read_bits(M, nodes[0], node_bytes, leaves[0], leaf_bytes, other_keys, other_bits, MOST),
            a == two && b == two && equal(answer_keys, two_keys, two) && equal(other_keys, two_keys, two) &&
            equal(answer_bits, two_bits, two) && equal(other_bits, two_bits, two));
}

/* ---- combine: with a patchy map, and a class for every pair */

static uint32_t patchy_keys[MOST], patchy_bits[MOST];
static size_t patchy_n;

static void combine(void) {
    static uint8_t table[S * S];
    static uint32_t out[4][2 * MOST]; /* keys and bits of the library, and of plain C */
    size_t made = 0, other = 0, expected = 2 * MOST;
    for (size_t i = 0; i < sizeof table; i++) table[i] = (uint8_t)((i / S + 3 * (i % S)) % S);
    for (int tight = 0; tight < 2; tight++) {
        size_t room = expected;
        COMPARE("combine", tight ? "exactly its room" : "room for any list", 1,
                made = hlq_combine(LIST, M, S, patchy_keys, MOST, patchy_bits, MOST, patchy_n, S, table, sizeof table,
                                   out[0], room, out[1], room)
                           .count,
                {
                    if (plain_is_list(M, S, keys, bits, n) && plain_is_list(M, S, patchy_keys, patchy_bits, patchy_n))
                        other = plain_combine(M, bits, n, S, patchy_bits, patchy_n, table, out[2], out[3], room);
                },
                made == other && equal(out[0], out[2], made) && equal(out[1], out[3], made));
        expected = made;
    }
}

int main(void) {
    static const char *const maps[] = { "uniform", "patchy", "noisy" };
    file = malloc(HLQ_LOG_FILE_BYTES(MOST + 2)), other_file = malloc(HLQ_LOG_FILE_BYTES(MOST + 2));
    if (!file || !other_file) return 1;
    begin();
    printf("m = %d, s = %d, library and plain C in %s\n", M, S, counting ? "instructions" : "nanoseconds");
    printf("%-22s %-22s %-8s %12s %12s %7s\n", "call", "variant", "map", "library", "plain C", "ratio");
    map = maps[0];
    blocks();
    tables();
    fill(1);
    patchy_n = hlq_build(M, S, raster, PIXELS, patchy_keys, MOST, patchy_bits, MOST, summary, PLACES).count;
    for (int kind = 0; kind <= 2; kind++) {
        map = maps[kind];
        fill(kind);
        n = hlq_build(M, S, raster, PIXELS, keys, MOST, bits, MOST, summary, PLACES).count;
        printf("%s map: %zu records\n", map, n);
        build();
        lists();
        windows();
        batch();
        edits("pixel", (stroke) { (uint32_t)plain_key_at(M, 301, 277, M).key, 0, 0, 0, 0 });
        edits("8 by 8 pixels", (stroke) { (uint32_t)plain_key_at(M, 301, 277, M - 3).key, 0, 0, 0, 0 });
        edits("the whole map", (stroke) { 0, 0, 0, 0, 0 });
        edits("512 by 512", (stroke) { 0, 301, 277, 512, 512 });
        edits("1 by 1024", (stroke) { 0, 517, 0, 1, EDGE });
        combine();
        findings(10, 0, "10 rules");
        findings(1000, 0, "1,000 rules");
        findings(1000, 1, "1,000, small waivers");
        files(S, "8 slots");
        files(HLQ_MOST_SLOTS, "32 slots");
        log_files();
        leaf_lists();
        bit_strings();
    }
    print_worst(maps);
    free(file), free(other_file);
    return failed;
}
