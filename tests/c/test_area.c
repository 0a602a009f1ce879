/* The summary and the areas against the reference: all windows of small maps, summaries wrong in each single place, too
 * short and too long, damaged lists, several errors in one call. */
#include "support.h"

#include <stdlib.h>
#include <string.h>

/* A list and a summary, lent as they are, with room to spare. */
typedef struct {
    lent keys, bits, summary;
    size_t n;
} lent_map;

static lent_map lend_map(map a, size_t places) {
    lent_map l = { lend(a.n + below(3), 4), lend(a.n + below(3), 4), lend(places, 4), a.n };
    memcpy(start(l.keys), a.keys, 4 * a.n), memcpy(start(l.bits), a.bits, 4 * a.n);
    return l;
}

static void give_back_map(lent_map l) { give_back(l.keys), give_back(l.bits), give_back(l.summary); }

static void try_fill(map a, size_t n, size_t places) {
    lent_map l = lend_map(a, places);
    lent keys = copy_of(l.keys), bits = copy_of(l.bits), summary = copy_of(l.summary);
    hlq_done x = hlq_fill_summary(a.m, a.s, start(l.keys), l.keys.len, start(l.bits), l.bits.len, n, start(l.summary),
                                  places);
    hlq_done y = ref_fill_summary(a.m, a.s, start(keys), keys.len, start(bits), bits.len, n, start(summary), places);
    same_results(CALL_FILL_SUMMARY, y.refusal, &x, &y, sizeof x);
    same_buffers("summary after filling", l.summary, summary);
    same_buffers("keys, only read", l.keys, keys);
    same_buffers("bits, only read", l.bits, bits);
    give_back_map(l), give_back(keys), give_back(bits), give_back(summary);
}

static void try_area(map a, size_t n, const uint32_t *numbers, size_t places, uint32_t row, uint32_t column,
                     uint32_t height, uint32_t width, uint32_t feature) {
    lent_map l = lend_map(a, places);
    memcpy(start(l.summary), numbers, 4 * places);
    lent keys = copy_of(l.keys), bits = copy_of(l.bits), summary = copy_of(l.summary);
    hlq_measured x = hlq_area(a.m, a.s, start(l.keys), l.keys.len, start(l.bits), l.bits.len, n, start(l.summary),
                              places, row, column, height, width, feature);
    hlq_measured y = ref_area(a.m, a.s, start(keys), keys.len, start(bits), bits.len, n, start(summary), places, row,
                              column, height, width, feature);
    same_results(CALL_AREA, y.refusal, &x, &y, sizeof x);
    same_buffers("summary, only read", l.summary, summary);
    same_buffers("keys, only read", l.keys, keys);
    same_buffers("bits, only read", l.bits, bits);
    give_back_map(l), give_back(keys), give_back(bits), give_back(summary);
}

/* The summary of a map, with one place to spare. */
static uint32_t *summary_of(map a) {
    uint32_t *summary = room_for(4 * (HLQ_SUMMARY_PLACES(a.m, a.s) + 1));
    ref_fill_summary(a.m, a.s, a.keys, a.n, a.bits, a.n, a.n, summary, HLQ_SUMMARY_PLACES(a.m, a.s));
    summary[HLQ_SUMMARY_PLACES(a.m, a.s)] = 0;
    return summary;
}

/* Every window of the map. */
static void all_windows(uint32_t m) {
    map a = random_map(m);
    uint32_t *summary = summary_of(a), edge = 1u << m;
    size_t places = HLQ_SUMMARY_PLACES(a.m, a.s);
    for (uint32_t r = 0; r < edge; r++)
        for (uint32_t c = 0; c < edge; c++)
            for (uint32_t h = 1; r + h <= edge; h++)
                for (uint32_t w = 1; c + w <= edge; w++)
                    try_area(a, a.n, summary, places, r, c, h, w, below(a.s));
    free(summary), free_map(a);
}

static void any_window(map a, size_t n, const uint32_t *summary, size_t places) {
    uint32_t edge = 1u << a.m, h = 1 + below(edge), w = 1 + below(edge);
    try_area(a, n, summary, places, below(edge - h + 1), below(edge - w + 1), h, w, below(a.s));
}

/* Each place wrong by one, up or down; too short, too long, none. */
static void wrong_summaries(map a, uint32_t *summary) {
    size_t places = HLQ_SUMMARY_PLACES(a.m, a.s);
    for (size_t i = 0; i < places; i++) {
        uint32_t kept = summary[i];
        summary[i] = below(2) ? kept + 1 : kept - 1;
        any_window(a, a.n, summary, places);
        if (i + 1 < places) { /* the sum of the two stays right */
            summary[i] = kept + 1, summary[i + 1]--;
            any_window(a, a.n, summary, places);
            summary[i + 1]++;
        }
        summary[i] = kept;
    }
    any_window(a, a.n, summary, places - 1);
    any_window(a, a.n, summary, places + 1);
    any_window(a, a.n, summary, 0);
    try_fill(a, a.n, places - 1), try_fill(a, a.n, places + 1), try_fill(a, a.n, 0);
}

static void maps(uint32_t m) {
    map a = random_map(m);
    uint32_t *summary = summary_of(a), edge = 1u << m;
    size_t places = HLQ_SUMMARY_PLACES(a.m, a.s);
    try_fill(a, a.n, places);
    for (uint32_t i = 0; i < 8; i++) any_window(a, a.n, summary, places);
    try_area(a, a.n, summary, places, 0, 0, edge, edge, below(a.s));
    if (m <= 5) wrong_summaries(a, summary);
    try_area(a, a.n, summary, places, 0, 1, edge, edge, below(a.s));
    try_area(a, a.n, summary, places, 0, 0, 0, 1, a.s);
    try_area(a, a.n, summary, places, 0, 0, 1, 1, a.s + below(3));
    try_area(a, a.n, summary, places - 1, 0, 0, 0, 1, a.s);
    try_area(a, a.n, summary, places, 0xFFFFFFFFu, 0, 2, 1, 0);
    any_window(a, a.n + 5, summary, places);
    for (uint32_t i = 0; i < 4 && m < 8; i++) {
        map b = a;
        b.keys = room_for(4 * (a.n + 8)), b.bits = room_for(4 * (a.n + 8));
        memcpy(b.keys, a.keys, 4 * a.n), memcpy(b.bits, a.bits, 4 * a.n);
        damage(&b);
        if (b.s == a.s && b.m == a.m) any_window(b, b.n, summary, places);
        try_fill(b, b.n, places);
        free_map(b);
    }
    a.s = below(2) ? 0 : HLQ_MOST_SLOTS + 1;
    try_fill(a, 0, 0);
    try_area(a, a.n, summary, places, 0, 0, 0, 0, 0);
    free(summary), free_map(a);
}

int main(void) {
    for (uint32_t m = 0; m <= 3; m++)
        for (uint32_t i = 0; i < SOME(m < 3 ? 40u : 12u); i++) seed(77 * m + i), all_windows(m);
    for (uint32_t m = 0; m <= HLQ_DEEPEST_M; m++)
        for (uint32_t i = 0; i < SOME(m <= 4 ? 120u : m <= 6 ? 20u : 2u); i++) seed(1000 * m + i), maps(m);
    expect_pairs(CALL_FILL_SUMMARY, 1u << 0 | 1u << 1 | 1u << 4 | 1u << 18);
    expect_pairs(CALL_AREA, 1u << 0 | 1u << 1 | 1u << 4 | 1u << 18 | 1u << 6 | 1u << 7);
    return finish("area");
}
