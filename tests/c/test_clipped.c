/* Exist, report, select and area clipped, against the reference: every window within a margin of 2 around every small
 * map, windows that touch an edge or miss it by one, the ends of the 32-bit numbers, damaged lists, wrong summaries,
 * several errors in one call; and against the strict calls where the window lies in the raster. */
#include "support.h"

/* The list's summary; now and then with a number that is wrong, or a place too few. */
static void try_area(map a, size_t n, int32_t row, int32_t column, uint32_t height, uint32_t width, uint32_t feature) {
    uint32_t summary[HLQ_SUMMARY_PLACES(HLQ_DEEPEST_M, HLQ_MOST_SLOTS)] = { 0 };
    int bad = a.m > HLQ_DEEPEST_M || a.s == 0 || a.s > HLQ_MOST_SLOTS;
    size_t places = bad ? 1 : HLQ_SUMMARY_PLACES(a.m, a.s);
    ref_fill_summary(a.m, a.s, a.keys, a.n, a.bits, a.n, n, summary, places);
    if (below(16) == 0) summary[below((uint32_t)places)]++;
    if (below(16) == 0) places--;
    hlq_measured x = hlq_area_clipped(a.m, a.s, a.keys, a.n, a.bits, a.n, n, summary, places, row, column, height,
                                      width, feature);
    hlq_measured y = ref_area_clipped(a.m, a.s, a.keys, a.n, a.bits, a.n, n, summary, places, row, column, height,
                                      width, feature);
    same_results(CALL_AREA_CLIPPED, y.refusal, &x, &y, sizeof x);
}

static void try_dragged(map a, size_t n, int32_t row, int32_t column, uint32_t height, uint32_t width, uint32_t feature,
                        size_t answer_len) {
    hlq_exists a1 = hlq_exist_clipped(a.m, a.s, a.keys, a.n, a.bits, a.n, n, row, column, height, width, feature);
    hlq_exists b1 = ref_exist_clipped(a.m, a.s, a.keys, a.n, a.bits, a.n, n, row, column, height, width, feature);
    same_results(CALL_EXIST_CLIPPED, b1.refusal, &a1, &b1, sizeof a1);
    hlq_reported a2 = hlq_report_clipped(a.m, a.s, a.keys, a.n, a.bits, a.n, n, row, column, height, width);
    hlq_reported b2 = ref_report_clipped(a.m, a.s, a.keys, a.n, a.bits, a.n, n, row, column, height, width);
    same_results(CALL_REPORT_CLIPPED, b2.refusal, &a2, &b2, sizeof a2);
    lent answer = lend(answer_len, 4), ref_answer = copy_of(answer);
    hlq_counted a3 = hlq_select_clipped(a.m, a.s, a.keys, a.n, a.bits, a.n, n, row, column, height, width, feature,
                                        start(answer), answer_len);
    hlq_counted b3 = ref_select_clipped(a.m, a.s, a.keys, a.n, a.bits, a.n, n, row, column, height, width, feature,
                                        start(ref_answer), answer_len);
    same_results(CALL_SELECT_CLIPPED, b3.refusal, &a3, &b3, sizeof a3);
    same_buffers("answer of select clipped", answer, ref_answer);
    give_back(answer), give_back(ref_answer);
    try_area(a, n, row, column, height, width, feature);
}

/* On a window of the raster the clipped calls answer as the strict ones. */
static void same_as_strict(map a, uint32_t row, uint32_t column, uint32_t height, uint32_t width, uint32_t feature) {
    hlq_exists a1 = hlq_exist_clipped(a.m, a.s, a.keys, a.n, a.bits, a.n, a.n, (int32_t)row, (int32_t)column, height,
                                      width, feature);
    hlq_exists b1 = hlq_exist(a.m, a.s, a.keys, a.n, a.bits, a.n, a.n, row, column, height, width, feature);
    must(a1.refusal == b1.refusal && a1.yes == b1.yes, "exist clipped and exist differ in the raster");
    hlq_reported a2 = hlq_report_clipped(a.m, a.s, a.keys, a.n, a.bits, a.n, a.n, (int32_t)row, (int32_t)column, height,
                                         width);
    hlq_reported b2 = hlq_report(a.m, a.s, a.keys, a.n, a.bits, a.n, a.n, row, column, height, width);
    must(a2.refusal == b2.refusal && a2.bits == b2.bits, "report clipped and report differ in the raster");
}

/* All windows within the margin, of height and width 0 too. */
static void every_window(uint32_t m) {
    enum { MARGIN = 2 };
    map a = random_map(m);
    int32_t edge = 1 << m, end = edge + MARGIN;
    for (int32_t row = -MARGIN; row <= end; row++)
        for (int32_t column = -MARGIN; column <= end; column++)
            for (int32_t height = 0; row + height <= end; height++)
                for (int32_t width = 0; column + width <= end; width++) {
                    uint32_t feature = below(a.s + 1);
                    try_dragged(a, a.n, row, column, (uint32_t)height, (uint32_t)width, feature, below(17));
                    if (row >= 0 && column >= 0 && row + height <= edge && column + width <= edge)
                        same_as_strict(a, (uint32_t)row, (uint32_t)column, (uint32_t)height, (uint32_t)width, feature);
                }
    free_map(a);
}

/* The sides in turn: a window that has just one line of the raster, and one that misses it by one. */
static void at_the_edges(map a) {
    int32_t edge = 1 << a.m;
    uint32_t whole = 1u << a.m, feature = below(a.s);
    size_t most = (size_t)whole * whole;
    for (uint32_t length = 1; length <= 4; length++) {
        int32_t before = -(int32_t)length;
        try_dragged(a, a.n, before, 0, length, whole, feature, most);
        try_dragged(a, a.n, before, 0, length + 1, whole, feature, most);
        try_dragged(a, a.n, 0, before, whole, length, feature, most);
        try_dragged(a, a.n, 0, before, whole, length + 1, feature, most);
        try_dragged(a, a.n, edge, 0, length, whole, feature, most);
        try_dragged(a, a.n, edge - 1, 0, length, whole, feature, most);
        try_dragged(a, a.n, 0, edge, whole, length, feature, most);
        try_dragged(a, a.n, 0, edge - 1, whole, length, feature, most);
    }
}

/* Starts and lengths at the ends of what they can be: every pair for the rows, with columns that overlap. */
static void at_the_ends(map a) {
    int32_t edge = 1 << a.m;
    const int32_t starts[] = { INT32_MIN, INT32_MIN + 1, -edge, -1, 0, edge - 1, edge, INT32_MAX - 1, INT32_MAX };
    const uint32_t lengths[] = { 0,           1,           1u << a.m,       0x7FFFFFFFu,
                                 0x80000000u, 0x80000001u, UINT32_MAX - 1, UINT32_MAX };
    for (size_t i = 0; i < sizeof starts / sizeof *starts; i++)
        for (size_t j = 0; j < sizeof lengths / sizeof *lengths; j++) {
            try_dragged(a, a.n, starts[i], -1, lengths[j], UINT32_MAX, below(a.s), 4);
            try_dragged(a, a.n, -1, starts[i], UINT32_MAX, lengths[j], below(a.s), 4);
            try_dragged(a, a.n, starts[i], starts[i], lengths[j], lengths[j], below(a.s + 1), 4);
        }
}

/* Each refusal alone, and with a later one; a list that is none; settings that are none. */
static void several_errors(map a) {
    try_dragged(a, a.n, -1, -1, 2, 2, a.s + below(1000), 0);
    try_dragged(a, a.n, -1, -1, 1, 1, a.s, 0);
    try_dragged(a, a.n, -1, -1, UINT32_MAX, UINT32_MAX, 0, 0);
    try_dragged(a, a.n - 1, -1, -1, 1, 1, a.s, 0);
    try_dragged(a, a.n + 1, -1, -1, 2, 2, 0, 0);
    map bad = a;
    bad.s = 0;
    try_dragged(bad, a.n, -1, -1, 1, 1, 99, 0);
    bad = a;
    for (bad.m = HLQ_DEEPEST_M + 1; bad.m <= 40; bad.m++) try_dragged(bad, a.n, -1, -1, 2, 2, 99, 0);
    bad.m = UINT32_MAX;
    try_dragged(bad, a.n, INT32_MIN, INT32_MAX, UINT32_MAX, UINT32_MAX, 99, 0);
}

int main(void) {
    for (uint32_t m = 0; m <= 2; m++)
        for (uint32_t i = 0; i < SOME(24); i++) {
            seed(811 + 1000 * m + i);
            every_window(m);
        }
    for (uint32_t m = 0; m <= 7; m++)
        for (uint32_t i = 0; i < SOME(m <= 5 ? 12u : 2u); i++) {
            seed(823 + 1000 * m + i);
            map a = random_map(m);
            at_the_edges(a);
            at_the_ends(a);
            several_errors(a);
            if (m < 7) {
                damage(&a);
                try_dragged(a, a.n, -1, -1, 2, 2, 0, 4);
            }
            free_map(a);
        }
    expect_pairs(CALL_EXIST_CLIPPED, 1u << 0 | 1u << 1 | 1u << 4 | 1u << 6 | 1u << 7);
    expect_pairs(CALL_REPORT_CLIPPED, 1u << 0 | 1u << 1 | 1u << 4 | 1u << 6);
    expect_pairs(CALL_SELECT_CLIPPED, 1u << 0 | 1u << 1 | 1u << 4 | 1u << 6 | 1u << 7 | 1u << 12);
    expect_pairs(CALL_AREA_CLIPPED, 1u << 0 | 1u << 1 | 1u << 4 | 1u << 18 | 1u << 6 | 1u << 7);
    return finish("clipped");
}
