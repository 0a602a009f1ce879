/* Exist, report and select against the reference: every window of every small map, random ones above, windows of any
 * 32-bit numbers, tight rooms, damaged lists, several errors in one call. */
#include "support.h"

#include <stdlib.h>
#include <string.h>

static void try_window(map a, size_t n, uint32_t row, uint32_t column, uint32_t height, uint32_t width,
                       uint32_t feature, size_t answer_len) {
    hlq_exists a1 = hlq_exist(a.m, a.s, a.keys, a.n, a.bits, a.n, n, row, column, height, width, feature);
    hlq_exists b1 = ref_exist(a.m, a.s, a.keys, a.n, a.bits, a.n, n, row, column, height, width, feature);
    same_results(CALL_EXIST, b1.refusal, &a1, &b1, sizeof a1);
    hlq_reported a2 = hlq_report(a.m, a.s, a.keys, a.n, a.bits, a.n, n, row, column, height, width);
    hlq_reported b2 = ref_report(a.m, a.s, a.keys, a.n, a.bits, a.n, n, row, column, height, width);
    same_results(CALL_REPORT, b2.refusal, &a2, &b2, sizeof a2);
    lent answer = lend(answer_len, 4), ref_answer = copy_of(answer);
    hlq_counted a3 = hlq_select(a.m, a.s, a.keys, a.n, a.bits, a.n, n, row, column, height, width, feature,
                                start(answer), answer_len);
    hlq_counted b3 = ref_select(a.m, a.s, a.keys, a.n, a.bits, a.n, n, row, column, height, width, feature,
                                start(ref_answer), answer_len);
    same_results(CALL_SELECT, b3.refusal, &a3, &b3, sizeof a3);
    same_buffers("answer of select", answer, ref_answer);
    give_back(answer), give_back(ref_answer);
}

/* All windows, for each feature and one that is none. */
static void every_window(uint32_t m) {
    map a = random_map(m);
    uint32_t edge = 1u << m;
    if (a.s > 4) {
        free_map(a);
        return;
    }
    for (uint32_t row = 0; row < edge; row++)
        for (uint32_t column = 0; column < edge; column++)
            for (uint32_t height = 1; row + height <= edge; height++)
                for (uint32_t width = 1; column + width <= edge; width++)
                    try_window(a, a.n, row, column, height, width, below(a.s + 1),
                               below(3) ? (size_t)height * width : below(height * width));
    free_map(a);
}

static uint32_t any_number(uint32_t edge) {
    switch (below(5)) {
    case 0: return below(edge + 2);
    case 1: return 0xFFFFFFFFu - below(edge + 2);
    case 2: return edge;
    case 3: return 0;
    default: return below(0xFFFFFFFFu);
    }
}

static void random_windows(uint32_t m, uint32_t rounds) {
    map a = random_map(m);
    uint32_t edge = 1u << m;
    for (uint32_t i = 0; i < rounds; i++) {
        uint32_t height = 1 + below(edge), width = 1 + below(edge), row = below(edge - height + 1),
                 column = below(edge - width + 1);
        try_window(a, a.n, row, column, height, width, below(a.s), (size_t)height * width);
        try_window(a, a.n, below(edge), below(edge), 1, 1, below(a.s), 1);
        try_window(a, a.n, 0, 0, edge, edge, below(a.s), below(4));
    }
    for (uint32_t i = 0; i < 8; i++)
        try_window(a, a.n, any_number(edge), any_number(edge), any_number(edge), any_number(edge), below(a.s + 1), 0);
    try_window(a, a.n, 0, 0, 1, 1, a.s + below(1000), 0);
    try_window(a, a.n, 0, 0, 0, 1, a.s, 0);
    try_window(a, a.n - 1, 0, 0, 0, 1, a.s, 0);
    try_window(a, a.n + 1, 0, 0, 1, 1, 0, 0);
    if (m < 7) {
        damage(&a);
        try_window(a, a.n, 0, 0, 1, 1, 0, 4);
    }
    a.s = 0;
    try_window(a, a.n, 0, 0, 0, 0, 99, 0);
    free_map(a);
}

int main(void) {
    for (uint32_t m = 0; m <= 3; m++) {
        uint32_t maps = m <= 1 ? 200 : m == 2 ? 60 : 6;
        for (uint32_t i = 0; i < SOME(maps); i++) {
            seed(77 + 1000 * m + i);
            every_window(m);
        }
    }
    for (uint32_t m = 0; m <= HLQ_DEEPEST_M; m++) {
        uint32_t maps = m <= 5 ? 60 : m <= 7 ? 8 : 1;
        for (uint32_t i = 0; i < SOME(maps); i++) {
            seed(99 + 1000 * m + i);
            random_windows(m, m <= 6 ? 12 : 3);
        }
    }
    expect_pairs(CALL_EXIST, 1u << 0 | 1u << 1 | 1u << 4 | 1u << 6 | 1u << 7);
    expect_pairs(CALL_REPORT, 1u << 0 | 1u << 1 | 1u << 4 | 1u << 6);
    expect_pairs(CALL_SELECT, 1u << 0 | 1u << 1 | 1u << 4 | 1u << 6 | 1u << 7 | 1u << 12);
    return finish("window");
}
