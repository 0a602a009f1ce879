/* The key around a pixel and the square of a key against the reference: all pixels, levels and keys of small maps,
 * random ones of the larger, and each refusal. */
#include "support.h"

static void try_pixel(uint32_t m, uint32_t row, uint32_t column, uint32_t level) {
    hlq_keyed a = hlq_key_at(m, row, column, level), b = ref_key_at(m, row, column, level);
    same_results(CALL_KEY_AT, b.refusal, &a, &b, sizeof a);
}

static void try_key(uint32_t m, uint32_t key) {
    hlq_block a = hlq_block_of(m, key), b = ref_block_of(m, key);
    same_results(CALL_BLOCK_OF, b.refusal, &a, &b, sizeof a);
}

/* Every pixel with a margin of one, and every number up to the first that has too many digits. */
static void whole_map(uint32_t m) {
    uint32_t edge = 1u << m;
    for (uint32_t row = 0; row <= edge; row++)
        for (uint32_t column = 0; column <= edge; column++)
            for (uint32_t level = 0; level <= m + 1; level++) try_pixel(m, row, column, level);
    for (uint32_t key = 0; key <= ref_power(5, m); key++) try_key(m, key);
}

static void some_of(uint32_t m) {
    uint32_t edge = 1u << m;
    for (uint32_t i = 0; i < SOME(4000); i++) {
        try_pixel(m, below(edge), below(edge), below(m + 1));
        try_key(m, random_key(m));
        try_key(m, below(0xFFFFFFFFu));
    }
    try_pixel(m, edge - 1, edge - 1, m), try_pixel(m, edge, 0, 0), try_pixel(m, 0, edge, m + 1);
    try_pixel(m, 0xFFFFFFFFu, 0xFFFFFFFFu, 0xFFFFFFFFu), try_pixel(m, 0, 0, 0xFFFFFFFFu);
    try_key(m, ref_power(5, m) - 1), try_key(m, ref_power(5, m)), try_key(m, 0xFFFFFFFFu);
}

int main(void) {
    seed(4);
    for (uint32_t m = 0; m <= 5; m++) whole_map(m);
    for (uint32_t m = 0; m <= HLQ_DEEPEST_M; m++) some_of(m);
    try_pixel(HLQ_DEEPEST_M + 1, 0, 0, 0), try_pixel(0xFFFFFFFFu, 0xFFFFFFFFu, 0, 0xFFFFFFFFu);
    try_key(HLQ_DEEPEST_M + 1, 0), try_key(0xFFFFFFFFu, 3);
    expect_pairs(CALL_KEY_AT, 1u << 0 | 1u << 1 | 1u << 6 | 1u << 8);
    expect_pairs(CALL_BLOCK_OF, 1u << 0 | 1u << 1 | 1u << 8);
    return finish("blocks");
}
