/* Leaf lists and pairs of bit strings, handed to hlq_read_leaves and hlq_read_bit_strings with more or less room. What
 * is taken is written again: bit strings as the same bytes, leaves as the reference writes them. */
#include "compare.h"

enum { MOST = 400 };

static void write_leaves(uint32_t m, uint32_t s, const pair *keys, const pair *bits, size_t n) {
    pair leaf_keys = lend(n), features = lend(n);
    hlq_counted ours = hlq_write_leaves(m, s, keys->ours, keys->len, bits->ours, bits->len, n, leaf_keys.ours, n,
                                        features.ours, n);
    hlq_counted theirs = ref_write_leaves(m, s, keys->ours, keys->len, bits->ours, bits->len, n, leaf_keys.theirs, n,
                                          features.theirs, n);
    SAME_ANSWER(ours, theirs, "hlq_write_leaves answers otherwise");
    same(&leaf_keys, "hlq_write_leaves writes other keys");
    same(&features, "hlq_write_leaves writes other features");
}

static void read_leaves(input *in, uint32_t m, uint32_t s, size_t room, int more) {
    size_t leaves = take_number(in), keys_len = leaves < MOST ? leaves : MOST, values_len = keys_len;
    if (more) values_len = take_byte(in); /* another length than the keys' */
    uint32_t *leaf_keys = malloc(4 * keys_len + 1), *features = malloc(4 * values_len + 1);
    memset(features, 0, 4 * values_len + 1);
    for (size_t i = 0; i < keys_len; i++) {
        leaf_keys[i] = take_number(in);
        uint32_t feature = take_number(in);
        if (i < values_len) features[i] = feature;
    }
    pair keys = lend(room), bits = lend(room);
    hlq_counted ours = hlq_read_leaves(m, s, leaf_keys, keys_len, features, values_len, leaves, keys.ours, keys.len,
                                       bits.ours, bits.len);
    hlq_counted theirs = ref_read_leaves(m, s, leaf_keys, keys_len, features, values_len, leaves, keys.theirs, keys.len,
                                         bits.theirs, bits.len);
    SAME_ANSWER(ours, theirs, "hlq_read_leaves answers otherwise");
    if (ours.refusal == HLQ_ACCEPTED) write_leaves(m, s, &keys, &bits, ours.count);
    same(&keys, "hlq_read_leaves writes other keys");
    same(&bits, "hlq_read_leaves writes other bits");
    free(leaf_keys);
    free(features);
}

static void write_bit_strings(uint32_t m, const pair *keys, const pair *bits, size_t n, const uint8_t *nodes,
                              size_t nodes_len, const uint8_t *leaves, size_t leaves_len) {
    uint8_t *again = malloc(nodes_len + 1), *leaves_again = malloc(leaves_len + 1);
    hlq_strings written = hlq_write_bit_strings(m, 2, keys->ours, keys->len, bits->ours, bits->len, n, again, nodes_len,
                                                leaves_again, leaves_len);
    must(written.refusal == 0 && written.node_bytes == nodes_len && written.leaf_bytes == leaves_len &&
         memcmp(again, nodes, nodes_len) == 0 && memcmp(leaves_again, leaves, leaves_len) == 0,
         "hlq_write_bit_strings, other strings");
    free(again);
    free(leaves_again);
}

static void read_bit_strings(input *in, uint32_t m, uint32_t s, size_t room) {
    size_t cut = take_byte(in);
    if (cut > in->left) cut = in->left;
    uint8_t *nodes = exactly(in->at, cut), *leaves = exactly(in->at + cut, in->left - cut);
    pair keys = lend(room), bits = lend(room);
    hlq_counted ours = hlq_read_bit_strings(m, s, nodes, cut, leaves, in->left - cut, keys.ours, keys.len, bits.ours,
                                            bits.len);
    hlq_counted theirs = ref_read_bit_strings(m, s, nodes, cut, leaves, in->left - cut, keys.theirs, keys.len,
                                              bits.theirs, bits.len);
    SAME_ANSWER(ours, theirs, "hlq_read_bit_strings answers otherwise");
    if (ours.refusal == HLQ_ACCEPTED)
        write_bit_strings(m, &keys, &bits, ours.count, nodes, cut, leaves, in->left - cut);
    same(&keys, "hlq_read_bit_strings writes other keys");
    same(&bits, "hlq_read_bit_strings writes other bits");
    free(nodes);
    free(leaves);
}

int LLVMFuzzerTestOneInput(const uint8_t *bytes, size_t size) {
    input in = { bytes, size };
    uint8_t how = take_byte(&in), settings = take_byte(&in);
    uint32_t m = settings % 5, s = how & 1 ? 2 : 1 + settings / 5 % 33;
    if (how & 4) m = settings & 15, s = settings >> 4; /* out of range too; deep maps are slow in the reference */
    if (m > 5 && m <= HLQ_DEEPEST_M) m = how & 8 ? HLQ_DEEPEST_M + 1 : 5;
    size_t room = how & 2 ? HLQ_MOST_RECORDS(m < 6 ? m : 0) : how >> 4;
    if (how & 1) read_bit_strings(&in, m, s, room);
    else read_leaves(&in, m, s, room, how & 32);
    return 0;
}
