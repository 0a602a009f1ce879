/* Store and load against the reference: files written and read back, cut, lengthened and spoilt byte by byte, tight
 * rooms. */
#include "support.h"

#include <stdlib.h>
#include <string.h>

static void try_store(map a, size_t n, size_t file_len) {
    lent file = lend(file_len, 1), ref_file = copy_of(file);
    hlq_counted x = hlq_store(a.m, a.s, a.keys, a.n, a.bits, a.n, n, start(file), file_len);
    hlq_counted y = ref_store(a.m, a.s, a.keys, a.n, a.bits, a.n, n, start(ref_file), file_len);
    same_results(CALL_STORE, y.refusal, &x, &y, sizeof x);
    same_buffers("file after store", file, ref_file);
    give_back(file), give_back(ref_file);
}

static void try_load(const uint8_t *file, size_t file_len, size_t keys_len, size_t bits_len) {
    lent keys = lend(keys_len, 4), bits = lend(bits_len, 4), ref_keys = copy_of(keys), ref_bits = copy_of(bits);
    hlq_loaded x = hlq_load(file, file_len, start(keys), keys_len, start(bits), bits_len);
    hlq_loaded y = ref_load(file, file_len, start(ref_keys), keys_len, start(ref_bits), bits_len);
    same_results(CALL_LOAD, y.refusal, &x, &y, sizeof x);
    same_buffers("keys after load", keys, ref_keys);
    same_buffers("bits after load", bits, ref_bits);
    give_back(keys), give_back(bits), give_back(ref_keys), give_back(ref_bits);
}

/* The file under either version and a few more, with each s around the limits: 17 and 1 beside each other, and before
 * the length. */
static void versions(uint8_t *bytes, size_t length, size_t n) {
    static const uint8_t slots[] = { 0, 1, 15, 16, 17, 31, 32, 33, 255 };
    uint8_t version = bytes[4], s = bytes[6];
    for (uint8_t v = 0; v < 4; v++)
        for (size_t i = 0; i < sizeof slots; i++) {
            bytes[4] = v, bytes[6] = slots[i];
            try_load(bytes, length, n, n);
            try_load(bytes, length - 1, 0, 0);
            bytes[3] = 1;
            try_load(bytes, length, n, n);
            bytes[3] = 0;
        }
    bytes[4] = version, bytes[6] = s;
}

static void round_of(uint32_t m) {
    map a = random_map(m);
    size_t length = HLQ_FILE_BYTES(a.n, a.s), head = HLQ_FILE_BYTES(0, a.s);
    try_store(a, a.n, length);
    try_store(a, a.n, length + below(9));
    try_store(a, a.n, below((uint32_t)length));
    try_store(a, a.n - 1, 0);
    try_store(a, a.n + 1, length);
    lent file = lend(length + 9, 1);
    uint8_t *bytes = start(file);
    ref_store(a.m, a.s, a.keys, a.n, a.bits, a.n, a.n, bytes, length);
    try_load(bytes, length, a.n, a.n);
    try_load(bytes, length, a.n + below(4), a.n + below(4));
    try_load(bytes, length, a.n - 1, a.n);
    try_load(bytes, length, a.n, a.n - 1);
    for (uint32_t i = 0; i < 3; i++) try_load(bytes, below((uint32_t)length + 9), a.n, a.n);
    try_load(bytes, below((uint32_t)head), a.n, a.n);
    for (uint32_t i = 0; i < (m < 7 ? 24u : 4u); i++) {
        lent spoilt = copy_of(file);
        uint8_t *at = start(spoilt);
        for (uint32_t j = 1 + below(2); j > 0; j--)
            at[below((uint32_t)(below(2) ? head : length))] ^= (uint8_t)(1u << below(8));
        try_load(at, length, a.n + below(2), a.n - below(2));
        give_back(spoilt);
    }
    versions(bytes, length, a.n);
    bytes[4] = 1;
    bytes[6] = 0;
    try_load(bytes, length - 1, 0, 0);
    bytes[4] = 2;
    try_load(bytes, length - 1, 0, 0);
    bytes[0] = 'h';
    try_load(bytes, length - 1, 0, 0);
    give_back(file);
    a.s = HLQ_MOST_SLOTS + 1;
    try_store(a, a.n - 1, 0);
    free_map(a);
}

int main(void) {
    for (uint32_t m = 0; m <= HLQ_DEEPEST_M; m++)
        for (uint32_t i = 0; i < SOME(m <= 4 ? 150u : m <= 6 ? 25u : 2u); i++) {
            seed(8888 + 900 * m + i);
            round_of(m);
        }
    expect_pairs(CALL_STORE, 1u << 0 | 1u << 1 | 1u << 4 | 1u << 12);
    expect_pairs(CALL_LOAD, 1u << 0 | 1u << 15 | 1u << 16 | 1u << 17 | 1u << 1 | 1u << 4 | 1u << 9);
    return finish("file");
}
