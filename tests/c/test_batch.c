/* Batch against the reference and against its questions asked one by one: batches of 0 to 300 questions, answer slices
 * that are longer, just as long, or short on either side, every kind of bad question alone and beside good ones, the
 * ends of the 32-bit numbers, damaged lists, settings that are none, several errors in one call. */
#include "support.h"

#include <string.h>

enum { MOST_QUESTIONS = 300 };

/* Where a side of a window begins, and how long it is: mostly about the raster, now and then far away. */
static int32_t some_start(uint32_t edge) {
    static const int32_t ends[] = { INT32_MIN, INT32_MIN + 1, -1, 0, INT32_MAX - 1, INT32_MAX };
    return below(8) ? (int32_t)below(edge + 4) - 2 : ends[below(6)];
}

static uint32_t some_length(uint32_t edge) {
    static const uint32_t ends[] = { 0, 1, 0x7FFFFFFFu, 0x80000000u, 0x80000001u, UINT32_MAX };
    return below(8) ? below(edge + 2) : ends[below(6)];
}

static hlq_question some_question(map a) {
    uint32_t edge = 1u << a.m;
    return (hlq_question){ below(2) ? 0 : below(2) ? 1 : below(UINT32_MAX) + 1, some_start(edge), some_start(edge),
                           some_length(edge), some_length(edge), below(4) ? below(a.s) : a.s + below(1000) };
}

/* Of every place the answer is that of the clipped single call. */
static void one_by_one(map a, const hlq_question *questions, size_t count, const uint32_t *refusals,
                       const uint32_t *values) {
    for (size_t i = 0; i < count; i++) {
        hlq_question q = questions[i];
        uint64_t refusal, value;
        if (q.report == 0) {
            hlq_exists x = hlq_exist_clipped(a.m, a.s, a.keys, a.n, a.bits, a.n, a.n, q.row, q.column, q.height,
                                             q.width, q.feature);
            refusal = x.refusal, value = x.yes;
        } else {
            hlq_reported x = hlq_report_clipped(a.m, a.s, a.keys, a.n, a.bits, a.n, a.n, q.row, q.column, q.height,
                                                q.width);
            refusal = x.refusal, value = x.bits;
        }
        must(refusals[i] == refusal && values[i] == value, "a question's answer is not that of the single call");
    }
}

static void try_batch(map a, size_t n, const hlq_question *questions, size_t count, size_t refusals_len,
                      size_t values_len) {
    lent asked = lend(count, sizeof(hlq_question));
    if (count) memcpy(start(asked), questions, count * sizeof(hlq_question));
    lent ref_asked = copy_of(asked), refusals = lend(refusals_len, 4), ref_refusals = copy_of(refusals);
    lent values = lend(values_len, 4), ref_values = copy_of(values);
    hlq_counted x = hlq_batch(a.m, a.s, a.keys, a.n, a.bits, a.n, n, start(asked), count, start(refusals),
                              refusals_len, start(values), values_len);
    hlq_counted y = ref_batch(a.m, a.s, a.keys, a.n, a.bits, a.n, n, start(ref_asked), count, start(ref_refusals),
                              refusals_len, start(ref_values), values_len);
    same_results(CALL_BATCH, y.refusal, &x, &y, sizeof x);
    same_buffers("questions of batch", asked, ref_asked);
    same_buffers("refusals of batch", refusals, ref_refusals);
    same_buffers("values of batch", values, ref_values);
    if (x.refusal == HLQ_ACCEPTED) one_by_one(a, questions, count, start(refusals), start(values));
    give_back(asked), give_back(ref_asked), give_back(refusals), give_back(ref_refusals);
    give_back(values), give_back(ref_values);
}

/* Answer slices with places to spare, none to spare, and a place too few on the one side, the other and both. */
static void every_room(map a, const hlq_question *questions, size_t count) {
    try_batch(a, a.n, questions, count, count + below(9), count + below(9));
    try_batch(a, a.n, questions, count, count, count);
    if (count == 0) return;
    try_batch(a, a.n, questions, count, count - 1, count + below(3));
    try_batch(a, a.n, questions, count, count + below(3), count - 1);
    try_batch(a, a.n, questions, count, count - 1, 0);
}

static void random_batch(map a, size_t count) {
    hlq_question questions[MOST_QUESTIONS];
    for (size_t i = 0; i < count; i++) questions[i] = some_question(a);
    every_room(a, questions, count);
}

/* Every kind of question that can be bad, between two good ones, in every order of two kinds. */
static void bad_questions(map a) {
    int32_t edge = 1 << a.m;
    const hlq_question good = { 0, -1, -1, 2, 2, 0 }, whole = { 7, INT32_MIN, -1, UINT32_MAX, UINT32_MAX, a.s };
    const hlq_question kinds[] = {
        { 0, 0, 0, 0, 1, 0 },           { 1, 0, 0, 1, 0, 0 },    { 0, -1, 0, 1, 1, 0 },
        { 1, 0, -2, 1, 2, 0 },          { 0, edge, 0, 1, 1, 0 }, { 1, 0, edge, 1, 1, 0 },
        { 0, 0, 0, 1, 1, a.s },         { 0, 0, 0, 1, 1, UINT32_MAX }, { 0, -1, -1, 1, 1, a.s },
        { 1, INT32_MAX, 0, 1, 1, 0 },   { UINT32_MAX, 0, 0, 1, 1, UINT32_MAX }, { 0, 0, 0, 1, 1, a.s - 1 },
    };
    enum { KINDS = sizeof kinds / sizeof *kinds };
    for (size_t i = 0; i < KINDS; i++)
        for (size_t j = 0; j < KINDS; j++) {
            hlq_question questions[] = { good, kinds[i], whole, kinds[j], good };
            try_batch(a, a.n, questions, 5, 5 + below(2), 5 + below(2));
        }
}

/* Each refusal alone, and with every later one; a list that is none, settings that are none. */
static void several_errors(map a) {
    hlq_question questions[3];
    for (size_t i = 0; i < 3; i++) questions[i] = some_question(a);
    try_batch(a, a.n, questions, 3, 2, 2);
    try_batch(a, a.n - 1, questions, 3, 3, 3);
    try_batch(a, a.n + 1, questions, 3, 2, 3);
    map bad = a;
    bad.s = 0;
    try_batch(bad, a.n, questions, 3, 3, 3);
    try_batch(bad, a.n + 1, questions, 3, 3, 2);
    bad.s = HLQ_MOST_SLOTS + 1;
    try_batch(bad, a.n, questions, 3, 3, 3);
    bad = a;
    for (bad.m = HLQ_DEEPEST_M + 1; bad.m <= 40; bad.m++) try_batch(bad, a.n, questions, 3, 2, 2);
    bad.m = UINT32_MAX;
    try_batch(bad, a.n, questions, 0, 0, 0);
}

int main(void) {
    static const size_t counts[] = { 0, 1, 2, 3, 17, 100, 299, MOST_QUESTIONS };
    for (uint32_t m = 0; m <= 6; m++)
        for (uint32_t i = 0; i < SOME(m <= 4 ? 12u : 2u); i++) {
            seed(1103 + 1000 * m + i);
            map a = random_map(m);
            for (size_t j = 0; j < sizeof counts / sizeof *counts; j++) random_batch(a, counts[j]);
            random_batch(a, below(MOST_QUESTIONS));
            bad_questions(a);
            several_errors(a);
            damage(&a);
            hlq_question question = { 1, 0, 0, 1, 1, 0 };
            try_batch(a, a.n, &question, 1, 1, 1);
            free_map(a);
        }
    expect_pairs(CALL_BATCH, 1u << 0 | 1u << 1 | 1u << 4 | 1u << 12);
    return finish("batch");
}
