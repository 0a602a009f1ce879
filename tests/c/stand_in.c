/* A stand-in for the library whose calls are the reference's, save the edits, which are in stand_in_edits.c. With it
 * the C side of the tests runs under the sanitizers on machines that cannot link the x86-64 archive; there all but the
 * tests of edits compare the reference with itself. */
#include "reference.h"

/* The slices of a list, as the calls take them and as they are passed on. */
#define TAKE_CONST_LIST const uint32_t *keys, size_t keys_len, const uint32_t *bits, size_t bits_len
#define TAKE_LIST uint32_t *keys, size_t keys_len, uint32_t *bits, size_t bits_len
#define LIST keys, keys_len, bits, bits_len
#define TAKE_TABLE \
    uint32_t *offices, size_t offices_len, uint32_t *ids, size_t ids_len, uint32_t *waived, size_t waived_len
#define TABLE offices, offices_len, ids, ids_len, waived, waived_len
#define TAKE_SUMMARY uint32_t *summary, size_t summary_len
#define SUMMARY summary, summary_len
#define TAKE_WINDOW uint32_t row, uint32_t column, uint32_t height, uint32_t width
#define TAKE_DRAGGED int32_t row, int32_t column, uint32_t height, uint32_t width
#define WINDOW row, column, height, width

uint32_t hlq_interface(void) { return HLQ_INTERFACE; }

hlq_keyed hlq_key_at(uint32_t m, uint32_t row, uint32_t column, uint32_t level) {
    return ref_key_at(m, row, column, level);
}

hlq_block hlq_block_of(uint32_t m, uint32_t key) { return ref_block_of(m, key); }

hlq_counted hlq_build(uint32_t m, uint32_t s, const uint8_t *raster, size_t raster_len, TAKE_LIST, TAKE_SUMMARY) {
    return ref_build(m, s, raster, raster_len, LIST, SUMMARY);
}

hlq_done hlq_raster(uint32_t m, uint32_t s, TAKE_CONST_LIST, size_t n, uint8_t *raster, size_t raster_len) {
    return ref_raster(m, s, LIST, n, raster, raster_len);
}

hlq_stands hlq_standing(uint32_t m, uint32_t s, TAKE_CONST_LIST, size_t n, uint32_t key) {
    return ref_standing(m, s, LIST, n, key);
}

hlq_span hlq_part(uint32_t m, uint32_t s, TAKE_CONST_LIST, size_t n, uint32_t key) {
    return ref_part(m, s, LIST, n, key);
}

hlq_exists hlq_exist(uint32_t m, uint32_t s, TAKE_CONST_LIST, size_t n, TAKE_WINDOW, uint32_t feature) {
    return ref_exist(m, s, LIST, n, WINDOW, feature);
}

hlq_reported hlq_report(uint32_t m, uint32_t s, TAKE_CONST_LIST, size_t n, TAKE_WINDOW) {
    return ref_report(m, s, LIST, n, WINDOW);
}

hlq_counted hlq_select(uint32_t m, uint32_t s, TAKE_CONST_LIST, size_t n, TAKE_WINDOW, uint32_t feature,
                       uint32_t *answer, size_t answer_len) {
    return ref_select(m, s, LIST, n, WINDOW, feature, answer, answer_len);
}

hlq_counted hlq_combine(uint32_t m1, uint32_t s1, const uint32_t *keys1, size_t keys1_len, const uint32_t *bits1,
                        size_t bits1_len, size_t n1, uint32_t m2, uint32_t s2, const uint32_t *keys2, size_t keys2_len,
                        const uint32_t *bits2, size_t bits2_len, size_t n2, uint32_t s3, const uint8_t *table,
                        size_t table_len, uint32_t *keys3, size_t keys3_len, uint32_t *bits3, size_t bits3_len) {
    return ref_combine(m1, s1, keys1, keys1_len, bits1, bits1_len, n1, m2, s2, keys2, keys2_len, bits2, bits2_len, n2,
                       s3, table, table_len, keys3, keys3_len, bits3, bits3_len);
}

hlq_done hlq_fill_summary(uint32_t m, uint32_t s, TAKE_CONST_LIST, size_t n, uint32_t *summary, size_t summary_len) {
    return ref_fill_summary(m, s, LIST, n, summary, summary_len);
}

hlq_measured hlq_area(uint32_t m, uint32_t s, TAKE_CONST_LIST, size_t n, const uint32_t *summary, size_t summary_len,
                      TAKE_WINDOW, uint32_t feature) {
    return ref_area(m, s, LIST, n, summary, summary_len, WINDOW, feature);
}

hlq_exists hlq_exist_clipped(uint32_t m, uint32_t s, TAKE_CONST_LIST, size_t n, TAKE_DRAGGED, uint32_t feature) {
    return ref_exist_clipped(m, s, LIST, n, WINDOW, feature);
}

hlq_reported hlq_report_clipped(uint32_t m, uint32_t s, TAKE_CONST_LIST, size_t n, TAKE_DRAGGED) {
    return ref_report_clipped(m, s, LIST, n, WINDOW);
}

hlq_counted hlq_select_clipped(uint32_t m, uint32_t s, TAKE_CONST_LIST, size_t n, TAKE_DRAGGED, uint32_t feature,
                               uint32_t *answer, size_t answer_len) {
    return ref_select_clipped(m, s, LIST, n, WINDOW, feature, answer, answer_len);
}

hlq_measured hlq_area_clipped(uint32_t m, uint32_t s, TAKE_CONST_LIST, size_t n, const uint32_t *summary,
                              size_t summary_len, TAKE_DRAGGED, uint32_t feature) {
    return ref_area_clipped(m, s, LIST, n, summary, summary_len, WINDOW, feature);
}

hlq_counted hlq_batch(uint32_t m, uint32_t s, TAKE_CONST_LIST, size_t n, const hlq_question *questions,
                      size_t questions_len, uint32_t *refusals, size_t refusals_len,
                      uint32_t *values, size_t values_len) {
    return ref_batch(m, s, LIST, n, questions, questions_len, refusals, refusals_len, values, values_len);
}

hlq_counted hlq_add_waiver(uint32_t m, uint32_t office, TAKE_TABLE, size_t rows, uint32_t id, uint32_t key) {
    return ref_add_waiver(m, office, TABLE, rows, id, key);
}

hlq_counted hlq_remove_waiver(uint32_t m, uint32_t office, TAKE_TABLE, size_t rows, uint32_t id, uint32_t key) {
    return ref_remove_waiver(m, office, TABLE, rows, id, key);
}

hlq_found hlq_findings(uint32_t m, uint32_t s, TAKE_CONST_LIST, size_t n, uint32_t office, const hlq_rule *rules,
                       size_t rules_len, const uint32_t *offices, size_t offices_len, const uint32_t *ids,
                       size_t ids_len, const uint32_t *waived, size_t waived_len, size_t rows, uint32_t *found_ids,
                       size_t found_ids_len, uint32_t *found_keys, size_t found_keys_len) {
    return ref_findings(m, s, LIST, n, office, rules, rules_len, TABLE, rows, found_ids, found_ids_len, found_keys,
                        found_keys_len);
}

hlq_counted hlq_store(uint32_t m, uint32_t s, TAKE_CONST_LIST, size_t n, uint8_t *file, size_t file_len) {
    return ref_store(m, s, LIST, n, file, file_len);
}

hlq_loaded hlq_load(const uint8_t *file, size_t file_len, TAKE_LIST) { return ref_load(file, file_len, LIST); }

hlq_counted hlq_store_log(uint32_t m, uint32_t s, const uint32_t *log_keys, size_t log_keys_len,
                          const uint32_t *log_values, size_t log_values_len, size_t used, size_t in_force,
                          uint8_t *file, size_t file_len) {
    return ref_store_log(m, s, log_keys, log_keys_len, log_values, log_values_len, used, in_force, file, file_len);
}

hlq_loaded_log hlq_load_log(const uint8_t *file, size_t file_len, uint32_t *log_keys, size_t log_keys_len,
                            uint32_t *log_values, size_t log_values_len) {
    return ref_load_log(file, file_len, log_keys, log_keys_len, log_values, log_values_len);
}

hlq_counted hlq_read_leaves(uint32_t m, uint32_t s, const uint32_t *leaf_keys, size_t leaf_keys_len,
                            const uint32_t *leaf_features, size_t leaf_features_len, size_t leaves, TAKE_LIST) {
    return ref_read_leaves(m, s, leaf_keys, leaf_keys_len, leaf_features, leaf_features_len, leaves, LIST);
}

hlq_counted hlq_write_leaves(uint32_t m, uint32_t s, TAKE_CONST_LIST, size_t n, uint32_t *leaf_keys,
                             size_t leaf_keys_len, uint32_t *leaf_features, size_t leaf_features_len) {
    return ref_write_leaves(m, s, LIST, n, leaf_keys, leaf_keys_len, leaf_features, leaf_features_len);
}

hlq_strings hlq_write_bit_strings(uint32_t m, uint32_t s, TAKE_CONST_LIST, size_t n, uint8_t *node_bits,
                                  size_t node_bits_len, uint8_t *leaf_bits, size_t leaf_bits_len) {
    return ref_write_bit_strings(m, s, LIST, n, node_bits, node_bits_len, leaf_bits, leaf_bits_len);
}

hlq_counted hlq_read_bit_strings(uint32_t m, uint32_t s, const uint8_t *node_bits, size_t node_bits_len,
                                 const uint8_t *leaf_bits, size_t leaf_bits_len, TAKE_LIST) {
    return ref_read_bit_strings(m, s, node_bits, node_bits_len, leaf_bits, leaf_bits_len, LIST);
}

hlq_emptied hlq_empty(void) { return (hlq_emptied){ 0, 0 }; }
