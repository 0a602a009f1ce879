/* A second implementation of every call of prowcurl.h, for the tests: it scans rasters pixel by pixel and shares
 * nothing with the library. Each ref_X takes what hlq_X takes, and answers and writes as docs/SPECIFICATION.md says. */
#ifndef REFERENCE_H
#define REFERENCE_H

#include "prowcurl.h"

#ifdef __cplusplus
extern "C" {
#endif

uint32_t ref_power(uint32_t base, uint32_t exponent);
int ref_key_is_valid(uint32_t m, uint32_t key);
uint32_t ref_pixel_key(uint32_t m, uint32_t row, uint32_t column);
/* The block of a valid key. */
void ref_block(uint32_t m, uint32_t key, uint32_t *row, uint32_t *column, uint32_t *side);

hlq_keyed ref_key_at(uint32_t m, uint32_t row, uint32_t column, uint32_t level);
hlq_block ref_block_of(uint32_t m, uint32_t key);
hlq_counted ref_build(uint32_t m, uint32_t s,
                      const uint8_t *raster, size_t raster_len,
                      uint32_t *keys, size_t keys_len, uint32_t *bits, size_t bits_len,
                      uint32_t *summary, size_t summary_len);
/* The list alone, and the summary of a raster, for tests that need one. */
hlq_counted ref_list(uint32_t m, uint32_t s, const uint8_t *raster, size_t raster_len, uint32_t *keys, size_t keys_len,
                     uint32_t *bits, size_t bits_len);
void ref_summary(uint32_t m, uint32_t s, const uint8_t *raster, uint32_t *summary);
hlq_done ref_raster(uint32_t m, uint32_t s,
                    const uint32_t *keys, size_t keys_len, const uint32_t *bits, size_t bits_len,
                    size_t n, uint8_t *raster, size_t raster_len);
hlq_stands ref_standing(uint32_t m, uint32_t s,
                        const uint32_t *keys, size_t keys_len,
                        const uint32_t *bits, size_t bits_len, size_t n, uint32_t key);
hlq_span ref_part(uint32_t m, uint32_t s,
                  const uint32_t *keys, size_t keys_len, const uint32_t *bits, size_t bits_len,
                  size_t n, uint32_t key);
hlq_exists ref_exist(uint32_t m, uint32_t s,
                     const uint32_t *keys, size_t keys_len, const uint32_t *bits, size_t bits_len,
                     size_t n, uint32_t row, uint32_t column, uint32_t height, uint32_t width,
                     uint32_t feature);
hlq_reported ref_report(uint32_t m, uint32_t s,
                        const uint32_t *keys, size_t keys_len,
                        const uint32_t *bits, size_t bits_len, size_t n,
                        uint32_t row, uint32_t column, uint32_t height, uint32_t width);
hlq_counted ref_select(uint32_t m, uint32_t s,
                       const uint32_t *keys, size_t keys_len, const uint32_t *bits, size_t bits_len,
                       size_t n, uint32_t row, uint32_t column, uint32_t height, uint32_t width,
                       uint32_t feature, uint32_t *answer, size_t answer_len);
hlq_counted ref_combine(uint32_t m1, uint32_t s1, const uint32_t *keys1, size_t keys1_len, const uint32_t *bits1,
                        size_t bits1_len, size_t n1, uint32_t m2, uint32_t s2, const uint32_t *keys2, size_t keys2_len,
                        const uint32_t *bits2, size_t bits2_len, size_t n2, uint32_t s3, const uint8_t *table,
                        size_t table_len, uint32_t *keys3, size_t keys3_len, uint32_t *bits3, size_t bits3_len);
hlq_done ref_fill_summary(uint32_t m, uint32_t s, const uint32_t *keys, size_t keys_len, const uint32_t *bits,
                          size_t bits_len, size_t n, uint32_t *summary, size_t summary_len);
hlq_measured ref_area(uint32_t m, uint32_t s, const uint32_t *keys, size_t keys_len, const uint32_t *bits,
                      size_t bits_len, size_t n, const uint32_t *summary, size_t summary_len, uint32_t row,
                      uint32_t column, uint32_t height, uint32_t width, uint32_t feature);
hlq_exists ref_exist_clipped(uint32_t m, uint32_t s,
                             const uint32_t *keys, size_t keys_len,
                             const uint32_t *bits, size_t bits_len, size_t n,
                             int32_t row, int32_t column, uint32_t height, uint32_t width,
                             uint32_t feature);
hlq_reported ref_report_clipped(uint32_t m, uint32_t s,
                                const uint32_t *keys, size_t keys_len,
                                const uint32_t *bits, size_t bits_len, size_t n,
                                int32_t row, int32_t column, uint32_t height, uint32_t width);
hlq_counted ref_select_clipped(uint32_t m, uint32_t s,
                               const uint32_t *keys, size_t keys_len,
                               const uint32_t *bits, size_t bits_len, size_t n,
                               int32_t row, int32_t column, uint32_t height, uint32_t width,
                               uint32_t feature, uint32_t *answer, size_t answer_len);
hlq_measured ref_area_clipped(uint32_t m, uint32_t s,
                              const uint32_t *keys, size_t keys_len,
                              const uint32_t *bits, size_t bits_len, size_t n,
                              const uint32_t *summary, size_t summary_len,
                              int32_t row, int32_t column, uint32_t height, uint32_t width,
                              uint32_t feature);
hlq_counted ref_batch(uint32_t m, uint32_t s,
                      const uint32_t *keys, size_t keys_len, const uint32_t *bits, size_t bits_len,
                      size_t n, const hlq_question *questions, size_t questions_len,
                      uint32_t *refusals, size_t refusals_len, uint32_t *values, size_t values_len);
hlq_edited ref_paint(uint32_t m, uint32_t s,
                     uint32_t *keys, size_t keys_len, uint32_t *bits, size_t bits_len, size_t n,
                     uint32_t *summary, size_t summary_len,
                     uint32_t *log_keys, size_t log_keys_len,
                     uint32_t *log_values, size_t log_values_len, size_t used, size_t in_force,
                     uint32_t key, uint32_t feature);
hlq_edited ref_paint_window(uint32_t m, uint32_t s,
                            uint32_t *keys, size_t keys_len, uint32_t *bits, size_t bits_len, size_t n,
                            uint32_t *summary, size_t summary_len,
                            uint32_t *log_keys, size_t log_keys_len,
                            uint32_t *log_values, size_t log_values_len, size_t used, size_t in_force,
                            uint32_t row, uint32_t column, uint32_t height, uint32_t width, uint32_t feature);
hlq_edited ref_take_back(uint32_t m, uint32_t s,
                         uint32_t *keys, size_t keys_len, uint32_t *bits, size_t bits_len, size_t n,
                         uint32_t *summary, size_t summary_len,
                         uint32_t *log_keys, size_t log_keys_len,
                         uint32_t *log_values, size_t log_values_len, size_t used, size_t in_force);
hlq_edited ref_redo(uint32_t m, uint32_t s,
                    uint32_t *keys, size_t keys_len, uint32_t *bits, size_t bits_len, size_t n,
                    uint32_t *summary, size_t summary_len,
                    uint32_t *log_keys, size_t log_keys_len,
                    uint32_t *log_values, size_t log_values_len, size_t used, size_t in_force);
hlq_counted ref_add_waiver(uint32_t m, uint32_t office, uint32_t *offices, size_t offices_len, uint32_t *ids,
                           size_t ids_len, uint32_t *waived, size_t waived_len, size_t rows, uint32_t id, uint32_t key);
hlq_counted ref_remove_waiver(uint32_t m, uint32_t office, uint32_t *offices, size_t offices_len, uint32_t *ids,
                              size_t ids_len, uint32_t *waived, size_t waived_len, size_t rows, uint32_t id,
                              uint32_t key);
hlq_found ref_findings(uint32_t m, uint32_t s,
                       const uint32_t *keys, size_t keys_len, const uint32_t *bits, size_t bits_len,
                       size_t n, uint32_t office, const hlq_rule *rules, size_t rules_len,
                       const uint32_t *offices, size_t offices_len, const uint32_t *ids, size_t ids_len,
                       const uint32_t *waived, size_t waived_len, size_t rows,
                       uint32_t *found_ids, size_t found_ids_len,
                       uint32_t *found_keys, size_t found_keys_len);
hlq_counted ref_store(uint32_t m, uint32_t s,
                      const uint32_t *keys, size_t keys_len, const uint32_t *bits, size_t bits_len,
                      size_t n, uint8_t *file, size_t file_len);
hlq_loaded ref_load(const uint8_t *file, size_t file_len,
                    uint32_t *keys, size_t keys_len, uint32_t *bits, size_t bits_len);
hlq_counted ref_store_log(uint32_t m, uint32_t s, const uint32_t *log_keys, size_t log_keys_len,
                          const uint32_t *log_values, size_t log_values_len, size_t used, size_t in_force,
                          uint8_t *file, size_t file_len);
hlq_loaded_log ref_load_log(const uint8_t *file, size_t file_len, uint32_t *log_keys, size_t log_keys_len,
                            uint32_t *log_values, size_t log_values_len);
hlq_counted ref_read_leaves(uint32_t m, uint32_t s,
                            const uint32_t *leaf_keys, size_t leaf_keys_len,
                            const uint32_t *leaf_features, size_t leaf_features_len, size_t leaves,
                            uint32_t *keys, size_t keys_len, uint32_t *bits, size_t bits_len);
hlq_counted ref_write_leaves(uint32_t m, uint32_t s,
                             const uint32_t *keys, size_t keys_len, const uint32_t *bits, size_t bits_len, size_t n,
                             uint32_t *leaf_keys, size_t leaf_keys_len,
                             uint32_t *leaf_features, size_t leaf_features_len);
hlq_strings ref_write_bit_strings(uint32_t m, uint32_t s,
                                  const uint32_t *keys, size_t keys_len, const uint32_t *bits, size_t bits_len,
                                  size_t n, uint8_t *node_bits, size_t node_bits_len,
                                  uint8_t *leaf_bits, size_t leaf_bits_len);
hlq_counted ref_read_bit_strings(uint32_t m, uint32_t s,
                                 const uint8_t *node_bits, size_t node_bits_len,
                                 const uint8_t *leaf_bits, size_t leaf_bits_len,
                                 uint32_t *keys, size_t keys_len, uint32_t *bits, size_t bits_len);

#ifdef __cplusplus
}
#endif

#endif
