/* The same work as the library's calls in plain C, for the benchmark: the algorithms of docs/ARCHITECTURE.md with no
 * proof. Answers are those of the accepted calls; refusals other than the list check are left out. */
#ifndef PLAIN_H
#define PLAIN_H

#include "prowcurl.h"

hlq_keyed plain_key_at(uint32_t m, uint32_t row, uint32_t column, uint32_t level);
hlq_block plain_block_of(uint32_t m, uint32_t key);
size_t plain_build(uint32_t m, uint32_t s, const uint8_t *raster, uint32_t *keys, uint32_t *bits, size_t room);
/* Build with the summary of the list. */
size_t plain_survey(uint32_t m, uint32_t s, const uint8_t *raster, uint32_t *keys, uint32_t *bits, size_t room,
                    uint32_t *summary);
int plain_is_list(uint32_t m, uint32_t s, const uint32_t *keys, const uint32_t *bits, size_t n);
void plain_raster(uint32_t m, const uint32_t *bits, uint8_t *raster);
size_t plain_place(const uint32_t *keys, size_t n, uint32_t key);
hlq_stands plain_standing(uint32_t m, const uint32_t *keys, const uint32_t *bits, size_t n, uint32_t key);
hlq_span plain_part(uint32_t m, const uint32_t *keys, const uint32_t *bits, size_t n, uint32_t key);
/* List and window gone down together: yes, the bits, or the keys that select gives. */
int plain_exist(uint32_t m, const uint32_t *keys, const uint32_t *bits, size_t n, uint32_t row, uint32_t column,
                uint32_t height, uint32_t width, uint32_t feature);
uint32_t plain_report(uint32_t m, const uint32_t *keys, const uint32_t *bits, size_t n, uint32_t row, uint32_t column,
                      uint32_t height, uint32_t width);
size_t plain_select(uint32_t m, const uint32_t *keys, const uint32_t *bits, size_t n, uint32_t row, uint32_t column,
                    uint32_t height, uint32_t width, uint32_t feature, uint32_t *answer, size_t room);
/* Two lists gone down together, merged as build merges; counted first where their records might not fit. */
size_t plain_combine(uint32_t m, const uint32_t *bits1, size_t n1, uint32_t s2, const uint32_t *bits2, size_t n2,
                     const uint8_t *table, uint32_t *keys, uint32_t *bits, size_t room);
/* The batch: the list is checked once, and each window clipped in 64-bit numbers. */
size_t plain_batch(uint32_t m, uint32_t s, const uint32_t *keys, const uint32_t *bits, size_t n,
                   const hlq_question *questions, size_t count, uint32_t *refusals, uint32_t *values);
/* The summary filled, or compared, in the pass that checks the list; and the area that does so and then takes whole
 * blocks from it. */
int plain_fill_summary(uint32_t m, uint32_t s, const uint32_t *keys, const uint32_t *bits, size_t n,
                       uint32_t *summary);
int plain_is_surveyed(uint32_t m, uint32_t s, const uint32_t *keys, const uint32_t *bits, size_t n,
                      const uint32_t *summary);
uint32_t plain_area(uint32_t m, uint32_t s, const uint32_t *keys, const uint32_t *bits, size_t n,
                    const uint32_t *summary, uint32_t row, uint32_t column, uint32_t height, uint32_t width,
                    uint32_t feature);
/* Edits check list and summary in one pass, and the log, and then count anew the summary's blocks that they meet. Paint
 * of a block, and taking back and redo of one, with one memmove of each slice. Paint of a window, and taking back
 * and redo of a group: the new list is made in one pass beside the old one, and copied over it where it fits the room.
 * They give the new n, and the log's counts through the pointer. */
typedef struct {
    size_t used, in_force;
} plain_counts;
size_t plain_paint(uint32_t m, uint32_t s, uint32_t *keys, uint32_t *bits, size_t n, uint32_t *summary,
                   uint32_t *log_keys, uint32_t *log_values, plain_counts *c, uint32_t key, uint32_t feature);
size_t plain_paint_window(uint32_t m, uint32_t s, uint32_t *keys, uint32_t *bits, size_t n, size_t room,
                          uint32_t *summary, uint32_t *log_keys, uint32_t *log_values, size_t log_room,
                          plain_counts *c, uint32_t row, uint32_t column, uint32_t height, uint32_t width,
                          uint32_t feature);
size_t plain_take_back(uint32_t m, uint32_t s, uint32_t *keys, uint32_t *bits, size_t n, size_t room,
                       uint32_t *summary, const uint32_t *log_keys, const uint32_t *log_values, plain_counts *c);
size_t plain_redo(uint32_t m, uint32_t s, uint32_t *keys, uint32_t *bits, size_t n, size_t room, uint32_t *summary,
                  const uint32_t *log_keys, const uint32_t *log_values, plain_counts *c);
/* Live findings and, through the pointer, the hidden ones: list, rules and table are checked, waivers are merged in
 * order, and their areas added up. */
size_t plain_findings(uint32_t m, uint32_t s, const uint32_t *keys, const uint32_t *bits, size_t n, uint32_t office,
                      const hlq_rule *rules, size_t rules_len, const uint32_t *offices, const uint32_t *ids,
                      const uint32_t *waived, size_t rows, uint32_t *found_ids, uint32_t *found_keys, size_t *hidden);
/* A row of a table of 512 places more, or less, with one memmove of each slice; they check table and key first. */
size_t plain_add_waiver(uint32_t m, uint32_t office, uint32_t *offices, uint32_t *ids, uint32_t *waived, size_t rows,
                        uint32_t id, uint32_t key);
size_t plain_remove_waiver(uint32_t m, uint32_t office, uint32_t *offices, uint32_t *ids, uint32_t *waived,
                           size_t rows, uint32_t id, uint32_t key);
size_t plain_store(uint32_t m, uint32_t s, const uint32_t *keys, const uint32_t *bits, size_t n, uint8_t *file);
size_t plain_load(const uint8_t *file, uint32_t *keys, uint32_t *bits);
size_t plain_store_log(uint32_t m, uint32_t s, const uint32_t *log_keys, const uint32_t *log_values, size_t used,
                       size_t in_force, uint8_t *file);
size_t plain_load_log(const uint8_t *file, uint32_t *log_keys, uint32_t *log_values);
/* The list of a delivery, or 0 where it is none or the room too little; and the leaves of a list. */
size_t plain_read_leaves(uint32_t m, uint32_t s, const uint32_t *leaf_keys, const uint32_t *leaf_features,
                         size_t leaves, uint32_t *keys, uint32_t *bits, size_t room);
size_t plain_write_leaves(const uint32_t *keys, const uint32_t *bits, size_t n, uint32_t *leaf_keys,
                          uint32_t *leaf_features);
size_t plain_write_bits(const uint32_t *bits, size_t n, uint8_t *nodes, uint8_t *leaves);
size_t plain_read_bits(uint32_t m, const uint8_t *nodes, size_t nodes_len, const uint8_t *leaves, size_t leaves_len,
                       uint32_t *keys, uint32_t *bits, size_t room);

#endif
