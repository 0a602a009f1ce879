/* What the tests of edits share: a survey, which is a list with its summary and log in lent buffers, its edits by the
 * library and the reference at once, and a model of its log. */
#ifndef SURVEY_H
#define SURVEY_H

#include "support.h"

typedef struct {
    uint32_t m, s;
    lent keys, bits, summary, log_keys, log_values;
    size_t n, used, in_force;
} survey;

typedef struct {
    uint32_t row, column, height, width;
} window;

/* The survey of a raster, with so much room for the list and the log; some slices are longer than that. */
survey new_survey(uint32_t m, uint32_t s, const uint8_t *raster, size_t room, size_t log_room);
survey copy_survey(const survey *a);
void free_survey(survey *a);
/* How many records the list of a raster has for a block: for the root all. */
size_t records_of(uint32_t m, const uint8_t *raster, uint32_t key);

/* An edit by both, whose results and buffers must be the same; where it is accepted, the survey has it. They give the
 * refusal. */
uint64_t paint(survey *a, uint32_t key, uint32_t feature);
uint64_t paint_window(survey *a, window w, uint32_t feature);
uint64_t take_back(survey *a);
uint64_t redo(survey *a);

/* Fails the run where list and summary are not, record for record and count for count, those of a fresh build. */
void same_as_fresh(const survey *a, const uint8_t *raster);

window random_window(uint32_t m);
void fill_window(uint32_t m, uint8_t *raster, window w, uint32_t feature);
window window_of(uint32_t m, uint32_t key);
/* The blocks that lie in the window, and are the root or have a parent that does not, by key; gives their number. They
 * take at most as many places as the window has pixels. */
size_t largest_blocks(uint32_t m, window w, uint32_t *blocks);

/* A model of the log: its two slices, the ends of its steps, how many these are, and how many are in force. */
typedef struct {
    lent keys, values;
    size_t *ends, count, in_force;
} model;

model new_model(const survey *a, size_t steps);
void free_model(model *l);
size_t end_of(const model *l, size_t steps);
/* The step of a paint of a block, or of a window as a group; before: the raster before it. */
void log_block(model *l, uint32_t m, const uint8_t *before, uint32_t key, uint32_t feature);
void log_window(model *l, uint32_t m, const uint8_t *before, window w, uint32_t feature);
/* Fails the run where the survey's log is another than the model. */
void same_log(const survey *a, const model *l);

/* Behind the survey's log: a record, and the entry that a paint of a block of any raster would have. */
void append_record(survey *a, uint32_t key, uint32_t value);
void append(survey *a, const uint8_t *raster, uint32_t key, uint32_t feature);

#endif
