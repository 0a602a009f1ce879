/* Steps: who painted what and when, and which sheets it touched. A step is done, or was taken back; those taken back
 * come after all that are done. On each sheet the log holds the steps that touched it, in the same order. */
#ifndef STEPS_H
#define STEPS_H

#include "window.h"

/* How many steps of the survey can be taken back (done) or redone (not done). */
uint64_t steps_left(line *l, int done);

/* The step that undo and redo speak of, or 0 where there is none. */
int64_t next_undo(line *l);
int64_t next_redo(line *l);

/* Before a paint of this window: the steps that were taken back are dropped. On their sheets that the paint does not
 * touch, the log is cut to the records in force; on the others the library's call does so. */
void drop_redo(line *l, window w);

/* A new step, done; then each sheet that it touched. */
int64_t begin_step(line *l, const arguments *a, const char *words);
void note_sheet(line *l, int64_t step, const sheet *s);

#endif
