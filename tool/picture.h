/* The picture of a line's findings, for paper and for mail. */
#ifndef PICTURE_H
#define PICTURE_H

#include "files.h"
#include "findings.h"
#include "image.h"

/* The ground, the rules' windows with their ids, the patches; below them the classes that occur, a scale and north.
 * Live patches have a full outline, hidden ones are hatched. */
void draw_findings(const arguments *a, line *l, const findings *f, const class_names *c, const char *path);

/* The bits of the classes that occur in a window of the survey. */
uint32_t classes_in(line *l, window w);

/* A round length of some fifth of this many metres: 1, 2 or 5 with zeros. */
double round_length(double metres);

#endif
