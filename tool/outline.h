/* The outline of a patch: rings of corners, in rows and columns. */
#ifndef OUTLINE_H
#define OUTLINE_H

#include "findings.h"

typedef struct {
    uint32_t row, column;
} corner;

/* The rings of all patches, one after the other. Ring r of a patch has the corners from begins[r] to begins[r + 1] - 1,
 * the first one not again at its end; the first ring of a patch goes around it, counterclockwise as a map with north up
 * shows it, the others are its holes, clockwise. No ring meets itself. */
typedef struct {
    corner *corners;
    size_t *begins;
    size_t *first_ring; /* of a patch; the next patch's first one is the end */
    size_t rings;
} outlines;

outlines find_outlines(const findings *f);
void give_back_outlines(outlines *o);

#endif
