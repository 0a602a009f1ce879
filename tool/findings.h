/* Findings of an office over a whole line, and the patches that they make. */
#ifndef FINDINGS_H
#define FINDINGS_H

#include "rules.h"

/* A block of a rule's class in its window. It is hidden where the office has waived every pixel of it. */
typedef struct {
    uint32_t rule; /* its place in the list of rules */
    int live;
    block b;
    square q;
    size_t patch; /* its place among the patches */
} finding;

/* Findings of one rule and one state that hang together side by side, across sheets. */
typedef struct {
    uint32_t rule;
    int live;
    uint32_t row, column; /* its first pixel in reading order */
    uint64_t pixels;
    size_t blocks;
    uint32_t top, left, bottom, right; /* the box around it: rows top to bottom - 1, columns left to right - 1 */
} patch;

typedef struct {
    uint32_t office;
    rule_list rules;
    finding *at; /* by rule, sheet in reading order, key */
    size_t count, room;
    patch *patches; /* by rule and first pixel */
    size_t patch_count;
} findings;

/* What the rules of an office find in the survey, with the office's waivers. Ends with 13 where a rule's window reaches
 * over the survey's edge or its class is none. */
findings find_all(line *l, int office);
/* The same for some of its rules, which are right and ascend; they are given back with the findings. */
findings find_with(line *l, int office, rule_list rules);
void give_back_findings(findings *f);

/* The patches of findings that are there, in the time of sorting them (patches.c). */
void find_patches(findings *f);

/* The finding of a rule that has a pixel, or NULL. */
const finding *finding_at(const findings *f, uint32_t rule, uint32_t row, uint32_t column);

static inline const char *state_of(int live) { return live ? "live" : "hidden"; }

#endif
