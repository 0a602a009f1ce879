/* A MAP.hlq of the tool's first version, with its log MAP.hlq.log, becomes a survey of one sheet. */
#ifndef OLD_MAP_H
#define OLD_MAP_H

#include "line.h"

void add_old_map(const arguments *a, line *l, const char *name, const char *taken);

#endif
