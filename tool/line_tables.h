/* The tables of a line, made whole. */
#ifndef LINE_TABLES_H
#define LINE_TABLES_H

#include "line.h"

enum { GEOPACKAGE_ID = 0x47504B47, GEOPACKAGE_VERSION = 10300 }; /* 'GPKG', 1.3 */

/* Begins a transaction and makes every table in it; the caller commits. */
void make_tables(line *l);

/* After the first survey: the layers get their extent and their coordinate system. */
void place_layers(line *l);

#endif
