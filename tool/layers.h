/* What GIS programs see of a line: the layers ground, windows and findings of the GeoPackage, and GeoJSON. */
#ifndef LAYERS_H
#define LAYERS_H

#include "classes.h"
#include "findings.h"

/* The patches of an office, live and hidden, in place of those of that office that are in the layer. */
void save_findings(line *l, const findings *f, const class_names *c);

/* The patches that the answer lists, with the line's coordinate system by its name. */
void write_geojson(const arguments *a, line *l, const findings *f, const class_names *c, const char *path);

#endif
