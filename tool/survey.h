/* Surveys as they come: PGM, ESRI ASCII grids, and what GDAL reads. They are read row by row. */
#ifndef SURVEY_H
#define SURVEY_H

#include "arguments.h"

#include <stdint.h>
#include <stdio.h>

enum { NO_DATA = -1 };

typedef struct survey survey;
struct survey {
    const char *path;
    FILE *file;
    uint32_t rows, columns;
    int has_cell, has_place; /* whether it tells its cell size, and where it lies */
    double cell, west, north;
    int has_south;     /* a grid tells its southern edge, from which the northern one follows */
    double south;
    long epsg;         /* of its coordinate system, 0 where it has none or another one */
    char *srs_name;    /* NULL where it has none */
    char *definition;  /* of it, as a GeoPackage wants it */
    uint32_t row;      /* that is read next */
    /* The next row: a number from 0 to 255 for each column, or NO_DATA. */
    void (*read_row)(survey *s, int *values);
    /* What the readers keep. */
    unsigned format, maxval, bits;
    double nodata;
    int has_nodata;
};

/* Opens it and reads its head. - is standard input, for PGM and grids. */
survey open_survey(const char *path);
/* After the last row, and before anything counts: ends where more follows. */
void end_survey(survey *s);
void give_back_survey(survey *s);

/* 1 where a file of the first version stands there: a map with the mark HLQ. */
int is_old_map(const char *path);

/* The end, with the place in the survey. */
_Noreturn void fail_in_survey(const survey *s, uint32_t row, uint32_t column, const char *format, ...)
    __attribute__((format(printf, 4, 5)));

/* gdal.c */
survey open_gdal_survey(const char *path);
/* The coordinate system of a grid, from the file of it that stands beside the grid. */
void take_prj(survey *s, const char *path);
/* FROM in the format of GDAL's driver OUT, by gdal_translate with further words; the coordinate system of EPSG's number
 * is put onto it where that is not 0. */
void translate(const char *from, const char *to, const char *driver, const char *srs);

#endif
