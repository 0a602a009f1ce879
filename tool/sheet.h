/* Sheets: squares of a survey, each a map of the library with its list, summary and log in one piece of memory; read
 * from the line and written to it. */
#ifndef SHEET_H
#define SHEET_H

#include "line.h"
#include "prowcurl_sheet.h"

typedef struct {
    uint32_t i, j; /* its row and column among the sheets */
    void *memory;
    hlq_sheet map; /* what the calls take */
} sheet;

/* A sheet without a map yet, with room for any list and so many log records. */
sheet new_sheet(uint32_t m, uint32_t slots, uint32_t i, uint32_t j, size_t log_room);
void give_back_sheet(sheet *a);

/* The sheet of the survey that the line speaks of, or of another one: its digest is compared, its list loaded, its
 * summary filled. Its log is as it was kept; to_paint gives it room for one more paint of a window. */
sheet read_sheet(line *l, uint32_t i, uint32_t j);
sheet read_sheet_of(line *l, int64_t survey, uint32_t i, uint32_t j);
sheet read_sheet_to_paint(line *l, uint32_t i, uint32_t j);

/* The sheet as it is now, in place of the one that is there, of the survey that the line speaks of. */
void write_sheet(line *l, const sheet *a);
/* A new sheet of the survey with this number and name, into a table with the columns of sheets. */
void insert_sheet(line *l, const char *table, int64_t survey, const char *name, const sheet *a);

/* The pixels of a sheet: 2^m rows of 2^m bytes, in memory of their own. */
uint8_t *raster_of(const sheet *a);
/* The bytes of hlq_store, in memory of their own. */
uint8_t *bytes_of_list(const sheet *a, size_t *length);

#endif
