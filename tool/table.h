/* Files of comma separated values: a first line with the names of the columns, in any order, then rows. Fields may be
 * quoted, lines may end as on any system, and further columns are passed over. Everything that is wrong is said with
 * the line where it stands. */
#ifndef TABLE_H
#define TABLE_H

#include <stddef.h>
#include <stdio.h>

typedef struct {
    char *path;
    size_t columns, rows;
    char **names;  /* of the columns */
    char **fields; /* row by row */
    size_t *lines; /* on which line each row begins */
} csv;

csv read_csv(const char *path);
void give_back_csv(csv *c);

/* The place of a column: ends where there is none, or gives c->columns where it may be missing. */
size_t column_of(const csv *c, const char *name);
size_t column_if_any(const csv *c, const char *name);

/* A column that is not there has empty fields. */
const char *field_at(const csv *c, size_t row, size_t column);
/* A whole number within the bounds, or the end. */
long long number_at(const csv *c, size_t row, size_t column, long long least, long long most);
double decimal_at(const csv *c, size_t row, size_t column);

/* "FILE, line N", for messages. */
char *where_in(const csv *c, size_t row);

/* A field as CSV wants it, quoted where it must be. */
void write_csv_field(FILE *file, const char *field);

#endif
