/* A line: one SQLite database that is a GeoPackage, LINE.gpkg. Here it is made, opened, asked and written; what stands
 * in its tables is told in docs/FILE-FORMATS.md. Every failure of the database ends the tool with a message and a
 * status, and what was not committed is rolled back. */
#ifndef LINE_H
#define LINE_H

#include "arguments.h"
#include "tool.h"

#include <sqlite3.h>
#include <stdint.h>

enum { LINE_FORMAT = 1, MOST_SIDE_OF_SURVEY = 1 << 20 };

typedef struct {
    sqlite3 *db;
    const char *path;
    uint32_t m, slots, filler;
    uint32_t rows, columns; /* of every survey; 0 where there is none yet */
    double west, north, cell;
    int64_t srs;         /* of gpkg_spatial_ref_sys; -1 where no survey told one */
    int64_t survey;      /* what the command speaks of; 0 where there is none */
    char *survey_name;   /* in memory of its own, or NULL */
} line;

typedef enum { TO_READ, TO_FILL, TO_WRITE } purpose;

/* A line that is there. From here to close_line all is read from one state of it. TO_WRITE locks out other writers
 * (BEGIN IMMEDIATE), waiting as long as --wait says; TO_FILL is for who reads first and writes later. Sets the survey
 * of --survey, else the one that was added last. */
line open_line(const arguments *a, purpose why);
/* Ends a command that needs a survey where there is none. */
void need_survey(const line *l);
/* What was written counts from here on. The answer comes after it. */
void commit_line(line *l);
/* Begins again after a commit, with the format row read anew. */
void begin_again(line *l, purpose why);
void close_line(line *l);

/* A new line, of this m and so many slots, under a name of its own until it is whole. `fill` may write into it. */
void make_line(const arguments *a, const char *path, uint32_t m, uint32_t slots, uint32_t filler,
               void (*fill)(line *l, const void *with), const void *with);

/* How many sheets the line has down and across, and the side of one. */
uint32_t sheet_rows(const line *l);
uint32_t sheet_columns(const line *l);
uint32_t side_of(const line *l);

/* One statement with its values bound. `kinds` has a letter for each: i an int64_t, d a double, t a text (NULL is
 * null), b a pointer and a size_t, n null. The calls end the tool where the database fails. */
void run_sql(line *l, const char *sql, const char *kinds, ...);
/* A question; next_row gives 1 for each row, and 0 once, when it also gives the statement back. */
sqlite3_stmt *ask_sql(line *l, const char *sql, const char *kinds, ...);
int next_row(line *l, sqlite3_stmt *asked);
/* To leave a question before its last row. */
void leave(sqlite3_stmt *asked);
/* The first column of the first row, or `otherwise` where there is no row or it is null. */
int64_t number_from_sql(line *l, int64_t otherwise, const char *sql, const char *kinds, ...);

/* Says what the database says, with the line's path, and ends with the status that fits. */
_Noreturn void fail_as_sqlite(const line *l, int code);

/* The answers of a row, as C has them. u32_at gives UINT32_MAX, which is no class, office, sheet or key, for a number
 * that 32 bits do not hold; text_at gives "" for null. */
uint32_t u32_at(sqlite3_stmt *row, int column);
const char *text_at(sqlite3_stmt *row, int column);

/* Where a line may lie, so that every coordinate and every area of it is a number. accept_place ends where a survey,
 * the one at `path`, lies elsewhere. */
int place_is_sound(double west, double north, double cell);
void accept_place(const char *path, double west, double north, double cell);

double seconds_to_wait(const arguments *a);
/* Who edits: --by, or the login name. In memory of its own. */
char *editor_of(const arguments *a);

#endif
