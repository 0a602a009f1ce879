/* init, add: a line is made, and surveys come into it. A survey is cut into sheets band by band into a table of the
 * temporary database, without a lock; then all of it goes into the line in one transaction. So memory grows with the
 * survey's width alone, and others are kept out only for the copy. */
#define _DEFAULT_SOURCE
#include "answer.h"
#include "classes.h"
#include "commands.h"
#include "files.h"
#include "line_tables.h"
#include "old_map.h"
#include "sheet.h"
#include "survey.h"

#include <math.h>
#include <stdlib.h>
#include <string.h>
#include <unistd.h>

uint32_t resolution_of(const char *text) {
    uint32_t side = number_of(text, "--side");
    for (uint32_t m = 0; m <= HLQ_DEEPEST_M; m++) if (side == (uint32_t)1 << m) return m;
    fail(STATUS_USAGE, "--side: %u pixels are not a power of two up to %d", side, 1 << HLQ_DEEPEST_M);
}

static uint32_t slots_given(const arguments *a, const csv *file) {
    long long slots;
    if (!a->given[OPTION_SLOTS]) return file ? slots_of_file(file) : HLQ_MOST_SLOTS;
    if (!is_number(value_of(a, OPTION_SLOTS), 1, HLQ_MOST_SLOTS, &slots))
        fail(STATUS_USAGE, "--slots: '%s' is not a whole number from 1 to %d", value_of(a, OPTION_SLOTS),
             HLQ_MOST_SLOTS);
    if (file && slots_of_file(file) > slots)
        fail(STATUS_USAGE, "--slots: %s has %u classes", file->path, slots_of_file(file));
    return (uint32_t)slots;
}

static void fill_classes(line *l, const void *file) { take_classes(l, file); }

/* At init the classes are not yet in a line: a name is looked up in the file itself. */
static uint32_t filler_given(const arguments *a, const csv *file, uint32_t slots) {
    const char *text = value_of(a, OPTION_FILLER);
    long long number = 0;
    if (!text) return 0;
    if (!is_number(text, 0, HLQ_MOST_SLOTS - 1, &number)) {
        size_t row = 0;
        while (file && row < file->rows && strcmp(field_at(file, row, column_of(file, "name")), text) != 0) row++;
        if (!file || row == file->rows) fail(STATUS_USAGE, "--filler: '%s' is no class", text);
        number = number_at(file, row, column_of(file, "class"), 0, HLQ_MOST_SLOTS - 1);
    }
    if (number >= slots) fail(STATUS_USAGE, "--filler: %lld is no class: they go from 0 to %u", number, slots - 1);
    return (uint32_t)number;
}

void run_init(const arguments *a) {
    csv file = { 0 };
    int has_classes = a->given[OPTION_CLASSES] != NULL;
    if (file_exists(a->words[0])) fail(STATUS_CANNOT_CREATE, "%s is there; init makes a new line", a->words[0]);
    if (has_classes) file = read_csv(value_of(a, OPTION_CLASSES));
    uint32_t m = a->given[OPTION_SIDE] ? resolution_of(value_of(a, OPTION_SIDE)) : HLQ_DEEPEST_M;
    uint32_t slots = slots_given(a, has_classes ? &file : NULL);
    uint32_t filler = filler_given(a, has_classes ? &file : NULL, slots);
    make_line(a, a->words[0], m, slots, filler, has_classes ? fill_classes : NULL, &file);
    answer_begin(a);
    fact_words("line", a->words[0]);
    fact_number("side", (uint64_t)1 << m);
    fact_number("slots", slots);
    fact_number("classes", file.rows);
    answer_end();
    give_back_csv(&file);
}

/* What a survey becomes on its way in. */
typedef struct {
    const arguments *a;
    line *l;
    survey *s;
    const char *name;
    class_names classes;
    int nodata_class; /* -1 where --nodata is not given */
    uint64_t nodata;  /* cells without data, and the first of them */
    uint32_t nodata_row, nodata_column;
} intake;

static uint8_t class_of_value(intake *in, int value, uint32_t row, uint32_t column) {
    const class_names *c = &in->classes;
    if (value == NO_DATA && in->nodata_class >= 0) return (uint8_t)in->nodata_class;
    if (value == NO_DATA) {
        if (in->nodata++ == 0) in->nodata_row = row, in->nodata_column = column;
        return 0;
    }
    if (c->has_greys && c->of_grey[value] == NO_CLASS)
        fail_in_survey(in->s, row, column, "no class of the line has the grey %d", value);
    uint32_t class = c->has_greys ? c->of_grey[value] : (uint32_t)value;
    if (class >= in->l->slots)
        fail_in_survey(in->s, row, column, "%u is no class: they go from 0 to %u (a column grey in the classes gives "
                                           "classes to other greys)", class, in->l->slots - 1);
    return (uint8_t)class;
}

/* So many rows into the band. */
static void read_band(intake *in, uint8_t *band, uint32_t first, uint32_t count, int *values) {
    uint32_t columns = in->s->columns;
    for (uint32_t row = 0; row < count; row++) {
        in->s->read_row(in->s, values);
        for (uint32_t c = 0; c < columns; c++)
            band[(size_t)row * columns + c] = class_of_value(in, values[c], first + row, c);
    }
}

/* The sheets of a band; what lies past the survey's edge is the filler. */
static void cut_band(intake *in, const uint8_t *band, uint32_t i, uint32_t count, uint8_t *raster) {
    uint32_t side = side_of(in->l), columns = in->s->columns;
    sheet a = new_sheet(in->l->m, in->l->slots, i, 0, 0);
    for (uint32_t left = 0; left < columns; left += side, a.j++) {
        uint32_t wide = columns - left < side ? columns - left : side;
        memset(raster, (int)in->l->filler, (size_t)side * side);
        for (uint32_t row = 0; row < count; row++)
            memcpy(raster + (size_t)row * side, band + (size_t)row * columns + left, wide);
        accept_or_end(hlq_sheet_build(&a.map, raster, (size_t)side * side), in->s->path);
        insert_sheet(in->l, "temp.new_sheets", 0, in->name, &a);
    }
    give_back_sheet(&a);
}

static void tell_progress(uint32_t done, uint32_t all) {
    if (!isatty(STDERR_FILENO)) return;
    if (done < all) fprintf(stderr, "\r%u of %u rows, %u %%", done, all, (uint32_t)((uint64_t)done * 100 / all));
    else fputs("\r\033[K", stderr);
}

static void cut(intake *in) {
    survey *s = in->s;
    uint32_t side = side_of(in->l), high = s->rows < side ? s->rows : side;
    uint8_t *band = room_for((size_t)high * s->columns, 1), *raster = room_for((size_t)side * side, 1);
    int *values = room_for(s->columns, sizeof *values);
    for (uint32_t first = 0; first < s->rows; first += side) {
        uint32_t count = s->rows - first < side ? s->rows - first : side;
        read_band(in, band, first, count, values);
        cut_band(in, band, first >> in->l->m, count, raster);
        tell_progress(first + count, s->rows);
    }
    if (in->nodata)
        fail(STATUS_DATA, "%s: %llu cells without data, the first at row %u, column %u; --nodata CLASS gives them a "
                          "class", s->path, (unsigned long long)in->nodata, in->nodata_row, in->nodata_column);
    free(band);
    free(raster);
    free(values);
}

/* The file's name without folder and ending. */
static char *survey_name(const arguments *a) {
    if (a->given[OPTION_AS]) return text_of("%s", value_of(a, OPTION_AS));
    const char *slash = strrchr(a->words[1], '/'), *base = slash ? slash + 1 : a->words[1];
    const char *dot = strrchr(base, '.');
    if (strcmp(base, "-") == 0) return text_of("survey");
    return dot && dot > base ? text_of("%.*s", (int)(dot - base), base) : text_of("%s", base);
}

void need_free_name(line *l, const char *name) {
    if (!*name) fail(STATUS_USAGE, "--as: a survey has a name");
    if (number_from_sql(l, 0, "SELECT count(*) FROM surveys WHERE name = ?", "t", name))
        fail(STATUS_USAGE, "%s has a survey '%s'; --as NAME gives another name", l->path, name);
}

static int is_digits(const char *text, int count) {
    for (int i = 0; i < count; i++) if (text[i] < '0' || text[i] > '9') return 0;
    return 1;
}

/* A day, year first, so that days sort. */
const char *day_given(const arguments *a) {
    const char *day = value_of(a, OPTION_TAKEN);
    if (!day) return "";
    int fits = strlen(day) == 10 && is_digits(day, 4) && day[4] == '-' && is_digits(day + 5, 2) && day[7] == '-' &&
               is_digits(day + 8, 2);
    long month = fits ? strtol(day + 5, NULL, 10) : 0, date = fits ? strtol(day + 8, NULL, 10) : 0;
    if (month < 1 || month > 12 || date < 1 || date > 31)
        fail(STATUS_USAGE, "--taken: '%s' is not a day like 2026-05-31", day);
    return day;
}

/* What the command line says of a survey that does not say it itself. */
static void place_by_hand(const arguments *a, survey *s) {
    if (s->has_cell && a->given[OPTION_CELL]) fail(STATUS_USAGE, "--cell: %s tells its cell size", s->path);
    if (s->has_place && (a->given[OPTION_WEST] || a->given[OPTION_NORTH]))
        fail(STATUS_USAGE, "%s: %s tells where it lies", a->given[OPTION_WEST] ? "--west" : "--north", s->path);
    if (a->given[OPTION_CELL]) s->cell = decimal_of(value_of(a, OPTION_CELL), "--cell"), s->has_cell = 1;
    if (!(s->cell > 0)) fail(STATUS_USAGE, "--cell: a pixel has a side above 0");
    if (s->has_place) return;
    s->west = a->given[OPTION_WEST] ? decimal_of(value_of(a, OPTION_WEST), "--west") : 0;
    s->north = a->given[OPTION_NORTH] ? decimal_of(value_of(a, OPTION_NORTH), "--north") : s->rows * s->cell;
    s->has_place = a->given[OPTION_WEST] || a->given[OPTION_NORTH];
}

/* The coordinate system's row, which is made where it is new. */
static int64_t system_of(line *l, const survey *s) {
    if (!s->srs_name) return -1;
    int64_t id = s->epsg ? s->epsg : number_from_sql(l, -1, "SELECT srs_id FROM gpkg_spatial_ref_sys"
                                                            " WHERE definition = ?", "t", s->definition);
    if (id < 0) id = number_from_sql(l, 0, "SELECT max(max(srs_id), 100000) + 1 FROM gpkg_spatial_ref_sys", "");
    if (!number_from_sql(l, 0, "SELECT count(*) FROM gpkg_spatial_ref_sys WHERE srs_id = ?", "i", id))
        run_sql(l, "INSERT INTO gpkg_spatial_ref_sys VALUES (?, ?, ?, ?, ?, NULL)", "titit", s->srs_name, id,
                s->epsg ? "EPSG" : "NONE", id, s->definition);
    return id;
}

static void same_grid(const line *l, const survey *s, int64_t srs) {
    double near = 1e-6 * l->cell;
    if (s->rows != l->rows || s->columns != l->columns)
        fail(STATUS_DATA, "%s: %u rows and %u columns, but the line has %u and %u", s->path, s->rows, s->columns,
             l->rows, l->columns);
    if (s->has_cell && fabs(s->cell - l->cell) > near / (l->rows + l->columns))
        fail(STATUS_DATA, "%s: cells of %.15g, but the line's have %.15g", s->path, s->cell, l->cell);
    if (s->has_place && (fabs(s->west - l->west) > near || fabs(s->north - l->north) > near))
        fail(STATUS_DATA, "%s: its north-west corner is %.15g, %.15g, but the line's is %.15g, %.15g", s->path, s->west,
             s->north, l->west, l->north);
    if (s->srs_name && srs != l->srs)
        fail(STATUS_DATA, "%s: another coordinate system than the line's: %s", s->path, s->srs_name);
}

/* The first survey says where the line lies; every other one must lie there too. */
static void take_place(line *l, const survey *s) {
    int64_t srs = system_of(l, s);
    if (l->rows) {
        same_grid(l, s, srs);
        return;
    }
    l->rows = s->rows, l->columns = s->columns, l->west = s->west, l->north = s->north, l->cell = s->cell;
    l->srs = srs;
    run_sql(l, "UPDATE prowcurl SET rows = ?, columns = ?, west = ?, north = ?, cell = ?, srs_id = ?, filler = ?",
            "iidddii", (int64_t)l->rows, (int64_t)l->columns, l->west, l->north, l->cell, srs, (int64_t)l->filler);
    place_layers(l);
}

/* --filler at the first survey; later it must be the line's. */
static void take_filler(const arguments *a, line *l, const class_names *classes) {
    if (!a->given[OPTION_FILLER]) return;
    uint32_t filler = class_of(classes, value_of(a, OPTION_FILLER), "--filler");
    if (l->rows && filler != l->filler) fail(STATUS_USAGE, "--filler: the line's is %u", l->filler);
    l->filler = filler;
}

void answer_survey(const arguments *a, const line *l, const char *name, uint64_t records) {
    answer_begin(a);
    fact_words("line", l->path);
    fact_words("survey", name);
    fact_number("rows", l->rows);
    fact_number("columns", l->columns);
    fact_number("sheets", (uint64_t)sheet_rows(l) * sheet_columns(l));
    fact_exact("cell", l->cell);
    fact_number("bytes", records);
    answer_end();
}

/* The sheets of the temporary table become a survey of the line, in one transaction. */
static uint64_t move_in(line *l, const survey *s, const char *name, const char *taken) {
    uint32_t slots = l->slots, filler = l->filler;
    begin_again(l, TO_WRITE);
    need_free_name(l, name);
    if (l->slots != slots) fail(STATUS_BUSY, "%s: its classes were changed meanwhile; try again", l->path);
    l->filler = filler;
    take_place(l, s);
    run_sql(l, "INSERT INTO surveys (name, taken) VALUES (?, ?)", "tt", name, taken);
    int64_t id = sqlite3_last_insert_rowid(l->db);
    run_sql(l, "INSERT INTO sheets SELECT ?, sheet_row, sheet_column, list, log_keys, log_values, used, in_force,"
               " digest FROM temp.new_sheets", "i", id);
    uint64_t bytes = (uint64_t)number_from_sql(l, 0, "SELECT sum(length(list)) FROM temp.new_sheets", "");
    commit_line(l);
    return bytes;
}

void begin_new_sheets(line *l) {
    commit_line(l); /* nothing was written: the state that was read is let go */
    run_sql(l, "CREATE TEMP TABLE new_sheets (survey, sheet_row, sheet_column, list, log_keys, log_values, used,"
               " in_force, digest)", "");
    run_sql(l, "BEGIN", "");
}

static void add_survey(const arguments *a, line *l, const char *name) {
    survey s = open_survey(a->words[1]);
    intake in = { .a = a, .l = l, .s = &s, .name = name, .classes = read_classes(l), .nodata_class = -1 };
    if (a->given[OPTION_NODATA]) in.nodata_class = (int)class_of(&in.classes, value_of(a, OPTION_NODATA), "--nodata");
    take_filler(a, l, &in.classes);
    place_by_hand(a, &s);
    accept_place(s.path, s.west, s.north, s.cell);
    if (l->rows) same_grid(l, &s, s.epsg ? s.epsg : l->srs); /* said before the long way; said again at its end */
    begin_new_sheets(l);
    cut(&in);
    end_survey(&s);
    commit_line(l);
    uint64_t bytes = move_in(l, &s, name, day_given(a));
    answer_survey(a, l, name, bytes);
    give_back_survey(&s);
    give_back_classes(&in.classes);
}

void run_add(const arguments *a) {
    day_given(a);
    line l = open_line(a, TO_FILL);
    char *name = survey_name(a);
    need_free_name(&l, name);
    if (is_old_map(a->words[1])) add_old_map(a, &l, name, day_given(a));
    else add_survey(a, &l, name);
    free(name);
    close_line(&l);
}
