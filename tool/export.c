/* export: a survey's pixels as a PGM, an ESRI grid or a GeoTIFF; a sheet as leaves, bit strings or the library's
 * file. */
#define _DEFAULT_SOURCE
#include "answer.h"
#include "classes.h"
#include "commands.h"
#include "files.h"
#include "survey.h"
#include "window.h"

#include <errno.h>
#include <netpbm/pgm.h>
#include <stdlib.h>
#include <string.h>

/* Gives every row of the survey in turn: a band of sheets at a time. */
typedef void take_row(const uint8_t *classes, uint32_t columns, void *with);

static void each_row(line *l, take_row *take, void *with) {
    uint32_t side = side_of(l);
    uint8_t *band = room_for((size_t)side * l->columns, 1);
    for (uint32_t i = 0; i < sheet_rows(l); i++) {
        uint32_t count = l->rows - i * side < side ? l->rows - i * side : side;
        for (uint32_t j = 0; j < sheet_columns(l); j++) {
            sheet s = read_sheet(l, i, j);
            uint8_t *raster = raster_of(&s);
            uint32_t left = j * side, wide = l->columns - left < side ? l->columns - left : side;
            for (uint32_t row = 0; row < count; row++)
                memcpy(band + (size_t)row * l->columns + left, raster + (size_t)row * side, wide);
            free(raster);
            give_back_sheet(&s);
        }
        for (uint32_t row = 0; row < count; row++) take(band + (size_t)row * l->columns, l->columns, with);
    }
    free(band);
}

/* The greys are the classes, and the maxval is the highest class that the line could have. */
typedef struct {
    FILE *file;
    gray *greys, maxval;
} pgm_out;

static void end_of_netpbm(const char *words) { fail(STATUS_IO, "the PGM cannot be written: %s", words); }

static void take_pgm_row(const uint8_t *classes, uint32_t columns, void *with) {
    pgm_out *p = with;
    for (uint32_t i = 0; i < columns; i++) p->greys[i] = classes[i];
    pgm_writepgmrow(p->file, p->greys, (int)columns, p->maxval, 0);
}

static void write_pgm(line *l, FILE *file) {
    pgm_out p = { file, room_for(l->columns, sizeof *p.greys), l->slots > 1 ? l->slots - 1 : 1 };
    pm_init("prowcurl", 0);
    pm_setusererrormsgfn(end_of_netpbm);
    pgm_writepgminit(file, (int)l->columns, (int)l->rows, p.maxval, 0);
    each_row(l, take_pgm_row, &p);
    free(p.greys);
}

static void take_grid_row(const uint8_t *classes, uint32_t columns, void *with) {
    for (uint32_t i = 0; i < columns; i++) fprintf(with, "%s%u", i ? " " : "", classes[i]);
    fputc('\n', with);
}

static void write_grid(line *l, FILE *file) {
    fprintf(file, "ncols %u\nnrows %u\nxllcorner %.15g\nyllcorner %.15g\ncellsize %.15g\n", l->columns, l->rows,
            l->west, y_of(l, l->rows), l->cell);
    each_row(l, take_grid_row, file);
}

/* Raw bytes with a head of EHdr's, which gdal_translate makes a GeoTIFF of. */
static void take_raw_row(const uint8_t *classes, uint32_t columns, void *with) { fwrite(classes, 1, columns, with); }

static FILE *new_file(const char *name) {
    FILE *file = fopen(name, "wb");
    if (!file) fail(STATUS_CANNOT_CREATE, "%s: %s", name, strerror(errno));
    return file;
}

static void end_file(FILE *file, const char *name) {
    int failed = ferror(file);
    if (fclose(file) != 0 || failed) fail(STATUS_IO, "%s: %s", name, strerror(errno));
}

static char *system_text(line *l) {
    if (l->srs < 0) return NULL;
    sqlite3_stmt *row = ask_sql(l, "SELECT organization, organization_coordsys_id, definition FROM gpkg_spatial_ref_sys"
                                   " WHERE srs_id = ?", "i", l->srs);
    if (!next_row(l, row)) return NULL;
    char *text = strcmp(text_at(row, 0), "EPSG") == 0 ? text_of("EPSG:%s", text_at(row, 1))
                                                      : text_of("%s", text_at(row, 2));
    leave(row);
    return text;
}

static void write_tif(line *l, const char *name) {
    const char *folder = temporary_folder();
    char *raw = text_of("%s/survey.bil", folder), *head = text_of("%s/survey.hdr", folder);
    FILE *file = new_file(head);
    fprintf(file, "BYTEORDER I\nLAYOUT BIL\nNROWS %u\nNCOLS %u\nNBANDS 1\nNBITS 8\nBANDROWBYTES %u\nTOTALROWBYTES %u\n"
                  "PIXELTYPE UNSIGNEDINT\nULXMAP %.17g\nULYMAP %.17g\nXDIM %.17g\nYDIM %.17g\n", l->rows, l->columns,
            l->columns, l->columns, x_of(l, 0.5), y_of(l, 0.5), l->cell, l->cell);
    end_file(file, head);
    file = new_file(raw);
    each_row(l, take_raw_row, file);
    end_file(file, raw);
    char *srs = system_text(l);
    translate(raw, name, "GTiff", srs);
    free(srs);
    free(raw);
    free(head);
}

/* A sheet's leaves: blocks in ascending order that cover it once. */
static void write_leaves(const sheet *s, FILE *file) {
    static const column columns[] = { { "key", -10 }, { "class", 5 } };
    const hlq_list *list = &s->map.list;
    size_t room = list->n - list->n / 4, count;
    uint32_t *keys = room_for(room, sizeof *keys), *classes = room_for(room, sizeof *classes);
    accept_or_end(hlq_sheet_write_leaves(&s->map, keys, classes, room, &count), NULL);
    answer_to(file, ANSWER_CSV);
    table_begin("leaves", columns, 2);
    for (size_t i = 0; i < count; i++) {
        char text[KEY_TEXT];
        key_text(list->m, keys[i], text);
        cell_words(text);
        cell_number(classes[i]);
    }
    table_end();
    answer_end();
    free(keys);
    free(classes);
}

/* A sheet of two classes: this one against all others, by the library's combination of the sheet with itself. */
static sheet two_classes_of(const sheet *s, uint32_t class) {
    uint32_t slots = s->map.list.s;
    uint8_t table[HLQ_MOST_SLOTS * HLQ_MOST_SLOTS];
    sheet two = new_sheet(s->map.list.m, 2, s->i, s->j, 0);
    for (uint32_t i = 0; i < slots * slots; i++) table[i] = i / slots == class;
    accept_or_end(hlq_sheet_combine(&s->map, &s->map, table, (size_t)slots * slots, &two.map), NULL);
    return two;
}

/* The strings of nodes and leaves, in OUT.nodes and OUT.leaves: docs/BIT-STRINGS.md reads them by hand. */
static void write_bits(const arguments *a, const sheet *s, const char *path) {
    size_t n = s->map.list.n, node_room = HLQ_NODE_STRING_BYTES(n), leaf_room = HLQ_LEAF_STRING_BYTES(n);
    size_t node_bytes, leaf_bytes;
    uint8_t *nodes = room_for(node_room, 1), *leaves = room_for(leaf_room, 1);
    accept_or_end(hlq_sheet_write_bit_strings(&s->map, nodes, node_room, leaves, leaf_room, &node_bytes, &leaf_bytes),
                  a->given[OPTION_CLASS] ? NULL : "a line of more than two classes wants --class");
    char *names[2] = { text_of("%s.nodes", path), text_of("%s.leaves", path) };
    for (int i = 0; i < 2; i++) may_replace(a, names[i], KIND_BITS);
    output to[2] = { open_output(names[0]), open_output(names[1]) };
    fwrite(nodes, 1, node_bytes, to[0].file);
    fwrite(leaves, 1, leaf_bytes, to[1].file);
    for (int i = 0; i < 2; i++) {
        end_output(&to[i]);
        free(names[i]);
    }
    free(nodes);
    free(leaves);
}

static sheet sheet_given(line *l, const arguments *a) {
    uint32_t i = 0, j = 0;
    if (a->given[OPTION_SHEET]) sheet_of(l, value_of(a, OPTION_SHEET), "--sheet", STATUS_USAGE, &i, &j);
    else if (sheet_rows(l) > 1 || sheet_columns(l) > 1)
        fail(STATUS_USAGE, "--sheet I.J is missing: the line has %u sheets", sheet_rows(l) * sheet_columns(l));
    return read_sheet(l, i, j);
}

/* A sheet goes out in one of three forms. */
static void export_sheet(const arguments *a, line *l, const char *form, const char *path) {
    class_names classes = read_classes(l);
    sheet s = sheet_given(l, a);
    if (strcmp(form, "bits") == 0) {
        const char *class = value_of(a, OPTION_CLASS);
        sheet two = class ? two_classes_of(&s, class_of(&classes, class, "--class")) : (sheet){ 0 };
        write_bits(a, two.memory ? &two : &s, path);
        give_back_sheet(&two);
    } else {
        int leaves = strcmp(form, "leaves") == 0;
        may_replace(a, path, leaves ? KIND_CSV : KIND_HLQ);
        output to = open_output(path);
        if (leaves) write_leaves(&s, to.file);
        else {
            size_t length;
            uint8_t *bytes = bytes_of_list(&s, &length);
            fwrite(bytes, 1, length, to.file);
            free(bytes);
        }
        end_output(&to);
    }
    give_back_sheet(&s);
    give_back_classes(&classes);
}

static void export_survey(const arguments *a, line *l, const char *form, const char *path) {
    kind what = strcmp(form, "pgm") == 0 ? KIND_PGM : strcmp(form, "grid") == 0 ? KIND_GRID : KIND_TIF;
    if (a->given[OPTION_SHEET]) fail(STATUS_USAGE, "--sheet: %s is of the whole survey", form);
    may_replace(a, path, what);
    if (what == KIND_TIF) {
        if (strcmp(path, "-") == 0) fail(STATUS_USAGE, "a GeoTIFF wants a file of its own");
        output to = begin_output(path);
        write_tif(l, to.name);
        end_output(&to);
        return;
    }
    output to = open_output(path);
    if (what == KIND_PGM) write_pgm(l, to.file);
    else write_grid(l, to.file);
    end_output(&to);
}

void run_export(const arguments *a) {
    static const char *const forms[] = { "pgm", "grid", "tif", "leaves", "bits", "hlq" };
    const char *form = a->words[1], *path = a->words[2];
    int known = 0;
    while (known < 6 && strcmp(forms[known], form) != 0) known++;
    if (known == 6) fail(STATUS_USAGE, "'%s' is none of pgm, grid, tif, leaves, bits and hlq", form);
    line l = open_line(a, TO_READ);
    need_survey(&l);
    if (known < 3) export_survey(a, &l, form, path);
    else export_sheet(a, &l, form, path);
    if (strcmp(path, "-") != 0) {
        answer_begin(a);
        fact_words("line", l.path);
        fact_words("survey", l.survey_name);
        fact_words("form", form);
        fact_words("file", path);
        answer_end();
    }
    close_line(&l);
}
