/* Layers of the GeoPackage and GeoJSON: patches and windows as polygons in the line's coordinates, sheets as tiles. */
#define _DEFAULT_SOURCE
#include "layers.h"

#include "answer.h"
#include "commands.h"
#include "files.h"
#include "image.h"
#include "outline.h"

#include <stdlib.h>
#include <string.h>

/* Bytes put together, low byte first. */
typedef struct {
    uint8_t *at;
    size_t used, room;
} bytes;

static void put(bytes *b, const void *from, size_t length) {
    if (b->used + length > b->room) b->at = more_room_for(b->at, b->room = 2 * b->room + length + 256, 1);
    memcpy(b->at + b->used, from, length);
    b->used += length;
}

static void put_byte(bytes *b, uint8_t number) { put(b, &number, 1); }

static void put_number(bytes *b, uint32_t number) {
    for (int i = 0; i < 4; i++) put_byte(b, (uint8_t)(number >> 8 * i));
}

static void put_decimal(bytes *b, double number) {
    uint64_t bits;
    memcpy(&bits, &number, sizeof bits);
    for (int i = 0; i < 8; i++) put_byte(b, (uint8_t)(bits >> 8 * i));
}

/* The head of a geometry: its mark, its coordinate system and the box around it; then its kind in WKB. */
static void put_head(bytes *b, const line *l, uint32_t top, uint32_t left, uint32_t bottom, uint32_t right) {
    static const uint8_t mark[] = { 'G', 'P', 0, 3 }; /* version 1; a box of two dimensions; low byte first */
    put(b, mark, sizeof mark);
    put_number(b, (uint32_t)(int32_t)l->srs);
    put_decimal(b, x_of(l, left));
    put_decimal(b, x_of(l, right));
    put_decimal(b, y_of(l, bottom));
    put_decimal(b, y_of(l, top));
}

static void put_kind(bytes *b, uint32_t kind, uint32_t parts) {
    put_byte(b, 1);
    put_number(b, kind);
    put_number(b, parts);
}

enum { POLYGON = 3, MULTIPOLYGON = 6 };

/* A ring ends with its first corner again. */
static void put_ring(bytes *b, const line *l, const corner *corners, size_t count) {
    put_number(b, (uint32_t)count + 1);
    for (size_t i = 0; i <= count; i++) {
        put_decimal(b, x_of(l, corners[i % count].column));
        put_decimal(b, y_of(l, corners[i % count].row));
    }
}

static void put_patch(bytes *b, const line *l, const patch *p, const outlines *o, size_t place) {
    size_t first = o->first_ring[place], end = o->first_ring[place + 1];
    put_head(b, l, p->top, p->left, p->bottom, p->right);
    put_kind(b, MULTIPOLYGON, 1);
    put_kind(b, POLYGON, (uint32_t)(end - first));
    for (size_t r = first; r < end; r++) put_ring(b, l, o->corners + o->begins[r], o->begins[r + 1] - o->begins[r]);
}

static void put_window(bytes *b, const line *l, const rule *r) {
    uint32_t top = (uint32_t)r->row, left = (uint32_t)r->column;
    uint32_t bottom = top + (uint32_t)r->height, right = left + (uint32_t)r->width;
    corner corners[4] = { { top, left }, { bottom, left }, { bottom, right }, { top, right } };
    put_head(b, l, top, left, bottom, right);
    put_kind(b, POLYGON, 1);
    put_ring(b, l, corners, 4);
}

static void note_change(line *l, const char *layer) {
    run_sql(l, "UPDATE gpkg_contents SET last_change = strftime('%Y-%m-%dT%H:%M:%fZ', 'now') WHERE table_name = ?", "t",
            layer);
}

void save_findings(line *l, const findings *f, const class_names *c) {
    outlines o = find_outlines(f);
    bytes shape = { 0 };
    run_sql(l, "DELETE FROM findings WHERE office = ?", "i", (int64_t)f->office);
    for (size_t i = 0; i < f->patch_count; i++) {
        const patch *p = &f->patches[i];
        const rule *r = &f->rules.at[p->rule];
        shape.used = 0;
        put_patch(&shape, l, p, &o, i);
        run_sql(l, "INSERT INTO findings (geom, office, rule, name, class, state, blocks, pixels, square_metres)"
                   " VALUES (?, ?, ?, ?, ?, ?, ?, ?, ?)", "biitttiid", shape.at, shape.used, (int64_t)f->office,
                (int64_t)r->id, r->name, c->names[r->class], state_of(p->live), (int64_t)p->blocks,
                (int64_t)p->pixels, (double)p->pixels * l->cell * l->cell);
    }
    note_change(l, "findings");
    free(shape.at);
    give_back_outlines(&o);
}

static void save_windows(line *l, const rule_list *rules, const class_names *c) {
    bytes shape = { 0 };
    run_sql(l, "DELETE FROM windows", "");
    for (size_t k = 0; k < rules->count; k++) {
        const rule *r = &rules->at[k];
        shape.used = 0;
        put_window(&shape, l, r);
        run_sql(l, "INSERT INTO windows (geom, office, rule, name, class) VALUES (?, ?, ?, ?, ?)", "biitt", shape.at,
                shape.used, (int64_t)r->office, (int64_t)r->id, r->name, c->names[r->class]);
    }
    note_change(l, "windows");
    free(shape.at);
}

/* A tile is a whole sheet; what lies past the survey's edge is not seen. */
static void save_tile(line *l, const sheet *s, const class_names *c) {
    uint32_t side = side_of(l), rows = l->rows - (s->i << l->m), columns = l->columns - (s->j << l->m);
    image tile = new_image(side, side);
    uint8_t *raster = raster_of(s);
    for (uint32_t row = 0; row < side; row++)
        for (uint32_t column = 0; column < side; column++)
            tile.points[(size_t)row * side + column] =
                row < rows && column < columns ? raster[(size_t)row * side + column] : INK_NONE;
    size_t length;
    uint8_t *png = png_bytes(&tile, c, &length);
    run_sql(l, "INSERT INTO ground (zoom_level, tile_column, tile_row, tile_data) VALUES (0, ?, ?, ?)", "iib",
            (int64_t)s->j, (int64_t)s->i, png, length);
    free(png);
    free(raster);
    give_back_image(&tile);
}

static uint64_t save_ground(line *l, const class_names *c) {
    uint64_t tiles = 0;
    run_sql(l, "DELETE FROM ground", "");
    for (walk r = sheets_of(l, whole_survey(l)); next_sheet(&r); tiles++) save_tile(l, &r.sheet, c);
    note_change(l, "ground");
    return tiles;
}

/* The layers are those of both offices. */
void run_publish(const arguments *a) {
    line l = open_line(a, TO_WRITE);
    need_survey(&l);
    class_names classes = read_classes(&l);
    rule_list rules = read_rules(&l, -1);
    uint64_t patches = 0;
    for (int office = 0; office < 2; office++) {
        findings f = find_all(&l, office);
        save_findings(&l, &f, &classes);
        patches += f.patch_count;
        give_back_findings(&f);
    }
    save_windows(&l, &rules, &classes);
    uint64_t tiles = save_ground(&l, &classes);
    commit_line(&l);
    answer_begin(a);
    fact_words("line", l.path);
    fact_words("survey", l.survey_name);
    fact_number("ground", tiles);
    fact_number("windows", rules.count);
    fact_number("findings", patches);
    answer_end();
    give_back_rules(&rules);
    give_back_classes(&classes);
    close_line(&l);
}

/* The coordinate system as other programs name it: what EPSG numbers, by its number. The form is that of 2008, which
 * GDAL and QGIS heed; the later one knows degrees alone. Without one it is said that there is none. */
static void write_system(FILE *file, line *l) {
    sqlite3_stmt *row = ask_sql(l, "SELECT organization, organization_coordsys_id, srs_name FROM gpkg_spatial_ref_sys"
                                   " WHERE srs_id = ? AND srs_id > 0", "i", l->srs);
    fputs("\"crs\": ", file);
    if (!next_row(l, row)) {
        fputs("null", file);
        return;
    }
    int numbered = sqlite3_stricmp(text_at(row, 0), "EPSG") == 0;
    char *name = numbered ? text_of("urn:ogc:def:crs:EPSG::%s", text_at(row, 1)) : text_of("%s", text_at(row, 2));
    fputs("{\"type\": \"name\", \"properties\": {\"name\": ", file);
    write_json_text(file, name);
    fputs("}}", file);
    free(name);
    leave(row);
}

static void write_ring(FILE *file, const line *l, const corner *corners, size_t count) {
    for (size_t i = 0; i <= count; i++)
        fprintf(file, "%s[%.15g,%.15g]", i ? "," : "[", x_of(l, corners[i % count].column),
                y_of(l, corners[i % count].row));
    fputc(']', file);
}

static void write_patch(FILE *file, const line *l, const findings *f, const class_names *c, const outlines *o,
                        size_t place) {
    const patch *p = &f->patches[place];
    const rule *r = &f->rules.at[p->rule];
    fprintf(file, "{\"type\": \"Feature\", \"properties\": {\"office\": %u, \"rule\": %u, \"name\": ", f->office,
            r->id);
    write_json_text(file, r->name);
    fputs(", \"class\": ", file);
    write_json_text(file, c->names[r->class]);
    fprintf(file, ", \"state\": \"%s\", \"blocks\": %zu, \"pixels\": %llu, \"square_metres\": %.15g, \"row\": %u,"
                  " \"column\": %u}, \"geometry\": {\"type\": \"Polygon\", \"coordinates\": [",
            state_of(p->live), p->blocks, (unsigned long long)p->pixels, (double)p->pixels * l->cell * l->cell, p->row,
            p->column);
    for (size_t i = o->first_ring[place]; i < o->first_ring[place + 1]; i++) {
        if (i > o->first_ring[place]) fputc(',', file);
        write_ring(file, l, o->corners + o->begins[i], o->begins[i + 1] - o->begins[i]);
    }
    fputs("]}}", file);
}

void write_geojson(const arguments *a, line *l, const findings *f, const class_names *c, const char *path) {
    outlines o = find_outlines(f);
    output to = open_output(path);
    const char *between = "";
    fputs("{\"type\": \"FeatureCollection\", \"name\": \"findings\", ", to.file);
    write_system(to.file, l);
    fputs(", \"features\": [", to.file);
    for (size_t i = 0; i < f->patch_count; i++) {
        if (!f->patches[i].live && !a->given[OPTION_ALL]) continue;
        fprintf(to.file, "%s\n", between);
        write_patch(to.file, l, f, c, &o, i);
        between = ",";
    }
    fputs("\n]}\n", to.file);
    end_output(&to);
    give_back_outlines(&o);
}
