/* The picture of findings: ground, windows and patches, and below them what a reader needs to read it. */
#include "picture.h"

#include "outline.h"

#include <math.h>
#include <stdlib.h>

enum { USUAL_SIDE = 1600, MOST_POINTS = 16384, MARGIN = 12, LEAST_WIDTH = 520, SWATCH = 18 };

/* Where the survey lies on the picture: a pixel has `zoom` points a side, or a point is `step` pixels a side. */
typedef struct {
    image i;
    uint32_t zoom, step;
    int64_t right, bottom; /* of the survey */
    int size;              /* of the letters */
} sketch;

static int64_t place(const sketch *s, uint32_t row_or_column) {
    return MARGIN + (int64_t)row_or_column / s->step * s->zoom;
}

/* The same for an edge: what is cut by the step still counts. */
static int64_t past(const sketch *s, uint32_t row_or_column) {
    return MARGIN + ((int64_t)row_or_column + s->step - 1) / s->step * s->zoom;
}

uint32_t classes_in(line *l, window w) {
    uint32_t seen = 0, bits;
    for (walk r = sheets_of(l, w); next_sheet(&r); seen |= bits)
        accept_or_end(hlq_sheet_report_clipped(&r.sheet.map, on_sheet(&r.sheet, w), &bits), NULL);
    return seen;
}

double round_length(double metres) {
    double length = pow(10, floor(log10(metres / 5)));
    return length * 5 <= metres / 5 ? length * 5 : length * 2 <= metres / 5 ? length * 2 : length;
}

static uint32_t scale_of(const arguments *a, uint32_t longest) {
    long long scale = 0;
    if (!a->given[OPTION_SCALE]) return 0;
    if (!is_number(value_of(a, OPTION_SCALE), 1, MOST_POINTS, &scale))
        fail(STATUS_USAGE, "--scale: '%s' is not a number of points from 1 to %d", value_of(a, OPTION_SCALE),
             MOST_POINTS);
    if ((uint64_t)scale * longest > MOST_POINTS)
        fail(STATUS_USAGE, "--scale: the picture would have more than %d points a side", MOST_POINTS);
    return (uint32_t)scale;
}

/* The lines of the legend are counted by laying it out without drawing. */
static sketch lay_out(const arguments *a, const line *l) {
    uint32_t longest = l->rows > l->columns ? l->rows : l->columns;
    sketch s = { .zoom = scale_of(a, longest), .step = 1, .size = 1 };
    if (s.zoom == 0) {
        s.zoom = longest < USUAL_SIDE ? USUAL_SIDE / longest : 1;
        if (s.zoom > 24) s.zoom = 24;
        if (longest > 2 * USUAL_SIDE) s.step = (longest + 2 * USUAL_SIDE - 1) / (2 * USUAL_SIDE);
    }
    s.right = past(&s, l->columns), s.bottom = past(&s, l->rows);
    if (s.right > 1800) s.size = 2;
    return s;
}

static void draw_ground(sketch *s, line *l) {
    uint32_t side = side_of(l);
    for (walk r = sheets_of(l, whole_survey(l)); next_sheet(&r);) {
        uint8_t *raster = raster_of(&r.sheet);
        hlq_window part = part_on(&r.sheet, whole_survey(l));
        uint32_t top = r.sheet.i << l->m, left = r.sheet.j << l->m;
        for (uint32_t row = (s->step - top % s->step) % s->step; row < part.height; row += s->step)
            for (uint32_t column = (s->step - left % s->step) % s->step; column < part.width; column += s->step)
                draw_box(&s->i, place(s, left + column), place(s, top + row), s->zoom, s->zoom,
                         raster[(size_t)row * side + column]);
        free(raster);
    }
}

static int is_hatched(int64_t x, int64_t y, int size) { return (x + y) % (6 * size) < 2 * size; }

static void hatch(image *i, int64_t x, int64_t y, int64_t width, int64_t height, int size) {
    for (int64_t v = y; v < y + height; v++)
        for (int64_t u = x; u < x + width; u++)
            draw_point(i, u, v, is_hatched(u, v, size) ? INK_HIDDEN : INK_PAPER);
}

static void hatch_block(sketch *s, square q) {
    int64_t x = place(s, q.column), y = place(s, q.row);
    hatch(&s->i, x, y, past(s, q.column + q.side) - x, past(s, q.row + q.side) - y, s->size);
}

/* Lines lie on the edges of pixels, so half of their thickness on each side. */
static void draw_ring(sketch *s, const corner *corners, size_t count, int64_t thick, int ink) {
    for (size_t i = 0; i < count; i++) {
        corner from = corners[i], to = corners[(i + 1) % count];
        int64_t x = place(s, from.column < to.column ? from.column : to.column) - thick / 2;
        int64_t y = place(s, from.row < to.row ? from.row : to.row) - thick / 2;
        int64_t width = labs(place(s, from.column) - place(s, to.column)) + thick;
        int64_t height = labs(place(s, from.row) - place(s, to.row)) + thick;
        draw_box(&s->i, x, y, width, height, ink);
    }
}

/* Hidden ones first, and the paper around a line before the line, so that no live one is drawn over. */
static void draw_patches(sketch *s, const findings *f) {
    outlines o = find_outlines(f);
    int64_t thick = s->zoom >= 4 ? 3 * s->size : 2 * s->size;
    for (size_t i = 0; i < f->count; i++) if (!f->at[i].live) hatch_block(s, f->at[i].q);
    for (int pass = 0; pass < 3; pass++) {
        for (size_t i = 0; i < f->patch_count; i++) {
            if (f->patches[i].live != (pass > 0)) continue;
            for (size_t r = o.first_ring[i]; r < o.first_ring[i + 1]; r++)
                draw_ring(s, o.corners + o.begins[r], o.begins[r + 1] - o.begins[r],
                          pass == 0 ? 1 : pass == 1 ? thick + 2 : thick,
                          pass == 0 ? INK_HIDDEN : pass == 1 ? INK_PAPER : INK_LIVE);
        }
    }
    give_back_outlines(&o);
}

static void draw_windows(sketch *s, const rule_list *rules) {
    for (size_t k = 0; k < rules->count; k++) {
        const rule *r = &rules->at[k];
        int64_t x = place(s, (uint32_t)r->column), y = place(s, (uint32_t)r->row);
        draw_frame(&s->i, x, y, past(s, (uint32_t)(r->column + r->width)) - x,
                   past(s, (uint32_t)(r->row + r->height)) - y, s->size, INK_BLACK);
    }
}

/* A rule's id stands at the first corner of its window, inside where there is room, else above it; where windows begin
 * at one place, one id after the other. */
static void draw_ids(sketch *s, const rule_list *rules) {
    int64_t high = LETTER_HEIGHT * s->size + 2;
    for (size_t k = 0; k < rules->count; k++) {
        const rule *r = &rules->at[k];
        int64_t x = place(s, (uint32_t)r->column), y = place(s, (uint32_t)r->row);
        char *id = text_of("%u", r->id);
        for (size_t other = 0; other < k; other++)
            if (rules->at[other].row == r->row && rules->at[other].column == r->column) x += 5 * LETTER_WIDTH * s->size;
        if (r->height / s->step * s->zoom < 2 * high && y >= MARGIN + high) y -= high;
        draw_box(&s->i, x, y, text_width(id, s->size) + 5, high, INK_PAPER);
        draw_frame(&s->i, x, y, text_width(id, s->size) + 5, high, 1, INK_BLACK);
        draw_text(&s->i, x + 3, y + 1, id, s->size, INK_BLACK);
        free(id);
    }
}

/* The legend goes from left to right and on to the next line; without points it is only measured. */
typedef struct {
    sketch *s;
    int64_t x, y;
} pen;

static void next_entry(pen *p, int64_t width, int64_t full) {
    if (p->x > MARGIN && p->x + width > full - MARGIN) p->x = MARGIN, p->y += (SWATCH + 8) * p->s->size;
}

static void write_entry(pen *p, const char *words, int ink, int64_t full) {
    int size = p->s->size;
    int64_t side = SWATCH * size, width = side + 8 * size + text_width(words, size) + 16 * size;
    next_entry(p, width, full);
    if (p->s->i.points) {
        if (ink == INK_HIDDEN) hatch(&p->s->i, p->x, p->y, side, side, size);
        else if (ink != INK_LIVE) draw_box(&p->s->i, p->x, p->y, side, side, ink);
        draw_frame(&p->s->i, p->x, p->y, side, side, ink == INK_LIVE ? 3 * size : 1,
                   ink == INK_LIVE ? INK_LIVE : INK_BLACK);
        draw_text(&p->s->i, p->x + side + 6 * size, p->y + 2 * size, words, size, INK_BLACK);
    }
    p->x += width;
}

static void draw_scale(pen *p, const line *l) {
    sketch *s = p->s;
    double metres = round_length(l->columns * l->cell < 5 * l->cell ? 5 * l->cell : l->columns * l->cell);
    int64_t length = (int64_t)(metres / l->cell * s->zoom / s->step + 0.5), y = p->y + 20 * s->size;
    char *words = text_of("%g m", metres);
    if (s->i.points) {
        draw_box(&s->i, MARGIN, y, length, 2 * s->size, INK_BLACK);
        draw_box(&s->i, MARGIN, y - 5 * s->size, s->size, 10 * s->size, INK_BLACK);
        draw_box(&s->i, MARGIN + length - s->size, y - 5 * s->size, s->size, 10 * s->size, INK_BLACK);
        draw_text(&s->i, MARGIN + length + 6 * s->size, y - 6 * s->size, words, s->size, INK_BLACK);
        int64_t x = MARGIN + length + text_width(words, s->size) + 30 * s->size; /* north is up */
        for (int64_t v = 0; v < 16 * s->size; v++)
            draw_box(&s->i, x - v / 3, y - 10 * s->size + v, 2 * (v / 3) + 1, 1, INK_BLACK);
        draw_text(&s->i, x + 9 * s->size, y - 6 * s->size, "N", s->size, INK_BLACK);
    }
    free(words);
    p->x = MARGIN, p->y += 40 * s->size;
}

/* Gives the height that the picture needs. */
static int64_t draw_legend(sketch *s, const line *l, const class_names *c, uint32_t seen, int64_t full) {
    pen p = { s, MARGIN, s->bottom + MARGIN };
    draw_scale(&p, l);
    write_entry(&p, "live", INK_LIVE, full);
    write_entry(&p, "hidden (waived)", INK_HIDDEN, full);
    for (uint32_t f = 0; f < l->slots; f++) if (seen >> f & 1) write_entry(&p, c->names[f], (int)f, full);
    return p.y + (SWATCH + 8) * s->size + MARGIN;
}

void draw_findings(const arguments *a, line *l, const findings *f, const class_names *c, const char *path) {
    sketch s = lay_out(a, l);
    uint32_t seen = classes_in(l, whole_survey(l));
    int64_t full = s.right + MARGIN < LEAST_WIDTH ? LEAST_WIDTH : s.right + MARGIN;
    int64_t height = draw_legend(&s, l, c, seen, full);
    s.i = new_image((uint32_t)full, (uint32_t)height);
    draw_box(&s.i, 0, 0, full, height, INK_PAPER);
    draw_ground(&s, l);
    draw_frame(&s.i, MARGIN - 1, MARGIN - 1, s.right - MARGIN + 2, s.bottom - MARGIN + 2, 1, INK_GREY);
    draw_windows(&s, &f->rules);
    draw_patches(&s, f);
    draw_ids(&s, &f->rules);
    draw_legend(&s, l, c, seen, full);
    output to = open_output(path);
    write_png(&s.i, c, to.file);
    end_output(&to);
    give_back_image(&s.i);
}
