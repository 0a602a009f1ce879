/* page: what a foreman reads, one file of HTML that needs nothing else: pictures of the ground with the patches on
 * them, a table of the patches, areas, waivers, steps. Every name that comes out of the line is escaped. */
#include "page.h"

#include "answer.h"
#include "commands.h"
#include "files.h"
#include "outline.h"
#include "picture.h"
#include "waivers.h"

#include <math.h>
#include <stdlib.h>
#include <string.h>

enum {
    SMALL_LINE = 2048, /* up to so many rows and columns one picture shows the whole line */
    MOST_BOXES = 2000  /* numbers of a picture that keep out of each other's way */
};

/* What the parts of a page need. */
typedef struct {
    FILE *to;
    line *l;
    const findings *f;
    const class_names *c;
    outlines o;
    double metres; /* square metres of a pixel */
} page;

/* A text as HTML has it, also within quotes. */
static void write_text(FILE *to, const char *words) {
    char *clean = clean_text(words);
    for (const char *c = clean; *c; c++) {
        switch (*c) {
        case '&': fputs("&amp;", to); break;
        case '<': fputs("&lt;", to); break;
        case '>': fputs("&gt;", to); break;
        case '"': fputs("&quot;", to); break;
        case '\'': fputs("&#39;", to); break;
        default: fputc((unsigned char)*c < ' ' ? ' ' : *c, to);
        }
    }
    free(clean);
}

static void write_between(FILE *to, const char *before, const char *words, const char *after) {
    fputs(before, to);
    write_text(to, words);
    fputs(after, to);
}

static void write_base64(FILE *to, const uint8_t *bytes, size_t length) {
    static const char digits[] = "ABCDEFGHIJKLMNOPQRSTUVWXYZabcdefghijklmnopqrstuvwxyz0123456789+/";
    for (size_t i = 0; i < length; i += 3) {
        size_t left = length - i;
        uint32_t three = (uint32_t)bytes[i] << 16 | (left > 1 ? (uint32_t)bytes[i + 1] << 8 : 0) |
                         (left > 2 ? bytes[i + 2] : 0);
        fputc(digits[three >> 18], to);
        fputc(digits[three >> 12 & 63], to);
        fputc(left > 1 ? digits[three >> 6 & 63] : '=', to);
        fputc(left > 2 ? digits[three & 63] : '=', to);
    }
}

/* The line's name: its file's, without folder and ending. */
static char *name_of_line(const line *l) {
    const char *slash = strrchr(l->path, '/'), *name = slash ? slash + 1 : l->path;
    size_t length = strlen(name);
    if (length > 5 && strcmp(name + length - 5, ".gpkg") == 0) length -= 5;
    return text_of("%.*s", (int)length, name);
}

static double price_of(const page *p, const patch *x) {
    uint32_t class = p->f->rules.at[x->rule].class;
    return p->c->priced[class] ? (double)x->pixels * p->metres * p->c->prices[class] : NAN;
}

static void write_head(const page *p) {
    char *name = name_of_line(p->l), *when = now_text();
    sqlite3_stmt *row = ask_sql(p->l, "SELECT taken FROM surveys WHERE id = ?", "i", p->l->survey);
    int there = next_row(p->l, row);
    const char *taken = there ? text_at(row, 0) : "";
    fputs("<!doctype html>\n<html lang=\"en\">\n<head>\n<meta charset=\"utf-8\">\n"
          "<meta http-equiv=\"Content-Security-Policy\" content=\"default-src 'none'; img-src data:; style-src"
          " 'unsafe-inline'; script-src 'unsafe-inline'\">\n"
          "<meta name=\"viewport\" content=\"width=device-width, initial-scale=1\">\n", p->to);
    write_between(p->to, "<title>", name, "</title>\n<style>\n");
    fputs(page_style, p->to);
    write_between(p->to, "</style>\n</head>\n<body>\n<header>\n<h1>", name, "</h1>\n");
    write_between(p->to, "<p>Survey ", p->l->survey_name, "");
    if (*taken) write_between(p->to, ", taken ", taken, "");
    fprintf(p->to, ". %u by %u pixels of %g m. Office %u. ", p->l->rows, p->l->columns, p->l->cell, p->f->office);
    fprintf(p->to, "<span class=\"soft\">Page of %.10s, %.5s UTC.</span></p>\n", when, when + 11);
    if (there) leave(row);
    free(name);
    free(when);
}

static void write_sums(const page *p) {
    uint64_t patches = 0, live = 0, hidden = 0;
    double money = 0;
    for (size_t i = 0; i < p->f->patch_count; i++) {
        const patch *x = &p->f->patches[i];
        patches += (uint64_t)x->live;
        *(x->live ? &live : &hidden) += x->pixels;
        if (x->live && !isnan(price_of(p, x))) money += price_of(p, x);
    }
    fprintf(p->to, "<ul class=\"sum\"><li><b>%llu</b> live patch%s</li><li><b>%.2f m&sup2;</b> live</li>",
            (unsigned long long)patches, patches == 1 ? "" : "es", (double)live * p->metres);
    if (p->c->any_price) fprintf(p->to, "<li><b>%.2f</b> price of the live ones</li>", money);
    fprintf(p->to, "<li><b>%.2f m&sup2;</b> hidden by waivers</li></ul>\n</header>\n", (double)hidden * p->metres);
}

static void write_rules(const page *p) {
    fputs("<section><h2>Rules</h2>\n<div class=\"scroll\"><table id=\"rules\"><thead><tr><th class=\"n\">Rule</th>"
          "<th>Name</th><th>Must not be there</th><th class=\"n\">Live patches</th><th class=\"n\">Live m&sup2;</th>"
          "<th class=\"n\">Price</th><th class=\"n\">Hidden m&sup2;</th></tr></thead>\n<tbody>\n", p->to);
    for (size_t k = 0; k < p->f->rules.count; k++) {
        const rule *r = &p->f->rules.at[k];
        uint64_t patches = 0, live = 0, hidden = 0;
        for (size_t i = 0; i < p->f->patch_count; i++) {
            const patch *x = &p->f->patches[i];
            if (x->rule != k) continue;
            patches += (uint64_t)x->live;
            *(x->live ? &live : &hidden) += x->pixels;
        }
        fprintf(p->to, "<tr><td class=\"n\">%u</td>", r->id);
        write_between(p->to, "<td class=\"name\">", r->name, "</td>");
        write_between(p->to, "<td>", p->c->names[r->class], "</td>");
        fprintf(p->to, "<td class=\"n\">%llu</td><td class=\"n\">%.2f</td><td class=\"n\">",
                (unsigned long long)patches, (double)live * p->metres);
        if (p->c->priced[r->class]) fprintf(p->to, "%.2f", (double)live * p->metres * p->c->prices[r->class]);
        fprintf(p->to, "</td><td class=\"n\">%.2f</td></tr>\n", (double)hidden * p->metres);
    }
    fputs("</tbody></table></div></section>\n", p->to);
}

/* The ground of a window, a point a pixel. */
static image ground_of(line *l, window w) {
    image i = new_image(w.width, w.height);
    for (walk r = sheets_of(l, w); next_sheet(&r);) {
        hlq_window part = part_on(&r.sheet, w);
        uint8_t *raster = raster_of(&r.sheet);
        for (uint32_t row = 0; row < part.height; row++) {
            size_t to = (size_t)((r.sheet.i << l->m) + part.row + row - w.row) * w.width +
                        ((r.sheet.j << l->m) + part.column - w.column);
            memcpy(i.points + to, raster + (((size_t)part.row + row) << l->m) + part.column, part.width);
        }
        free(raster);
    }
    return i;
}

static void write_ground(const page *p, window w) {
    image i = ground_of(p->l, w);
    size_t length;
    uint8_t *png = png_bytes(&i, p->c, &length);
    fprintf(p->to, "<image x=\"%u\" y=\"%u\" width=\"%u\" height=\"%u\" preserveAspectRatio=\"none\""
                   " href=\"data:image/png;base64,", w.column, w.row, w.width, w.height);
    write_base64(p->to, png, length);
    fputs("\"/>\n", p->to);
    free(png);
    give_back_image(&i);
}

static int overlap(window w, int64_t top, int64_t left, int64_t bottom, int64_t right) {
    return top < (int64_t)w.row + w.height && bottom > w.row && left < (int64_t)w.column + w.width && right > w.column;
}

/* Where windows begin at one place, their ids stand side by side; an id keeps within the picture. */
static void write_windows(const page *p, window w, double letter) {
    const rule_list *rules = &p->f->rules;
    for (size_t k = 0; k < rules->count; k++) {
        const rule *r = &rules->at[k];
        if (!overlap(w, r->row, r->column, r->row + r->height, r->column + r->width)) continue;
        double x = r->column > w.column ? (double)r->column : w.column, y = r->row > w.row ? (double)r->row : w.row;
        for (size_t other = 0; other < k; other++)
            if (rules->at[other].row == r->row && rules->at[other].column == r->column) x += letter * 2.5;
        fprintf(p->to, "<rect class=\"window\" x=\"%lld\" y=\"%lld\" width=\"%lld\" height=\"%lld\"/>"
                       "<text class=\"label\" x=\"%.2f\" y=\"%.2f\" font-size=\"%.2f\">%u</text>\n",
                (long long)r->column, (long long)r->row, (long long)r->width, (long long)r->height, x + letter / 4,
                y + letter, letter, r->id);
    }
}

static void write_shape(const page *p, size_t place) {
    const outlines *o = &p->o;
    const patch *x = &p->f->patches[place];
    fprintf(p->to, "<path class=\"patch %s\" data-patch=\"%zu\" fill-rule=\"evenodd\" d=\"", state_of(x->live),
            place + 1);
    for (size_t r = o->first_ring[place]; r < o->first_ring[place + 1]; r++) {
        for (size_t i = o->begins[r]; i < o->begins[r + 1]; i++)
            fprintf(p->to, "%c%u %u", i == o->begins[r] ? 'M' : 'L', o->corners[i].column, o->corners[i].row);
        fputc('Z', p->to);
    }
    fprintf(p->to, "\"><title>%zu</title></path>\n", place + 1);
}

/* The numbers of the patches on a picture, each a box that no other one should touch. */
typedef struct {
    double x, y, width, height;
} text_box;

typedef struct {
    text_box *at;
    size_t count;
} text_boxes;

static int is_free(const text_boxes *taken, text_box b, window w) {
    if (b.x < w.column || b.y < w.row || b.x + b.width > w.column + w.width || b.y + b.height > w.row + w.height)
        return 0;
    for (size_t i = 0; i < taken->count; i++) {
        const text_box *t = &taken->at[i];
        if (b.x < t->x + t->width && t->x < b.x + b.width && b.y < t->y + t->height && t->y < b.y + b.height) return 0;
    }
    return 1;
}

/* A number stands to the right of its patch, or where it finds room: left, below, above, further off. */
static text_box box_for(const text_boxes *taken, const patch *x, window w, double wide, double high) {
    double middle = (x->top + x->bottom) / 2.0, gap = high / 5;
    text_box first = { x->right + gap, middle - high / 2, wide, high };
    for (int ring = 0; ring < 4; ring++) {
        for (int k = -ring; k <= ring; k++) {
            double y = middle - high / 2 + k * high;
            text_box right = { x->right + gap + ring * wide / 2, y, wide, high }, left = right;
            left.x = x->left - gap - wide - ring * wide / 2;
            if (is_free(taken, right, w)) return right;
            if (is_free(taken, left, w)) return left;
        }
    }
    if (first.x + wide > w.column + w.width) first.x = x->left - gap - wide;
    return first;
}

static void write_number(const page *p, size_t place, window w, double letter, text_boxes *taken) {
    const patch *x = &p->f->patches[place];
    char *number = text_of("%zu", place + 1);
    text_box b = box_for(taken, x, w, letter * (0.68 * (double)strlen(number) + 0.3), letter); /* and a gap */
    if (taken->count < MOST_BOXES) taken->at[taken->count++] = b;
    fprintf(p->to, "<text class=\"number %s\" data-patch=\"%zu\" x=\"%.2f\" y=\"%.2f\" font-size=\"%.2f\">%s</text>\n",
            state_of(x->live), place + 1, b.x, b.y + letter * 0.84, letter, number);
    free(number);
}

static void write_patches_on(const page *p, window w, double letter) {
    for (int live = 0; live < 2; live++)
        for (size_t i = 0; i < p->f->patch_count; i++) {
            const patch *x = &p->f->patches[i];
            if (x->live == live && overlap(w, x->top, x->left, x->bottom, x->right)) write_shape(p, i);
        }
    text_boxes taken = { room_for(MOST_BOXES, sizeof *taken.at), 0 };
    for (size_t i = 0; i < p->f->patch_count; i++) {
        const patch *x = &p->f->patches[i];
        if (overlap(w, x->top, x->left, x->bottom, x->right)) write_number(p, i, w, letter, &taken);
    }
    free(taken.at);
}

/* Below the ground a scale, and north. */
static void write_scale(const page *p, window w, double letter) {
    double metres = round_length(w.width * p->l->cell * 1.5), length = metres / p->l->cell;
    double x = w.column + letter / 2, y = w.row + w.height + letter * 1.2;
    double north = x + length + letter * 6;
    fprintf(p->to, "<path d=\"M%.2f %.2fv%.2fh%.2fv%.2f\" fill=\"none\" stroke=\"#1c1c1a\" stroke-width=\"%.2f\"/>"
                   "<text x=\"%.2f\" y=\"%.2f\" font-size=\"%.2f\">%g m</text>\n",
            x, y - letter * 0.4, letter * 0.8, length, -letter * 0.8, letter / 8, x + length + letter / 2,
            y + letter * 0.4, letter, metres);
    fprintf(p->to, "<path d=\"M%.2f %.2fl%.2f %.2fh%.2fZ\"/><text x=\"%.2f\" y=\"%.2f\" font-size=\"%.2f\">N</text>\n",
            north, y - letter * 0.8, letter * 0.5, letter * 1.4, -letter, north + letter, y + letter * 0.4, letter);
}

static void write_picture(const page *p, window w, const char *caption) {
    double longer = w.width > w.height ? w.width : w.height, letter = (longer < 24 ? 24 : longer) / 42;
    if (w.width < longer / 3) letter = (w.width < 8 ? 8 : w.width) / 14.0;
    fprintf(p->to, "<figure><svg viewBox=\"%u %u %u %.2f\" role=\"img\">\n"
                   "<svg class=\"map\" x=\"%u\" y=\"%u\" width=\"%u\" height=\"%u\" viewBox=\"%u %u %u %u\">\n",
            w.column, w.row, w.width, w.height + letter * 2.5, w.column, w.row, w.width, w.height, w.column, w.row,
            w.width, w.height);
    write_ground(p, w);
    write_windows(p, w, letter);
    write_patches_on(p, w, letter * 0.72);
    fputs("</svg>\n", p->to);
    write_scale(p, w, letter);
    write_between(p->to, "</svg><figcaption>", caption, "</figcaption></figure>\n");
}

/* The sheets with findings, in reading order. */
static void write_sheets(const page *p) {
    uint32_t down = sheet_rows(p->l), across = sheet_columns(p->l);
    uint8_t *found = room_for((size_t)down * across, 1);
    for (size_t i = 0; i < p->f->count; i++) found[(size_t)p->f->at[i].b.i * across + p->f->at[i].b.j] = 1;
    for (uint32_t i = 0; i < down; i++) {
        for (uint32_t j = 0; j < across; j++) {
            window w = { i << p->l->m, j << p->l->m, side_of(p->l), side_of(p->l) };
            if (!found[(size_t)i * across + j]) continue;
            clip_window(p->l, w.row, w.column, w.height, w.width, &w);
            char *caption = text_of("Sheet %u.%u: rows %u to %u, columns %u to %u", i, j, w.row, w.row + w.height - 1,
                                    w.column, w.column + w.width - 1);
            write_picture(p, w, caption);
            free(caption);
        }
    }
    free(found);
}

static void write_swatch(const page *p, const char *inside, const char *words) {
    fprintf(p->to, "<li><svg viewBox=\"0 0 20 20\" aria-hidden=\"true\">%s</svg>", inside);
    write_between(p->to, "<span>", words, "</span></li>\n");
}

static void write_legend(const page *p) {
    uint32_t seen = classes_in(p->l, whole_survey(p->l));
    fputs("<ul class=\"legend\">\n", p->to);
    write_swatch(p, "<rect class=\"live\" x=\"2\" y=\"2\" width=\"16\" height=\"16\"/>", "live patch, with its number");
    write_swatch(p, "<rect class=\"hidden\" x=\"1\" y=\"1\" width=\"18\" height=\"18\"/>", "hidden patch (waived)");
    write_swatch(p, "<rect class=\"window\" x=\"1\" y=\"1\" width=\"18\" height=\"18\"/>",
                 "a rule's window, with its id");
    for (uint32_t f = 0; f < p->l->slots; f++) {
        if (!(seen >> f & 1)) continue;
        char *square = text_of("<rect x=\".5\" y=\".5\" width=\"19\" height=\"19\" fill=\"#%06x\" stroke=\"#1c1c1a\"/>",
                               p->c->colours[f]);
        write_swatch(p, square, p->c->names[f]);
        free(square);
    }
    fputs("</ul>\n", p->to);
}

static void write_pictures(const page *p) {
    /* the hatching is that of every picture */
    fputs("<section id=\"pictures\">\n<svg width=\"0\" height=\"0\" style=\"position:absolute\" aria-hidden=\"true\">"
          "<defs><pattern id=\"hatch\" patternUnits=\"userSpaceOnUse\" width=\"3\" height=\"3\""
          " patternTransform=\"rotate(45)\">"
          "<rect width=\"3\" height=\"3\" fill=\"#fff\" fill-opacity=\".75\"/><rect width=\"1.1\" height=\"3\""
          " fill=\"#3a3a3a\"/></pattern></defs></svg>\n", p->to);
    write_legend(p);
    if (p->l->rows <= SMALL_LINE && p->l->columns <= SMALL_LINE) write_picture(p, whole_survey(p->l), "The whole line");
    else write_sheets(p);
    fputs("</section>\n", p->to);
}

static void write_choice(const page *p, const char *name, const char *words) {
    fprintf(p->to, "<label>%s<select name=\"%s\"><option value=\"\">all</option>", words, name);
}

static void write_option(const page *p, const char *value, const char *words) {
    write_between(p->to, "<option value=\"", value, "\">");
    write_between(p->to, "", words, "</option>");
}

static void write_filters(const page *p) {
    uint32_t seen = 0;
    fputs("<div class=\"filters\">", p->to);
    write_choice(p, "rule", "Rule");
    for (size_t k = 0; k < p->f->rules.count; k++) {
        const rule *r = &p->f->rules.at[k];
        char *id = text_of("%u", r->id), *words = text_of("%u %s", r->id, r->name);
        write_option(p, id, words);
        seen |= (uint32_t)1 << r->class;
        free(id);
        free(words);
    }
    fputs("</select></label>", p->to);
    write_choice(p, "class", "Class");
    for (uint32_t f = 0; f < p->l->slots; f++) if (seen >> f & 1) write_option(p, p->c->names[f], p->c->names[f]);
    fputs("</select></label>", p->to);
    write_choice(p, "state", "State");
    write_option(p, "live", "live");
    write_option(p, "hidden", "hidden");
    fputs("</select></label><button type=\"button\" id=\"everything\">Show all</button></div>\n", p->to);
}

static void write_patch_row(const page *p, size_t place) {
    const patch *x = &p->f->patches[place];
    const rule *r = &p->f->rules.at[x->rule];
    double metres = (double)x->pixels * p->metres, price = price_of(p, x);
    fprintf(p->to, "<tr data-patch=\"%zu\" data-rule=\"%u\" data-state=\"%s\" data-metres=\"%.15g\"", place + 1, r->id,
            state_of(x->live), metres);
    write_between(p->to, " data-class=\"", p->c->names[r->class], "\"");
    write_between(p->to, " title=\"", r->name, "\">");
    fprintf(p->to, "<td class=\"n\">%zu</td><td class=\"n\">%u</td>", place + 1, r->id);
    write_between(p->to, "<td>", p->c->names[r->class], "</td>");
    fprintf(p->to, "<td class=\"state-%s\">%s</td><td class=\"n\">%.2f</td><td class=\"n\">", state_of(x->live),
            state_of(x->live), metres);
    if (!isnan(price)) fprintf(p->to, "%.2f", price);
    fprintf(p->to, "</td><td class=\"n wide\">%u</td><td class=\"n wide\">%u</td><td class=\"n\">%.1f</td>"
                   "<td class=\"n\">%.1f</td></tr>\n", x->row, x->column, x_of(p->l, (x->left + x->right) / 2.0),
            y_of(p->l, (x->top + x->bottom) / 2.0));
}

static void write_table(const page *p) {
    static const char *const heads[][2] = { { "n", "No." }, { "n", "Rule" }, { "", "Class" }, { "", "State" },
                                            { "n", "m&sup2;" }, { "n", "Price" }, { "n wide", "Row" },
                                            { "n wide", "Column" }, { "n", "X" }, { "n", "Y" } };
    fputs("<section><h2>Patches</h2>\n", p->to);
    write_filters(p);
    fputs("<p><b id=\"shown\"></b> <span class=\"soft hint\">A click on a row shows the patch on the picture, a click"
          " on the picture its row.</span></p>\n<div class=\"scroll\"><table id=\"patches\"><thead><tr>", p->to);
    for (size_t i = 0; i < sizeof heads / sizeof *heads; i++)
        fprintf(p->to, "<th class=\"%s\"><button type=\"button\">%s</button></th>", heads[i][0], heads[i][1]);
    fputs("</tr></thead>\n<tbody>\n", p->to);
    for (size_t i = 0; i < p->f->patch_count; i++) write_patch_row(p, i);
    fputs("</tbody></table></div>\n<p class=\"soft\">X and Y are the middle of the patch in the line's coordinates; row"
          " and column its first pixel.</p></section>\n", p->to);
}

static void write_areas(const page *p) {
    uint64_t pixels[HLQ_MOST_SLOTS] = { 0 }, total = 0;
    double money = 0;
    measure_areas(p->l, whole_survey(p->l), pixels);
    fputs("<section><h2>Areas of the whole survey</h2>\n<div class=\"scroll\"><table id=\"areas\"><thead><tr>"
          "<th>Class</th><th class=\"n\">m&sup2;</th><th class=\"n\">Price of a m&sup2;</th>"
          "<th class=\"n\">Price</th></tr></thead>\n"
          "<tbody>\n", p->to);
    for (uint32_t f = 0; f < p->l->slots; f++) {
        double metres = (double)pixels[f] * p->metres;
        if (!pixels[f]) continue;
        total += pixels[f];
        write_between(p->to, "<tr><td>", p->c->names[f], "</td>");
        fprintf(p->to, "<td class=\"n\">%.2f</td><td class=\"n\">", metres);
        if (p->c->priced[f]) fprintf(p->to, "%.2f", p->c->prices[f]);
        fputs("</td><td class=\"n\">", p->to);
        if (p->c->priced[f]) fprintf(p->to, "%.2f", metres * p->c->prices[f]), money += metres * p->c->prices[f];
        fputs("</td></tr>\n", p->to);
    }
    fprintf(p->to, "</tbody>\n<tfoot><tr><td>All</td><td class=\"n\">%.2f</td><td></td><td class=\"n\">",
            (double)total * p->metres);
    if (p->c->any_price) fprintf(p->to, "%.2f", money);
    fputs("</td></tr></tfoot></table></div></section>\n", p->to);
}

static void write_waivers(const page *p) {
    uint64_t rows = 0;
    fputs("<section><h2>Waivers</h2>\n<div class=\"scroll\"><table id=\"waivers\"><thead><tr><th class=\"n\">Rule</th>"
          "<th>Note</th><th>Given by</th><th>On</th><th>Block</th><th class=\"n\">Row</th><th class=\"n\">Column</th>"
          "<th class=\"n\">Side</th></tr></thead>\n<tbody>\n", p->to);
    sqlite3_stmt *row = ask_sql(p->l, "SELECT rule, note, \"by\", at, sheet_row, sheet_column, key FROM waivers WHERE"
                                      " office = ? ORDER BY rule, sheet_row, sheet_column, key", "i",
                                (int64_t)p->f->office);
    for (; next_row(p->l, row); rows++) {
        block b = { u32_at(row, 4), u32_at(row, 5), u32_at(row, 6) };
        square q = square_of(p->l, b);
        char name[BLOCK_TEXT];
        block_text(p->l, b, name);
        write_between(p->to, "<tr><td class=\"n\">", text_at(row, 0), "</td>");
        write_between(p->to, "<td class=\"name\">", text_at(row, 1), "</td>");
        write_between(p->to, "<td>", text_at(row, 2), "</td>");
        write_between(p->to, "<td class=\"when\">", text_at(row, 3), "</td>");
        fprintf(p->to, "<td>%s</td><td class=\"n\">%u</td><td class=\"n\">%u</td><td class=\"n\">%u</td></tr>\n", name,
                q.row, q.column, q.side);
    }
    fprintf(p->to, "</tbody></table></div>%s</section>\n", rows ? "" : "<p>This office has none.</p>");
}

static void write_steps(const page *p) {
    uint64_t steps = 0;
    fputs("<section><h2>Edited since the survey</h2>\n<div class=\"scroll\"><table id=\"steps\"><thead><tr>"
          "<th class=\"n\">Step</th><th>What</th><th>By</th><th>On</th><th>Stands</th></tr></thead>\n<tbody>\n", p->to);
    sqlite3_stmt *row = ask_sql(p->l, "SELECT id, words, \"by\", at, done FROM steps WHERE survey = ? ORDER BY id", "i",
                                p->l->survey);
    for (; next_row(p->l, row); steps++) {
        write_between(p->to, "<tr><td class=\"n\">", text_at(row, 0), "</td>");
        write_between(p->to, "<td class=\"name\">", text_at(row, 1), "</td>");
        write_between(p->to, "<td>", text_at(row, 2), "</td>");
        write_between(p->to, "<td class=\"when\">", text_at(row, 3), "</td>");
        fprintf(p->to, "<td>%s</td></tr>\n", sqlite3_column_int(row, 4) ? "yes" : "no, taken back");
    }
    fprintf(p->to, "</tbody></table></div>%s</section>\n", steps ? "" : "<p>Nothing.</p>");
}

static void write_page(const page *p) {
    write_head(p);
    write_sums(p);
    fputs("<main>\n", p->to);
    write_pictures(p);
    fputs("<div>\n", p->to);
    write_table(p);
    write_rules(p);
    fputs("</div>\n</main>\n", p->to);
    write_waivers(p);
    write_areas(p);
    write_steps(p);
    fprintf(p->to, "<script>\n%s</script>\n</body>\n</html>\n", page_script);
}

void run_page(const arguments *a) {
    const char *path = a->words[1];
    may_replace(a, path, KIND_HTML);
    line l = open_line(a, TO_READ);
    class_names classes = read_classes(&l);
    findings f = find_all(&l, office_of(a, 0));
    output to = open_output(path);
    page p = { to.file, &l, &f, &classes, find_outlines(&f), l.cell * l.cell };
    write_page(&p);
    end_output(&to);
    if (strcmp(path, "-") != 0) {
        answer_begin(a);
        fact_words("page", path);
        fact_number("office", f.office);
        fact_number("patches", f.patch_count);
        answer_end();
    }
    give_back_outlines(&p.o);
    give_back_findings(&f);
    give_back_classes(&classes);
    close_line(&l);
}
