/* Names, colours, greys and prices of classes: read from the line, and taken from a CSV. */
#include "classes.h"

#include "sheet.h"

#include <stdlib.h>
#include <string.h>

/* Colours for classes without one, told apart also by who sees no red or no green, the earlier the better:
 * tools/choose-colours chose them and says how. */
static const uint32_t own_colours[HLQ_MOST_SLOTS] = {
    0xc9ffaa, 0xbc9c9e, 0x5b5060, 0x8dc6fa, 0x57713a, 0xffee42, 0xcd9332, 0x8059ca,
    0x0000ff, 0x5c1773, 0x4500a2, 0x8bb973, 0x175cff, 0x5c73a2, 0xe7e773, 0xe7d0b9,
    0x2e452e, 0x8ba2ff, 0xd0d0e7, 0xd0b900, 0x5c735c, 0x5ca2b9, 0x2e17d0, 0x458bff,
    0xa28b45, 0x8b738b, 0x730000, 0x5c4573, 0xb9d073, 0x5c2ea2, 0xa273d0, 0x73a273,
};

static int is_colour(const char *text) {
    return strlen(text) == 7 && *text == '#' && strspn(text + 1, "0123456789abcdefABCDEF") == 6;
}

/* The greys of a class: numbers from 0 to 255 with blanks between. Gives 0 where the text is something else, or a grey
 * is another class's already. */
static int take_greys(uint8_t of_grey[256], const char *text, uint32_t class, unsigned long *taken) {
    while (*(text += strspn(text, " "))) {
        char *end;
        unsigned long grey = strspn(text, "0123456789") ? strtoul(text, &end, 10) : 256;
        if (grey > 255 || (*end && *end != ' ')) return *taken = 256, 0;
        if (of_grey[grey] != NO_CLASS) return *taken = grey, 0;
        of_grey[grey] = (uint8_t)class;
        text = end;
    }
    return 1;
}

static void take_class(class_names *c, sqlite3_stmt *row, const char *path) {
    uint32_t f = u32_at(row, 0);
    unsigned long taken;
    if (f >= HLQ_MOST_SLOTS) fail(STATUS_DATA, "%s, table classes: %u is no class", path, f);
    free(c->names[f]);
    c->names[f] = text_of("%s", text_at(row, 1));
    c->named[f] = 1;
    if (is_colour(text_at(row, 2))) c->colours[f] = (uint32_t)strtoul(text_at(row, 2) + 1, NULL, 16);
    if (*text_at(row, 3)) c->has_greys = 1;
    if (!take_greys(c->of_grey, text_at(row, 3), f, &taken))
        fail(STATUS_DATA, "%s, table classes, class %u: bad greys '%s'", path, f, text_at(row, 3));
    if (sqlite3_column_type(row, 4) == SQLITE_NULL) return;
    c->priced[f] = c->any_price = 1;
    c->prices[f] = sqlite3_column_double(row, 4);
}

class_names read_classes(line *l) {
    class_names c = { .slots = l->slots };
    memset(c.of_grey, NO_CLASS, sizeof c.of_grey);
    for (uint32_t f = 0; f < HLQ_MOST_SLOTS; f++) c.colours[f] = own_colours[f], c.names[f] = text_of("class %u", f);
    sqlite3_stmt *row = ask_sql(l, "SELECT class, name, colour, grey, price FROM classes", "");
    while (next_row(l, row)) take_class(&c, row, l->path);
    return c;
}

void give_back_classes(class_names *c) {
    for (uint32_t f = 0; f < HLQ_MOST_SLOTS; f++) free(c->names[f]);
}

/* A number goes to the library as it is, which judges it. */
static int find_class(const class_names *c, const char *text, uint32_t *class) {
    long long number;
    if (is_number(text, 0, UINT32_MAX, &number)) return *class = (uint32_t)number, 1;
    for (uint32_t f = 0; f < HLQ_MOST_SLOTS; f++)
        if (c->named[f] && strcmp(c->names[f], text) == 0) return *class = f, 1;
    return 0;
}

uint32_t class_of(const class_names *c, const char *text, const char *what) {
    uint32_t class;
    if (!find_class(c, text, &class))
        fail(STATUS_USAGE, "%s: '%s' is neither a number nor the name of a class of this line", what, text);
    if (class >= c->slots) accept_or_end(HLQ_FEATURE, text_of("%s: %u is no class of this line", what, class));
    return class;
}

uint32_t class_at(const class_names *c, const csv *file, size_t row, size_t column) {
    uint32_t class;
    if (!find_class(c, field_at(file, row, column), &class))
        fail(STATUS_DATA, "%s, line %zu, column %s: '%s' is neither a number nor the name of a class of this line",
             file->path, file->lines[row], file->names[column], field_at(file, row, column));
    return class;
}

uint32_t slots_of_file(const csv *file) {
    uint32_t slots = 0;
    size_t class = column_of(file, "class");
    for (size_t row = 0; row < file->rows; row++) {
        uint32_t f = (uint32_t)number_at(file, row, class, 0, HLQ_MOST_SLOTS - 1);
        if (f >= slots) slots = f + 1;
    }
    if (slots == 0) fail(STATUS_DATA, "%s names no class", file->path);
    return slots;
}

/* Every row is looked at before the first is written. */
static void look_at_classes(const csv *file) {
    size_t class = column_of(file, "class"), name = column_of(file, "name"), colour = column_if_any(file, "colour");
    size_t grey = column_if_any(file, "grey"), price = column_if_any(file, "price");
    uint8_t of_grey[256], seen[HLQ_MOST_SLOTS] = { 0 };
    memset(of_grey, NO_CLASS, sizeof of_grey);
    for (size_t row = 0; row < file->rows; row++) {
        uint32_t f = (uint32_t)number_at(file, row, class, 0, HLQ_MOST_SLOTS - 1);
        unsigned long taken;
        const char *at = where_in(file, row), *tint = field_at(file, row, colour), *word = field_at(file, row, name);
        if (seen[f]++) fail(STATUS_DATA, "%s: class %u stands twice", at, f);
        if (*word == 0) fail(STATUS_DATA, "%s: class %u has no name", at, f);
        for (size_t other = 0; other < row; other++)
            if (strcmp(field_at(file, other, name), word) == 0)
                fail(STATUS_DATA, "%s: the name '%s' stands on line %zu already", at, word, file->lines[other]);
        if (*tint && !is_colour(tint)) fail(STATUS_DATA, "%s, column colour: '%s' is not like #c0ffee", at, tint);
        if (!take_greys(of_grey, field_at(file, row, grey), f, &taken)) {
            if (taken < 256) fail(STATUS_DATA, "%s: grey %lu is class %d already", at, taken, of_grey[taken]);
            fail(STATUS_DATA, "%s, column grey: '%s' is not a grey from 0 to 255, or several with blanks between", at,
                 field_at(file, row, grey));
        }
        if (*field_at(file, row, price)) decimal_at(file, row, price);
        free((char *)at);
    }
}

/* A list of the same raster has the same records under more slots; only the file's form and the digest change. */
static void widen_slots(line *l, uint32_t slots) {
    line other = *l;
    sqlite3_stmt *row = ask_sql(l, "SELECT survey, sheet_row, sheet_column, name FROM sheets JOIN surveys"
                                   " ON id = survey", "");
    while (next_row(l, row)) {
        other.survey = sqlite3_column_int64(row, 0);
        other.survey_name = (char *)text_at(row, 3);
        sheet a = read_sheet_of(l, other.survey, u32_at(row, 1), u32_at(row, 2));
        a.map.list.s = slots;
        write_sheet(&other, &a);
        give_back_sheet(&a);
    }
    l->slots = slots;
    run_sql(l, "UPDATE prowcurl SET slots = ?", "i", (int64_t)slots);
}

void take_classes(line *l, const csv *file) {
    size_t class = column_of(file, "class"), name = column_of(file, "name"), colour = column_if_any(file, "colour");
    size_t grey = column_if_any(file, "grey"), price = column_if_any(file, "price");
    look_at_classes(file);
    uint32_t slots = slots_of_file(file);
    class_names old = read_classes(l);
    run_sql(l, "DELETE FROM classes", "");
    for (size_t row = 0; row < file->rows; row++) {
        int64_t f = number_at(file, row, class, 0, HLQ_MOST_SLOTS - 1);
        const char *tint = field_at(file, row, colour), *greys = field_at(file, row, grey);
        run_sql(l, "INSERT INTO classes (class, name, colour, grey) VALUES (?, ?, ?, ?)", "ittt", f,
                field_at(file, row, name), *tint ? tint : NULL, *greys ? greys : NULL);
        int given = price < file->columns ? *field_at(file, row, price) != 0 : old.priced[f];
        double worth = price < file->columns && given ? decimal_at(file, row, price) : old.prices[f];
        if (given) run_sql(l, "UPDATE classes SET price = ? WHERE class = ?", "di", worth, f);
    }
    give_back_classes(&old);
    if (slots > l->slots) widen_slots(l, slots);
}
