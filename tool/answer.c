/* Answers as text, CSV or JSON, written as they come: jansson writes each fact and each row. */
#define _DEFAULT_SOURCE
#include "answer.h"

#include "table.h"
#include "tool.h"

#include <jansson.h>
#include <math.h>
#include <stdlib.h>
#include <string.h>

static struct {
    answer_form as;
    FILE *to;
    int members, tables;         /* how many facts and tables of the answer are out */
    const column *columns;       /* of the table that is being written */
    int count, at, rows, silent; /* its columns, the next one, its rows so far; a second table as CSV is silent */
    json_t *row;                 /* that is being put together */
    char *names, *values;        /* the facts as two lines of CSV, until a table comes */
    size_t names_length, values_length;
    FILE *names_file, *values_file;
} out;

/* How many bytes of UTF-8 stand at the front, 0 where it is none. */
static int utf8_bytes(const unsigned char *text) {
    int more = *text < 0x80 ? 0 : *text >> 5 == 6 ? 1 : *text >> 4 == 14 ? 2 : *text >> 3 == 30 ? 3 : -1;
    for (int i = 1; i <= more; i++) if (text[i] >> 6 != 2) return 0;
    return more + 1;
}

char *clean_text(const char *words) {
    char *clean = text_of("%s", words);
    for (unsigned char *c = (unsigned char *)clean; *c;) {
        int bytes = utf8_bytes(c);
        if (bytes == 0) *c = '?';
        c += bytes ? bytes : 1;
    }
    json_t *text = json_string(clean);
    for (unsigned char *c = (unsigned char *)clean; !text && *c; c++) if (*c >= 0x80) *c = '?'; /* a surrogate */
    json_decref(text);
    return clean;
}

static json_t *json_text(const char *words) {
    json_t *text = json_string(words);
    if (text) return text;
    char *clean = clean_text(words);
    text = json_string(clean);
    free(clean);
    return text;
}

void write_json_text(FILE *file, const char *words) {
    json_t *text = json_text(words);
    if (!text || json_dumpf(text, file, JSON_ENCODE_ANY) != 0) fail(STATUS_IO, "a text cannot be written");
    json_decref(text);
}

static void write_json(json_t *value) {
    if (!value) fail(STATUS_MEMORY, "no memory for the answer");
    json_dumpf(value, out.to, JSON_ENCODE_ANY | JSON_REAL_PRECISION(15));
    json_decref(value);
}

/* For people the names have blanks. */
static void write_spaced(const char *name) {
    for (; *name; name++) fputc(*name == '_' ? ' ' : *name, out.to);
}

void answer_begin(const arguments *a) {
    answer_to(stdout, a->given[OPTION_JSON] ? ANSWER_JSON : a->given[OPTION_CSV] ? ANSWER_CSV : ANSWER_TEXT);
}

void answer_to(FILE *file, answer_form as) {
    memset(&out, 0, sizeof out);
    out.as = as, out.to = file;
    if (out.as == ANSWER_JSON) fputc('{', out.to);
    if (out.as != ANSWER_CSV) return;
    out.names_file = open_memstream(&out.names, &out.names_length);
    out.values_file = open_memstream(&out.values, &out.values_length);
    if (!out.names_file || !out.values_file) fail(STATUS_MEMORY, "no memory for the answer");
}

static void flush(void) {
    if (fflush(out.to) != 0 || ferror(out.to)) fail(STATUS_IO, "the answer cannot be written");
}

void answer_end(void) {
    if (out.as == ANSWER_JSON) fputs("}\n", out.to);
    if (out.as == ANSWER_CSV) {
        fclose(out.names_file);
        fclose(out.values_file);
        if (out.tables == 0 && out.members) fprintf(out.to, "%s\n%s\n", out.names, out.values);
        free(out.names);
        free(out.values);
    }
    flush();
}

/* A fact: `text` for people and CSV, `value` for JSON, which is given back. */
static void fact(const char *name, const char *text, json_t *value) {
    int first = out.members++ == 0;
    if (out.as == ANSWER_TEXT) {
        write_spaced(name);
        fprintf(out.to, "%*s %s\n", (int)strlen(name) < 20 ? 20 - (int)strlen(name) : 1, "", text);
    } else if (out.as == ANSWER_CSV) {
        fprintf(out.names_file, "%s%s", first ? "" : ",", name);
        if (!first) fputc(',', out.values_file);
        write_csv_field(out.values_file, text);
    } else {
        fprintf(out.to, "%s\"%s\": ", first ? "" : ",\n ", name);
        write_json(json_incref(value));
    }
    json_decref(value);
}

/* The numbers of the slots that are set. */
static json_t *classes_json(uint64_t bits) {
    json_t *list = json_array();
    for (int f = 0; f < HLQ_MOST_SLOTS; f++) if (bits >> f & 1) json_array_append_new(list, json_integer(f));
    return list;
}

static const char *classes_text(uint64_t bits, char text[128]) {
    char *end = text;
    *end = 0;
    for (int f = 0; f < HLQ_MOST_SLOTS; f++)
        if (bits >> f & 1) end += sprintf(end, "%s%d", end > text ? " " : "", f);
    return text;
}

/* People get two places, CSV all that there is. */
static const char *decimal_text(double number, char text[400]) {
    snprintf(text, 400, out.as == ANSWER_TEXT ? "%.2f" : "%.15g", number);
    return text;
}

/* JSON knows no infinity, which a price can lead to. */
static json_t *decimal_json(double number) { return isfinite(number) ? json_real(number) : json_null(); }

static const char *number_text(int64_t number, char text[32]) {
    snprintf(text, 32, "%lld", (long long)number);
    return text;
}

void fact_number(const char *name, uint64_t number) {
    char text[32];
    fact(name, number_text((int64_t)number, text), json_integer((json_int_t)number));
}

void fact_decimal(const char *name, double number) {
    char text[400];
    fact(name, decimal_text(number, text), decimal_json(number));
}

void fact_exact(const char *name, double number) {
    char text[40];
    snprintf(text, sizeof text, "%.15g", number);
    fact(name, text, decimal_json(number));
}

void fact_words(const char *name, const char *words) { fact(name, words, json_text(words)); }
void fact_truth(const char *name, int truth) { fact(name, truth ? "yes" : "no", json_boolean(truth)); }

void fact_nothing(const char *name) { fact(name, "", json_null()); }

static void write_heads(void) {
    for (int i = 0; i < out.count; i++) {
        int wide = out.columns[i].width, pad = abs(wide) - (int)strlen(out.columns[i].name);
        if (out.as == ANSWER_CSV) {
            fprintf(out.to, "%s%s", i ? "," : "", out.columns[i].name);
            continue;
        }
        if (i) fputs("  ", out.to);
        if (wide > 0 && pad > 0) fprintf(out.to, "%*s", pad, "");
        write_spaced(out.columns[i].name);
        if (wide < 0 && pad > 0 && i + 1 < out.count) fprintf(out.to, "%*s", pad, "");
    }
    fputc('\n', out.to);
}

void table_begin(const char *name, const column *columns, int count) {
    out.columns = columns, out.count = count, out.at = 0, out.rows = 0;
    out.silent = out.as == ANSWER_CSV && out.tables > 0;
    out.tables++;
    if (out.as == ANSWER_JSON) fprintf(out.to, "%s\"%s\": [", out.members++ ? ",\n " : "", name);
    else if (!out.silent) write_heads();
}

void table_end(void) {
    if (out.as == ANSWER_JSON) fputs("]", out.to);
}

static void json_cell(json_t *value, int last) {
    if (out.at == 0) out.row = json_object();
    json_object_set_new(out.row, out.columns[out.at].name, value);
    if (!last) return;
    fputs(out.rows ? ",\n  " : "\n  ", out.to);
    write_json(out.row);
    out.row = NULL;
}

static void text_cell(const char *text, int last) {
    int wide = out.columns[out.at].width;
    if (out.at) fputs("  ", out.to);
    if (last && wide < 0) fputs(text, out.to);
    else fprintf(out.to, "%*s", wide, text);
}

/* A cell; after the last one of a row comes the next row. */
static void cell(const char *text, json_t *value) {
    int last = out.at + 1 == out.count;
    if (out.as == ANSWER_JSON) {
        json_cell(value, last);
    } else {
        json_decref(value);
        if (!out.silent && out.as == ANSWER_CSV) {
            if (out.at) fputc(',', out.to);
            write_csv_field(out.to, text);
        } else if (!out.silent) {
            text_cell(text, last);
        }
        if (last && !out.silent) fputc('\n', out.to);
    }
    out.at = last ? 0 : out.at + 1;
    if (last) out.rows++;
    if (last && ferror(out.to)) flush();
}

void cell_number(uint64_t number) {
    char text[32];
    cell(number_text((int64_t)number, text), json_integer((json_int_t)number));
}

void cell_signed(int64_t number) {
    char text[32];
    cell(number_text(number, text), json_integer(number));
}

void cell_decimal(double number) {
    char text[400];
    cell(decimal_text(number, text), decimal_json(number));
}

void cell_words(const char *words) { cell(words, json_text(words)); }
void cell_truth(int truth) { cell(truth ? "yes" : "no", json_boolean(truth)); }

void cell_classes(uint64_t bits) {
    char text[128];
    cell(classes_text(bits, text), classes_json(bits));
}

void cell_nothing(void) { cell("", json_null()); }

int answer_is_json(void) { return out.as == ANSWER_JSON; }
