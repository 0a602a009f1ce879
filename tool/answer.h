/* Answers: named facts and tables of rows, as text, as CSV (--csv) or as JSON (--json). They are written as they come,
 * so that a list of a million records needs no memory. */
#ifndef ANSWER_H
#define ANSWER_H

#include "arguments.h"

#include <stdio.h>


/* A width below 0 puts the text at the left, as printf has it. */
typedef struct {
    const char *name;
    int width;
} column;

/* An answer is begun, its facts and tables follow, and it is ended. As CSV the first table is all that is shown, or
 * the facts where there is none. */
void answer_begin(const arguments *a);
/* The same into a file, in this form whatever the command line says. */
typedef enum { ANSWER_TEXT, ANSWER_CSV, ANSWER_JSON } answer_form;
void answer_to(FILE *file, answer_form as);
void answer_end(void);

void fact_number(const char *name, uint64_t number);
void fact_decimal(const char *name, double number);
/* A measure of which people want all places too, as a coordinate. */
void fact_exact(const char *name, double number);
void fact_words(const char *name, const char *words);
void fact_truth(const char *name, int truth);
void fact_nothing(const char *name);

/* A table; after its last column a row ends by itself. */
void table_begin(const char *name, const column *columns, int count);
void table_end(void);
void cell_number(uint64_t number);
void cell_signed(int64_t number);
void cell_decimal(double number);
void cell_words(const char *words);
void cell_truth(int truth);
void cell_classes(uint64_t bits);
void cell_nothing(void);

/* Rows that only people want, as a total is: nothing as JSON. */
int answer_is_json(void);

/* A name out of a file may hold anything, and JSON may not: a byte that is no UTF-8 becomes a question mark. In
 * memory of its own; and as JSON has a text. */
char *clean_text(const char *words);
void write_json_text(FILE *file, const char *words);

#endif
