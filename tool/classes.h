/* The classes of a line, for people: names, colours, greys of a survey, prices. */
#ifndef CLASSES_H
#define CLASSES_H

#include "table.h"
#include "line.h"

enum { NO_CLASS = 255 };

typedef struct {
    uint32_t slots;                   /* of the line */
    char *names[HLQ_MOST_SLOTS];      /* "class 7" where the line has no name */
    int named[HLQ_MOST_SLOTS];
    uint32_t colours[HLQ_MOST_SLOTS]; /* red * 65536 + green * 256 + blue */
    int priced[HLQ_MOST_SLOTS], any_price;
    double prices[HLQ_MOST_SLOTS];
    int has_greys;
    uint8_t of_grey[256]; /* the class of a grey, or NO_CLASS */
} class_names;

/* What the table classes says, and numbers for names where it says nothing. */
class_names read_classes(line *l);
void give_back_classes(class_names *c);

/* A class by its number or its name, below the line's slots; the second where it stands in a file. */
uint32_t class_of(const class_names *c, const char *text, const char *what);
uint32_t class_at(const class_names *c, const csv *file, size_t row, size_t column);

/* Rows of classes from a CSV in place of all that are there, within the caller's transaction. Where they name a class
 * that the line has no slot for, the line gets more slots: with sheets these are written anew. */
void take_classes(line *l, const csv *file);

/* The highest class of such a file and one more. */
uint32_t slots_of_file(const csv *file);

#endif
