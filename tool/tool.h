/* What every part of the tool uses: how it ends where something is wrong, memory, and text put together. */
#ifndef TOOL_H
#define TOOL_H

#include "prowcurl.h"

#include <stdio.h>

/* How the tool ends beside 0 and the number of a refusal; the numbers are those of sysexits.h. */
enum {
    STATUS_USAGE = 64,         /* the command line is wrong */
    STATUS_DATA = 65,          /* a file holds what it should not */
    STATUS_NO_INPUT = 66,      /* a file cannot be opened */
    STATUS_MISSING = 69,       /* a program that the tool calls is not there */
    STATUS_MEMORY = 71,        /* no memory */
    STATUS_CANNOT_CREATE = 73, /* a file cannot be made, or would be lost */
    STATUS_IO = 74,            /* reading or writing failed */
    STATUS_BUSY = 75           /* another process edits the file */
};

/* Says on standard error what is wrong, and ends with the status. */
_Noreturn void fail(int status, const char *format, ...) __attribute__((format(printf, 2, 3)));

/* Goes on where a call was accepted; else says the refusal in words and ends with its number. `what` names the file or
 * the line that is meant, and is NULL where that is plain. */
void accept_or_end(uint64_t refusal, const char *what);

/* The library's words for a refusal, but that people here say class where it says feature. */
const char *refusal_words(uint64_t refusal);

/* Memory for so many things of this size, all zero, or the end. */
void *room_for(size_t count, size_t size);
void *more_room_for(void *old, size_t count, size_t size);

/* A text in memory of its own. */
char *text_of(const char *format, ...) __attribute__((format(printf, 1, 2)));

/* Whole numbers on the command line. `what` names the word for the message. */
uint32_t number_of(const char *text, const char *what);
long long signed_number_of(const char *text, const char *what);
double decimal_of(const char *text, const char *what);

/* The same, without an end: 1 where the text is nothing but a number within the bounds. */
int is_number(const char *text, long long least, long long most, long long *number);
int is_decimal(const char *text, double *number);

#endif
