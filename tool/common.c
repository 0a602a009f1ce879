/* How the tool ends where something is wrong, memory, numbers out of text. */
#include "tool.h"

#include <errno.h>
#include <limits.h>
#include <math.h>
#include <stdarg.h>
#include <stdlib.h>
#include <string.h>

_Noreturn void fail(int status, const char *format, ...) {
    va_list rest;
    fflush(stdout); /* what was answered so far stands before the message */
    fputs("prowcurl: ", stderr);
    va_start(rest, format);
    vfprintf(stderr, format, rest);
    va_end(rest);
    fputc('\n', stderr);
    exit(status);
}

const char *refusal_words(uint64_t refusal) {
    switch (refusal) {
    case HLQ_PIXEL: return "a pixel of the raster is no class";
    case HLQ_FEATURE: return "not a class";
    case HLQ_BIT_STRINGS: return "not two classes, or not a pair of bit strings";
    default: return hlq_refusal_text(refusal);
    }
}

void accept_or_end(uint64_t refusal, const char *what) {
    if (refusal == HLQ_ACCEPTED) return;
    fail((int)refusal, "%s%srefused, %d: %s", what ? what : "", what ? ": " : "", (int)refusal,
         refusal_words(refusal));
}

void *room_for(size_t count, size_t size) {
    void *room = calloc(count ? count : 1, size);
    if (!room) fail(STATUS_MEMORY, "no memory for %zu times %zu bytes", count, size);
    return room;
}

void *more_room_for(void *old, size_t count, size_t size) {
    if (count == 0) count = 1;
    void *room = count > SIZE_MAX / size ? NULL : realloc(old, count * size);
    if (!room) fail(STATUS_MEMORY, "no memory for %zu times %zu bytes", count, size);
    return room;
}

char *text_of(const char *format, ...) {
    va_list rest, again;
    va_start(rest, format);
    va_copy(again, rest);
    int length = vsnprintf(NULL, 0, format, rest);
    va_end(rest);
    if (length < 0) fail(STATUS_MEMORY, "a text cannot be put together");
    char *text = room_for((size_t)length + 1, 1);
    vsnprintf(text, (size_t)length + 1, format, again);
    va_end(again);
    return text;
}

int is_number(const char *text, long long least, long long most, long long *number) {
    size_t digits = strspn(text + (*text == '-'), "0123456789");
    if (digits == 0 || text[digits + (*text == '-')] != 0) return 0; /* strtoll would pass over blanks and a plus */
    errno = 0;
    *number = strtoll(text, NULL, 10);
    return errno == 0 && *number >= least && *number <= most;
}

int is_decimal(const char *text, double *number) {
    char *end;
    if (*text == 0 || strspn(text, "0123456789.-+eE") != strlen(text)) return 0; /* no inf, nan, hexadecimal */
    *number = strtod(text, &end);
    return *end == 0 && isfinite(*number);
}

uint32_t number_of(const char *text, const char *what) {
    long long number;
    if (!is_number(text, 0, UINT32_MAX, &number))
        fail(STATUS_USAGE, "%s: '%s' is not a whole number from 0 to %u", what, text, UINT32_MAX);
    return (uint32_t)number;
}

long long signed_number_of(const char *text, const char *what) {
    long long number;
    if (!is_number(text, LLONG_MIN, LLONG_MAX, &number))
        fail(STATUS_USAGE, "%s: '%s' is not a whole number within 64 bits", what, text);
    return number;
}

double decimal_of(const char *text, const char *what) {
    double number;
    if (!is_decimal(text, &number)) fail(STATUS_USAGE, "%s: '%s' is not a number", what, text);
    return number;
}
