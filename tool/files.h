/* Files: read whole; and written beside their place and renamed, whole or not at all, so that an output never replaces
 * what it should not. */
#ifndef FILES_H
#define FILES_H

#include "arguments.h"

#include <stddef.h>
#include <stdint.h>
#include <stdio.h>
#include <sys/types.h>

/* The bytes of a file (- is standard input), at most `most` and one more, so that a caller sees that it is too long; a
 * zero follows them. Ends where the file cannot be read. */
uint8_t *read_file(const char *path, size_t most, size_t *length);
int file_exists(const char *path);

/* What a command writes, told from the first bytes of a file; a file of another kind is replaced only with --force. */
typedef enum { KIND_PGM, KIND_GRID, KIND_TIF, KIND_PNG, KIND_HTML, KIND_JSON, KIND_CSV, KIND_HLQ, KIND_BITS } kind;

/* An output on its way: `name` stands beside `path`, and is removed where the tool ends before it is whole. */
typedef struct {
    char *path, *name;
    FILE *file; /* NULL where another program writes it; standard output for - */
} output;

/* Ends where PATH leads to one of the command's inputs (its words and the values of its options), to something that is
 * no regular file, or to a file of another kind without --force. - passes. */
void may_replace(const arguments *a, const char *path, kind what);

/* The name alone, for a program that makes the file itself. */
output begin_output(const char *path);
/* The name and an open file; - is standard output. */
output open_output(const char *path);
/* The file is written through to the disk, gets group and mode of what it replaces, and its place. */
void end_output(output *o);
/* The same, where nothing may stand at that place: ends where something does. */
void end_output_if_free(output *o);

/* A file that another library makes on the way, removed where the tool ends. */
void note_litter(const char *name);

/* Whether the folder of a file can be written through to the disk: some network folders know no fsync. */
int can_sync_folder(const char *path);

/* A folder below the temporary one, the same at every call, which is removed with its files when the tool ends, by
 * Ctrl-C too. */
const char *temporary_folder(void);
/* A program that writes there is running; 0 where none is. A signal that ends the tool ends it first. */
void note_child(pid_t child);

#endif
