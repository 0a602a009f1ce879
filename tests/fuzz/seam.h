/* Stands before every file of tool/ in the fuzzers' build: what would end the process, write past it, start a program
 * or ask a terminal goes to tests/fuzz/in_process.c, so that the tool runs many times in one process. */
#ifndef SEAM_H
#define SEAM_H

#include <fcntl.h>
#include <spawn.h>
#include <sqlite3.h>
#include <stdio.h>
#include <stdlib.h>
#include <sys/wait.h>
#include <unistd.h>

extern FILE *seam_in, *seam_out, *seam_err;
_Noreturn void seam_exit(int status);
int seam_atexit(void (*run)(void));
FILE *seam_fopen(const char *name, const char *mode);
FILE *seam_fdopen(int file, const char *mode);
FILE *seam_open_memstream(char **bytes, size_t *length);
int seam_fclose(FILE *file);
void *seam_malloc(size_t size);
void *seam_calloc(size_t count, size_t size);
void *seam_realloc(void *old, size_t size);
int seam_prepare(sqlite3 *db, const char *sql, int length, sqlite3_stmt **made, const char **rest);
int seam_step(sqlite3_stmt *asked);
int seam_finalize(sqlite3_stmt *asked);
const void *seam_column_blob(sqlite3_stmt *row, int column);
const unsigned char *seam_column_text(sqlite3_stmt *row, int column);
int seam_isatty(int file);
int seam_spawn(char *const words[]);
pid_t seam_wait(int *status);

#undef stdin
#undef stdout
#undef stderr
#define stdin seam_in
#define stdout seam_out
#define stderr seam_err
#define printf(...) fprintf(seam_out, __VA_ARGS__)
#define exit(status) seam_exit(status)
#define atexit(run) seam_atexit(run)
#define fopen(name, mode) seam_fopen(name, mode)
#define fdopen(file, mode) seam_fdopen(file, mode)
#define open_memstream(bytes, length) seam_open_memstream(bytes, length)
#define fclose(file) seam_fclose(file)
#define malloc(size) seam_malloc(size)
#define calloc(count, size) seam_calloc(count, size)
#define realloc(old, size) seam_realloc(old, size)
#define sqlite3_prepare_v2(db, sql, length, made, rest) seam_prepare(db, sql, length, made, rest)
#define sqlite3_step(asked) seam_step(asked)
#define sqlite3_finalize(asked) seam_finalize(asked)
#define sqlite3_column_blob(row, column) seam_column_blob(row, column)
#define sqlite3_column_text(row, column) seam_column_text(row, column)
#define isatty(file) seam_isatty(file)
#define posix_spawnp(child, name, files, attributes, words, environment) (*(child) = 0, seam_spawn(words))
#define waitpid(child, status, options) seam_wait(status)

#endif
