/* The tool as a function: run_tool runs a command line in this process, in a folder of its own, and looks at how it
 * ended. Everything that it left (memory, files that are open, names) is given back, so runs know nothing of each
 * other. */
#ifndef IN_PROCESS_H
#define IN_PROCESS_H

#include <stddef.h>
#include <stdint.h>

/* What GDAL's programs would tell, in their place: gdalinfo's and gdalsrsinfo's words, and the head and the pixels that
 * gdal_translate writes. `ends` is their status, `missing` the error with which they do not start. */
typedef struct {
    const void *info, *srs, *head, *raw;
    size_t info_length, srs_length, head_length, raw_length;
    int ends, missing;
} gdal_stub;

typedef struct {
    int status;
    char *answer, *message; /* standard output and error; they stay until the next run */
    size_t answer_length, message_length;
} told;

extern gdal_stub gdal;
extern int on_terminal;     /* whether standard error is one */
extern long memory_ends_at; /* this request for memory fails and all after it; 0 is never */
extern int settled;         /* from here on runs give back what they leave: libraries have what they keep for good */

/* Makes the folder, goes there, and keeps it clean of what is not kept. */
void begin_in_folder(void);
void keep_file(const char *name);
/* Every kept file as it was, and no other; GDAL and standard input are empty. */
void restore_folder(void);
/* 1 where the file is as it was kept. */
int is_as_kept(const char *name);
void write_bytes(const char *name, const void *bytes, size_t length);
void *read_bytes(const char *name, size_t *length);

/* Runs the tool with these words after its name, the last of them followed by NULL. Ends the fuzzer where status,
 * message and answer do not go together as docs/TOOL.md says. */
told run_tool(const char *const *words);
told run_words(int count, const char *const *words);
/* The same, but that it must end with 0; for what the fuzzer itself makes. */
told must_run(const char *const *words);
#define RUN(...) run_tool((const char *const[]){ __VA_ARGS__, NULL })
#define MUST_RUN(...) must_run((const char *const[]){ __VA_ARGS__, NULL })
/* Standard input of the runs to come. */
void give_input(const void *bytes, size_t length);
/* The same on a line, whose bytes must stay where the command is refused. */
told run_on_line(const char *line, int count, const char *const *words);
/* Ends the fuzzer where the answer, or a file that is there, is no JSON. */
void must_be_json(const told *t);
void file_must_be_json(const char *name);

/* Ends the fuzzer where something that must hold does not. */
void must(int truth, const char *words);

/* A line as after some days of work, day.gpkg, with the files that it was made of. */
void make_day(void);

/* The fuzzer's bytes, taken from the front; zeros follow the last one. */
typedef struct {
    const uint8_t *at;
    size_t left;
} input;

uint8_t take_byte(input *in);
uint32_t take_u32(input *in);
/* A number that is worth trying: small ones, the edges of types, or any eight bytes. */
int64_t take_number(input *in);
/* A decimal likewise. */
double take_decimal(input *in);
/* So many bytes as the next byte says, or as there are; in memory of their own, a zero follows them. */
char *take_text(input *in, size_t *length);

#endif
