/* The tool in this process: its ends caught, its files closed, its folder put back, GDAL's programs stood in for.
 * pieces.c has its memory. */
#define _DEFAULT_SOURCE
#include "in_process.h"

#include "../../tool/files.h"
#include "pieces.h"

#include <dirent.h>
#include <errno.h>
#include <fcntl.h>
#include <jansson.h>
#include <setjmp.h>
#include <stdio.h>
#include <stdlib.h>
#include <string.h>
#include <sys/stat.h>
#include <sys/wait.h>
#include <unistd.h>

int tool_main(int count, char **words);

FILE *seam_in, *seam_out, *seam_err;
gdal_stub gdal;
int on_terminal;

void must(int truth, const char *words) {
    if (truth) return;
    fprintf(stderr, "FAILED: %s\n", words);
    abort();
}

/* Files that are open. One in memory has its own place for the bytes, since who asked for them may be gone. */
enum { FILES = 64 };
static struct {
    FILE *file;
    char *bytes, **to;
    size_t length, *to_length;
} files[FILES];

static int note_file(FILE *file) {
    int i = 0;
    while (i < FILES && files[i].file) i++;
    must(i < FILES, "too many open files");
    files[i].file = file;
    files[i].to = NULL;
    return i;
}

FILE *seam_fopen(const char *name, const char *mode) {
    FILE *file = fopen(name, mode);
    if (file) note_file(file);
    return file;
}

FILE *seam_fdopen(int number, const char *mode) {
    FILE *file = fdopen(number, mode);
    if (file) note_file(file);
    return file;
}

FILE *seam_open_memstream(char **bytes, size_t *length) {
    if (!memory_is_there()) return NULL;
    int i = note_file(stdin);
    files[i].file = open_memstream(&files[i].bytes, &files[i].length);
    files[i].to = bytes, files[i].to_length = length;
    return files[i].file;
}

int seam_fclose(FILE *file) {
    int i = 0;
    while (i < FILES && files[i].file != file) i++;
    must(i < FILES, "a file is closed that is not open");
    int ended = fclose(file);
    if (files[i].to) *files[i].to = files[i].bytes, *files[i].to_length = files[i].length;
    files[i].file = NULL;
    return ended;
}

static void close_files(void) {
    for (int i = 0; i < FILES; i++) {
        if (!files[i].file) continue;
        fclose(files[i].file);
        if (files[i].to) free(files[i].bytes);
        files[i].file = NULL;
    }
}

/* The end of a run. */
static jmp_buf end;
static int end_status, ends_count;
static void (*ends[8])(void);

int seam_atexit(void (*run)(void)) {
    must(ends_count < 8, "too many things at the end");
    ends[ends_count++] = run;
    return 0;
}

_Noreturn void seam_exit(int status) {
    end_status = status;
    longjmp(end, 1);
}

int seam_isatty(int file) {
    (void)file;
    return on_terminal;
}

static void write_below(const char *folder, const char *name, const void *bytes, size_t length) {
    char path[300];
    snprintf(path, sizeof path, "%s/%s", folder, name);
    write_bytes(path, bytes, length);
}

/* gdal_translate's last word is what it writes; a head stands beside pixels. */
int seam_spawn(char *const words[]) {
    const char *folder = temporary_folder(), *out = NULL;
    if (gdal.missing) return gdal.missing;
    for (int i = 1; words[i]; i++) out = words[i];
    write_below(folder, "err", "what it says\nand more\n", gdal.ends == 2 ? 0 : 22);
    int info = strcmp(words[0], "gdalinfo") == 0, srs = strcmp(words[0], "gdalsrsinfo") == 0;
    write_below(folder, "out", info ? gdal.info : srs ? gdal.srs : "",
                info ? gdal.info_length : srs ? gdal.srs_length : 0);
    if (info || srs) return 0;
    size_t length = strlen(out);
    if (length < 4 || strcmp(out + length - 4, ".bil") != 0) {
        write_bytes(out, "II*", 4);
        return 0;
    }
    if (gdal.raw) write_below(folder, "raw.bil", gdal.raw, gdal.raw_length);
    if (gdal.head) write_below(folder, "raw.hdr", gdal.head, gdal.head_length);
    return 0;
}

pid_t seam_wait(int *status) {
    *status = gdal.ends << 8;
    return 0;
}

/* The folder, and the files in it that stay. */
enum { KEPT = 24 };
static char folder[64];
static struct {
    char name[32];
    void *bytes;
    size_t length;
} kept[KEPT];
static int kept_count;

void write_bytes(const char *name, const void *bytes, size_t length) {
    FILE *file = fopen(name, "wb");
    must(file && fwrite(length ? bytes : "", 1, length, file) == length && fclose(file) == 0, "a file is not written");
}

void *read_bytes(const char *name, size_t *length) {
    FILE *file = fopen(name, "rb");
    struct stat s;
    if (!file) return NULL;
    must(fstat(fileno(file), &s) == 0, "a file has no length");
    if (!S_ISREG(s.st_mode)) return fclose(file), NULL;
    char *bytes = malloc((size_t)s.st_size + 1);
    *length = fread(bytes, 1, (size_t)s.st_size, file);
    bytes[*length] = 0;
    fclose(file);
    return bytes;
}

static void leave_folder(void) {
    char command[100];
    snprintf(command, sizeof command, "rm -rf %s", folder);
    if (system(command) != 0) fprintf(stderr, "%s stays\n", folder);
}

void begin_in_folder(void) {
    struct stat s;
    int memory = stat("/dev/shm", &s) == 0 && S_ISDIR(s.st_mode);
    snprintf(folder, sizeof folder, "%s/prowcurl-fuzz-XXXXXX", memory ? "/dev/shm" : "/tmp");
    watch_pieces();
    must(mkdtemp(folder) && chdir(folder) == 0, "no folder");
    setenv("TMPDIR", folder, 1);
    setenv("LOGNAME", "fuzz", 1);
    atexit(leave_folder);
    give_input("", 0);
}

void keep_file(const char *name) {
    must(kept_count < KEPT && strlen(name) < sizeof kept[0].name, "too many files are kept");
    strcpy(kept[kept_count].name, name);
    kept[kept_count].bytes = read_bytes(name, &kept[kept_count].length);
    must(kept[kept_count].bytes != NULL, "a file that is to be kept is not there");
    kept_count++;
}

int is_as_kept(const char *name) {
    int i = 0;
    while (i < kept_count && strcmp(kept[i].name, name) != 0) i++;
    must(i < kept_count, "no such file is kept");
    static char now[1 << 20];
    must(kept[i].length < sizeof now, "a file that is kept is too long");
    int file = open(name, O_RDONLY);
    ssize_t length = file < 0 ? -1 : read(file, now, sizeof now);
    if (file >= 0) close(file);
    return length == (ssize_t)kept[i].length && memcmp(now, kept[i].bytes, kept[i].length) == 0;
}

void restore_folder(void) {
    DIR *names = opendir(".");
    gdal = (gdal_stub){ 0 };
    give_input("", 0);
    for (struct dirent *entry; names && (entry = readdir(names));) {
        int i = 0;
        while (i < kept_count && strcmp(kept[i].name, entry->d_name) != 0) i++;
        if (i == kept_count && entry->d_name[0] != '.') unlink(entry->d_name);
    }
    if (names) closedir(names);
    for (int i = 0; i < kept_count; i++)
        if (!is_as_kept(kept[i].name)) write_bytes(kept[i].name, kept[i].bytes, kept[i].length);
}

static char input_bytes[1 << 16];
static size_t input_length;

void give_input(const void *bytes, size_t length) {
    input_length = length < sizeof input_bytes ? length : sizeof input_bytes;
    memcpy(input_bytes, bytes, input_length);
}

/* What docs/TOOL.md says of every end. */
static void look_at_end(const told *t) {
    int s = t->status;
    int known = (s >= 0 && s <= 25) || s == 32 || (s >= 64 && s <= 66) || s == 69 || s == 71 || (s >= 73 && s <= 75);
    char refused[32];
    snprintf(refused, sizeof refused, "refused, %d: ", s);
    must(known, "a status that no page names");
    must(s != 75, "a line is locked, and nobody else is there");
    must(s != 71 || memory_ends_at, "memory is said to be missing, and is there");
    int usage = s == 64 && strncmp(t->answer, "usage: ", 7) == 0; /* without any words it tells what it takes */
    must(s == 0 || s == 32 || on_terminal || usage || strncmp(t->message, "prowcurl: ", 10) == 0,
         "an end without words");
    must((s != 0 && s != 32) || on_terminal || !*t->message, "words beside an answer");
    must(s == 0 || s > 25 || strstr(t->message, refused), "a refusal without its number");
}

told run_words(int count, const char *const *words) {
    static told t;
    static char **copies;
    free(t.answer);
    free(t.message);
    t = (told){ 0 };
    copies = malloc(((size_t)count + 2) * sizeof *copies);
    copies[0] = strdup("prowcurl");
    for (int i = 0; i < count; i++) copies[i + 1] = strdup(words[i]);
    copies[count + 1] = NULL;
    char **as_made = malloc(((size_t)count + 2) * sizeof *as_made);
    memcpy(as_made, copies, ((size_t)count + 2) * sizeof *as_made); /* the tool may change its words */
    seam_out = open_memstream(&t.answer, &t.answer_length);
    seam_err = open_memstream(&t.message, &t.message_length);
    seam_in = fmemopen(input_bytes, input_length ? input_length : 1, "rb");
    if (input_length == 0) getc(seam_in);
    begin_pieces();
    if (setjmp(end) == 0) end_status = tool_main(count + 1, copies);
    int status = end_status;
    long memory_ended_at = memory_ends_at;
    memory_ends_at = 0;
    for (int i = ends_count; i > 0; i--) if (setjmp(end) == 0) ends[i - 1](); /* told once, they run at every end */
    close_files();
    fclose(seam_in);
    fclose(seam_out);
    fclose(seam_err);
    keep_piece(t.answer);
    keep_piece(t.message);
    give_back_pieces();
    memory_ends_at = memory_ended_at;
    for (int i = 0; i <= count; i++) free(as_made[i]);
    free(as_made);
    free(copies);
    t.status = status;
    look_at_end(&t);
    return t;
}

told run_tool(const char *const *words) {
    int count = 0;
    while (words[count]) count++;
    return run_words(count, words);
}

told must_run(const char *const *words) {
    told t = run_tool(words);
    if (t.status) fprintf(stderr, "%s %s: %s", words[0], words[1], t.message);
    must(t.status == 0, "what the fuzzer itself makes is refused");
    return t;
}

/* What was made in part (73, 74) may have counted before, and where memory ends, so may all. */
told run_on_line(const char *line, int count, const char *const *words) {
    size_t length, after_length;
    uint8_t *before = read_bytes(line, &length);
    told t = run_words(count, words);
    uint8_t *after = read_bytes(line, &after_length);
    if (before && t.status && t.status != 32 && t.status < 71)
        must(after && after_length == length && memcmp(before, after, length) == 0,
             "a refused command changes the line");
    free(before);
    free(after);
    return t;
}

static void bytes_must_be_json(const char *bytes, size_t length, const char *words) {
    json_error_t error;
    json_t *value = json_loadb(bytes, length, JSON_REJECT_DUPLICATES, &error);
    if (!value) fprintf(stderr, "%s, line %d\n%.*s\n", error.text, error.line, 2000, bytes);
    must(value != NULL, words);
    json_decref(value);
}

void must_be_json(const told *t) { bytes_must_be_json(t->answer, t->answer_length, "the answer is no JSON"); }

void file_must_be_json(const char *name) {
    size_t length;
    char *bytes = read_bytes(name, &length);
    if (bytes) bytes_must_be_json(bytes, length, "the file is no JSON");
    free(bytes);
}

uint8_t take_byte(input *in) {
    if (in->left == 0) return 0;
    in->left--;
    return *in->at++;
}

uint32_t take_u32(input *in) {
    uint32_t number = 0;
    for (int i = 0; i < 4; i++) number |= (uint32_t)take_byte(in) << 8 * i;
    return number;
}

int64_t take_number(input *in) {
    static const int64_t worth[] = { -1, -2, 31, 32, 255, 256, 511, 1023, 1024, 1 << 20, (1 << 20) + 1, INT32_MAX,
                                     INT32_MIN, UINT32_MAX, (int64_t)UINT32_MAX + 1, INT64_MAX, INT64_MAX - 1,
                                     INT64_MIN, (int64_t)1 << 62, (int64_t)1 << 61, -((int64_t)1 << 62), 9765625,
                                     390625, 3125, 625 };
    enum { WORTH = sizeof worth / sizeof *worth };
    uint8_t first = take_byte(in);
    if (first < 128) return first;
    if (first < 128 + WORTH) return worth[first - 128];
    uint64_t low = take_u32(in);
    return (int64_t)(low | (uint64_t)take_u32(in) << 32);
}

double take_decimal(input *in) {
    static const double worth[] = { 0.5, -0.5, 1e-9, 1e9, 1e154, 1e300, 1.7e308, 5e-324, -1e300, 562000.5, 1.0 / 3 };
    enum { WORTH = sizeof worth / sizeof *worth };
    uint8_t first = take_byte(in);
    double number;
    if (first < 128) return first;
    if (first < 128 + WORTH) return worth[first - 128];
    uint64_t bits = take_u32(in);
    bits |= (uint64_t)take_u32(in) << 32;
    memcpy(&number, &bits, sizeof number);
    return number;
}

char *take_text(input *in, size_t *length) {
    *length = take_byte(in);
    if (*length > in->left) *length = in->left;
    char *text = malloc(*length + 1);
    memcpy(text, in->at, *length);
    text[*length] = 0;
    in->at += *length, in->left -= *length;
    return text;
}
