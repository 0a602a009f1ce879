/* Files read whole, and outputs that are written beside their place and renamed. */
#define _DEFAULT_SOURCE
#include "files.h"

#include "tool.h"

#include <errno.h>
#include <fcntl.h>
#include <signal.h>
#include <stdlib.h>
#include <string.h>
#include <strings.h>
#include <sys/stat.h>
#include <sys/syscall.h>
#include <sys/wait.h>
#include <unistd.h>

uint8_t *read_file(const char *path, size_t most, size_t *length) {
    FILE *file = strcmp(path, "-") == 0 ? stdin : fopen(path, "rb");
    if (!file) fail(STATUS_NO_INPUT, "%s: %s", path, strerror(errno));
    size_t room = 4096, used = 0;
    uint8_t *bytes = room_for(room + 1, 1);
    for (;;) {
        size_t want = room - used < most + 1 - used ? room - used : most + 1 - used;
        size_t got = want ? fread(bytes + used, 1, want, file) : 0;
        used += got;
        if (got < want || used > most) break;
        if (used == room) bytes = more_room_for(bytes, (room *= 2) + 1, 1);
    }
    if (ferror(file)) fail(STATUS_NO_INPUT, "%s: %s", path, strerror(errno));
    if (file != stdin) fclose(file);
    bytes[used] = 0;
    *length = used;
    return bytes;
}

int file_exists(const char *path) { return access(path, F_OK) == 0; }

/* What the tool removes where it ends: outputs that are not whole, and the folder for other programs' files, once the
 * one that may be writing there has ended. */
static struct {
    char *volatile names[8];
    char *volatile folder;
    volatile pid_t child;
    int registered;
} litter;

/* A file's name as the kernel gives it, since a signal's handler may not call readdir. */
typedef struct {
    uint64_t inode;
    int64_t offset;
    unsigned short length; /* of the whole */
    unsigned char type;
    char name[];
} entry;

static void remove_folder(const char *folder) {
    _Alignas(entry) char some[4096];
    int files = open(folder, O_RDONLY | O_DIRECTORY | O_CLOEXEC);
    for (long got; files >= 0 && (got = syscall(SYS_getdents64, files, some, sizeof some)) > 0;)
        for (long at = 0; at < got;) {
            const entry *e = (const entry *)(some + at);
            unlinkat(files, e->name, 0); /* . and .. stay */
            at += e->length;
        }
    if (files >= 0) close(files);
    rmdir(folder);
}

static void remove_litter(void) {
    for (int i = 0; i < 8; i++) if (litter.names[i]) unlink(litter.names[i]);
    if (litter.folder) remove_folder(litter.folder);
}

static void give_back(char *volatile *name) {
    char *there = *name;
    *name = NULL; /* before it is gone, since a signal may come */
    free(there);
}

static void end_with_litter(void) {
    remove_litter();
    for (int i = 0; i < 8; i++) give_back(&litter.names[i]);
    give_back(&litter.folder);
}

/* Ctrl-C and the like. Whoever waits for the tool sees which signal ended it. */
static void end_by_signal(int number) {
    if (litter.child > 0 && kill(litter.child, SIGTERM) == 0) waitpid(litter.child, NULL, 0);
    remove_litter();
    raise(number); /* the handler is gone: this ends the tool as soon as it returns */
}

static const int endings[] = { SIGINT, SIGTERM, SIGHUP, SIGPIPE };
enum { ENDINGS = sizeof endings / sizeof *endings };

static void clean_at_the_end(void) {
    struct sigaction action = { .sa_handler = end_by_signal, .sa_flags = (int)SA_RESETHAND }, old;
    if (litter.registered) return;
    litter.registered = atexit(end_with_litter) == 0;
    for (int i = 0; i < ENDINGS; i++) sigaddset(&action.sa_mask, endings[i]);
    for (int i = 0; i < ENDINGS; i++)
        if (sigaction(endings[i], NULL, &old) == 0 && old.sa_handler != SIG_IGN) sigaction(endings[i], &action, NULL);
}

void note_litter(const char *name) {
    clean_at_the_end();
    for (int i = 0; i < 8; i++) {
        if (litter.names[i]) continue;
        litter.names[i] = text_of("%s", name);
        return;
    }
}

static void no_litter(const char *name) {
    for (int i = 0; i < 8; i++) {
        if (!litter.names[i] || strcmp(litter.names[i], name) != 0) continue;
        give_back(&litter.names[i]);
        return;
    }
}

/* A folder that is made, and no signal before it is noted. */
const char *temporary_folder(void) {
    const char *below = getenv("TMPDIR");
    sigset_t all, old;
    if (litter.folder) return litter.folder;
    char *name = text_of("%s/prowcurl-XXXXXX", below && *below ? below : "/tmp");
    clean_at_the_end();
    sigfillset(&all);
    sigprocmask(SIG_BLOCK, &all, &old);
    if (mkdtemp(name)) litter.folder = name;
    int error = errno;
    sigprocmask(SIG_SETMASK, &old, NULL);
    if (!litter.folder) fail(STATUS_CANNOT_CREATE, "%s: %s", name, strerror(error));
    return litter.folder;
}

void note_child(pid_t child) { litter.child = child; }

/* Whether two names lead to one file. */
static int same_file(const char *a, const char *b) {
    struct stat one, two;
    return stat(a, &one) == 0 && stat(b, &two) == 0 && one.st_ino == two.st_ino && one.st_dev == two.st_dev;
}

static int begins_with(const uint8_t *head, size_t length, const char *mark, size_t mark_length) {
    return length >= mark_length && strncasecmp((const char *)head, mark, mark_length) == 0;
}

/* Bit strings have no mark, so a file is never known to be one. */
static int is_of_kind(const uint8_t *head, size_t length, kind what) {
    switch (what) {
    case KIND_PGM: return begins_with(head, length, "P5", 2) || begins_with(head, length, "P2", 2);
    case KIND_GRID: return begins_with(head, length, "ncols", 5);
    case KIND_TIF: return length >= 4 && (memcmp(head, "II*\0", 4) == 0 || memcmp(head, "MM\0*", 4) == 0 ||
                                          memcmp(head, "II+\0", 4) == 0 || memcmp(head, "MM\0+", 4) == 0);
    case KIND_PNG: return length >= 4 && memcmp(head, "\x89PNG", 4) == 0;
    case KIND_HTML: return begins_with(head, length, "<!doctype html", 14);
    case KIND_JSON: return begins_with(head, length, "{", 1);
    case KIND_CSV:
        return begins_with(head, length, "class,", 6) || begins_with(head, length, "office,", 7) ||
               begins_with(head, length, "key,", 4);
    case KIND_HLQ: return length >= 3 && memcmp(head, "HLQ", 3) == 0;
    default: return 0;
    }
}

static const char *words_for(kind what) {
    static const char *const words[] = { "a PGM", "an ESRI grid", "a GeoTIFF", "a PNG", "a page", "GeoJSON",
                                         "such a CSV", "a map file", "bit strings" };
    return words[what];
}

/* An output may replace an older one of its kind, and an empty file. */
static void must_be_of_kind(const char *path, kind what) {
    uint8_t head[16] = { 0 };
    FILE *file = fopen(path, "rb");
    if (!file) fail(STATUS_CANNOT_CREATE, "%s: %s", path, strerror(errno));
    size_t length = fread(head, 1, sizeof head, file);
    fclose(file);
    if (length > 0 && !is_of_kind(head, length, what))
        fail(STATUS_CANNOT_CREATE, "%s is there, and is not %s; --force replaces it", path, words_for(what));
}

/* The output's own word is among the words: so it counts how many lead to it. */
void may_replace(const arguments *a, const char *path, kind what) {
    struct stat there;
    if (strcmp(path, "-") == 0 || stat(path, &there) != 0) return;
    if (!S_ISREG(there.st_mode))
        fail(STATUS_CANNOT_CREATE, "%s is no regular file; - is standard output", path);
    for (int i = 0; i < a->count; i++)
        if (a->words[i] != path && same_file(a->words[i], path))
            fail(STATUS_CANNOT_CREATE, "%s is an input of this command, and would be lost", path);
    for (int o = 0; o < OPTIONS; o++)
        if (a->given[o] && a->given[o][0] && a->given[o][0] != path && same_file(a->given[o][0], path))
            fail(STATUS_CANNOT_CREATE, "%s is an input of this command, and would be lost", path);
    if (!a->given[OPTION_FORCE]) must_be_of_kind(path, what);
}

/* Beside the place where a link leads, so that the link stays one. */
output begin_output(const char *path) {
    char *real = realpath(path, NULL);
    output o = { .path = real ? real : text_of("%s", path) };
    o.name = text_of("%s.%ld.new", o.path, (long)getpid());
    if (unlink(o.name) != 0 && errno != ENOENT) fail(STATUS_CANNOT_CREATE, "%s: %s", path, strerror(errno));
    note_litter(o.name);
    return o;
}

output open_output(const char *path) {
    if (strcmp(path, "-") == 0) return (output){ .path = text_of("-"), .file = stdout };
    output o = begin_output(path);
    int file = open(o.name, O_RDWR | O_CREAT | O_EXCL | O_CLOEXEC, 0666);
    o.file = file < 0 ? NULL : fdopen(file, "w+b");
    if (!o.file) fail(STATUS_CANNOT_CREATE, "%s: %s", path, strerror(errno));
    return o;
}

/* The names of the folder written through to the disk; gives 0, or the error. */
static int sync_folder(const char *path) {
    char *folder = text_of("%s", path), *slash = strrchr(folder, '/');
    int error = 0;
    if (slash) slash[slash == folder] = 0; /* the root keeps its slash */
    int file = open(slash ? folder : ".", O_RDONLY | O_DIRECTORY | O_CLOEXEC);
    if (file >= 0) {
        if (fsync(file) != 0) error = errno;
        close(file);
    }
    free(folder);
    return error;
}

int can_sync_folder(const char *path) {
    int error = sync_folder(path);
    return error != EINVAL && error != ENOSYS && error != EOPNOTSUPP;
}

static void write_through(output *o) {
    if (o->file && fflush(o->file) != 0) fail(STATUS_IO, "%s: %s", o->path, strerror(errno));
    int file = o->file ? dup(fileno(o->file)) : open(o->name, O_RDWR | O_CLOEXEC);
    struct stat old;
    if (file < 0) fail(STATUS_IO, "%s: %s", o->path, strerror(errno));
    if (stat(o->path, &old) == 0) {
        if (fchown(file, (uid_t)-1, old.st_gid) != 0)
            fail(STATUS_CANNOT_CREATE, "%s: its group cannot be kept: %s", o->path, strerror(errno));
        if (fchmod(file, old.st_mode & 07777) != 0)
            fail(STATUS_CANNOT_CREATE, "%s: its mode cannot be kept: %s", o->path, strerror(errno));
    }
    int failed = (o->file && ferror(o->file)) || fsync(file) != 0;
    if (failed) fail(STATUS_IO, "%s: %s", o->path, strerror(errno));
    close(file);
    if (o->file && fclose(o->file) != 0) fail(STATUS_IO, "%s: %s", o->path, strerror(errno));
}

static void give_back_output(output *o) {
    if (o->name) no_litter(o->name);
    free(o->name);
    free(o->path);
}

void end_output(output *o) {
    if (o->file == stdout) {
        if (fflush(stdout) != 0 || ferror(stdout)) fail(STATUS_IO, "the answer cannot be written");
    } else {
        write_through(o);
        if (rename(o->name, o->path) != 0) fail(STATUS_CANNOT_CREATE, "%s: %s", o->path, strerror(errno));
        sync_folder(o->path);
    }
    give_back_output(o);
}

/* link() gives a name only where it is free. Where a file system has no links, a look before the rename must do. */
void end_output_if_free(output *o) {
    write_through(o);
    int linked = link(o->name, o->path) == 0;
    if (!linked && errno != EEXIST && !file_exists(o->path)) linked = rename(o->name, o->path) == 0;
    else if (linked) unlink(o->name);
    if (!linked) fail(STATUS_CANNOT_CREATE, "%s: %s", o->path, file_exists(o->path) ? "is there" : strerror(errno));
    sync_folder(o->path);
    give_back_output(o);
}
