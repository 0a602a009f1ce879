/* Faults for the tests of the tool, put before the C library by LD_PRELOAD. PROWCURL_FAULT says which one; N counts,
 * from 1, the calls that change a file, and for full and short the writes among them.
 *   kill:N    the process is killed at its N-th call, a write after its first half
 *   stop:N    the process gets a SIGTERM before its N-th call
 *   full:N    the N-th write finds room for its first half alone, and every later one for nothing
 *   short:N   the N-th write writes its first half, and says so
 *   fails:N   the N-th call fails with EIO
 *   gone:N    so does every call from the N-th on
 *   folder:   no folder can be written through to the disk: EINVAL, as in some network folders
 *   count:F   the number of the calls is written into the file F at the end
 *   record:F  every call is written into the file F, with its bytes; store.py reads it
 * What stdio writes does not come by here: the C library does not call itself by name. Programs that the tool starts go
 * without faults. */
#define _GNU_SOURCE
#include <dlfcn.h>
#include <errno.h>
#include <fcntl.h>
#include <signal.h>
#include <stdarg.h>
#include <stdio.h>
#include <stdlib.h>
#include <string.h>
#include <sys/stat.h>
#include <unistd.h>

#define REAL(name, ...) (((__typeof__(&name))dlsym(RTLD_NEXT, #name))(__VA_ARGS__))

typedef enum { NONE, KILL, STOP, FULL, SHORT, FAILS, GONE, FOLDER, COUNT, RECORD } mode;

static struct {
    mode mode;
    long number, calls, writes;
    char *file;
    int record;
} fault;

__attribute__((constructor)) static void begin(void) {
    static const char *const names[] = { "", "kill:", "stop:", "full:", "short:", "fails:", "gone:", "folder:",
                                         "count:", "record:" };
    const char *asked = getenv("PROWCURL_FAULT");
    for (int i = 1; asked && i <= RECORD; i++) {
        size_t length = strlen(names[i]);
        if (strncmp(asked, names[i], length) != 0) continue;
        fault.mode = (mode)i;
        fault.number = atol(asked + length);
        fault.file = strdup(asked + length);
    }
    if (fault.mode == RECORD) fault.record = REAL(open, fault.file, O_WRONLY | O_CREAT | O_APPEND | O_CLOEXEC, 0600);
    unsetenv("LD_PRELOAD");
    unsetenv("PROWCURL_FAULT");
}

__attribute__((destructor)) static void end(void) {
    FILE *file = fault.mode == COUNT ? fopen(fault.file, "w") : NULL;
    if (file) fprintf(file, "%ld", fault.calls), fclose(file);
}

static int fails_with(int error) {
    errno = error;
    return -1;
}

/* 1 where this call is to fail. A write that is to be killed or cut has its own turn before. */
static int comes_to_nothing(void) {
    long call = ++fault.calls;
    if (fault.mode == KILL && call == fault.number) raise(SIGKILL);
    if (fault.mode == STOP && call == fault.number) raise(SIGTERM);
    return (fault.mode == FAILS && call == fault.number) || (fault.mode == GONE && call >= fault.number);
}

/* One line for a call: what it does, to which inode, with which numbers, and the name. */
static void note(const char *what, int file, long long at, size_t length, const char *name) {
    struct stat now = { 0 };
    if (fault.mode != RECORD) return;
    if (file >= 0) fstat(file, &now);
    dprintf(fault.record, "%s %lu %lld %zu %s\n", what, (unsigned long)now.st_ino, at, length, name);
}

typedef ssize_t put(int file, const void *bytes, size_t length, off64_t at);

static ssize_t put_at(int file, const void *bytes, size_t length, off64_t at) {
    return REAL(pwrite64, file, bytes, length, at);
}
static ssize_t put_here(int file, const void *bytes, size_t length, off64_t at) {
    (void)at;
    return REAL(write, file, bytes, length);
}

static ssize_t write_with_fault(put *real, int file, const void *bytes, size_t length, off64_t at) {
    long count = ++fault.writes;
    if (fault.mode == KILL && fault.calls + 1 == fault.number) real(file, bytes, length / 2, at);
    if (comes_to_nothing()) return fails_with(EIO);
    if ((fault.mode == FULL || fault.mode == SHORT) && count == fault.number && length > 1)
        return real(file, bytes, length / 2, at);
    if (fault.mode == FULL && count >= fault.number) return fails_with(ENOSPC);
    ssize_t done = real(file, bytes, length, at);
    if (done > 0 && fault.mode == RECORD) {
        note("write", file, at, (size_t)done, "");
        (void)!REAL(write, fault.record, bytes, (size_t)done);
    }
    return done;
}

ssize_t pwrite(int file, const void *bytes, size_t length, off_t at) {
    return write_with_fault(put_at, file, bytes, length, at);
}
ssize_t pwrite64(int file, const void *bytes, size_t length, off64_t at) {
    return write_with_fault(put_at, file, bytes, length, at);
}
ssize_t write(int file, const void *bytes, size_t length) {
    if (file <= 2) return REAL(write, file, bytes, length);
    return write_with_fault(put_here, file, bytes, length, REAL(lseek64, file, 0, SEEK_CUR));
}

/* The call, and where it went a line for it. */
#define CALL(real, what, file, at, name) \
    do { \
        if (comes_to_nothing()) return fails_with(EIO); \
        int done = real; \
        if (done == 0) note(what, file, at, 0, name); \
        return done; \
    } while (0)

static int knows_no_sync(int file) {
    struct stat now;
    return fault.mode == FOLDER && fstat(file, &now) == 0 && S_ISDIR(now.st_mode);
}

int fsync(int file) {
    if (knows_no_sync(file)) return fails_with(EINVAL);
    CALL(REAL(fsync, file), "sync", file, 0, "");
}
int fdatasync(int file) {
    if (knows_no_sync(file)) return fails_with(EINVAL);
    CALL(REAL(fdatasync, file), "sync", file, 0, "");
}
int ftruncate(int file, off_t length) { CALL(REAL(ftruncate, file, length), "truncate", file, length, ""); }
int ftruncate64(int file, off64_t length) { CALL(REAL(ftruncate64, file, length), "truncate", file, length, ""); }
int unlink(const char *name) { CALL(REAL(unlink, name), "unlink", -1, 0, name); }

/* Two names: the second on a line of its own. */
#define CALL_NAMES(real, what, from, to) \
    do { \
        if (comes_to_nothing()) return fails_with(EIO); \
        int done = real; \
        if (done == 0) note(what, -1, 0, 0, from), note("to", -1, 0, 0, to); \
        return done; \
    } while (0)

int rename(const char *from, const char *to) { CALL_NAMES(REAL(rename, from, to), "rename", from, to); }
int link(const char *from, const char *to) { CALL_NAMES(REAL(link, from, to), "link", from, to); }

/* A file that is made is no fault's place, but it is recorded. */
static int opened(int (*real)(const char *, int, ...), const char *name, int flags, mode_t mode) {
    int is_new = (flags & O_CREAT) && access(name, F_OK) != 0, file = real(name, flags, mode);
    if (file >= 0 && is_new) note("create", file, 0, 0, name);
    return file;
}

#define OPEN(name) \
    int name(const char *path, int flags, ...) { \
        va_list rest; \
        va_start(rest, flags); \
        mode_t mode = flags & O_CREAT ? va_arg(rest, mode_t) : 0; \
        va_end(rest); \
        return opened((int (*)(const char *, int, ...))dlsym(RTLD_NEXT, #name), path, flags, mode); \
    }
OPEN(open)
OPEN(open64)
