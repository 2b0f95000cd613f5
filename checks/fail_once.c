// A library that is loaded before the C library, so that one call of a program fails. By the
// variables FAIL_KIND (`system`: calls of the system, or `memory`: those that take memory),
// FAIL_AT (which call, from 1 on; 0 for none), FAIL_HOW (the number of the error; or 0 where a
// call that moves bytes is to move one; or below 0 the number of a signal that the program gets
// before the call: it ends there, or is stopped until it is told to go on) and FAIL_COUNT (a file
// that gets, at the end of the program, how many such calls it made, a space, and 1 where one of
// them failed or was short).
// The file of FAIL_LOG gets each call that changes files or keeps them, once it went well: its
// name, its file, an offset and how many bytes, with spaces; a tab, a path, a tab, another path, a
// line feed, and so many bytes.
// Of the kind `lock` none fails, but before each of the first FAIL_AT locks the files of the paths
// FAIL_PATH and FAIL_OTHER change names, or the first is removed where there is no second.
#define _GNU_SOURCE
#include <errno.h>
#include <fcntl.h>
#include <signal.h>
#include <stdarg.h>
#include <stdio.h>
#include <stdlib.h>
#include <string.h>
#include <sys/syscall.h>
#include <sys/types.h>
#include <unistd.h>

struct statx;

extern void *__libc_malloc(size_t);
extern void *__libc_calloc(size_t, size_t);
extern void *__libc_realloc(void *, size_t);
extern void *__libc_memalign(size_t, size_t);

static long fail_at, how, count, failed;
static int memory, locks, log_file = -1;

static int is_at(void) {
    if (++count != fail_at) return 0;
    failed = 1;
    if (how < 0) { kill(getpid(), (int)-how); return 0; }
    return 1;
}

static long noted(long result, const char *name, long file, long offset, const void *bytes,
                  const char *path, const char *other) {
    char line[9000];
    long size = bytes ? result : 0;
    if (log_file < 0 || result < 0) return result;
    int length = snprintf(line, sizeof line, "%s %ld %ld %ld\t%s\t%s\n", name, file, offset, size,
                          path, other);
    if (length >= (int)sizeof line || syscall(SYS_write, log_file, line, length) != length) abort();
    if (size && syscall(SYS_write, log_file, bytes, size) != size) abort();
    return result;
}
static long opened(long result, const char *path, int flags) {
    // Its offset tells whether the file may be made here, by 1, and whether it is emptied, by 2.
    long made = (flags & O_CREAT ? 1 : 0) + (flags & O_TRUNC ? 2 : 0);
    return noted(result, "open", result, made, NULL, path, "");
}
static long kept(long result, int file) {
    return noted(result, "sync", file, 0, NULL, "", "");
}
static long cut(long result, int file, off_t length) {
    return noted(result, "cut", file, length, NULL, "", "");
}
static long written(long result, int file, const void *bytes) {
    off_t end = log_file < 0 ? 0 : syscall(SYS_lseek, file, 0, SEEK_CUR);
    return noted(result, "write", file, end - result, bytes, "", "");
}

// What is called before this is not the program's.
__attribute__((constructor)) static void begin(void) {
    const char *kind = getenv("FAIL_KIND"), *at = getenv("FAIL_AT"), *error = getenv("FAIL_HOW");
    memory = kind && !strcmp(kind, "memory");
    locks = kind && !strcmp(kind, "lock");
    how = error ? atol(error) : 0;
    count = failed = 0;
    fail_at = at ? atol(at) : 0;
    const char *log = getenv("FAIL_LOG");
    if (log) log_file = (int)syscall(SYS_open, log, O_WRONLY | O_CREAT | O_TRUNC, 0600);
}

__attribute__((destructor)) static void end(void) {
    const char *path = getenv("FAIL_COUNT");
    char line[64];
    int file = path ? (int)syscall(SYS_open, path, O_WRONLY | O_CREAT | O_TRUNC, 0600) : -1;
    if (file < 0) return;
    int length = snprintf(line, sizeof line, "%ld %ld\n", count, failed);
    if (syscall(SYS_write, file, line, length) != length) abort();
    syscall(SYS_close, file);
}

// A call that moves no bytes cannot be short.
#define CALL(call)                                                    \
    do {                                                              \
        if (!memory && !locks && is_at()) {                           \
            if (how) { errno = (int)how; return -1; }                 \
            failed = 0;                                               \
        }                                                             \
        return call;                                                  \
    } while (0)

#define MOVE(length, call)                                            \
    do {                                                              \
        if (!memory && !locks && is_at()) {                           \
            if (how) { errno = (int)how; return -1; }                 \
            if (length > 1) length = 1; else failed = 0;              \
        }                                                             \
        return call;                                                  \
    } while (0)

ssize_t read(int file, void *bytes, size_t length) {
    MOVE(length, syscall(SYS_read, file, bytes, length));
}
ssize_t write(int file, const void *bytes, size_t length) {
    MOVE(length, written(syscall(SYS_write, file, bytes, length), file, bytes));
}
ssize_t __write(int file, const void *bytes, size_t length) {
    MOVE(length, written(syscall(SYS_write, file, bytes, length), file, bytes));
}
ssize_t pread(int file, void *bytes, size_t length, off_t from) {
    MOVE(length, syscall(SYS_pread64, file, bytes, length, from));
}
ssize_t pread64(int file, void *bytes, size_t length, off64_t from) {
    MOVE(length, syscall(SYS_pread64, file, bytes, length, from));
}
ssize_t pwrite(int file, const void *bytes, size_t length, off_t to) {
    MOVE(length, noted(syscall(SYS_pwrite64, file, bytes, length, to), "write", file, to, bytes,
                       "", ""));
}
ssize_t pwrite64(int file, const void *bytes, size_t length, off64_t to) {
    MOVE(length, noted(syscall(SYS_pwrite64, file, bytes, length, to), "write", file, to, bytes,
                       "", ""));
}

static int mode_of(int flags, va_list more) {
    return flags & (O_CREAT | O_TMPFILE) ? va_arg(more, int) : 0;
}
int open(const char *path, int flags, ...) {
    va_list more;
    va_start(more, flags);
    int mode = mode_of(flags, more);
    va_end(more);
    CALL(opened(syscall(SYS_open, path, flags, mode), path, flags));
}
int open64(const char *path, int flags, ...) {
    va_list more;
    va_start(more, flags);
    int mode = mode_of(flags, more);
    va_end(more);
    CALL(opened(syscall(SYS_open, path, flags, mode), path, flags));
}
int close(int file) { CALL(syscall(SYS_close, file)); }
off_t lseek(int file, off_t offset, int whence) {
    CALL(syscall(SYS_lseek, file, offset, whence));
}
off64_t lseek64(int file, off64_t offset, int whence) {
    CALL(syscall(SYS_lseek, file, offset, whence));
}
int fsync(int file) { CALL(kept(syscall(SYS_fsync, file), file)); }
int fdatasync(int file) { CALL(kept(syscall(SYS_fdatasync, file), file)); }
int ftruncate(int file, off_t length) {
    CALL(cut(syscall(SYS_ftruncate, file, length), file, length));
}
int ftruncate64(int file, off64_t length) {
    CALL(cut(syscall(SYS_ftruncate, file, length), file, length));
}
// What another program may do between the opening of a file and its lock.
static void change_path(void) {
    const char *path = getenv("FAIL_PATH"), *other = getenv("FAIL_OTHER");
    char aside[4096];
    if (!path || !other) { if (!path || syscall(SYS_unlink, path)) abort(); return; }
    int length = snprintf(aside, sizeof aside, "%s.kept", path);
    if (length < 0 || (size_t)length >= sizeof aside) abort();
    if (syscall(SYS_rename, path, aside) || syscall(SYS_rename, other, path)) abort();
    if (syscall(SYS_rename, aside, other)) abort();
}
int flock(int file, int operation) {
    if (locks && count < fail_at) { count++; failed = 1; change_path(); }
    CALL(syscall(SYS_flock, file, operation));
}
int link(const char *from, const char *to) {
    CALL(noted(syscall(SYS_link, from, to), "link", -1, 0, NULL, from, to));
}
int rename(const char *from, const char *to) {
    CALL(noted(syscall(SYS_rename, from, to), "rename", -1, 0, NULL, from, to));
}
int unlink(const char *path) {
    CALL(noted(syscall(SYS_unlink, path), "unlink", -1, 0, NULL, path, ""));
}
int fchmod(int file, mode_t mode) { CALL(syscall(SYS_fchmod, file, mode)); }
ssize_t getdents64(int file, void *entries, size_t length) {
    if (!memory && !locks && is_at()) {
        // ENOENT says that the folder was taken away, and so has no more entries: that is no fault.
        if (how && how != ENOENT) { errno = (int)how; return -1; }
        failed = 0;
    }
    return syscall(SYS_getdents64, file, entries, length);
}
int statx(int folder, const char *path, int flags, unsigned mask, struct statx *found) {
    CALL(syscall(SYS_statx, folder, path, flags, mask, found));
}

#define REFUSE()                                                      \
    do {                                                              \
        if (memory && is_at()) { errno = ENOMEM; return NULL; }       \
    } while (0)

void *malloc(size_t size) {
    REFUSE();
    return __libc_malloc(size);
}
void *calloc(size_t items, size_t size) {
    REFUSE();
    return __libc_calloc(items, size);
}
void *realloc(void *old, size_t size) {
    REFUSE();
    return __libc_realloc(old, size);
}
void *aligned_alloc(size_t alignment, size_t size) {
    REFUSE();
    return __libc_memalign(alignment, size);
}
int posix_memalign(void **taken, size_t alignment, size_t size) {
    if (memory && is_at()) return ENOMEM;
    *taken = __libc_memalign(alignment, size);
    return *taken ? 0 : ENOMEM;
}
