// Makes one call of a program fail: the FAULT_AT-th, from 1, of those that change folders and files, in all threads
// together. It is loaded before the C library (LD_PRELOAD). Such are mkdir, open where it may make or cut a file, write
// and pwrite but of standard output and standard error, ftruncate, fsync, fdatasync and unlink; with FAULT_KIND=read
// instead pread, open of a file for reading, and getdents64. The file FAULT_LOG gets one line: the call and the path, or
// how many calls there were where none failed. The call fails with EIO and does nothing.
#define _GNU_SOURCE
#include <dlfcn.h>
#include <errno.h>
#include <fcntl.h>
#include <limits.h>
#include <stdarg.h>
#include <stdatomic.h>
#include <stdio.h>
#include <stdlib.h>
#include <string.h>
#include <sys/types.h>
#include <unistd.h>

static atomic_long calls;
static long at;
static int reads, told;

__attribute__((constructor)) static void begin(void) {
    const char *number = getenv("FAULT_AT"), *kind = getenv("FAULT_KIND");
    at = number ? atol(number) : 0;
    reads = kind && !strcmp(kind, "read");
}

static void tell(const char *call, const char *path) {
    FILE *log = getenv("FAULT_LOG") ? fopen(getenv("FAULT_LOG"), "w") : NULL;
    if (log) {
        fprintf(log, "%s %s\n", call, path);
        fclose(log);
    }
    told = 1;
}

static int fails(int kind, const char *call, const char *path) {
    if (kind != reads || atomic_fetch_add(&calls, 1) + 1 != at) return 0;
    tell(call, path);
    errno = EIO;
    return 1;
}

static int fails_of(int kind, const char *call, int fd) {
    char link[64], path[PATH_MAX] = "";
    snprintf(link, sizeof link, "/proc/self/fd/%d", fd);
    ssize_t size = readlink(link, path, sizeof path - 1);
    path[size < 0 ? 0 : size] = 0;
    return fails(kind, call, path);
}

#define REAL(name) ((__typeof__(&name))dlsym(RTLD_NEXT, #name))

int mkdir(const char *path, mode_t mode) {
    return fails(0, "mkdir", path) ? -1 : REAL(mkdir)(path, mode);
}

int unlink(const char *path) {
    return fails(0, "unlink", path) ? -1 : REAL(unlink)(path);
}

static int kind_of(int flags) {
    return flags & (O_CREAT | O_TRUNC) ? 0 : (flags & O_ACCMODE) == O_RDONLY ? 1 : 2;
}

#define MODE(flags) \
    mode_t mode = 0; \
    if ((flags) & O_CREAT) { \
        va_list rest; \
        va_start(rest, flags); \
        mode = va_arg(rest, mode_t); \
        va_end(rest); \
    }

// A folder is opened so that its names are read.
static const char *name_of(int flags) {
    return flags & O_DIRECTORY ? "readdir" : "open";
}

int open(const char *path, int flags, ...) {
    MODE(flags)
    return fails(kind_of(flags), name_of(flags), path) ? -1 : REAL(open)(path, flags, mode);
}

int openat(int folder, const char *path, int flags, ...) {
    MODE(flags)
    return fails(kind_of(flags), name_of(flags), path) ? -1 : REAL(openat)(folder, path, flags, mode);
}

ssize_t write(int fd, const void *bytes, size_t size) {
    return fd > 2 && fails_of(0, "write", fd) ? -1 : REAL(write)(fd, bytes, size);
}

ssize_t pwrite(int fd, const void *bytes, size_t size, off_t place) {
    return fails_of(0, "write", fd) ? -1 : REAL(pwrite)(fd, bytes, size, place);
}

ssize_t pread(int fd, void *bytes, size_t size, off_t place) {
    return fails_of(1, "read", fd) ? -1 : REAL(pread)(fd, bytes, size, place);
}

ssize_t getdents64(int fd, void *bytes, size_t size) {
    return fails_of(1, "readdir", fd) ? -1 : REAL(getdents64)(fd, bytes, size);
}

int ftruncate(int fd, off_t size) {
    return fails_of(0, "ftruncate", fd) ? -1 : REAL(ftruncate)(fd, size);
}

int fsync(int fd) {
    return fails_of(0, "fsync", fd) ? -1 : REAL(fsync)(fd);
}

int fdatasync(int fd) {
    return fails_of(0, "fdatasync", fd) ? -1 : REAL(fdatasync)(fd);
}

void _exit(int status) {
    char text[32];
    snprintf(text, sizeof text, "%ld", (long)calls);
    if (!told) tell("calls", text);
    REAL(_exit)(status);
    __builtin_unreachable();
}
