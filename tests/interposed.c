/* Makes calls of the system fail or fall short; to be loaded before the C library.

   Calls of open, fsync and rename, and of read and write on what was opened, are counted from 1. FAILING_CALL is the
   number of the one that fails; SHORTEST_CALLS is how many bytes a read or write moves at most, on standard output too;
   where INTERRUPTED_CALLS is 1, a signal interrupts each second call of open, read and write, on standard output too,
   which is not counted. 0 is none. */
#define _GNU_SOURCE
#include <dlfcn.h>
#include <errno.h>
#include <fcntl.h>
#include <stdarg.h>
#include <stdio.h>
#include <stdlib.h>
#include <unistd.h>

static long count;

static long told(const char *name) {
    const char *given = getenv(name);
    return given ? atol(given) : 0;
}

static int fails(void) {
    if (++count != told("FAILING_CALL")) return 0;
    errno = EIO;
    return 1;
}

static int is_interrupted(void) {
    static int turn;
    if (!told("INTERRUPTED_CALLS")) return 0;
    turn = !turn;
    errno = EINTR;
    return turn;
}

static size_t shortened(size_t bytes) {
    size_t most = told("SHORTEST_CALLS");
    return most && most < bytes ? most : bytes;
}

#define REAL(name, ...) \
    static __typeof__(name) *real; \
    if (!real) real = (__typeof__(name) *)dlsym(RTLD_NEXT, #name); \
    return real(__VA_ARGS__)

/* A call that opens a file: these are its arguments and their types, up to the flags; a mode follows where it creates. */
#define OPENS(name, given, ...) \
    int name(given, int flags, ...) { \
        va_list rest; \
        va_start(rest, flags); \
        mode_t mode = flags & O_CREAT ? va_arg(rest, mode_t) : 0; \
        va_end(rest); \
        if (is_interrupted() || fails()) return -1; \
        REAL(name, __VA_ARGS__, flags, mode); \
    }
#define IN_FOLDER int folder, const char *path

OPENS(open, const char *path, path)
OPENS(open64, const char *path, path)
OPENS(openat, IN_FOLDER, folder, path)

ssize_t read(int file, void *into, size_t bytes) {
    if (is_interrupted() || (file > 2 && fails())) return -1;
    REAL(read, file, into, shortened(bytes));
}

ssize_t write(int file, const void *from, size_t bytes) {
    if (is_interrupted() || (file > 2 && fails())) return -1;
    REAL(write, file, from, shortened(bytes));
}

int fsync(int file) {
    if (fails()) return -1;
    REAL(fsync, file);
}

int rename(const char *from, const char *to) {
    if (fails()) return -1;
    REAL(rename, from, to);
}
