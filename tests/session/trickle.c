/* Stands before the C library's read and write. Every other read is interrupted, and the others move few bytes, as every write does.
   With TRICKLE_FAILS_AFTER one read fails, after so many bytes; with TRICKLE_INTERRUPTED_AFTER a write to standard output is interrupted. */
#define _GNU_SOURCE
#include <errno.h>
#include <stdlib.h>
#include <sys/syscall.h>
#include <unistd.h>

/* How many bytes a call moves, of so many at most. */
static size_t few(size_t call, size_t most, size_t asked) {
    const size_t count = 1 + call % most;
    return asked < count ? asked : count;
}

/* How many bytes are left of those that a variable says, at most so many. */
static size_t left(const char *variable, size_t moved, size_t most) {
    const char *const said = getenv(variable);
    const size_t rest = said == NULL ? most : strtoul(said, NULL, 10) - moved;
    return rest < most ? rest : most;
}

ssize_t read(int file, void *to, size_t asked) {
    static size_t calls, moved;
    static int failed;
    if (calls++ % 2 == 0) {
        errno = EINTR;
        return -1;
    }
    size_t count = few(calls / 2, 97, asked);
    if (!failed)
        count = left("TRICKLE_FAILS_AFTER", moved, count);
    if (count == 0) {
        failed = 1;
        errno = EIO;
        return -1;
    }
    const long got = syscall(SYS_read, file, to, count);
    if (got > 0)
        moved += (size_t)got;
    return got;
}

ssize_t write(int file, const void *from, size_t asked) {
    static size_t calls, moved;
    static int interrupted;
    size_t count = few(calls++, 1009, asked);
    if (file == STDOUT_FILENO && !interrupted)
        count = left("TRICKLE_INTERRUPTED_AFTER", moved, count);
    if (count == 0) {
        interrupted = 1;
        errno = EINTR;
        return -1;
    }
    const long put = syscall(SYS_write, file, from, count);
    if (put > 0 && file == STDOUT_FILENO)
        moved += (size_t)put;
    return put;
}
