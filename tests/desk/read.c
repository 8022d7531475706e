// A read(2) that stands before the C library's (LD_PRELOAD): it gives at most READ_MOST bytes at a
// time, and fails once with READ_ERRNO where READ_FAILS bytes have been given. Then it goes on.
#define _DEFAULT_SOURCE
#include <errno.h>
#include <stdlib.h>
#include <sys/syscall.h>
#include <unistd.h>

static size_t number(const char *name) { return strtoull(getenv(name), NULL, 10); }

ssize_t read(int fd, void *to, size_t room) {
    static size_t given;
    static int failed;
    size_t most = number("READ_MOST"), fails = number("READ_FAILS");
    if (given == fails && !failed) {
        failed = 1;
        errno = (int)number("READ_ERRNO");
        return -1;
    }
    if (room > most) room = most;
    if (given < fails && room > fails - given) room = fails - given;
    ssize_t got = syscall(SYS_read, fd, to, room);
    if (got > 0) given += (size_t)got;
    return got;
}
