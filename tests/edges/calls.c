// A read and a write that do as the environment says on one descriptor, for a program that is started with this library preloaded.
//   EDGE_FD      the descriptor: 0, 1 or 2
//   EDGE_MOST    a call moves at most so many bytes
//   EDGE_ERRNO   the error of the calls that fail: EDGE_TIMES of them, after EDGE_AFTER that do not
#define _GNU_SOURCE
#include <errno.h>
#include <limits.h>
#include <stdlib.h>
#include <sys/syscall.h>
#include <unistd.h>

static long setting(const char *name, long otherwise)
{
    const char *text = getenv(name);
    return text ? atol(text) : otherwise;
}

static ssize_t moved(long number, int fd, void *buf, size_t n)
{
    static long calls;
    if (fd == setting("EDGE_FD", -1)) {
        long past = calls++ - setting("EDGE_AFTER", 0);
        if (past >= 0 && past < setting("EDGE_TIMES", 0)) {
            errno = setting("EDGE_ERRNO", 0);
            return -1;
        }
        size_t most = setting("EDGE_MOST", LONG_MAX);
        n = n < most ? n : most;
    }
    return syscall(number, fd, buf, n);
}

ssize_t read(int fd, void *buf, size_t n)
{
    return moved(SYS_read, fd, buf, n);
}

ssize_t write(int fd, const void *buf, size_t n)
{
    return moved(SYS_write, fd, (void *)buf, n);
}
