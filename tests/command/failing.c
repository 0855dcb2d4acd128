// An open, a close and a malloc that fail as the environment says, for a program that is started with this library preloaded.
//   FAIL_OPEN, FAIL_CLOSE   the error of the calls that fail: of open the first FAIL_TIMES, of close those on descriptor FAIL_FD
//   FAIL_MALLOC             a malloc of so many bytes or more fails
#define _GNU_SOURCE
#include <dlfcn.h>
#include <errno.h>
#include <fcntl.h>
#include <stdlib.h>
#include <sys/syscall.h>
#include <unistd.h>

static long setting(const char *name, long otherwise)
{
    const char *text = getenv(name);
    return text ? atol(text) : otherwise;
}

int open(const char *path, int flags, ...)
{
    static long calls;
    if (calls++ < setting("FAIL_TIMES", 0)) {
        errno = setting("FAIL_OPEN", 0);
        return -1;
    }
    return syscall(SYS_openat, AT_FDCWD, path, flags, 0);
}

// What fails has closed the descriptor all the same.
int close(int fd)
{
    int closed = syscall(SYS_close, fd);
    if (fd != setting("FAIL_FD", -1) || closed != 0)
        return closed;
    errno = setting("FAIL_CLOSE", 0);
    return -1;
}

void *malloc(size_t size)
{
    static void *(*next)(size_t);
    if (next == NULL)
        *(void **)&next = dlsym(RTLD_NEXT, "malloc");
    if (size < (size_t)setting("FAIL_MALLOC", -1))
        return next(size);
    errno = ENOMEM;
    return NULL;
}
