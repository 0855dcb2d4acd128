/* input_output.c: whole files in, all bytes out. */
#include "input_output.h"

#include <errno.h>
#include <fcntl.h>
#include <unistd.h>

int open_input(const char *path)
{
    int descriptor;
    do
        descriptor = open(path, O_RDONLY | O_NOCTTY | O_CLOEXEC);
    while (descriptor < 0 && errno == EINTR);
    return descriptor;
}

int read_all(int descriptor, uint8_t *bytes, size_t room, size_t *size)
{
    *size = 0;
    while (*size < room) {
        ssize_t count = read(descriptor, bytes + *size, room - *size);
        if (count == 0)
            break;
        if (count > 0)
            *size += (size_t)count;
        else if (errno != EINTR)
            return 0;
    }
    return 1;
}

int write_all(int descriptor, const void *bytes, size_t size)
{
    const uint8_t *rest = bytes;
    while (size > 0) {
        ssize_t count = write(descriptor, rest, size);
        if (count > 0) {
            rest += count;
            size -= (size_t)count;
        } else if (count == 0) {
            /* A device that takes nothing and names no error would be asked for ever. */
            errno = ENOSPC;
            return 0;
        } else if (errno != EINTR) {
            return 0;
        }
    }
    return 1;
}

int write_output(const void *bytes, size_t size)
{
    if (!write_all(STDOUT_FILENO, bytes, size))
        return 0;
    /* A close that a signal interrupts has closed the descriptor: it is not tried again. */
    return close(STDOUT_FILENO) == 0 || errno == EINTR;
}
