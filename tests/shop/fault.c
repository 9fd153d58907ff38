/* A read and a write that are often interrupted, would often block, and move a few bytes at a time. Loaded before the C library's own. */
#include <errno.h>
#include <sys/syscall.h>
#include <unistd.h>

static int turn(void)
{
    static int turns;
    return turns++ % 3;
}

static int refused(void)
{
    switch (turn()) {
    case 0:
        errno = EINTR;
        return 1;
    case 1:
        errno = EAGAIN;
        return 1;
    default:
        return 0;
    }
}

ssize_t read(int fd, void *buf, size_t n)
{
    return refused() ? -1 : syscall(SYS_read, fd, buf, n < 7 ? n : 7);
}

ssize_t write(int fd, const void *buf, size_t n)
{
    return refused() ? -1 : syscall(SYS_write, fd, buf, n < 5 ? n : 5);
}
