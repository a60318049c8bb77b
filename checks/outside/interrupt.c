/* Loaded before a program, interrupts each call in a row, as signals may: each open as often as OPENS says, each read READS times,
   each write WRITES times, and none where that isn't set. Each write that goes on takes half of what it was given. */
#define _GNU_SOURCE
#include <dlfcn.h>
#include <errno.h>
#include <fcntl.h>
#include <stdarg.h>
#include <stdlib.h>
#include <sys/types.h>
#include <unistd.h>

static _Thread_local long opens, reads, writes;

/* Whether this call is one that is interrupted; the next one after the last of a row goes on. */
static int interrupted(const char *setting, long *row)
{
    const char *times = getenv(setting);
    if (times != NULL && *row < atol(times)) {
        ++*row;
        errno = EINTR;
        return 1;
    }
    *row = 0;
    return 0;
}

int open(const char *path, int flags, ...)
{
    static int (*next)(const char *, int, ...);
    va_list rest;
    mode_t mode;
    if (next == NULL)
        next = (int (*)(const char *, int, ...))dlsym(RTLD_NEXT, "open");
    va_start(rest, flags);
    mode = flags & O_CREAT ? va_arg(rest, mode_t) : 0;
    va_end(rest);
    return interrupted("OPENS", &opens) ? -1 : next(path, flags, mode);
}

ssize_t read(int file, void *into, size_t size)
{
    static ssize_t (*next)(int, void *, size_t);
    if (next == NULL)
        next = (ssize_t (*)(int, void *, size_t))dlsym(RTLD_NEXT, "read");
    return interrupted("READS", &reads) ? -1 : next(file, into, size);
}

ssize_t write(int file, const void *from, size_t size)
{
    static ssize_t (*next)(int, const void *, size_t);
    if (next == NULL)
        next = (ssize_t (*)(int, const void *, size_t))dlsym(RTLD_NEXT, "write");
    return interrupted("WRITES", &writes) ? -1 : next(file, from, size > 1 ? size / 2 : size);
}
