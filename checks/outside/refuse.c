/* Loaded before a program, refuses one of its requests: that for memory of the number in REFUSED, that for a thread of the number in
   NO_THREAD, the read of the number in FAILED_READ or the write of the number in FAILED_WRITE, each counted from 1 over all threads.
   It tells in the file named by TOLD when it did, and in the file named by LEFT where the program ends while a thread that it started
   goes on, or wasn't joined. */
#define _GNU_SOURCE
#include <dlfcn.h>
#include <errno.h>
#include <fcntl.h>
#include <pthread.h>
#include <stdatomic.h>
#include <stdlib.h>
#include <unistd.h>

static atomic_long requests, threads, reads, writes, started, joined;

static void tell(const char *variable)
{
    const char *name = getenv(variable);
    int told = name == NULL ? -1 : open(name, O_WRONLY | O_CREAT, 0644);
    if (told >= 0)
        close(told);
}

/* Counts a request, and says whether it is the one whose number the variable has. */
static int is_refused(const char *variable, atomic_long *count)
{
    const char *number = getenv(variable);
    if (number == NULL || atomic_fetch_add(count, 1) + 1 != atol(number))
        return 0;
    tell("TOLD");
    return 1;
}

void *malloc(size_t size)
{
    static void *(*next)(size_t);
    if (next == NULL)
        next = (void *(*)(size_t))dlsym(RTLD_NEXT, "malloc");
    return is_refused("REFUSED", &requests) ? NULL : next(size);
}

void *realloc(void *old, size_t size)
{
    static void *(*next)(void *, size_t);
    if (next == NULL)
        next = (void *(*)(void *, size_t))dlsym(RTLD_NEXT, "realloc");
    return is_refused("REFUSED", &requests) ? NULL : next(old, size);
}

void *aligned_alloc(size_t align, size_t size)
{
    static void *(*next)(size_t, size_t);
    if (next == NULL)
        next = (void *(*)(size_t, size_t))dlsym(RTLD_NEXT, "aligned_alloc");
    return is_refused("REFUSED", &requests) ? NULL : next(align, size);
}

int posix_memalign(void **made, size_t align, size_t size)
{
    static int (*next)(void **, size_t, size_t);
    if (next == NULL)
        next = (int (*)(void **, size_t, size_t))dlsym(RTLD_NEXT, "posix_memalign");
    return is_refused("REFUSED", &requests) ? ENOMEM : next(made, align, size);
}

int pthread_create(pthread_t *thread, const pthread_attr_t *attributes, void *(*start)(void *), void *argument)
{
    static int (*next)(pthread_t *, const pthread_attr_t *, void *(*)(void *), void *);
    if (next == NULL)
        next = (int (*)(pthread_t *, const pthread_attr_t *, void *(*)(void *), void *))dlsym(RTLD_NEXT, "pthread_create");
    if (is_refused("NO_THREAD", &threads))
        return EAGAIN;
    int failed = next(thread, attributes, start, argument);
    if (!failed)
        atomic_fetch_add(&started, 1);
    return failed;
}

int pthread_join(pthread_t thread, void **result)
{
    static int (*next)(pthread_t, void **);
    if (next == NULL)
        next = (int (*)(pthread_t, void **))dlsym(RTLD_NEXT, "pthread_join");
    int failed = next(thread, result);
    if (!failed)
        atomic_fetch_add(&joined, 1);
    return failed;
}

/* Fails as a broken disk does. */
static ssize_t failed(void)
{
    errno = EIO;
    return -1;
}

ssize_t read(int file, void *into, size_t size)
{
    static ssize_t (*next)(int, void *, size_t);
    if (next == NULL)
        next = (ssize_t (*)(int, void *, size_t))dlsym(RTLD_NEXT, "read");
    return is_refused("FAILED_READ", &reads) ? failed() : next(file, into, size);
}

ssize_t write(int file, const void *from, size_t size)
{
    static ssize_t (*next)(int, const void *, size_t);
    if (next == NULL)
        next = (ssize_t (*)(int, const void *, size_t))dlsym(RTLD_NEXT, "write");
    return is_refused("FAILED_WRITE", &writes) ? failed() : next(file, from, size);
}

__attribute__((destructor)) static void end(void)
{
    if (atomic_load(&started) != atomic_load(&joined))
        tell("LEFT");
}
