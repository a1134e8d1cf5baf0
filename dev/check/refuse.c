/*
 * Stands before a program (LD_PRELOAD), counts what it asks of the machine, and refuses one of these calls. `dev/check/refuse` uses it.
 *
 * REFUSE=allocation:N, read:N, write:N, report:N or thread:N refuses the Nth allocation, read of standard input, write to standard
 * output, write to standard error, or start of a thread. COUNTS=FILE has the counts written there at the end.
 */
#define _GNU_SOURCE
#include <dlfcn.h>
#include <errno.h>
#include <fcntl.h>
#include <pthread.h>
#include <stdio.h>
#include <stdlib.h>
#include <string.h>
#include <unistd.h>

enum kind { ALLOCATION, READ, WRITE, REPORT, THREAD, KINDS };

static const char *const NAMES[KINDS] = { "allocation", "read", "write", "report", "thread" };
static long counts[KINDS];

/* Counts this call, and says whether it is the one to refuse. */
static int is_refused(enum kind kind)
{
    const char *wanted = getenv("REFUSE");
    size_t length = strlen(NAMES[kind]);

    counts[kind]++;
    return wanted != NULL && strncmp(wanted, NAMES[kind], length) == 0 && wanted[length] == ':'
        && atol(wanted + length + 1) == counts[kind];
}

void *malloc(size_t size)
{
    static void *(*next)(size_t);

    if (next == NULL)
        next = (void *(*)(size_t))dlsym(RTLD_NEXT, "malloc");
    return is_refused(ALLOCATION) ? NULL : next(size);
}

void *realloc(void *old, size_t size)
{
    static void *(*next)(void *, size_t);

    if (next == NULL)
        next = (void *(*)(void *, size_t))dlsym(RTLD_NEXT, "realloc");
    return is_refused(ALLOCATION) ? NULL : next(old, size);
}

ssize_t read(int file, void *bytes, size_t size)
{
    static ssize_t (*next)(int, void *, size_t);

    if (next == NULL)
        next = (ssize_t (*)(int, void *, size_t))dlsym(RTLD_NEXT, "read");
    if (file == 0 && is_refused(READ)) {
        errno = EIO;
        return -1;
    }
    return next(file, bytes, size);
}

ssize_t write(int file, const void *bytes, size_t size)
{
    static ssize_t (*next)(int, const void *, size_t);

    if (next == NULL)
        next = (ssize_t (*)(int, const void *, size_t))dlsym(RTLD_NEXT, "write");
    if ((file == 1 && is_refused(WRITE)) || (file == 2 && is_refused(REPORT))) {
        errno = EIO;
        return -1;
    }
    return next(file, bytes, size);
}

int pthread_create(pthread_t *thread, const pthread_attr_t *how, void *(*body)(void *), void *given)
{
    static int (*next)(pthread_t *, const pthread_attr_t *, void *(*)(void *), void *);

    if (next == NULL)
        next = (int (*)(pthread_t *, const pthread_attr_t *, void *(*)(void *), void *))dlsym(RTLD_NEXT, "pthread_create");
    return is_refused(THREAD) ? EAGAIN : next(thread, how, body, given);
}

__attribute__((destructor)) static void tell(void)
{
    const char *path = getenv("COUNTS");
    int file = path == NULL ? -1 : open(path, O_WRONLY | O_CREAT | O_TRUNC, 0644);

    if (file >= 0) {
        dprintf(file, "%ld %ld %ld %ld %ld\n", counts[ALLOCATION], counts[READ], counts[WRITE], counts[REPORT], counts[THREAD]);
        close(file);
    }
}

/* A program that may start threads ends by this, and no destructor runs. */
void _exit(int status)
{
    void (*next)(int) = (void (*)(int))dlsym(RTLD_NEXT, "_exit");

    tell();
    next(status);
    __builtin_unreachable();
}
