/* An allocator that refuses requests: as many in a row as TIMES says, or one, from the one on that REFUSED numbers, or none where that is 0.
   They are counted from 1 behind the first bytes that the program reads from its input, or, where COUNTED is `listening`, from when it
   first waits for a connection. LD_PRELOAD puts it before the C library's. File descriptor 3 is told of each request that is refused,
   and how many were counted where the program ends. */
#define _GNU_SOURCE
#include <dlfcn.h>
#include <errno.h>
#include <stdatomic.h>
#include <stdio.h>
#include <stdlib.h>
#include <string.h>
#include <sys/socket.h>
#include <sys/syscall.h>
#include <unistd.h>

enum { TOLD = 3 };

extern void *__libc_malloc(size_t);
extern void *__libc_calloc(size_t, size_t);
extern void *__libc_realloc(void *, size_t);
extern ssize_t __write(int, const void *, size_t);

static long first, times;
static int from_listening;
static atomic_long seen;
static atomic_int counts;

static long number_in(const char *name, long otherwise)
{
    const char *text = getenv(name);
    return text ? atol(text) : otherwise;
}

__attribute__((constructor)) static void begin(void)
{
    const char *counted = getenv("COUNTED");
    first = number_in("REFUSED", 0);
    times = number_in("TIMES", 1);
    from_listening = counted && !strcmp(counted, "listening");
}

__attribute__((destructor)) static void tell_count(void)
{
    char line[40];
    int length = snprintf(line, sizeof line, "counted %ld\n", atomic_load(&seen));
    __write(TOLD, line, length);
}

static int is_refused(void)
{
    if (!atomic_load(&counts))
        return 0;
    long number = atomic_fetch_add(&seen, 1) + 1;
    if (!first || number < first || number >= first + times)
        return 0;
    __write(TOLD, "refused\n", 8);
    errno = ENOMEM;
    return 1;
}

/* The function of this name that stands behind this library. */
static void *next_of(const char *name)
{
    return dlsym(RTLD_NEXT, name);
}

ssize_t read(int file, void *bytes, size_t most)
{
    static ssize_t (*next)(int, void *, size_t);
    if (!next)
        next = (ssize_t (*)(int, void *, size_t))next_of("read");
    ssize_t got = next(file, bytes, most);
    if (file == STDIN_FILENO && !from_listening)
        atomic_store(&counts, 1);
    return got;
}

int accept4(int file, struct sockaddr *address, socklen_t *length, int flags)
{
    static int (*next)(int, struct sockaddr *, socklen_t *, int);
    if (!next)
        next = (int (*)(int, struct sockaddr *, socklen_t *, int))next_of("accept4");
    if (from_listening)
        atomic_store(&counts, 1);
    return next(file, address, length, flags);
}

/* The program may end so, with no destructor run. */
void _exit(int status)
{
    tell_count();
    for (;;)
        syscall(SYS_exit_group, status);
}

void *malloc(size_t size)
{
    return is_refused() ? NULL : __libc_malloc(size);
}

void *calloc(size_t count, size_t size)
{
    return is_refused() ? NULL : __libc_calloc(count, size);
}

void *realloc(void *old, size_t size)
{
    return is_refused() ? NULL : __libc_realloc(old, size);
}
