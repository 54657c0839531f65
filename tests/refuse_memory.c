/* Refuses calls of the program that it is loaded into by LD_PRELOAD, for tests/refused_memory.py.
 *
 * REFUSE_KIND tells which calls are counted: memory (malloc, calloc, realloc, posix_memalign,
 * aligned_alloc and memalign), open, read or write. They are counted in all threads together, from
 * the program's main on. REFUSE_CALL is the number of the call that is refused; where REFUSE_LATER
 * is there, each later one is refused too. At a refusal one byte is written to REFUSE_TO, a file
 * descriptor, so that the caller knows that there was such a call. What is called before main is
 * the loader's and the C library's own start, and passes. */
#define _GNU_SOURCE
#include <dlfcn.h>
#include <errno.h>
#include <fcntl.h>
#include <stdarg.h>
#include <stdatomic.h>
#include <stdlib.h>
#include <string.h>
#include <sys/syscall.h>
#include <unistd.h>

extern void *__libc_malloc(size_t);
extern void *__libc_calloc(size_t, size_t);
extern void *__libc_realloc(void *, size_t);
extern void *__libc_memalign(size_t, size_t);

enum kind { MEMORY, OPEN, READ, WRITE };

static atomic_long calls;
static long refused_call; /* 0 while nothing is counted */
static enum kind counted;
static int is_later_refused, report_to;
static int (*own_main)(int, char **, char **);

static int is_refused(enum kind kind, int error)
{
    if (refused_call == 0 || kind != counted)
        return 0;
    long call = atomic_fetch_add(&calls, 1) + 1;
    if (call != refused_call && !(is_later_refused && call > refused_call))
        return 0;
    if (syscall(SYS_write, report_to, "r", 1) != 1)
        _exit(99);
    errno = error;
    return 1;
}

int open(const char *path, int flags, ...)
{
    va_list more;
    va_start(more, flags);
    int mode = flags & (O_CREAT | O_TMPFILE) ? va_arg(more, int) : 0;
    va_end(more);
    return is_refused(OPEN, EACCES) ? -1 : (int)syscall(SYS_openat, AT_FDCWD, path, flags, mode);
}

ssize_t read(int file, void *to, size_t size)
{
    return is_refused(READ, EIO) ? -1 : syscall(SYS_read, file, to, size);
}

ssize_t write(int file, const void *from, size_t size)
{
    return is_refused(WRITE, EIO) ? -1 : syscall(SYS_write, file, from, size);
}

void *malloc(size_t size)
{
    return is_refused(MEMORY, ENOMEM) ? NULL : __libc_malloc(size);
}

void *calloc(size_t count, size_t size)
{
    return is_refused(MEMORY, ENOMEM) ? NULL : __libc_calloc(count, size);
}

void *realloc(void *old, size_t size)
{
    return is_refused(MEMORY, ENOMEM) ? NULL : __libc_realloc(old, size);
}

void *memalign(size_t alignment, size_t size)
{
    return is_refused(MEMORY, ENOMEM) ? NULL : __libc_memalign(alignment, size);
}

void *aligned_alloc(size_t alignment, size_t size)
{
    return memalign(alignment, size);
}

int posix_memalign(void **place, size_t alignment, size_t size)
{
    void *found = memalign(alignment, size);
    if (found != NULL)
        *place = found;
    return found != NULL ? 0 : ENOMEM;
}

static int counted_main(int count, char **words, char **environment)
{
    const char *to = getenv("REFUSE_TO"), *call = getenv("REFUSE_CALL"), *kind = getenv("REFUSE_KIND");
    static const char *const kinds[] = {"memory", "open", "read", "write"};
    for (int at = MEMORY; kind != NULL && at <= WRITE; at++)
        if (strcmp(kind, kinds[at]) == 0)
            counted = at;
    report_to = to != NULL ? atoi(to) : 2;
    is_later_refused = getenv("REFUSE_LATER") != NULL;
    refused_call = call != NULL ? atol(call) : 0;
    return own_main(count, words, environment);
}

int __libc_start_main(int (*main)(int, char **, char **), int count, char **words,
                      void (*init)(void), void (*fini)(void), void (*unload)(void), void *stack)
{
    int (*start)(int (*)(int, char **, char **), int, char **, void (*)(void), void (*)(void),
                 void (*)(void), void *) = dlsym(RTLD_NEXT, "__libc_start_main");
    own_main = main;
    return start(counted_main, count, words, init, fini, unload, stack);
}
