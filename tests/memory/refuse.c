/* Refuses one request for memory of the program that it is preloaded into: the one that REFUSE in the environment counts, from 1 on.
   It writes a byte to the file descriptor that REFUSE_TO names when it does. */
#include <errno.h>
#include <stdlib.h>
#include <unistd.h>

extern void *__libc_malloc(size_t);
extern void *__libc_calloc(size_t, size_t);
extern void *__libc_realloc(void *, size_t);
extern void *__libc_memalign(size_t, size_t);

static unsigned long requests, refused;
static int to;

__attribute__((constructor)) static void begin(void)
{
    const char *which = getenv("REFUSE"), *fd = getenv("REFUSE_TO");
    to = fd ? atoi(fd) : 2;
    requests = 0;
    refused = which ? strtoul(which, NULL, 10) : 0;
}

static int refuses(void)
{
    if (refused == 0 || ++requests != refused)
        return 0;
    if (write(to, "x", 1) != 1)
        _exit(99);
    errno = ENOMEM;
    return 1;
}

void *malloc(size_t size)
{
    return refuses() ? NULL : __libc_malloc(size);
}

void *calloc(size_t count, size_t size)
{
    return refuses() ? NULL : __libc_calloc(count, size);
}

void *realloc(void *block, size_t size)
{
    return refuses() ? NULL : __libc_realloc(block, size);
}

void *aligned_alloc(size_t align, size_t size)
{
    return refuses() ? NULL : __libc_memalign(align, size);
}

int posix_memalign(void **block, size_t align, size_t size)
{
    if (refuses())
        return ENOMEM;
    *block = __libc_memalign(align, size);
    return *block ? 0 : ENOMEM;
}
