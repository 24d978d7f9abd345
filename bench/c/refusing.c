/* A library that is loaded before the C library: the call of malloc and its kin whose number REFUSED gives, from 1, finds no memory, and
   the file that REACHED names is made. */
#define _GNU_SOURCE
#include <dlfcn.h>
#include <errno.h>
#include <fcntl.h>
#include <stdatomic.h>
#include <stdlib.h>
#include <unistd.h>

static atomic_long calls;
static long refused = -1;

static int is_refused(void)
{
    if (refused < 0) {
        const char *number = getenv("REFUSED");
        refused = number ? atol(number) : 0;
    }
    return atomic_fetch_add(&calls, 1) + 1 == refused;
}

static void *none(void)
{
    const char *name = getenv("REACHED");
    if (name)
        close(open(name, O_CREAT | O_WRONLY, 0600));
    errno = ENOMEM;
    return NULL;
}

#define NEXT(type, name, ...)                                                                                                  \
    static type (*next)(__VA_ARGS__);                                                                                          \
    if (!next)                                                                                                                 \
        next = (type (*)(__VA_ARGS__))dlsym(RTLD_NEXT, #name);

void *malloc(size_t size)
{
    NEXT(void *, malloc, size_t)
    return is_refused() ? none() : next(size);
}

void *realloc(void *old, size_t size)
{
    NEXT(void *, realloc, void *, size_t)
    return is_refused() ? none() : next(old, size);
}

void *aligned_alloc(size_t alignment, size_t size)
{
    NEXT(void *, aligned_alloc, size_t, size_t)
    return is_refused() ? none() : next(alignment, size);
}

int posix_memalign(void **where, size_t alignment, size_t size)
{
    NEXT(int, posix_memalign, void **, size_t, size_t)
    return is_refused() && !none() ? ENOMEM : next(where, alignment, size);
}
