/* A library that is loaded before the C library: calls on files beyond the standard streams fail at random, one of FAULTS of them,
   and are counted, from the byte that the file FAULTED begins with. FAULTS of 0 in that file's second word stops it for a time. */
#define _GNU_SOURCE
#include <dlfcn.h>
#include <errno.h>
#include <fcntl.h>
#include <stdatomic.h>
#include <stdint.h>
#include <stdlib.h>
#include <sys/mman.h>
#include <unistd.h>

struct shared {
    _Atomic uint64_t failed;
    _Atomic uint64_t one_of;
    _Atomic uint64_t state;
    /* How many of the failed calls were syncs. */
    _Atomic uint64_t unsynced;
};

static struct shared *shared;

__attribute__((constructor)) static void open_shared(void)
{
    const char *name = getenv("FAULTED");
    int file = name ? open(name, O_RDWR) : -1;
    if (file >= 0) {
        void *found = mmap(NULL, sizeof *shared, PROT_READ | PROT_WRITE, MAP_SHARED, file, 0);
        shared = found == MAP_FAILED ? NULL : found;
        close(file);
    }
}

static int fails(void)
{
    uint64_t one_of = shared ? shared->one_of : 0;
    if (!one_of)
        return 0;
    uint64_t drawn = atomic_fetch_add(&shared->state, 0x9E3779B97F4A7C15u);
    drawn = (drawn ^ (drawn >> 30)) * 0xBF58476D1CE4E5B9u;
    drawn = (drawn ^ (drawn >> 27)) * 0x94D049BB133111EBu;
    if ((drawn ^ (drawn >> 31)) % one_of)
        return 0;
    atomic_fetch_add(&shared->failed, 1);
    errno = EIO;
    return 1;
}

#define CALL(type, name, parameters, ...)                                                                                      \
    type name parameters                                                                                                       \
    {                                                                                                                          \
        static type(*next) parameters;                                                                                         \
        if (!next)                                                                                                             \
            next = (type(*) parameters)dlsym(RTLD_NEXT, #name);                                                                \
        return fails() ? -1 : next(__VA_ARGS__);                                                                               \
    }

CALL(ssize_t, pwrite, (int file, const void *from, size_t size, off_t at), file, from, size, at)
CALL(ssize_t, pread, (int file, void *into, size_t size, off_t at), file, into, size, at)

int fdatasync(int file)
{
    static int (*next)(int file);
    if (!next)
        next = (int (*)(int))dlsym(RTLD_NEXT, "fdatasync");
    if (fails()) {
        atomic_fetch_add(&shared->unsynced, 1);
        return -1;
    }
    return next(file);
}
