/* A library that is loaded before the C library: each fdatasync fails while the file that FAILING names is there, and takes
   longer while the file that SLOW names is: by the seconds that SECONDS has, else by three; and each by the milliseconds
   that MILLISECONDS has. */
#define _GNU_SOURCE
#include <dlfcn.h>
#include <errno.h>
#include <stdlib.h>
#include <unistd.h>

static int is_there(const char *variable)
{
    const char *name = getenv(variable);
    return name && access(name, F_OK) == 0;
}

int fdatasync(int file)
{
    if (is_there("FAILING")) {
        errno = EIO;
        return -1;
    }
    if (is_there("SLOW")) {
        const char *seconds = getenv("SECONDS");
        sleep(seconds ? atoi(seconds) : 3);
    }
    const char *milliseconds = getenv("MILLISECONDS");
    if (milliseconds) {
        usleep(1000 * atoi(milliseconds));
    }
    return ((int (*)(int))dlsym(RTLD_NEXT, "fdatasync"))(file);
}
