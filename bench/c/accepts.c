/* A library that is loaded before the C library: while the file that REFUSING names is there, each accept fails with the error whose
   number it holds. */
#define _GNU_SOURCE
#include <dlfcn.h>
#include <errno.h>
#include <stdio.h>
#include <stdlib.h>
#include <sys/socket.h>

/* 0 where accepts are made. */
static int refusal(void)
{
    const char *name = getenv("REFUSING");
    FILE *file = name ? fopen(name, "r") : NULL;
    int number = 0;
    if (file) {
        if (fscanf(file, "%d", &number) != 1)
            number = 0;
        fclose(file);
    }
    return number;
}

int accept4(int socket, struct sockaddr *address, socklen_t *length, int flags)
{
    int number = refusal();
    if (number) {
        errno = number;
        return -1;
    }
    return ((int (*)(int, struct sockaddr *, socklen_t *, int))dlsym(RTLD_NEXT, "accept4"))(socket, address, length, flags);
}
