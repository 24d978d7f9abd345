// What a disk allows: the writes and syncs that a change costs a journal, and nothing else.
//
// usage: appends FILE CHANGES
//
// The file is written anew. A change is 64 bytes of a record behind the last one's seal, a sync, the seal byte, and a sync, as the program makes
// them. The line that it prints has the changes a second.
#include <fcntl.h>
#include <stdio.h>
#include <stdlib.h>
#include <string.h>
#include <time.h>
#include <unistd.h>

enum { HEADER = 32, RECORD = 64 };

static void fail(const char *what) {
    perror(what);
    exit(1);
}

static double seconds(void) {
    struct timespec time;
    clock_gettime(CLOCK_MONOTONIC, &time);
    return time.tv_sec + time.tv_nsec / 1e9;
}

static void put(int file, const char *bytes, size_t length, off_t at) {
    if (pwrite(file, bytes, length, at) != (ssize_t)length) fail("pwrite");
}

int main(int count, char **words) {
    if (count != 3) return 2;
    char record[RECORD] = {0};
    const char seal = '\xa5';
    long changes = atol(words[2]);
    int file = open(words[1], O_RDWR | O_CREAT | O_TRUNC, 0600);
    if (file < 0) fail("open");
    put(file, record, HEADER + 1, 0);
    if (fsync(file) < 0) fail("fsync");
    double began = seconds();
    for (long at = 0; at < changes; at++) {
        memset(record, (int)at, sizeof record);
        put(file, record, sizeof record, HEADER + 1 + RECORD * at);
        if (fdatasync(file) < 0) fail("fdatasync");
        put(file, &seal, 1, HEADER + RECORD * at);
        if (fdatasync(file) < 0) fail("fdatasync");
    }
    printf("%.0f\n", changes / (seconds() - began));
    return 0;
}
