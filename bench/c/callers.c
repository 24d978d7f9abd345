// Callers of a server, each on a thread and a connection of its own.
//
// usage: callers PORT CALLERS UNITS BATCH KIND
//
// Each logs in as ANNA, and then sends UNITS units in batches of BATCH, and waits for the answers of a batch before it sends the next one. KIND:
//   headers      RTRV-HDR, which takes no turn
//   retrievals   RTRV-CRS-T0 of a port that is free
//   denials      an entry that joins a port with itself
//   changes      an entry and its deletion in turn, at ports that no other caller has; of up to 16 callers, at 8 modules of 24 slots
//   mixed        as changes of the first caller, as retrievals of the others
// The line that it prints has the answers a second of all together, how many were denials, and the longest that a batch took.
#include <arpa/inet.h>
#include <netinet/tcp.h>
#include <pthread.h>
#include <stdio.h>
#include <stdlib.h>
#include <string.h>
#include <time.h>
#include <unistd.h>

enum { MOST_CALLERS = 64, ROOM = 64 };

struct caller {
    int number, stream;
    const char *kind;
    long denied;
    double longest;
};

static int port, units, batch;
static pthread_barrier_t start;

static void fail(const char *what) {
    perror(what);
    exit(1);
}

static double seconds(void) {
    struct timespec time;
    clock_gettime(CLOCK_MONOTONIC, &time);
    return time.tv_sec + time.tv_nsec / 1e9;
}

static void send_all(int stream, const char *text, size_t length) {
    while (length > 0) {
        ssize_t sent = write(stream, text, length);
        if (sent < 0) fail("write");
        text += sent;
        length -= sent;
    }
}

// Reads so many answers. The last line of each begins with a semicolon; its fourth word is COMPLD or DENY.
static void read_answers(struct caller *caller, int answers) {
    char piece[65536];
    int begins = 1;
    while (answers > 0) {
        ssize_t count = read(caller->stream, piece, sizeof piece);
        if (count <= 0) fail("read");
        for (ssize_t at = 0; at < count; at++) {
            if (begins && piece[at] == ';') answers--;
            if (piece[at] == 'D' && at + 4 <= count && memcmp(piece + at, "DENY", 4) == 0) caller->denied++;
            begins = piece[at] == '\n';
        }
    }
}

static int write_unit(char *into, const struct caller *caller, int at) {
    int module = 1 + caller->number / 4, slot = 1 + caller->number % 4, tag = at % 900000 + 1;
    if (strcmp(caller->kind, "headers") == 0) return sprintf(into, "RTRV-HDR:::%d;", tag);
    if (strcmp(caller->kind, "retrievals") == 0) return sprintf(into, "RTRV-CRS-T0::DS0-8-%d:%d;", 1 + caller->number % 24, tag);
    if (strcmp(caller->kind, "denials") == 0) return sprintf(into, "ENT-CRS-T0::DS0-1-1,DS0-1-1:%d;", tag);
    return sprintf(into, "%s-CRS-T0::DS0-%d-%d,DS0-%d-%d:%d;", at % 2 ? "DLT" : "ENT", module, slot, module + 1, slot + 4, tag);
}

static void *call(void *given) {
    struct caller *caller = given;
    static const char log_in[] = "ACT-USER::ANNA:1::bc;";
    struct sockaddr_in address = {.sin_family = AF_INET, .sin_port = htons(port), .sin_addr.s_addr = htonl(INADDR_LOOPBACK)};
    int on = 1;
    char *text = malloc((size_t)batch * ROOM);
    caller->stream = socket(AF_INET, SOCK_STREAM, 0);
    if (text == NULL || connect(caller->stream, (struct sockaddr *)&address, sizeof address) < 0) fail("connect");
    setsockopt(caller->stream, IPPROTO_TCP, TCP_NODELAY, &on, sizeof on);
    send_all(caller->stream, log_in, sizeof log_in - 1);
    read_answers(caller, 1);
    pthread_barrier_wait(&start);
    for (int sent = 0; sent < units;) {
        int count = units - sent < batch ? units - sent : batch, length = 0;
        for (int k = 0; k < count; k++) length += write_unit(text + length, caller, sent + k);
        double began = seconds();
        send_all(caller->stream, text, length);
        read_answers(caller, count);
        double took = seconds() - began;
        if (took > caller->longest) caller->longest = took;
        sent += count;
    }
    close(caller->stream);
    free(text);
    return NULL;
}

int main(int count, char **words) {
    static struct caller all[MOST_CALLERS];
    pthread_t threads[MOST_CALLERS];
    if (count != 6) return 2;
    port = atoi(words[1]);
    int callers = atoi(words[2]);
    units = atoi(words[3]);
    batch = atoi(words[4]);
    if (callers < 1 || callers > MOST_CALLERS || units < 1 || batch < 1) return 2;
    pthread_barrier_init(&start, NULL, callers + 1);
    for (int k = 0; k < callers; k++) {
        int mixed = strcmp(words[5], "mixed") == 0;
        all[k] = (struct caller){.number = k, .kind = !mixed ? words[5] : k == 0 ? "changes" : "retrievals"};
        if (pthread_create(&threads[k], NULL, call, &all[k]) != 0) fail("thread");
    }
    pthread_barrier_wait(&start);
    double began = seconds(), longest = 0;
    long denied = 0;
    for (int k = 0; k < callers; k++) {
        pthread_join(threads[k], NULL);
        denied += all[k].denied;
        if (all[k].longest > longest) longest = all[k].longest;
    }
    printf("%.0f a second, %ld denied, longest wait %.1f ms\n", (double)callers * units / (seconds() - began), denied, longest * 1e3);
    return 0;
}
