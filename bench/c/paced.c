/* Feeds frames into two pipes at a line's own pace, and notes when what comes of each stands in its output file.

   usage: paced BYTES FRAMES MICROSECONDS SIDES NOTES THREAD IN OUT IN OUT      feeds and watches: the controller's lines, then the copier's
          paced --copy IN OUT BYTES FRAMES                                      the copier: reads frames and writes them, and nothing else

   IN is a pipe with a name and OUT a file; a frame has BYTES bytes, and one is fed into each pipe every so many MICROSECONDS, the copier's half
   of that behind the controller's. SIDES names a file of lines `INPUT OUTPUT`, ports from 0 of circuits that stand throughout: of each of the
   controller's frames the output byte has to be the input byte of its circuit, and the copier's come as they went. THREAD is the folder in
   /proc of the controller's thread that carries frames.

   One thread feeds and watches in turn, so it wants a processor of its own. It looks without a pause while a frame is on its way. Under
   SCHED_FIFO it sleeps for a moment where none is, since Linux takes the processor for 50 milliseconds from one that has had it for nearly a
   second.

   NOTES is written with a `struct note` for each frame. Status 1 where a byte was wrong or a frame didn't come. */
#define _GNU_SOURCE
#include <fcntl.h>
#include <sched.h>
#include <stdint.h>
#include <stdio.h>
#include <stdlib.h>
#include <string.h>
#include <sys/mman.h>
#include <time.h>
#include <unistd.h>

#define MOST_PORTS 65536
#define MARKS 127
#define SECOND 1000000000L
/* A frame that isn't there after so many nanoseconds doesn't come. */
#define PATIENCE (10 * SECOND)
/* What was looked at needs no room any more: so many frames at once, since a larger hole takes its time. */
#define DROPPED 16
/* So many nanoseconds before the next frame is due a sleep ends, and the thread's time is read. */
#define CALM 20000
#define EARLY 10000

enum { CONTROLLER, COPIER, LINES };

/* What is noted of a frame on one line, in nanoseconds behind the moment at which it was due: when it was first put into the pipe, when it was
   last looked for in vain, and when it was there. Where one of these isn't, it is NONE. */
struct passage {
    int64_t put, missed, came;
};

/* What is noted of a frame: its passage on each line, and for how many nanoseconds the controller's thread had had a processor when the next frame
   was due, as the system counts it: without the time in which the machine took the processor away. */
struct note {
    struct passage of[LINES];
    int64_t ran;
};

#define NONE INT64_MIN

/* Frames that were fed, bytes of the next one, frames that came; how far behind the controller's its frames are due, and when its pipe was last
   full. */
struct line {
    int in, out;
    long fed, part, came;
    int64_t behind, full;
    uint8_t frame[MOST_PORTS];
};

static struct line lines[LINES];
static struct note *notes;
static int stat_file, goes_first;
static long bytes, frames, wrong, sides, stood;
static int64_t began, period;
static int input_of[MOST_PORTS], output_of[MOST_PORTS];
static uint8_t of_port[MOST_PORTS], seen[MOST_PORTS];

static int64_t now(void) {
    struct timespec t;
    clock_gettime(CLOCK_MONOTONIC, &t);
    return t.tv_sec * SECOND + t.tv_nsec;
}

static int64_t due(const struct line *line, long number) { return began + number * period + line->behind; }

/* What an input port carries in a frame: never 0x7F, which is what an output without a circuit carries. */
static uint8_t byte_at(long number, long port) {
    uint8_t sum = number * 31 % MARKS + of_port[port];
    return sum - (sum >= MARKS ? MARKS : 0);
}

static void fill(struct line *line) {
    for (long port = 0; port < bytes; port++)
        line->frame[port] = byte_at(line->fed, port);
}

static struct passage *passage(const struct line *line, long number) { return &notes[number].of[line - lines]; }

/* Puts what the pipe takes of the frame that is due. One that was due while the pipe was full counts as put at once: it didn't wait for the
   pacer. */
static void feed(struct line *line) {
    int64_t at = now(), was_due = due(line, line->fed);
    struct passage *noted = passage(line, line->fed);
    if (noted->put == NONE)
        noted->put = line->full > was_due ? 0 : at - was_due;
    ssize_t wrote = write(line->in, line->frame + line->part, bytes - line->part);
    line->part += wrote > 0 ? wrote : 0;
    if (line->part < bytes) {
        line->full = at;
        return;
    }
    line->part = 0;
    if (++line->fed < frames)
        fill(line);
}

static void compare(const struct line *line) {
    if (line == &lines[COPIER])
        for (long port = 0; port < bytes; port++)
            wrong += seen[port] != byte_at(line->came, port);
    else
        for (long s = 0; s < sides; s++)
            wrong += seen[output_of[s]] != byte_at(line->came, input_of[s]);
}

/* Looks for the next frame; 0 where it isn't there for too long. */
static int watch(struct line *line) {
    struct passage *noted = passage(line, line->came);
    int64_t looked = now() - due(line, line->came);
    if (pread(line->out, seen, bytes, line->came * bytes) != bytes) {
        noted->missed = looked;
        return looked < PATIENCE;
    }
    noted->came = now() - due(line, line->came);
    compare(line);
    if (++line->came % DROPPED == 0)
        fallocate(line->out, FALLOC_FL_PUNCH_HOLE | FALLOC_FL_KEEP_SIZE, (line->came - DROPPED) * bytes, DROPPED * bytes);
    return 1;
}

/* Notes how long the controller's thread has had a processor. It is asleep by then, or the count isn't up to date: a running thread's is only
   where another takes its processor, or at the clock's tick. */
static void stand(void) {
    char text[100] = "";
    if (pread(stat_file, text, sizeof text - 1, 0) > 0)
        notes[stood].ran = atol(text);
    stood++;
}

/* Feeds and watches one line; 0 where a frame doesn't come. */
static int attend(struct line *line) {
    if (line->fed < frames && now() >= due(line, line->fed))
        feed(line);
    return line->came == line->fed || watch(line);
}

/* Whether a frame is on its way on the line; else the next is due at the moment, where there is one and it comes before that. */
static int is_waited_for(const struct line *line, int64_t *until) {
    if (line->fed < frames && due(line, line->fed) < *until)
        *until = due(line, line->fed);
    return line->came < line->fed;
}

/* Sleeps until shortly before the next frame is due, where none is on its way, and no longer than a period. */
static void rest(void) {
    int64_t at = now(), until = at + period;
    if (is_waited_for(&lines[CONTROLLER], &until) || is_waited_for(&lines[COPIER], &until) || until - CALM <= at)
        return;
    struct timespec then = {(until - CALM) / SECOND, (until - CALM) % SECOND};
    clock_nanosleep(CLOCK_MONOTONIC, TIMER_ABSTIME, &then, NULL);
}

static void feed_and_watch(void) {
    began = now() + SECOND / 10;
    while (lines[CONTROLLER].came < frames || lines[COPIER].came < frames || stood < frames) {
        if (stood < lines[CONTROLLER].fed && now() >= due(&lines[CONTROLLER], stood + 1) - EARLY)
            stand();
        if (!attend(&lines[CONTROLLER]) || !attend(&lines[COPIER]))
            return;
        if (goes_first)
            rest();
    }
}

static void prepare(void) {
    static const struct note none = {{{NONE, NONE, NONE}, {NONE, NONE, NONE}}, 0};
    for (long port = 0; port < bytes; port++)
        of_port[port] = port * 7 % MARKS;
    notes = malloc(frames * sizeof *notes);
    for (long number = 0; number < frames; number++)
        notes[number] = none;
    for (struct line *line = lines; line < lines + LINES; line++)
        fill(line);
    lines[COPIER].behind = period / 2;
    goes_first = sched_getscheduler(0) == SCHED_FIFO;
    mlockall(MCL_CURRENT);
}

static int copy(struct line *line) {
    for (long number = 0; number < frames; number++) {
        for (long got = 0; got < bytes;) {
            ssize_t count = read(line->in, line->frame + got, bytes - got);
            if (count <= 0)
                return 1;
            got += count;
        }
        if (pwrite(line->out, line->frame, bytes, number * bytes) != bytes)
            return 1;
    }
    return 0;
}

static int failed(const char *what) {
    perror(what);
    return 6;
}

static int open_line(struct line *line, char **names, int more) {
    line->in = open(names[0], O_RDWR | more);
    line->out = open(names[1], O_RDWR | O_CREAT, 0600);
    return line->in >= 0 && line->out >= 0;
}

static int read_sides(const char *name) {
    FILE *file = fopen(name, "r");
    while (file && sides < MOST_PORTS && fscanf(file, "%d %d", &input_of[sides], &output_of[sides]) == 2)
        sides++;
    return file != NULL;
}

static int write_notes(const char *name) {
    FILE *file = fopen(name, "w");
    return file && fwrite(notes, sizeof *notes, frames, file) == (size_t)frames && fclose(file) == 0;
}

static int pace(char **words) {
    char thread[4096];
    snprintf(thread, sizeof thread, "%s/schedstat", words[5]);
    period = atol(words[2]) * 1000;
    stat_file = open(thread, O_RDONLY);
    if (stat_file < 0 || !read_sides(words[3]))
        return failed("paced");
    for (int line = 0; line < LINES; line++)
        if (!open_line(&lines[line], words + 6 + 2 * line, O_NONBLOCK))
            return failed("paced");
    prepare();
    feed_and_watch();
    if (!write_notes(words[4]))
        return failed("paced");
    printf("%ld of %ld frames came of the program, and %ld of the copier; %ld bytes were wrong, of %ld of standing circuits and %ld of the copier\n",
           lines[CONTROLLER].came, frames, lines[COPIER].came, wrong, lines[CONTROLLER].came * sides, lines[COPIER].came * bytes);
    return wrong || lines[CONTROLLER].came < frames || lines[COPIER].came < frames;
}

int main(int count, char **words) {
    int copies = count == 6 && !strcmp(words[1], "--copy");
    if (count != 11 && !copies) {
        fprintf(stderr, "usage: paced BYTES FRAMES MICROSECONDS SIDES NOTES THREAD IN OUT IN OUT\n       paced --copy IN OUT BYTES FRAMES\n");
        return 2;
    }
    bytes = atol(words[copies ? 4 : 1]), frames = atol(words[copies ? 5 : 2]);
    if (bytes < 1 || bytes > MOST_PORTS || frames < 1)
        return failed("paced");
    if (!copies)
        return pace(words + 1);
    if (!open_line(&lines[COPIER], words + 2, 0))
        return failed("paced");
    mlockall(MCL_CURRENT);
    return copy(&lines[COPIER]);
}
