/* What the bytes of a stream cost at least: the answers of script by a plain C loop that knows them all beforehand.

   usage: floors ANSWERS JOURNAL KEPT    (the units on standard input, the answers on standard output)

   ANSWERS is of bench/measure/floors.py: for each unit its M line, its text lines, how many register words are written and whether a record is
   kept. The loop looks at each byte of a unit for its end, asks the clock, copies header, M line and each text line, and gathers answers
   as the program does. For a change it copies the record out of KEPT, a journal with these records, writes 64 bytes and syncs, writes the
   seal byte and syncs, and makes the register writes as atomic exchanges of words that lie in a row. It reads no command, decides, plans
   and looks up nothing: no program of the same bytes can take less, but for wider registers. */
#define _GNU_SOURCE
#include <emmintrin.h>
#include <fcntl.h>
#include <stdint.h>
#include <stdio.h>
#include <stdlib.h>
#include <string.h>
#include <sys/mman.h>
#include <sys/stat.h>
#include <time.h>
#include <unistd.h>

enum { PIECE = 4096, BLOCK = 4096, HEADER = 32, RECORD = 64, SEALED = 0xA5, WORDS = 4096 };

/* A unit's answer: so many lines behind it, the first its M line. */
struct answer {
    uint32_t lines, writes;
    uint8_t is_change, padding[23];
};

/* A line with its marks. None at all: the block ends with `>`, and header and M line come again. */
struct line {
    uint8_t count;
    char text[63];
};

static uint8_t piece[PIECE + 16];
static char out[64 * 1024], *at = out;
static char header[48];
static int header_bytes;
static time_t shown = -1;
static uint64_t words[WORDS];

static void *mapped(const char *name) {
    int file = open(name, O_RDONLY);
    struct stat is;
    if (file < 0 || fstat(file, &is))
        exit(6);
    return is.st_size ? mmap(NULL, is.st_size, PROT_READ, MAP_PRIVATE | MAP_POPULATE, file, 0) : NULL;
}

static void flush(void) {
    if (at > out && write(1, out, at - out) != at - out)
        exit(5);
    at = out;
}

__attribute__((noinline)) static void show(time_t now) {
    struct tm t;
    gmtime_r(&now, &t);
    header_bytes = (int)strftime(header, sizeof header, "\r\n\n   BENCH %y-%m-%d %H:%M:%S\r\n", &t);
    shown = now;
}

/* Three moves for the header, four for a line: what is too much is written over. */
static inline void put_header(void) {
    time_t now = time(NULL);
    if (now != shown)
        show(now);
    for (int i = 0; i < 3; i++)
        _mm_storeu_si128((__m128i *)(at + 16 * i), _mm_loadu_si128((const __m128i *)(header + 16 * i)));
    at += header_bytes;
}

static inline void put_line(const struct line *line) {
    for (int i = 0; i < 64 && i < line->count; i += 16)
        _mm_storeu_si128((__m128i *)(at + i), _mm_loadu_si128((const __m128i *)(line->text + i)));
    at += line->count;
}

static const struct line *put_answer(const struct answer *answer, const struct line *line) {
    const struct line *first = line, *end = line + answer->lines;
    put_header();
    for (; line < end; line++)
        if (line->count)
            put_line(line);
        else {
            *at++ = '>';
            if (at - out > (long)sizeof out - 2 * BLOCK)
                flush();
            put_header();
            put_line(first);
        }
    *at++ = ';';
    return end;
}

static void keep(int journal, const uint8_t *kept, long record) {
    uint8_t bytes[RECORD];
    long place = HEADER + record * RECORD;
    memcpy(bytes, kept + place + 1, RECORD - 1);
    bytes[RECORD - 1] = 0;
    if (pwrite(journal, bytes, RECORD, place + 1) != RECORD || fdatasync(journal))
        exit(6);
    bytes[0] = SEALED;
    if (pwrite(journal, bytes, 1, place) != 1 || fdatasync(journal))
        exit(6);
}

/* Answers the units of standard input. Its instructions are the floor. */
__attribute__((noinline)) static void answer_units(const struct answer *answer, const struct line *line, long record, int journal, const uint8_t *kept) {
    uint64_t number = 0;
    int is_quoted = 0;
    for (long got; (got = read(0, piece, PIECE)) > 0;) {
        for (long i = 0; i < got;) {
            __m128i bytes = _mm_loadu_si128((const __m128i *)(piece + i));
            __m128i ends = _mm_cmpeq_epi8(bytes, _mm_set1_epi8(';')), quotes = _mm_cmpeq_epi8(bytes, _mm_set1_epi8('"'));
            unsigned marks = _mm_movemask_epi8(_mm_or_si128(ends, quotes));
            if (!marks) {
                i += 16;
                continue;
            }
            i += __builtin_ctz(marks);
            if (i >= got)
                break;
            if (piece[i++] == '"') {
                is_quoted = !is_quoted;
                continue;
            }
            if (is_quoted)
                continue;
            for (uint32_t k = 0; k < answer->writes; k++)
                __atomic_exchange_n(&words[k % WORDS], ++number, __ATOMIC_SEQ_CST);
            if (answer->is_change)
                keep(journal, kept, record++);
            line = put_answer(answer, line);
            if (answer->is_change || at - out > (long)sizeof out - 2 * BLOCK)
                flush();
            answer++;
        }
        flush();
    }
}

int main(int count, char **names) {
    if (count != 4)
        return 2;
    const uint64_t *head = mapped(names[1]);
    int journal = open(names[2], O_RDWR);
    answer_units((const struct answer *)(head + 4), (const struct line *)((const char *)head + head[0]), (long)head[1], journal, mapped(names[3]));
    return 0;
}
