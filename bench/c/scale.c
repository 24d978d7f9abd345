/* What rearranging comes to beyond 64 modules: the planner's rule (docs/THEOREMS.md, "Colouring and chains"), run in plain C at any
   shape, since the program's own types hold 64 modules of 96 slots.

   usage: scale MODULES SLOTS SEED

   First what the shape needs by docs/FORMATS.md: register words, the bytes of slots that all workers carry a second at 8,000 frames, and
   the rows of a checkpoint of a full table. Then three runs, of one-way circuits: a random fill from nothing to 99 % of the ports; a hundred thousand changes there (the deletion of a
   random circuit and the entry of another); and the longest chain that the shape has. Each line tells how many entries found no free
   middle at both ends, the moves of these (mean, most), and microseconds of a processor for an entry (mean, and the slowest). */
#include <stdint.h>
#include <stdio.h>
#include <stdlib.h>
#include <string.h>
#include <time.h>

typedef int32_t module;

static int modules, slots, words;
/* Of each input module and middle the output module that is joined there, of each output module and middle the input module; or -1. */
static module *row, *column;
/* Of each module one bit for each middle that is free. */
static uint64_t *row_free, *column_free;
static uint64_t state;

static uint64_t draw(uint64_t below) {
    state ^= state << 13, state ^= state >> 7, state ^= state << 17;
    return (state >> 11) % below;
}

static void *room(size_t count, size_t size) {
    void *it = calloc(count, size);
    if (!it) {
        fprintf(stderr, "scale: no memory\n");
        exit(8);
    }
    return it;
}

static void set_leg(module from, module to, int middle, int is_joined) {
    row[(size_t)from * slots + middle] = is_joined ? to : -1;
    column[(size_t)to * slots + middle] = is_joined ? from : -1;
    uint64_t bit = 1ull << (middle % 64);
    uint64_t *in = &row_free[(size_t)from * words + middle / 64], *out = &column_free[(size_t)to * words + middle / 64];
    if (is_joined)
        *in &= ~bit, *out &= ~bit;
    else
        *in |= bit, *out |= bit;
}

static int lowest(const uint64_t *one, const uint64_t *other) {
    for (int i = 0; i < words; i++) {
        uint64_t both = one[i] & (other ? other[i] : ~0ull);
        if (both)
            return i * 64 + __builtin_ctzll(both);
    }
    return -1;
}

/* The length of the chain that begins in an input module (or an output module) with its leg on `first`, and goes on by `second`. */
static int chain_length(int is_row, module at, int first, int second) {
    int length = 0;
    for (;;) {
        module next = (is_row ? row : column)[(size_t)at * slots + first];
        if (next < 0)
            return length;
        length++, is_row = !is_row, at = next;
        int kept = first;
        first = second, second = kept;
    }
}

static module *chain_from, *chain_to;

/* Exchanges the two middles of a chain, and answers how many moves that takes make-before-break: each second leg goes by the spare. */
static int exchange(int is_row, module at, int first, int second) {
    int length = 0, middle = first, other = second;
    for (;;) {
        module next = (is_row ? row : column)[(size_t)at * slots + middle];
        if (next < 0)
            break;
        chain_from[length] = is_row ? at : next, chain_to[length] = is_row ? next : at;
        length++, is_row = !is_row, at = next;
        int kept = middle;
        middle = other, other = kept;
    }
    for (int i = 0; i < length; i++)
        set_leg(chain_from[i], chain_to[i], i % 2 ? second : first, 0);
    for (int i = 0; i < length; i++)
        set_leg(chain_from[i], chain_to[i], i % 2 ? first : second, 1);
    return length + length / 2;
}

struct outcome {
    int middle, moves;
};

static struct outcome join(module from, module to) {
    const uint64_t *in = &row_free[(size_t)from * words], *out = &column_free[(size_t)to * words];
    struct outcome it = {lowest(in, out), 0};
    if (it.middle < 0) {
        int a = lowest(in, NULL), b = lowest(out, NULL);
        int by_row = chain_length(1, from, b, a) <= chain_length(0, to, a, b);
        it.moves = by_row ? exchange(1, from, b, a) : exchange(0, to, a, b);
        it.middle = by_row ? b : a;
    }
    set_leg(from, to, it.middle, 1);
    return it;
}

struct tally {
    long entries, rearranged, moves;
    int most;
    double began;
};

static double now(void) {
    struct timespec t;
    clock_gettime(CLOCK_PROCESS_CPUTIME_ID, &t);
    return t.tv_sec + t.tv_nsec / 1e9;
}

static struct outcome counted_join(struct tally *t, module from, module to) {
    struct outcome it = join(from, to);
    t->entries++, t->rearranged += it.moves > 0, t->moves += it.moves;
    if (it.moves > t->most)
        t->most = it.moves;
    return it;
}

static void tell(const char *what, const struct tally *t) {
    printf("%s: %ld entries, %.1f %% rearranged, moves of these %.1f mean, %d most (the bound is %d), %.2f microseconds\n", what, t->entries,
           100.0 * t->rearranged / t->entries, t->rearranged ? (double)t->moves / t->rearranged : 0.0, t->most, 3 * (modules - 1) / 2,
           1e6 * (now() - t->began) / t->entries);
}

static void clear(void) {
    memset(row, -1, sizeof *row * modules * slots), memset(column, -1, sizeof *column * modules * slots);
    for (size_t i = 0; i < (size_t)modules * words; i++) {
        int first = (int)(i % words) * 64;
        row_free[i] = column_free[i] = slots - first >= 64 ? ~0ull : (1ull << (slots - first)) - 1;
    }
}

static void shuffle(uint32_t *ports, long count) {
    for (long i = count - 1; i > 0; i--) {
        long j = (long)draw(i + 1);
        uint32_t kept = ports[i];
        ports[i] = ports[j], ports[j] = kept;
    }
}

struct circuit {
    module from, to;
};

/* A circuit's middle isn't kept, since others' entries move it: it is found by its ends. Of two circuits with the same ends either one
   is deleted, which is the same. */
static void part(struct circuit c) {
    for (int middle = 0; middle < slots; middle++)
        if (row[(size_t)c.from * slots + middle] == c.to) {
            set_leg(c.from, c.to, middle, 0);
            return;
        }
}

static void fill_and_churn(void) {
    long ports = (long)modules * slots, filled = ports * 99 / 100;
    uint32_t *in = room(ports, sizeof *in), *out = room(ports, sizeof *out);
    struct circuit *circuits = room(filled, sizeof *circuits);
    for (long i = 0; i < ports; i++)
        in[i] = out[i] = (uint32_t)(i / slots);
    shuffle(in, ports), shuffle(out, ports);
    struct tally fill = {.began = now()};
    long i = 0;
    for (; i < filled * 9 / 10; i++) {
        circuits[i] = (struct circuit){(module)in[i], (module)out[i]};
        counted_join(&fill, circuits[i].from, circuits[i].to);
    }
    tell("fill to 89 %", &fill);
    struct tally last = {.began = now()};
    for (; i < filled; i++) {
        circuits[i] = (struct circuit){(module)in[i], (module)out[i]};
        counted_join(&last, circuits[i].from, circuits[i].to);
    }
    tell("fill from 89 to 99 %", &last);
    /* The free ends stand after the circuits: a circuit is deleted, and a random free input joined to a random free output. */
    struct tally churn = {.began = now()};
    for (int change = 0; change < 100000; change++) {
        long at = (long)draw(filled), other_in = filled + (long)draw(ports - filled), other_out = filled + (long)draw(ports - filled);
        part(circuits[at]);
        uint32_t from = in[other_in], to = out[other_out];
        in[other_in] = circuits[at].from, out[other_out] = circuits[at].to;
        circuits[at] = (struct circuit){(module)from, (module)to};
        counted_join(&churn, circuits[at].from, circuits[at].to);
    }
    tell("changes at 99 %", &churn);
    free(in), free(out), free(circuits);
}

/* Two paths of legs on the middles 0 and 1, the one with a row at both ends, the other with a column at both: a leg from the one or the
   other end of the first to an end of the second exchanges the first path whole, r - 1 legs of r modules where r is odd. */
static void longest(void) {
    int half = (modules - 2 + modules % 2) / 2;
    clear();
    for (module m = 0; m < modules; m++)
        for (int middle = 2; middle < slots; middle++)
            row_free[(size_t)m * words + middle / 64] &= ~(1ull << middle % 64), column_free[(size_t)m * words + middle / 64] &= ~(1ull << middle % 64);
    for (int v = 0; v < half; v++)
        set_leg(v, half + 1 + v, 0, 1), set_leg(v + 1, half + 1 + v, 1, 1);
    for (int v = half; v > 0; v--)
        set_leg(half + v, v, 0, 1), set_leg(half + v, v - 1, 1, 1);
    struct tally t = {.began = now()};
    for (int change = 0; change < 10000; change++) {
        module from = change % 2 ? half : 0;
        set_leg(from, 0, counted_join(&t, from, 0).middle, 0);
    }
    tell("longest chain", &t);
}

static void needs(void) {
    long ports = (long)modules * slots, registers = 2l * (slots + 2) * modules + 1 + ports;
    printf("registers: %ld words, %.1f MiB; frames: %.0f million bytes a second; a checkpoint: %ld rows at most\n", registers, registers * 8 / 1048576.0,
           ports * 8000 / 1e6, ports);
}

int main(int count, char **words_given) {
    if (count != 4 || (modules = atoi(words_given[1])) < 2 || (slots = atoi(words_given[2])) < 2) {
        fprintf(stderr, "usage: scale MODULES SLOTS SEED\n");
        return 2;
    }
    state = strtoull(words_given[3], NULL, 10) * 2654435769u + 88172645463325252ull;
    words = (slots + 63) / 64;
    row = room((size_t)modules * slots, sizeof *row), column = room((size_t)modules * slots, sizeof *column);
    row_free = room((size_t)modules * words, 8), column_free = room((size_t)modules * words, 8);
    chain_from = room(2 * modules, sizeof *chain_from), chain_to = room(2 * modules, sizeof *chain_to);
    printf("%d modules of %d slots, %ld ports, seed %s\n", modules, slots, (long)modules * slots, words_given[3]);
    needs();
    clear();
    fill_and_churn();
    longest();
    return 0;
}
