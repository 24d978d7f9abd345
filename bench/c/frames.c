/* A frame by the same words in plain C: three loads an output, and nothing proved. The network is that of bench/crates/frames. */
#include <stdint.h>
#include <stdio.h>
#include <stdlib.h>
#include <time.h>

enum { IDLE = 0x7f };

/* The words of IN, MID and OUT, one array after the other; cells of a middle are `modules` apart. */
struct network {
    size_t modules, slots, mids, outs;
    uint64_t *words;
};

static uint64_t load(const uint64_t *word)
{
    return __atomic_load_n(word, __ATOMIC_SEQ_CST);
}

__attribute__((noinline)) static void carry_outputs(const struct network *network, size_t output_module,
                                                    const uint8_t *input, uint8_t *output)
{
    size_t modules = network->modules, slots = network->slots;
    const uint64_t *ins = network->words, *mids = ins + network->mids + output_module, *outs = ins + network->outs;
    size_t first = output_module * slots;
    for (size_t port = first; port < first + slots; ++port) {
        uint64_t word = load(outs + port);
        if (word == 0) {
            output[port] = IDLE;
            continue;
        }
        size_t row = word % 256 * modules;
        size_t module = load(mids + row);
        size_t slot = load(ins + row + module);
        output[port] = input[(module - 1) * slots + (slot - 1)];
    }
}

__attribute__((noinline)) static void carry_frame(const struct network *network, const uint8_t *input, uint8_t *output)
{
    for (size_t module = 0; module < network->modules; ++module)
        carry_outputs(network, module, input, output);
}

static struct network full_network(size_t modules, size_t slots)
{
    size_t mid_count = (slots + 2) * modules, in_count = mid_count + 1;
    struct network n = {modules, slots, in_count, in_count + mid_count, NULL};
    n.words = calloc(n.outs + modules * slots, sizeof *n.words);
    uint64_t number = 0;
    for (size_t slot = 0; slot < slots; ++slot)
        for (size_t module = 0; module < modules; ++module) {
            size_t output_module = (module + slot) % modules, output_slot = (slot + 1) % slots, row = (slot + 1) * modules;
            n.words[row + module + 1] = slot + 1;
            n.words[n.mids + row + output_module] = module + 1;
            n.words[n.outs + output_module * slots + output_slot] = ++number * 256 + slot + 1;
        }
    return n;
}

static void measure(size_t modules, size_t slots, long count)
{
    struct network network = full_network(modules, slots);
    size_t ports = modules * slots;
    uint8_t *input = malloc(ports), *output = malloc(ports);
    for (size_t port = 0; port < ports; ++port)
        input[port] = port % 251;
    struct timespec start, end;
    clock_gettime(CLOCK_MONOTONIC, &start);
    for (long frame = 0; frame < (count ? count : 1); ++frame)
        carry_frame(&network, input, output);
    clock_gettime(CLOCK_MONOTONIC, &end);
    uint64_t sum = 0;
    for (size_t port = 0; port < ports; ++port)
        sum = sum * 31 + output[port];
    printf("%zu by %zu: sum %llu", modules, slots, (unsigned long long)sum);
    double nanos = (end.tv_sec - start.tv_sec) * 1e9 + (end.tv_nsec - start.tv_nsec);
    if (count)
        printf(", %.0f nanoseconds", nanos);
    putchar('\n');
    free(input), free(output), free(network.words);
}

int main(int argc, char **argv)
{
    long count = argc > 1 ? atol(argv[1]) : 0;
    long modules = argc > 2 ? atol(argv[2]) : 0;
    if (modules == 0 || modules == 8)
        measure(8, 24, count);
    if (modules == 0 || modules == 32)
        measure(32, 32, count);
    if (modules == 0 || modules == 64)
        measure(64, 96, count);
}
