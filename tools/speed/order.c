/* Orders one binary file in memory by one call of the port, imdagluz_order, or by its parts called one by one.
 *
 *   order one|parts KIND SIZE FLAGS [TIMES]    FLAGS: 0 to 7; TIMES: how often (1)
 *
 * The KINDs are those of circuit.h, of which imdagluz_write_aig writes the file; `gates` has its last gate as an output, so that trim leaves what that needs.
 * Prints the bytes written, the gates made and a sum over the bytes, their places and all words of the lists, on which both must agree, and with a clock the
 * milliseconds of the fastest run. Only by_one and by_parts are to be counted by an instruction counter. */
#include "circuit.h"

void by_one(void);
void by_parts(void);

static uint8_t file[ROOM];
static size_t file_length;
static uint32_t flags, refused;
static uint64_t answer[IMDAGLUZ_ORDER_WORDS];

/* What is lent: lists of the limits, which hold every file. */
static uint32_t read_nexts[LIMIT], read_resets[LIMIT], read_gates[2 * LIMIT], read_sizes[LIMIT], read_roots[LIMIT];
static uint32_t input_codes[LIMIT], state_codes[LIMIT], triples[3 * LIMIT], map[LIMIT + 1], next_images[LIMIT], reset_images[LIMIT];
static uint32_t root_images[LIMIT], gates_out[2 * LIMIT], scratch[6 * LIMIT + 3];

static int make(const char *kind, uint32_t size) {
    uint64_t written[2];
    if (!circuit(kind, size)) return 0;
    if (strcmp(kind, "gates") == 0) counts[0] = 1, roots[0] = 2 * (inputs + latches + count);
    refused = imdagluz_write_aig(inputs, counts, 5, nexts, latches, resets, latches, gates, 2 * (size_t)count, sizes, sets, roots, root_count(), file, ROOM,
                                 written, 2);
    file_length = written[1];
    return refused == 0;
}

__attribute__((noinline)) void by_one(void) {
    refused = imdagluz_order(file, file_length, flags, read_nexts, LIMIT, read_resets, LIMIT, read_gates, 2 * LIMIT, read_sizes, LIMIT, read_roots, LIMIT,
                             input_codes, LIMIT, state_codes, LIMIT, triples, 3 * LIMIT, map, LIMIT + 1, next_images, LIMIT, reset_images, LIMIT, root_images,
                             LIMIT, gates_out, 2 * LIMIT, scratch, 6 * LIMIT + 3, out, ROOM, answer, IMDAGLUZ_ORDER_WORDS);
}

__attribute__((noinline)) void by_parts(void) {
    uint32_t five[5], made[3];
    uint64_t written[2];
    size_t r = 0;
    refused = imdagluz_read_aig(file, file_length, read_nexts, LIMIT, read_resets, LIMIT, read_gates, 2 * LIMIT, read_sizes, LIMIT, read_roots, LIMIT, answer,
                                11);
    if (refused) return;
    size_t i = answer[2], l = answer[3], a = answer[4];
    for (int k = 0; k < 5; k++) r += five[k] = (uint32_t)answer[5 + k];
    refused = imdagluz_expand((uint32_t)i, (uint32_t)l, read_gates, 2 * a, input_codes, LIMIT, state_codes, LIMIT, triples, 3 * LIMIT);
    if (refused) return;
    refused = imdagluz_renumber((uint32_t)answer[1], five, 5, flags, input_codes, i, state_codes, l, read_nexts, l, read_resets, l, triples, 3 * a,
                                read_roots, r, map, LIMIT + 1, next_images, LIMIT, reset_images, LIMIT, root_images, LIMIT, gates_out, 2 * LIMIT, scratch,
                                6 * LIMIT + 3, made, 3);
    if (refused) return;
    refused = imdagluz_write_aig((uint32_t)i, five, 5, next_images, l, reset_images, l, gates_out, 2 * (size_t)made[1], read_sizes, answer[10], root_images,
                                 r, out, ROOM, written, 2);
    answer[11] = made[1], answer[12] = written[1];
}

/* A sum over words and their places. */
static uint64_t sum(uint64_t before, const uint32_t *words, size_t length) {
    for (size_t k = 0; k < length; k++) before = before * 31 + words[k];
    return before;
}

static uint64_t sum_of_lists(void) {
    size_t i = answer[2], l = answer[3], a = answer[4], r = root_count();
    const struct { const uint32_t *words; size_t length; } lists[] = {
        {read_nexts, l}, {read_resets, l}, {read_gates, 2 * a}, {read_sizes, sets}, {read_roots, r}, {input_codes, i}, {state_codes, l}, {triples, 3 * a},
        {map, i + l + a + 1}, {next_images, l}, {reset_images, l}, {root_images, r}, {gates_out, 2 * a}, {scratch, 3 * (i + l + a) + 3 + 3 * a}};
    uint64_t all = 0;
    for (size_t k = 0; k < sizeof lists / sizeof lists[0]; k++) all = sum(all, lists[k].words, lists[k].length);
    return all;
}

int main(int argc, char **argv) {
    if (argc < 5 || !make(argv[2], (uint32_t)strtoul(argv[3], NULL, 10))) {
        fprintf(stderr, "usage: order one|parts KIND SIZE FLAGS [TIMES] (the kinds stand above its source)\n");
        return 2;
    }
    int one = strcmp(argv[1], "one") == 0;
    flags = (uint32_t)strtoul(argv[4], NULL, 10);
    double best = 1e18;
    for (long times = argc > 5 ? strtol(argv[5], NULL, 10) : 1; times > 0; times--) {
        double start = now();
        if (one) by_one(); else by_parts();
        double took = now() - start;
        if (took < best) best = took;
    }
    uint64_t all = sum_of_lists();
    for (size_t k = 0; k < answer[12]; k++) all = all * 31 + out[k];
    printf("%llu %llu %llu\n", (unsigned long long)answer[12], (unsigned long long)answer[11], (unsigned long long)all);
    fprintf(stderr, "%.3f\n", best);
    return refused != 0;
}
