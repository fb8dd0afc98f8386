/* Writes one ordered circuit into memory as a binary AIGER file with the port and with the crate; or takes a file the whole way.
 *
 *   write port|crate KIND SIZE [TIMES]    TIMES: how often (1)
 *
 * The KINDs are those of circuit.h, and `whole`: the file of mixed is read, renumbered with trim, hash and fold, and written. With `measure-` before a KIND but
 * the last no byte is lent, so that the port only checks and measures; `faulty-` makes the last gate its own input, so that it only checks; with `just-` as many
 * bytes are lent as the file has, so that the port measures first (port only).
 * Prints the bytes written and a sum over them and their places, on which both must agree, and with a clock the milliseconds of the fastest run. Only by_port and
 * by_crate are to be counted by an instruction counter. */
#include "circuit.h"

/* How many bytes the crate writes of a circuit; and the whole way of a file, with flags. */
size_t crate_write(const void *circuit, uint8_t *out, size_t length);
size_t crate_whole(const uint8_t *bytes, size_t length, uint32_t flags, uint8_t *out, size_t room);
void by_port(void);
void by_crate(void);

enum { FLAGS = 7 };

static uint8_t file[ROOM];
static size_t file_length, lent = ROOM, written;
static uint64_t answer[2];
static int whole;
static void *record;

/* What the whole way lends besides. */
static uint32_t read_nexts[LIMIT], read_resets[LIMIT], read_gates[2 * LIMIT], read_sizes[LIMIT], read_roots[LIMIT];
static uint32_t input_codes[LIMIT], state_codes[LIMIT], triples[3 * LIMIT], map[LIMIT + 1], next_images[LIMIT], reset_images[LIMIT];
static uint32_t root_images[LIMIT];
static uint32_t gates_out[2 * LIMIT], scratch[6 * LIMIT + 3], words[3];
static uint64_t read_words[11];

static int make(const char *kind, uint32_t size) {
    int measured = strncmp(kind, "measure-", 8) == 0, faulty = strncmp(kind, "faulty-", 7) == 0;
    int just = strncmp(kind, "just-", 5) == 0;
    kind += measured ? 8 : faulty ? 7 : just ? 5 : 0;
    whole = strcmp(kind, "whole") == 0;
    if (!circuit(whole ? "mixed" : kind, size)) return 0;
    lent = measured || faulty ? 0 : ROOM;
    /* the last gate, so that all are checked */
    if (faulty && count) gates[2 * count - 2] = 2 * (inputs + latches + count);
    record = record_of();
    if (whole) file_length = crate_write(record, file, ROOM);
    if (just) lent = crate_write(record, out, ROOM);
    return 1;
}

static uint32_t refused;

static void port_whole(void) {
    refused = imdagluz_read_aig(file, file_length, read_nexts, LIMIT, read_resets, LIMIT, read_gates, 2 * LIMIT, read_sizes, LIMIT, read_roots, LIMIT,
                                read_words, 11);
    if (refused) return;
    size_t i = read_words[2], l = read_words[3], a = read_words[4], r = 0;
    uint32_t five[5];
    for (int k = 0; k < 5; k++) r += five[k] = (uint32_t)read_words[5 + k];
    refused = imdagluz_expand((uint32_t)i, (uint32_t)l, read_gates, 2 * a, input_codes, i, state_codes, l, triples, 3 * a);
    if (refused) return;
    refused = imdagluz_renumber((uint32_t)read_words[1], five, 5, FLAGS, input_codes, i, state_codes, l, read_nexts, l, read_resets, l, triples, 3 * a,
                                read_roots, r, map, LIMIT + 1, next_images, LIMIT, reset_images, LIMIT, root_images, LIMIT, gates_out, 2 * LIMIT,
                                scratch, 6 * LIMIT + 3, words, 3);
    if (refused) return;
    refused = imdagluz_write_aig((uint32_t)i, five, 5, next_images, l, reset_images, l, gates_out, 2 * (size_t)words[1], read_sizes, read_words[10],
                                 root_images, r, out, ROOM, answer, 2);
}

__attribute__((noinline)) void by_port(void) {
    if (whole) {
        port_whole();
        return;
    }
    refused = imdagluz_write_aig(inputs, counts, 5, nexts, latches, resets, latches, gates, 2 * (size_t)count, sizes, sets, roots, root_count(), out, lent,
                                 answer, 2);
}

__attribute__((noinline)) void by_crate(void) { written = whole ? crate_whole(file, file_length, FLAGS, out, ROOM) : crate_write(record, out, ROOM); }

int main(int argc, char **argv) {
    if (argc < 4 || !make(argv[2], (uint32_t)strtoul(argv[3], NULL, 10))) {
        fprintf(stderr, "usage: write port|crate KIND SIZE [TIMES] (the kinds stand above its source)\n");
        return 2;
    }
    int port = strcmp(argv[1], "port") == 0;
    double best = 1e18;
    for (long times = argc > 4 ? strtol(argv[4], NULL, 10) : 1; times > 0; times--) {
        double start = now();
        if (port) by_port(); else by_crate();
        double took = now() - start;
        if (took < best) best = took;
    }
    if (port) written = answer[1];
    uint64_t all = 0;
    for (size_t k = 0; lent && k < written; k++) all = all * 31 + out[k];
    printf("%zu %llu\n", written, (unsigned long long)all);
    fprintf(stderr, "%.3f\n", best);
    return port && refused != (lent ? 0 : strncmp(argv[2], "faulty-", 7) == 0 ? 23 : 3);
}
