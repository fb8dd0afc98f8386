/* Reads a text AIGER file from memory, or writes an ordered circuit into memory as one, with the port and with the crate.
 *
 *   text port|crate read|write KIND SIZE [TIMES]    TIMES: how often (1)
 *
 * The KINDs are those of circuit.h. What is read is the text that the crate writes of the circuit. With `measure-` before a KIND no byte is lent, so that the
 * port only checks and measures what it would write; with `just-` as many bytes are lent as the text has, so that the port measures first (port, write).
 * Prints the bytes of the text and a sum over all that was read, or over the bytes written and their places, on which both must agree, and with a clock the
 * milliseconds of the fastest run. Only by_port and by_crate are to be counted by an instruction counter. */
#include "circuit.h"

/* How many bytes the crate writes of a circuit as a text; its reading of a text, NULL where it refuses it; and the sum of all words of a reading, which is dropped. */
size_t crate_write_text(const void *circuit, uint8_t *out, size_t length);
void *crate_read_text(const uint8_t *bytes, size_t length);
uint64_t crate_text_sum(void *read);
void by_port(void);
void by_crate(void);

static uint8_t text[ROOM];
static size_t length, lent = ROOM, written;
static uint64_t answer[11];
static int reads;
static void *record, *read;
static uint32_t refused;
static uint32_t read_inputs[LIMIT], read_states[LIMIT], read_nexts[LIMIT], read_resets[LIMIT], read_gates[3 * LIMIT], read_sizes[LIMIT], read_roots[LIMIT];

static int make(const char *kind, uint32_t size) {
    int measured = strncmp(kind, "measure-", 8) == 0, just = strncmp(kind, "just-", 5) == 0;
    if (!circuit(kind + (measured ? 8 : just ? 5 : 0), size)) return 0;
    record = record_of();
    length = crate_write_text(record, text, ROOM);
    lent = measured ? 0 : just ? length : ROOM;
    return 1;
}

__attribute__((noinline)) void by_port(void) {
    if (reads)
        refused = imdagluz_read_aag(text, length, read_inputs, LIMIT, read_states, LIMIT, read_nexts, LIMIT, read_resets, LIMIT, read_gates, 3 * LIMIT,
                                    read_sizes, LIMIT, read_roots, LIMIT, answer, 11);
    else
        refused = imdagluz_write_aag(inputs, counts, 5, nexts, latches, resets, latches, gates, 2 * (size_t)count, sizes, sets, roots, root_count(), out,
                                     lent, answer, 2);
}

__attribute__((noinline)) void by_crate(void) {
    if (reads) read = crate_read_text(text, length);
    else written = crate_write_text(record, out, ROOM);
}

static uint64_t sum(const uint32_t *list, size_t count) {
    uint64_t total = 0;
    for (size_t k = 0; k < count; k++) total += list[k];
    return total;
}

/* The sum of what was read last, by the port or by the crate; UINT64_MAX for nothing. */
static uint64_t words(int port) {
    if (!port) return read ? crate_text_sum(read) : UINT64_MAX;
    if (refused) return UINT64_MAX;
    uint64_t all = answer[5] + answer[6] + answer[7] + answer[8] + answer[9];
    return sum(read_inputs, answer[2]) + sum(read_states, answer[3]) + sum(read_nexts, answer[3]) + sum(read_resets, answer[3])
        + sum(read_gates, 3 * answer[4]) + sum(read_sizes, answer[10]) + sum(read_roots, all);
}

/* A sum over the bytes that were written last. */
static uint64_t bytes(int port) {
    uint64_t all = 0;
    if (port) written = answer[1];
    for (size_t k = 0; lent && k < written; k++) all = all * 31 + out[k];
    return all;
}

int main(int argc, char **argv) {
    reads = argc > 2 && strcmp(argv[2], "read") == 0;
    if (argc < 5 || !(reads || strcmp(argv[2], "write") == 0) || !make(argv[3], (uint32_t)strtoul(argv[4], NULL, 10))) {
        fprintf(stderr, "usage: text port|crate read|write KIND SIZE [TIMES] (the kinds stand in circuit.h)\n");
        return 2;
    }
    int port = strcmp(argv[1], "port") == 0;
    uint64_t all = 0;
    double best = 1e18;
    for (long times = argc > 5 ? strtol(argv[5], NULL, 10) : 1; times > 0; times--) {
        double start = now();
        if (port) by_port(); else by_crate();
        double took = now() - start;
        if (took < best) best = took;
        all = reads ? words(port) : bytes(port);
    }
    printf("%zu %llu\n", reads ? length : written, (unsigned long long)all);
    fprintf(stderr, "%.3f\n", best);
    return reads ? all == UINT64_MAX : port && refused != (lent ? 0 : 3);
}
