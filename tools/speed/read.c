/* Reads one binary AIGER file from memory with the port and with the crate.
 *
 *   read port|crate KIND SIZE [TIMES]    TIMES: how often (1)
 *
 * KIND `mixed`: SIZE gates over a twenty-fifth as many inputs and a hundred and twenty-fifth as many latches, every second latch with a reset, 1 or its own
 * literal by turns; each gate's inputs are drawn from all that stands before it, half of them from the last hundred; a twentieth as many outputs, a hundredth as
 * many bad states, and as many constraints, justice sets of two literals and fairness constraints. `gates`: SIZE gates over two inputs, whose inputs are among
 * the last thirty variables, so that every delta is one byte. `far`: SIZE gates over two inputs, whose inputs are drawn from all that stands before. `lines`: SIZE
 * outputs of any literal over half as many inputs. `latches`: SIZE latches, every second one with a reset as in mixed.
 * Prints the bytes of the file and the sum of all that was read, on which both must agree, and with a clock the milliseconds of the fastest run. Only by_port and
 * by_crate are to be counted by an instruction counter. */
#include "imdagluz.h"
#include <stdio.h>
#include <stdlib.h>
#include <string.h>
#include <time.h>

/* The crate's reading of a file, NULL where it refuses it; and the sum of all words of a reading, which is dropped. */
void *crate_read(const uint8_t *bytes, size_t length);
uint64_t crate_sum(void *read);
void by_port(void);
void by_crate(void);

enum { LIMIT = 1048575 };

static uint8_t *bytes;
static size_t length;
static uint32_t nexts[LIMIT], resets[LIMIT], gates[2 * LIMIT], sizes[LIMIT], roots[LIMIT];
static uint64_t answer[11], state = 1;

static uint64_t random64(void) {
    state += 0x9e3779b97f4a7c15u;
    uint64_t z = state;
    z = (z ^ (z >> 30)) * 0xbf58476d1ce4e5b9u;
    z = (z ^ (z >> 27)) * 0x94d049bb133111ebu;
    return z ^ (z >> 31);
}

static void line(uint64_t number, const char *rest) { length += (size_t)sprintf((char *)bytes + length, "%llu%s", (unsigned long long)number, rest); }

/* A latch's line: every second one has a reset, 1 or the latch's own literal. */
static void latch(uint32_t k, uint32_t next, uint32_t own) {
    if (k % 4 == 3) length += (size_t)sprintf((char *)bytes + length, "%u %u\n", next, own);
    else line(next, k % 4 == 1 ? " 1\n" : "\n");
}

static void delta(uint32_t value) {
    for (; value > 127; value >>= 7) bytes[length++] = (uint8_t)(value | 128);
    bytes[length++] = (uint8_t)value;
}

/* A literal of a variable up to `before`; of the last `near` of them only, if that is not 0. */
static uint32_t draw(uint32_t before, uint32_t near) {
    uint32_t from = near && near < before ? before - near : 0;
    return 2 * (from + 1 + (uint32_t)(random64() % (before - from))) + (uint32_t)(random64() % 2);
}

static void gate(uint32_t output, int mixed, uint32_t near) {
    uint32_t first = draw(output / 2 - 1, mixed && random64() % 2 ? 100 : near), second = draw(output / 2 - 1, mixed && random64() % 2 ? 100 : near);
    uint32_t larger = first > second ? first : second;
    delta(output - larger);
    delta(larger - (first > second ? second : first));
}

static int make(const char *kind, uint32_t size) {
    int mixed = strcmp(kind, "mixed") == 0, near = strcmp(kind, "gates") == 0, far = strcmp(kind, "far") == 0;
    int lines = strcmp(kind, "lines") == 0, latched = strcmp(kind, "latches") == 0;
    if (!(mixed || near || far || lines || latched) || size == 0) return 0;
    uint32_t inputs = mixed ? size / 25 + 2 : lines ? size / 2 : latched ? 0 : 2, latches = mixed ? size / 125 : latched ? size : 0;
    uint32_t count = lines || latched ? 0 : size, outputs = mixed ? size / 20 : lines ? size : 0, others = mixed ? size / 100 : 0;
    uint32_t top = inputs + latches + count;
    if (top > LIMIT || !(bytes = malloc(64 + (size_t)size * 32))) return 0;
    length = (size_t)sprintf((char *)bytes, "aig %u %u %u %u %u %u %u %u %u\n", top, inputs, latches, outputs, count, others, others, others, others);
    for (uint32_t k = 0; k < latches; k++) latch(k, draw(top, 0), 2 * (inputs + 1 + k));
    for (uint32_t k = 0; k < outputs + 2 * others; k++) line(draw(top, 0), "\n");
    for (uint32_t k = 0; k < others; k++) line(2, "\n");
    for (uint32_t k = 0; k < 3 * others; k++) line(draw(top, 0), "\n");
    for (uint32_t k = 0; k < count; k++) gate(2 * (inputs + latches + 1 + k), mixed, near ? 30 : 0);
    return 1;
}

static uint64_t sum(const uint32_t *list, size_t count) {
    uint64_t total = 0;
    for (size_t k = 0; k < count; k++) total += list[k];
    return total;
}

static uint32_t refused;
static void *read;

__attribute__((noinline)) void by_port(void) {
    refused = imdagluz_read_aig(bytes, length, nexts, LIMIT, resets, LIMIT, gates, 2 * LIMIT, sizes, LIMIT, roots, LIMIT, answer, 11);
}

__attribute__((noinline)) void by_crate(void) { read = crate_read(bytes, length); }

/* The sum of what was read last, by the port or by the crate; UINT64_MAX for nothing. */
static uint64_t total(int port) {
    if (!port) return read ? crate_sum(read) : UINT64_MAX;
    if (refused) return UINT64_MAX;
    uint64_t count = answer[5] + answer[6] + answer[7] + answer[8] + answer[9];
    return sum(nexts, answer[3]) + sum(resets, answer[3]) + sum(gates, 2 * answer[4]) + sum(sizes, answer[10]) + sum(roots, count);
}

static double now(void) {
    struct timespec t;
    clock_gettime(CLOCK_MONOTONIC, &t);
    return (double)t.tv_sec * 1e3 + (double)t.tv_nsec * 1e-6;
}

int main(int argc, char **argv) {
    if (argc < 4 || !make(argv[2], (uint32_t)strtoul(argv[3], NULL, 10))) {
        fprintf(stderr, "usage: read port|crate KIND SIZE [TIMES] (the kinds stand above its source)\n");
        return 2;
    }
    int port = strcmp(argv[1], "port") == 0;
    uint64_t all = 0;
    double best = 1e18;
    for (long times = argc > 4 ? strtol(argv[4], NULL, 10) : 1; times > 0; times--) {
        double start = now();
        if (port) by_port(); else by_crate();
        double took = now() - start;
        if (took < best) best = took;
        all = total(port);
    }
    printf("%zu %llu\n", length, (unsigned long long)all);
    fprintf(stderr, "%.3f\n", best);
    return all == UINT64_MAX;
}
