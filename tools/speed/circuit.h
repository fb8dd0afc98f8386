/* An ordered circuit for the drivers that write one, in lists of the limits' length, and the crate's record of it.
 *
 * KIND `mixed`: SIZE gates over a twenty-fifth as many inputs and a hundred and twenty-fifth as many latches, every second one with a reset, 1 or its own
 * literal by turns; each gate's inputs are drawn from all that stands before it, half of them from the last hundred; a twentieth as many outputs, a hundredth as
 * many bad states, and as many constraints, justice sets of two literals and fairness constraints. `gates`: SIZE gates over two inputs, whose inputs are among
 * the last thirty variables, so that every delta is one byte. `far`: SIZE gates over two inputs, whose inputs are drawn from all that stands before. `inputs`: SIZE
 * inputs and nothing else. `lines`: SIZE outputs of any literal over half as many inputs. `latches`: SIZE latches, with resets as in mixed. `zeros`: the same,
 * each reset 0. */
#ifndef CIRCUIT_H
#define CIRCUIT_H
#include "imdagluz.h"
#include <stdio.h>
#include <stdlib.h>
#include <string.h>
#include <time.h>

enum { LIMIT = 1048575, ROOM = 76 + 32 * LIMIT };

/* The crate's record of a circuit. */
void *crate_ordered(uint32_t inputs, const uint32_t *counts, const uint32_t *nexts, size_t nexts_length, const uint32_t *resets, const uint32_t *gates,
                    size_t gates_length, const uint32_t *sizes, size_t sizes_length, const uint32_t *roots, size_t roots_length);

static uint32_t inputs, latches, count, counts[5], sets;
static uint32_t nexts[LIMIT], resets[LIMIT], gates[2 * LIMIT], sizes[LIMIT], roots[LIMIT];
static uint8_t out[ROOM];
static uint64_t state = 1;

static uint64_t random64(void) {
    state += 0x9e3779b97f4a7c15u;
    uint64_t z = state;
    z = (z ^ (z >> 30)) * 0xbf58476d1ce4e5b9u;
    z = (z ^ (z >> 27)) * 0x94d049bb133111ebu;
    return z ^ (z >> 31);
}

/* A literal of a variable up to `before`; of the last `near` of them only, if that is not 0. */
static uint32_t draw(uint32_t before, uint32_t near) {
    uint32_t from = near && near < before ? before - near : 0;
    return 2 * (from + 1 + (uint32_t)(random64() % (before - from))) + (uint32_t)(random64() % 2);
}

static uint32_t root_count(void) { return counts[0] + counts[1] + counts[2] + counts[3] + counts[4]; }

/* The circuit of a kind and size; 0 where there is no such kind, or it is over the limits. */
static int circuit(const char *kind, uint32_t size) {
    int mixed = strcmp(kind, "mixed") == 0, near = strcmp(kind, "gates") == 0, far = strcmp(kind, "far") == 0, alone = strcmp(kind, "inputs") == 0;
    int lines = strcmp(kind, "lines") == 0, zeros = strcmp(kind, "zeros") == 0, latched = zeros || strcmp(kind, "latches") == 0;
    if (!(mixed || near || far || alone || lines || latched) || size == 0) return 0;
    inputs = mixed ? size / 25 + 2 : alone ? size : lines ? size / 2 : latched ? 0 : 2, latches = mixed ? size / 125 : latched ? size : 0;
    count = alone || lines || latched ? 0 : size;
    uint32_t outputs = mixed ? size / 20 : lines ? size : 0, others = mixed ? size / 100 : 0, top = inputs + latches + count;
    if (top > LIMIT) return 0;
    sets = others;
    counts[0] = outputs, counts[1] = counts[2] = counts[3] = others, counts[4] = 2 * others;
    for (uint32_t k = 0; k < latches; k++) nexts[k] = draw(top, 0), resets[k] = zeros ? 0 : k % 4 == 3 ? 2 * (inputs + 1 + k) : k % 4 == 1;
    for (uint32_t k = 0; k < outputs + 5 * others; k++) roots[k] = draw(top, 0);
    for (uint32_t k = 0; k < sets; k++) sizes[k] = 2;
    for (uint32_t k = 0; k < count; k++) {
        uint32_t before = inputs + latches + k;
        uint32_t first = draw(before, mixed && random64() % 2 ? 100 : near ? 30 : 0), second = draw(before, mixed && random64() % 2 ? 100 : near ? 30 : 0);
        gates[2 * k] = first > second ? first : second;
        gates[2 * k + 1] = first > second ? second : first;
    }
    return 1;
}

static inline void *record_of(void) { return crate_ordered(inputs, counts, nexts, latches, resets, gates, 2 * (size_t)count, sizes, sets, roots, root_count()); }

static double now(void) {
    struct timespec t;
    clock_gettime(CLOCK_MONOTONIC, &t);
    return (double)t.tv_sec * 1e3 + (double)t.tv_nsec * 1e-6;
}

#endif
