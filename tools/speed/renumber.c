/* Renumbers one circuit with the port and with the crate, from the same lists.
 *
 *   renumber port|crate KIND GATES FLAGS [TIMES]    GATES: how many; FLAGS: trim 1, hash 2, fold 4; TIMES: how often (1)
 *   renumber port|crate file FILE FLAGS [TIMES]     a text file (aag) with no roots but outputs
 *
 * KIND `mixed`: as many inputs as a twenty-fifth of the gates, at least two; each gate's inputs are drawn from all that stands before it, half of them
 * from the last hundred; a twentieth of the inputs are constants, and a tenth of the gates repeat the pair of an earlier one, so that folding and
 * hashing have work; gates are listed in a random order; the last twentieth of the gates are roots. `registers`: the same with a latch for every four gates,
 * whose next state is drawn in the same way, and which starts at 0, at 1, or at either by turns.
 * In all other kinds the last input is the larger input of every gate. `random`: as many inputs as gates, each the other input of one gate, in a random
 * order; `rising`, `falling`: the same in the order of the inputs, or against it; `bits`: in a random order, and of eight times as many inputs, or as many
 * as the limits allow if that is less, those whose codes agree in their low bits; `most-bits`: the same of as many inputs as the limits allow. With
 * `signs-` before one of these each of half as many other inputs has a gate with either sign of the last one.
 * `repeated`: both signs of a third as many inputs, then the first gate again and again. `deepest`: 23 gates such that all 22 bits of the last one's key lead
 * to it, and then that one again and again, over 1,048,575 variables in all. Prints the gates made, on which both must agree, and with a clock the
 * milliseconds of the fastest run. Only by_port and by_crate are to be counted by an instruction counter. */
#include "imdagluz.h"
#include <stdio.h>
#include <stdlib.h>
#include <string.h>
#include <time.h>

void *crate_circuit(uint32_t top, const uint32_t *inputs, size_t inputs_length, const uint32_t *states, const uint32_t *nexts, const uint32_t *resets,
                    size_t latches, const uint32_t *gates, size_t gates_length, const uint32_t *roots, size_t roots_length);
uint32_t crate_renumber(const void *circuit, uint32_t flags);
uint32_t by_port(uint32_t flags);
uint32_t by_crate(uint32_t flags);

static uint32_t top, *inputs, *states, *nexts, *resets, *gates, *roots, *map, *next_images, *reset_images, *root_images, *gates_out, *scratch;
static size_t input_count, latch_count, gate_count, root_count;
static void *circuit;
static uint64_t state = 1;

/* document 01's limit, and a code of 21 bits of which any bit can be flipped and the variable is still below 800,000 */
enum { LIMIT = 1048575, DEEP = 0x105554 };

static uint64_t random64(void) {
    state += 0x9e3779b97f4a7c15u;
    uint64_t z = state;
    z = (z ^ (z >> 30)) * 0xbf58476d1ce4e5b9u;
    z = (z ^ (z >> 27)) * 0x94d049bb133111ebu;
    return z ^ (z >> 31);
}

static uint32_t draw(uint32_t before) {
    if (random64() % 20 == 0) return (uint32_t)(random64() % 2);
    uint32_t near = before < 100 ? before : 100;
    uint32_t variable = random64() % 2 ? 1 + (uint32_t)(random64() % before) : before - (uint32_t)(random64() % near);
    return 2 * variable + (uint32_t)(random64() % 2);
}

static int lists(void) {
    inputs = malloc(4 * input_count + 4);
    states = malloc(4 * latch_count + 4);
    nexts = malloc(4 * latch_count + 4);
    resets = malloc(4 * latch_count + 4);
    next_images = malloc(4 * latch_count + 4);
    reset_images = malloc(4 * latch_count + 4);
    gates = malloc(12 * gate_count);
    roots = malloc(4 * root_count);
    map = malloc(4 * ((size_t)top + 1));
    root_images = malloc(4 * root_count);
    gates_out = malloc(8 * gate_count);
    scratch = malloc(4 * (3 * (size_t)top + 3 + 3 * gate_count));
    return inputs && states && nexts && resets && next_images && reset_images && gates && roots && map && root_images && gates_out && scratch;
}

static void shuffle(void) {
    for (size_t k = gate_count - 1; k > 0; k--) {
        size_t other = random64() % (k + 1);
        for (int i = 0; i < 3; i++) {
            uint32_t word = gates[3 * k + i];
            gates[3 * k + i] = gates[3 * other + i];
            gates[3 * other + i] = word;
        }
    }
}

static int make(const char *kind, size_t count) {
    int registers = strcmp(kind, "registers") == 0, mixed = registers || strcmp(kind, "mixed") == 0, signs = strncmp(kind, "signs-", 6) == 0;
    int repeated = strcmp(kind, "repeated") == 0, deepest = strcmp(kind, "deepest") == 0;
    const char *order = signs ? kind + 6 : kind;
    int falling = strcmp(order, "falling") == 0, in_order = falling || strcmp(order, "rising") == 0 || repeated || deepest;
    size_t others = signs ? count / 2 : count, stride = 1, most = strcmp(order, "bits") == 0 ? 8 : strcmp(order, "most-bits") == 0 ? LIMIT : 1;
    while (stride < most && 2 * stride * others + 1 + count <= LIMIT) stride *= 2;
    if (!(mixed || repeated || deepest || in_order || most > 1 || strcmp(order, "random") == 0) || count == 0) return 0;
    gate_count = count;
    root_count = count / 20 < 1 ? 1 : count / 20;
    input_count = mixed ? (count / 25 < 2 ? 2 : count / 25) : deepest ? LIMIT - count : repeated ? (count + 2) / 3 + 1 : stride * others + 1;
    latch_count = registers ? count / 4 : 0;
    top = (uint32_t)(input_count + latch_count + count);
    if (!lists()) return 0;
    for (size_t k = 0; k < input_count; k++) inputs[k] = (uint32_t)(2 * (k + 1));
    for (size_t k = 0; k < latch_count; k++) {
        states[k] = (uint32_t)(2 * (input_count + k + 1));
        nexts[k] = draw(top);
        resets[k] = k % 3 < 2 ? (uint32_t)(k % 3) : states[k];
    }
    for (size_t k = 0; k < count; k++) {
        uint32_t *gate = gates + 3 * k, before = (uint32_t)(input_count + latch_count + k), shared = (uint32_t)(2 * input_count);
        gate[0] = 2 * (before + 1);
        if (mixed) {
            gate[1] = draw(before);
            gate[2] = draw(before);
            if (k > 0 && random64() % 10 == 0) memcpy(gate + 1, gates + 3 * (random64() % k) + 1, 8);
        } else if (deepest) {
            gate[1] = k == 0 ? shared + 1 : shared;
            gate[2] = DEEP ^ (k == 0 || k > 21 ? 0 : (uint32_t)1 << (k - 1));
        } else if (repeated) {
            size_t new = k < 2 * (input_count - 1) ? k : 0;
            gate[1] = shared;
            gate[2] = (uint32_t)(2 * (new / 2 + 1) + new % 2);
        } else {
            size_t other = signs ? k / 2 : k;
            gate[1] = shared + (signs ? (uint32_t)(k % 2) : 0);
            gate[2] = (uint32_t)(2 * (stride * (falling ? others - 1 - other : other) + 1));
        }
    }
    for (size_t k = 0; k < root_count; k++) roots[k] = gates[3 * (count - root_count + k)];
    if (!in_order) shuffle();
    return 1;
}

/* The next number of a file, on the same line or on a later one. */
static uint32_t number(FILE *file) {
    unsigned value;
    if (fscanf(file, "%u", &value) != 1) exit(2);
    return value;
}

static int read(const char *path) {
    FILE *file = fopen(path, "r");
    if (!file || fscanf(file, "aag") != 0) return 0;
    top = number(file);
    input_count = number(file);
    latch_count = number(file);
    root_count = number(file);
    gate_count = number(file);
    if (!lists()) return 0;
    for (size_t k = 0; k < input_count; k++) inputs[k] = number(file);
    for (size_t k = 0; k < latch_count; k++) {
        states[k] = number(file);
        nexts[k] = number(file);
        resets[k] = getc(file) == ' ' ? number(file) : 0;
    }
    for (size_t k = 0; k < root_count; k++) roots[k] = number(file);
    for (size_t k = 0; k < 3 * gate_count; k++) gates[k] = number(file);
    return fclose(file) == 0;
}

__attribute__((noinline)) uint32_t by_port(uint32_t flags) {
    uint32_t counts[5] = {(uint32_t)root_count, 0, 0, 0, 0};
    uint32_t answer[3];
    uint32_t refused = imdagluz_renumber(top, counts, 5, flags, inputs, input_count, states, latch_count, nexts, latch_count, resets, latch_count,
                                         gates, 3 * gate_count, roots, root_count, map, (size_t)top + 1, next_images, latch_count, reset_images, latch_count,
                                         root_images, root_count, gates_out, 2 * gate_count, scratch,
                                         3 * (size_t)top + 3 + 3 * gate_count, answer, 3);
    return refused == 0 ? answer[1] : UINT32_MAX;
}

__attribute__((noinline)) uint32_t by_crate(uint32_t flags) { return crate_renumber(circuit, flags); }

static double now(void) {
    struct timespec t;
    clock_gettime(CLOCK_MONOTONIC, &t);
    return (double)t.tv_sec * 1e3 + (double)t.tv_nsec * 1e-6;
}

int main(int argc, char **argv) {
    int whole = argc > 4 && strcmp(argv[2], "file") == 0;
    if (argc < 5 || !(whole ? read(argv[3]) : make(argv[2], strtoul(argv[3], NULL, 10)))) {
        fprintf(stderr, "usage: renumber port|crate KIND GATES FLAGS [TIMES] (the kinds stand above its source)\n");
        return 2;
    }
    circuit = crate_circuit(top, inputs, input_count, states, nexts, resets, latch_count, gates, 3 * gate_count, roots, root_count);
    uint32_t flags = (uint32_t)strtoul(argv[4], NULL, 10), made = 0;
    double best = 1e18;
    for (long times = argc > 5 ? strtol(argv[5], NULL, 10) : 1; times > 0; times--) {
        double start = now();
        made = strcmp(argv[1], "port") == 0 ? by_port(flags) : by_crate(flags);
        double took = now() - start;
        if (took < best) best = took;
    }
    printf("%u\n", made);
    fprintf(stderr, "%.3f\n", best);
    return made == UINT32_MAX;
}
