/* Renumbers a circuit of a million gates with imdagluz_renumber, once for each of some flags. The gates stand backwards: the one that needs most comes
 * first and has the smallest code; and so do the latches, of which every third starts at 0, at 1, and at either. Then it has a circuit refused for a cycle.
 * Prints a line a call; a success's says whether the new gates are in order, and whether each latch starts as it did.
 *
 * Exit status: 0 when all is as promised and every line was written, 1 when a gate is out of order, a latch starts otherwise, an answer is not as it
 * should be or a line could not be written, 2 when there is no memory. */
#include "imdagluz.h"
#include <inttypes.h>
#include <stdio.h>
#include <stdlib.h>

enum { INPUTS = 1000, LATCHES = 1000, GATES = 1000000, ROOTS = 3, TOP = INPUTS + LATCHES + GATES, SCRATCH = 3 * TOP + 3 + 3 * GATES };

struct words { uint32_t *at; size_t length; };

static struct words lend(size_t length) {
    struct words words = {malloc(length * sizeof(uint32_t)), length};
    if (words.at == NULL) {
        fputs("renumber: no memory\n", stderr);
        exit(2);
    }
    return words;
}

/* The code of the k-th gate by depth: the deeper a gate, the smaller its code. The deepest 500 gates are needed by no next state and no root. */
static uint32_t gate_code(uint32_t k) { return 2 * (TOP - k); }

/* What the k-th gate takes second: an input, a latch or a gate before it, negated or not. */
static uint32_t second_of(uint32_t k) {
    uint32_t mixed = (k + 1) * UINT32_C(2654435761) >> 7;
    uint32_t pick = mixed % (INPUTS + LATCHES + k);
    return (pick < INPUTS + LATCHES ? 2 * (pick + 1) : gate_code(pick - INPUTS - LATCHES)) + mixed / 2 % 2;
}

/* Each gate takes the one before it, negated; every tenth takes it twice, and every hundredth is a twin of the gate before it. */
static void fill_gate(uint32_t k, uint32_t *gate) {
    uint32_t like = k % 100 == 99 ? k - 1 : k;
    gate[0] = gate_code(k);
    gate[1] = like == 0 ? 2 : gate_code(like - 1) + 1;
    gate[2] = like % 10 == 5 ? gate[1] : second_of(like);
}

/* Whether each gate made has a code above its larger input, and the larger input first. */
static int in_order(const uint32_t *gates, uint32_t made) {
    for (uint32_t k = 0; k < made; k++) {
        uint32_t code = 2 * (INPUTS + LATCHES + 1 + k), larger = gates[2 * k], smaller = gates[2 * k + 1];
        if (larger >= code || smaller > larger) return 0;
    }
    return 1;
}

/* What the i-th latch starts at: 0, 1, or either, which is its own literal. */
static uint32_t reset_of(uint32_t i, uint32_t literal) { return i % 3 < 2 ? i % 3 : literal; }

/* Whether each latch starts as it did: one that starts at either has its new literal. */
static int starts_kept(const uint32_t *reset_images) {
    for (uint32_t i = 0; i < LATCHES; i++)
        if (reset_images[i] != reset_of(i, 2 * (INPUTS + i + 1))) return 0;
    return 1;
}

static int renumber_million(uint32_t flags) {
    static const uint32_t counts[5] = {1, 1, 0, 0, 1}, roots[ROOTS] = {2 * (INPUTS + LATCHES + 501), 2 * TOP + 1, 7};
    struct words inputs = lend(INPUTS), states = lend(LATCHES), nexts = lend(LATCHES), resets = lend(LATCHES);
    struct words gates = lend(3 * (size_t)GATES), map = lend(TOP + 1), next_images = lend(LATCHES), reset_images = lend(LATCHES);
    struct words root_images = lend(ROOTS), gates_out = lend(2 * (size_t)GATES), scratch = lend(SCRATCH);
    uint32_t answer[3];
    for (uint32_t i = 0; i < INPUTS; i++) inputs.at[i] = 2 * (i + 1);
    for (uint32_t i = 0; i < LATCHES; i++) {
        states.at[i] = 2 * (INPUTS + LATCHES - i);
        nexts.at[i] = gate_code(GATES / LATCHES * i);
        resets.at[i] = reset_of(i, states.at[i]);
    }
    for (uint32_t k = 0; k < GATES; k++) fill_gate(k, gates.at + 3 * (size_t)(GATES - 1 - k));
    uint32_t number = imdagluz_renumber(TOP, counts, 5, flags, inputs.at, inputs.length, states.at, states.length, nexts.at, nexts.length,
                                        resets.at, resets.length, gates.at, gates.length, roots, ROOTS, map.at, map.length, next_images.at,
                                        next_images.length, reset_images.at, reset_images.length, root_images.at, root_images.length, gates_out.at,
                                        gates_out.length, scratch.at, scratch.length, answer, 3);
    int ordered = number == 0 && in_order(gates_out.at, answer[1]), kept = number == 0 && starts_kept(reset_images.at);
    printf("flags %" PRIu32 ": answer %" PRIu32 ", gates made %" PRIu32 ", largest variable %" PRIu32 ", first root %" PRIu32 "; ", flags, number,
           answer[1], answer[2], root_images.at[0]);
    printf("each gate above its inputs, larger input first: %s; each latch starts as it did: %s\n", ordered ? "yes" : "no", kept ? "yes" : "no");
    struct words all[] = {inputs, states, nexts, resets, gates, map, next_images, reset_images, root_images, gates_out, scratch};
    for (size_t i = 0; i < sizeof all / sizeof *all; i++) free(all[i].at);
    return ordered && kept;
}

/* Gates 4(2,7) and 6(4,2): the variable 3 needs 2, which needs 3. */
static int renumber_cycle(void) {
    static const uint32_t counts[5] = {1, 0, 0, 0, 0}, inputs[1] = {2}, gates[6] = {4, 2, 7, 6, 4, 2}, roots[1] = {6}, none[1] = {0};
    uint32_t map[4], no_images[1], no_resets[1], root_images[1], gates_out[4], scratch[18], answer[3];
    uint32_t number = imdagluz_renumber(3, counts, 5, IMDAGLUZ_TRIM, inputs, 1, none, 0, none, 0, none, 0, gates, 6, roots, 1, map, 4, no_images, 0,
                                        no_resets, 0, root_images, 1, gates_out, 4, scratch, 18, answer, 3);
    printf("a cycle: answer %" PRIu32 ", literal %" PRIu32 "\n", number, answer[0]);
    return number == IMDAGLUZ_CYCLE;
}

int main(void) {
    static const uint32_t flags[] = {0, IMDAGLUZ_TRIM, IMDAGLUZ_HASH, IMDAGLUZ_FOLD, IMDAGLUZ_TRIM + IMDAGLUZ_HASH + IMDAGLUZ_FOLD};
    int good = 1;
    for (size_t i = 0; i < sizeof flags / sizeof *flags; i++) good &= renumber_million(flags[i]);
    good &= renumber_cycle();
    if (fflush(stdout) != 0 || ferror(stdout)) {
        fputs("renumber: standard output can't be written\n", stderr);
        return 1;
    }
    return good ? 0 : 1;
}
