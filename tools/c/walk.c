/* Tells beforehand, by the walk that the header describes, whether imdagluz_renumber refuses a circuit for 7 or 8 and which literal it names, which
 * variables have an image, and what the latch's reset becomes, and holds the call to it on random small circuits with every choice of flags.
 * Exit status: 0 when all are as told, with every kind of answer among them, and the line that says so was written, else 1. */
#include "imdagluz.h"
#include <inttypes.h>
#include <stdio.h>

enum { CIRCUITS = 300000, TOP = 9, INPUTS = 1, LATCHES = 1, GATES = 5, ROOTS = 2, DEEPEST = 2 * GATES };

struct circuit { uint32_t inputs[INPUTS], states[LATCHES], nexts[LATCHES], resets[LATCHES], gates[3 * GATES], roots[ROOTS]; };

struct walk { uint32_t path[DEEPEST], length, refused, literal; int has_image[TOP + 1]; };

static uint64_t state = 88172645463325252u;
static uint32_t below(uint32_t bound) {
    state ^= state << 13;
    state ^= state >> 7;
    state ^= state << 17;
    return (uint32_t)(state >> 32) % bound;
}

/* A circuit whose definitions are of different variables, with either sign, and whose other literals are any; most name few variables. */
static struct circuit some_circuit(void) {
    struct circuit c;
    uint32_t variables[TOP], used = 0, few = 2 + below(2 * TOP);
    for (uint32_t i = 0; i < TOP; i++) variables[i] = i + 1;
    for (uint32_t i = 0; i < TOP; i++) {
        uint32_t other = i + below(TOP - i), kept = variables[i];
        variables[i] = variables[other];
        variables[other] = kept;
    }
#define DEFINED (2 * variables[used++] + below(2))
#define ANY (below(few) ? 2 * variables[below(INPUTS + LATCHES + GATES)] + below(2) : below(2 * TOP + 2))
    c.inputs[0] = DEFINED;
    c.states[0] = DEFINED;
    c.resets[0] = below(3) ? below(2) : c.states[0];
    for (int g = 0; g < GATES; g++) {
        c.gates[3 * g] = DEFINED;
        c.gates[3 * g + 1] = ANY;
        c.gates[3 * g + 2] = below(8) ? c.gates[3 * below((uint32_t)g + 1)] ^ below(2) : ANY;
        if (below(4)) c.gates[3 * g + 2] = below(2) ? c.inputs[0] : c.states[0];
    }
    c.nexts[0] = ANY;
    for (int r = 0; r < ROOTS; r++) c.roots[r] = ANY;
    return c;
}

static void walk(struct walk *w, const struct circuit *c, uint32_t literal) {
    if (w->refused != 0 || w->has_image[literal / 2]) return;
    int gate = 0;
    while (gate < GATES && c->gates[3 * gate] / 2 != literal / 2) gate++;
    if (w->length != 0 && w->path[w->length / 2] == literal) w->refused = IMDAGLUZ_CYCLE;
    else if (gate == GATES) w->refused = IMDAGLUZ_UNDEFINED;
    if (w->refused != 0) {
        w->literal = literal;
        return;
    }
    w->path[w->length++] = literal;
    walk(w, c, c->gates[3 * gate + 1]);
    walk(w, c, c->gates[3 * gate + 2]);
    w->length--;
    if (w->refused == 0) w->has_image[literal / 2] = 1;
}

static struct walk told(const struct circuit *c, uint32_t flags) {
    struct walk w = {{0}, 0, 0, 0, {1}};
    w.has_image[c->inputs[0] / 2] = w.has_image[c->states[0] / 2] = 1;
    for (int g = 0; g < GATES && !(flags & IMDAGLUZ_TRIM); g++) walk(&w, c, c->gates[3 * g]);
    walk(&w, c, c->nexts[0]);
    for (int r = 0; r < ROOTS; r++) walk(&w, c, c->roots[r]);
    return w;
}

int main(void) {
    static const uint32_t counts[5] = {ROOTS, 0, 0, 0, 0};
    unsigned long ordered = 0, undefined = 0, cycles = 0;
    for (long n = 0; n < CIRCUITS; n++) {
        struct circuit c = some_circuit();
        uint32_t map[TOP + 1], next_images[LATCHES], reset_images[LATCHES], root_images[ROOTS], gates_out[2 * GATES];
        uint32_t scratch[3 * TOP + 3 + 3 * GATES], answer[3];
        uint32_t flags = (uint32_t)n % 8;
        struct walk w = told(&c, flags);
        uint32_t got = imdagluz_renumber(TOP, counts, 5, flags, c.inputs, INPUTS, c.states, LATCHES, c.nexts, LATCHES, c.resets, LATCHES, c.gates,
                                         3 * GATES, c.roots, ROOTS, map, TOP + 1, next_images, LATCHES, reset_images, LATCHES, root_images, ROOTS,
                                         gates_out, 2 * GATES, scratch, 3 * TOP + 3 + 3 * GATES, answer, 3);
        int good = got == w.refused && answer[0] == w.literal;
        good &= reset_images[0] == (got != 0 ? 0 : c.resets[0] < 2 ? c.resets[0] : 2 * (INPUTS + 1));
        for (int v = 0; v <= TOP && got == 0; v++) good &= (map[v] != IMDAGLUZ_NO_IMAGE) == w.has_image[v];
        if (!good) {
            printf("circuit %ld: told %" PRIu32 " and literal %" PRIu32 ", answered %" PRIu32 " and %" PRIu32
                   ", or another variable has an image, or the reset another one\n", n, w.refused, w.literal, got, answer[0]);
            return 1;
        }
        ordered += got == 0;
        undefined += got == IMDAGLUZ_UNDEFINED;
        cycles += got == IMDAGLUZ_CYCLE;
    }
    printf("%d circuits as the walk tells: %lu ordered, refusals 7: %lu, 8: %lu\n", CIRCUITS, ordered, undefined, cycles);
    if (fflush(stdout) != 0 || ferror(stdout)) {
        fputs("walk: standard output can't be written\n", stderr);
        return 1;
    }
    return ordered == 0 || undefined == 0 || cycles == 0;
}
