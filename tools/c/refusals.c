/* Has imdagluz_renumber refuse a small circuit for each reason that the header gives, each alone and each two together, in lists that are longer than is
 * asked, and compares every word afterwards with what the header says. Then the circuit is taken with every choice of its two resets, which change the reset
 * images and nothing else. Exit status: 0 when all are as promised and the line that says so was written, else 1. */
#include "imdagluz.h"
#include <inttypes.h>
#include <stdio.h>
#include <string.h>

enum { LENT = 40, HELD = 9, TOP = 5, LATCHES = 2, ROOTS = 2, ANSWER = 6, LISTS = 7 };
enum { MAP, NEXT_IMAGES, RESET_IMAGES, ROOT_IMAGES, GATES_OUT, SCRATCH };

/* Input 2, latch 4 with next state 6 that starts at either, latch 11 with next state 9 that starts at 1, gates 6(2,4) and 8(6,6), roots 8 and 7. */
struct circuit {
    uint32_t top, flags, counts[6], inputs[2], states[2], nexts[3], resets[3], gates[6], roots[2];
    size_t counts_length, inputs_length, nexts_length, resets_length, gates_length, lent[LISTS];
};

static const struct circuit whole = {
    TOP, 0, {1, 1, 0, 0, 0, 0}, {2, 2}, {4, 11}, {6, 9, 0}, {4, 1, 0}, {6, 2, 4, 8, 6, 6}, {8, 7}, 5, 1, 2, 2, 6, {LENT, LENT, LENT, LENT, LENT, LENT, LENT},
};

static struct circuit given;
static uint32_t lists[LISTS][LENT];
static int cases, good = 1;

static uint32_t run(void) {
    const struct circuit *c = &given;
    const size_t *n = c->lent;
    for (int i = 0; i < LISTS; i++)
        for (int j = 0; j < LENT; j++) lists[i][j] = HELD;
    return imdagluz_renumber(c->top, c->counts, c->counts_length, c->flags, c->inputs, c->inputs_length, c->states, LATCHES, c->nexts, c->nexts_length,
                             c->resets, c->resets_length, c->gates, c->gates_length, c->roots, ROOTS, lists[MAP], n[MAP], lists[NEXT_IMAGES], n[NEXT_IMAGES],
                             lists[RESET_IMAGES], n[RESET_IMAGES], lists[ROOT_IMAGES], n[ROOT_IMAGES], lists[GATES_OUT], n[GATES_OUT],
                             lists[SCRATCH], n[SCRATCH], lists[ANSWER], n[ANSWER]);
}

/* Whether the first words of a list are the value, and the others what the list held. */
static int holds(int list, size_t first, uint32_t value) {
    for (size_t j = 0; j < LENT; j++)
        if (lists[list][j] != (j < first ? value : HELD)) return 0;
    return 1;
}

/* A refusal: its number and literal, what it sets in the six lists, and nothing else. */
static void refuses(const char *what, uint32_t number, uint32_t literal) {
    uint32_t got = run(), first = lists[ANSWER][0];
    size_t clears = number > 4 && number < 9, gates = given.gates_length / 3;
    int same = got == number && holds(MAP, clears * (TOP + 1), IMDAGLUZ_NO_IMAGE) && holds(NEXT_IMAGES, clears * LATCHES, 0)
        && holds(RESET_IMAGES, clears * LATCHES, 0) && holds(ROOT_IMAGES, clears * ROOTS, 0) && holds(GATES_OUT, clears * 2 * gates, 0)
        && holds(SCRATCH, clears * (3 * TOP + 3 + 3 * gates), 0);
    lists[ANSWER][0] = 0;
    same &= first == literal && holds(ANSWER, 3, 0);
    if (!same) printf("%s: answer %" PRIu32 ", literal %" PRIu32 ", or a list is not as promised\n", what, got, first);
    good &= same;
    cases++;
}

/* What can be wrong, in the order of the tests: the refusal's number and its literal. A reset that a change of its latch's state would make stray is 0 there. */
static void flags_over(void) { given.flags = 8; }
static void counts_six(void) { given.counts_length = 6; }
static void counts_four(void) { given.counts_length = 4; }
static void top_over(void) { given.top = 1048576; }
static void counts_more(void) { given.counts[0] = 2; }
static void nexts_short(void) { given.nexts_length = 1; }
static void nexts_long(void) { given.nexts_length = 3; }
static void resets_short(void) { given.resets_length = 1; }
static void resets_none(void) { given.resets_length = 0; }
static void resets_long(void) { given.resets_length = 3; }
static void gates_odd(void) { given.gates_length = 5; }
static void map_short(void) { given.lent[MAP] = TOP; }
static void next_images_short(void) { given.lent[NEXT_IMAGES] = 1; }
static void reset_images_short(void) { given.lent[RESET_IMAGES] = 1; }
static void reset_images_none(void) { given.lent[RESET_IMAGES] = 0; }
static void root_images_short(void) { given.lent[ROOT_IMAGES] = 1; }
static void gates_out_short(void) { given.lent[GATES_OUT] = 1; }
static void scratch_short(void) { given.lent[SCRATCH] = 20; }
static void input_over(void) { given.inputs[0] = 12; }
static void gate_over(void) { given.gates[1] = 13; }
static void state_over(void) { given.states[0] = 14; }
static void next_over(void) { given.nexts[0] = 15; }
static void reset_over(void) { given.resets[0] = 16; }
static void other_state_over(void) { given.states[1] = 17; }
static void other_next_over(void) { given.nexts[1] = 18; }
static void other_reset_over(void) { given.resets[1] = 4294967295; }
static void root_over(void) { given.roots[1] = 12; }
static void reset_negated(void) { given.resets[0] = 5; }
static void reset_input(void) { given.resets[0] = 2; }
static void reset_of_other(void) { given.resets[0] = 11; }
static void reset_of_odd(void) { given.states[0] = 3, given.resets[0] = 2; }
static void other_reset_negated(void) { given.resets[1] = 10; }
static void other_reset_gate(void) { given.resets[1] = 6; }
static void input_twice(void) { given.inputs_length = 2; }
static void gate_constant(void) { given.gates[0] = 1; }
static void state_input(void) { given.states[0] = 3, given.resets[0] = 3; }
static void state_constant(void) { given.states[0] = 1, given.resets[0] = 1; }
static void state_gate(void) { given.states[1] = 7, given.resets[1] = 7; }
static void gate_missing(void) { given.gates_length = 3; }
static void gate_itself(void) { given.gates[5] = 8; }
static const struct wrong { const char *what; void (*apply)(void); uint32_t number, literal; } wrongs[] = {
    {"flags 8", flags_over, 2, 0},
    {"six counts", counts_six, 2, 0},
    {"four counts", counts_four, 2, 0},
    {"V over its limit", top_over, 1, 0},
    {"counts that do not add up", counts_more, 2, 0},
    {"a next state too few", nexts_short, 2, 0},
    {"a next state too many", nexts_long, 2, 0},
    {"a reset too few", resets_short, 2, 0},
    {"no resets", resets_none, 2, 0},
    {"a reset too many", resets_long, 2, 0},
    {"five words of gates", gates_odd, 2, 0},
    {"a short map", map_short, 3, 0},
    {"short next images", next_images_short, 3, 0},
    {"short reset images", reset_images_short, 3, 0},
    {"no reset images", reset_images_none, 3, 0},
    {"short root images", root_images_short, 3, 0},
    {"short gates", gates_out_short, 3, 0},
    {"a short scratch", scratch_short, 3, 0},
    {"an input over 2V+1", input_over, 4, 12},
    {"a gate's input over 2V+1", gate_over, 4, 13},
    {"a state over 2V+1", state_over, 4, 14},
    {"a next state over 2V+1", next_over, 4, 15},
    {"a reset over 2V+1", reset_over, 4, 16},
    {"the second latch's state over 2V+1", other_state_over, 4, 17},
    {"the second latch's next state over 2V+1", other_next_over, 4, 18},
    {"the second latch's reset over 2V+1", other_reset_over, 4, 4294967295},
    {"a root over 2V+1", root_over, 4, 12},
    {"a latch's own literal negated for its reset", reset_negated, 22, 5},
    {"an input for a reset", reset_input, 22, 2},
    {"the other latch for a reset", reset_of_other, 22, 11},
    {"a reset 2 of the state 3", reset_of_odd, 22, 2},
    {"an odd state negated for its reset", other_reset_negated, 22, 10},
    {"a gate for a reset", other_reset_gate, 22, 6},
    {"an input twice", input_twice, 5, 2},
    {"a gate's output 1", gate_constant, 5, 1},
    {"an input for a state, unset", state_input, 6, 3},
    {"a constant for a state, with that reset", state_constant, 6, 1},
    {"a gate's output for a state, unset", state_gate, 6, 7},
    {"a next state that is not defined", gate_missing, 7, 9},
    {"a gate that needs itself", gate_itself, 8, 8},
};
enum { WRONGS = sizeof wrongs / sizeof wrongs[0] };

static void refusals(void) {
    for (int i = 0; i < WRONGS; i++)
        for (int j = i; j < WRONGS; j++) {
            char what[120];
            snprintf(what, sizeof what, "%s, %s", wrongs[i].what, wrongs[j].what);
            given = whole;
            if (j != i) wrongs[j].apply();
            wrongs[i].apply();
            refuses(what, wrongs[i].number, wrongs[i].literal);
            /* too few answer words come before all else, and nothing is written */
            given.lent[ANSWER] = 2;
            if (run() != 3) printf("%s: two answer words are not refused\n", what), good = 0;
            for (int list = 0; list < LISTS; list++) good &= holds(list, 0, 0);
            cases++;
        }
}

/* A success with these resets: the reset images, and all else as with the resets 0. */
static void takes(uint32_t one, uint32_t other, uint32_t one_image, uint32_t other_image) {
    uint32_t before[LISTS][LENT];
    uint32_t resets[3] = {one, other, HELD};
    memset(given.resets, 0, sizeof given.resets);
    int same = run() == 0 && lists[RESET_IMAGES][0] == 0 && lists[RESET_IMAGES][1] == 0 && lists[RESET_IMAGES][2] == HELD;
    memcpy(before, lists, sizeof lists);
    memcpy(given.resets, resets, sizeof resets);
    before[RESET_IMAGES][0] = one_image, before[RESET_IMAGES][1] = other_image;
    same &= run() == 0 && memcmp(before, lists, sizeof lists) == 0;
    if (!same) printf("resets %" PRIu32 " and %" PRIu32 ": not carried through as promised\n", one, other);
    good &= same;
    cases++;
}

static void successes(void) {
    for (uint32_t i = 0; i < 3; i++)
        for (uint32_t j = 0; j < 3; j++) {
            given = whole;
            takes(i < 2 ? i : 4, j < 2 ? j : 11, i < 2 ? i : 4, j < 2 ? j : 6);
            /* the state 3 with the reset 3, where the input is 5 */
            given = whole;
            given.inputs[0] = 5, given.states[0] = 3;
            takes(i < 2 ? i : 3, j < 2 ? j : 11, i < 2 ? i : 4, j < 2 ? j : 6);
            /* lists that are just long enough */
            static const size_t needed[LISTS] = {TOP + 1, LATCHES, LATCHES, ROOTS, 4, 3 * TOP + 3 + 6, 3};
            given = whole;
            memcpy(given.lent, needed, sizeof needed);
            takes(i < 2 ? i : 4, j < 2 ? j : 11, i < 2 ? i : 4, j < 2 ? j : 6);
        }
}

int main(void) {
    refusals();
    successes();
    if (good) printf("%d refusals and resets as promised\n", cases);
    if (fflush(stdout) != 0 || ferror(stdout)) {
        fputs("refusals: standard output can't be written\n", stderr);
        return 1;
    }
    return good ? 0 : 1;
}
