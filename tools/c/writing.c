/* Has imdagluz_write_aig and then imdagluz_write_aag write and refuse circuits as the header says: each refusal alone and each two together, the empty
 * circuit, resets of each kind, every pattern of optional counts, deltas about the borders of their lengths, a circuit of the limits, and random ones,
 * 20,000 as binary files and 5,000 as texts. What is written is compared with an independent spelling and read back with imdagluz_read_aig or
 * imdagluz_read_aag; with no byte and with a byte too few it is measured. Bytes and words past those lent, and those lent past what is written, are
 * compared too. Exit status: 0 when all are as promised and the line that says so was written, else 1. */
#include "imdagluz.h"
#include <inttypes.h>
#include <stdio.h>
#include <string.h>

enum { LIST = IMDAGLUZ_LIST, PAST = 16, HELD = 165, LENT = 3, WORDS = 2, MOST = 76 + 40 * LIST };

struct list { uint32_t *words; size_t length; };
struct circuit { uint32_t inputs; struct list counts, nexts, resets, gates, sizes, roots; };

static uint32_t counts[8], nexts[LIST + 1], resets[LIST + 1], gates[2 * LIST + 2], sizes[LIST + 1], roots[LIST + 1];
static uint32_t nexts_back[LIST], resets_back[LIST], gates_back[3 * LIST], sizes_back[LIST], roots_back[LIST];
static uint32_t inputs_back[LIST], states_back[LIST];
static uint8_t out[MOST + 2 * PAST], spelt[MOST];
static uint64_t answer[LENT + PAST];
static struct circuit given;
static int cases, good = 1, text;

static void failed(const char *what) {
    printf("%s: not as promised%s\n", what, text ? " as a text" : "");
    good = 0;
}

/* Calls with so many bytes and answer words; everything past them holds a known number. */
static uint32_t call(size_t bytes, size_t words) {
    memset(out, HELD, bytes + PAST);
    for (int i = 0; i < LENT + PAST; i++) answer[i] = HELD;
    return (text ? imdagluz_write_aag : imdagluz_write_aig)(
        given.inputs, given.counts.words, given.counts.length, given.nexts.words, given.nexts.length, given.resets.words, given.resets.length,
        given.gates.words, given.gates.length, given.sizes.words, given.sizes.length, given.roots.words, given.roots.length, out, bytes, answer, words);
}

/* Whether the bytes from n to the end of the room past those lent are as they were, and the answer words from n on. */
static int bytes_kept(size_t n, size_t lent) {
    for (size_t i = n; i < lent + PAST; i++)
        if (out[i] != HELD) return 0;
    return 1;
}

static int words_kept(size_t n) {
    for (size_t i = n; i < LENT + PAST; i++)
        if (answer[i] != HELD) return 0;
    return 1;
}

/* A refusal with so many bytes lent: its number, the literal at fault, the bytes needed, and nothing else. */
static void refuses(const char *what, size_t bytes, uint32_t number, uint64_t literal, uint64_t needed) {
    if (call(bytes, LENT) != number || answer[0] != literal || answer[1] != needed || !bytes_kept(0, bytes) || !words_kept(WORDS)) failed(what);
    cases++;
}

/* The independent spelling of the circuit. */
static size_t put_line(size_t at, uint32_t v) { return at + (size_t)sprintf((char *)spelt + at, "%" PRIu32 "\n", v); }

/* A latch's line: a text has the state before the next state, and what is there for a first value of 0 is nothing. */
static size_t put_latch(size_t at, uint32_t state, uint32_t next, uint32_t reset) {
    if (text) at += (size_t)sprintf((char *)spelt + at, "%" PRIu32 " ", state);
    if (reset == 0) return put_line(at, next);
    return at + (size_t)sprintf((char *)spelt + at, "%" PRIu32 " %" PRIu32 "\n", next, reset);
}

static size_t put_delta(size_t at, uint32_t d) {
    while (d > 127) spelt[at++] = (uint8_t)(d | 128), d >>= 7;
    spelt[at++] = (uint8_t)d;
    return at;
}

/* A gate: in a text its line, else the two deltas. */
static size_t put_gate(size_t at, uint32_t code, uint32_t larger, uint32_t smaller) {
    if (text) return at + (size_t)sprintf((char *)spelt + at, "%" PRIu32 " %" PRIu32 " %" PRIu32 "\n", code, larger, smaller);
    return put_delta(put_delta(at, code - larger), larger - smaller);
}

static size_t spell(void) {
    const uint32_t *c = given.counts.words, n = given.inputs + (uint32_t)given.nexts.length, g = (uint32_t)given.gates.length / 2;
    uint32_t optional[4] = {c[1], c[2], (uint32_t)given.sizes.length, c[3]};
    int kept = 4;
    while (kept > 0 && optional[kept - 1] == 0) kept--;
    size_t at = (size_t)sprintf((char *)spelt, "%s %" PRIu32 " %" PRIu32 " %zu %" PRIu32 " %" PRIu32, text ? "aag" : "aig", n + g, given.inputs,
                                given.nexts.length, c[0], g);
    for (int i = 0; i < kept; i++) at += (size_t)sprintf((char *)spelt + at, " %" PRIu32, optional[i]);
    spelt[at++] = '\n';
    for (uint32_t i = 0; text && i < given.inputs; i++) at = put_line(at, 2 * (i + 1));
    for (size_t i = 0; i < given.nexts.length; i++) at = put_latch(at, (uint32_t)(2 * (given.inputs + 1 + i)), given.nexts.words[i], given.resets.words[i]);
    size_t fair = (size_t)c[0] + c[1] + c[2], justice = fair + c[3];
    for (size_t i = 0; i < fair; i++) at = put_line(at, given.roots.words[i]);
    for (size_t i = 0; i < given.sizes.length; i++) at = put_line(at, given.sizes.words[i]);
    for (size_t i = justice; i < justice + c[4]; i++) at = put_line(at, given.roots.words[i]);
    for (size_t i = fair; i < justice; i++) at = put_line(at, given.roots.words[i]);
    for (uint32_t k = 0; k < g; k++) at = put_gate(at, 2 * (n + 1 + k), given.gates.words[2 * k], given.gates.words[2 * k + 1]);
    return at;
}

static int same_list(struct list list, const uint32_t *words, uint64_t length) {
    return list.length == length && memcmp(list.words, words, length * sizeof *words) == 0;
}

/* Whether a list counts on by two from a first code, every so many words. */
static int counts_on(const uint32_t *words, size_t length, size_t step, uint32_t first) {
    for (size_t i = 0; i < length; i++)
        if (words[step * i] != first + 2 * i) return 0;
    return 1;
}

/* Whether a text is read as the circuit: its inputs, states and outputs count on, and the gates have the inputs that the circuit has. */
static int reads_text(size_t length, uint64_t read[11]) {
    if (imdagluz_read_aag(out, length, inputs_back, LIST, states_back, LIST, nexts_back, LIST, resets_back, LIST, gates_back, 3 * LIST, sizes_back, LIST,
                          roots_back, LIST, read, 11) != 0) return 0;
    uint32_t first = 2 * (uint32_t)(read[2] + 1);
    int same = counts_on(inputs_back, read[2], 1, 2) && counts_on(states_back, read[3], 1, first)
        && counts_on(gates_back, read[4], 3, first + 2 * (uint32_t)read[3]) && given.gates.length == 2 * read[4];
    for (size_t k = 0; same && k < read[4]; k++) same = memcmp(gates_back + 3 * k + 1, given.gates.words + 2 * k, 2 * sizeof *gates_back) == 0;
    return same;
}

static int reads_binary(size_t length, uint64_t read[11]) {
    return imdagluz_read_aig(out, length, nexts_back, LIST, resets_back, LIST, gates_back, 2 * LIST, sizes_back, LIST, roots_back, LIST, read, 11) == 0
        && same_list(given.gates, gates_back, 2 * read[4]);
}

/* Whether the first bytes of out are read as the circuit, to the last of them. */
static int reads_back(size_t length) {
    uint64_t read[11];
    uint32_t back[5];
    if (!(text ? reads_text : reads_binary)(length, read)) return 0;
    for (int i = 0; i < 5; i++) back[i] = (uint32_t)read[5 + i];
    return read[0] == length && read[1] == read[2] + read[3] + read[4] && read[2] == given.inputs && same_list(given.nexts, nexts_back, read[3])
        && same_list(given.resets, resets_back, read[3]) && same_list(given.counts, back, 5) && same_list(given.sizes, sizes_back, read[10])
        && same_list(given.roots, roots_back, read[5] + read[6] + read[7] + read[8] + read[9]);
}

/* A circuit that is written: measured with no byte and with a byte too few, then written into just enough bytes, more, and about as many as the largest file of
 * its size has, from where on nothing is measured. */
static void writes(const char *what) {
    size_t length = spell();
    size_t top = given.inputs + given.nexts.length + given.gates.length / 2;
    size_t most = text ? IMDAGLUZ_TEXT_BYTES(top, given.roots.length, given.sizes.length)
                       : IMDAGLUZ_FILE_BYTES(top, given.nexts.length, given.roots.length, given.sizes.length);
    refuses(what, 0, IMDAGLUZ_SHORT_BUFFER, 0, length);
    refuses(what, length - 1, IMDAGLUZ_SHORT_BUFFER, 0, length);
    if (length > most) failed(what);
    size_t bytes[] = {length, length + PAST, most > length ? most - 1 : length, most, most + PAST};
    for (size_t i = 0; i < sizeof bytes / sizeof bytes[0]; i++) {
        if (call(bytes[i], LENT) != 0 || answer[0] != 0 || answer[1] != length || memcmp(out, spelt, length) != 0 || !bytes_kept(length, bytes[i])
            || !words_kept(WORDS) || !reads_back(length)) failed(what);
        cases++;
    }
}

static void set(struct list *list, uint32_t *room, const uint32_t *words, size_t length) {
    memcpy(room, words, length * sizeof *words);
    *list = (struct list){room, length};
}

static void nothing(uint32_t inputs) {
    static const uint32_t none[5] = {0};
    given.inputs = inputs;
    set(&given.counts, counts, none, 5);
    given.nexts = (struct list){nexts, 0};
    given.resets = (struct list){resets, 0};
    given.gates = (struct list){gates, 0};
    given.sizes = (struct list){sizes, 0};
    given.roots = (struct list){roots, 0};
}

/* Two inputs, a latch that starts at either and one that starts at 1, two gates, a root of each kind and a second justice literal of the one set: 51 bytes,
 * and as a text 69. */
static void small(void) {
    static const uint32_t c[] = {1, 1, 1, 1, 2}, n[] = {10, 3}, s[] = {6, 1}, g[] = {6, 2, 8, 3}, z[] = {2}, r[] = {12, 9, 3, 7, 6, 11};
    given.inputs = 2;
    set(&given.counts, counts, c, 5);
    set(&given.nexts, nexts, n, 2);
    set(&given.resets, resets, s, 2);
    set(&given.gates, gates, g, 4);
    set(&given.sizes, sizes, z, 1);
    set(&given.roots, roots, r, 6);
}

/* What can be wrong with it, in the order of the tests: the refusal's number and its literal. */
static void counts_four(void) { given.counts.length = 4; }
static void counts_six(void) { counts[5] = 0, given.counts.length = 6; }
static void counts_none(void) { given.counts.length = 0; }
static void inputs_over(void) { given.inputs = LIST + 1; }
static void inputs_far_over(void) { given.inputs = 4294967295; }
static void sources_over(void) { given.inputs = LIST - 1; }
static void nexts_over(void) { given.nexts.length = LIST + 1; }
static void gates_over(void) { given.gates.length = 2 * LIST + 2; }
static void roots_over(void) { counts[0] += LIST - 5, given.roots.length = LIST + 1; }
static void sets_over(void) { given.sizes.length = LIST + 1; }
static void counts_more(void) { counts[0]++; }
static void counts_wrap(void) { counts[1] = 4294967295, counts[2] = 3; }
static void sizes_less(void) { sizes[0] = 1; }
static void sizes_none(void) { given.sizes.length = 0; }
static void gates_odd(void) { given.gates.length = 3; }
static void resets_short(void) { given.resets.length = 1; }
static void resets_none(void) { given.resets.length = 0; }
static void resets_long(void) { given.resets.length = 3; }
static void resets_far_over(void) { given.resets.length = LIST + 1; }
static void gate_over(void) { gates[1] = 15; }
static void next_over(void) { nexts[0] = 4294967295; }
static void reset_over(void) { resets[0] = 14; }
static void other_next_over(void) { nexts[1] = 16; }
static void other_reset_over(void) { resets[1] = 17; }
static void root_over(void) { roots[5] = 14; }
static void reset_negated(void) { resets[0] = 7; }
static void reset_of_other(void) { resets[0] = 8; }
static void reset_input(void) { resets[0] = 2; }
static void other_reset_negated(void) { resets[1] = 9; }
static void other_reset_gate(void) { resets[1] = 10; }
static void gate_itself(void) { gates[0] = 10; }
static void gate_negated(void) { gates[2] = 13; }
static void gate_turned(void) { gates[2] = 3, gates[3] = 8; }
static const struct wrong { const char *what; void (*apply)(void); uint32_t number, literal; } wrongs[] = {
    {"four counts", counts_four, 2, 0},
    {"six counts", counts_six, 2, 0},
    {"no count", counts_none, 2, 0},
    {"too many inputs", inputs_over, 1, 0},
    {"far too many inputs", inputs_far_over, 1, 0},
    {"too many variables", sources_over, 1, 0},
    {"too many latches", nexts_over, 1, 0},
    {"too many gates", gates_over, 1, 0},
    {"too many roots", roots_over, 1, 0},
    {"too many justice sets", sets_over, 1, 0},
    {"counts over the roots", counts_more, 2, 0},
    {"counts that wrap around", counts_wrap, 2, 0},
    {"sizes below the count", sizes_less, 2, 0},
    {"no sizes", sizes_none, 2, 0},
    {"an odd list of gates", gates_odd, 2, 0},
    {"a reset too few", resets_short, 2, 0},
    {"no resets", resets_none, 2, 0},
    {"a reset too many", resets_long, 2, 0},
    {"far too many resets", resets_far_over, 2, 0},
    {"a gate's input over", gate_over, 4, 15},
    {"a next state over", next_over, 4, 4294967295},
    {"a reset over", reset_over, 4, 14},
    {"the second next state over", other_next_over, 4, 16},
    {"the second reset over", other_reset_over, 4, 17},
    {"a root over", root_over, 4, 14},
    {"a latch negated for its reset", reset_negated, 22, 7},
    {"the other latch for a reset", reset_of_other, 22, 8},
    {"an input for a reset", reset_input, 22, 2},
    {"the second latch negated for its reset", other_reset_negated, 22, 9},
    {"a gate for a reset", other_reset_gate, 22, 10},
    {"a gate that is its own input", gate_itself, 23, 10},
    {"a gate that is its own negated input", gate_negated, 23, 12},
    {"inputs the wrong way round", gate_turned, 23, 12},
};
enum { WRONGS = sizeof wrongs / sizeof wrongs[0] };

/* Each alone and each two together, with bytes enough and a byte too few: whichever is tested first is told. */
static void refusals(void) {
    const size_t enough = text ? 69 : 51;
    for (int i = 0; i < WRONGS; i++)
        for (int j = i; j < WRONGS; j++) {
            char what[100];
            snprintf(what, sizeof what, "%s, %s", wrongs[i].what, wrongs[j].what);
            small();
            if (j != i) wrongs[j].apply();
            wrongs[i].apply();
            refuses(what, enough, wrongs[i].number, wrongs[i].literal, 0);
            refuses(what, enough - 1, wrongs[i].number, wrongs[i].literal, 0);
            /* one answer word and none come before all else, and nothing is written */
            for (size_t words = 0; words < WORDS; words++) {
                if (call(enough, words) != 3 || !bytes_kept(0, enough) || !words_kept(0)) failed(what);
                cases++;
            }
        }
    small();
    for (size_t words = 0; words < WORDS; words++) {
        if (call(enough, words) != 3 || !bytes_kept(0, enough) || !words_kept(0)) failed("too few answer words");
        cases++;
    }
    for (size_t bytes = 0; bytes < enough; bytes++) refuses("bytes too few", bytes, 3, 0, enough);
    writes("the small circuit");
}

/* Every choice of two resets. */
static void first_values(void) {
    for (uint32_t choice = 0; choice < 9; choice++) {
        small();
        resets[0] = choice % 3 < 2 ? choice % 3 : 6, resets[1] = choice / 3 < 2 ? choice / 3 : 8;
        writes("resets");
    }
}

/* Every pattern of optional counts: bad states, constraints, justice sets, fairness. */
static void patterns(void) {
    static const uint32_t r[8] = {1, 2, 3, 4, 5, 0, 2, 4};
    for (unsigned pattern = 0; pattern < 16; pattern++) {
        nothing(2);
        counts[0] = pattern % 3, counts[1] = pattern & 1, counts[2] = pattern >> 1 & 1, counts[3] = pattern >> 3 & 1, counts[4] = pattern & 4 ? 3 : 0;
        given.sizes.length = pattern & 4 ? 3 : 0;
        sizes[0] = 1, sizes[1] = 0, sizes[2] = 2;
        set(&given.roots, roots, r, (size_t)counts[0] + counts[1] + counts[2] + counts[3] + counts[4]);
        writes("optional counts");
    }
}

/* A gate whose first delta, and one whose second delta, is d. */
static void deltas(void) {
    static const uint32_t ds[] = {1, 2, 126, 127, 128, 129, 16382, 16383, 16384, 16385, 2097148, 2097149, 2097150};
    for (size_t i = 0; i < sizeof ds / sizeof ds[0]; i++) {
        uint32_t d = ds[i], code = d + d % 2;
        /* a text with so many inputs takes long, and has no deltas */
        if (text && d > 20000) break;
        nothing(code / 2 - 1);
        given.gates.length = 2;
        gates[0] = code - d, gates[1] = 0;
        writes("a first delta");
        code = d + 1 + (d + 1) % 2;
        if (code > 2 * LIST) continue;
        nothing(code / 2 - 1);
        given.gates.length = 2;
        gates[0] = code - 1, gates[1] = code - 1 - d;
        writes("a second delta");
    }
}

/* Every number as large as it may be: latches that start at either, outputs and empty justice sets; then gates, roots and inputs. */
static void limits(void) {
    nothing(0);
    given.nexts.length = given.resets.length = given.roots.length = given.sizes.length = counts[0] = LIST;
    for (size_t i = 0; i < LIST; i++) nexts[i] = roots[i] = 2 * LIST + 1, resets[i] = (uint32_t)(2 * (i + 1)), sizes[i] = 0;
    writes("a circuit of the limits");
    nothing(LIST - 1000);
    given.gates.length = 2000;
    for (size_t k = 0; k < 1000; k++) gates[2 * k] = (uint32_t)(2 * (given.inputs + k) + 1), gates[2 * k + 1] = (uint32_t)k;
    writes("gates behind many inputs");
    nothing(LIST);
    writes("inputs alone");
}

static uint32_t below(uint32_t n) {
    static uint64_t state = 88172645463325252;
    state ^= state << 13, state ^= state >> 7, state ^= state << 17;
    return (uint32_t)((state >> 16) % n);
}

static void random_circuits(int many_circuits) {
    for (int n = 0; n < many_circuits; n++) {
        static const uint32_t many[] = {1, 3, 70, 300, 9000};
        nothing(below(many[below(5)]));
        given.nexts.length = given.resets.length = below(4), given.gates.length = 2 * below(9), given.sizes.length = below(4);
        uint32_t sources = given.inputs + (uint32_t)given.nexts.length, all = 2 * (sources + (uint32_t)given.gates.length / 2) + 2;
        for (uint32_t i = 0; i < given.nexts.length; i++) nexts[i] = below(all), resets[i] = below(3) ? below(2) : 2 * (given.inputs + 1 + i);
        for (uint32_t k = 0; k < given.gates.length / 2; k++) gates[2 * k] = below(2 * (sources + 1 + k)), gates[2 * k + 1] = below(gates[2 * k] + 1);
        for (int i = 0; i < 4; i++) counts[i] = below(3);
        for (size_t i = 0; i < given.sizes.length; i++) counts[4] += sizes[i] = below(3);
        for (int i = 0; i < 5; i++) given.roots.length += counts[i];
        for (size_t i = 0; i < given.roots.length; i++) roots[i] = below(all);
        writes("a random circuit");
    }
}

int main(void) {
    for (text = 0; text < 2; text++) {
        refusals();
        first_values();
        nothing(0);
        writes("the empty circuit");
        patterns();
        deltas();
        limits();
        random_circuits(text ? 5000 : 20000);
    }
    if (good) printf("%d calls of writing as promised\n", cases);
    if (fflush(stdout) != 0 || ferror(stdout)) {
        fputs("writing: standard output can't be written\n", stderr);
        return 1;
    }
    return good ? 0 : 1;
}
