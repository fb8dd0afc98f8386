#include "circuit.h"
#include <stdlib.h>
#include <string.h>

enum { LIST = IMDAGLUZ_LIST, READ_WORDS = 11, WRITE_WORDS = 2, RENUMBER_WORDS = 3 };

static const struct refusal nothing;

bool is_text(const uint8_t *bytes, size_t length) {
    return length >= 3 && memcmp(bytes, "aag", 3) == 0;
}

static uint32_t *words(size_t n) {
    return lend(n, sizeof(uint32_t));
}

/* How long a list for one file has to be: each of its elements takes two bytes at least, and no file has more than LIST. */
static size_t most_of(size_t length) {
    return length / 2 < LIST ? length / 2 : LIST;
}

/* How many latches, roots and justice sets there can be together: each has a line, and each line two bytes. */
static size_t lines_of(size_t length) {
    return length / 2 < 3 * (size_t)LIST ? length / 2 : 3 * (size_t)LIST;
}

/* M, as a header announces it: the inputs of a binary file take no bytes. Where no number of the limits is announced the file is refused anyhow. */
static size_t announced_top(const uint8_t *bytes, size_t length) {
    size_t top = 0;
    for (size_t i = 4; i < length && bytes[i] >= '0' && bytes[i] <= '9' && top <= LIST; i++) top = 10 * top + (size_t)(bytes[i] - '0');
    return top < LIST ? top : LIST;
}

/* What the first eleven words of an answer say of a file that was taken. */
static void take_counts(struct circuit *circuit, const uint64_t *answer) {
    circuit->used = answer[0];
    circuit->top = (uint32_t)answer[1];
    circuit->inputs = (uint32_t)answer[2];
    circuit->latches = (uint32_t)answer[3];
    circuit->gates = (uint32_t)answer[4];
    circuit->roots = 0;
    for (int i = 0; i < KINDS; i++) circuit->roots += circuit->counts[i] = (uint32_t)answer[5 + i];
    circuit->sets = (uint32_t)answer[10];
}

static struct refusal read_binary(struct circuit *circuit, const uint8_t *bytes, size_t length, size_t most) {
    uint64_t answer[READ_WORDS] = {0};
    circuit->nexts = words(most);
    circuit->resets = words(most);
    circuit->pairs = words(2 * most);
    circuit->sizes = words(most);
    circuit->root_codes = words(most);
    uint32_t number = imdagluz_read_aig(bytes, length, circuit->nexts, most, circuit->resets, most, circuit->pairs, 2 * most, circuit->sizes, most,
                                        circuit->root_codes, most, answer, READ_WORDS);
    take_counts(circuit, answer);
    return (struct refusal){number, BY_READING, answer[0], 0};
}

static struct refusal read_text(struct circuit *circuit, const uint8_t *bytes, size_t length, size_t most) {
    uint64_t answer[READ_WORDS] = {0};
    circuit->input_codes = words(most);
    circuit->state_codes = words(most);
    circuit->nexts = words(most);
    circuit->resets = words(most);
    circuit->triples = words(3 * most);
    circuit->sizes = words(most);
    circuit->root_codes = words(most);
    uint32_t number = imdagluz_read_aag(bytes, length, circuit->input_codes, most, circuit->state_codes, most, circuit->nexts, most, circuit->resets, most,
                                        circuit->triples, 3 * most, circuit->sizes, most, circuit->root_codes, most, answer, READ_WORDS);
    take_counts(circuit, answer);
    return (struct refusal){number, BY_READING, answer[0], 0};
}

/* Reads with lists of such a length. */
static struct refusal read_within(struct circuit *circuit, const uint8_t *bytes, size_t length, size_t most) {
    circuit->text = is_text(bytes, length);
    return circuit->text ? read_text(circuit, bytes, length, most) : read_binary(circuit, bytes, length, most);
}

/* Lists of the file's size are too short only for a file that announces more than it holds. In lists that hold every file it is refused for what it is. */
static struct refusal read_again(struct circuit *circuit, const uint8_t *bytes, size_t length) {
    drop_circuit(circuit);
    return read_within(circuit, bytes, length, LIST);
}

struct refusal read_circuit(struct circuit *circuit, const uint8_t *bytes, size_t length) {
    struct refusal refusal = read_within(circuit, bytes, length, most_of(length));
    return refusal.number == IMDAGLUZ_SHORT_BUFFER ? read_again(circuit, bytes, length) : refusal;
}

/* Writes an ordered circuit of so many gates into out: as many bytes are lent as it can have, so that nothing is measured first. */
static struct refusal write_ordered(const struct circuit *circuit, const uint32_t *nexts, const uint32_t *resets, const uint32_t *pairs, size_t gates,
                                    const uint32_t *roots, bool as_text, struct text *out) {
    size_t variables = (size_t)circuit->inputs + circuit->latches + gates;
    size_t room = as_text ? IMDAGLUZ_TEXT_BYTES(variables, circuit->roots, circuit->sets)
                          : IMDAGLUZ_FILE_BYTES(variables, circuit->latches, circuit->roots, circuit->sets);
    uint64_t answer[WRITE_WORDS] = {0};
    drop(out);
    out->bytes = lend(room, 1);
    out->held = room;
    uint32_t number = (as_text ? imdagluz_write_aag : imdagluz_write_aig)(circuit->inputs, circuit->counts, KINDS, nexts, circuit->latches, resets,
                                                                         circuit->latches, pairs, 2 * gates, circuit->sizes, circuit->sets, roots,
                                                                         circuit->roots, out->bytes, room, answer, WRITE_WORDS);
    if (number == 0) out->length = answer[1];
    return (struct refusal){number, BY_WRITING, 0, (uint32_t)answer[0]};
}

/* A binary file goes the whole way by one call. The lists are the file's own, those that are made of it, and those of the ordered file. */
static struct refusal order_binary(struct circuit *circuit, const uint8_t *bytes, size_t length, uint32_t flags, struct text *out) {
    size_t most = most_of(length), top = announced_top(bytes, length), scratch_length = 3 * top + 3 + 3 * most;
    uint64_t answer[IMDAGLUZ_ORDER_WORDS] = {0};
    circuit->nexts = words(most);
    circuit->resets = words(most);
    circuit->pairs = words(2 * most);
    circuit->sizes = words(most);
    circuit->root_codes = words(most);
    circuit->input_codes = words(top);
    circuit->state_codes = words(most);
    circuit->triples = words(3 * most);
    circuit->map = words(top + 1);
    circuit->next_images = words(most);
    circuit->reset_images = words(most);
    circuit->root_images = words(most);
    circuit->gates_out = words(2 * most);
    uint32_t *scratch = words(scratch_length);
    out->held = IMDAGLUZ_FILE_BYTES(top, lines_of(length), 0, 0);
    out->bytes = lend(out->held, 1);
    uint32_t number = imdagluz_order(bytes, length, flags, circuit->nexts, most, circuit->resets, most, circuit->pairs, 2 * most, circuit->sizes, most,
                                     circuit->root_codes, most, circuit->input_codes, top, circuit->state_codes, most, circuit->triples, 3 * most,
                                     circuit->map, top + 1, circuit->next_images, most, circuit->reset_images, most, circuit->root_images, most,
                                     circuit->gates_out, 2 * most, scratch, scratch_length, out->bytes, out->held, answer, IMDAGLUZ_ORDER_WORDS);
    free(scratch);
    take_counts(circuit, answer);
    circuit->made = (uint32_t)answer[11];
    if (number == 0) out->length = answer[12];
    if (number == IMDAGLUZ_SHORT_BUFFER && answer[13] == IMDAGLUZ_BY_FILE) return read_again(circuit, bytes, length);
    return (struct refusal){number, answer[13] <= IMDAGLUZ_BY_FILE ? BY_READING : answer[13] == IMDAGLUZ_BY_RENUMBERING ? BY_RENUMBERING : BY_WRITING, answer[0], 0};
}

/* Renumbers a text that was read, in lists of just its lengths. */
static struct refusal renumber_text(struct circuit *circuit, uint32_t flags) {
    uint32_t answer[RENUMBER_WORDS] = {0};
    size_t scratch_length = 3 * (size_t)circuit->top + 3 + 3 * (size_t)circuit->gates;
    circuit->map = words((size_t)circuit->top + 1);
    circuit->next_images = words(circuit->latches);
    circuit->reset_images = words(circuit->latches);
    circuit->root_images = words(circuit->roots);
    circuit->gates_out = words(2 * (size_t)circuit->gates);
    uint32_t *scratch = words(scratch_length);
    uint32_t number = imdagluz_renumber(circuit->top, circuit->counts, KINDS, flags, circuit->input_codes, circuit->inputs, circuit->state_codes,
                                        circuit->latches, circuit->nexts, circuit->latches, circuit->resets, circuit->latches, circuit->triples,
                                        3 * (size_t)circuit->gates, circuit->root_codes, circuit->roots, circuit->map, (size_t)circuit->top + 1,
                                        circuit->next_images, circuit->latches, circuit->reset_images, circuit->latches, circuit->root_images,
                                        circuit->roots, circuit->gates_out, 2 * (size_t)circuit->gates, scratch, scratch_length, answer, RENUMBER_WORDS);
    free(scratch);
    circuit->made = answer[1];
    return (struct refusal){number, BY_RENUMBERING, 0, answer[0]};
}

struct refusal order_circuit(struct circuit *circuit, const uint8_t *bytes, size_t length, uint32_t flags, bool as_text, struct text *out) {
    struct refusal refusal;
    if (is_text(bytes, length)) {
        refusal = read_circuit(circuit, bytes, length);
        if (refusal.number == 0) refusal = renumber_text(circuit, flags);
    } else {
        refusal = order_binary(circuit, bytes, length, flags, out);
        circuit->text = false;
        if (!as_text) return refusal;
    }
    if (refusal.number != 0) return refusal;
    return write_ordered(circuit, circuit->next_images, circuit->reset_images, circuit->gates_out, circuit->made, circuit->root_images, as_text, out);
}

/* The first code of a text that is another than the one which an ordered circuit has at its place. */
static struct refusal sequence_of(const struct circuit *circuit) {
    uint32_t code = 2;
    if (circuit->top > circuit->inputs + circuit->latches + circuit->gates) return (struct refusal){IMDAGLUZ_UNDEFINED_TOP, BY_WRITING, 0, 0};
    for (uint32_t i = 0; i < circuit->inputs; i++, code += 2) {
        if (circuit->input_codes[i] != code) return (struct refusal){IMDAGLUZ_DISORDERED, BY_WRITING, 0, circuit->input_codes[i]};
    }
    for (uint32_t i = 0; i < circuit->latches; i++, code += 2) {
        if (circuit->state_codes[i] != code) return (struct refusal){IMDAGLUZ_DISORDERED, BY_WRITING, 0, circuit->state_codes[i]};
    }
    for (size_t i = 0; i < circuit->gates; i++, code += 2) {
        if (circuit->triples[3 * i] != code) return (struct refusal){IMDAGLUZ_DISORDERED, BY_WRITING, 0, circuit->triples[3 * i]};
    }
    return nothing;
}

struct refusal copy_circuit(struct circuit *circuit, bool as_text, struct text *out) {
    if (circuit->text) {
        struct refusal refusal = sequence_of(circuit);
        if (refusal.number != 0) return refusal;
        free(circuit->pairs);
        circuit->pairs = words(2 * (size_t)circuit->gates);
        for (size_t i = 0; i < circuit->gates; i++) memcpy(circuit->pairs + 2 * i, circuit->triples + 3 * i + 1, 2 * sizeof *circuit->pairs);
    }
    return write_ordered(circuit, circuit->nexts, circuit->resets, circuit->pairs, circuit->gates, circuit->root_codes, as_text, out);
}

void drop_circuit(struct circuit *circuit) {
    uint32_t *lists[] = {circuit->nexts,       circuit->resets,  circuit->pairs, circuit->sizes,       circuit->root_codes,   circuit->input_codes,
                         circuit->state_codes, circuit->triples, circuit->map,   circuit->next_images, circuit->reset_images, circuit->root_images,
                         circuit->gates_out};
    for (size_t i = 0; i < sizeof lists / sizeof *lists; i++) free(lists[i]);
    *circuit = (struct circuit){0};
}
