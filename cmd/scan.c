#include "scan.h"

enum { COUNTS = 9, M = 0, I, L, O, A, B, C, J, F };

/* What is looked for: the number at a place, or, where that is SIZE_MAX, the one that stands in the spot. */
struct wanted {
    size_t place;
    struct spot spot;
};

static bool found(const struct scan *scan, const struct wanted *wanted) {
    const struct spot *here = &scan->spot, *there = &wanted->spot;
    if (here->begin >= scan->length) return true;
    if (wanted->place != SIZE_MAX) return wanted->place <= here->end;
    return here->part == there->part && here->kind == there->kind && here->index == there->index && here->field == there->field;
}

/* Goes to the number behind the last one and the byte that parts them. Answers whether it is the wanted one. */
static bool number(struct scan *scan, const struct wanted *wanted, enum part part, int kind, size_t index, enum field field) {
    size_t at = scan->spot.end < scan->length ? scan->spot.end + 1 : scan->length;
    scan->spot = (struct spot){part, kind, index, field, at, at, 0};
    for (; at < scan->length && scan->bytes[at] >= '0' && scan->bytes[at] <= '9'; at++) scan->spot.value = 10 * scan->spot.value + (uint64_t)(scan->bytes[at] - '0');
    scan->spot.end = at;
    return found(scan, wanted);
}

/* Whether another number stands on the line. */
static bool goes_on(const struct scan *scan) {
    return scan->spot.end < scan->length && scan->bytes[scan->spot.end] == ' ';
}

static bool header(struct scan *scan, const struct wanted *wanted) {
    scan->spot = (struct spot){.part = TAG, .end = 3};
    if (scan->length < 3 || wanted->place <= 3) return true;
    for (size_t i = 0; i < COUNTS && (i <= A || goes_on(scan)); i++) {
        if (number(scan, wanted, COUNT, 0, i, FIRST)) return true;
        scan->counts[i] = scan->spot.value;
    }
    return false;
}

static bool latches(struct scan *scan, const struct wanted *wanted) {
    for (size_t i = 0; i < scan->counts[L]; i++) {
        if (scan->text && number(scan, wanted, LATCH, 0, i, DEFINED)) return true;
        if (number(scan, wanted, LATCH, 0, i, FIRST)) return true;
        if (goes_on(scan) && number(scan, wanted, LATCH, 0, i, SECOND)) return true;
    }
    return false;
}

/* Lines of one number. */
static bool singles(struct scan *scan, const struct wanted *wanted, enum part part, int kind, uint64_t n) {
    for (size_t i = 0; i < n; i++) {
        if (number(scan, wanted, part, kind, i, part == INPUT ? DEFINED : FIRST)) return true;
    }
    return false;
}

static bool roots(struct scan *scan, const struct wanted *wanted) {
    uint64_t literals = 0;
    if (singles(scan, wanted, ROOT, OUTPUTS, scan->counts[O]) || singles(scan, wanted, ROOT, BAD_STATES, scan->counts[B]) ||
        singles(scan, wanted, ROOT, CONSTRAINTS, scan->counts[C]))
        return true;
    for (size_t i = 0; i < scan->counts[J]; i++) {
        if (number(scan, wanted, SIZE, 0, i, FIRST)) return true;
        literals += scan->spot.value;
    }
    return singles(scan, wanted, ROOT, JUSTICE, literals) || singles(scan, wanted, ROOT, FAIRNESS, scan->counts[F]);
}

static bool gate_lines(struct scan *scan, const struct wanted *wanted) {
    for (size_t i = 0; i < scan->counts[A]; i++) {
        for (int field = DEFINED; field <= SECOND; field++) {
            if (number(scan, wanted, GATE, 0, i, (enum field)field)) return true;
        }
    }
    return false;
}

/* Goes to the delta that begins at a place. */
static bool delta(struct scan *scan, const struct wanted *wanted, size_t at, size_t index, enum field field) {
    scan->spot = (struct spot){GATE, 0, index, field, at, at, 0};
    for (int group = 0; group < 8 && at < scan->length; group++) {
        uint8_t byte = scan->bytes[at++];
        scan->spot.value |= (uint64_t)(byte & 127) << 7 * group;
        if (byte < 128) break;
    }
    scan->spot.end = at;
    return scan->spot.begin >= scan->length || (wanted->place != SIZE_MAX && wanted->place < at) ||
           (wanted->place == SIZE_MAX && found(scan, wanted));
}

static bool gate_deltas(struct scan *scan, const struct wanted *wanted) {
    size_t at = scan->spot.end < scan->length ? scan->spot.end + 1 : scan->length;
    for (size_t i = 0; i < scan->counts[A]; i++) {
        scan->reference = 2 * (scan->counts[I] + scan->counts[L] + 1 + i);
        if (delta(scan, wanted, at, i, FIRST)) return true;
        scan->reference -= scan->spot.value;
        if (delta(scan, wanted, scan->spot.end, i, SECOND)) return true;
        at = scan->spot.end;
    }
    return false;
}

static struct scan scan_to(const uint8_t *bytes, size_t length, const struct wanted *wanted) {
    struct scan scan = {.bytes = bytes, .length = length, .text = is_text(bytes, length)};
    if (header(&scan, wanted)) return scan;
    if (scan.text && singles(&scan, wanted, INPUT, 0, scan.counts[I])) return scan;
    if (latches(&scan, wanted) || roots(&scan, wanted)) return scan;
    if (scan.text) gate_lines(&scan, wanted);
    else gate_deltas(&scan, wanted);
    return scan;
}

struct scan scan_to_place(const uint8_t *bytes, size_t length, size_t place) {
    return scan_to(bytes, length, &(struct wanted){.place = place});
}

struct scan scan_to_spot(const uint8_t *bytes, size_t length, struct spot spot) {
    return scan_to(bytes, length, &(struct wanted){SIZE_MAX, spot});
}

size_t line_of(const struct scan *scan, size_t place) {
    if (!scan->text && scan->spot.part == GATE) return 0;
    size_t line = 1;
    for (size_t i = 0; i < place && i < scan->length; i++) line += scan->bytes[i] == '\n';
    return line;
}
