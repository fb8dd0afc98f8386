/* Where a number stands in a file, for messages: a second, plain reading of what the proved readers have read. */
#ifndef SCAN_H
#define SCAN_H

#include "circuit.h"

enum part { TAG, COUNT, INPUT, LATCH, ROOT, SIZE, GATE };

/* The fields of a line: a latch's in a text are its state, its next state and its reset, a gate's its code, its first and its second input. In a binary file
 * the first one is not written; of a gate the two deltas stand in the places of the inputs. */
enum field { DEFINED, FIRST, SECOND };

struct spot {
    enum part part;
    int kind;          /* of a root: which, as in the counts */
    size_t index;      /* which one of them, counted from 0; of the counts 0 to 8 for M I L O A B C J F */
    enum field field;
    size_t begin, end; /* its first byte, and the byte behind it */
    uint64_t value;    /* the number or the delta; at most 64 bits of it */
};

struct scan {
    const uint8_t *bytes;
    size_t length;
    bool text;
    uint64_t counts[9]; /* M I L O A B C J F, as far as they were read */
    struct spot spot;   /* the number that was looked for */
    uint64_t reference; /* of a delta: what it is taken from */
};

/* Looks for the number that a place stands in or just behind; the last one before the end where there is none. */
struct scan scan_to_place(const uint8_t *bytes, size_t length, size_t place);

/* Looks for a number by what it is: part, kind, index and field of the spot. */
struct scan scan_to_spot(const uint8_t *bytes, size_t length, struct spot spot);

/* The line that a place is in, counted from 1; 0 in the gates of a binary file, which have no lines. */
size_t line_of(const struct scan *scan, size_t place);

#endif
