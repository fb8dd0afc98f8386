/* What stands behind the last gate of a file: names of inputs, latches and roots, a line each (i0 clock), and a comment from a line with a lone c on. */
#ifndef SYMBOLS_H
#define SYMBOLS_H

#include "circuit.h"

struct symbols {
    const uint8_t *bytes; /* from the first byte behind the last gate */
    size_t length;
    size_t names;         /* how many lines name something */
    size_t comment;       /* how many bytes the comment has, its first line included */
    size_t fault;         /* where the first byte stands that is neither; length where there is none */
};

/* Goes through the bytes behind the last gate. */
struct symbols symbols_of(const struct circuit *circuit, const uint8_t *bytes, size_t length);

/* Puts the name of input, latch, root or set number `index` in brackets with a space before it; nothing where it has none. The letter is that of its line. */
void put_symbol(struct text *text, const struct symbols *symbols, char letter, size_t index);

#endif
