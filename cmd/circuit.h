/* A file's circuit in lists, and what the proved functions of imdagluz.h make of it. Here memory is lent, and nothing is computed but its lengths. */
#ifndef CIRCUIT_H
#define CIRCUIT_H

#include "imdagluz.h"
#include "text.h"
#include <stdbool.h>

/* How many roots there are of each kind: the place of a kind in the counts, in the order of imdagluz.h. */
enum { OUTPUTS, BAD_STATES, CONSTRAINTS, FAIRNESS, JUSTICE, KINDS };

struct circuit {
    bool text;         /* which form it was read in: aag or aig */
    uint64_t used;     /* how many bytes the file took, to its last gate */
    uint32_t top, inputs, latches, gates, roots, sets, counts[KINDS];
    /* As it came in. Of a binary file the gates are pairs, and codes and triples are there only once it is ordered; of a text they are triples. */
    uint32_t *nexts, *resets, *pairs, *sizes, *root_codes, *input_codes, *state_codes, *triples;
    /* As it was ordered, with so many gates. */
    uint32_t made;
    uint32_t *map, *next_images, *reset_images, *root_images, *gates_out;
};

/* A refusal: its number, 0 for none; its place in the file where reading gives it, and the literal that renumbering or writing names. */
struct refusal {
    uint32_t number;
    enum { BY_READING, BY_RENUMBERING, BY_WRITING } by;
    uint64_t place;
    uint32_t literal;
};

/* Whether bytes are taken as a text: they begin with aag. All others are taken as a binary file, which refuses them where they are none. */
bool is_text(const uint8_t *bytes, size_t length);

/* Reads a file of either form. */
struct refusal read_circuit(struct circuit *circuit, const uint8_t *bytes, size_t length);

/* Orders a file of either form under the flags; out gets the ordered file, in the form that is asked for. */
struct refusal order_circuit(struct circuit *circuit, const uint8_t *bytes, size_t length, uint32_t flags, bool as_text, struct text *out);

/* Writes a circuit that was read, with nothing renumbered. A text has to be ordered: 19 where its M is above I+L+A, 23 where a code is another than an ordered
 * circuit has at its place. */
struct refusal copy_circuit(struct circuit *circuit, bool as_text, struct text *out);

/* Gives the lists back. */
void drop_circuit(struct circuit *circuit);

#endif
