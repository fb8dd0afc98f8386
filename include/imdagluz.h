/* Imdagluz for C. Link with libcapi.a (`rt lib`, in crates/capi, writes crates/capi/out/libcapi.a, for x86-64 Linux). Of the C library it needs
 * memset and nothing else.
 *
 * Each function is proved to keep the promises written here, on every input that meets these two duties of the caller:
 *   - a pointer and the length after it name that many elements, bytes or words of 32 or 64 bits, which nothing else writes during the call; the
 *     pointer is aligned as its type asks and is not NULL, and the elements take at most PTRDIFF_MAX bytes;
 *   - elements that a function may write overlap no others lent to the same call. Those that are only read may overlap each other.
 * The pointer is not NULL even where the length is 0: the compiled code may count on it. For an empty list pass any other pointer, such as an array of one
 * element, which is then neither read nor written; since malloc(0) may answer NULL, ask malloc for one element at least.
 * No function allocates, keeps a pointer after it returns, has a state of its own, or fails to return.
 *
 * What changes from one version to the next is in docs/CHANGES.md. */
#ifndef IMDAGLUZ_H
#define IMDAGLUZ_H

#include <stddef.h>
#include <stdint.h>

/* The version of this header and of the archive that belongs to it. */
#define IMDAGLUZ_VERSION "0.5.2"
#define IMDAGLUZ_VERSION_MAJOR 0
#define IMDAGLUZ_VERSION_MINOR 5
#define IMDAGLUZ_VERSION_PATCH 2

#ifdef __cplusplus
extern "C" {
#endif

/* The largest V, I, L, G and R, and so the most words that a list of codes has: lists of this length, gates of pairs twice it and of triples three times it,
 * hold every circuit. */
#define IMDAGLUZ_LIST 1048575

/* The most bytes that a binary file has, as imdagluz_write_aig writes it, of a circuit with so many variables, latches, roots and justice sets. */
#define IMDAGLUZ_FILE_BYTES(variables, latches, roots, sets) \
    (76 + 8 * ((size_t)(variables) + (size_t)(latches) + (size_t)(roots) + (size_t)(sets)))

/* The most bytes that a text file has, as imdagluz_write_aag writes it, of a circuit with so many variables, roots and justice sets. */
#define IMDAGLUZ_TEXT_BYTES(variables, roots, sets) (76 + 8 * (3 * (size_t)(variables) + (size_t)(roots) + (size_t)(sets)))

/* A latch's reset says its first value. It is a word of the same kind wherever a list of resets is read or written:
 *   0                          the latch starts at 0
 *   1                          it starts at 1
 *   the latch's own literal    it starts at either: its first value is free. The own literal is the code of the latch's state as it is written, with its sign.
 * Any other word is no reset. What 0 and 1 say is the first bit of that literal as it is written, so nothing is flipped where an odd one becomes even. */

/* Refusal numbers. 0 is success. imdagluz_delta gives 3 and 15 to 17, imdagluz_renumber 1 to 8 and 22, imdagluz_read_aig 1, 3, 10 to 12 and 15 to 22,
 * imdagluz_read_aag 1, 3, 10 to 14, 18, 21 and 22, imdagluz_expand 1 to 3, imdagluz_write_aig and imdagluz_write_aag 1 to 4, 22 and 23,
 * imdagluz_order 1 to 3, 10 to 12 and 15 to 22. 9 is withdrawn, and its number is not used again. */
enum {
    IMDAGLUZ_TOO_BIG = 1,          /* V, I, L, G or R is over 1,048,575 */
    IMDAGLUZ_MISSHAPEN = 2,        /* counts, flags and lengths do not fit together */
    IMDAGLUZ_SHORT_BUFFER = 3,     /* a lent buffer is too short */
    IMDAGLUZ_CODE_OVER = 4,        /* a code is over 2V+1 */
    IMDAGLUZ_DEFINED_AGAIN = 5,    /* an input or a gate's output is defined already, under either sign */
    IMDAGLUZ_STATE_AGAIN = 6,      /* a latch's state is defined already, under either sign */
    IMDAGLUZ_UNDEFINED = 7,        /* a literal that is reached is not defined */
    IMDAGLUZ_CYCLE = 8,            /* a gate that is reached needs itself */
    IMDAGLUZ_NO_NUMBER = 10,       /* no digit stands where a number begins */
    IMDAGLUZ_LEADING_ZERO = 11,    /* a number of two or more digits begins with 0 */
    IMDAGLUZ_NUMBER_OVER = 12,     /* a number is over its limit */
    IMDAGLUZ_DEFINES_ZERO = 13,    /* a text file defines the literal 0 */
    IMDAGLUZ_DEFINES_ODD = 14,     /* a text file defines an odd literal */
    IMDAGLUZ_DELTA_CUT = 15,       /* the delta is cut by the end of the bytes */
    IMDAGLUZ_DELTA_TOO_LONG = 16,  /* the delta's eighth byte has its top bit set */
    IMDAGLUZ_DELTA_OVER = 17,      /* the delta is over its reference */
    IMDAGLUZ_MISSING = 18,         /* the tag, a space or a newline is missing */
    IMDAGLUZ_UNDEFINED_TOP = 19,   /* M is above I+L+A: a variable that the header counts has no definition */
    IMDAGLUZ_ZERO_DELTA = 20,      /* a gate's first delta is zero: the gate would be its own first input */
    IMDAGLUZ_NUMBER_TOO_WIDE = 21, /* a number without a leading zero does not fit 64 bits, whatever its limit */
    IMDAGLUZ_STRAY_RESET = 22,     /* a latch's reset is not 0, 1 or the latch's own literal */
    IMDAGLUZ_DISORDERED = 23       /* a gate's code is not above its first input, or its first input is below its second */
};

/* Reads one delta of a binary AIGER file: groups of seven bits, the lowest first, one to a byte, the top bit set on all but the last;
 * at most eight bytes, and redundant zero groups are accepted. A delta of zero is read as any other: refusal 20 is given for a gate's two deltas, by
 * imdagluz_read_aig.
 *
 *   bytes, length  the bytes, which are only read
 *   place          where the delta begins; any number: a place at or past the end reads as the end, so it is refusal 15
 *   reference      what the delta is taken from; any number
 *   out, out_length  at least nine bytes to write to
 *
 * Answers 0 and writes
 *   out[0..7]  the reference less the delta, low byte first
 *   out[8]     how many bytes the delta took, 1 to 8; place plus this is at most length.
 * Or answers a refusal, the first of these that applies, and writes nothing:
 *   3   out_length is below nine
 *   16  eight bytes stand at the place and all have their top bit set
 *   15  the bytes end before the delta does
 *   17  the delta is larger than the reference.
 * Bytes of out past the ninth are never written. */
uint32_t imdagluz_delta(const uint8_t *bytes, size_t length, size_t place, uint64_t reference,
                        uint8_t *out, size_t out_length);

/* Flags of imdagluz_renumber, to be added up. */
enum {
    IMDAGLUZ_TRIM = 1, /* gates that no next state and no root needs are left out */
    IMDAGLUZ_HASH = 2, /* gates with the same two inputs become one gate */
    IMDAGLUZ_FOLD = 4  /* a gate with the input 0 becomes 0, one with the input 1 its other input, one with the same input twice that input */
};

/* The map's word for a variable that has no image. */
#define IMDAGLUZ_NO_IMAGE UINT32_C(4294967295)

/* Renumbers a circuit so that the code of every gate is larger than the codes of its inputs. A code c names the variable c/2, negated if c is
 * odd; the codes 0 and 1 are constant false and true. V is the largest variable, and I, L, G and R count inputs, latches, gates and roots.
 *
 * Only read:
 *   top                                V
 *   counts, counts_length              five words: how many roots are outputs, bad states, constraints, fairness and justice literals
 *   flags                              the sum of the flags that are on, 0 to 7
 *   inputs, inputs_length              I codes
 *   states, states_length              L codes, the latches' states
 *   nexts, nexts_length                L codes, the latches' next states in the same order
 *   resets, resets_length              L words, the latches' resets in the same order
 *   gates, gates_length                3G codes, of each gate its output, first and second input; the gates may stand in any order
 *   roots, roots_length                R codes: outputs, bad states, constraints, fairness, justice, in this order
 * Written; a list may be longer than is asked here, and the words past those asked are never written:
 *   map, map_length                    V+1 words
 *   next_images, next_images_length    L words
 *   reset_images, reset_images_length  L words
 *   root_images, root_images_length    R words
 *   gates_out, gates_out_length        2G words
 *   scratch, scratch_length            3V+3+3G words
 *   answer, answer_length              3 words: the literal at fault, the number of gates made, the new largest variable
 *
 * Answers 0 on success. Then the lists hold
 *   answer       0; the number g of gates made, at most G; the new largest variable, which is I+L+g, at most V
 *   map          for each variable v, from 0 to V, the code that the literal 2v became, or IMDAGLUZ_NO_IMAGE where it has none. The literal 2v+1
 *                became that code with its low bit flipped. map[0] is 0. Inputs became 2, 4, .. in their order, and latch states go on from there;
 *                where the code given for one is odd, the odd literal became that even code. Besides the constant, inputs and latch states exactly
 *                the variables that a walked literal needs have an image
 *   next_images  what the next states became, in their order
 *   reset_images the resets of the ordered circuit, in their order: 0 where the reset is 0, 1 where it is 1, and where it is the latch's own literal the new
 *                one, which for latch j, counted from 0, is 2(I+1+j). So each latch starts as it did
 *   root_images  what the roots became, in their order
 *   gates_out    of each gate made the larger and then the smaller input; gate k, counted from 0, has the code 2(I+L+1+k), which is above both.
 *                The words from 2g to 2G-1 are 0
 *   scratch      3V+3+3G times 0.
 * Whatever bits inputs and latch states have, a literal with an image and its image have the same bit. Resets take no part in the walk: with others, all but
 * reset_images is the same.
 * What is walked, one literal after the other: with IMDAGLUZ_TRIM off the outputs of the gates in their order, then next states, then roots; with it on
 * next states, then roots.
 *
 * How a literal is walked, so that 7 and 8 can be told beforehand. There is a path of literals, empty at first, p[0] to p[n-1]. To walk the literal c:
 *   - where its variable has an image already (the constant, an input, a latch state, a gate that was walked before), c is done;
 *   - else, where n is not 0 and p[n/2], n/2 rounded down, equals c with its sign, a cycle is seen: refusal 8, and c is the literal at fault;
 *   - else, where no gate defines its variable, under either sign, refusal 7, and c is the literal at fault;
 *   - else c goes to the end of the path, the first input of its gate is walked and then the second, whatever the first came to; c leaves the path, and its
 *     variable has an image.
 * So a cycle is seen some rounds after the walk entered it, and its literal need not be the first that came again. Gate 2(2,0), walked as 3: the path is
 * empty, then 3, then 3 2, and then 2 equals p[1]: refusal 8 with the literal 2. With gate 2(2,4) it is 8 as well, though 4 is not defined; with
 * gate 2(4,2) it is 7 with the literal 4, since the first input comes first.
 *
 * Or answers a refusal, the first of these that applies:
 *   3  answer_length is below 3; this one writes nothing, not even to answer
 *   2  counts_length is not 5, or flags is over 7
 *   1  V, I, L, G or R is over 1,048,575, G being gates_length/3 rounded down
 *   2  the counts do not add up to R, nexts_length or resets_length is not states_length, or gates_length is no multiple of three
 *   3  map, next_images, reset_images, root_images, gates_out or scratch is shorter than is asked above
 *   4  a code or a reset is over 2V+1. The literal at fault is the first one: inputs, gates (output, first, second), latches (state, next, reset), roots
 *   22 a reset is not 0, 1 or the latch's own literal. The literal at fault is the first such reset. It comes here, after 4 and before 5
 *   5  the variable of an input or a gate's output is that of the constant, or of one before it. The literal at fault is the first one: inputs, gates
 *   6  the variable of a latch's state is that of the constant, an input, a gate's output or a state before it. The literal at fault is the first one
 *   7  a literal that the walk reaches is defined nowhere. The literal at fault is that literal, as it was used
 *   8  a gate that the walk reaches needs itself. The literal at fault is that at which the walk saw it, a literal of such a gate, as it was used
 * Of 7 and 8 it is the one that the walk meets first; the scratch words hold every path, however deep, which is proved.
 * Every refusal but the first one leaves the literal at fault (0 for 1 to 3), 0 and 0 in answer. Refusals 1 to 4 and 22 leave the six other lists as
 * they were. Refusals 5 to 8 set the V+1 words of map to IMDAGLUZ_NO_IMAGE, and L words of next_images, L of reset_images, R of root_images, 2G of gates_out
 * and 3V+3+3G of scratch to 0.
 *
 * Time: in proportion to the lists, whatever the circuit; with IMDAGLUZ_HASH on, the search for an equal gate follows at most 22 links. */
uint32_t imdagluz_renumber(uint32_t top, const uint32_t *counts, size_t counts_length, uint32_t flags,
                           const uint32_t *inputs, size_t inputs_length,
                           const uint32_t *states, size_t states_length,
                           const uint32_t *nexts, size_t nexts_length,
                           const uint32_t *resets, size_t resets_length,
                           const uint32_t *gates, size_t gates_length,
                           const uint32_t *roots, size_t roots_length,
                           uint32_t *map, size_t map_length,
                           uint32_t *next_images, size_t next_images_length,
                           uint32_t *reset_images, size_t reset_images_length,
                           uint32_t *root_images, size_t root_images_length,
                           uint32_t *gates_out, size_t gates_out_length,
                           uint32_t *scratch, size_t scratch_length,
                           uint32_t *answer, size_t answer_length);

/* Reads a binary AIGER file: a header M I L O A with the optional counts B C J F of AIGER 1.9, latch lines, the root lines in the file's order (outputs,
 * bad states, constraints, justice sizes, justice literals, fairness), then A gates of two deltas each. A latch's line has its next state and, after a
 * space, its reset; where there is no reset it is 0. Nothing after the last gate is looked at: the symbols, if there are any, begin at the byte that
 * answer[0] says.
 *
 * The bytes are only read:
 *   bytes, length          the file, or any bytes
 * Written; a list may be longer than is asked here:
 *   nexts, nexts_length    L words
 *   resets, resets_length  L words
 *   gates, gates_length    2A words
 *   sizes, sizes_length    J words
 *   roots, roots_length    R words
 *   answer, answer_length  11 words of 64 bits
 * Lists of IMDAGLUZ_LIST words, for gates twice that, are long enough for every file: with such lists refusal 3 is not given, so that nobody has to measure a
 * file before it is read.
 *
 * Answers 0 on success. Then the lists hold an ordered circuit, whose inputs have the codes 2, 4, .., 2I, whose latch states go on from there, and whose
 * gate k, counted from 0, has the code 2(I+L+1+k):
 *   answer  0: how many bytes the file took, to the last gate, at most length. 1: M, which is I+L+A. 2: I. 3: L. 4: A. 5 to 9: how many roots are
 *           outputs, bad states, constraints, fairness and justice literals, in this order; they add up to R, at most 1,048,575. 10: J, the number of
 *           justice sets
 *   nexts   the next states of the latches, in their order
 *   resets  their resets: 0, 1, or for latch j, counted from 0, its own literal 2(I+1+j)
 *   gates   of each gate the larger and then the smaller input: its code less the first delta, and that less the second. The code is above both; the
 *           two may be equal
 *   sizes   how many literals each justice set has; they add up to answer[9]
 *   roots   outputs, bad states, constraints, fairness, justice, in this order, which is that of imdagluz_renumber: the file has justice before fairness.
 * Words past those named stay as they were. imdagluz_expand makes the lists that imdagluz_renumber takes.
 *
 * Or answers a refusal: the first thing wrong on the way through the file, with its place in answer[0] and 0 in answer[1] to answer[10]. A place is a
 * count of bytes from the first, at most length. Before anything is read:
 *   3   answer_length is below 11; this one writes nothing at all, to no list
 * In the header:
 *   18  the file does not begin with the three bytes aig: place 0
 *   18  no space stands before one of the first five counts, neither a space nor a newline after A, B, C or J, or no newline after F: that byte. A carriage
 *       return is no newline
 *   10, 11, 21, 12  of a count, at its first byte: no digit stands there; it has two or more digits and begins with 0; it does not fit 64 bits; it is
 *       over its limit, which is 1,048,575 for M, O, B, C, J and F, M for I, M-I for L, M-I-L for A
 * At the byte after the header's newline:
 *   19  M is above I+L+A
 *   3   nexts or resets is shorter than L, gates than 2A, or sizes than J
 * In the lines that follow, as they come:
 *   10, 11, 21, 12  of a literal or a reset, whose limit is 2M+1, or of a justice size, whose limit is 1,048,575, at its first byte
 *   22  a reset that was read without one of these four is not 0, 1 or the latch's own literal: its first byte, whatever follows it
 *   18  no newline ends the line, or after a latch's next state neither a space nor a newline stands: that byte
 * At the byte after the last justice size (where J is 0: after the last constraint):
 *   1   R is over 1,048,575, the sizes included
 *   3   roots is shorter than R
 * In the gates:
 *   15, 16, 17  of a delta, as imdagluz_delta has them, at its first byte
 *   20  a gate's first delta is zero, in however many bytes, and its second one was read without 15, 16 or 17: the first byte of the first one.
 * A refusal, but for that of a short answer list, leaves every word of nexts, resets, gates, sizes and roots 0, however long the list: 3 for a short list
 * too.
 *
 * Time: in proportion to the bytes that are read; a refusal's in proportion to the lists too, which it clears. */
uint32_t imdagluz_read_aig(const uint8_t *bytes, size_t length,
                           uint32_t *nexts, size_t nexts_length,
                           uint32_t *resets, size_t resets_length,
                           uint32_t *gates, size_t gates_length,
                           uint32_t *sizes, size_t sizes_length,
                           uint32_t *roots, size_t roots_length,
                           uint64_t *answer, size_t answer_length);

/* Makes of an ordered circuit, as imdagluz_read_aig leaves it, the lists of inputs, latch states and gates that imdagluz_renumber takes.
 *
 * Only read:
 *   inputs, latches                  I and L
 *   gates, gates_length              2G codes, of each gate its two inputs. They are copied as they are: a code over 2V+1 is imdagluz_renumber's refusal 4
 * Written; a list may be longer than is asked here, and the words past those asked are never written:
 *   input_codes, input_codes_length  I words
 *   state_codes, state_codes_length  L words
 *   triples, triples_length          3G words
 *
 * Answers 0 on success. Then the lists hold
 *   input_codes  2, 4, .., 2I
 *   state_codes  2(I+1), 2(I+2), .., 2(I+L)
 *   triples      of gate k, counted from 0, its output 2(I+L+1+k) and its two inputs in their order.
 * With I+L+G for the largest variable, and next states, resets, root counts and roots as imdagluz_read_aig gave them, they are a circuit for
 * imdagluz_renumber.
 * A file that was taken always renumbers: with those and lists that are long enough imdagluz_renumber succeeds, under every setting of the flags.
 *
 * Or answers a refusal, the first of these that applies, and writes nothing:
 *   1  I, L, G or I+L+G is over 1,048,575, G being gates_length/2 rounded down
 *   2  gates_length is odd
 *   3  input_codes is shorter than I, state_codes than L, or triples than 3G. */
uint32_t imdagluz_expand(uint32_t inputs, uint32_t latches, const uint32_t *gates, size_t gates_length,
                         uint32_t *input_codes, size_t input_codes_length,
                         uint32_t *state_codes, size_t state_codes_length,
                         uint32_t *triples, size_t triples_length);

/* Writes an ordered circuit, as imdagluz_read_aig and imdagluz_renumber leave it, as a binary AIGER file: its inputs have the codes 2, 4, .., 2I, its latch
 * states go on from there, and gate k, counted from 0, has the code 2(I+L+1+k). V is I+L+G.
 *
 * Only read:
 *   inputs                 I
 *   counts, counts_length  five words: how many roots are outputs, bad states, constraints, fairness and justice literals
 *   nexts, nexts_length    L codes, the latches' next states
 *   resets, resets_length  L words, their resets: 0, 1, or for latch j, counted from 0, its own literal 2(I+1+j)
 *   gates, gates_length    2G codes, of each gate the larger and then the smaller input; the two may be equal
 *   sizes, sizes_length    J words, how many literals each justice set has; they add up to counts[4]. A set may be empty
 *   roots, roots_length    R codes: outputs, bad states, constraints, fairness, justice, in this order
 * Written; both may be longer than is asked here, and what is past stays as it was:
 *   out, out_length        as many bytes as the file has. Any number may be lent: a call that lends none measures
 *   answer, answer_length  2 words of 64 bits
 *
 * Answers 0 on success. Then they hold
 *   answer  0; how many bytes the file has
 *   out     the file: the header with M = V, in which of the optional counts B C J F those past the last that is not 0 are left out; a line for each
 *           latch, with its next state and, where the reset is not 0, a space and the reset; the root lines in the file's order (outputs, bad states,
 *           constraints, justice sizes, justice literals, fairness); of each gate its code less the larger input, and that less the smaller one, each delta
 *           in its fewest bytes. There are no symbols and no comment.
 * The same circuit always gives the same bytes. A file has at most IMDAGLUZ_FILE_BYTES(V, L, R, J) bytes, and so never more than 33,554,476: where so many
 * are lent, 3 is not given for out, and nothing is measured first.
 *
 * Or answers a refusal, the first of these that applies; no refusal writes a byte of out:
 *   3   answer_length is below 2; this one writes nothing, not even to answer
 *   2   counts_length is not 5
 *   1   I, L, G, R, V or J is over 1,048,575, G being gates_length/2 rounded down
 *   2   the counts do not add up to R, the sizes do not add up to counts[4], resets_length is not nexts_length, or gates_length is odd
 *   4   a code or a reset is over 2V+1. The literal at fault is the first one: gates (larger, smaller), latches (next, reset), roots
 *   22  a reset is not 0, 1 or the latch's own literal. The literal at fault is the first such reset
 *   23  a gate's code is not above its first input, or its first input is below its second. The literal at fault is the first such gate's own code
 *   3   out is shorter than the file; how many bytes it has stands in answer[1].
 * Every refusal but the first one leaves in answer[0] the literal at fault, 0 where none is named, and in answer[1] 0, but for the last one.
 *
 * Time: in proportion to the lists and the bytes written. */
uint32_t imdagluz_write_aig(uint32_t inputs, const uint32_t *counts, size_t counts_length,
                            const uint32_t *nexts, size_t nexts_length,
                            const uint32_t *resets, size_t resets_length,
                            const uint32_t *gates, size_t gates_length,
                            const uint32_t *sizes, size_t sizes_length,
                            const uint32_t *roots, size_t roots_length,
                            uint8_t *out, size_t out_length,
                            uint64_t *answer, size_t answer_length);

/* Reads a text AIGER file: a header M I L O A with the optional counts B C J F of AIGER 1.9, a line for each input, a line for each latch, the root lines in
 * the file's order (outputs, bad states, constraints, justice sizes, justice literals, fairness), then A lines of gates. An input's line has its code; a
 * latch's its state, its next state and, where it is there, its reset, which else is 0; a gate's its output, its first and its second input; one space
 * stands between two numbers. Codes and gates may come in any order. Nothing after the last gate is looked at: the symbols, if there are any, begin at the
 * byte that answer[0] says.
 *
 * The bytes are only read:
 *   bytes, length            the file, or any bytes
 * Written; a list may be longer than is asked here:
 *   inputs, inputs_length    I words
 *   states, states_length    L words
 *   nexts, nexts_length      L words
 *   resets, resets_length    L words
 *   gates, gates_length      3A words
 *   sizes, sizes_length      J words
 *   roots, roots_length      R words
 *   answer, answer_length    11 words of 64 bits
 * Lists of IMDAGLUZ_LIST words, for gates three times that, are long enough for every file: with such lists refusal 3 is not given, so that nobody has to
 * measure a file before it is read.
 *
 * Answers 0 on success. Then the lists hold a circuit as imdagluz_renumber takes it, with M for the largest variable:
 *   answer  0: how many bytes the file took, to the last gate, at most length. 1: M, which may be above I+L+A. 2: I. 3: L. 4: A. 5 to 9: how many roots are
 *           outputs, bad states, constraints, fairness and justice literals, in this order; they add up to R, at most 1,048,575. 10: J, the number of
 *           justice sets
 *   inputs  the inputs' codes, in their order, as they are written
 *   states  the latches' states, in their order
 *   nexts   their next states
 *   resets  their resets: 0, 1, or the latch's own literal, which is its state
 *   gates   of each gate its output, its first and its second input, as they are written
 *   sizes   how many literals each justice set has; they add up to answer[9]
 *   roots   outputs, bad states, constraints, fairness, justice, in this order, which is that of imdagluz_renumber: the file has justice before fairness.
 * Words past those named stay as they were. Every code is at most 2M+1; inputs, states and outputs are even and not 0. So imdagluz_renumber, with lists that
 * are long enough, refuses none of these circuits by 1 to 4 or 22. It may by 5 to 8: a variable that is defined twice, a gate that needs itself, and a literal
 * that nothing defines are read as they stand.
 *
 * Or answers a refusal: the first thing wrong on the way through the file, with its place in answer[0] and 0 in answer[1] to answer[10]. A place is a
 * count of bytes from the first, at most length. Before anything is read:
 *   3   answer_length is below 11; this one writes nothing at all, to no list
 * In the header:
 *   18  the file does not begin with the three bytes aag: place 0
 *   18  no space stands before one of the first five counts, neither a space nor a newline after A, B, C or J, or no newline after F: that byte. A carriage
 *       return is no newline
 *   10, 11, 21, 12  of a count, at its first byte: no digit stands there; it has two or more digits and begins with 0; it does not fit 64 bits; it is
 *       over its limit, which is 1,048,575 for M, O, B, C, J and F, M for I, M-I for L, M-I-L for A
 * At the byte after the header's newline:
 *   3   inputs is shorter than I, states, nexts or resets than L, gates than 3A, or sizes than J
 * In the lines that follow, as they come:
 *   10, 11, 21, 13, 14, 12  of a code that is defined, an input's, a latch's state or a gate's output, at its first byte: the first of these that applies,
 *       as above, and 13 for the code 0, 14 for an odd one, and then 12 for one over 2M+1
 *   10, 11, 21, 12  of another literal or a reset, whose limit is 2M+1, or of a justice size, whose limit is 1,048,575, at its first byte
 *   22  a reset that was read without one of these four is not 0, 1 or the latch's own literal: its first byte, whatever follows it
 *   18  no space stands after a latch's state, a gate's output or its first input, no newline ends the line, or after a latch's next state neither a space nor
 *       a newline stands: that byte
 * At the byte after the last justice size (where J is 0: after the last constraint):
 *   1   R is over 1,048,575, the sizes included
 *   3   roots is shorter than R.
 * A refusal, but for that of a short answer list, leaves every word of inputs, states, nexts, resets, gates, sizes and roots 0, however long the list: 3 for
 * a short list too.
 *
 * Time: in proportion to the bytes that are read; a refusal's in proportion to the lists too, which it clears. */
uint32_t imdagluz_read_aag(const uint8_t *bytes, size_t length,
                           uint32_t *inputs, size_t inputs_length,
                           uint32_t *states, size_t states_length,
                           uint32_t *nexts, size_t nexts_length,
                           uint32_t *resets, size_t resets_length,
                           uint32_t *gates, size_t gates_length,
                           uint32_t *sizes, size_t sizes_length,
                           uint32_t *roots, size_t roots_length,
                           uint64_t *answer, size_t answer_length);

/* Writes an ordered circuit as a text AIGER file. What is read and what is written to, the answer and the refusals are those of imdagluz_write_aig, word for
 * word; the file is another.
 *
 * Answers 0 on success. Then out holds
 *   the header with M = V, in which of the optional counts B C J F those past the last that is not 0 are left out; a line for each input, 2, 4, .., 2I; a line
 *   for each latch, with its state, which goes on from there, its next state and, where the reset is not 0, the reset; the root lines in the file's order
 *   (outputs, bad states, constraints, justice sizes, justice literals, fairness); a line for each gate, with its code 2(I+L+1+k) for gate k, counted from 0,
 *   its larger and its smaller input. One space stands between two numbers, and there are no symbols and no comment.
 * The same circuit always gives the same bytes. imdagluz_read_aag reads them to the last one, as the lists that imdagluz_expand makes of the circuit, with its
 * next states, resets, counts, sizes and roots. A file has at most IMDAGLUZ_TEXT_BYTES(V, R, J) bytes, and so never more than 41,943,076: where so many are
 * lent, 3 is not given for out, and nothing is measured first.
 *
 * Time: in proportion to the lists, the number of inputs and the bytes written. */
uint32_t imdagluz_write_aag(uint32_t inputs, const uint32_t *counts, size_t counts_length,
                            const uint32_t *nexts, size_t nexts_length,
                            const uint32_t *resets, size_t resets_length,
                            const uint32_t *gates, size_t gates_length,
                            const uint32_t *sizes, size_t sizes_length,
                            const uint32_t *roots, size_t roots_length,
                            uint8_t *out, size_t out_length,
                            uint64_t *answer, size_t answer_length);

/* How many words of 64 bits the answer of imdagluz_order has. */
#define IMDAGLUZ_ORDER_WORDS 14

/* Who refused: the last of those words. */
enum {
    IMDAGLUZ_BY_NOBODY = 0,      /* nobody: the ordered file is written */
    IMDAGLUZ_BY_FILE = 1,        /* reading: the bytes are not taken as a file, or a list for the file is too short */
    IMDAGLUZ_BY_RENUMBERING = 2, /* renumbering: flags is over 7, or a list behind the file's is too short */
    IMDAGLUZ_BY_WRITING = 3      /* writing: the bytes lent for the ordered file are too few */
};

/* Orders a binary AIGER file by one call: a file comes in, the renumbered file goes out. It reads as imdagluz_read_aig does, expands as imdagluz_expand,
 * renumbers as imdagluz_renumber under the flags, and writes as imdagluz_write_aig. Each part is handed just the words that the part before it left, so that
 * the lists hold afterwards, on refusals too, what these functions leave when they are called one by one. I, L, A, J and R count the inputs, latches, gates,
 * justice sets and roots of the file that comes in, and M is I+L+A.
 *
 * What is proved of it, said of files and their circuits alone, in the sense of the AIGER papers:
 *   - It succeeds exactly when flags is at most 7, the bytes begin with a binary file in the paper's form within the limits, and all that is lent is as long
 *     as is asked here. The limits: M, J and R, the justice literals included, are at most 1,048,575, and a delta has at most eight bytes.
 *   - What is written then is a binary file in the paper's form with the same numbers of inputs, latches, outputs, bad states, constraints, fairness literals
 *     and justice sets, the sets with their sizes, each in its order. Each output, bad state, constraint, fairness and justice literal and each next state has,
 *     under every setting of inputs and latches, the value that it has in the file that came in, and each latch starts as it did: at 0, at 1, or at either.
 *   - So every run of the one is a run of the other, and each root has the same bit at every step of it. A bad state, or an output, is reached within k steps,
 *     every constraint holding so far, in the one exactly when in the other; all literals of a justice set and of fairness hold again and again along a run of
 *     the one exactly when they do along that run of the other. No solver can be asked something easier.
 *   - Every gate's code is above its first input, which is not below its second. The file is plain: no optional count stands in its header behind the last
 *     that is not 0, no reset where it is 0, and no delta has a byte more than it needs. With IMDAGLUZ_HASH no two gates have the same two inputs.
 *   - With flags 0 a file that is plain comes out byte for byte as it went in: the bytes written are those that it took, to its last gate.
 *
 * Only read:
 *   bytes, bytes_length                the file, or any bytes. Nothing after the last gate is looked at, and symbols and comments are not kept
 *   flags                              the sum of the flags that are on, 0 to 7, as imdagluz_renumber has them
 * Written; a list may be longer than is asked here:
 *   nexts, nexts_length                L words; these five are the file's lists, as imdagluz_read_aig leaves them
 *   resets, resets_length              L words
 *   gates, gates_length                2A words
 *   sizes, sizes_length                J words
 *   roots, roots_length                R words
 *   input_codes, input_codes_length    I words; these three are as imdagluz_expand leaves them
 *   state_codes, state_codes_length    L words
 *   triples, triples_length            3A words
 *   map, map_length                    M+1 words; these six are as imdagluz_renumber leaves them, with M for V and A for G
 *   next_images, next_images_length    L words
 *   reset_images, reset_images_length  L words
 *   root_images, root_images_length    R words
 *   gates_out, gates_out_length        2A words
 *   scratch, scratch_length            3M+3+3A words
 *   out, out_length                    as many bytes as the ordered file has
 *   answer, answer_length              IMDAGLUZ_ORDER_WORDS words of 64 bits
 * Lists of IMDAGLUZ_LIST words are never too short where gates and gates_out have twice that, triples three times it, map one word more, and scratch six times
 * it and three more. The ordered file has at most IMDAGLUZ_FILE_BYTES(M, L, R, J) bytes, and none has more than 33,554,476, which is what that gives for
 * IMDAGLUZ_LIST four times. With lists and bytes of these lengths 3 is given for answer alone, and nobody has to measure a file before it is ordered.
 *
 * Answers 0 on success. Then they hold
 *   answer  0: how many bytes the file took, to the last gate, at most bytes_length. 1: M. 2: I. 3: L. 4: A. 5 to 9: how many roots are outputs, bad states,
 *           constraints, fairness and justice literals, in this order. 10: J. 11: the number g of gates made, at most A. 12: how many bytes were written.
 *           13: IMDAGLUZ_BY_NOBODY
 *   out     the ordered file, whose largest variable is I+L+g. Bytes past those that answer[12] counts stay as they were
 *   lists   what the parts leave: the file's lists the file, as it came in, and the others what was made of it. Words past those asked stay as they were.
 *
 * Or answers a refusal, the first of these that applies:
 *   3   answer_length is below IMDAGLUZ_ORDER_WORDS; this one writes nothing at all, to no list
 *   1, 3, 10 to 12, 15 to 22  the file's own, as imdagluz_read_aig has them, 3 for one of the file's lists among them: its place in answer[0], 0 in
 *       answer[1] to answer[12], IMDAGLUZ_BY_FILE in answer[13]. Every word of the file's lists is 0 then, however long they are; no other list is written
 *   2   flags is over 7: IMDAGLUZ_BY_RENUMBERING. The file's lists hold the file; no other list is written
 *   3   input_codes, state_codes or triples is shorter than is asked above: IMDAGLUZ_BY_RENUMBERING. The file's lists hold the file; no other list is written
 *   3   map, next_images, reset_images, root_images, gates_out or scratch is: IMDAGLUZ_BY_RENUMBERING. The file's lists hold the file, and input_codes,
 *       state_codes and triples are filled as by success; none of these six is written
 *   3   out is shorter than the ordered file: IMDAGLUZ_BY_WRITING, and answer[12] says how many bytes that has. All lists are filled as by success. So a call
 *       that lends no byte measures; imdagluz_write_aig can then write from the lists.
 * No refusal writes a byte of out. A file that is taken is refused for nothing else, neither by renumbering nor by writing. Every refusal behind the file's own
 * leaves answer[0] to answer[10] as success does, and 0 in answer[11] and answer[12], but for the last one, where answer[11] is g. Words of answer past the
 * fourteenth are never written.
 *
 * Time: in proportion to the bytes that are read, the words that are asked for and the bytes written; a refusal of the file's own clears the five lists of the
 * file, and takes time in proportion to them too. */
uint32_t imdagluz_order(const uint8_t *bytes, size_t bytes_length, uint32_t flags,
                        uint32_t *nexts, size_t nexts_length,
                        uint32_t *resets, size_t resets_length,
                        uint32_t *gates, size_t gates_length,
                        uint32_t *sizes, size_t sizes_length,
                        uint32_t *roots, size_t roots_length,
                        uint32_t *input_codes, size_t input_codes_length,
                        uint32_t *state_codes, size_t state_codes_length,
                        uint32_t *triples, size_t triples_length,
                        uint32_t *map, size_t map_length,
                        uint32_t *next_images, size_t next_images_length,
                        uint32_t *reset_images, size_t reset_images_length,
                        uint32_t *root_images, size_t root_images_length,
                        uint32_t *gates_out, size_t gates_out_length,
                        uint32_t *scratch, size_t scratch_length,
                        uint8_t *out, size_t out_length,
                        uint64_t *answer, size_t answer_length);

#ifdef __cplusplus
}
#endif

#endif
