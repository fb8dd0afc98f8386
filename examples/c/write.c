/* Reads a binary AIGER file with imdagluz_read_aig, makes its lists with imdagluz_expand, renumbers it with imdagluz_renumber, and writes the ordered circuit
 * that comes of it as a binary AIGER file with imdagluz_write_aig. Its latches start as they did; symbols and comments are not kept.
 *
 *   write            the half adder of the AIGER paper, and its flip-flop, which here starts at 1; the file is printed, a byte that is not printable by its
 *                    number
 *   write FILE OUT   the binary AIGER file FILE; the file is written to OUT
 *
 * Exit status: 0 when the file is taken and renumbered and all was written, 1 when it is refused or something could not be written, 2 when it is called
 * otherwise, FILE can't be read or there is no memory. */
#include "imdagluz.h"
#include <inttypes.h>
#include <stdio.h>
#include <stdlib.h>

static void *memory(void *at) {
    if (at != NULL) return at;
    fputs("write: no memory\n", stderr);
    exit(2);
}

static uint32_t *lend(size_t words) { return memory(malloc((words + 1) * sizeof(uint32_t))); }

/* The status, or 1 where standard output did not take every line. */
static int printed(int status) {
    if (fflush(stdout) == 0 && !ferror(stdout)) return status;
    fputs("write: standard output can't be written\n", stderr);
    return 1;
}

/* Writes the bytes to the file of this name, or prints them where there is no name. */
static int put(const uint8_t *bytes, size_t length, const char *name) {
    if (name == NULL) {
        for (size_t i = 0; i < length; i++) {
            if (bytes[i] == '\n' || (bytes[i] >= ' ' && bytes[i] <= '~')) putchar(bytes[i]);
            else printf("<%d>", bytes[i]);
        }
        putchar('\n');
        return 0;
    }
    FILE *file = fopen(name, "wb");
    int written = file != NULL && fwrite(bytes, 1, length, file) == length;
    if (file != NULL && fclose(file) != 0) written = 0;
    if (!written) fprintf(stderr, "write: %s can't be written\n", name);
    return !written;
}

static int refuses(const char *what, uint32_t number, uint64_t at) {
    printf("refused %" PRIu32 " in %s, at %" PRIu64 "\n", number, what, at);
    return 1;
}

static int rewrite(const uint8_t *bytes, size_t length, const char *name) {
    /* Lists of the limits hold every file, so nothing is measured first. */
    uint32_t *nexts = lend(IMDAGLUZ_LIST), *resets = lend(IMDAGLUZ_LIST), *gates = lend(2 * IMDAGLUZ_LIST);
    uint32_t *sizes = lend(IMDAGLUZ_LIST), *roots = lend(IMDAGLUZ_LIST);
    uint64_t read[11];
    uint32_t refused = imdagluz_read_aig(bytes, length, nexts, IMDAGLUZ_LIST, resets, IMDAGLUZ_LIST, gates, 2 * IMDAGLUZ_LIST, sizes, IMDAGLUZ_LIST,
                                         roots, IMDAGLUZ_LIST, read, 11);
    if (refused != 0) return refuses("reading", refused, read[0]);
    uint32_t top = read[1], inputs = read[2], latches = read[3], made = read[4], counts[5], count = 0;
    for (int i = 0; i < 5; i++) counts[i] = read[5 + i], count += counts[i];

    uint32_t *input_codes = lend(inputs), *state_codes = lend(latches), *triples = lend(3 * (size_t)made);
    refused = imdagluz_expand(inputs, latches, gates, 2 * (size_t)made, input_codes, inputs, state_codes, latches, triples, 3 * (size_t)made);
    if (refused != 0) return refuses("expanding", refused, 0);

    size_t scratch_words = 3 * (size_t)top + 3 + 3 * (size_t)made;
    uint32_t *map = lend(top + 1), *next_images = lend(latches), *reset_images = lend(latches), *root_images = lend(count);
    uint32_t *gates_out = lend(2 * (size_t)made), *scratch = lend(scratch_words);
    uint32_t answer[3];
    refused = imdagluz_renumber(top, counts, 5, IMDAGLUZ_TRIM | IMDAGLUZ_HASH | IMDAGLUZ_FOLD, input_codes, inputs, state_codes, latches, nexts, latches,
                                resets, latches, triples, 3 * (size_t)made, roots, count, map, top + 1, next_images, latches, reset_images, latches,
                                root_images, count, gates_out, 2 * (size_t)made, scratch, scratch_words, answer, 3);
    if (refused != 0) return refuses("renumbering", refused, answer[0]);

    /* What was renumbered is an ordered circuit with the same inputs, counts and sizes. So many bytes hold every file of its size; who lends none is told how
     * many are needed. */
    uint64_t written[2];
    size_t room = IMDAGLUZ_FILE_BYTES((size_t)inputs + latches + answer[1], latches, count, read[10]);
    uint8_t *out = memory(malloc(room));
    refused = imdagluz_write_aig(inputs, counts, 5, next_images, latches, reset_images, latches, gates_out, 2 * (size_t)answer[1], sizes, read[10],
                                 root_images, count, out, room, written, 2);
    if (refused != 0) return refuses("writing", refused, written[0]);
    printf("read %" PRIu64 " of %zu bytes, %" PRIu32 " gates; written %" PRIu64 " bytes, %" PRIu32 " gates\n", read[0], length, made, written[1], answer[1]);
    int status = put(out, written[1], name);
    uint32_t *lent[] = {nexts, resets, gates, sizes, roots, input_codes, state_codes, triples, map, next_images, reset_images, root_images, gates_out, scratch};
    for (size_t i = 0; i < sizeof lent / sizeof lent[0]; i++) free(lent[i]);
    free(out);
    return status;
}

/* All bytes of a file. */
static uint8_t *bytes_of(const char *name, size_t *length) {
    FILE *file = fopen(name, "rb");
    size_t room = 1 << 16;
    uint8_t *bytes = memory(malloc(room));
    *length = 0;
    while (file != NULL && (*length += fread(bytes + *length, 1, room - *length, file)) == room) bytes = memory(realloc(bytes, room *= 2));
    if (file == NULL || ferror(file)) {
        fprintf(stderr, "write: %s can't be read\n", name);
        exit(2);
    }
    fclose(file);
    return bytes;
}

int main(int argc, char **argv) {
    static const uint8_t half_adder[] = "aig 5 2 0 2 3\n10\n6\n\2\2\3\2\1\2", flip_flop[] = "aig 7 2 1 2 4\n14 1\n6\n7\n\2\4\3\4\1\2\2\10";
    if (argc == 1) {
        int status = rewrite(half_adder, sizeof half_adder - 1, NULL);
        return printed(rewrite(flip_flop, sizeof flip_flop - 1, NULL) | status);
    }
    if (argc != 3) {
        fputs("usage: write [FILE OUT]\n", stderr);
        return 2;
    }
    size_t length;
    uint8_t *bytes = bytes_of(argv[1], &length);
    int status = printed(rewrite(bytes, length, argv[2]));
    free(bytes);
    return status;
}
