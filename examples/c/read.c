/* Reads a binary AIGER file with imdagluz_read_aig, makes its lists with imdagluz_expand, renumbers it with imdagluz_renumber, and prints the numbers of the
 * ordered circuit that comes of it, with what its latches start at.
 *
 *   read         the half adder of the AIGER paper, and its flip-flop, which here starts at 1
 *   read FILE    the binary AIGER file FILE
 *
 * Exit status: 0 when the file is taken and renumbered and every line was written, 1 when it is refused or a line could not be written, 2 when it is called
 * otherwise, FILE can't be read or there is no memory. */
#include "imdagluz.h"
#include <inttypes.h>
#include <stdio.h>
#include <stdlib.h>

static void *memory(void *at) {
    if (at != NULL) return at;
    fputs("read: no memory\n", stderr);
    exit(2);
}

static uint32_t *lend(size_t words) { return memory(malloc((words + 1) * sizeof(uint32_t))); }

/* The status, or 1 where standard output did not take every line. */
static int printed(int status) {
    if (fflush(stdout) == 0 && !ferror(stdout)) return status;
    fputs("read: standard output can't be written\n", stderr);
    return 1;
}

/* How many latches start at 0, at 1, and at either. */
static void print_starts(const char *what, const uint32_t *resets, uint32_t latches) {
    uint32_t at[3] = {0};
    for (uint32_t j = 0; j < latches; j++) at[resets[j] < 2 ? resets[j] : 2]++;
    if (latches > 0) printf("%s: latches that start at 0: %" PRIu32 ", at 1: %" PRIu32 ", at either: %" PRIu32 "\n", what, at[0], at[1], at[2]);
}

static int renumber(const uint8_t *bytes, size_t length) {
    /* Lists of the limits hold every file, so nothing is measured first. */
    uint32_t *nexts = lend(IMDAGLUZ_LIST), *resets = lend(IMDAGLUZ_LIST), *gates = lend(2 * IMDAGLUZ_LIST);
    uint32_t *sizes = lend(IMDAGLUZ_LIST), *roots = lend(IMDAGLUZ_LIST);
    uint64_t read[11];
    uint32_t refused = imdagluz_read_aig(bytes, length, nexts, IMDAGLUZ_LIST, resets, IMDAGLUZ_LIST, gates, 2 * IMDAGLUZ_LIST, sizes, IMDAGLUZ_LIST,
                                         roots, IMDAGLUZ_LIST, read, 11);
    if (refused != 0) {
        printf("refused %" PRIu32 " at byte %" PRIu64 "\n", refused, read[0]);
        return 1;
    }
    uint32_t top = read[1], inputs = read[2], latches = read[3], made = read[4], counts[5], count = 0;
    for (int i = 0; i < 5; i++) counts[i] = read[5 + i], count += counts[i];
    printf("read: %" PRIu64 " of %zu bytes; largest variable %" PRIu32 ", inputs %" PRIu32 ", latches %" PRIu32 ", gates %" PRIu32 ", roots %" PRIu32
           " (outputs %" PRIu32 ", bad %" PRIu32 ", constraints %" PRIu32 ", fairness %" PRIu32 ", justice %" PRIu32 " in %" PRIu64 " sets)\n",
           read[0], length, top, inputs, latches, made, count, counts[0], counts[1], counts[2], counts[3], counts[4], read[10]);
    print_starts("read", resets, latches);

    uint32_t *input_codes = lend(inputs), *state_codes = lend(latches), *triples = lend(3 * (size_t)made);
    refused = imdagluz_expand(inputs, latches, gates, 2 * (size_t)made, input_codes, inputs, state_codes, latches, triples, 3 * (size_t)made);
    if (refused != 0) {
        printf("refused %" PRIu32 " in expanding\n", refused);
        return 1;
    }

    size_t scratch_words = 3 * (size_t)top + 3 + 3 * (size_t)made;
    uint32_t *map = lend(top + 1), *next_images = lend(latches), *reset_images = lend(latches), *root_images = lend(count);
    uint32_t *gates_out = lend(2 * (size_t)made), *scratch = lend(scratch_words);
    uint32_t answer[3];
    refused = imdagluz_renumber(top, counts, 5, IMDAGLUZ_TRIM | IMDAGLUZ_HASH | IMDAGLUZ_FOLD, input_codes, inputs, state_codes, latches, nexts, latches,
                                resets, latches, triples, 3 * (size_t)made, roots, count, map, top + 1, next_images, latches, reset_images, latches,
                                root_images, count, gates_out, 2 * (size_t)made, scratch, scratch_words, answer, 3);
    if (refused != 0) printf("refused %" PRIu32 " in renumbering, literal %" PRIu32 "\n", refused, answer[0]);
    else {
        printf("renumbered with trim, hash and fold: gates %" PRIu32 ", largest variable %" PRIu32 "\n", answer[1], answer[2]);
        print_starts("renumbered", reset_images, latches);
        if (count > 0) printf("the first root is %" PRIu32 ", the last %" PRIu32 "\n", root_images[0], root_images[count - 1]);
        uint32_t last = 2 * answer[1];
        if (last > 0) printf("the last gate is %" PRIu32 " = %" PRIu32 " & %" PRIu32 "\n", 2 * answer[2], gates_out[last - 2], gates_out[last - 1]);
    }
    uint32_t *lent[] = {nexts, resets, gates, sizes, roots, input_codes, state_codes, triples, map, next_images, reset_images, root_images, gates_out, scratch};
    for (size_t i = 0; i < sizeof lent / sizeof lent[0]; i++) free(lent[i]);
    return refused != 0;
}

/* All bytes of a file. */
static uint8_t *bytes_of(const char *name, size_t *length) {
    FILE *file = fopen(name, "rb");
    size_t room = 1 << 16;
    uint8_t *bytes = memory(malloc(room));
    *length = 0;
    while (file != NULL && (*length += fread(bytes + *length, 1, room - *length, file)) == room) bytes = memory(realloc(bytes, room *= 2));
    if (file == NULL || ferror(file)) {
        fprintf(stderr, "read: %s can't be read\n", name);
        exit(2);
    }
    fclose(file);
    return bytes;
}

int main(int argc, char **argv) {
    static const uint8_t half_adder[] = "aig 5 2 0 2 3\n10\n6\n\2\2\3\2\1\2", flip_flop[] = "aig 7 2 1 2 4\n14 1\n6\n7\n\2\4\3\4\1\2\2\10";
    if (argc == 1) {
        int status = renumber(half_adder, sizeof half_adder - 1);
        return printed(renumber(flip_flop, sizeof flip_flop - 1) | status);
    }
    if (argc != 2) {
        fputs("usage: read [FILE]\n", stderr);
        return 2;
    }
    size_t length;
    uint8_t *bytes = bytes_of(argv[1], &length);
    int status = printed(renumber(bytes, length));
    free(bytes);
    return status;
}
