/* Reads a text AIGER file with imdagluz_read_aag, renumbers it with imdagluz_renumber, and writes the ordered circuit that comes of it, as a binary file with
 * imdagluz_write_aig or as a text with imdagluz_write_aag. A text has its lists spelled out, so nothing has to be expanded. Its latches start as they did;
 * symbols and comments are not kept.
 *
 *   text            the half adder of the AIGER paper, and its flip-flop, which here may start at 0 or 1; the ordered text is printed
 *   text FILE OUT   the text AIGER file FILE; the file is written to OUT, as a text where that name ends with .aag, and else as a binary file
 *
 * Exit status: 0 when the file is taken and renumbered and all was written, 1 when it is refused or something could not be written, 2 when it is called
 * otherwise, FILE can't be read or there is no memory. */
#include "imdagluz.h"
#include <inttypes.h>
#include <stdio.h>
#include <stdlib.h>
#include <string.h>

static void *memory(void *at) {
    if (at != NULL) return at;
    fputs("text: no memory\n", stderr);
    exit(2);
}

static uint32_t *lend(size_t words) { return memory(malloc((words + 1) * sizeof(uint32_t))); }

/* The status, or 1 where standard output did not take every line. */
static int printed(int status) {
    if (fflush(stdout) == 0 && !ferror(stdout)) return status;
    fputs("text: standard output can't be written\n", stderr);
    return 1;
}

/* Writes the bytes to the file of this name, or prints them where there is no name. */
static int put(const uint8_t *bytes, size_t length, const char *name) {
    if (name == NULL) return fwrite(bytes, 1, length, stdout) != length;
    FILE *file = fopen(name, "wb");
    int written = file != NULL && fwrite(bytes, 1, length, file) == length;
    if (file != NULL && fclose(file) != 0) written = 0;
    if (!written) fprintf(stderr, "text: %s can't be written\n", name);
    return !written;
}

static int refuses(const char *what, uint32_t number, uint64_t at) {
    printf("refused %" PRIu32 " in %s, at %" PRIu64 "\n", number, what, at);
    return 1;
}

/* Whether the file of this name is to be a text: printed, or with a name that ends so. */
static int is_text(const char *name) {
    size_t length = name == NULL ? 0 : strlen(name);
    return name == NULL || (length >= 4 && strcmp(name + length - 4, ".aag") == 0);
}

static int order(const uint8_t *bytes, size_t length, const char *name) {
    /* Lists of the limits hold every text, so nothing is measured first. */
    uint32_t *inputs = lend(IMDAGLUZ_LIST), *states = lend(IMDAGLUZ_LIST), *nexts = lend(IMDAGLUZ_LIST), *resets = lend(IMDAGLUZ_LIST);
    uint32_t *gates = lend(3 * IMDAGLUZ_LIST), *sizes = lend(IMDAGLUZ_LIST), *roots = lend(IMDAGLUZ_LIST);
    uint64_t read[11];
    uint32_t refused = imdagluz_read_aag(bytes, length, inputs, IMDAGLUZ_LIST, states, IMDAGLUZ_LIST, nexts, IMDAGLUZ_LIST, resets, IMDAGLUZ_LIST, gates,
                                         3 * IMDAGLUZ_LIST, sizes, IMDAGLUZ_LIST, roots, IMDAGLUZ_LIST, read, 11);
    if (refused != 0) return refuses("reading", refused, read[0]);
    uint32_t top = read[1], count = 0, counts[5];
    size_t i = read[2], l = read[3], a = read[4], sets = read[10];
    for (int k = 0; k < 5; k++) counts[k] = read[5 + k], count += counts[k];

    /* A text may define a variable twice, or not at all, or by a cycle: that is for renumbering to refuse, by 5 to 8. */
    size_t scratch_words = 3 * (size_t)top + 3 + 3 * a;
    uint32_t *map = lend((size_t)top + 1), *next_images = lend(l), *reset_images = lend(l), *root_images = lend(count);
    uint32_t *gates_out = lend(2 * a), *scratch = lend(scratch_words);
    uint32_t answer[3];
    refused = imdagluz_renumber(top, counts, 5, IMDAGLUZ_TRIM | IMDAGLUZ_HASH | IMDAGLUZ_FOLD, inputs, i, states, l, nexts, l, resets, l, gates, 3 * a, roots,
                                count, map, (size_t)top + 1, next_images, l, reset_images, l, root_images, count, gates_out, 2 * a, scratch, scratch_words,
                                answer, 3);
    if (refused != 0) return refuses("renumbering", refused, answer[0]);

    uint64_t written[2];
    size_t variables = i + l + answer[1];
    size_t room = is_text(name) ? IMDAGLUZ_TEXT_BYTES(variables, count, sets) : IMDAGLUZ_FILE_BYTES(variables, l, count, sets);
    uint8_t *out = memory(malloc(room));
    refused = (is_text(name) ? imdagluz_write_aag : imdagluz_write_aig)(i, counts, 5, next_images, l, reset_images, l, gates_out, 2 * (size_t)answer[1], sizes,
                                                                        sets, root_images, count, out, room, written, 2);
    if (refused != 0) return refuses("writing", refused, written[0]);
    printf("read %" PRIu64 " of %zu bytes, %zu gates; written %" PRIu64 " bytes, %" PRIu32 " gates\n", read[0], length, a, written[1], answer[1]);
    int status = put(out, written[1], name);
    uint32_t *lent[] = {inputs, states, nexts, resets, gates, sizes, roots, map, next_images, reset_images, root_images, gates_out, scratch};
    for (size_t k = 0; k < sizeof lent / sizeof lent[0]; k++) free(lent[k]);
    free(out);
    return status;
}

/* All bytes of a file. */
static uint8_t *bytes_of(const char *name, size_t *length) {
    FILE *file = fopen(name, "rb");
    size_t room = 1 << 16;
    uint8_t *bytes = memory(malloc(room));
    *length = 0;
    while (file != NULL && (*length += fread(bytes + *length, 1, room - *length, file)) == room) bytes = memory(realloc(bytes, room *= 2));
    if (file == NULL || ferror(file)) {
        fprintf(stderr, "text: %s can't be read\n", name);
        exit(2);
    }
    fclose(file);
    return bytes;
}

int main(int argc, char **argv) {
    static const uint8_t half_adder[] = "aag 7 2 0 2 3\n2\n4\n6\n12\n6 13 15\n12 2 4\n14 3 5\n";
    static const uint8_t flip_flop[] = "aag 7 2 1 2 4\n2\n4\n6 8 6\n6\n7\n8 4 10\n10 13 15\n12 2 6\n14 3 7\n";
    if (argc == 1) {
        int status = order(half_adder, sizeof half_adder - 1, NULL);
        return printed(order(flip_flop, sizeof flip_flop - 1, NULL) | status);
    }
    if (argc != 3) {
        fputs("usage: text [FILE OUT]\n", stderr);
        return 2;
    }
    size_t length;
    uint8_t *bytes = bytes_of(argv[1], &length);
    int status = printed(order(bytes, length, argv[2]));
    free(bytes);
    return status;
}
