/* Orders a binary AIGER file by one call of imdagluz_order: a file comes in, the renumbered file goes out, with trim, hash and fold on. Its latches start as
 * they did; symbols and comments are not kept. examples/c/write.c goes the same way step by step.
 *
 *   order            the half adder of the AIGER paper, and its flip-flop, which here starts at 1; the file is printed, a byte that is not printable by its
 *                    number
 *   order FILE OUT   the binary AIGER file FILE; the file is written to OUT
 *
 * Exit status: 0 when the file is ordered and all was written, 1 when it is refused or something could not be written, 2 when it is called otherwise, FILE
 * can't be read or there is no memory. */
#include "imdagluz.h"
#include <inttypes.h>
#include <stdio.h>
#include <stdlib.h>

static void *memory(void *at) {
    if (at != NULL) return at;
    fputs("order: no memory\n", stderr);
    exit(2);
}

/* The status, or 1 where standard output did not take every line. */
static int printed(int status) {
    if (fflush(stdout) == 0 && !ferror(stdout)) return status;
    fputs("order: standard output can't be written\n", stderr);
    return 1;
}

/* Writes the bytes to the file of this name, or prints them where there is no name. */
static int put(const uint8_t *bytes, size_t length, const char *name) {
    if (name == NULL) {
        for (size_t i = 0; i < length; i++) {
            if (bytes[i] == '\n' || (bytes[i] >= ' ' && bytes[i] <= '~')) putchar(bytes[i]);
            else printf("<%d>", bytes[i]);
        }
        putchar('\n');
        return 0;
    }
    FILE *file = fopen(name, "wb");
    int written = file != NULL && fwrite(bytes, 1, length, file) == length;
    if (file != NULL && fclose(file) != 0) written = 0;
    if (!written) fprintf(stderr, "order: %s can't be written\n", name);
    return !written;
}

/* What holds every file, so that nothing is measured first: the words of the fourteen lists, in the order of the call, and the bytes of the ordered file. */
enum { LIST = IMDAGLUZ_LIST, LISTS = 14 };
static const size_t lengths[LISTS] = {LIST, LIST, 2 * LIST, LIST, LIST, LIST, LIST, 3 * LIST, LIST + 1, LIST, LIST, LIST, 2 * LIST, 6 * LIST + 3};
static const size_t room = IMDAGLUZ_FILE_BYTES(LIST, LIST, LIST, LIST);

static int order(const uint8_t *bytes, size_t length, const char *name) {
    static const char *const who[] = {"nobody", "the file", "renumbering", "writing"};
    uint32_t *lists[LISTS];
    for (int i = 0; i < LISTS; i++) lists[i] = memory(malloc(lengths[i] * sizeof *lists[i]));
    uint8_t *out = memory(malloc(room));
    uint64_t answer[IMDAGLUZ_ORDER_WORDS];
    uint32_t refused = imdagluz_order(bytes, length, IMDAGLUZ_TRIM | IMDAGLUZ_HASH | IMDAGLUZ_FOLD, lists[0], lengths[0], lists[1], lengths[1],
                                      lists[2], lengths[2], lists[3], lengths[3], lists[4], lengths[4], lists[5], lengths[5], lists[6], lengths[6],
                                      lists[7], lengths[7], lists[8], lengths[8], lists[9], lengths[9], lists[10], lengths[10], lists[11], lengths[11],
                                      lists[12], lengths[12], lists[13], lengths[13], out, room, answer, IMDAGLUZ_ORDER_WORDS);
    int status = 1;
    if (refused != 0) printf("refused %" PRIu32 " by %s, at %" PRIu64 "\n", refused, who[answer[13]], answer[0]);
    else {
        uint64_t roots = answer[5] + answer[6] + answer[7] + answer[8] + answer[9];
        printf("read %" PRIu64 " of %zu bytes: inputs %" PRIu64 ", latches %" PRIu64 ", gates %" PRIu64 ", roots %" PRIu64 "\n", answer[0], length, answer[2],
               answer[3], answer[4], roots);
        printf("written %" PRIu64 " bytes: gates %" PRIu64 "\n", answer[12], answer[11]);
        status = put(out, answer[12], name);
    }
    for (int i = 0; i < LISTS; i++) free(lists[i]);
    free(out);
    return status;
}

/* All bytes of a file. */
static uint8_t *bytes_of(const char *name, size_t *length) {
    FILE *file = fopen(name, "rb");
    size_t held = 1 << 16;
    uint8_t *bytes = memory(malloc(held));
    *length = 0;
    while (file != NULL && (*length += fread(bytes + *length, 1, held - *length, file)) == held) bytes = memory(realloc(bytes, held *= 2));
    if (file == NULL || ferror(file)) {
        fprintf(stderr, "order: %s can't be read\n", name);
        exit(2);
    }
    fclose(file);
    return bytes;
}

int main(int argc, char **argv) {
    static const uint8_t half_adder[] = "aig 5 2 0 2 3\n10\n6\n\2\2\3\2\1\2", flip_flop[] = "aig 7 2 1 2 4\n14 1\n6\n7\n\2\4\3\4\1\2\2\10";
    if (argc == 1) {
        int status = order(half_adder, sizeof half_adder - 1, NULL);
        return printed(order(flip_flop, sizeof flip_flop - 1, NULL) | status);
    }
    if (argc != 3) {
        fputs("usage: order [FILE OUT]\n", stderr);
        return 2;
    }
    size_t length;
    uint8_t *bytes = bytes_of(argv[1], &length);
    int status = printed(order(bytes, length, argv[2]));
    free(bytes);
    return status;
}
