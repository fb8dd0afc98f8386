/* Reads the gates of a binary AIGER file's gate section with imdagluz_delta, a delta at a time, and prints a line a gate.
 *
 *   deltas            the half adder of the AIGER paper
 *   deltas CODE FILE  the gates that FILE's bytes write, the first of them with the output code CODE
 *
 * Exit status: 0 when the bytes are whole gates and every line was written, 1 when a delta is refused or a line could not be written, 2 when it is
 * called otherwise or FILE can't be read. */
#include "imdagluz.h"
#include <errno.h>
#include <inttypes.h>
#include <stdio.h>
#include <stdlib.h>

static uint64_t value_of(const uint8_t out[9]) {
    uint64_t value = 0;
    for (int i = 8; i-- > 0;) value = value << 8 | out[i];
    return value;
}

/* The status, or 1 where standard output did not take every line. */
static int printed(int status) {
    if (fflush(stdout) == 0 && !ferror(stdout)) return status;
    fputs("deltas: standard output can't be written\n", stderr);
    return 1;
}

static int print_gates(uint64_t code, const uint8_t *bytes, size_t length) {
    size_t place = 0;
    uint8_t first[9], second[9];
    for (; place < length; code += 2) {
        uint32_t refused = imdagluz_delta(bytes, length, place, code, first, sizeof first);
        if (refused == 0) {
            place += first[8];
            refused = imdagluz_delta(bytes, length, place, value_of(first), second, sizeof second);
        }
        if (refused != 0) {
            printf("refused %" PRIu32 " at byte %zu\n", refused, place);
            return 1;
        }
        place += second[8];
        printf("%" PRIu64 " = %" PRIu64 " & %" PRIu64 "\n", code, value_of(first), value_of(second));
    }
    return 0;
}

int main(int argc, char **argv) {
    static const uint8_t half_adder[] = {0x02, 0x02, 0x03, 0x02, 0x01, 0x02};
    static uint8_t bytes[1 << 20];
    if (argc == 1) return printed(print_gates(6, half_adder, sizeof half_adder));
    char *end = NULL;
    errno = 0;
    uint64_t code = argc == 3 ? strtoull(argv[1], &end, 10) : 0;
    if (argc != 3 || argv[1][0] < '0' || argv[1][0] > '9' || *end != '\0' || errno != 0) {
        fprintf(stderr, "usage: deltas [CODE FILE], where CODE is a decimal number of at most 64 bits\n");
        return 2;
    }
    FILE *file = fopen(argv[2], "rb");
    if (file == NULL) {
        fprintf(stderr, "deltas: %s can't be opened\n", argv[2]);
        return 2;
    }
    size_t length = fread(bytes, 1, sizeof bytes, file);
    if (ferror(file) || fgetc(file) != EOF) {
        fprintf(stderr, "deltas: %s can't be read, or is longer than %zu bytes\n", argv[2], sizeof bytes);
        return 2;
    }
    fclose(file);
    return printed(print_gates(code, bytes, length));
}
