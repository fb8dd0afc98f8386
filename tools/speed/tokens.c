/* Reads many deltas one after the other, with the port and with the crate, from the same bytes.
 *
 *   tokens port|crate BYTES COUNT    BYTES: the length of each delta, 1 to 8; COUNT: how many
 *
 * Prints the sum of the values, which both must agree on. An instruction counter around it, at two counts, gives the instructions a call. */
#include "imdagluz.h"
#include <inttypes.h>
#include <stdio.h>
#include <stdlib.h>
#include <string.h>

void *crate_reader(const uint8_t *bytes, size_t length);
uint32_t crate_delta(void *reader, uint64_t reference, uint64_t *value);

uint64_t by_port(const uint8_t *bytes, size_t length, size_t count);
uint64_t by_crate(const uint8_t *bytes, size_t length, size_t count);

static const uint64_t REFERENCE = UINT64_MAX / 2;

__attribute__((noinline)) uint64_t by_port(const uint8_t *bytes, size_t length, size_t count) {
    uint64_t sum = 0;
    size_t place = 0;
    for (size_t i = 0; i < count; i++) {
        uint8_t out[9];
        uint64_t value;
        if (imdagluz_delta(bytes, length, place, REFERENCE, out, sizeof out) != 0) return 0;
        memcpy(&value, out, sizeof value);
        sum += value;
        place += out[8];
    }
    return sum;
}

__attribute__((noinline)) uint64_t by_crate(const uint8_t *bytes, size_t length, size_t count) {
    uint64_t sum = 0;
    void *reader = crate_reader(bytes, length);
    for (size_t i = 0; i < count; i++) {
        uint64_t value;
        if (crate_delta(reader, REFERENCE, &value) == 0) return 0;
        sum += value;
    }
    return sum;
}

int main(int argc, char **argv) {
    if (argc != 4) {
        fprintf(stderr, "usage: tokens port|crate BYTES COUNT\n");
        return 2;
    }
    size_t each = strtoul(argv[2], NULL, 10), count = strtoul(argv[3], NULL, 10), length = each * count;
    uint8_t *bytes = malloc(length + 1);
    if (bytes == NULL) return 2;
    for (size_t i = 0; i < length; i++) bytes[i] = (uint8_t)(i * 37 % 128 + (i % each == each - 1 ? 0 : 128));
    uint64_t sum = strcmp(argv[1], "port") == 0 ? by_port(bytes, length, count) : by_crate(bytes, length, count);
    printf("%" PRIu64 "\n", sum);
    return sum == 0;
}
