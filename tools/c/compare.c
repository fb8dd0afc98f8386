/* Holds imdagluz_delta to an independent reading of document 01 on a million random calls: bytes long and short, places inside, at and past
 * the end and near SIZE_MAX, references around the delta, lent buffers from 0 bytes on. Every byte of the lent buffer is compared.
 * Exit status: 0 when all calls are answered alike, with every kind of answer among them, and the line that says so was written, else 1. */
#include "imdagluz.h"
#include <stdio.h>
#include <string.h>

static unsigned expected(const uint8_t *s, size_t n, size_t at, uint64_t reference, uint8_t *out, size_t lent) {
    if (lent < 9) return 3;
    size_t left = at < n ? n - at : 0;
    uint64_t delta = 0;
    unsigned used = 0;
    for (;;) {
        if (used == 8) return 16;
        if (used == left) return 15;
        uint8_t b = s[at + used];
        delta += (uint64_t)(b % 128) << (7 * used);
        used++;
        if (b < 128) break;
    }
    if (delta > reference) return 17;
    for (int i = 0; i < 8; i++) out[i] = (uint8_t)((reference - delta) >> (8 * i));
    out[8] = (uint8_t)used;
    return 0;
}

static uint64_t state = 88172645463325252u;
static uint64_t random64(void) {
    state ^= state << 13;
    state ^= state >> 7;
    state ^= state << 17;
    return state;
}

/* A reference at the delta, one off it, or anywhere. */
static uint64_t some_reference(const uint8_t *s, size_t n, size_t at) {
    uint8_t nine[9];
    uint64_t anywhere = random64() >> (random64() % 64);
    if (random64() % 2 || expected(s, n, at, UINT64_MAX, nine, 9) != 0) return anywhere;
    uint64_t value = 0;
    for (int i = 8; i-- > 0;) value = value << 8 | nine[i];
    return UINT64_MAX - value + random64() % 3 - 1;
}

int main(void) {
    enum { CALLS = 1000000, BYTES = 24, LENT = 16 };
    uint8_t s[BYTES], ours[LENT], theirs[LENT];
    unsigned long counts[32] = {0};
    for (long call = 0; call < CALLS; call++) {
        size_t n = random64() % 20, at = random64() % 23;
        if (random64() % 50 == 0) at = SIZE_MAX - random64() % 10;
        size_t lent = random64() % 50 == 0 ? random64() % 9 : 9 + random64() % (LENT - 8);
        for (size_t i = 0; i < BYTES; i++) s[i] = (uint8_t)(random64() | (random64() % 3 ? 0x80 : 0));
        for (size_t i = 0; i < LENT; i++) ours[i] = theirs[i] = (uint8_t)random64();
        uint64_t reference = some_reference(s, n, at);
        unsigned got = imdagluz_delta(s, n, at, reference, ours, lent);
        unsigned want = expected(s, n, at, reference, theirs, lent);
        if (got != want || memcmp(ours, theirs, LENT) != 0) {
            printf("call %ld differs: answered %u, expected %u (length %zu, place %zu, lent %zu)\n", call, got, want, n, at, lent);
            return 1;
        }
        counts[got]++;
    }
    printf("%d calls alike: %lu values, refusals 3: %lu, 15: %lu, 16: %lu, 17: %lu\n", CALLS, counts[0], counts[3], counts[15], counts[16], counts[17]);
    if (fflush(stdout) != 0 || ferror(stdout)) {
        fputs("compare: standard output can't be written\n", stderr);
        return 1;
    }
    return counts[0] == 0 || counts[3] == 0 || counts[15] == 0 || counts[16] == 0 || counts[17] == 0;
}
