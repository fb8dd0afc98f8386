/* Lends each list with the length 0, as the header asks, behind a pointer to one element, which must stay; and then behind NULL, which the header does not
 * allow: that the archive as it is built today answers the same is worth knowing, and is no promise. And the version's numbers are those of its text.
 * Exit status: 0 when all are so and the line that says so was written, else 1. */
#include "imdagluz.h"
#include <inttypes.h>
#include <stdio.h>
#include <string.h>

enum { LISTS = 14, COUNTS = 0, MAP = 7, SCRATCH = 12, ANSWER = 13, HELD = 9 };

static const char *const names[LISTS] = {"counts", "inputs", "states", "nexts", "resets", "gates", "roots",
                                          "map", "next_images", "reset_images", "root_images", "gates_out", "scratch", "answer"};

/* The empty circuit, V = 0, with the list EMPTY (and those that are always empty) at the pointer `at`. */
static uint32_t renumber(int empty, uint32_t *at, uint32_t answer[3]) {
    static const uint32_t none[5] = {0};
    uint32_t map[1], scratch[3];
    uint32_t *lists[LISTS] = {(uint32_t *)none, at, at, at, at, at, at, map, at, at, at, at, scratch, answer};
    size_t lengths[LISTS] = {5, 0, 0, 0, 0, 0, 0, 1, 0, 0, 0, 0, 3, 3};
    lists[empty] = at, lengths[empty] = 0;
    memset(answer, 0, 3 * sizeof *answer);
    return imdagluz_renumber(0, lists[0], lengths[0], 0, lists[1], lengths[1], lists[2], lengths[2], lists[3], lengths[3], lists[4], lengths[4],
                             lists[5], lengths[5], lists[6], lengths[6], lists[7], lengths[7], lists[8], lengths[8], lists[9], lengths[9],
                             lists[10], lengths[10], lists[11], lengths[11], lists[12], lengths[12], lists[13], lengths[13]);
}

/* A success, or the refusal for a list that has to be there. */
static uint32_t expected(int empty) { return empty == COUNTS ? 2 : empty == MAP || empty == SCRATCH || empty == ANSWER ? 3 : 0; }

/* Texts, read and written: lists, bytes and answer words of the length 0 are at these pointers. */
static int text_form(uint32_t *at, uint8_t *bytes, uint64_t *word) {
    static const uint8_t empty_text[] = "aag 0 0 0 0 0\n";
    uint32_t none[5] = {0};
    uint64_t words[11];
    uint8_t text[14];
    int good = imdagluz_read_aag(empty_text, 14, at, 0, at, 0, at, 0, at, 0, at, 0, at, 0, at, 0, words, 11) == 0 && words[0] == 14;
    good &= imdagluz_read_aag(bytes, 0, at, 0, at, 0, at, 0, at, 0, at, 0, at, 0, at, 0, words, 11) == 18 && words[0] == 0;
    good &= imdagluz_read_aag(empty_text, 14, at, 0, at, 0, at, 0, at, 0, at, 0, at, 0, at, 0, word, 0) == 3;
    good &= imdagluz_write_aag(0, none, 5, at, 0, at, 0, at, 0, at, 0, at, 0, bytes, 0, words, 2) == 3 && words[0] == 0 && words[1] == 14;
    good &= imdagluz_write_aag(0, none, 5, at, 0, at, 0, at, 0, at, 0, at, 0, text, 14, words, 2) == 0 && memcmp(text, empty_text, 14) == 0;
    good &= imdagluz_write_aag(0, at, 0, at, 0, at, 0, at, 0, at, 0, at, 0, bytes, 0, words, 2) == 2 && words[0] == 0 && words[1] == 0;
    return good && imdagluz_write_aag(0, none, 5, at, 0, at, 0, at, 0, at, 0, at, 0, bytes, 0, word, 0) == 3;
}

/* A file that is ordered by one call, with the bytes and these lists; all other lists have the length 0. */
struct lent { uint32_t *words; size_t length; };

static uint32_t order(const uint8_t *bytes, size_t length, uint32_t flags, uint32_t *at, struct lent map, struct lent scratch, uint8_t *out, size_t out_length,
                      uint64_t *words, size_t words_length) {
    return imdagluz_order(bytes, length, flags, at, 0, at, 0, at, 0, at, 0, at, 0, at, 0, at, 0, at, 0, map.words, map.length, at, 0, at, 0, at, 0, at, 0,
                          scratch.words, scratch.length, out, out_length, words, words_length);
}

/* The empty file with a map and scratch words, with no byte to write to, and without the two; no bytes at all; and no answer word. */
static int ordered(uint32_t *at, uint8_t *bytes, uint64_t *word) {
    static const uint8_t empty_file[] = "aig 0 0 0 0 0\n";
    enum { WORDS = IMDAGLUZ_ORDER_WORDS };
    uint32_t map_words[1] = {HELD}, scratch_words[3];
    struct lent map = {map_words, 1}, scratch = {scratch_words, 3}, no = {at, 0};
    uint64_t words[WORDS];
    uint8_t file[14];
    int good = order(empty_file, 14, 0, at, map, scratch, file, 14, words, WORDS) == 0 && words[0] == 14 && words[12] == 14;
    good &= memcmp(file, empty_file, 14) == 0 && map_words[0] == 0 && words[13] == IMDAGLUZ_BY_NOBODY;
    good &= order(empty_file, 14, 7, at, map, scratch, bytes, 0, words, WORDS) == 3 && words[12] == 14 && words[13] == IMDAGLUZ_BY_WRITING;
    good &= order(empty_file, 14, 7, at, no, no, bytes, 0, words, WORDS) == 3 && words[12] == 0 && words[13] == IMDAGLUZ_BY_RENUMBERING;
    good &= order(bytes, 0, 9, at, no, no, bytes, 0, words, WORDS) == 18 && words[0] == 0 && words[13] == IMDAGLUZ_BY_FILE;
    return good && order(empty_file, 14, 0, at, no, no, bytes, 0, word, 0) == 3;
}

int main(void) {
    int good = 1;
    uint32_t answer[3], *null_words = NULL;
    uint8_t *null_bytes = NULL, nine[9] = {HELD}, byte[1] = {HELD};
    for (int empty = 0; empty < LISTS; empty++) {
        uint32_t one[1] = {HELD};
        if (renumber(empty, one, answer) != expected(empty) || one[0] != HELD) printf("%s: not as promised with the length 0\n", names[empty]), good = 0;
        if (renumber(empty, null_words, answer) != expected(empty)) printf("%s: NULL is answered otherwise\n", names[empty]), good = 0;
    }
    good &= imdagluz_delta(byte, 0, 0, 6, nine, 9) == 15 && imdagluz_delta(byte, 1, 0, 9, byte, 0) == 3 && byte[0] == HELD && nine[0] == HELD;
    good &= imdagluz_delta(null_bytes, 0, 0, 6, nine, 9) == 15 && imdagluz_delta(byte, 1, 0, 9, null_bytes, 0) == 3 && nine[0] == HELD;
    static const uint8_t empty_circuit[] = "aig 0 0 0 0 0\n";
    for (int null = 0; null < 2; null++) {
        uint32_t one[1] = {HELD}, *at = null ? null_words : one;
        uint64_t words[11], word[1] = {HELD};
        good &= imdagluz_read_aig(empty_circuit, 14, at, 0, at, 0, at, 0, at, 0, at, 0, words, 11) == 0 && words[0] == 14 && one[0] == HELD;
        good &= imdagluz_read_aig(null ? null_bytes : byte, 0, at, 0, at, 0, at, 0, at, 0, at, 0, words, 11) == 18 && words[0] == 0;
        good &= imdagluz_read_aig(empty_circuit, 14, at, 0, at, 0, at, 0, at, 0, at, 0, null ? (uint64_t *)NULL : word, 0) == 3;
        good &= word[0] == HELD && one[0] == HELD;
        uint32_t none[5] = {0};
        uint8_t *bytes = null ? null_bytes : byte, file[14];
        good &= imdagluz_write_aig(0, none, 5, at, 0, at, 0, at, 0, at, 0, at, 0, bytes, 0, words, 2) == 3 && words[0] == 0 && words[1] == 14 && byte[0] == HELD;
        good &= imdagluz_write_aig(0, none, 5, at, 0, at, 0, at, 0, at, 0, at, 0, file, 14, words, 2) == 0 && memcmp(file, empty_circuit, 14) == 0;
        good &= imdagluz_write_aig(0, at, 0, at, 0, at, 0, at, 0, at, 0, at, 0, bytes, 0, words, 2) == 2 && words[0] == 0 && words[1] == 0;
        good &= imdagluz_write_aig(0, none, 5, at, 0, at, 0, at, 0, at, 0, at, 0, bytes, 0, null ? (uint64_t *)NULL : word, 0) == 3 && word[0] == HELD;
        good &= one[0] == HELD && byte[0] == HELD;
        good &= text_form(at, null ? null_bytes : byte, null ? (uint64_t *)NULL : word) && one[0] == HELD && byte[0] == HELD && word[0] == HELD;
        good &= ordered(at, null ? null_bytes : byte, null ? (uint64_t *)NULL : word) && one[0] == HELD && byte[0] == HELD && word[0] == HELD;
        good &= imdagluz_expand(0, 0, at, 0, at, 0, at, 0, at, 0) == 0 && imdagluz_expand(1, 0, at, 0, at, 0, at, 0, at, 0) == 3 && one[0] == HELD;
    }
    char version[40];
    snprintf(version, sizeof version, "%d.%d.%d", IMDAGLUZ_VERSION_MAJOR, IMDAGLUZ_VERSION_MINOR, IMDAGLUZ_VERSION_PATCH);
    good &= strcmp(version, IMDAGLUZ_VERSION) == 0;
    printf("version %s: lists of the length 0 %s\n", IMDAGLUZ_VERSION, good ? "as promised; the same with NULL, which is no promise" : "are not as promised");
    if (fflush(stdout) != 0 || ferror(stdout)) {
        fputs("empty: standard output can't be written\n", stderr);
        return 1;
    }
    return good ? 0 : 1;
}
