/* Has imdagluz_read_aig and imdagluz_expand take and refuse files and circuits as the header says: the table of files with its answers, a small file cut at
 * each of its bytes, a list one word short for each list, lists of the limits, and each refusal of imdagluz_expand. Every list is longer than it is lent
 * for, and every word of it is compared afterwards. Exit status: 0 when all are as promised and the line that says so was written, else 1. */
#include "imdagluz.h"
#include <inttypes.h>
#include <stdio.h>
#include <string.h>

enum { NEXTS, RESETS, GATES, SIZES, ROOTS, LISTS, WORDS = 11, LENT = 12, PAST = 4, HELD = 9, MOST = 2 * IMDAGLUZ_LIST + PAST };

static const char *const names[LISTS] = {"nexts", "resets", "gates", "sizes", "roots"};
static uint32_t lists[LISTS][MOST];
static uint64_t answer[LENT + PAST];
static int cases, good = 1;

static void failed(const char *what) {
    printf("%s: not as promised\n", what);
    good = 0;
}

static void fill(const size_t lengths[LISTS]) {
    for (int i = 0; i < LISTS; i++)
        for (size_t j = 0; j < lengths[i] + PAST; j++) lists[i][j] = HELD;
    for (int j = 0; j < LENT + PAST; j++) answer[j] = HELD;
}

static uint32_t read_file(const uint8_t *bytes, size_t length, const size_t lengths[LISTS], size_t answer_length) {
    return imdagluz_read_aig(bytes, length, lists[NEXTS], lengths[NEXTS], lists[RESETS], lengths[RESETS], lists[GATES], lengths[GATES],
                             lists[SIZES], lengths[SIZES], lists[ROOTS], lengths[ROOTS], answer, answer_length);
}

/* Whether the first words of a list are those given (or 0, where none are), and the others what the list held. */
static int holds(const uint32_t *list, size_t all, const uint32_t *words, size_t count) {
    for (size_t j = 0; j < all; j++)
        if (list[j] != (j >= count ? HELD : words == NULL ? 0 : words[j])) return 0;
    return 1;
}

/* A refusal: its number and place, every lent word 0, every word past the lists what it was. */
static void refuses(const char *what, const uint8_t *bytes, size_t length, const size_t lengths[LISTS], uint32_t number, uint64_t place) {
    fill(lengths);
    int same = read_file(bytes, length, lengths, LENT) == number && answer[0] == place;
    for (int j = 1; j < WORDS; j++) same &= answer[j] == 0;
    for (int j = WORDS; j < LENT + PAST; j++) same &= answer[j] == HELD;
    for (int i = 0; i < LISTS; i++) same &= holds(lists[i], lengths[i] + PAST, NULL, lengths[i]);
    if (!same) failed(what);
    cases++;
}

/* A success: the eleven answer words, the words of each list that hold the circuit, and every other word what it was. */
struct circuit { uint64_t words[WORDS]; uint32_t nexts[3], resets[3], gates[4], sizes[2], roots[6]; };

static void takes(const char *what, const uint8_t *bytes, size_t length, const size_t lengths[LISTS], const struct circuit *c) {
    fill(lengths);
    int same = read_file(bytes, length, lengths, LENT) == 0 && memcmp(answer, c->words, sizeof c->words) == 0;
    size_t roots = 0;
    for (int j = WORDS; j < LENT + PAST; j++) same &= answer[j] == HELD;
    for (int j = 5; j < 10; j++) roots += c->words[j];
    same &= holds(lists[NEXTS], lengths[NEXTS] + PAST, c->nexts, c->words[3]) && holds(lists[RESETS], lengths[RESETS] + PAST, c->resets, c->words[3]);
    same &= holds(lists[GATES], lengths[GATES] + PAST, c->gates, 2 * c->words[4])
        && holds(lists[SIZES], lengths[SIZES] + PAST, c->sizes, c->words[10]) && holds(lists[ROOTS], lengths[ROOTS] + PAST, c->roots, roots);
    if (!same) failed(what);
    cases++;
}

static const size_t some[LISTS] = {8, 8, 8, 8, 8}, most[LISTS] = {IMDAGLUZ_LIST, IMDAGLUZ_LIST, 2 * IMDAGLUZ_LIST, IMDAGLUZ_LIST, IMDAGLUZ_LIST};

/* The table of files: what each is answered. A file that is taken names the bytes it takes; the row with 1048575 justice literals needs that many roots. */
#define FILE_OF(text) text, sizeof text - 1
static const struct row { const char *file; size_t length; uint32_t number; uint64_t place; } table[] = {
    {FILE_OF(""), 18, 0},
    {FILE_OF("ai"), 18, 0},
    {FILE_OF("aag 0 0 0 0 0\n"), 18, 0},
    {FILE_OF("aig"), 18, 3},
    {FILE_OF("aigs"), 18, 3},
    {FILE_OF("aig 0 0 0 0\n"), 18, 11},
    {FILE_OF("aig 0 0 0 0 0"), 18, 13},
    {FILE_OF("aig 0 0 0 0 0\n"), 0, 14},
    {FILE_OF("aig 0 0 0 0 0\r\n"), 18, 13},
    {FILE_OF("aig  0 0 0 0 0\n"), 10, 4},
    {FILE_OF("aig 0 0 0 0 0 \n"), 10, 14},
    {FILE_OF("aig 0 0 0 0 0 0 0 0 0\n"), 0, 22},
    {FILE_OF("aig 0 0 0 0 0 0 0 0 0 0\n"), 18, 21},
    {FILE_OF("aig 1048575 0 0 0 0\n"), 19, 20},
    {FILE_OF("aig 1048576 0 0 0 0\n"), 12, 4},
    {FILE_OF("aig 18446744073709551616 0 0 0 0\n"), 21, 4},
    {FILE_OF("aig 018446744073709551616 0 0 0 0\n"), 11, 4},
    {FILE_OF("aig 1 2 0 0 0\n"), 12, 6},
    {FILE_OF("aig 1 1 0 0 1\n"), 12, 12},
    {FILE_OF("aig 3 1 0 0 1\n\2\2"), 19, 14},
    {FILE_OF("aig 0 0 0 1048576 0\n"), 12, 10},
    {FILE_OF("aig 0 0 0 1048575 0 1\n"), 10, 22},
    {FILE_OF("aig 1 1 0 0 0 1\n2\n"), 0, 18},
    {FILE_OF("aig 0 0 0 0 0 0 0 1\n1048576\n"), 12, 20},
    {FILE_OF("aig 0 0 0 0 0 0 0 2\n1048575\n1\n"), 1, 30},
    {FILE_OF("aig 0 0 0 0 0 0 0 1\n1048575\n"), 10, 28},
    {FILE_OF("aig 4 2 0 0 2 0 0 1 1\n1\n6\n8\n\2\2\3\3"), 0, 32},
    {FILE_OF("aig 2 1 1 0 0\n2 3\n"), 22, 16},
    {FILE_OF("aig 2 1 1 0 0\n2 4\n"), 0, 18},
    {FILE_OF("aig 2 1 1 0 0\n2 6\n"), 12, 16},
    {FILE_OF("aig 2 1 1 0 0\n2 3"), 22, 16},
    {FILE_OF("aig 2 1 1 0 0\n2 \n"), 10, 16},
    {FILE_OF("aig 3 2 0 1 1\n6\n\0\2"), 20, 16},
    {FILE_OF("aig 3 2 0 1 1\n6\n\200\0\2"), 20, 16},
    {FILE_OF("aig 3 2 0 1 1\n6\n\0"), 15, 17},
    {FILE_OF("aig 3 2 0 1 1\n6\n\0\7"), 17, 17},
    {FILE_OF("aig 3 2 0 1 1\n6\n\2\2junk"), 0, 18},
    {FILE_OF("aig 3 2 0 1 1\n8\n\2\2"), 12, 14},
    /* and of a delta that goes on for too long, alone and after a first delta of zero, which the table has not; of a zero in eight bytes, with a second
     * delta that is cut or over, in both deltas, in the second alone, and in the second gate */
    {FILE_OF("aig 3 2 0 1 1\n6\n\200\200\200\200\200\200\200\200\0\0"), 16, 16},
    {FILE_OF("aig 3 2 0 1 1\n6\n\0\200\200\200\200\200\200\200\200\0"), 16, 17},
    {FILE_OF("aig 3 2 0 1 1\n6\n\200\200\200\200\200\200\200\0\2"), 20, 16},
    {FILE_OF("aig 3 2 0 1 1\n6\n\200\0\200"), 15, 18},
    {FILE_OF("aig 3 2 0 1 1\n6\n\200\0\7"), 17, 18},
    {FILE_OF("aig 3 2 0 1 1\n6\n\0\0"), 20, 16},
    {FILE_OF("aig 3 2 0 1 1\n6\n\2\0"), 0, 18},
    {FILE_OF("aig 4 2 0 1 2\n6\n\2\2\0\2"), 20, 18},
    /* and of resets: each kind that is taken; the own literal negated, an input, another latch, a gate; the number's own refusals before 22, and 22 before 18
     * and before all that follows; after 19 */
    {FILE_OF("aig 2 1 1 0 0\n2 0\n"), 0, 18},
    {FILE_OF("aig 2 1 1 0 0\n2 1\n"), 0, 18},
    {FILE_OF("aig 2 1 1 0 0\n2\n"), 0, 16},
    {FILE_OF("aig 2 1 1 0 0\n2 5\n"), 22, 16},
    {FILE_OF("aig 2 1 1 0 0\n2 2\n"), 22, 16},
    {FILE_OF("aig 2 1 1 0 0\n2 5x"), 22, 16},
    {FILE_OF("aig 2 1 1 0 0\n2 4x"), 18, 17},
    {FILE_OF("aig 2 1 1 0 0\n2 4"), 18, 17},
    {FILE_OF("aig 2 1 1 0 0\n2 1 \n"), 18, 17},
    {FILE_OF("aig 2 1 1 0 0\n2 04\n"), 11, 16},
    {FILE_OF("aig 2 1 1 0 0\n2 18446744073709551616\n"), 21, 16},
    {FILE_OF("aig 2 1 1 0 0\n2  4\n"), 10, 16},
    {FILE_OF("aig 2 0 2 0 0\n2 2\n2 4\n"), 0, 22},
    {FILE_OF("aig 2 0 2 0 0\n2 4\n2 2\n"), 22, 16},
    {FILE_OF("aig 2 0 2 0 0\n2 2\n2 2\n"), 22, 20},
    {FILE_OF("aig 2 0 2 0 0\n2 1\n2 3\n"), 22, 20},
    {FILE_OF("aig 2 0 2 1 0\n2 3\n6\n6\n"), 22, 16},
    {FILE_OF("aig 2 0 1 0 1\n2 4\n\1\1"), 22, 16},
    {FILE_OF("aig 3 1 1 0 0\n2 3\n"), 19, 14},
};
enum { ROWS = sizeof table / sizeof table[0] };

/* The same file in lists of the limits is answered the same: 3 is not given there. */
static void row(const struct row *r) {
    const uint8_t *bytes = (const uint8_t *)r->file;
    size_t lengths[LISTS] = {8, 8, 8, 8, r->number == 10 && r->place == 28 ? IMDAGLUZ_LIST : 8};
    if (r->number != 0) refuses(r->file, bytes, r->length, lengths, r->number, r->place);
    else {
        fill(some);
        if (read_file(bytes, r->length, some, LENT) != 0 || answer[0] != r->place) failed(r->file);
        cases++;
    }
    if (read_file(bytes, r->length, most, LENT) != r->number || answer[0] != r->place) failed(r->file);
}

/* Two inputs, a latch for each reset, two gates, the first delta with a byte too many, a root of each kind and a second justice literal of the one set. */
static const char small[] = "aig 7 2 3 1 2 1 1 1 1\n12\n8 1\n3 10\n14\n9\n3\n2\n6\n11\n7\n\206\0\4\6\5";
enum { SMALL = sizeof small - 1, HEADER = 22, BEFORE_ROOTS = 43, BEFORE_GATES = 50 };
static const struct circuit held = {{SMALL, 7, 2, 3, 2, 1, 1, 1, 1, 2, 1}, {12, 8, 3}, {0, 1, 10}, {6, 2, 8, 3}, {2}, {14, 9, 3, 7, 6, 11}};

static int is_digit(char c) { return c >= '0' && c <= '9'; }

/* A file that ends at a byte: a number that begins there is missing (10), a space, a newline or the rest of a number's line is (18), or a delta is cut (15). */
static void cut(size_t n) {
    char what[40];
    snprintf(what, sizeof what, "cut at byte %zu", n);
    uint32_t number = n >= BEFORE_GATES ? 15 : n >= 3 && is_digit(small[n]) && !is_digit(small[n - 1]) ? 10 : 18;
    uint64_t place = n < 3 ? 0 : n == BEFORE_GATES + 1 ? BEFORE_GATES : n;
    refuses(what, (const uint8_t *)small, n, some, number, place);
}

static void short_lists(void) {
    static const size_t needed[LISTS] = {3, 3, 4, 1, 6};
    const uint8_t *bytes = (const uint8_t *)small;
    takes("the small file", bytes, SMALL, some, &held);
    takes("lists that are just long enough", bytes, SMALL, needed, &held);
    for (int i = 0; i < LISTS; i++) {
        size_t lengths[LISTS];
        memcpy(lengths, needed, sizeof lengths);
        lengths[i]--;
        refuses(names[i], bytes, SMALL, lengths, 3, i == ROOTS ? BEFORE_ROOTS : HEADER);
        /* none at all, and a word more than is asked: the other lists are just long enough */
        lengths[i] = 0;
        refuses(names[i], bytes, SMALL, lengths, 3, i == ROOTS ? BEFORE_ROOTS : HEADER);
        lengths[i] = needed[i] + 1;
        takes(names[i], bytes, SMALL, lengths, &held);
    }
    /* ten answer words: nothing at all is written, not even of a file that would be refused */
    for (size_t length = 0; length <= SMALL; length += SMALL) {
        fill(some);
        int same = read_file(bytes, length, some, WORDS - 1) == 3;
        for (int j = 0; j < LENT + PAST; j++) same &= answer[j] == HELD;
        for (int i = 0; i < LISTS; i++) same &= holds(lists[i], some[i] + PAST, NULL, 0);
        if (!same) failed("ten answer words");
        cases++;
    }
}

/* imdagluz_expand: 8 words are lent for each list, more where a case says so; a circuit of two inputs, a latch and two gates. */
static void expands(const char *what, uint32_t inputs, uint32_t latches, size_t gates_length, const size_t lengths[3], uint32_t number) {
    static const uint32_t gates[6] = {6, 2, 3, 9, 4294967295, 0}, codes[2] = {2, 4}, states[1] = {6}, triples[6] = {8, 6, 2, 10, 3, 9};
    const size_t all[LISTS] = {lengths[0], lengths[1], lengths[2]};
    fill(all);
    uint32_t got = imdagluz_expand(inputs, latches, gates, gates_length, lists[0], lengths[0], lists[1], lengths[1], lists[2], lengths[2]);
    size_t written = number == 0;
    if (got != number || !holds(lists[0], lengths[0] + PAST, codes, 2 * written) || !holds(lists[1], lengths[1] + PAST, states, written)
        || !holds(lists[2], lengths[2] + PAST, triples, 6 * written)) failed(what);
    cases++;
}

static void expansions(void) {
    static const size_t needed[3] = {2, 1, 6}, eight[3] = {8, 8, 8};
    expands("an expansion", 2, 1, 4, eight, 0);
    expands("an expansion into lists that are just long enough", 2, 1, 4, needed, 0);
    expands("too many inputs, and an odd list", 1048576, 0, 3, eight, 1);
    expands("too many latches", 0, 1048576, 4, eight, 1);
    expands("inputs and latches that overflow a word", 4294967295, 4294967295, 4, eight, 1);
    expands("two gates too many", 1048570, 4, 4, eight, 1);
    expands("as many gates as there may be", 1048570, 4, 2, eight, 3);
    expands("an odd list, and short ones", 9, 9, 3, eight, 2);
    for (int i = 0; i < 3; i++) {
        size_t lengths[3];
        memcpy(lengths, needed, sizeof lengths);
        lengths[i]--;
        expands("an expansion into a list that is a word short", 2, 1, 4, lengths, 3);
    }
    /* the gates' codes are copied as they are */
    static const uint32_t odd[2] = {4294967295, 7};
    uint32_t triple[3], none[1] = {HELD};
    if (imdagluz_expand(0, 0, odd, 2, none, 0, none, 0, triple, 3) != 0 || triple[0] != 2 || triple[1] != odd[0] || triple[2] != odd[1] || none[0] != HELD)
        failed("codes that are over");
    cases++;
}

int main(void) {
    for (int i = 0; i < ROWS; i++) row(&table[i]);
    for (size_t n = 0; n < SMALL; n++) cut(n);
    short_lists();
    expansions();
    if (good) printf("%d files and circuits as promised\n", cases);
    if (fflush(stdout) != 0 || ferror(stdout)) {
        fputs("files: standard output can't be written\n", stderr);
        return 1;
    }
    return good ? 0 : 1;
}
