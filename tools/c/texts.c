/* Has imdagluz_read_aag take and refuse texts as the header says: the table of texts with its answers, a small text cut at each of its bytes, each of its
 * numbers replaced by others, a list one word short for each list, none at all, and lists of the limits. Every list is longer than it is lent for, and every
 * word of it is compared afterwards. What is taken is renumbered. How texts are written is tried by writing.c. Exit status: 0 when all are as promised and the
 * line that says so was written, else 1. */
#include "imdagluz.h"
#include <inttypes.h>
#include <stdio.h>
#include <string.h>

enum { INPUTS, STATES, NEXTS, RESETS, GATES, SIZES, ROOTS, LISTS, WORDS = 11, LENT = 12, PAST = 4, HELD = 9, MOST = 3 * IMDAGLUZ_LIST + PAST };

static const char *const names[LISTS] = {"inputs", "states", "nexts", "resets", "gates", "sizes", "roots"};
static uint32_t lists[LISTS][MOST];
static uint64_t answer[LENT + PAST];
static int cases, good = 1;

static void failed(const char *what) {
    printf("%s: not as promised\n", what);
    good = 0;
}

static void fill(const size_t lengths[LISTS]) {
    for (int i = 0; i < LISTS; i++)
        for (size_t j = 0; j < lengths[i] + PAST; j++) lists[i][j] = HELD;
    for (int j = 0; j < LENT + PAST; j++) answer[j] = HELD;
}

static uint32_t read_text(const char *text, size_t length, const size_t lengths[LISTS], size_t answer_length) {
    return imdagluz_read_aag((const uint8_t *)text, length, lists[INPUTS], lengths[INPUTS], lists[STATES], lengths[STATES], lists[NEXTS], lengths[NEXTS],
                             lists[RESETS], lengths[RESETS], lists[GATES], lengths[GATES], lists[SIZES], lengths[SIZES], lists[ROOTS], lengths[ROOTS],
                             answer, answer_length);
}

/* Whether the first words of a list are those given (or 0, where none are), and the others what the list held. */
static int holds(const uint32_t *list, size_t all, const uint32_t *words, size_t count) {
    for (size_t j = 0; j < all; j++)
        if (list[j] != (j >= count ? HELD : words == NULL ? 0 : words[j])) return 0;
    return 1;
}

/* A refusal: its number and place, every lent word 0, every word past the lists what it was. */
static void refuses(const char *what, const char *text, size_t length, const size_t lengths[LISTS], uint32_t number, uint64_t place) {
    fill(lengths);
    int same = read_text(text, length, lengths, LENT) == number && answer[0] == place;
    for (int j = 1; j < WORDS; j++) same &= answer[j] == 0;
    for (int j = WORDS; j < LENT + PAST; j++) same &= answer[j] == HELD;
    for (int i = 0; i < LISTS; i++) same &= holds(lists[i], lengths[i] + PAST, NULL, lengths[i]);
    if (!same) failed(what);
    cases++;
}

/* A success: the eleven answer words, the words of each list that hold the circuit, and every other word what it was. */
struct circuit { uint64_t words[WORDS]; uint32_t lists[LISTS][6]; };

static void takes(const char *what, const char *text, size_t length, const size_t lengths[LISTS], const struct circuit *c) {
    fill(lengths);
    int same = read_text(text, length, lengths, LENT) == 0 && memcmp(answer, c->words, sizeof c->words) == 0;
    size_t l = c->words[3], filled[LISTS] = {c->words[2], l, l, l, 3 * c->words[4], c->words[10], 0};
    for (int j = WORDS; j < LENT + PAST; j++) same &= answer[j] == HELD;
    for (int j = 5; j < 10; j++) filled[ROOTS] += c->words[j];
    for (int i = 0; i < LISTS; i++) same &= holds(lists[i], lengths[i] + PAST, c->lists[i], filled[i]);
    if (!same) failed(what);
    cases++;
}

enum { LIST = IMDAGLUZ_LIST };
static const size_t some[LISTS] = {8, 8, 8, 8, 8, 8, 8}, most[LISTS] = {LIST, LIST, LIST, LIST, 3 * LIST, LIST, LIST};

/* The table of texts: what each is answered. A text that is taken names the bytes it takes; the row with 1048575 justice literals needs that many roots. */
#define TEXT_OF(text) text, sizeof text - 1
static const struct row { const char *text; size_t length; uint32_t number; uint64_t place; } table[] = {
    {TEXT_OF(""), 18, 0},
    {TEXT_OF("aa"), 18, 0},
    {TEXT_OF("aig 0 0 0 0 0\n"), 18, 0},
    {TEXT_OF("aag"), 18, 3},
    {TEXT_OF("aags"), 18, 3},
    {TEXT_OF("aag 0 0 0 0\n"), 18, 11},
    {TEXT_OF("aag 0 0 0 0 0"), 18, 13},
    {TEXT_OF("aag 0 0 0 0 0\n"), 0, 14},
    {TEXT_OF("aag 0 0 0 0 0\r\n"), 18, 13},
    {TEXT_OF("aag  0 0 0 0 0\n"), 10, 4},
    {TEXT_OF("aag 0 0 0 0 0 \n"), 10, 14},
    {TEXT_OF("aag 0 0 0 0 0 0 0 0 0\n"), 0, 22},
    {TEXT_OF("aag 0 0 0 0 0 0 0 0 0 0\n"), 18, 21},
    {TEXT_OF("aag 1048576 0 0 0 0\n"), 12, 4},
    {TEXT_OF("aag 18446744073709551616 0 0 0 0\n"), 21, 4},
    {TEXT_OF("aag 018446744073709551616 0 0 0 0\n"), 11, 4},
    {TEXT_OF("aag 1 2 0 0 0\n"), 12, 6},
    {TEXT_OF("aag 1 1 0 0 1\n"), 12, 12},
    {TEXT_OF("aag 0 0 0 1048576 0\n"), 12, 10},
    {TEXT_OF("aag 0 0 0 1048575 0 1\n"), 10, 22},
    /* M above what is defined; a variable that is defined twice, or not at all */
    {TEXT_OF("aag 1048575 0 0 0 0\n"), 0, 20},
    {TEXT_OF("aag 3 1 0 0 1\n2\n4 2 6\n"), 0, 22},
    {TEXT_OF("aag 2 2 0 0 0\n2\n2\n"), 0, 18},
    {TEXT_OF("aag 2 1 1 0 0\n2\n2 0\n"), 0, 20},
    {TEXT_OF("aag 2 1 0 1 0\n2\n5\n"), 0, 18},
    /* a definition: 10, 11 and 21, then 13 and 14, then 12 */
    {TEXT_OF("aag 1 1 0 0 0\n"), 10, 14},
    {TEXT_OF("aag 1 1 0 0 0\n2"), 18, 15},
    {TEXT_OF("aag 1 1 0 0 0\n2\n"), 0, 16},
    {TEXT_OF("aag 1 1 0 0 0\n2 \n"), 18, 15},
    {TEXT_OF("aag 1 1 0 0 0\n2\r\n"), 18, 15},
    {TEXT_OF("aag 1 1 0 0 0\n 2\n"), 10, 14},
    {TEXT_OF("aag 1 1 0 0 0\n02\n"), 11, 14},
    {TEXT_OF("aag 1 1 0 0 0\n0\n"), 13, 14},
    {TEXT_OF("aag 1 1 0 0 0\n1\n"), 14, 14},
    {TEXT_OF("aag 1 1 0 0 0\n3\n"), 14, 14},
    {TEXT_OF("aag 1 1 0 0 0\n4\n"), 12, 14},
    {TEXT_OF("aag 1 1 0 0 0\n5\n"), 14, 14},
    {TEXT_OF("aag 1 1 0 0 0\n18446744073709551614\n"), 12, 14},
    {TEXT_OF("aag 1 1 0 0 0\n18446744073709551615\n"), 14, 14},
    {TEXT_OF("aag 1 1 0 0 0\n18446744073709551616\n"), 21, 14},
    /* a latch's state is one, its next state is not; the reset is the state, 0 or 1, and 22 comes before 18 */
    {TEXT_OF("aag 1 0 1 0 0\n0 0\n"), 13, 14},
    {TEXT_OF("aag 1 0 1 0 0\n3 0\n"), 14, 14},
    {TEXT_OF("aag 1 0 1 0 0\n4 0\n"), 12, 14},
    {TEXT_OF("aag 1 0 1 0 0\n2\n"), 18, 15},
    {TEXT_OF("aag 1 0 1 0 0\n2 \n"), 10, 16},
    {TEXT_OF("aag 1 0 1 0 0\n2 3\n"), 0, 18},
    {TEXT_OF("aag 1 0 1 0 0\n2 4\n"), 12, 16},
    {TEXT_OF("aag 1 0 1 0 0\n2 0 0\n"), 0, 20},
    {TEXT_OF("aag 1 0 1 0 0\n2 0 1\n"), 0, 20},
    {TEXT_OF("aag 1 0 1 0 0\n2 0 2\n"), 0, 20},
    {TEXT_OF("aag 1 0 1 0 0\n2 0 3\n"), 22, 18},
    {TEXT_OF("aag 1 0 1 0 0\n2 0 3"), 22, 18},
    {TEXT_OF("aag 1 0 1 0 0\n2 0 2"), 18, 19},
    {TEXT_OF("aag 1 0 1 0 0\n2 0 4\n"), 12, 18},
    {TEXT_OF("aag 1 0 1 0 0\n2 0 02\n"), 11, 18},
    {TEXT_OF("aag 1 0 1 0 0\n2 0 18446744073709551616\n"), 21, 18},
    {TEXT_OF("aag 1 0 1 0 0\n2 0 \n"), 10, 18},
    {TEXT_OF("aag 1 0 1 0 0\n2 0 2 \n"), 18, 19},
    {TEXT_OF("aag 2 0 2 0 0\n4 0 4\n2 0 4\n"), 22, 24},
    {TEXT_OF("aag 2 0 2 0 0\n4 0 4\n2 0 2\n"), 0, 26},
    /* roots; a million of them, and one too many */
    {TEXT_OF("aag 1 1 0 1 0\n2\n4\n"), 12, 16},
    {TEXT_OF("aag 0 0 0 0 0 0 0 1\n1048576\n"), 12, 20},
    {TEXT_OF("aag 0 0 0 0 0 0 0 2\n1048575\n1\n"), 1, 30},
    {TEXT_OF("aag 0 0 0 0 0 0 0 1\n1048575\n"), 10, 28},
    /* gates */
    {TEXT_OF("aag 1 0 0 0 1\n2 2 3\n"), 0, 20},
    {TEXT_OF("aag 2 0 0 0 2\n4 2 2\n2 1 0\n"), 0, 26},
    {TEXT_OF("aag 1 0 0 0 1\n0 0 0\n"), 13, 14},
    {TEXT_OF("aag 1 0 0 0 1\n3 0 0\n"), 14, 14},
    {TEXT_OF("aag 1 0 0 0 1\n4 0 0\n"), 12, 14},
    {TEXT_OF("aag 1 0 0 0 1\n2\n"), 18, 15},
    {TEXT_OF("aag 1 0 0 0 1\n2 4 0\n"), 12, 16},
    {TEXT_OF("aag 1 0 0 0 1\n2 0\n"), 18, 17},
    {TEXT_OF("aag 1 0 0 0 1\n2 0 4\n"), 12, 18},
    {TEXT_OF("aag 1 0 0 0 1\n2 0 0"), 18, 19},
    {TEXT_OF("aag 1 0 0 0 1\n2 0 0 0\n"), 18, 19},
    {TEXT_OF("aag 1 0 0 0 1\n2  0 0\n"), 10, 16},
    {TEXT_OF("aag 1 0 0 0 1\n2 0 01\n"), 11, 18},
    {TEXT_OF("aag 1 0 0 0 1\n2 0 18446744073709551616\n"), 21, 18},
    {TEXT_OF("aag 1 0 0 0 1\n2 0 0\njunk"), 0, 20},
};
enum { ROWS = sizeof table / sizeof table[0] };

/* The same text in lists of the limits is answered the same: 3 is not given there. */
static void row(const struct row *r) {
    size_t lengths[LISTS] = {8, 8, 8, 8, 8, 8, r->number == 10 && r->place == 28 ? LIST : 8};
    if (r->number != 0) refuses(r->text, r->text, r->length, lengths, r->number, r->place);
    else {
        fill(some);
        if (read_text(r->text, r->length, some, LENT) != 0 || answer[0] != r->place) failed(r->text);
        cases++;
    }
    if (read_text(r->text, r->length, most, LENT) != r->number || answer[0] != r->place) failed(r->text);
}

/* Two inputs, a latch for each reset, two gates, the later one first, a root of each kind and a second justice literal of the one set; M is one above. */
static const char small[] = "aag 8 2 3 1 2 1 1 1 1\n4\n2\n6 12\n8 8 1\n10 3 10\n14\n9\n3\n2\n6\n11\n7\n14 13 2\n12 4 2\n";
enum { SMALL = sizeof small - 1, HEADER = 22, BEFORE_ROOTS = 54 };
static const struct circuit held = {{SMALL, 8, 2, 3, 2, 1, 1, 1, 1, 2, 1},
                                    {{4, 2}, {6, 8, 10}, {12, 8, 3}, {0, 1, 10}, {14, 13, 2, 12, 4, 2}, {2}, {14, 9, 3, 7, 6, 11}}};
static const size_t defines[] = {22, 24, 26, 31, 37, 61, 69};
static const size_t needed[LISTS] = {2, 3, 3, 3, 6, 1, 6};

static int is_digit(char c) { return c >= '0' && c <= '9'; }

/* A text that ends at a byte: a number that begins there is missing (10), or a space, a newline or the rest of a number's line is (18); what is left of a
 * definition of two digits is 1, which is odd (14). */
static void cut(size_t n) {
    char what[40];
    snprintf(what, sizeof what, "cut at byte %zu", n);
    uint32_t number = n >= 3 && is_digit(small[n]) && !is_digit(small[n - 1]) ? 10 : 18;
    size_t place = n < 3 ? 0 : n;
    for (size_t k = 0; k < sizeof defines / sizeof defines[0]; k++)
        if (n == defines[k] + 1 && is_digit(small[n])) number = 14, place = n - 1;
    refuses(what, small, n, some, number, place);
}

/* Each number behind the header in turn replaced by one that has a digit too many, is over 64 bits, or is no number. */
static void numbers(void) {
    static const char *const others[] = {"00", "18446744073709551616", "x"};
    static const uint32_t told[] = {11, 21, 10};
    for (size_t at = HEADER; at < SMALL; at++) {
        if (!is_digit(small[at]) || is_digit(small[at - 1])) continue;
        size_t end = at;
        while (is_digit(small[end])) end++;
        for (int i = 0; i < 3; i++) {
            char text[120];
            int length = snprintf(text, sizeof text, "%.*s%s%s", (int)at, small, others[i], small + end);
            refuses("a number that is none", text, (size_t)length, some, told[i], at);
        }
    }
}

/* Each definition in turn 0, odd, over the limit, and both. */
static void definitions(void) {
    static const char *const others[] = {"0", "3", "18", "19"};
    static const uint32_t told[] = {13, 14, 12, 14};
    for (size_t k = 0; k < sizeof defines / sizeof defines[0]; k++) {
        size_t at = defines[k], end = at;
        while (is_digit(small[end])) end++;
        for (int i = 0; i < 4; i++) {
            char text[120];
            int length = snprintf(text, sizeof text, "%.*s%s%s", (int)at, small, others[i], small + end);
            refuses("a definition that is none", text, (size_t)length, some, told[i], at);
        }
    }
}

static void short_lists(void) {
    takes("the small text", small, SMALL, some, &held);
    takes("lists that are just long enough", small, SMALL, needed, &held);
    for (int i = 0; i < LISTS; i++) {
        size_t lengths[LISTS];
        memcpy(lengths, needed, sizeof lengths);
        lengths[i]--;
        refuses(names[i], small, SMALL, lengths, 3, i == ROOTS ? BEFORE_ROOTS : HEADER);
        /* none at all, and a word more than is asked: the other lists are just long enough */
        lengths[i] = 0;
        refuses(names[i], small, SMALL, lengths, 3, i == ROOTS ? BEFORE_ROOTS : HEADER);
        lengths[i] = needed[i] + 1;
        takes(names[i], small, SMALL, lengths, &held);
    }
    /* ten answer words: nothing at all is written, not even of a text that would be refused */
    for (size_t length = 0; length <= SMALL; length += SMALL) {
        fill(some);
        int same = read_text(small, length, some, WORDS - 1) == 3;
        for (int j = 0; j < LENT + PAST; j++) same &= answer[j] == HELD;
        for (int i = 0; i < LISTS; i++) same &= holds(lists[i], some[i] + PAST, NULL, 0);
        if (!same) failed("ten answer words");
        cases++;
    }
}

/* What was read is a circuit for imdagluz_renumber, in the same lists: the inputs change places, and the gate that stands first in the text comes second. */
static void renumbered(void) {
    fill(some);
    uint32_t counts[5], map[9], next_images[3], reset_images[3], root_images[6], gates_out[4], scratch[33], three[3];
    int same = read_text(small, SMALL, some, LENT) == 0;
    for (int i = 0; i < 5; i++) counts[i] = (uint32_t)answer[5 + i];
    same &= imdagluz_renumber((uint32_t)answer[1], counts, 5, 0, lists[INPUTS], 2, lists[STATES], 3, lists[NEXTS], 3, lists[RESETS], 3, lists[GATES], 6,
                              lists[ROOTS], 6, map, 9, next_images, 3, reset_images, 3, root_images, 6, gates_out, 4, scratch, 33, three, 3) == 0;
    static const uint32_t expected[4] = {4, 2, 13, 4}, nexts[3] = {12, 8, 5}, resets[3] = {0, 1, 10}, roots[6] = {14, 9, 5, 7, 6, 11};
    same &= three[1] == 2 && three[2] == 7 && memcmp(gates_out, expected, sizeof expected) == 0 && memcmp(next_images, nexts, sizeof nexts) == 0
        && memcmp(reset_images, resets, sizeof resets) == 0 && memcmp(root_images, roots, sizeof roots) == 0;
    if (!same) failed("the small text renumbered");
    cases++;
}

int main(void) {
    for (int i = 0; i < ROWS; i++) row(&table[i]);
    for (size_t n = 0; n < SMALL; n++) cut(n);
    numbers();
    definitions();
    short_lists();
    renumbered();
    if (good) printf("%d texts as promised\n", cases);
    if (fflush(stdout) != 0 || ferror(stdout)) {
        fputs("texts: standard output can't be written\n", stderr);
        return 1;
    }
    return good ? 0 : 1;
}
