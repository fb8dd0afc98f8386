/* Has imdagluz_order order and refuse files as the header says: a table of files with their answers and what is written of them, a small file under each
 * setting of the flags and some that are none, each list a word short and empty, answer lists and bytes of every length that is too short, each refusal alone
 * and each two together, files at the limits, and 3,000 random circuits under every setting of the flags, in lists of any length near the needed one. Every
 * list, the bytes and the answer are longer than they are lent for, and every word and byte of them is compared: for the small file with what is written out
 * here, else with the parts called one by one. What is written is read again, and has the same resets, and the same values of next states and roots under 64
 * random settings. Exit status: 0 when all are as promised and the line that says so was written, else 1. */
#include "imdagluz.h"
#include <stdio.h>
#include <string.h>

/* The lists in the order of the call: those of the file, those of expanding, those of renumbering. */
enum { NEXTS, RESETS, GATES, SIZES, ROOTS, INPUT_CODES, STATE_CODES, TRIPLES, MAP, NEXT_IMAGES, RESET_IMAGES, ROOT_IMAGES, GATES_OUT, SCRATCH, LISTS };
enum { FILE_LISTS = INPUT_CODES, EXPANDED_LISTS = MAP };
enum { LIST = IMDAGLUZ_LIST, WORDS = IMDAGLUZ_ORDER_WORDS, LENT = WORDS + 2, PAST = 4, HELD = 165, MOST = 76 + 32 * LIST };

static const char *const names[LISTS] = {"nexts", "resets", "gates", "sizes", "roots", "input_codes", "state_codes",
                                         "triples", "map", "next_images", "reset_images", "root_images", "gates_out", "scratch"};
static const size_t limits[LISTS] = {LIST, LIST, 2 * LIST, LIST, LIST, LIST, LIST, 3 * LIST, LIST + 1, LIST, LIST, LIST, 2 * LIST, 6 * LIST + 3};
static const uint32_t held = 0x01010101u * HELD;

/* What a call is given: bytes, flags, the lengths of the lists, how many bytes may be written, and how many answer words. */
static struct given { const uint8_t *bytes; size_t length; uint32_t flags; size_t lengths[LISTS], out, words; } given;

/* What it leaves. */
struct outcome { uint32_t number, *lists[LISTS]; uint8_t *out; uint64_t answer[LENT + PAST]; };
static struct outcome left, parts;
static int cases, good = 1;

static void failed(const char *what) {
    printf("%s: not as promised\n", what);
    good = 0;
}

/* Finds room for two outcomes: each list behind the one before, with some words past it. */
static void find_room(void) {
    static uint32_t words[2][23 * LIST + 4 + LISTS * PAST];
    static uint8_t bytes[2][MOST + PAST];
    for (int n = 0; n < 2; n++) {
        struct outcome *o = n ? &parts : &left;
        uint32_t *at = words[n];
        for (int i = 0; i < LISTS; at += limits[i++] + PAST) o->lists[i] = at;
        o->out = bytes[n];
    }
}

/* Has every lent word and byte, and those past them, hold a known one. */
static void fill(struct outcome *o) {
    for (int i = 0; i < LISTS; i++) memset(o->lists[i], HELD, (given.lengths[i] + PAST) * sizeof held);
    memset(o->out, HELD, given.out + PAST);
    memset(o->answer, HELD, sizeof o->answer);
}

static void order(void) {
    uint32_t **l = left.lists;
    const size_t *n = given.lengths;
    fill(&left);
    left.number = imdagluz_order(given.bytes, given.length, given.flags, l[0], n[0], l[1], n[1], l[2], n[2], l[3], n[3], l[4], n[4], l[5], n[5], l[6], n[6],
                                 l[7], n[7], l[8], n[8], l[9], n[9], l[10], n[10], l[11], n[11], l[12], n[12], l[13], n[13], left.out, given.out,
                                 left.answer, given.words);
    cases++;
}

/* The parts one by one, each with what the one before left; answers the refusal's number. */
static uint32_t call_parts(void) {
    uint32_t **l = parts.lists, counts[5], roots = 0, made[3];
    const size_t *n = given.lengths;
    uint64_t *answer = parts.answer, read[11], written[2];
    if (given.words < WORDS) return 3;
    memset(answer, 0, WORDS * sizeof *answer);
    uint32_t number = imdagluz_read_aig(given.bytes, given.length, l[NEXTS], n[NEXTS], l[RESETS], n[RESETS], l[GATES], n[GATES], l[SIZES], n[SIZES], l[ROOTS],
                                        n[ROOTS], read, 11);
    memcpy(answer, read, sizeof read);
    answer[13] = IMDAGLUZ_BY_FILE;
    if (number != 0) return number;
    answer[13] = IMDAGLUZ_BY_RENUMBERING;
    if (given.flags > 7) return 2;
    uint32_t top = (uint32_t)read[1], i = (uint32_t)read[2], latches = (uint32_t)read[3];
    size_t a = read[4];
    for (int k = 0; k < 5; k++) roots += counts[k] = (uint32_t)read[5 + k];
    number = imdagluz_expand(i, latches, l[GATES], 2 * a, l[INPUT_CODES], n[INPUT_CODES], l[STATE_CODES], n[STATE_CODES], l[TRIPLES], n[TRIPLES]);
    if (number != 0) return number;
    number = imdagluz_renumber(top, counts, 5, given.flags, l[INPUT_CODES], i, l[STATE_CODES], latches, l[NEXTS], latches, l[RESETS], latches, l[TRIPLES],
                               3 * a, l[ROOTS], roots, l[MAP], n[MAP], l[NEXT_IMAGES], n[NEXT_IMAGES], l[RESET_IMAGES], n[RESET_IMAGES], l[ROOT_IMAGES],
                               n[ROOT_IMAGES], l[GATES_OUT], n[GATES_OUT], l[SCRATCH], n[SCRATCH], made, 3);
    if (number != 0) return number;
    number = imdagluz_write_aig(i, counts, 5, l[NEXT_IMAGES], latches, l[RESET_IMAGES], latches, l[GATES_OUT], 2 * (size_t)made[1], l[SIZES], read[10],
                                l[ROOT_IMAGES], roots, parts.out, given.out, written, 2);
    answer[11] = made[1], answer[12] = written[1], answer[13] = number != 0 ? IMDAGLUZ_BY_WRITING : IMDAGLUZ_BY_NOBODY;
    return number;
}

/* One call leaves in every word and byte what the parts leave. */
static void as_parts(const char *what) {
    order();
    fill(&parts);
    parts.number = call_parts();
    int same = left.number == parts.number && memcmp(left.answer, parts.answer, sizeof left.answer) == 0
        && memcmp(left.out, parts.out, given.out + PAST) == 0;
    for (int i = 0; i < LISTS; i++) same &= memcmp(left.lists[i], parts.lists[i], (given.lengths[i] + PAST) * sizeof held) == 0;
    if (!same) failed(what);
}

/* Whether the first words of a list are those given (or 0, where none are), and the others what the list held. */
static int holds(int list, const uint32_t *words, size_t count) {
    for (size_t j = 0; j < given.lengths[list] + PAST; j++)
        if (left.lists[list][j] != (j >= count ? held : words == NULL ? 0 : words[j])) return 0;
    return 1;
}

static int out_holds(const char *bytes, size_t count) {
    if (memcmp(left.out, bytes, count) != 0) return 0;
    for (size_t j = count; j < given.out + PAST; j++)
        if (left.out[j] != HELD) return 0;
    return 1;
}

static int answer_holds(const uint64_t words[WORDS], size_t count) {
    for (size_t j = 0; j < LENT + PAST; j++)
        if (left.answer[j] != (j < count ? words[j] : held * UINT64_C(0x100000001))) return 0;
    return 1;
}

/* Nothing at all is written, for lack of answer words. */
static void writes_nothing(const char *what) {
    order();
    int same = left.number == 3 && answer_holds(NULL, 0) && out_holds("", 0);
    for (int i = 0; i < LISTS; i++) same &= holds(i, NULL, 0);
    if (!same) failed(what);
}

/* A file's refusal: its number and place, who refused, every word of the file's lists 0, and nothing else. */
static void refuses_file(const char *what, uint32_t number, uint64_t place) {
    const uint64_t words[WORDS] = {place, 0, 0, 0, 0, 0, 0, 0, 0, 0, 0, 0, 0, IMDAGLUZ_BY_FILE};
    order();
    int same = left.number == number && answer_holds(words, WORDS) && out_holds("", 0);
    for (int i = 0; i < LISTS; i++) same &= holds(i, NULL, i < FILE_LISTS ? given.lengths[i] : 0);
    if (!same) failed(what);
}

/* The small file: two inputs, a latch for each reset, a root of each kind and a second justice literal of the one set; of five gates the second repeats the
 * first, the third has the input 1, and nobody needs the last. It has a reset that need not be there and a delta with a byte too many. */
static const char small[] = "aig 10 2 3 1 5 1 1 1 1\n18 0\n8 1\n3 10\n14\n19\n3\n2\n12\n11\n7\n\206\0\4\10\4\1\16\2\13\13\6";
enum { SMALL = sizeof small - 1, M = 10, HEADER = 23, STRAY = 30, BEFORE_ROOTS = 47, JUSTICE = 50, LAST = 65 };
static const size_t needed[LISTS] = {3, 3, 10, 1, 6, 2, 3, 15, M + 1, 3, 3, 6, 10, 3 * M + 3 + 15};

/* What the lists hold before it is renumbered; what renumbering leaves with flags 0 and with all of them, the scratch words being 0; and what is written. */
static const uint32_t small_nexts[] = {18, 8, 3}, small_resets[] = {0, 1, 10}, small_gates[] = {6, 2, 6, 2, 15, 1, 16, 5, 9, 3}, small_sizes[] = {2};
static const uint32_t small_roots[] = {14, 19, 3, 7, 12, 11}, small_inputs[] = {2, 4}, small_states[] = {6, 8, 10};
static const uint32_t small_triples[] = {12, 6, 2, 14, 6, 2, 16, 15, 1, 18, 16, 5, 20, 9, 3};
static const uint32_t *const small_lists[EXPANDED_LISTS] = {small_nexts, small_resets, small_gates, small_sizes, small_roots, small_inputs, small_states,
                                                            small_triples};
static const uint32_t none_map[] = {0, 2, 4, 6, 8, 10, 12, 14, 16, 18, 20}, all_map[] = {0, 2, 4, 6, 8, 10, 12, 12, 13, 14, IMDAGLUZ_NO_IMAGE};
static const uint32_t all_nexts[] = {14, 8, 3}, all_roots[] = {12, 15, 3, 7, 12, 11}, all_gates[] = {6, 2, 13, 5, 0, 0, 0, 0, 0, 0};
#define BYTES(text) text, sizeof text - 1
static const struct made { uint32_t flags; const uint32_t *images[LISTS - MAP]; uint64_t gates; const char *file; size_t length; } none = {
    0, {none_map, small_nexts, small_resets, small_roots, small_gates, NULL}, 5,
    BYTES("aig 10 2 3 1 5 1 1 1 1\n18\n8 1\n3 10\n14\n19\n3\n2\n12\n11\n7\n\6\4\10\4\1\16\2\13\13\6"),
}, all = {
    7, {all_map, all_nexts, small_resets, all_roots, all_gates, NULL}, 2,
    BYTES("aig 7 2 3 1 2 1 1 1 1\n14\n8 1\n3 10\n12\n15\n3\n2\n12\n11\n7\n\6\4\1\10"),
};
static uint8_t file[SMALL];

/* The small file in lists that are just long enough. */
static void lend_small(const struct made *made) {
    memcpy(file, small, SMALL);
    given = (struct given){file, SMALL, made->flags, {0}, made->length, LENT};
    memcpy(given.lengths, needed, sizeof needed);
}

/* A call with the small file: its number, who refused, and how many of the lists are filled. Where nobody refuses the file is written. */
static void leaves(const char *what, const struct made *made, uint32_t number, uint64_t who, int filled) {
    const uint64_t gates = filled == LISTS ? made->gates : 0, length = filled == LISTS ? made->length : 0;
    const uint64_t words[WORDS] = {SMALL, M, 2, 3, 5, 1, 1, 1, 1, 2, 1, gates, length, who};
    order();
    int same = left.number == number && answer_holds(words, WORDS) && out_holds(made->file, who == IMDAGLUZ_BY_NOBODY ? made->length : 0);
    for (int i = 0; i < LISTS; i++) same &= holds(i, i < MAP ? small_lists[i] : made->images[i - MAP], i < filled ? needed[i] : 0);
    if (!same) failed(what);
}

/* What can be wrong with the call, in the order of the tests: what it changes, or which list is a word short where that is no function; its number, its place
 * where it is the file's, who refuses, and how many of the lists are filled. */
static void no_tag(void) { file[1] = 'a'; }
static void top_undefined(void) { file[5] = '1'; }
static void stray_reset(void) { file[STRAY] = '3'; }
static void no_literal(void) { file[JUSTICE] = 'x'; }
static void cut(void) { given.length--; }
static void flag_over(void) { given.flags = 8; }
static void byte_short(void) { given.out--; }
static const struct fault { const char *what; void (*apply)(void); int list; uint32_t number; uint64_t place, who; int filled; } faults[] = {
    {"another tag", no_tag, 0, 18, 0, IMDAGLUZ_BY_FILE, 0},
    {"a variable that is not defined", top_undefined, 0, 19, HEADER, IMDAGLUZ_BY_FILE, 0},
    {"nexts", NULL, NEXTS, 3, HEADER, IMDAGLUZ_BY_FILE, 0},
    {"resets", NULL, RESETS, 3, HEADER, IMDAGLUZ_BY_FILE, 0},
    {"gates", NULL, GATES, 3, HEADER, IMDAGLUZ_BY_FILE, 0},
    {"sizes", NULL, SIZES, 3, HEADER, IMDAGLUZ_BY_FILE, 0},
    {"a reset that is none", stray_reset, 0, 22, STRAY, IMDAGLUZ_BY_FILE, 0},
    {"roots", NULL, ROOTS, 3, BEFORE_ROOTS, IMDAGLUZ_BY_FILE, 0},
    {"a literal that is no number", no_literal, 0, 10, JUSTICE, IMDAGLUZ_BY_FILE, 0},
    {"a delta that is cut", cut, 0, 15, LAST, IMDAGLUZ_BY_FILE, 0},
    {"flags over", flag_over, 0, 2, 0, IMDAGLUZ_BY_RENUMBERING, FILE_LISTS},
    {"input_codes", NULL, INPUT_CODES, 3, 0, IMDAGLUZ_BY_RENUMBERING, FILE_LISTS},
    {"state_codes", NULL, STATE_CODES, 3, 0, IMDAGLUZ_BY_RENUMBERING, FILE_LISTS},
    {"triples", NULL, TRIPLES, 3, 0, IMDAGLUZ_BY_RENUMBERING, FILE_LISTS},
    {"map", NULL, MAP, 3, 0, IMDAGLUZ_BY_RENUMBERING, EXPANDED_LISTS},
    {"next_images", NULL, NEXT_IMAGES, 3, 0, IMDAGLUZ_BY_RENUMBERING, EXPANDED_LISTS},
    {"reset_images", NULL, RESET_IMAGES, 3, 0, IMDAGLUZ_BY_RENUMBERING, EXPANDED_LISTS},
    {"root_images", NULL, ROOT_IMAGES, 3, 0, IMDAGLUZ_BY_RENUMBERING, EXPANDED_LISTS},
    {"gates_out", NULL, GATES_OUT, 3, 0, IMDAGLUZ_BY_RENUMBERING, EXPANDED_LISTS},
    {"scratch", NULL, SCRATCH, 3, 0, IMDAGLUZ_BY_RENUMBERING, EXPANDED_LISTS},
    {"a byte too few", byte_short, 0, 3, 0, IMDAGLUZ_BY_WRITING, LISTS},
};
enum { FAULTS = sizeof faults / sizeof faults[0] };

static void apply(const struct fault *fault) {
    if (fault->apply != NULL) fault->apply();
    else given.lengths[fault->list]--;
}

/* What a fault is answered where it is the first that applies. */
static void meets(const char *what, const struct fault *fault, const struct made *made) {
    if (fault->who == IMDAGLUZ_BY_FILE) refuses_file(what, fault->number, fault->place);
    else leaves(what, made, fault->number, fault->who, fault->filled);
}

/* Each alone and each two together: whichever is tested first is told. With too few answer words it is none of them. */
static void two_faults(const struct made *made) {
    for (int i = 0; i < FAULTS; i++)
        for (int j = i; j < FAULTS; j++) {
            char what[100];
            snprintf(what, sizeof what, "flags %d: %s, %s", (int)made->flags, faults[i].what, faults[j].what);
            lend_small(made);
            apply(&faults[i]);
            if (j != i) apply(&faults[j]);
            given.words = WORDS + (i + j) % 3;
            meets(what, &faults[i], made);
            given.words = (i * FAULTS + j) % WORDS;
            writes_nothing(what);
        }
}

/* Every list with no word at all, and with words more than it needs. */
static void list_lengths(const struct made *made) {
    for (int i = 0; i < FAULTS; i++) {
        if (faults[i].apply != NULL) continue;
        lend_small(made);
        given.lengths[faults[i].list] = 0;
        meets(faults[i].what, &faults[i], made);
    }
    for (int i = 0; i < LISTS; i++) {
        lend_small(made);
        given.lengths[i] += 3;
        leaves(names[i], made, 0, IMDAGLUZ_BY_NOBODY, LISTS);
    }
}

/* Any number of bytes: too few of them, where what is needed is told; just enough; and about as many as the largest file of this size has. */
static void byte_lengths(const struct made *made) {
    size_t most = IMDAGLUZ_FILE_BYTES(5 + made->gates, 3, 6, 1);
    for (size_t bytes = 0; bytes < most + 3; bytes++) {
        lend_small(made);
        given.out = bytes;
        int enough = bytes >= made->length;
        leaves("bytes", made, enough ? 0 : 3, enough ? IMDAGLUZ_BY_NOBODY : IMDAGLUZ_BY_WRITING, LISTS);
    }
}

/* Flags that are none, the number of gates that each setting makes, and what stands behind the file. */
static void small_file(void) {
    static const uint64_t gates_made[8] = {5, 4, 4, 3, 4, 3, 3, 2};
    static const uint32_t over[] = {8, 9, 15, 16, 4294967288, 4294967295};
    const struct made *both[] = {&none, &all};
    for (int i = 0; i < 2; i++) {
        two_faults(both[i]);
        list_lengths(both[i]);
        byte_lengths(both[i]);
        for (size_t words = 0; words < WORDS; words++) {
            lend_small(both[i]);
            given.words = words;
            writes_nothing("too few answer words");
        }
    }
    for (uint32_t flags = 0; flags < 8; flags++) {
        lend_small(&none);
        given.flags = flags;
        as_parts("flags");
        if (left.number != 0 || left.answer[11] != gates_made[flags]) failed("the number of gates made");
    }
    for (size_t i = 0; i < sizeof over / sizeof over[0]; i++) {
        lend_small(&none);
        given.flags = over[i];
        leaves("flags over", &none, 2, IMDAGLUZ_BY_RENUMBERING, FILE_LISTS);
    }
    uint8_t longer[SMALL + 8];
    lend_small(&all);
    memcpy(longer, small, SMALL);
    memcpy(longer + SMALL, "i0 one\n", 8);
    given.bytes = longer, given.length = sizeof longer;
    leaves("a symbol behind the file", &all, 0, IMDAGLUZ_BY_NOBODY, LISTS);
}

/* The table of files: the number, and the place or the bytes that the file takes; of those that are taken what is written with flags 0 and with all. */
#define REFUSED NULL, 0, NULL, 0
static const struct row { const char *file; size_t length; uint32_t number; uint64_t place; const char *none; size_t n; const char *all; size_t a; } table[] = {
    {BYTES(""), 18, 0, REFUSED},
    {BYTES("aag 0 0 0 0 0\n"), 18, 0, REFUSED},
    {BYTES("aig 0 0 0 0 0\r\n"), 18, 13, REFUSED},
    {BYTES("aig  0 0 0 0 0\n"), 10, 4, REFUSED},
    {BYTES("aig 1048575 0 0 0 0\n"), 19, 20, REFUSED},
    {BYTES("aig 1048576 0 0 0 0\n"), 12, 4, REFUSED},
    {BYTES("aig 18446744073709551616 0 0 0 0\n"), 21, 4, REFUSED},
    {BYTES("aig 00 0 0 0 0\n"), 11, 4, REFUSED},
    {BYTES("aig 3 1 0 0 1\n\2\2"), 19, 14, REFUSED},
    {BYTES("aig 0 0 0 0 0 0 0 2\n1048575\n1\n"), 1, 30, REFUSED},
    {BYTES("aig 0 0 0 9 0\n"), 10, 14, REFUSED},
    {BYTES("aig 2 1 1 0 0\n2 3\n"), 22, 16, REFUSED},
    {BYTES("aig 2 1 1 0 0\n2 1 \n"), 18, 17, REFUSED},
    {BYTES("aig 3 2 0 1 1\n8\n\2\2"), 12, 14, REFUSED},
    {BYTES("aig 3 2 0 1 1\n6\n\2"), 15, 17, REFUSED},
    {BYTES("aig 3 2 0 1 1\n6\n\200\200\200\200\200\200\200\200\0\0"), 16, 16, REFUSED},
    {BYTES("aig 3 2 0 1 1\n6\n\7\0"), 17, 16, REFUSED},
    {BYTES("aig 3 2 0 1 1\n6\n\0\2"), 20, 16, REFUSED},
    {BYTES("aig 9 0 0 0 9\n\2\0"), 15, 16, REFUSED},
    {BYTES("aig 0 0 0 0 0\n"), 0, 14, BYTES("aig 0 0 0 0 0\n"), BYTES("aig 0 0 0 0 0\n")},
    {BYTES("aig 0 0 0 0 0 0 0 0 0\nc\n"), 0, 22, BYTES("aig 0 0 0 0 0\n"), BYTES("aig 0 0 0 0 0\n")},
    {BYTES("aig 1 1 0 0 0 1\n2\n"), 0, 18, BYTES("aig 1 1 0 0 0 1\n2\n"), BYTES("aig 1 1 0 0 0 1\n2\n")},
    {BYTES("aig 0 0 0 0 0 0 0 2\n0\n0\n"), 0, 24, BYTES("aig 0 0 0 0 0 0 0 2\n0\n0\n"), BYTES("aig 0 0 0 0 0 0 0 2\n0\n0\n")},
    {BYTES("aig 2 0 2 0 0\n2 2\n5 4\n"), 0, 22, BYTES("aig 2 0 2 0 0\n2 2\n5 4\n"), BYTES("aig 2 0 2 0 0\n2 2\n5 4\n")},
    {BYTES("aig 2 0 2 0 0\n2 0\n4 1\n"), 0, 22, BYTES("aig 2 0 2 0 0\n2\n4 1\n"), BYTES("aig 2 0 2 0 0\n2\n4 1\n")},
    {BYTES("aig 3 2 0 1 1\n6\n\2\2junk"), 0, 18, BYTES("aig 3 2 0 1 1\n6\n\2\2"), BYTES("aig 3 2 0 1 1\n6\n\2\2")},
    {BYTES("aig 3 2 0 1 1\n7\n\2\0"), 0, 18, BYTES("aig 3 2 0 1 1\n7\n\2\0"), BYTES("aig 2 2 0 1 0\n5\n")},
    {BYTES("aig 3 2 0 0 1\n\202\0\2"), 0, 17, BYTES("aig 3 2 0 0 1\n\2\2"), BYTES("aig 2 2 0 0 0\n")},
    {BYTES("aig 4 2 0 0 2 0 0 1 1\n1\n6\n8\n\2\2\3\3"), 0, 32, BYTES("aig 4 2 0 0 2 0 0 1 1\n1\n6\n8\n\2\2\3\3"),
     BYTES("aig 4 2 0 0 2 0 0 1 1\n1\n8\n6\n\1\3\4\2")},
};

/* A file of the table in lists of so many words, or in those of the limits, where nothing is too short. */
static void row(const struct row *r, uint32_t flags, size_t words) {
    given = (struct given){(const uint8_t *)r->file, r->length, flags, {0}, words ? 100 : MOST, LENT};
    for (int i = 0; i < LISTS; i++) given.lengths[i] = words ? words : limits[i];
    if (r->number != 0) {
        refuses_file(r->file, r->number, r->place);
        return;
    }
    const char *expected = flags ? r->all : r->none;
    size_t length = flags ? r->a : r->n;
    as_parts(r->file);
    if (left.number != 0 || left.answer[0] != r->place || left.answer[12] != length || !out_holds(expected, length)) failed(r->file);
}

static void files(void) {
    enum { ROWS = sizeof table / sizeof table[0], FIRST_TAKEN = 19 };
    for (int i = 0; i < ROWS; i++) row(&table[i], 0, 30), row(&table[i], 7, 30);
    /* long lists take a while: a file that is refused at once, one that is refused in its gates, and one that is taken */
    row(&table[0], 7, 0), row(&table[FIRST_TAKEN - 1], 7, 0), row(&table[ROWS - 1], 7, 0);
}

static uint32_t below(uint32_t n) {
    static uint64_t state = 88172645463325252;
    state ^= state << 13, state ^= state >> 7, state ^= state << 17;
    return (uint32_t)((state >> 16) % n);
}

/* A circuit that is made here, and the file that imdagluz_write_aig writes of it. */
static uint32_t inputs, latches, count, sets, counts[5], nexts[LIST], resets[LIST], gates[2 * LIST], sizes[LIST], roots[LIST];
static uint8_t spelt[MOST + 8];

static uint32_t root_count(void) { return counts[0] + counts[1] + counts[2] + counts[3] + counts[4]; }

static size_t spell(void) {
    uint64_t written[2];
    if (imdagluz_write_aig(inputs, counts, 5, nexts, latches, resets, latches, gates, 2 * (size_t)count, sizes, sets, roots, root_count(), spelt, MOST, written,
                           2) != 0) failed("a circuit that is to be written");
    return written[1];
}

/* The words that its lists have to have. */
static void lend_just(void) {
    const size_t l = latches, g = count, r = root_count(), top = inputs + l + g;
    const size_t words[LISTS] = {l, l, 2 * g, sets, r, inputs, l, 3 * g, top + 1, l, l, r, 2 * g, 3 * top + 3 + 3 * g};
    memcpy(given.lengths, words, sizeof words);
}

/* The bit of a literal under each of 64 settings; and those of gates, behind those of the constant, the inputs and latches. */
static uint64_t bits_of(const uint64_t *bits, uint32_t code) { return code % 2 ? ~bits[code / 2] : bits[code / 2]; }

static void settle(uint64_t *bits, const uint32_t *pairs, size_t n) {
    for (size_t k = 0; k < n; k++) bits[inputs + latches + 1 + k] = bits_of(bits, pairs[2 * k]) & bits_of(bits, pairs[2 * k + 1]);
}

/* What the header says of a file that was written, of up to some hundred variables: it is read to its last byte, as a circuit with the same numbers, sizes,
 * resets and values; with hashing no two gates are alike. */
static int same_circuit(void) {
    enum { FEW = 1000 };
    static uint32_t next[FEW], reset[FEW], pairs[2 * FEW], size[FEW], root[FEW];
    static uint64_t before[FEW], after[FEW];
    uint64_t read[11];
    const uint64_t *a = left.answer;
    if (imdagluz_read_aig(left.out, a[12], next, FEW, reset, FEW, pairs, 2 * FEW, size, FEW, root, FEW, read, 11) != 0) return 0;
    int same = read[0] == a[12] && read[1] == inputs + latches + a[11] && read[2] == inputs && read[3] == latches && read[4] == a[11] && a[11] <= count
        && read[10] == sets && memcmp(size, sizes, sets * sizeof *size) == 0 && memcmp(reset, resets, latches * sizeof *reset) == 0;
    for (int k = 0; k < 5; k++) same &= read[5 + k] == counts[k];
    if (!same) return 0;
    for (uint32_t v = 1; v <= inputs + latches; v++) before[v] = after[v] = (uint64_t)below(4294967295) << 32 | below(4294967295);
    settle(before, gates, count);
    settle(after, pairs, a[11]);
    for (uint32_t k = 0; k < latches; k++) same &= bits_of(before, nexts[k]) == bits_of(after, next[k]);
    for (uint32_t k = 0; k < root_count(); k++) same &= bits_of(before, roots[k]) == bits_of(after, root[k]);
    for (size_t k = 0; given.flags & IMDAGLUZ_HASH && k < a[11]; k++)
        for (size_t j = 0; j < k; j++) same &= memcmp(pairs + 2 * j, pairs + 2 * k, 2 * sizeof *pairs) != 0;
    return same;
}

/* Any circuit: a third of its gates repeat an earlier one, or have a constant. */
static void draw_circuit(void) {
    static const uint32_t many[] = {1, 4, 6, 70, 300};
    inputs = below(many[below(5)]), latches = below(6), count = below(30), sets = below(4);
    uint32_t sources = inputs + latches, codes = 2 * (sources + count) + 2;
    for (uint32_t i = 0; i < latches; i++) nexts[i] = below(codes), resets[i] = below(3) ? below(2) : 2 * (inputs + 1 + i);
    for (uint32_t k = 0; k < count; k++) {
        uint32_t like = k && below(6) == 0 ? below(k) : k, first = below(2 * (sources + 1 + k));
        gates[2 * k] = like < k ? gates[2 * like] : first;
        gates[2 * k + 1] = like < k ? gates[2 * like + 1] : below(6) ? below(first + 1) : first ? below(2) : 0;
    }
    counts[4] = 0;
    for (int i = 0; i < 4; i++) counts[i] = below(3);
    for (uint32_t i = 0; i < sets; i++) counts[4] += sizes[i] = below(3);
    for (uint32_t i = 0; i < root_count(); i++) roots[i] = below(codes);
}

/* Each setting of the flags with lists and bytes that are long enough; then with any that are near that, some too short, and at times flags that are none. */
static void random_circuit(void) {
    draw_circuit();
    size_t length = spell(), behind = below(3) ? 0 : below(9);
    memcpy(spelt + length, "i0 input", behind);
    size_t most = IMDAGLUZ_FILE_BYTES(inputs + latches + count, latches, root_count(), sets);
    for (uint32_t flags = 0; flags < 8; flags++) {
        given = (struct given){spelt, length + behind, flags, {0}, most, LENT};
        lend_just();
        as_parts("a random circuit");
        if (left.number != 0 || !same_circuit()) {
            failed("a random circuit");
            return;
        }
        if (flags == 0 && (left.answer[12] != length || memcmp(left.out, spelt, length) != 0)) failed("a plain file with flags 0");
        size_t bytes = left.answer[12];
        for (int i = 0; i < LISTS; i++) given.lengths[i] += below(3);
        for (int times = below(3); times > 0; times--) {
            int list = (int)below(LISTS);
            given.lengths[list] = given.lengths[list] > 3 ? given.lengths[list] - 3 : 0;
        }
        given.out = below(3) ? bytes + below(9) : below(3) ? bytes - 1 : below((uint32_t)bytes);
        given.words = below(20) ? WORDS + below(3) : below(WORDS);
        if (below(12) == 0) given.flags = below(2) ? 8 + flags : 4294967295 - flags;
        if (below(12) == 0) given.length = below((uint32_t)length);
        as_parts("a random circuit in other lists");
    }
}

/* In lists of the limits nothing is too short: as many latches, outputs and empty justice sets as there may be; gates; inputs. */
static void at_the_limits(uint32_t i, uint32_t l, uint32_t g, uint32_t r, uint32_t j) {
    inputs = i, latches = l, count = g, sets = j;
    memset(counts, 0, sizeof counts);
    counts[0] = r;
    for (uint32_t k = 0; k < l; k++) nexts[k] = 2 * LIST + 1 - k, resets[k] = k % 3 < 2 ? k % 3 : 2 * (i + 1 + k);
    for (uint32_t k = 0; k < g; k++) gates[2 * k] = 2 * (i + l + k) + 1, gates[2 * k + 1] = k < 50 ? k % 2 : 2 * (i + l + k) - 2 * (k % 50);
    for (uint32_t k = 0; k < r; k++) roots[k] = 2 * LIST + 1;
    memset(sizes, 0, j * sizeof *sizes);
    size_t length = spell();
    for (uint32_t flags = 0; flags < 8; flags += 7) {
        given = (struct given){spelt, length, flags, {0}, MOST, WORDS};
        memcpy(given.lengths, limits, sizeof limits);
        as_parts("a file at the limits");
        if (left.number != 0 || left.answer[13] != IMDAGLUZ_BY_NOBODY) failed("a file at the limits is refused");
        if (flags == 0 && (left.answer[12] != length || memcmp(left.out, spelt, length) != 0)) failed("a plain file at the limits with flags 0");
    }
}

int main(void) {
    find_room();
    small_file();
    files();
    for (int n = 0; n < 3000; n++) random_circuit();
    at_the_limits(0, LIST, 0, LIST, LIST);
    at_the_limits(1, 0, LIST - 1, 1, 0);
    at_the_limits(LIST, 0, 0, 0, 0);
    if (good) printf("%d calls of ordering as promised\n", cases);
    if (fflush(stdout) != 0 || ferror(stdout)) {
        fputs("ordering: standard output can't be written\n", stderr);
        return 1;
    }
    return good ? 0 : 1;
}
