#include "text.h"
#include <inttypes.h>
#include <stdarg.h>
#include <stdio.h>
#include <stdlib.h>
#include <string.h>

static void *held(void *at) {
    if (at != NULL) return at;
    fputs("imdagluz: there is not enough memory\n", stderr);
    exit(2);
}

void *lend(size_t elements, size_t size) {
    if (elements == 0) elements = 1;
    return held(elements > PTRDIFF_MAX / size ? NULL : malloc(elements * size));
}

/* Makes room for so many bytes more. */
static void make_room(struct text *text, size_t length) {
    if (text->held - text->length >= length) return;
    if (length > PTRDIFF_MAX / 2 - text->length) held(NULL);
    size_t room = 2 * (text->length + length);
    text->bytes = held(realloc(text->bytes, room));
    text->held = room;
}

void put_bytes(struct text *text, const void *bytes, size_t length) {
    if (length == 0) return;
    make_room(text, length);
    memcpy(text->bytes + text->length, bytes, length);
    text->length += length;
}

void put(struct text *text, const char *format, ...) {
    va_list words;
    va_start(words, format);
    int length = vsnprintf(NULL, 0, format, words);
    va_end(words);
    if (length < 0) held(NULL);
    make_room(text, (size_t)length + 1);
    va_start(words, format);
    vsnprintf((char *)text->bytes + text->length, (size_t)length + 1, format, words);
    va_end(words);
    text->length += (size_t)length;
}

void put_number(struct text *text, uint64_t number) {
    if (number >= 1000) {
        put_number(text, number / 1000);
        put(text, ",%03" PRIu64, number % 1000);
    } else put(text, "%" PRIu64, number);
}

void put_shown(struct text *text, const uint8_t *bytes, size_t length, size_t most) {
    for (size_t i = 0; i < length && i < most; i++) {
        if (bytes[i] >= ' ' && bytes[i] <= '~' && bytes[i] != '\\') put_bytes(text, bytes + i, 1);
        else put(text, "\\x%02x", bytes[i]);
    }
    if (length > most) put(text, "...");
}

void drop(struct text *text) {
    free(text->bytes);
    *text = (struct text){0};
}
