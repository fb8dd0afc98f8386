/* Bytes that grow: messages, maps, and files on their way out. */
#ifndef TEXT_H
#define TEXT_H

#include <stddef.h>
#include <stdint.h>

struct text {
    uint8_t *bytes;
    size_t length, held;
};

/* Memory for so many elements of a size, at least one; where there is none, a line and the end, with status 2. */
void *lend(size_t elements, size_t size);

/* Puts bytes, or a line as printf spells it, at the end. */
void put_bytes(struct text *text, const void *bytes, size_t length);
void put(struct text *text, const char *format, ...) __attribute__((format(printf, 2, 3)));

/* Puts a number with a comma between thousands. */
void put_number(struct text *text, uint64_t number);

/* Puts bytes of a stranger's file so that a terminal shows them: what is not printable by its number, at most so many of them. */
void put_shown(struct text *text, const uint8_t *bytes, size_t length, size_t most);

/* Gives the bytes back. */
void drop(struct text *text);

#endif
