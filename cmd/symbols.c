#include "symbols.h"
#include <string.h>

enum { SHOWN = 60 };

/* A line that names something: where its number and its name begin, and where the line ends, before the newline. */
struct line {
    char letter;
    size_t index, name, end;
};

/* How many there are of what a letter stands for. */
static size_t count_of(const struct circuit *circuit, char letter) {
    switch (letter) {
    case 'i': return circuit->inputs;
    case 'l': return circuit->latches;
    case 'o': return circuit->counts[OUTPUTS];
    case 'b': return circuit->counts[BAD_STATES];
    case 'c': return circuit->counts[CONSTRAINTS];
    case 'j': return circuit->sets;
    case 'f': return circuit->counts[FAIRNESS];
    default: return 0;
    }
}

/* Reads the line at a place: a letter, a number, a space, a name and a newline. */
static bool read_line(const uint8_t *bytes, size_t length, size_t at, struct line *line) {
    const uint8_t *newline = memchr(bytes + at, '\n', length - at);
    if (newline == NULL || strchr("ilobcjf", bytes[at]) == NULL || bytes[at] == 0) return false;
    line->letter = (char)bytes[at];
    line->end = (size_t)(newline - bytes);
    line->index = 0;
    size_t digit = at + 1;
    for (; digit < line->end && digit < at + 8 && bytes[digit] >= '0' && bytes[digit] <= '9'; digit++) line->index = 10 * line->index + (size_t)(bytes[digit] - '0');
    line->name = digit + 1;
    bool canonical = digit > at + 1 && (bytes[at + 1] != '0' || digit == at + 2);
    return canonical && digit < line->end && bytes[digit] == ' ' && line->name < line->end;
}

static bool is_comment(const uint8_t *bytes, size_t length, size_t at) {
    return bytes[at] == 'c' && (at + 1 == length || bytes[at + 1] == '\n');
}

struct symbols symbols_of(const struct circuit *circuit, const uint8_t *bytes, size_t length) {
    struct symbols symbols = {bytes + circuit->used, length - circuit->used, 0, 0, 0};
    struct line line;
    size_t at = 0;
    while (at < symbols.length) {
        if (is_comment(symbols.bytes, symbols.length, at)) {
            symbols.comment = symbols.length - at;
            at = symbols.length;
        } else {
            if (!read_line(symbols.bytes, symbols.length, at, &line) || line.index >= count_of(circuit, line.letter)) break;
            symbols.names++;
            at = line.end + 1;
        }
    }
    symbols.fault = at;
    return symbols;
}

void put_symbol(struct text *text, const struct symbols *symbols, char letter, size_t index) {
    struct line line;
    for (size_t at = 0; at < symbols->fault && !is_comment(symbols->bytes, symbols->length, at); at = line.end + 1) {
        if (!read_line(symbols->bytes, symbols->length, at, &line)) return;
        if (line.letter != letter || line.index != index) continue;
        put(text, " (");
        put_shown(text, symbols->bytes + line.name, line.end - line.name, SHOWN);
        put(text, ")");
        return;
    }
}
