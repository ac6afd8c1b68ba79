/* What 01, as T-05 amends it, and 02's T-09 say of a text that lies there as a whole:
 * the oracle of the tests of messages in pieces. It keeps nothing from byte to byte but
 * where the segment starts, and looks back for whatever else it wants to know.
 */
#ifndef PIECES_ORACLE_H
#define PIECES_ORACLE_H

#include "testing.h"

enum { LIMIT_BYTES = 16777216, LIMIT_SEGMENTS = 999999, TAG = 3 };

static inline int is_tag_byte(int byte)
{
    return (byte >= 'A' && byte <= 'Z') || (byte >= '0' && byte <= '9');
}

static inline int is_data(int byte)
{
    return (byte >= 0x20 && byte <= 0x7E) || byte >= 0xA0;
}

static inline int is_mark(int byte)
{
    return byte == ':' || byte == '+' || byte == '\'' || byte == '?';
}

/* Is the number of `?` right before this byte odd? Each pair of them is one of data. */
static inline int is_released(const uint8_t *text, size_t start, size_t at)
{
    size_t first = at;
    while (first > start && text[first - 1] == '?') {
        first--;
    }
    return (at - first) % 2 == 1;
}

/* Is this byte of the segment that starts there such a separator, and no data? */
static inline int is_separator(const uint8_t *text, size_t start, size_t at,
                               int separator)
{
    return text[at] == separator && !is_released(text, start, at);
}

/* May this byte of the segment that starts there stand behind those before it? */
static inline int is_allowed(const uint8_t *text, size_t start, size_t at)
{
    int byte = text[at];
    if (at - start < TAG) {
        return is_tag_byte(byte);
    }
    if (at - start == TAG) {
        return byte == '+' || byte == '\'';
    }
    if (is_released(text, start, at)) {
        return is_mark(byte);
    }
    if (byte == '+' || byte == '\'') {
        int is_behind_a_plus = is_separator(text, start, at - 1, '+');
        int is_behind_a_colon = is_separator(text, start, at - 1, ':');
        return !is_behind_a_colon && (byte == '+' || !is_behind_a_plus);
    }
    return is_data(byte);
}

/* A text: its first bad byte, or its length if there is none; how many segments end
 * before that; and the starts and ends of those whose starts are told. */
struct whole {
    size_t length;
    size_t reached;
    int is_well_formed;
    size_t segments;
    size_t told;
    uint32_t *starts;
    uint32_t *ends;
};

static inline void note_segment(struct whole *whole, size_t start, size_t end)
{
    whole->segments++;
    if (end < LIMIT_BYTES && whole->segments <= LIMIT_SEGMENTS) {
        whole->starts[whole->told] = (uint32_t)start;
        whole->ends[whole->told] = (uint32_t)end;
        whole->told++;
    }
}

static inline void look_at(struct whole *whole, struct slice text)
{
    size_t start = 0;
    size_t at = 0;
    whole->length = text.length;
    whole->segments = 0;
    whole->told = 0;
    while (at < text.length && is_allowed(text.bytes, start, at)) {
        if (is_separator(text.bytes, start, at, '\'')) {
            note_segment(whole, start, at);
            start = at + 1;
        }
        at++;
    }
    whole->reached = at;
    whole->is_well_formed = at == text.length && start == at && whole->segments > 0;
}

struct answer {
    uint32_t number;
    uint32_t place;
};

/* The answer, if some start that is to be told found no entry, or if none did so. */
static inline struct answer answer_of(const struct whole *whole, int is_lacking)
{
    if (whole->length == 0 || whole->length > LIMIT_BYTES) {
        return (struct answer){3, 0};
    }
    if (!whole->is_well_formed) {
        return (struct answer){4, (uint32_t)whole->reached};
    }
    if (whole->segments > LIMIT_SEGMENTS) {
        return (struct answer){5, 0};
    }
    return (struct answer){is_lacking ? 6 : 0, (uint32_t)whole->segments};
}

#endif
