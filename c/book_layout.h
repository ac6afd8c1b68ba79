/* The layout of a guide book (document 01, "The guide book"): how long the records
 * of an edition are, where their numbers stand and what the values mean. Whoever
 * reads or writes a book in C has it from here alone. */
#ifndef BOOK_LAYOUT_H
#define BOOK_LAYOUT_H

#include <stddef.h>
#include <stdint.h>

/* How many bytes the records have. */
struct book_sizes {
    size_t header;
    size_t line;
    size_t code;
    size_t field;
    size_t identifier;
    size_t row;
};

/* The editions, by the number that a book begins with. */
enum { FIRST_EDITION = 1, LAST_EDITION = 1 };

/* For one of these editions: a good book is of no other. */
static inline struct book_sizes sizes_of_edition(unsigned edition)
{
    static const struct book_sizes sizes[LAST_EDITION + 1] = {
        [1] = {.header = 28,
               .line = 20,
               .code = 8,
               .field = 12,
               .identifier = 8,
               .row = 8},
    };
    return sizes[edition];
}

/* Where numbers and bytes stand in their record. Those of the header have two bytes
 * each, and so have counts, the first of a range, and a field's longest; a line's
 * maximum has four. */
enum {
    HEADER_EDITION = 0,
    HEADER_LENGTH = 2,
    HEADER_LINE_COUNT = 4,
    HEADER_LINES_OFFSET = 6,
    HEADER_CODE_COUNT = 8,
    HEADER_CODES_OFFSET = 10,
    HEADER_FIELD_COUNT = 12,
    HEADER_FIELDS_OFFSET = 14,
    HEADER_IDENTIFIER_COUNT = 16,
    HEADER_IDENTIFIERS_OFFSET = 18,
    HEADER_ROWS_OFFSET = 20,
    HEADER_CONDITION_COUNT = 22,
    HEADER_CARRIER = 24,
    HEADER_ZEROS = 26
};

enum {
    LINE_KIND = 0,
    LINE_DEPTH = 1,
    LINE_TAG = 2,
    LINE_REQUIRED = 5,
    LINE_SELECTOR_ELEMENT = 6,
    LINE_SELECTOR_COMPONENT = 7,
    LINE_FIRST_CODE = 8,
    LINE_CODE_COUNT = 10,
    LINE_MAXIMUM = 12,
    LINE_FIRST_FIELD = 16,
    LINE_FIELD_COUNT = 18
};

enum { CODE_LENGTH = 0, CODE_TEXT = 1, CODE_ZERO = 7 };

enum {
    FIELD_ELEMENT = 0,
    FIELD_COMPONENT = 1,
    FIELD_PRESENCE = 2,
    FIELD_FORM = 3,
    FIELD_LONGEST = 4,
    FIELD_FIRST_CODE = 6,
    FIELD_CODE_COUNT = 8,
    FIELD_ZEROS = 10
};

enum { IDENTIFIER_DIGITS = 0, IDENTIFIER_ZEROS = 5 };

enum { ROW_MODE = 0, ROW_JOINT = 1, ROW_CONDITIONS = 2, ROW_ZEROS = 5 };

/* How many bytes a tag and a Pruefidentifikator have, and a row's conditions. */
enum { TAG_LENGTH = 3, IDENTIFIER_LENGTH = 5, MOST_IN_ROW = 3 };

/* What the numbers mean. */
enum kind { SEGMENT = 1, GROUP = 2 };
enum { OPTIONAL = 0, REQUIRED = 1 };
enum presence {
    MUST_BE_EMPTY = 0,
    MUST_HAVE_BYTES = 1,
    MAY_HAVE_BYTES = 2,
    MUST_IF_ELEMENT = 3
};
enum form { FORM_AN = 1, FORM_N = 2 };
enum mode { NEVER = 0, MUST = 1, MAY = 2, MUST_IF = 3, MAY_IF = 4 };
enum joint { NO_JOINT = 0, ALL = 1, ANY = 2 };

/* Added to a condition's number. */
enum { NOT = 128 };

/* Limits; depths count from 0. */
enum { MOST_BOOK_BYTES = 65535, MOST_CONDITIONS = 64, MOST_DEPTHS = 8 };

/* Numbers are little-endian. */
static inline unsigned two_bytes(const uint8_t *at)
{
    return at[0] | (unsigned)at[1] << 8;
}

static inline uint32_t four_bytes(const uint8_t *at)
{
    return two_bytes(at) | (uint32_t)two_bytes(at + 2) << 16;
}

#endif
