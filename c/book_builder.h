/* Builds guide books for the C tests, record by record: the book under test in
 * its records, functions that add to it, small book K, and the writing of its
 * bytes. books/README.md says what the records mean, book_layout.h how they are
 * laid out.
 */
#ifndef BOOK_BUILDER_H
#define BOOK_BUILDER_H

#include "testing.h"

#include "book_layout.h"

/* Room for what the tests build: a line too many, codes beyond 65,535 bytes, and
 * records of any edition. */
enum {
    ROOM_FOR_LINES = 257,
    ROOM_FOR_CODES = 8192,
    ROOM_FOR_FIELDS = 16,
    ROOM_FOR_IDENTIFIERS = 2,
    ROOM_IN_A_RECORD = 24
};

typedef uint8_t book_record[ROOM_IN_A_RECORD];

/* A book in its records. Lines count from 0 here. */
struct book {
    unsigned edition;
    size_t line_count;
    size_t code_count;
    size_t field_count;
    size_t identifier_count;
    size_t condition_count;
    size_t carrier; /* its number, from 1 */
    book_record lines[ROOM_FOR_LINES];
    book_record codes[ROOM_FOR_CODES];
    book_record fields[ROOM_FOR_FIELDS];
    book_record identifiers[ROOM_FOR_IDENTIFIERS];
    book_record rows[ROOM_FOR_IDENTIFIERS][ROOM_FOR_LINES];
};

/* The book under test: a builder fills it, a test changes it. */
static struct book book = {.edition = FIRST_EDITION};

/* Its bytes, once written, and room for some beyond. */
static uint8_t bytes[LONGEST_LENT];

/* How long its records are. */
static inline struct book_sizes sizes(void)
{
    return sizes_of_edition(book.edition);
}

/* Little-endian, as all numbers of a book. */
static inline void put_two_bytes(uint8_t *at, size_t number)
{
    at[0] = (uint8_t)(number & 0xFF);
    at[1] = (uint8_t)(number >> 8 & 0xFF);
}

static inline void put_four_bytes(uint8_t *at, uint32_t number)
{
    put_two_bytes(at, number);
    put_two_bytes(at + 2, number >> 16);
}

/* Builders: each adds to the book under test. */

static inline void begin_book(void)
{
    memset(&book, 0, sizeof book);
    book.edition = FIRST_EDITION;
}

static inline void set_tag(int line, const char *tag)
{
    memcpy(book.lines[line] + LINE_TAG, tag, TAG_LENGTH);
}

static inline void set_maximum(int line, uint32_t maximum)
{
    put_four_bytes(book.lines[line] + LINE_MAXIMUM, maximum);
}

/* A line of maximum 1 with nothing else, in place of what is there. */
static inline void set_line(int line, int kind, int depth, int required)
{
    memset(book.lines[line], 0, sizeof book.lines[line]);
    book.lines[line][LINE_KIND] = (uint8_t)kind;
    book.lines[line][LINE_DEPTH] = (uint8_t)depth;
    book.lines[line][LINE_REQUIRED] = (uint8_t)required;
    set_maximum(line, 1);
}

static inline int add_line(int kind, int depth, int required)
{
    int line = (int)book.line_count++;
    set_line(line, kind, depth, required);
    return line;
}

/* A segment line of maximum 1, without selector and fields. */
static inline void add_segment(int depth, const char *tag, int required)
{
    set_tag(add_line(SEGMENT, depth, required), tag);
}

static inline void add_group(int depth, int required, uint32_t maximum)
{
    set_maximum(add_line(GROUP, depth, required), maximum);
}

/* A field of no line. */
static inline void add_loose_field(int element, int component, int presence,
                                   int form, int longest)
{
    uint8_t *field = book.fields[book.field_count++];
    field[FIELD_ELEMENT] = (uint8_t)element;
    field[FIELD_COMPONENT] = (uint8_t)component;
    field[FIELD_PRESENCE] = (uint8_t)presence;
    field[FIELD_FORM] = (uint8_t)form;
    put_two_bytes(field + FIELD_LONGEST, (size_t)longest);
}

/* A field of the line added last. */
static inline void add_field(int element, int component, int presence, int form,
                             int longest)
{
    uint8_t *line = book.lines[book.line_count - 1];
    if (line[LINE_FIELD_COUNT]++ == 0) {
        put_two_bytes(line + LINE_FIRST_FIELD, book.field_count);
    }
    add_loose_field(element, component, presence, form, longest);
}

static inline void set_code(int code, const char *text)
{
    memset(book.codes[code], 0, sizeof book.codes[code]);
    book.codes[code][CODE_LENGTH] = (uint8_t)strlen(text);
    memcpy(book.codes[code] + CODE_TEXT, text, strlen(text));
}

static inline void add_code(const char *text)
{
    set_code((int)book.code_count++, text);
}

static inline void set_selector(int line, int element, int component, size_t first,
                                size_t count)
{
    uint8_t *at = book.lines[line];
    at[LINE_SELECTOR_ELEMENT] = (uint8_t)element;
    at[LINE_SELECTOR_COMPONENT] = (uint8_t)component;
    put_two_bytes(at + LINE_FIRST_CODE, first);
    put_two_bytes(at + LINE_CODE_COUNT, count);
}

static inline void set_field_codes(int field, size_t first, size_t count)
{
    put_two_bytes(book.fields[field] + FIELD_FIRST_CODE, first);
    put_two_bytes(book.fields[field] + FIELD_CODE_COUNT, count);
}

static inline void set_identifier(int identifier, const char *digits)
{
    memcpy(book.identifiers[identifier] + IDENTIFIER_DIGITS, digits, IDENTIFIER_LENGTH);
}

static inline void set_row(int identifier, int line, int mode, int joint, int first,
                           int second, int third)
{
    uint8_t *row = book.rows[identifier][line];
    memset(row, 0, sizeof book.rows[identifier][line]);
    row[ROW_MODE] = (uint8_t)mode;
    row[ROW_JOINT] = (uint8_t)joint;
    row[ROW_CONDITIONS] = (uint8_t)first;
    row[ROW_CONDITIONS + 1] = (uint8_t)second;
    row[ROW_CONDITIONS + 2] = (uint8_t)third;
}

/* A row without conditions. */
static inline void set_plain_row(int identifier, int line, int mode)
{
    set_row(identifier, line, mode, NO_JOINT, 0, 0, 0);
}

/* A Pruefidentifikator, after all lines: required ones must, others may. */
static inline void add_identifier(const char *digits)
{
    int identifier = (int)book.identifier_count++;
    set_identifier(identifier, digits);
    for (int line = 0; line < (int)book.line_count; line++) {
        int required = book.lines[line][LINE_REQUIRED] == REQUIRED;
        set_plain_row(identifier, line, required ? MUST : MAY);
    }
}

/* Lines of small book K, from 0. */
enum { K_UNH, K_BGM, K_RFF, K_GROUP, K_LIN, K_QTY, K_UNT };

static inline void build_k(void)
{
    begin_book();
    add_segment(0, "UNH", REQUIRED);
    add_field(1, 1, MUST_HAVE_BYTES, FORM_AN, 14);
    add_segment(0, "BGM", REQUIRED);
    add_field(1, 1, MAY_HAVE_BYTES, FORM_AN, 3);
    add_segment(0, "RFF", REQUIRED);
    add_field(1, 1, MAY_HAVE_BYTES, FORM_AN, 3);
    add_field(1, 2, MUST_HAVE_BYTES, FORM_AN, 70);
    add_group(0, OPTIONAL, 2);
    add_segment(1, "LIN", REQUIRED);
    add_field(1, 1, MUST_HAVE_BYTES, FORM_N, 6);
    add_segment(1, "QTY", OPTIONAL);
    add_field(1, 1, MAY_HAVE_BYTES, FORM_AN, 3);
    add_field(1, 2, MUST_HAVE_BYTES, FORM_N, 35);
    add_segment(0, "UNT", REQUIRED);
    add_field(1, 1, MUST_HAVE_BYTES, FORM_N, 6);
    add_field(2, 1, MUST_HAVE_BYTES, FORM_AN, 14);
    book.condition_count = 1;
    book.carrier = K_RFF + 1;
    add_identifier("10001");
    set_row(0, K_QTY, MUST_IF, ALL, 1, 0, 0);
}

static inline void put_header_number(size_t at, size_t number)
{
    put_two_bytes(bytes + at, number);
}

/* So many records, each of this size, one behind the other; answers where the next
 * block begins. */
static inline size_t append(size_t at, book_record *records, size_t count, size_t size)
{
    for (size_t i = 0; i < count; i++) {
        memcpy(bytes + at + i * size, records[i], size);
    }
    return at + count * size;
}

/* Writes the book under test into bytes and answers its length. A number that
 * does not fit two bytes is cut. */
static inline size_t write_book(void)
{
    size_t at = sizes().header;
    memset(bytes, 0, at);
    put_header_number(HEADER_EDITION, book.edition);
    put_header_number(HEADER_LINE_COUNT, book.line_count);
    put_header_number(HEADER_CODE_COUNT, book.code_count);
    put_header_number(HEADER_FIELD_COUNT, book.field_count);
    put_header_number(HEADER_IDENTIFIER_COUNT, book.identifier_count);
    put_header_number(HEADER_CONDITION_COUNT, book.condition_count);
    put_header_number(HEADER_CARRIER, book.carrier);
    put_header_number(HEADER_LINES_OFFSET, at);
    at = append(at, book.lines, book.line_count, sizes().line);
    put_header_number(HEADER_CODES_OFFSET, at);
    at = append(at, book.codes, book.code_count, sizes().code);
    put_header_number(HEADER_FIELDS_OFFSET, at);
    at = append(at, book.fields, book.field_count, sizes().field);
    put_header_number(HEADER_IDENTIFIERS_OFFSET, at);
    at = append(at, book.identifiers, book.identifier_count, sizes().identifier);
    put_header_number(HEADER_ROWS_OFFSET, at);
    for (size_t i = 0; i < book.identifier_count; i++) {
        at = append(at, book.rows[i], book.line_count, sizes().row);
    }
    put_header_number(HEADER_LENGTH, at);
    return at;
}

#endif
