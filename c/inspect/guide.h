/* A guide book's records (document 01, "The guide book"), and its printed names.
 * Only for books that tracksaddle_check_book has found good: nothing is checked
 * again here. Lines, elements, components and conditions count from 1. */
#ifndef INSPECT_GUIDE_H
#define INSPECT_GUIDE_H

#include "../book_layout.h"
#include "names.h"
#include "text.h"

#include <stdbool.h>
#include <stddef.h>
#include <stdint.h>

struct guide {
    const uint8_t *bytes;
    size_t length;
    struct names names;
};

/* Codes of the block: how many, from which on, counted from 0. */
struct codes {
    unsigned first;
    unsigned count;
};

struct guide_line {
    bool is_group;
    unsigned depth;
    char tag[TAG_LENGTH + 1]; /* empty for a group */
    bool required;
    unsigned element; /* of the selector; 0 without one */
    unsigned component;
    struct codes codes;
    uint32_t maximum;
    unsigned first_field;
    unsigned field_count;
};

struct guide_field {
    unsigned element;
    unsigned component;
    enum presence presence;
    enum form form;
    unsigned longest;
    struct codes codes;
};

struct literal {
    unsigned condition;
    bool negated;
};

struct row {
    enum mode mode;
    bool any; /* of its conditions; otherwise all of them */
    unsigned count;
    struct literal literals[MOST_IN_ROW];
};

unsigned line_count(const struct guide *guide);
unsigned condition_count(const struct guide *guide);
unsigned identifier_count(const struct guide *guide);

/* The line that carries the Pruefidentifikator. */
unsigned carrier_line(const struct guide *guide);

struct guide_line guide_line(const struct guide *guide, unsigned line);

/* The first line of a group: its segments open the group's instances. */
bool is_trigger(const struct guide *guide, unsigned line);

/* The group that holds the line, 0 at the message's own level. */
unsigned parent_line(const struct guide *guide, unsigned line);

/* The line's field of this element and component; false if it names none. */
bool find_field(const struct guide *guide, unsigned line, uint32_t element,
                uint32_t component, struct guide_field *field);

/* Whether the bytes are one of these codes. */
bool has_code(const struct guide *guide, struct codes codes, const uint8_t *bytes,
              size_t length);

/* "A, B or C", cut if there are very many. */
void append_codes(struct text *text, const struct guide *guide, struct codes codes);

/* Five digits; index counts from 0. */
const char *identifier_digits(const struct guide *guide, unsigned index);

/* The index of the Pruefidentifikator, -1 if the book has none such. */
int find_identifier(const struct guide *guide, const uint8_t *bytes, size_t length);

struct row guide_row(const struct guide *guide, unsigned identifier, unsigned line);

/* "QTY (quantity)": the line's name and, if there are any, its printed words. */
void append_line_name(struct text *text, const struct guide *guide, unsigned line);

/* "QTY": the printed name, or the tag, or "group 4". */
void append_short_name(struct text *text, const struct guide *guide, unsigned line);

/* "10001 (order)": the digits and, if there are any, the printed words. */
void append_identifier(struct text *text, const struct guide *guide, unsigned index);

#endif
