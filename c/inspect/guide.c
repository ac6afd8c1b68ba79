/* A guide book's records, read where book_layout.h says they stand. */
#include "guide.h"

#include <string.h>

/* A guide's longest list has some forty; a made-up book may have thousands. */
enum { MOST_LISTED = 200 };

static unsigned header_number(const struct guide *guide, size_t at)
{
    return two_bytes(guide->bytes + at);
}

static struct book_sizes sizes_of(const struct guide *guide)
{
    return sizes_of_edition(header_number(guide, HEADER_EDITION));
}

/* A record of a block whose offset stands in the header. */
static const uint8_t *record_at(const struct guide *guide, size_t block, size_t size,
                                size_t index)
{
    return guide->bytes + header_number(guide, block) + size * index;
}

unsigned line_count(const struct guide *guide)
{
    return header_number(guide, HEADER_LINE_COUNT);
}

unsigned condition_count(const struct guide *guide)
{
    return header_number(guide, HEADER_CONDITION_COUNT);
}

unsigned identifier_count(const struct guide *guide)
{
    return header_number(guide, HEADER_IDENTIFIER_COUNT);
}

unsigned carrier_line(const struct guide *guide)
{
    return header_number(guide, HEADER_CARRIER);
}

struct guide_line guide_line(const struct guide *guide, unsigned line)
{
    const uint8_t *at =
        record_at(guide, HEADER_LINES_OFFSET, sizes_of(guide).line, line - 1);
    struct guide_line read = {
        .is_group = at[LINE_KIND] == GROUP,
        .depth = at[LINE_DEPTH],
        .required = at[LINE_REQUIRED] == REQUIRED,
        .element = at[LINE_SELECTOR_ELEMENT],
        .component = at[LINE_SELECTOR_COMPONENT],
        .codes = {two_bytes(at + LINE_FIRST_CODE), two_bytes(at + LINE_CODE_COUNT)},
        .maximum = four_bytes(at + LINE_MAXIMUM),
        .first_field = two_bytes(at + LINE_FIRST_FIELD),
        .field_count = two_bytes(at + LINE_FIELD_COUNT),
    };
    memcpy(read.tag, at + LINE_TAG, TAG_LENGTH);
    return read;
}

bool is_trigger(const struct guide *guide, unsigned line)
{
    return line > 1 && guide_line(guide, line - 1).is_group;
}

unsigned parent_line(const struct guide *guide, unsigned line)
{
    unsigned depth = guide_line(guide, line).depth;
    while (--line > 0 && guide_line(guide, line).depth >= depth) {
    }
    return line;
}

static struct guide_field field_at(const struct guide *guide, unsigned index)
{
    const uint8_t *at =
        record_at(guide, HEADER_FIELDS_OFFSET, sizes_of(guide).field, index);
    return (struct guide_field){
        .element = at[FIELD_ELEMENT],
        .component = at[FIELD_COMPONENT],
        .presence = (enum presence)at[FIELD_PRESENCE],
        .form = (enum form)at[FIELD_FORM],
        .longest = two_bytes(at + FIELD_LONGEST),
        .codes = {two_bytes(at + FIELD_FIRST_CODE), two_bytes(at + FIELD_CODE_COUNT)},
    };
}

bool find_field(const struct guide *guide, unsigned line, uint32_t element,
                uint32_t component, struct guide_field *field)
{
    struct guide_line of = guide_line(guide, line);
    for (unsigned i = 0; i < of.field_count; i++) {
        *field = field_at(guide, of.first_field + i);
        if (field->element == element && field->component == component) {
            return true;
        }
    }
    return false;
}

static const uint8_t *code_at(const struct guide *guide, unsigned index)
{
    return record_at(guide, HEADER_CODES_OFFSET, sizes_of(guide).code, index);
}

bool has_code(const struct guide *guide, struct codes codes, const uint8_t *bytes,
              size_t length)
{
    for (unsigned i = 0; i < codes.count; i++) {
        const uint8_t *code = code_at(guide, codes.first + i);
        if (code[CODE_LENGTH] == length &&
            memcmp(code + CODE_TEXT, bytes, length) == 0) {
            return true;
        }
    }
    return false;
}

void append_codes(struct text *text, const struct guide *guide, struct codes codes)
{
    unsigned listed = codes.count > MOST_LISTED ? MOST_LISTED : codes.count;
    for (unsigned i = 0; i < listed; i++) {
        const uint8_t *code = code_at(guide, codes.first + i);
        bool is_last = i + 1 == codes.count;
        append(text, "%s", i == 0 ? "" : is_last ? " or " : ", ");
        append_bytes(text, (const char *)code + CODE_TEXT, code[CODE_LENGTH]);
    }
    if (listed < codes.count) {
        append(text, " or %u more", codes.count - listed);
    }
}

const char *identifier_digits(const struct guide *guide, unsigned index)
{
    const uint8_t *at =
        record_at(guide, HEADER_IDENTIFIERS_OFFSET, sizes_of(guide).identifier, index);
    return (const char *)at + IDENTIFIER_DIGITS;
}

int find_identifier(const struct guide *guide, const uint8_t *bytes, size_t length)
{
    for (unsigned i = 0; i < identifier_count(guide); i++) {
        if (length == IDENTIFIER_LENGTH &&
            memcmp(identifier_digits(guide, i), bytes, length) == 0) {
            return (int)i;
        }
    }
    return -1;
}

struct row guide_row(const struct guide *guide, unsigned identifier, unsigned line)
{
    size_t index = (size_t)identifier * line_count(guide) + line - 1;
    const uint8_t *at =
        record_at(guide, HEADER_ROWS_OFFSET, sizes_of(guide).row, index);
    const uint8_t *conditions = at + ROW_CONDITIONS;
    struct row row = {
        .mode = (enum mode)at[ROW_MODE], .any = at[ROW_JOINT] == ANY, .count = 0};
    while (row.count < MOST_IN_ROW && conditions[row.count] != 0) {
        uint8_t byte = conditions[row.count];
        row.literals[row.count].condition = byte % NOT;
        row.literals[row.count].negated = byte >= NOT;
        row.count++;
    }
    return row;
}

void append_short_name(struct text *text, const struct guide *guide, unsigned line)
{
    struct guide_line read = guide_line(guide, line);
    const char *name = line_name(&guide->names, line);
    if (name[0] != '\0') {
        append(text, "%s", name);
    } else if (read.is_group) {
        append(text, "group %u", line);
    } else {
        append(text, "%s", read.tag);
    }
}

void append_line_name(struct text *text, const struct guide *guide, unsigned line)
{
    append_short_name(text, guide, line);
    append_words(text, line_words(&guide->names, line));
}

void append_identifier(struct text *text, const struct guide *guide, unsigned index)
{
    const char *digits = identifier_digits(guide, index);
    append(text, "%.*s", IDENTIFIER_LENGTH, digits);
    append_words(text, identifier_words(&guide->names, digits));
}
