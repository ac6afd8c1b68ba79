/* Tests tracksaddle_check_book from the C side: good books, among them small book
 * K, and for every rule of a book's format books that break it. c/run_tests
 * builds and runs this.
 */
#include "book_builder.h"

#include "tracksaddle.h"

enum { IS_GOOD = 0, IS_MALFORMED = 1 };

/* Lines of the rich book, from 0. */
enum {
    RICH_UNH,
    RICH_OUTER,
    RICH_NAD,
    RICH_INNER,
    RICH_CARRIER,
    RICH_RFF,
    RICH_NAD_AGAIN,
    RICH_UNT
};

/* A book with what K lacks: selectors and codes, a group in a group around the
 * Pruefidentifikator, two of these, and rows with several conditions. */
static void build_rich(void)
{
    begin_book();
    add_segment(0, "UNH", REQUIRED);
    add_group(0, REQUIRED, 1);
    add_segment(1, "NAD", REQUIRED);
    add_field(1, 1, MUST_HAVE_BYTES, FORM_AN, 3);
    add_field(2, 1, MUST_IF_ELEMENT, FORM_AN, 35);
    add_group(1, REQUIRED, 1);
    add_segment(2, "RFF", REQUIRED);
    add_field(1, 1, MUST_HAVE_BYTES, FORM_AN, 3);
    add_field(1, 2, MUST_HAVE_BYTES, FORM_N, 5);
    add_segment(2, "RFF", OPTIONAL);
    add_segment(0, "NAD", OPTIONAL);
    add_segment(0, "UNT", REQUIRED);
    add_code("MS");
    add_code("MR");
    add_code("Z13");
    add_code("AAV");
    add_code("DP");
    set_selector(RICH_NAD, 1, 1, 0, 2);
    set_selector(RICH_CARRIER, 1, 1, 2, 1);
    set_selector(RICH_RFF, 1, 1, 3, 1);
    set_selector(RICH_NAD_AGAIN, 1, 1, 4, 1);
    set_field_codes(0, 0, 2);
    book.condition_count = 3;
    book.carrier = RICH_CARRIER + 1;
    add_identifier("10001");
    add_identifier("10002");
    set_row(0, RICH_RFF, MUST_IF, ANY, 1, NOT + 2, 0);
    set_plain_row(0, RICH_NAD_AGAIN, NEVER);
    set_row(1, RICH_RFF, MAY_IF, ALL, NOT + 1, 2, 3);
    set_row(1, RICH_NAD_AGAIN, MAY_IF, ALL, NOT + 3, 0, 0);
}

static void check_lent(struct source source, struct slice lent, struct slice original,
                       uint32_t expected)
{
    uint32_t found = tracksaddle_check_book(lent.bytes, lent.length);
    checks_made++;
    if (found != expected) {
        checks_failed++;
        printf("%s:%d: a book of %zu bytes should get %u and gets %u\n", source.file,
               source.line, lent.length, (unsigned)expected, (unsigned)found);
    }
    check_unchanged(source, lent, original);
}

/* Checks the first so many of the written bytes. */
static void check_bytes(struct source source, size_t length, uint32_t expected)
{
    struct slice original = {bytes, length};
    struct slice on_the_heap = copy_to_the_heap(original);
    check_lent(source, on_the_heap, original, expected);
    free_heap_copy(on_the_heap);
    check_lent(source, copy_before_the_guard(original), original, expected);
}

static void check_book(struct source source, uint32_t expected)
{
    check_bytes(source, write_book(), expected);
}

/* The book that was built is good after the change. */
#define GOOD(build, change)        \
    do {                           \
        build;                     \
        change;                    \
        check_book(HERE, IS_GOOD); \
    } while (0)

/* The book that was built is malformed after the change. */
#define MALFORMED(build, change)        \
    do {                                \
        build;                          \
        change;                         \
        check_book(HERE, IS_MALFORMED); \
    } while (0)

#define UNCHANGED ((void)0)

/* Changes to the book under test that take more than one assignment. */

static void set_line_number(int line, int at, size_t number)
{
    put_two_bytes(book.lines[line] + at, number);
}

static void set_field_number(int field, int at, size_t number)
{
    put_two_bytes(book.fields[field] + at, number);
}

static void set_carrier(size_t number)
{
    book.carrier = number;
}

/* Makes room at the index; the new line is a copy of the one there. */
static void repeat_line(int index)
{
    size_t following = (book.line_count - (size_t)index) * sizeof(book_record);
    memmove(book.lines[index + 1], book.lines[index], following);
    for (size_t i = 0; i < book.identifier_count; i++) {
        memmove(book.rows[i][index + 1], book.rows[i][index], following);
    }
    book.line_count++;
    if (book.carrier > (size_t)index) {
        book.carrier++;
    }
}

/* Puts a segment line of a new tag before the one at the index. */
static void insert_segment(int index, int depth, const char *tag)
{
    repeat_line(index);
    set_line(index, SEGMENT, depth, OPTIONAL);
    set_tag(index, tag);
    for (int i = 0; i < (int)book.identifier_count; i++) {
        set_plain_row(i, index, MAY);
    }
}

/* The rich book with a tag of its own on its second RFF line. */
static void build_lone(void)
{
    build_rich();
    set_tag(RICH_RFF, "ABC");
}

/* UNH and UNT alone. */
static void build_smallest(void)
{
    begin_book();
    add_segment(0, "UNH", REQUIRED);
    add_segment(0, "UNT", REQUIRED);
    book.carrier = 1;
    add_identifier("00000");
}

static void build_lines(size_t count)
{
    begin_book();
    add_segment(0, "UNH", REQUIRED);
    while (book.line_count + 1 < count) {
        char tag[4] = "A00";
        tag[1] = (char)('A' + book.line_count / 26);
        tag[2] = (char)('A' + book.line_count % 26);
        add_segment(0, tag, OPTIONAL);
    }
    add_segment(0, "UNT", REQUIRED);
    book.carrier = 1;
    add_identifier("99999");
}

/* Groups of depth 0 and on, each in the one before, the last trigger this deep. */
static void build_nested(int deepest)
{
    begin_book();
    add_segment(0, "UNH", REQUIRED);
    for (int depth = 0; depth < deepest; depth++) {
        char tag[4] = "GR0";
        tag[2] = (char)('0' + depth);
        add_group(depth, REQUIRED, 1);
        add_segment(depth + 1, tag, REQUIRED);
    }
    add_segment(0, "UNT", REQUIRED);
    book.carrier = book.line_count - 1;
    add_identifier("12345");
}

/* The smallest book with unused codes, and a field if need be, up to so many
 * bytes. */
static void build_long(size_t length)
{
    size_t missing;
    build_smallest();
    missing = length - write_book();
    if (missing % sizes().code != 0) {
        add_loose_field(1, 1, MAY_HAVE_BYTES, FORM_AN, 1);
        missing -= sizes().field;
    }
    for (; missing > 0; missing -= sizes().code) {
        add_code("A");
    }
}

/* The tests. */

static void test_good_books(void)
{
    build_k();
    checks_made++;
    if (write_book() != 340) {
        checks_failed++;
        printf("book K should have 340 bytes and has %zu\n", write_book());
    }
    check_book(HERE, IS_GOOD);
    GOOD(build_rich(), UNCHANGED);
    GOOD(build_smallest(), UNCHANGED);
}

/* Whether K stays good with this value at this offset of its header. */
static int is_good_in_the_header_of_k(size_t at, int value)
{
    if (at == HEADER_CONDITION_COUNT) {
        return value >= 1 && value <= MOST_CONDITIONS;
    }
    if (at == HEADER_CARRIER) {
        return value == K_UNH + 1 || value == K_BGM + 1 || value == K_RFF + 1 ||
               value == K_UNT + 1;
    }
    return value == bytes[at];
}

static void test_every_value_of_every_header_byte(void)
{
    for (size_t at = 0; at < sizes().header; at++) {
        for (int value = 0; value <= 0xFF; value++) {
            size_t length;
            int is_good;
            build_k();
            length = write_book();
            is_good = is_good_in_the_header_of_k(at, value);
            bytes[at] = (uint8_t)value;
            check_bytes(HERE, length, is_good ? IS_GOOD : IS_MALFORMED);
        }
    }
}

static void check_header_number(struct source source, size_t at, size_t number)
{
    size_t length = write_book();
    put_header_number(at, number);
    check_bytes(source, length, IS_MALFORMED);
}

/* A block's offset is the sum of what lies before it, also if it is empty. */
static void test_offsets(void)
{
    const size_t offsets[] = {HEADER_LINES_OFFSET, HEADER_CODES_OFFSET,
                              HEADER_FIELDS_OFFSET, HEADER_IDENTIFIERS_OFFSET,
                              HEADER_ROWS_OFFSET};
    for (size_t i = 0; i < sizeof offsets / sizeof offsets[0]; i++) {
        size_t offset;
        build_rich();
        write_book();
        offset = two_bytes(bytes + offsets[i]);
        check_header_number(HERE, offsets[i], offset - 1);
        check_header_number(HERE, offsets[i], offset + 1);
        check_header_number(HERE, offsets[i], 0);
    }
}

/* Too short, too long, empty. */
static void test_every_length(void)
{
    size_t length;
    build_k();
    length = write_book();
    for (size_t shorter = 0; shorter < length; shorter++) {
        check_bytes(HERE, shorter, IS_MALFORMED);
    }
    memset(bytes + length, 0, sizeof bytes - length);
    check_bytes(HERE, length + 1, IS_MALFORMED);
    check_bytes(HERE, length + 8, IS_MALFORMED);
    check_bytes(HERE, length + 65536, IS_MALFORMED);
    for (size_t longer = length + 1; longer < length + 30; longer++) {
        put_header_number(HEADER_LENGTH, longer);
        check_bytes(HERE, longer, IS_MALFORMED);
    }
    for (size_t shorter = sizes().header; shorter < length; shorter++) {
        put_header_number(HEADER_LENGTH, shorter);
        check_bytes(HERE, shorter, IS_MALFORMED);
    }
}

/* Every length is a multiple of 4, so 65,532 is the longest. */
static void test_the_longest_book(void)
{
    GOOD(build_long(65528), UNCHANGED);
    GOOD(build_long(65532), UNCHANGED);
    MALFORMED(build_long(65536), UNCHANGED);
    MALFORMED(build_long(65540), UNCHANGED);
    memset(bytes, 0, sizeof bytes);
    check_bytes(HERE, 65535, IS_MALFORMED);
    memset(bytes, 0xFF, sizeof bytes);
    check_bytes(HERE, 65535, IS_MALFORMED);
}

/* Counts so large that the length is the right one again in 16 bits: a field's size
 * is no power of two, but three times 4. */
static void test_counts_that_wrap(void)
{
    build_k();
    check_header_number(HERE, HEADER_CODE_COUNT,
                        book.code_count + 65536 / sizes().code);
    check_header_number(HERE, HEADER_FIELD_COUNT,
                        book.field_count + 3 * 65536 / sizes().field);
    check_header_number(HERE, HEADER_IDENTIFIER_COUNT,
                        book.identifier_count + 65536 / sizes().identifier);
}

static void test_counts(void)
{
    GOOD(build_lines(256), UNCHANGED);
    GOOD(build_lines(256), set_carrier(256));
    MALFORMED(build_lines(257), UNCHANGED);
    MALFORMED(build_smallest(), book.line_count = 1);
    MALFORMED(build_smallest(), book.line_count = 0);
    MALFORMED(build_k(), book.identifier_count = 0);
    GOOD(build_k(), book.condition_count = MOST_CONDITIONS);
    MALFORMED(build_k(), book.condition_count = MOST_CONDITIONS + 1);
}

static void test_the_carrier(void)
{
    GOOD(build_k(), set_carrier(K_UNH + 1));
    GOOD(build_k(), set_carrier(K_UNT + 1));
    GOOD(build_rich(), set_carrier(RICH_NAD + 1));
    MALFORMED(build_k(), set_carrier(0));
    MALFORMED(build_k(), set_carrier(8));
    MALFORMED(build_k(), set_carrier(256 + 3));
    MALFORMED(build_rich(), set_carrier(RICH_OUTER + 1));
    MALFORMED(build_rich(), set_carrier(RICH_RFF + 1));
    MALFORMED(build_k(), book.lines[K_RFF][LINE_REQUIRED] = OPTIONAL);
    MALFORMED(build_k(), set_maximum(K_RFF, 2));
    MALFORMED(build_k(), set_maximum(K_RFF, 257));
    MALFORMED(build_rich(), book.lines[RICH_OUTER][LINE_REQUIRED] = OPTIONAL);
    MALFORMED(build_rich(), book.lines[RICH_INNER][LINE_REQUIRED] = OPTIONAL);
    MALFORMED(build_rich(), set_maximum(RICH_OUTER, 2));
    MALFORMED(build_rich(), set_maximum(RICH_INNER, 2));
}

static void test_lines(void)
{
    MALFORMED(build_k(), book.lines[K_BGM][LINE_KIND] = SEGMENT - 1);
    MALFORMED(build_k(), book.lines[K_BGM][LINE_KIND] = GROUP + 1);
    MALFORMED(build_k(), book.lines[K_GROUP][LINE_KIND] = GROUP + 1);
    MALFORMED(build_k(), book.lines[K_QTY][LINE_REQUIRED] = REQUIRED + 1);
    MALFORMED(build_k(), book.lines[K_BGM][LINE_REQUIRED] = 0xFF);
    GOOD(build_k(), set_maximum(K_QTY, 999999));
    MALFORMED(build_k(), set_maximum(K_QTY, 1000000));
    MALFORMED(build_k(), set_maximum(K_QTY, 0));
    MALFORMED(build_k(), set_maximum(K_GROUP, 0x1000001));
    MALFORMED(build_k(), set_maximum(K_GROUP, 0xFFFFFFFF));
}

static int is_tag_byte(int byte)
{
    return (byte >= 'A' && byte <= 'Z') || (byte >= '0' && byte <= '9');
}

static void test_every_byte_of_a_tag(void)
{
    for (int byte = 0; byte <= 0xFF; byte++) {
        for (int place = LINE_TAG; place < LINE_TAG + TAG_LENGTH; place++) {
            build_k();
            book.lines[K_BGM][place] = (uint8_t)byte;
            check_book(HERE, is_tag_byte(byte) ? IS_GOOD : IS_MALFORMED);
            build_k();
            book.lines[K_GROUP][place] = (uint8_t)byte;
            check_book(HERE, byte == 0 ? IS_GOOD : IS_MALFORMED);
        }
    }
}

static void test_groups_have_nothing_of_a_segment(void)
{
    MALFORMED(build_rich(), set_selector(RICH_INNER, 1, 1, 0, 1));
    MALFORMED(build_rich(), set_selector(RICH_INNER, 1, 1, 0, 0));
    MALFORMED(build_rich(), set_selector(RICH_INNER, 1, 0, 0, 0));
    MALFORMED(build_rich(), set_selector(RICH_INNER, 0, 1, 0, 0));
    MALFORMED(build_rich(), set_selector(RICH_INNER, 0, 0, 0, 1));
    MALFORMED(build_rich(), set_line_number(RICH_INNER, LINE_FIELD_COUNT, 1));
}

static void test_ranges(void)
{
    GOOD(build_rich(), set_selector(RICH_NAD_AGAIN, 1, 1, 4, 1));
    MALFORMED(build_rich(), set_selector(RICH_NAD_AGAIN, 1, 1, 4, 2));
    MALFORMED(build_rich(), set_selector(RICH_NAD_AGAIN, 1, 1, 5, 1));
    MALFORMED(build_rich(), set_selector(RICH_NAD_AGAIN, 1, 1, 65535, 1));
    MALFORMED(build_rich(), set_selector(RICH_NAD_AGAIN, 1, 1, 65535, 2));
    MALFORMED(build_k(), set_line_number(K_BGM, LINE_FIRST_CODE, 1));
    MALFORMED(build_rich(), set_line_number(RICH_INNER, LINE_FIRST_CODE, 1));
    GOOD(build_rich(), set_line_number(RICH_RFF, LINE_FIELD_COUNT, 1));
    MALFORMED(build_rich(), set_line_number(RICH_RFF, LINE_FIRST_FIELD, 1));
    MALFORMED(build_rich(), set_line_number(RICH_INNER, LINE_FIRST_FIELD, 4));
    GOOD(build_k(), set_line_number(K_BGM, LINE_FIRST_FIELD, 8));
    MALFORMED(build_k(), set_line_number(K_BGM, LINE_FIRST_FIELD, 9));
    MALFORMED(build_k(), set_line_number(K_BGM, LINE_FIRST_FIELD, 65535));
    MALFORMED(build_k(), set_line_number(K_UNT, LINE_FIELD_COUNT, 3));
    MALFORMED(build_k(), set_line_number(K_UNT, LINE_FIELD_COUNT, 65535));
}

static void test_selectors(void)
{
    MALFORMED(build_rich(), set_selector(RICH_CARRIER, 0, 1, 2, 1));
    MALFORMED(build_rich(), set_selector(RICH_CARRIER, 1, 0, 2, 1));
    GOOD(build_lone(), set_selector(RICH_RFF, 255, 255, 0, 5));
    GOOD(build_lone(), set_selector(RICH_RFF, 0, 0, 0, 0));
    MALFORMED(build_lone(), set_selector(RICH_RFF, 1, 1, 0, 0));
    MALFORMED(build_lone(), set_selector(RICH_RFF, 1, 0, 0, 1));
    MALFORMED(build_lone(), set_selector(RICH_RFF, 0, 1, 0, 1));
    MALFORMED(build_lone(), set_selector(RICH_RFF, 0, 0, 0, 1));
}

static int is_code_byte(int byte)
{
    return is_tag_byte(byte) || (byte >= 'a' && byte <= 'z') || byte == '.';
}

static void test_every_byte_of_a_code(void)
{
    for (int byte = 0; byte <= 0xFF; byte++) {
        for (int place = CODE_TEXT; place < CODE_ZERO; place++) {
            build_rich();
            set_code(4, "abcdef");
            book.codes[4][place] = (uint8_t)byte;
            check_book(HERE, is_code_byte(byte) ? IS_GOOD : IS_MALFORMED);
        }
    }
}

static void test_codes(void)
{
    GOOD(build_rich(), set_code(4, "D"));
    MALFORMED(build_rich(), set_code(4, ""));
    MALFORMED(build_rich(), book.codes[4][CODE_LENGTH] = 1);
    MALFORMED(build_rich(), book.codes[4][CODE_LENGTH] = 3);
    MALFORMED(build_rich(), set_code(4, "abcdefg"));
    MALFORMED(build_rich(), set_code(4, "abcdef"); book.codes[4][CODE_LENGTH] = 7);
    MALFORMED(build_rich(), book.codes[4][CODE_ZERO] = 1);
    MALFORMED(build_rich(), book.codes[4][CODE_ZERO - 1] = 'A');
    GOOD(build_k(), add_code("unused"));
    MALFORMED(build_k(), add_code("un-use"));
    MALFORMED(build_k(), add_code(""));
}

static void test_fields(void)
{
    GOOD(build_k(), book.fields[1][FIELD_ELEMENT] = 255);
    GOOD(build_k(), book.fields[1][FIELD_COMPONENT] = 255);
    MALFORMED(build_k(), book.fields[1][FIELD_ELEMENT] = 0);
    MALFORMED(build_k(), book.fields[1][FIELD_COMPONENT] = 0);
    GOOD(build_k(), book.fields[1][FIELD_PRESENCE] = MUST_BE_EMPTY);
    GOOD(build_k(), book.fields[1][FIELD_PRESENCE] = MUST_IF_ELEMENT);
    MALFORMED(build_k(), book.fields[1][FIELD_PRESENCE] = MUST_IF_ELEMENT + 1);
    MALFORMED(build_k(), book.fields[1][FIELD_FORM] = FORM_AN - 1);
    MALFORMED(build_k(), book.fields[1][FIELD_FORM] = FORM_N + 1);
    GOOD(build_k(), set_field_number(1, FIELD_LONGEST, 1));
    GOOD(build_k(), set_field_number(1, FIELD_LONGEST, 256));
    GOOD(build_k(), set_field_number(1, FIELD_LONGEST, 65535));
    MALFORMED(build_k(), set_field_number(1, FIELD_LONGEST, 0));
    MALFORMED(build_k(), book.fields[1][FIELD_ZEROS] = 1);
    MALFORMED(build_k(), book.fields[8][FIELD_ZEROS + 1] = 1);
    MALFORMED(build_k(), set_field_number(1, FIELD_CODE_COUNT, 1));
    MALFORMED(build_k(), set_field_number(1, FIELD_FIRST_CODE, 1));
    GOOD(build_rich(), set_field_codes(1, 0, 5));
    MALFORMED(build_rich(), set_field_codes(1, 0, 6));
    MALFORMED(build_rich(), set_field_codes(1, 5, 1));
    MALFORMED(build_rich(), set_field_codes(1, 5, 0));
    MALFORMED(build_rich(), set_field_codes(1, 65535, 2));
    GOOD(build_k(), add_loose_field(1, 1, MAY_HAVE_BYTES, FORM_AN, 3));
    MALFORMED(build_k(), add_loose_field(0, 1, MAY_HAVE_BYTES, FORM_AN, 3));
    MALFORMED(build_k(), add_loose_field(1, 1, MAY_HAVE_BYTES, FORM_AN - 1, 3));
}

/* Fields 2 and 3 of K are the RFF line's. */
static void set_rff_places(int element, int component, int next_element,
                           int next_component)
{
    book.fields[2][FIELD_ELEMENT] = (uint8_t)element;
    book.fields[2][FIELD_COMPONENT] = (uint8_t)component;
    book.fields[3][FIELD_ELEMENT] = (uint8_t)next_element;
    book.fields[3][FIELD_COMPONENT] = (uint8_t)next_component;
}

static void test_fields_rise(void)
{
    GOOD(build_k(), set_rff_places(1, 255, 2, 1));
    GOOD(build_k(), set_rff_places(2, 1, 2, 2));
    MALFORMED(build_k(), set_rff_places(1, 1, 1, 1));
    MALFORMED(build_k(), set_rff_places(1, 2, 1, 1));
    MALFORMED(build_k(), set_rff_places(2, 1, 1, 2));
    MALFORMED(build_k(), set_rff_places(2, 1, 1, 1));
    /* Its third field would be the next line's, at 1.1 again. */
    MALFORMED(build_k(), set_line_number(K_RFF, LINE_FIELD_COUNT, 3));
}

static void test_identifiers(void)
{
    GOOD(build_rich(), set_identifier(0, "00000"); set_identifier(1, "99999"));
    GOOD(build_rich(), set_identifier(0, "19999"); set_identifier(1, "20000"));
    MALFORMED(build_rich(), set_identifier(1, "10001"));
    MALFORMED(build_rich(), set_identifier(1, "10000"));
    MALFORMED(build_rich(), set_identifier(0, "20000"); set_identifier(1, "19999"));
    for (int place = IDENTIFIER_DIGITS; place < IDENTIFIER_ZEROS; place++) {
        MALFORMED(build_k(), book.identifiers[0][place] = '0' - 1);
        MALFORMED(build_k(), book.identifiers[0][place] = '9' + 1);
        MALFORMED(build_k(), book.identifiers[0][place] = 'A');
        MALFORMED(build_k(), book.identifiers[0][place] = 0);
    }
    for (size_t place = IDENTIFIER_ZEROS; place < sizes().identifier; place++) {
        MALFORMED(build_k(), book.identifiers[0][place] = 1);
        MALFORMED(build_rich(), book.identifiers[1][place] = '0');
    }
}

static void test_plain_rows(void)
{
    for (int mode = NEVER; mode <= MAY; mode++) {
        GOOD(build_rich(), set_plain_row(1, RICH_RFF, mode));
        for (size_t place = ROW_JOINT; place < sizes().row; place++) {
            MALFORMED(build_rich(), set_plain_row(1, RICH_RFF, mode);
                      book.rows[1][RICH_RFF][place] = 1);
        }
    }
    MALFORMED(build_rich(), set_plain_row(1, RICH_RFF, MAY_IF + 1));
    MALFORMED(build_rich(), set_row(1, RICH_RFF, MAY_IF + 1, ALL, 1, 0, 0));
    MALFORMED(build_rich(), set_plain_row(0, RICH_RFF, 0xFF));
}

/* The second Pruefidentifikator's row of a line that may be left out. */
#define GOOD_ROW(mode, joint, first, second, third) \
    GOOD(build_rich(), set_row(1, RICH_RFF, mode, joint, first, second, third))
#define MALFORMED_ROW(mode, joint, first, second, third) \
    MALFORMED(build_rich(), set_row(1, RICH_RFF, mode, joint, first, second, third))

static void test_conditions(void)
{
    for (int mode = MUST_IF; mode <= MAY_IF; mode++) {
        GOOD_ROW(mode, ALL, 3, 0, 0);
        GOOD_ROW(mode, ALL, NOT + 3, 0, 0);
        GOOD_ROW(mode, ANY, 1, 3, 0);
        GOOD_ROW(mode, ALL, NOT + 1, 2, 3);
        GOOD_ROW(mode, ANY, 1, NOT + 2, NOT + 3);
        MALFORMED_ROW(mode, ALL, 0, 0, 0);
        MALFORMED_ROW(mode, NO_JOINT, 0, 0, 0);
        MALFORMED_ROW(mode, ALL, 4, 0, 0);
        MALFORMED_ROW(mode, ALL, NOT + 4, 0, 0);
        MALFORMED_ROW(mode, ALL, 1, 2, 4);
        MALFORMED_ROW(mode, ALL, NOT, 0, 0);
        MALFORMED_ROW(mode, ALL, NOT, 1, 0);
        MALFORMED_ROW(mode, ALL, 1, NOT, 0);
        MALFORMED_ROW(mode, ALL, 0, 1, 0);
        MALFORMED_ROW(mode, ALL, 0, 0, 1);
        MALFORMED_ROW(mode, ALL, 1, 0, 2);
        MALFORMED_ROW(mode, ALL, 1, 1, 0);
        MALFORMED_ROW(mode, ALL, 1, NOT + 1, 0);
        MALFORMED_ROW(mode, ALL, NOT + 1, 1, 0);
        MALFORMED_ROW(mode, ALL, 2, 1, 0);
        MALFORMED_ROW(mode, ALL, 2, NOT + 1, 0);
        MALFORMED_ROW(mode, ALL, 1, 3, 2);
        MALFORMED_ROW(mode, ALL, 1, 2, 2);
    }
    GOOD(build_k(), book.condition_count = MOST_CONDITIONS;
         set_row(0, K_QTY, MAY_IF, ALL, NOT + MOST_CONDITIONS, 0, 0));
    MALFORMED(build_k(), book.condition_count = 0);
}

static void test_joints(void)
{
    GOOD_ROW(MUST_IF, ANY, 1, 2, 0);
    MALFORMED_ROW(MUST_IF, NO_JOINT, 1, 2, 0);
    MALFORMED_ROW(MUST_IF, ANY + 1, 1, 2, 0);
    MALFORMED_ROW(MUST_IF, ANY, 1, 0, 0);
    MALFORMED_ROW(MAY_IF, NO_JOINT, 1, 0, 0);
    MALFORMED_ROW(MAY_IF, ANY + 1, 1, 0, 0);
    for (size_t place = ROW_ZEROS; place < sizes().row; place++) {
        MALFORMED(build_k(), book.rows[0][K_QTY][place] = 1);
    }
}

/* For every Pruefidentifikator and every required line, groups included. */
static void test_rows_of_required_lines(void)
{
    for (int identifier = 0; identifier < 2; identifier++) {
        for (int line = 0; line <= RICH_UNT; line++) {
            if (line == RICH_RFF || line == RICH_NAD_AGAIN) {
                continue;
            }
            MALFORMED(build_rich(), set_plain_row(identifier, line, NEVER));
            MALFORMED(build_rich(), set_plain_row(identifier, line, MAY));
            MALFORMED(build_rich(), set_row(identifier, line, MUST_IF, ALL, 1, 0, 0));
            MALFORMED(build_rich(), set_row(identifier, line, MAY_IF, ALL, 1, 0, 0));
        }
    }
    GOOD(build_rich(), set_plain_row(0, RICH_RFF, MUST));
}

static void test_depths(void)
{
    GOOD(build_nested(MOST_DEPTHS - 1), UNCHANGED);
    MALFORMED(build_nested(MOST_DEPTHS), UNCHANGED);
    MALFORMED(build_k(), book.lines[K_BGM][LINE_DEPTH] = 1);
    MALFORMED(build_k(), book.lines[K_QTY][LINE_DEPTH] = 2);
    MALFORMED(build_k(), book.lines[K_QTY][LINE_DEPTH] = 255);
    GOOD(build_k(), book.lines[K_QTY][LINE_DEPTH] = 0);
    MALFORMED(build_k(), book.lines[K_GROUP][LINE_DEPTH] = 1;
              book.lines[K_LIN][LINE_DEPTH] = 2);
}

static void test_triggers(void)
{
    MALFORMED(build_k(), book.lines[K_LIN][LINE_DEPTH] = 0;
              book.lines[K_QTY][LINE_DEPTH] = 0);
    MALFORMED(build_k(), book.lines[K_LIN][LINE_DEPTH] = 2);
    MALFORMED(build_k(), book.lines[K_LIN][LINE_REQUIRED] = OPTIONAL);
    MALFORMED(build_k(), set_maximum(K_LIN, 2));
    MALFORMED(build_k(), repeat_line(K_GROUP));
    MALFORMED(build_k(), repeat_line(K_GROUP); book.lines[K_GROUP + 1][LINE_DEPTH] = 1;
              book.lines[K_LIN + 1][LINE_DEPTH] = 2);
    /* A group at the end, its rows good. */
    MALFORMED(build_k(), book.line_count = K_GROUP + 1);
}

static void test_unh_and_unt(void)
{
    MALFORMED(build_k(), set_tag(K_UNH, "ABC"));
    MALFORMED(build_k(), set_tag(K_UNT, "ABC"));
    MALFORMED(build_k(), set_tag(K_UNH, "UNT"); set_tag(K_UNT, "UNH"));
    MALFORMED(build_k(), set_tag(K_QTY, "UNH"));
    MALFORMED(build_k(), set_tag(K_QTY, "UNT"));
    MALFORMED(build_k(), insert_segment(K_UNH, 0, "ABC"));
    GOOD(build_k(), insert_segment(K_BGM, 0, "ABC"));
    MALFORMED(build_k(), book.lines[K_UNH][LINE_DEPTH] = 1);
    MALFORMED(build_k(), book.lines[K_UNT][LINE_DEPTH] = 1);
    MALFORMED(build_k(), book.lines[K_UNH][LINE_REQUIRED] = OPTIONAL);
    MALFORMED(build_k(), book.lines[K_UNT][LINE_REQUIRED] = OPTIONAL);
    MALFORMED(build_k(), set_maximum(K_UNH, 2));
    MALFORMED(build_k(), set_maximum(K_UNT, 2));
    MALFORMED(build_rich(), set_selector(RICH_UNH, 1, 1, 0, 1));
    MALFORMED(build_rich(), set_selector(RICH_UNT, 1, 1, 0, 1));
}

static void test_one_home(void)
{
    MALFORMED(build_k(), set_tag(K_QTY, "BGM"));
    MALFORMED(build_rich(), set_selector(RICH_RFF, 0, 0, 0, 0));
    MALFORMED(build_rich(), set_selector(RICH_RFF, 2, 1, 3, 1));
    MALFORMED(build_rich(), set_selector(RICH_RFF, 1, 2, 3, 1));
    /* The same code, at the same place of the block and at another. */
    MALFORMED(build_rich(), set_selector(RICH_RFF, 1, 1, 2, 1));
    MALFORMED(build_rich(), set_selector(RICH_RFF, 1, 1, 2, 2));
    MALFORMED(build_rich(), set_code(3, "Z13"));
    MALFORMED(build_rich(), set_code(4, "MS"));
    MALFORMED(build_rich(), set_code(4, "MR"));
    /* Codes that begin one another differ, and so do letters in two cases. */
    GOOD(build_rich(), set_code(3, "Z1"));
    GOOD(build_rich(), set_code(3, "Z13Z13"));
    GOOD(build_rich(), set_code(3, "z13"));
    GOOD(build_rich(), set_code(2, "ABCDEF"); set_code(3, "ABCDEG"));
    /* Lines of other tags may share codes, and a line may have one twice. */
    GOOD(build_rich(), set_code(3, "MS"));
    GOOD(build_rich(), set_code(1, "MS"));
    GOOD(build_lone(), set_selector(RICH_RFF, 1, 1, 0, 5));
}

int main(void)
{
    test_good_books();
    test_every_value_of_every_header_byte();
    test_offsets();
    test_every_length();
    test_the_longest_book();
    test_counts_that_wrap();
    test_counts();
    test_the_carrier();
    test_lines();
    test_every_byte_of_a_tag();
    test_groups_have_nothing_of_a_segment();
    test_ranges();
    test_selectors();
    test_every_byte_of_a_code();
    test_codes();
    test_fields();
    test_fields_rise();
    test_identifiers();
    test_plain_rows();
    test_conditions();
    test_joints();
    test_rows_of_required_lines();
    test_depths();
    test_triggers();
    test_unh_and_unt();
    test_one_home();
    return conclude("test_check_book");
}
