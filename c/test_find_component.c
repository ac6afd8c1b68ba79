/* Tests tracksaddle_find_component from the C side: every answer of the header,
 * over lent tables of 0 to 4 entries between canaries. c/run_tests builds and
 * runs this.
 */
#include "testing.h"

#include "tracksaddle.h"

enum { LONGEST_TABLE = 4, MARGIN = 2, TABLE_ROOM = MARGIN + LONGEST_TABLE + MARGIN };

/* No offset or length of any message here. */
static const size_t canary = SIZE_MAX / 3;

/* One question and its right answer. */
struct lookup {
    size_t at;
    size_t element;
    size_t component;
    size_t offset;
    size_t length;
};

static void print_bytes(const uint8_t *bytes, size_t length)
{
    const size_t longest_printed = 100;
    for (size_t i = 0; i < length && i < longest_printed; i++) {
        if (bytes[i] >= 0x20 && bytes[i] <= 0x7E) {
            printf("%c", bytes[i]);
        } else {
            printf("\\x%02X", bytes[i]);
        }
    }
    printf("%s (%zu bytes)\n", length > longest_printed ? "..." : "", length);
}

static void print_failure(struct source source, struct slice message,
                          struct lookup lookup, size_t table_length,
                          const size_t *expected, const size_t *found)
{
    printf("%s:%d: at %zu, element %zu, component %zu, table of %zu entries\n",
           source.file, source.line, lookup.at, lookup.element, lookup.component,
           table_length);
    for (size_t i = 0; i < TABLE_ROOM; i++) {
        if (expected[i] != found[i]) {
            printf("  part[%d] should be %zu%s and is %zu\n", (int)i - MARGIN,
                   expected[i], expected[i] == canary ? " (untouched)" : "",
                   found[i]);
        }
    }
    printf("  message: ");
    print_bytes(message.bytes, message.length);
}

static void fill_with_canaries(size_t *table)
{
    for (size_t i = 0; i < TABLE_ROOM; i++) {
        table[i] = canary;
    }
}

/* One call with a table of one length. */
static void check_table(struct source source, struct slice message,
                        struct lookup lookup, size_t table_length)
{
    size_t expected[TABLE_ROOM];
    size_t found[TABLE_ROOM];
    fill_with_canaries(expected);
    fill_with_canaries(found);
    if (table_length > 0) {
        expected[MARGIN] = lookup.offset;
    }
    if (table_length > 1) {
        expected[MARGIN + 1] = lookup.length;
    }
    tracksaddle_find_component(message.bytes, message.length, lookup.at,
                               lookup.element, lookup.component, found + MARGIN,
                               table_length);
    checks_made++;
    if (memcmp(expected, found, sizeof found) != 0) {
        checks_failed++;
        print_failure(source, message, lookup, table_length, expected, found);
    }
}

/* The lookup in a lent copy, with a table of every length. */
static void check_lent(struct source source, struct slice lent,
                       struct slice original, struct lookup lookup)
{
    for (size_t entries = 0; entries <= LONGEST_TABLE; entries++) {
        check_table(source, lent, lookup, entries);
    }
    check_unchanged(source, lent, original);
}

static void check(struct source source, struct slice message, size_t at,
                  size_t element, size_t component, size_t offset, size_t length)
{
    struct lookup lookup = {at, element, component, offset, length};
    struct slice on_the_heap = copy_to_the_heap(message);
    check_lent(source, on_the_heap, message, lookup);
    free_heap_copy(on_the_heap);
    check_lent(source, copy_before_the_guard(message), message, lookup);
}

/* A literal text as a message. */
#define MESSAGE(text) ((struct slice){(const uint8_t *)(text), sizeof(text) - 1})

/* The component lies at this offset and has this length. */
#define FOUND(text, at, element, component, offset, length) \
    check(HERE, MESSAGE(text), at, element, component, offset, length)

/* The empty part at the message's end comes back. */
#define NOWHERE(text, at, element, component) \
    check(HERE, MESSAGE(text), at, element, component, sizeof(text) - 1, 0)

static void test_the_example_in_the_header(void)
{
    FOUND("AAA+B:?'C++D'", 0, 1, 2, 6, 3);
    FOUND("AAA+B:?'C++D'", 0, 2, 1, 10, 0);
    FOUND("AAA+B:?'C++D'", 0, 3, 1, 11, 1);
    FOUND("AAA+B:?'C++D'", 0, 3, 2, 12, 0);
    FOUND("AAA+B:?'C++D'", 0, 0, 1, 13, 0);
}

static void test_good_segments(void)
{
    FOUND("LIN+1++9990001000160:Z02::293'", 0, 1, 1, 4, 1);
    FOUND("LIN+1++9990001000160:Z02::293'", 0, 3, 1, 7, 13);
    FOUND("LIN+1++9990001000160:Z02::293'", 0, 3, 2, 21, 3);
    FOUND("LIN+1++9990001000160:Z02::293'", 0, 3, 4, 26, 3);
    FOUND("UNH+1'BGM+7'RFF+Z13:10001'", 12, 1, 2, 20, 5);
    FOUND("019+x'", 0, 1, 1, 4, 1);
    FOUND("A0Z+a b'", 0, 1, 1, 4, 3);
}

static void test_present_empty_components(void)
{
    FOUND("AAA++B'", 0, 1, 1, 4, 0);
    FOUND("AAA++B'", 0, 2, 1, 5, 1);
    FOUND("AAA++++B'", 0, 3, 1, 6, 0);
    FOUND("AAA++++B'", 0, 4, 1, 7, 1);
    FOUND("AAA+:B'", 0, 1, 1, 4, 0);
    FOUND("AAA+:B'", 0, 1, 2, 5, 1);
    FOUND("AAA+::B'", 0, 1, 2, 5, 0);
    FOUND("AAA+::B'", 0, 1, 3, 6, 1);
    FOUND("AAA+B::C'", 0, 1, 2, 6, 0);
    FOUND("AAA+B::C+D'", 0, 1, 2, 6, 0);
    FOUND("AAA+B::C+D'", 0, 2, 1, 9, 1);
    FOUND("AAA+B::C++:D'", 0, 2, 1, 9, 0);
    FOUND("AAA+B::C++:D'", 0, 3, 1, 10, 0);
    FOUND("AAA+B::C++:D'", 0, 3, 2, 11, 1);
    FOUND("CTA+IC+:P GETTY'", 0, 2, 1, 7, 0);
    FOUND("CTA+IC+:P GETTY'", 0, 2, 2, 8, 7);
}

static void test_absent_components(void)
{
    FOUND("UNS'", 0, 1, 1, 3, 0);
    FOUND("UNS'", 0, 7, 9, 3, 0);
    FOUND("UNS'UNT+2+1'", 0, 1, 1, 3, 0);
    FOUND("AAA+B'CCC+D+E'", 0, 2, 1, 5, 0);
    FOUND("AAA+B'CCC+D+E'", 0, 1, 2, 5, 0);
    FOUND("AAA+B+C:D'", 0, 1, 2, 9, 0);
    FOUND("AAA+B+C:D'", 0, 3, 2, 9, 0);
    FOUND("AAA+B'", 0, SIZE_MAX, 1, 5, 0);
    FOUND("AAA+B'", 0, 1, SIZE_MAX, 5, 0);
    FOUND("AAA+B'", 0, SIZE_MAX, SIZE_MAX, 5, 0);
}

/* Nowhere, whichever component is asked for: the segment is not well-formed. */
static void check_no_segment(struct source source, struct slice message, size_t at)
{
    for (size_t element = 1; element <= 3; element++) {
        for (size_t component = 1; component <= 3; component++) {
            check(source, message, at, element, component, message.length, 0);
        }
    }
}

#define NO_SEGMENT(text, at) check_no_segment(HERE, MESSAGE(text), at)

/* `+` or `'` right behind `:`, and `'` right behind `+`. */
static void test_needless_separators(void)
{
    NO_SEGMENT("AAA+'", 0);
    NO_SEGMENT("UNS+'", 0);
    NO_SEGMENT("AAA++'", 0);
    NO_SEGMENT("AAA+B+'", 0);
    NO_SEGMENT("AAA+B+++'", 0);
    NO_SEGMENT("AAA+:'", 0);
    NO_SEGMENT("AAA+B:'", 0);
    NO_SEGMENT("AAA+B::'", 0);
    NO_SEGMENT("AAA+B+C:'", 0);
    NO_SEGMENT("AAA+:+B'", 0);
    NO_SEGMENT("AAA+B:+C'", 0);
    NO_SEGMENT("AAA+B::+C'", 0);
    NO_SEGMENT("AAA+B+C:+D'", 0);
    NO_SEGMENT("AAA+:+'", 0);
    NO_SEGMENT("AAA+B::C+'", 0);
}

/* A segment is looked at from its tag to its end, and no further. */
static void test_needless_separators_amid_a_message(void)
{
    FOUND("AAA+B'CCC+'DDD+E'", 0, 1, 1, 4, 1);
    NO_SEGMENT("AAA+B'CCC+'DDD+E'", 6);
    FOUND("AAA+B'CCC+'DDD+E'", 11, 1, 1, 15, 1);
    NO_SEGMENT("AAA+B'CCC+D:'EEE'", 6);
    NO_SEGMENT("AAA+B'CCC+D:+E'FFF'", 6);
    FOUND("AAA+B'CCC+D:+E'FFF'", 15, 1, 1, 18, 0);
    NO_SEGMENT("AAA+BBB+'", 4);
    NO_SEGMENT("AAA+BBB+C:'", 4);
    FOUND("AAA+:+BBB+C'", 6, 1, 1, 10, 1);
    FOUND("+'BBB+C'", 2, 1, 1, 6, 1);
    FOUND("UNS'+'", 0, 1, 1, 3, 0);
}

/* A released mark is a value's last byte, and separates nothing. Here and below each ?
 * of a pair is written \?: C reads two of them before a quote as another character. */
static void test_released_marks_at_an_end(void)
{
    FOUND("AAA+?:'", 0, 1, 1, 4, 2);
    FOUND("AAA+?+'", 0, 1, 1, 4, 2);
    FOUND("AAA+\?\?'", 0, 1, 1, 4, 2);
    FOUND("AAA+?''", 0, 1, 1, 4, 2);
    FOUND("AAA+?:+B'", 0, 2, 1, 7, 1);
    FOUND("AAA+B:?:+C'", 0, 1, 2, 6, 2);
    FOUND("AAA+B:?:+C'", 0, 2, 1, 9, 1);
    FOUND("AAA+B:?+'", 0, 1, 2, 6, 2);
    FOUND("AAA+B+?:'", 0, 2, 1, 6, 2);
    FOUND("AAA+\?\?\?:'", 0, 1, 1, 4, 4);
    FOUND("AAA+\?\?\?:+B'", 0, 2, 1, 9, 1);
    NO_SEGMENT("AAA+\?\?:'", 0);
    NO_SEGMENT("AAA+\?\?:+B'", 0);
    NO_SEGMENT("AAA+\?\?+'", 0);
    NO_SEGMENT("AAA+?::'", 0);
    NO_SEGMENT("AAA+?::+B'", 0);
    NO_SEGMENT("AAA+?++'", 0);
    NO_SEGMENT("AAA+B:?:+'", 0);
}

static void test_number_zero(void)
{
    NOWHERE("AAA+B'CCC'", 0, 0, 1);
    NOWHERE("AAA+B'CCC'", 0, 1, 0);
    NOWHERE("AAA+B'CCC'", 0, 0, 0);
    NOWHERE("AAA+B'CCC'", 0, 2, 0);
    NOWHERE("AAA+B'CCC'", 0, 0, SIZE_MAX);
    NOWHERE("UNS'CCC'", 0, 0, 1);
    NOWHERE("UNS'CCC'", 0, 1, 0);
}

static void test_released_bytes(void)
{
    FOUND("AAA+?'B'CCC+D'", 0, 1, 1, 4, 3);
    FOUND("AAA+?'B'CCC+D'", 0, 2, 1, 7, 0);
    FOUND("AAA+B\?\?'CCC+D'", 0, 1, 1, 4, 3);
    FOUND("AAA+B\?\?'CCC+D'", 0, 2, 1, 7, 0);
    FOUND("AAA+B\?\?\?'C'DDD'", 0, 1, 1, 4, 6);
    FOUND("AAA+B\?\?\?\?'DDD'", 0, 1, 1, 4, 5);
    FOUND("AAA+?+B+C'", 0, 1, 1, 4, 3);
    FOUND("AAA+?+B+C'", 0, 2, 1, 8, 1);
    FOUND("AAA+?:B:C'", 0, 1, 1, 4, 3);
    FOUND("AAA+?:B:C'", 0, 1, 2, 8, 1);
    FOUND("AAA+\?\?+C'", 0, 2, 1, 7, 1);
    FOUND("AAA+\?\?:C'", 0, 1, 2, 7, 1);
}

static void test_release_faults(void)
{
    NOWHERE("AAA+?B'", 0, 1, 1);
    NOWHERE("AAA+? '", 0, 1, 1);
    NOWHERE("AAA+B:\?\?\?C'", 0, 1, 1);
    NOWHERE("AAA+B?", 0, 1, 1);
    NOWHERE("AAA+B?'", 0, 1, 1);
    NOWHERE("AAA?+B'", 0, 1, 1);
    NOWHERE("A?AA+B'", 0, 1, 1);
}

/* The segment at an offset is looked for there and nowhere else. */
static void test_offsets_inside_the_message(void)
{
    FOUND("AAA+BBB+C'", 4, 1, 1, 8, 1);
    FOUND("AAA+?'BBB'", 6, 1, 1, 9, 0);
    FOUND("AAA+?+BBB+C'", 6, 1, 1, 10, 1);
    FOUND("AAAA+B'", 1, 1, 1, 5, 1);
    NOWHERE("AAA+BBB+C'", 1, 1, 1);
    NOWHERE("AAA+BBB+C'", 3, 1, 1);
    NOWHERE("AAA+BBB+C'", 5, 1, 1);
    NOWHERE("AAA+BBB+C'", 9, 1, 1);
    NOWHERE("AAA+?'BBB'", 5, 1, 1);
    NOWHERE("AAA+B'CCC'", 5, 1, 1);
}

static void test_offsets_at_and_past_the_end(void)
{
    NOWHERE("AAA+B'", 6, 1, 1);
    NOWHERE("AAA+B'", 7, 1, 1);
    NOWHERE("AAA+B'", 256, 1, 1);
    NOWHERE("AAA+B'", 65536, 1, 1);
#if SIZE_MAX > 0xFFFFFFFF
    NOWHERE("AAA+B'", (size_t)0xFFFFFFFF + 1, 1, 1);
#endif
    NOWHERE("AAA+B'", SIZE_MAX / 2, 1, 1);
    NOWHERE("AAA+B'", SIZE_MAX - 5, 1, 1);
    NOWHERE("AAA+B'", SIZE_MAX - 1, 1, 1);
    NOWHERE("AAA+B'", SIZE_MAX, 1, 1);
    NOWHERE("AAA+B'", SIZE_MAX, 0, SIZE_MAX);
}

static void test_empty_messages(void)
{
    NOWHERE("", 0, 1, 1);
    NOWHERE("", 0, 0, 0);
    NOWHERE("", 1, 1, 1);
    NOWHERE("", SIZE_MAX, SIZE_MAX, SIZE_MAX);
}

static void test_what_lies_around_does_not_matter(void)
{
    FOUND("\r\n\r\nAAA+B'", 4, 1, 1, 8, 1);
    FOUND("?AAA+B'", 1, 1, 1, 5, 1);
    FOUND("AAA+B'\r\nCCC", 0, 1, 1, 4, 1);
    FOUND("AAA+B'\r\nCCC", 0, 2, 1, 5, 0);
    FOUND("AAA+B'''", 0, 1, 2, 5, 0);
    FOUND("AAA+B'\0\xFF?", 0, 1, 1, 4, 1);
}

static void test_messages_cut_short(void)
{
    NOWHERE("A", 0, 1, 1);
    NOWHERE("AA", 0, 1, 1);
    NOWHERE("AAA", 0, 1, 1);
    NOWHERE("AAA+", 0, 1, 1);
    NOWHERE("AAA+B", 0, 1, 1);
    NOWHERE("AAA+B:", 0, 1, 2);
    NOWHERE("AAA+B+", 0, 1, 1);
    FOUND("AAA+B'CCC+D", 0, 1, 1, 4, 1);
    NOWHERE("AAA+B'CCC+D", 6, 1, 1);
}

static void test_tags(void)
{
    NOWHERE("AaA+B'", 0, 1, 1);
    NOWHERE("AA+B'", 0, 1, 1);
    NOWHERE("AAAA+B'", 0, 1, 1);
    NOWHERE("AAA:B'", 0, 1, 1);
    NOWHERE("+AA+B'", 0, 1, 1);
    NOWHERE("'", 0, 1, 1);
    NOWHERE(" AAA+B'", 0, 1, 1);
}

static int is_tag_byte(int byte)
{
    return (byte >= 'A' && byte <= 'Z') || (byte >= '0' && byte <= '9');
}

static int is_data(int byte)
{
    return (byte >= 0x20 && byte <= 0x7E) || byte >= 0xA0;
}

static int is_separator(int byte)
{
    return byte == ':' || byte == '+' || byte == '\'';
}

static int is_mark(int byte)
{
    return is_separator(byte) || byte == '?';
}

/* A data byte that stands for itself. */
static int is_plain(int byte)
{
    return is_data(byte) && !is_mark(byte);
}

enum { LONGEST_PATTERN = 16 };

/* The component in the pattern with its `*` replaced by the byte, or nowhere if
 * the byte is not allowed there. */
static void check_byte(struct source source, const char *pattern, int byte,
                       int is_allowed, size_t offset, size_t length)
{
    uint8_t text[LONGEST_PATTERN];
    struct slice message = {text, strlen(pattern)};
    memcpy(text, pattern, message.length);
    text[strcspn(pattern, "*")] = (uint8_t)byte;
    if (is_allowed) {
        check(source, message, 0, 1, 1, offset, length);
    } else {
        check(source, message, 0, 1, 1, message.length, 0);
    }
}

static void test_every_byte_in_every_place(void)
{
    for (int byte = 0; byte <= 0xFF; byte++) {
        check_byte(HERE, "*AA+B'", byte, is_tag_byte(byte), 4, 1);
        check_byte(HERE, "A*A+B'", byte, is_tag_byte(byte), 4, 1);
        check_byte(HERE, "AA*+B'", byte, is_tag_byte(byte), 4, 1);
        check_byte(HERE, "AAA+B?*C'", byte, is_mark(byte), 4, 4);
        check_byte(HERE, "AAA+*'", byte, is_plain(byte), 4, 1);
        check_byte(HERE, "AAA+B:*'", byte, is_plain(byte), 4, 1);
        check_byte(HERE, "AAA+B+*'", byte, is_plain(byte), 4, 1);
        check_byte(HERE, "AAA+B:*C'", byte, is_plain(byte) || byte == ':', 4, 1);
    }
}

/* Here a separator cuts the component short, or the segment before it. */
static void test_every_byte_and_the_length(void)
{
    for (int byte = 0; byte <= 0xFF; byte++) {
        int is_short = is_separator(byte);
        check_byte(HERE, "AAA+B*C:D'", byte, is_plain(byte) || is_short, 4,
                   is_short ? 1 : 3);
        check_byte(HERE, "AAA+*B'", byte,
                   is_plain(byte) || byte == ':' || byte == '+', 4, is_short ? 0 : 2);
        check_byte(HERE, "AAA+B*'", byte, is_plain(byte) || byte == '\'', 4,
                   is_short ? 1 : 2);
        check_byte(HERE, "AAA*B'", byte, byte == '+' || byte == '\'',
                   byte == '+' ? 4 : 3, byte == '+' ? 1 : 0);
    }
}

enum { MANY = 300, LONGEST_VALUE = 3 };

/* A segment of 300 parts `x` to `xxx`, each after a mark, and where they lie. */
struct wide_segment {
    uint8_t text[sizeof("AAA'") + MANY * (1 + LONGEST_VALUE)];
    size_t length;
    size_t offsets[MANY];
    size_t lengths[MANY];
};

static void fill_wide_segment(struct wide_segment *wide, char mark)
{
    size_t at = strlen("AAA");
    memcpy(wide->text, "AAA", at);
    for (size_t i = 0; i < MANY; i++) {
        wide->text[at++] = (uint8_t)(i == 0 ? '+' : mark);
        wide->offsets[i] = at;
        wide->lengths[i] = 1 + i % LONGEST_VALUE;
        memset(wide->text + at, 'x', wide->lengths[i]);
        at += wide->lengths[i];
    }
    wide->text[at++] = '\'';
    wide->length = at;
}

/* Asks for the element or the component of this number. */
static void check_number(struct source source, const struct wide_segment *wide,
                         char mark, size_t number)
{
    struct slice message = {wide->text, wide->length};
    size_t element = mark == '+' ? number : 1;
    size_t component = mark == '+' ? 1 : number;
    if (number <= MANY) {
        check(source, message, 0, element, component, wide->offsets[number - 1],
              wide->lengths[number - 1]);
    } else {
        check(source, message, 0, element, component, wide->length - 1, 0);
    }
}

/* Beyond MANY stand numbers that equal a small one in 8, 16 or 32 bits. */
static void test_numbers_beyond_255(char mark)
{
    const size_t numbers[] = {
        1, 2, 44, 254, 255, 256, 257, MANY - 1, MANY, MANY + 1, 511, 512, 513,
        65535, 65536, 65537, 0xFFFFFFFF, SIZE_MAX / 2 + 2, SIZE_MAX,
#if SIZE_MAX > 0xFFFFFFFF
        (size_t)0xFFFFFFFF + 1, (size_t)0xFFFFFFFF + 2,
#endif
    };
    struct wide_segment wide;
    fill_wide_segment(&wide, mark);
    for (size_t i = 0; i < sizeof numbers / sizeof numbers[0]; i++) {
        check_number(HERE, &wide, mark, numbers[i]);
    }
}

int main(void)
{
    test_the_example_in_the_header();
    test_good_segments();
    test_present_empty_components();
    test_absent_components();
    test_needless_separators();
    test_needless_separators_amid_a_message();
    test_released_marks_at_an_end();
    test_number_zero();
    test_released_bytes();
    test_release_faults();
    test_offsets_inside_the_message();
    test_offsets_at_and_past_the_end();
    test_empty_messages();
    test_what_lies_around_does_not_matter();
    test_messages_cut_short();
    test_tags();
    test_every_byte_in_every_place();
    test_every_byte_and_the_length();
    test_numbers_beyond_255('+');
    test_numbers_beyond_255(':');
    return conclude("test_find_component");
}
