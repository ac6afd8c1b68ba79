/* Tests tracksaddle_read_piece and tracksaddle_read_end from the C side with long
 * messages: around 999,999 segments and 16,777,216 bytes, a number 4 that becomes 3,
 * and lengths beyond 32 bits and beyond those of the machine. test_pieces.c has short
 * ones. c/run_tests builds and runs this.
 */
#include "pieces_desk.h"

#include <time.h>

enum { BLOCK = 65536 };

static uint8_t *allocate_bytes(size_t length)
{
    uint8_t *bytes = malloc(length);
    if (bytes == NULL) {
        give_up("out of memory");
    }
    return bytes;
}

/* The limit of segments. */

/* So many times `AAA'`, and these bytes behind them, over a table of so many entries:
 * at once, in long pieces, and the last segments byte by byte. */
static void check_segments(struct source source, size_t segments, const char *behind,
                           size_t room, struct answer answer)
{
    static uint8_t bytes[MOST_STARTS * 4];
    struct slice text = {bytes, segments * one_segment.length + strlen(behind)};
    struct numbers at_once;
    for (size_t i = 0; i < segments; i++) {
        memcpy(bytes + i * one_segment.length, one_segment.bytes, one_segment.length);
    }
    memcpy(bytes + segments * one_segment.length, behind, strlen(behind));
    look_at(&whole, text);
    check_oracle(source, text, room, answer);
    cut_nowhere(text.length, room);
    at_once = check_cut(source, text);
    cut_every(text.length, 9 * BLOCK + 1, room);
    check_same(source, text, at_once, check_cut(source, text));
    cut_by_mask(text.length - 10, text.length, ~0u, room);
    check_same(source, text, at_once, check_cut(source, text));
}

static void test_the_most_segments(void)
{
    const struct answer too_many = {5, 0};
    check_segments(HERE, 999999, "", 999999, (struct answer){0, 999999});
    check_segments(HERE, 999999, "", 1000002, (struct answer){0, 999999});
    check_segments(HERE, 999999, "", 999998, (struct answer){6, 999999});
    check_segments(HERE, 999999, "", 0, (struct answer){6, 999999});
    check_segments(HERE, 1000000, "", 999999, too_many);
    check_segments(HERE, 1000000, "", 1000000, too_many);
    check_segments(HERE, 1000000, "", 0, too_many);
    check_segments(HERE, 1000003, "", MOST_STARTS, too_many);
    check_segments(HERE, 1000000, "B\n", 1000001, (struct answer){4, 4000001});
}

/* A segment count held in 16 bits, 01's fault, would be 8 here. */
static void test_65544_segments(void)
{
    check_segments(HERE, 65544, "", 65544, (struct answer){0, 65544});
    check_segments(HERE, 65544, "", 65543, (struct answer){6, 65544});
}

/* The limit of bytes. */

/* A head whose second segment is open, data in it up to eight bytes before the limit,
 * and an ending. */
#define HEAD "AAA'BBB+x"
enum { HEAD_LENGTH = 9, ENDING_AT = LIMIT_BYTES - 8, DATA = ENDING_AT - HEAD_LENGTH };
enum { LONGEST_ENDING = 16, ROOM = 4 };

static uint32_t moved(uint32_t offset)
{
    return offset < HEAD_LENGTH ? offset : offset + DATA;
}

/* The oracle looks at head and ending alone: the data moves offsets, and some segments
 * behind the limit. */
static void look_at_ending(const char *ending)
{
    char text[HEAD_LENGTH + LONGEST_ENDING];
    size_t within = 0;
    int length = snprintf(text, sizeof text, HEAD "%s", ending);
    look_at(&whole, (struct slice){(const uint8_t *)text, (size_t)length});
    whole.length += DATA;
    whole.reached += DATA;
    for (size_t i = 0; i < whole.told; i++) {
        whole.starts[i] = moved(whole.starts[i]);
        whole.ends[i] = moved(whole.ends[i]);
        within += whole.ends[i] < LIMIT_BYTES;
    }
    whole.told = within;
}

/* From these numbers before the ending on, in every way to cut it. */
static void check_ending(struct source source, uint8_t *bytes, struct numbers before,
                         const char *ending, uint32_t number, uint32_t place)
{
    size_t length = ENDING_AT + strlen(ending);
    struct slice text = {bytes, length};
    struct desk desk = open_desk(source, text, ROOM);
    struct numbers byte_by_byte;
    memcpy(bytes + ENDING_AT, ending, strlen(ending));
    look_at_ending(ending);
    check_oracle(source, text, ROOM, (struct answer){number, place});
    cut_with_empty_pieces(ENDING_AT, length, ROOM);
    byte_by_byte = read_as_cut(&desk, before, ENDING_AT);
    for (unsigned mask = 0; mask < masks_of(strlen(ending)); mask++) {
        cut_by_mask(ENDING_AT, length, mask, ROOM);
        check_same(source, text, byte_by_byte, read_as_cut(&desk, before, ENDING_AT));
    }
}

/* The whole message at once, and with the limit within the second piece. */
static void check_at_once(struct source source, uint8_t *bytes, const char *ending)
{
    struct slice text = {bytes, ENDING_AT + strlen(ending)};
    struct numbers at_once;
    memcpy(bytes + ENDING_AT, ending, strlen(ending));
    look_at_ending(ending);
    cut_nowhere(text.length, ROOM);
    at_once = check_cut(source, text);
    cut_by_mask(ENDING_AT - 1, text.length, 1, ROOM);
    check_same(source, text, at_once, check_cut(source, text));
}

static struct numbers check_head(struct slice head)
{
    struct numbers in_blocks;
    look_at_ending("");
    cut_every(head.length, BLOCK, ROOM);
    in_blocks = check_cut(HERE, head);
    cut_nowhere(head.length, ROOM);
    check_same(HERE, head, check_cut(HERE, head), in_blocks);
    return in_blocks;
}

static void test_the_most_bytes(void)
{
    static const struct {
        const char *bytes;
        struct answer answer;
    } endings[] = {
        {"", {4, LIMIT_BYTES - 8}},
        {"\n", {4, LIMIT_BYTES - 8}},
        {"'", {0, 2}},
        {"xxxxxxx", {4, LIMIT_BYTES - 1}},
        {"xxxxxx'", {0, 2}},
        /* As long as a message may be. */
        {"xxxxxxx'", {0, 2}},
        {"xxx'CCC'", {0, 3}},
        {"x?''CCC'", {0, 3}},
        {"xxxxxxxx", {4, LIMIT_BYTES}},
        {"xxxxxxx?", {4, LIMIT_BYTES}},
        {"xxxxxx?'", {4, LIMIT_BYTES}},
        {"xxxxxxx\n", {4, LIMIT_BYTES - 1}},
        {"xxxxxx+'", {4, LIMIT_BYTES - 1}},
        {"xxx\nxxx'", {4, LIMIT_BYTES - 5}},
        {"xxx'CCCC", {4, LIMIT_BYTES - 1}},
        {"xxx'\nCC'", {4, LIMIT_BYTES - 4}},
        /* Longer. */
        {"xxxxxxxxx", {3, 0}},
        {"xxxxxxxx'", {3, 0}},
        {"xxxxxxx?'", {3, 0}},
        {"xxxxxxx'C", {3, 0}},
        {"xxxxxxx'\n", {3, 0}},
        {"xxxx'CCC'", {3, 0}},
        {"xxx'CCC'D", {3, 0}},
        {"xxx\nxxxx'", {3, 0}},
        {"\nxxxxxxx'", {3, 0}},
        {"xxxxxxx'CCC'", {3, 0}},
        {"xxx'CCC'DDD'", {3, 0}},
        {"xxxxxxxx'CC", {3, 0}},
    };
    uint8_t *bytes = allocate_bytes(ENDING_AT + LONGEST_ENDING);
    struct numbers before;
    memset(bytes, 'x', ENDING_AT);
    memcpy(bytes, HEAD, HEAD_LENGTH);
    before = check_head((struct slice){bytes, ENDING_AT});
    for (size_t i = 0; i < sizeof endings / sizeof endings[0]; i++) {
        check_ending(HERE, bytes, before, endings[i].bytes, endings[i].answer.number,
                     endings[i].answer.place);
    }
    check_at_once(HERE, bytes, "xxx'CCC'");
    check_at_once(HERE, bytes, "xxx'CCC'D");
    check_at_once(HERE, bytes, "xxxx'CCC'");
    free(bytes);
}

/* 524,288 segments make up the most bytes; then one byte more. */
static void test_a_long_text(void)
{
    const char repeated[] = "LIN+1++9990?'10\?\?00160:Z02::293'";
    const size_t length = sizeof repeated - 1;
    uint8_t *bytes = allocate_bytes(LIMIT_BYTES + length);
    struct slice text = {bytes, LIMIT_BYTES};
    for (size_t at = 0; at <= LIMIT_BYTES; at += length) {
        memcpy(bytes + at, repeated, length);
    }
    look_at(&whole, text);
    check_oracle(HERE, text, LIMIT_SEGMENTS, (struct answer){0, 524288});
    cut_every(text.length, 999983, LIMIT_SEGMENTS);
    check_cut(HERE, text);
    whole.length = ++text.length;
    check_oracle(HERE, text, LIMIT_SEGMENTS, (struct answer){3, 0});
    cut_every(text.length, 999979, LIMIT_SEGMENTS);
    check_cut(HERE, text);
    free(bytes);
}

/* A bad byte is a 4 for as long as the message is not too long. At each length a copy
 * of the numbers is ended, and the message itself goes on. */
static void test_a_4_that_becomes_3(void)
{
    const char *const head = "AAA'B\nB'CCC'";
    const size_t lengths[] = {6,           7,           BLOCK,
                              16777215,    LIMIT_BYTES, 16777217,
                              16777218,    33554432,    33554433,
                              4 * (size_t)LIMIT_BYTES};
    uint8_t *bytes = allocate_bytes(4 * (size_t)LIMIT_BYTES);
    struct desk desk = open_desk(HERE, (struct slice){bytes, strlen(head)}, 3);
    memset(bytes, 'x', 4 * (size_t)LIMIT_BYTES);
    memcpy(bytes, head, strlen(head));
    look_at(&whole, desk.text);
    begin(&desk, not_yet_begun, 0);
    for (size_t i = 0; i < sizeof lengths / sizeof lengths[0]; i++) {
        struct numbers numbers;
        read_piece(&desk, (struct slice){bytes + desk.come, lengths[i] - desk.come}, 3);
        numbers = numbers_on(&desk);
        read_end(&desk, lengths[i] > LIMIT_BYTES ? (struct answer){3, 0}
                                                 : (struct answer){4, 5});
        clear_record(&desk);
        put_numbers(&desk, numbers);
    }
    free(bytes);
}

/* Lengths never restart. Pages that nobody touches take no memory; their zeros are bad
 * bytes. */
#if SIZE_MAX > 0xFFFFFFFF

static struct slice map_zeros(int bits)
{
    size_t length = (size_t)1 << bits;
    void *bytes = mmap(NULL, length, PROT_READ,
                       MAP_PRIVATE | MAP_ANONYMOUS | MAP_NORESERVE, -1, 0);
    return (struct slice){bytes, bytes == MAP_FAILED ? 0 : length};
}

/* A message that has gone wrong, or that is good and as long as it may be; and behind
 * it as many bytes as a count may take for none. */
static void check_restart(struct source source, struct slice message,
                          struct slice zeros, size_t pieces)
{
    struct desk desk = open_desk(source, message, 1);
    look_at(&whole, message);
    begin(&desk, not_yet_begun, 0);
    read_piece(&desk, message, 1);
    for (size_t i = 0; i < pieces; i++) {
        read_piece(&desk, zeros, 1);
    }
    read_end(&desk, (struct answer){3, 0});
}

static void check_restarts(struct source source, struct slice zeros, size_t pieces)
{
    uint8_t *bytes = allocate_bytes(LIMIT_BYTES);
    memset(bytes, 'x', LIMIT_BYTES);
    check_restart(source, (struct slice){bytes, 10}, zeros, pieces);
    memcpy(bytes, "AAA+", 4);
    bytes[LIMIT_BYTES - 1] = '\'';
    check_restart(source, (struct slice){bytes, LIMIT_BYTES}, zeros, pieces);
    free(bytes);
}

static void test_lengths_beyond_32_bits(void)
{
    struct slice zeros = map_zeros(32);
    if (zeros.length == 0) {
        printf("test_pieces_limits: no piece beyond 32 bits can be lent here\n");
        return;
    }
    check_restarts(HERE, zeros, 1);
    check_restarts(HERE, (struct slice){zeros.bytes, zeros.length / 4}, 4);
    munmap((void *)zeros.bytes, zeros.length);
}

/* In the longest pieces that can be lent here. */
static void test_lengths_beyond_64_bits(void)
{
    int bits = 46;
    struct slice zeros = map_zeros(bits);
    while (zeros.length == 0 && bits > 42) {
        zeros = map_zeros(--bits);
    }
    if (zeros.length == 0) {
        printf("test_pieces_limits: no piece of 4 TiB can be lent here\n");
        return;
    }
    check_restarts(HERE, zeros, (size_t)1 << (64 - bits));
    munmap((void *)zeros.bytes, zeros.length);
}

/* 2^64 bytes can be tried if those that no longer matter are passed over, which the
 * header does not promise. */
static void test_lengths_that_restart_nowhere(void)
{
    clock_t start = clock();
    test_lengths_beyond_32_bits();
    if (clock() - start < 2 * CLOCKS_PER_SEC) {
        test_lengths_beyond_64_bits();
    } else {
        printf("test_pieces_limits: 2^64 bytes would take too long here\n");
    }
}

/* As many numbers as are eight in 32 bits, and all of them lent. */
static void test_a_state_beyond_32_bits(void)
{
    const size_t length = (size_t)0xFFFFFFFF + 1 + READING;
    const size_t bytes = (MARGIN + length) * sizeof(size_t);
    struct desk desk = open_desk(HERE, one_segment, 1);
    size_t *numbers = mmap(NULL, bytes, PROT_READ | PROT_WRITE,
                           MAP_PRIVATE | MAP_ANONYMOUS | MAP_NORESERVE, -1, 0);
    if (numbers == MAP_FAILED) {
        printf("test_pieces_limits: no state beyond 32 bits can be lent here\n");
        return;
    }
    look_at(&whole, one_segment);
    desk.reading = numbers + MARGIN;
    begin(&desk, not_yet_begun, 0);
    check_number(&desk, "a piece's answer", TRACKSADDLE_NO_STATE,
                 give_piece(&desk, length, one_segment, 1));
    check_number(&desk, "the answer", TRACKSADDLE_NO_STATE, give_end(&desk, length));
    check_tables(&desk);
    check_numbers(&desk, "reading", not_yet_begun, numbers_on(&desk));
    munmap(numbers, bytes);
}

#endif

int main(void)
{
    test_65544_segments();
    test_the_most_segments();
    test_the_most_bytes();
    test_a_long_text();
    test_a_4_that_becomes_3();
#if SIZE_MAX > 0xFFFFFFFF
    test_lengths_that_restart_nowhere();
    test_a_state_beyond_32_bits();
#endif
    return conclude("test_pieces_limits");
}
