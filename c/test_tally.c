/* Tests tracksaddle_tally_add and tracksaddle_tally_clear from the C side: every
 * answer of the header over lent bytes of every length up to 130 between canaries,
 * counts at which a carry goes over one byte or more, and long histories of calls
 * beside counts that are kept here. c/run_tests builds and runs this.
 */
#include "testing.h"

#include "tracksaddle.h"

enum { ADDED = 0, WRONG_LENGTH = 1, NO_SUCH_NUMBER = 2, COUNT_IS_FULL = 3 };
enum { CLEARED = 0 };
enum { COUNTS = 16, COUNT_BYTES = 4 };
/* Behind a tally there is room for what the longest length lends beyond it. */
enum { LONGEST = 130, MARGIN = 72, ADDRESSES = 8 };
enum { ROOM = MARGIN + ADDRESSES + LONGEST + MARGIN };

static const uint64_t full = 4294967295;

/* A wrong archive fails thousands of checks: the first ones tell enough. */
enum { MOST_PRINTED = 20 };

/* What is asked: to add this number, or to clear. */
struct call {
    enum { ADD, CLEAR } kind;
    uint32_t number;
};

static struct call add(size_t number)
{
    return (struct call){ADD, (uint32_t)number};
}

static struct call clear(void)
{
    return (struct call){CLEAR, 0};
}

/* One call, the bytes that it is lent, and the right answer. */
struct trial {
    struct source source;
    struct call call;
    struct slice lent;
    uint32_t answer;
};

/* Bytes between canaries. */
struct image {
    uint8_t bytes[ROOM];
    size_t before;
    size_t length;
};

/* No canary is 0 or like the one beside it, and at each address they are others. */
static struct image surround(struct slice slice, size_t before, size_t behind)
{
    struct image image = {.before = before, .length = before + slice.length + behind};
    for (size_t i = 0; i < image.length; i++) {
        image.bytes[i] = (uint8_t)(1 + i % 0xFF);
    }
    memcpy(image.bytes + before, slice.bytes, slice.length);
    return image;
}

/* Checks. */

static void print_trial(const struct trial *trial)
{
    struct slice lent = trial->lent;
    printf("%s:%d: ", trial->source.file, trial->source.line);
    if (trial->call.kind == ADD) {
        printf("adding %u to %zu bytes:", (unsigned)trial->call.number, lent.length);
    } else {
        printf("clearing %zu bytes:", lent.length);
    }
    for (size_t i = 0; i < lent.length && i < LONGEST; i++) {
        printf(" %02X", lent.bytes[i]);
    }
    printf("%s\n", lent.length > LONGEST ? " ..." : "");
}

static void report(const struct trial *trial, const char *what, unsigned expected,
                   unsigned found)
{
    checks_failed++;
    if (checks_failed > MOST_PRINTED) {
        return;
    }
    print_trial(trial);
    printf("  %s should be %u and is %u\n", what, expected, found);
}

/* Makes the call on the lent bytes, which lie here. */
static uint32_t check_answer(const struct trial *trial, uint8_t *tally)
{
    size_t length = trial->lent.length;
    uint32_t answer = trial->call.kind == ADD
                          ? tracksaddle_tally_add(tally, length, trial->call.number)
                          : tracksaddle_tally_clear(tally, length);
    checks_made++;
    if (answer != trial->answer) {
        report(trial, "the answer", trial->answer, answer);
    }
    return answer;
}

/* Every byte, the canaries too. The first wrong one is shown. */
static void check_memory(const struct trial *trial, const uint8_t *memory,
                         const struct image *left)
{
    char what[32];
    size_t at = 0;
    checks_made++;
    while (at < left->length && memory[at] == left->bytes[at]) {
        at++;
    }
    if (at < left->length) {
        snprintf(what, sizeof what, "byte %ld", (long)at - (long)left->before);
        report(trial, what, left->bytes[at], memory[at]);
    }
}

static void check_on_the_heap(const struct trial *trial, struct slice left)
{
    struct image expected = surround(left, 0, 0);
    struct slice copy = copy_to_the_heap(trial->lent);
    check_answer(trial, (uint8_t *)copy.bytes);
    check_memory(trial, copy.bytes, &expected);
    free_heap_copy(copy);
}

static void check_before_the_guard(const struct trial *trial, struct slice left)
{
    struct image expected = surround(left, MARGIN, 0);
    struct image given = surround(trial->lent, MARGIN, 0);
    struct slice copy =
        copy_before_the_guard((struct slice){given.bytes, given.length});
    check_answer(trial, (uint8_t *)copy.bytes + MARGIN);
    check_memory(trial, copy.bytes, &expected);
}

static void check_between_canaries(const struct trial *trial, struct slice left,
                                   size_t before)
{
    struct image expected = surround(left, before, MARGIN);
    struct image memory = surround(trial->lent, before, MARGIN);
    check_answer(trial, memory.bytes + before);
    check_memory(trial, memory.bytes, &expected);
}

/* The call on these bytes leaves those, wherever they lie. Of eight addresses in a
 * row four are odd. */
static void check(struct source source, struct call call, struct slice lent,
                  uint32_t answer, const uint8_t *left_bytes)
{
    struct trial trial = {source, call, lent, answer};
    struct slice left = {left_bytes, lent.length};
    check_on_the_heap(&trial, left);
    check_before_the_guard(&trial, left);
    for (size_t shift = 0; shift < ADDRESSES; shift++) {
        check_between_canaries(&trial, left, MARGIN + shift);
    }
}

static void check_refused(struct source source, struct call call, struct slice lent,
                          uint32_t answer)
{
    check(source, call, lent, answer, lent.bytes);
}

/* Bytes to lend. */

enum { ZEROS, ONES, MIXED, DISTINCT, PATTERNS };

static struct slice fill(uint8_t *bytes, size_t length, int pattern)
{
    const uint8_t repeated[DISTINCT] = {0x00, 0xFF, 0xA5};
    for (size_t i = 0; i < length; i++) {
        bytes[i] = pattern == DISTINCT ? (uint8_t)(i + 1) : repeated[pattern];
    }
    return (struct slice){bytes, length};
}

/* The digits of the count to the base 256, the lowest first. */
static void write_count(uint8_t *bytes, uint64_t count)
{
    for (int i = 0; i < COUNT_BYTES; i++) {
        bytes[i] = (uint8_t)(count % 256);
        count /= 256;
    }
}

static void write_counts(uint8_t *tally, const uint64_t *counts)
{
    for (int number = 0; number < COUNTS; number++) {
        write_count(tally + number * COUNT_BYTES, counts[number]);
    }
}

/* A tally of this pattern, but for one count. */
static struct slice fill_but_for(uint8_t *tally, int pattern, size_t number,
                                 uint64_t count)
{
    struct slice filled = fill(tally, TRACKSADDLE_TALLY, pattern);
    write_count(tally + number * COUNT_BYTES, count);
    return filled;
}

/* A fixed order that has no order: the upper bits of a linear congruence. */
static uint32_t next_random(void)
{
    static uint64_t state = 9735;
    state = state * 6364136223846793005u + 1442695040888963407u;
    return (uint32_t)(state >> 32);
}

/* Up to the longest, but never a tally's. */
static size_t random_wrong_length(void)
{
    size_t length = next_random() % LONGEST;
    return length < TRACKSADDLE_TALLY ? length : length + 1;
}

/* Histories. */

/* One tally at an odd address, what it should hold after the calls so far, and how
 * many adds were answered 0 since it was cleared, or since it began with this sum. */
struct history {
    struct image memory;
    struct image expected;
    uint64_t counts[COUNTS];
    uint64_t begun;
    uint64_t accepted;
};

static void begin_history(struct history *history, const uint64_t *counts)
{
    uint8_t tally[TRACKSADDLE_TALLY];
    write_counts(tally, counts);
    history->memory =
        surround((struct slice){tally, TRACKSADDLE_TALLY}, MARGIN + 1, MARGIN);
    history->expected = history->memory;
    history->begun = 0;
    history->accepted = 0;
    for (int number = 0; number < COUNTS; number++) {
        history->counts[number] = counts[number];
        history->begun += counts[number];
    }
}

static uint8_t *tally_of(struct image *image)
{
    return image->bytes + image->before;
}

/* What a call that is not refused should have made of the tally. */
static void keep_count(struct history *history, struct call call)
{
    if (call.kind == ADD) {
        history->counts[call.number]++;
    } else {
        memset(history->counts, 0, sizeof history->counts);
    }
    write_counts(tally_of(&history->expected), history->counts);
}

/* What the archive itself says that it did. */
static void note_answer(struct history *history, struct call call, uint32_t answer)
{
    if (answer != 0) {
        return;
    }
    if (call.kind == ADD) {
        history->accepted++;
    } else {
        history->begun = 0;
        history->accepted = 0;
    }
}

/* The next call, which is lent so many bytes from the tally's first on. */
static void expect_over(struct source source, struct history *history, struct call call,
                        size_t length, uint32_t answer)
{
    uint8_t lent[LONGEST];
    struct trial trial = {source, call, {lent, length}, answer};
    memcpy(lent, tally_of(&history->memory), length);
    if (answer == 0) {
        keep_count(history, call);
    }
    note_answer(history, call, check_answer(&trial, tally_of(&history->memory)));
    check_memory(&trial, history->memory.bytes, &history->expected);
}

static void expect(struct source source, struct history *history, struct call call,
                   uint32_t answer)
{
    expect_over(source, history, call, TRACKSADDLE_TALLY, answer);
}

/* The sum of all counts is as many as adds were answered 0, besides what it was. */
static void check_sum(struct source source, struct history *history)
{
    const uint64_t worth[COUNT_BYTES] = {1, 256, 65536, 16777216};
    uint64_t expected = history->begun + history->accepted;
    uint64_t sum = 0;
    for (int i = 0; i < TRACKSADDLE_TALLY; i++) {
        sum += tally_of(&history->memory)[i] * worth[i % COUNT_BYTES];
    }
    checks_made++;
    if (sum != expected) {
        checks_failed++;
        printf("%s:%d: the counts should sum up to %llu and sum up to %llu\n",
               source.file, source.line, (unsigned long long)expected,
               (unsigned long long)sum);
    }
}

/* The tests. */

static void test_the_length_in_the_header(void)
{
    checks_made++;
    if (TRACKSADDLE_TALLY != 64) {
        checks_failed++;
        printf("TRACKSADDLE_TALLY should be 64 and is %d\n", TRACKSADDLE_TALLY);
    }
}

/* The same four bytes as the count of each number. */
static void check_by_hand(struct source source, const uint8_t *count,
                          const uint8_t *one_more)
{
    for (size_t number = 0; number < COUNTS; number++) {
        uint8_t lent[TRACKSADDLE_TALLY];
        uint8_t left[TRACKSADDLE_TALLY];
        struct slice tally = fill(lent, TRACKSADDLE_TALLY, DISTINCT);
        fill(left, TRACKSADDLE_TALLY, DISTINCT);
        memcpy(lent + 4 * number, count, COUNT_BYTES);
        memcpy(left + 4 * number, one_more, COUNT_BYTES);
        check(source, add(number), tally, ADDED, left);
    }
}

/* Counts and what adding makes of them, put down by hand. */
static void test_counts_by_hand(void)
{
    static const struct {
        uint8_t count[COUNT_BYTES];
        uint8_t one_more[COUNT_BYTES];
    } by_hand[] = {
        {{0x00, 0x00, 0x00, 0x00}, {0x01, 0x00, 0x00, 0x00}},
        {{0xFE, 0x00, 0x00, 0x00}, {0xFF, 0x00, 0x00, 0x00}},
        {{0xFF, 0x00, 0x00, 0x00}, {0x00, 0x01, 0x00, 0x00}},
        {{0xFF, 0xFF, 0x00, 0x00}, {0x00, 0x00, 0x01, 0x00}},
        {{0xFF, 0xFF, 0xFF, 0x00}, {0x00, 0x00, 0x00, 0x01}},
        {{0xFF, 0xFF, 0xFF, 0x7F}, {0x00, 0x00, 0x00, 0x80}},
        {{0xFF, 0xFF, 0xFF, 0xFE}, {0x00, 0x00, 0x00, 0xFF}},
        {{0x00, 0xFF, 0xFF, 0xFF}, {0x01, 0xFF, 0xFF, 0xFF}},
        {{0xFF, 0x00, 0xFF, 0xFF}, {0x00, 0x01, 0xFF, 0xFF}},
        {{0xFF, 0xFF, 0x00, 0xFF}, {0x00, 0x00, 0x01, 0xFF}},
        {{0xFE, 0xFF, 0xFF, 0xFF}, {0xFF, 0xFF, 0xFF, 0xFF}},
        {{0x01, 0x02, 0x03, 0x04}, {0x02, 0x02, 0x03, 0x04}},
    };
    for (size_t i = 0; i < sizeof by_hand / sizeof by_hand[0]; i++) {
        check_by_hand(HERE, by_hand[i].count, by_hand[i].one_more);
    }
}

/* The count of a number becomes one more, and what lies beside it stays. */
static void check_added(struct source source, size_t number, uint64_t count)
{
    for (int pattern = ZEROS; pattern < PATTERNS; pattern++) {
        uint8_t lent[TRACKSADDLE_TALLY];
        uint8_t left[TRACKSADDLE_TALLY];
        struct slice tally = fill_but_for(lent, pattern, number, count);
        fill_but_for(left, pattern, number, count + 1);
        check(source, add(number), tally, ADDED, left);
    }
}

/* Carries over no byte, one, two and three, and counts of many sizes. */
static void test_every_carry(void)
{
    const uint64_t counts[] = {
        0,          1,          2,          127,        128,        254,
        255,        256,        257,        511,        512,        32767,
        32768,      65279,      65280,      65534,      65535,      65536,
        65537,      131071,     131072,     8388607,    16711679,   16711680,
        16776959,   16776960,   16777214,   16777215,   16777216,   16777217,
        33554431,   2147483646, 2147483647, 2147483648, 4278190079, 4278190080,
        4294901759, 4294901760, 4294967039, 4294967040, 4294967293, 4294967294,
    };
    for (size_t i = 0; i < sizeof counts / sizeof counts[0]; i++) {
        for (size_t number = 0; number < COUNTS; number++) {
            check_added(HERE, number, counts[i]);
        }
    }
}

static void test_full_counts(void)
{
    uint8_t bytes[TRACKSADDLE_TALLY];
    for (size_t number = 0; number < COUNTS; number++) {
        for (int pattern = ZEROS; pattern < PATTERNS; pattern++) {
            struct slice tally = fill_but_for(bytes, pattern, number, full);
            check_refused(HERE, add(number), tally, COUNT_IS_FULL);
        }
    }
}

/* No such number, whatever the counts are, full ones too. */
static void check_no_such_number(struct source source, size_t number)
{
    for (int pattern = ZEROS; pattern < PATTERNS; pattern++) {
        uint8_t bytes[TRACKSADDLE_TALLY];
        struct slice tally = fill(bytes, TRACKSADDLE_TALLY, pattern);
        check_refused(source, add(number), tally, NO_SUCH_NUMBER);
    }
}

static void test_small_numbers(void)
{
    for (size_t number = 0; number <= 40; number++) {
        if (number <= 15) {
            check_added(HERE, number, 40);
        } else {
            check_no_such_number(HERE, number);
        }
    }
}

/* They are a count's number in fewer bits, or their place is a count's: four times
 * 2^30, in 32 bits, is 0. */
static void test_numbers_that_wrap(void)
{
    const uint32_t bases[] = {
        0x10,       0x20,       0x30,       0x40,       0x80,       0xF0,
        0x100,      0x400,      0x1000,     0x8000,     0xFFF0,     0x10000,
        0x1000000,  0x10000000, 0x20000000, 0x3FFFFFF0, 0x40000000, 0x7FFFFFF0,
        0x80000000, 0xC0000000, 0xF0000000, 0xFFFF0000, 0xFFFFFF00, 0xFFFFFFF0,
    };
    for (size_t i = 0; i < sizeof bases / sizeof bases[0]; i++) {
        for (uint32_t rest = 0; rest < COUNTS; rest++) {
            check_no_such_number(HERE, bases[i] + rest);
        }
    }
}

/* Every call on bytes that are not as many as a tally has: wrong numbers and full
 * counts do not come before that. */
static void check_wrong_length(struct source source, struct slice lent)
{
    const uint32_t numbers[] = {0, 1, 7, 15, 16, 17, 255, 0x80000000, 0xFFFFFFFF};
    for (size_t i = 0; i < sizeof numbers / sizeof numbers[0]; i++) {
        check_refused(source, add(numbers[i]), lent, WRONG_LENGTH);
    }
    check_refused(source, clear(), lent, WRONG_LENGTH);
}

static void test_every_length(void)
{
    uint8_t bytes[LONGEST];
    for (size_t length = 0; length <= LONGEST; length++) {
        if (length == 64) {
            continue;
        }
        for (int pattern = ZEROS; pattern < PATTERNS; pattern++) {
            check_wrong_length(HERE, fill(bytes, length, pattern));
        }
    }
}

/* On the heap and before the guard alone. */
static void check_long(struct source source, struct call call, struct slice lent)
{
    struct trial trial = {source, call, lent, WRONG_LENGTH};
    struct slice on_the_heap = copy_to_the_heap(lent);
    struct slice guarded = copy_before_the_guard(lent);
    check_answer(&trial, (uint8_t *)on_the_heap.bytes);
    check_unchanged(source, on_the_heap, lent);
    free_heap_copy(on_the_heap);
    check_answer(&trial, (uint8_t *)guarded.bytes);
    check_unchanged(source, guarded, lent);
}

/* Multiples of a tally's length, and lengths that are one in 8 or 16 bits. */
static void test_lengths_that_wrap(void)
{
    const size_t lengths[] = {192,  256,   319,   320,   321,   576,    1024,
                              4160, 65536, 65599, 65600, 65601, 131136, 262144};
    static uint8_t bytes[LONGEST_LENT];
    for (size_t i = 0; i < sizeof lengths / sizeof lengths[0]; i++) {
        struct slice lent = fill(bytes, lengths[i], DISTINCT);
        check_long(HERE, add(0), lent);
        check_long(HERE, add(15), lent);
        check_long(HERE, add(16), lent);
        check_long(HERE, clear(), lent);
    }
}

#if SIZE_MAX > 0xFFFFFFFF
/* The length is a tally's in 32 bits. Pages that nobody touches take no memory. */
static void test_a_length_beyond_32_bits(void)
{
    const size_t length = (size_t)0xFFFFFFFF + 1 + TRACKSADDLE_TALLY;
    const struct call calls[] = {add(0), add(15), add(16), clear()};
    uint8_t tally[TRACKSADDLE_TALLY];
    struct slice original = fill(tally, TRACKSADDLE_TALLY, DISTINCT);
    uint8_t *bytes = mmap(NULL, length, PROT_READ | PROT_WRITE,
                          MAP_PRIVATE | MAP_ANONYMOUS | MAP_NORESERVE, -1, 0);
    if (bytes == MAP_FAILED) {
        printf("test_tally: no length beyond 32 bits can be lent here\n");
        return;
    }
    memcpy(bytes, tally, TRACKSADDLE_TALLY);
    for (size_t i = 0; i < sizeof calls / sizeof calls[0]; i++) {
        struct trial trial = {HERE, calls[i], {bytes, length}, WRONG_LENGTH};
        check_answer(&trial, bytes);
        check_unchanged(HERE, (struct slice){bytes, TRACKSADDLE_TALLY}, original);
    }
    munmap(bytes, length);
}
#endif

/* All counts are full: one byte too few or too many, then the number, then that. */
static void test_the_order_of_refusals(void)
{
    uint8_t bytes[LONGEST];
    const size_t numbers[] = {0, 5, 15, 16, 31, 64, 0xFFFFFFFF};
    for (size_t i = 0; i < sizeof numbers / sizeof numbers[0]; i++) {
        struct call call = add(numbers[i]);
        check_refused(HERE, call, fill(bytes, 63, ONES), WRONG_LENGTH);
        check_refused(HERE, call, fill(bytes, 65, ONES), WRONG_LENGTH);
        check_refused(HERE, call, fill(bytes, 64, ONES),
                      numbers[i] > 15 ? NO_SUCH_NUMBER : COUNT_IS_FULL);
    }
}

static const uint64_t no_counts[COUNTS] = {0};

static struct slice fill_at_random(uint8_t *tally)
{
    uint64_t counts[COUNTS];
    for (int number = 0; number < COUNTS; number++) {
        counts[number] = next_random();
    }
    write_counts(tally, counts);
    return (struct slice){tally, TRACKSADDLE_TALLY};
}

static void test_clearing(void)
{
    enum { RANDOM_TALLIES = 500 };
    uint8_t lent[TRACKSADDLE_TALLY];
    uint8_t left[TRACKSADDLE_TALLY];
    write_counts(left, no_counts);
    for (int pattern = ZEROS; pattern < PATTERNS; pattern++) {
        struct slice tally = fill(lent, TRACKSADDLE_TALLY, pattern);
        check(HERE, clear(), tally, CLEARED, left);
    }
    for (int i = 0; i < RANDOM_TALLIES; i++) {
        check(HERE, clear(), fill_at_random(lent), CLEARED, left);
    }
}

/* A count that has filled stays so, however often, and its neighbours go on. */
static void check_filling(size_t number)
{
    enum { ROUNDS = 300 };
    uint64_t counts[COUNTS] = {0};
    struct history history;
    counts[number] = full - 2;
    begin_history(&history, counts);
    expect(HERE, &history, add(number), ADDED);
    expect(HERE, &history, add(number), ADDED);
    for (int i = 0; i < ROUNDS; i++) {
        expect(HERE, &history, add(number), COUNT_IS_FULL);
        expect(HERE, &history, add((number + 1) % COUNTS), ADDED);
        expect(HERE, &history, add((number + COUNTS - 1) % COUNTS), ADDED);
    }
    check_sum(HERE, &history);
    expect(HERE, &history, clear(), CLEARED);
    expect(HERE, &history, add(number), ADDED);
    check_sum(HERE, &history);
}

static void test_filling_each_count(void)
{
    for (size_t number = 0; number < COUNTS; number++) {
        check_filling(number);
    }
}

/* A count held in 16 bits, 01's fault, would be 8 here. */
static void test_65544_verdicts(void)
{
    enum { VERDICTS = 65544 };
    static const uint8_t by_hand[TRACKSADDLE_TALLY] = {0x08, 0x00, 0x01, 0x00};
    struct history history;
    begin_history(&history, no_counts);
    for (int i = 0; i < VERDICTS; i++) {
        expect(HERE, &history, add(0), ADDED);
    }
    check_sum(HERE, &history);
    checks_made++;
    if (memcmp(tally_of(&history.memory), by_hand, sizeof by_hand) != 0) {
        checks_failed++;
        printf("%d verdicts of number 0 are not counted as that many\n", VERDICTS);
    }
}

static void expect_refusals(struct history *history)
{
    size_t number = next_random() % COUNTS;
    size_t no_number = COUNTS + next_random() % (0xFFFFFFFF - COUNTS);
    expect(HERE, history, add(no_number), NO_SUCH_NUMBER);
    expect_over(HERE, history, add(number), random_wrong_length(), WRONG_LENGTH);
    expect_over(HERE, history, add(no_number), random_wrong_length(), WRONG_LENGTH);
    expect_over(HERE, history, clear(), random_wrong_length(), WRONG_LENGTH);
}

static void expect_many_adds(struct history *history)
{
    enum { ADDS = 40000, BETWEEN_REFUSALS = 20 };
    for (int i = 0; i < ADDS; i++) {
        expect(HERE, history, add(next_random() % COUNTS), ADDED);
        if (i % BETWEEN_REFUSALS == 0) {
            expect_refusals(history);
        }
    }
    check_sum(HERE, history);
}

/* From counts before a carry, and again after each clearing. Every count gets some
 * 2,500 more, so that none is full. */
static void test_a_long_history(void)
{
    const uint64_t counts[COUNTS] = {
        0,        200,      255,      65000,      65279,    65535,
        65536,    131000,   16711000, 16776000,   16777215, 33554000,
        83886079, 83886080, 99999999, 4294960000,
    };
    struct history history;
    begin_history(&history, counts);
    expect_many_adds(&history);
    for (int day = 0; day < 2; day++) {
        expect(HERE, &history, clear(), CLEARED);
        check_sum(HERE, &history);
        expect_many_adds(&history);
    }
}

int main(void)
{
    test_the_length_in_the_header();
    test_counts_by_hand();
    test_every_carry();
    test_full_counts();
    test_small_numbers();
    test_numbers_that_wrap();
    test_every_length();
    test_lengths_that_wrap();
#if SIZE_MAX > 0xFFFFFFFF
    test_a_length_beyond_32_bits();
#endif
    test_the_order_of_refusals();
    test_clearing();
    test_filling_each_count();
    test_65544_verdicts();
    test_a_long_history();
    return conclude("test_tally");
}
