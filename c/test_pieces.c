/* Tests tracksaddle_read_piece and tracksaddle_read_end from the C side, beside an
 * oracle that has the whole text before it: every cut of every short text, random
 * cuts of longer ones, tables that grow and shrink, records of 0 to 8 entries, calls
 * of wrong length, calls behind the end, messages beside each other, and any numbers
 * as a state. test_pieces_limits.c goes on with long messages. c/run_tests builds and
 * runs both.
 */
#include "pieces_desk.h"

/* Every way to cut the text that was looked at, with a table of so many entries. */
static void check_every_cut(struct source source, struct slice text, size_t room)
{
    struct numbers at_once;
    cut_nowhere(text.length, room);
    at_once = check_cut(source, text);
    for (unsigned mask = 1; mask < masks_of(text.length); mask++) {
        cut_by_mask(0, text.length, mask, room);
        check_same(source, text, at_once, check_cut(source, text));
    }
    cut_with_empty_pieces(0, text.length, room);
    check_same(source, text, at_once, check_cut(source, text));
}

/* Cuts at regular distances, with everything before guards. */
static void check_guarded_cuts(struct source source, struct slice text, size_t room)
{
    struct numbers at_once;
    cut_nowhere(text.length, room);
    at_once = check_guarded_cut(source, text);
    for (size_t step = 1; step < text.length; step++) {
        cut_every(text.length, step, room);
        check_same(source, text, at_once, check_guarded_cut(source, text));
    }
}

static struct slice slice_of(const char *text)
{
    return (struct slice){(const uint8_t *)text, strlen(text)};
}

/* A fixed order that has no order: the upper bits of a linear congruence. */
static uint32_t next_random(void)
{
    static uint64_t state = 9735;
    state = state * 6364136223846793005u + 1442695040888963407u;
    return (uint32_t)(state >> 32);
}

static size_t random_below(size_t bound)
{
    return next_random() % bound;
}

/* Answers by hand. */

static void check_constant(const char *name, uint32_t expected, uint32_t found)
{
    struct desk desk = {.source = HERE, .text = no_bytes};
    check_number(&desk, name, expected, found);
}

static void test_the_constants_in_the_header(void)
{
    check_constant("TRACKSADDLE_READING", 8, TRACKSADDLE_READING);
    check_constant("TRACKSADDLE_GOES_ON", 4294967295u, TRACKSADDLE_GOES_ON);
    check_constant("TRACKSADDLE_NO_STATE", 4294967294u, TRACKSADDLE_NO_STATE);
}

static void check_by_hand(struct source source, const char *bytes, size_t room,
                          uint32_t number, uint32_t place)
{
    struct slice text = slice_of(bytes);
    look_at(&whole, text);
    check_oracle(source, text, room, (struct answer){number, place});
    check_every_cut(source, text, room);
    check_guarded_cuts(source, text, room);
}

#define BY_HAND(text, room, number, place) \
    check_by_hand(HERE, text, room, number, place)

static void test_answers_by_hand(void)
{
    BY_HAND("", 0, 3, 0);
    BY_HAND("", 9, 3, 0);
    BY_HAND("UNH+1", 9, 4, 5);
    BY_HAND("UNH+1?A'", 9, 4, 6);
    BY_HAND("UNS'", 9, 0, 1);
    BY_HAND("UNS'", 1, 0, 1);
    BY_HAND("UNS'", 0, 6, 1);
    BY_HAND("UNH+1'UNT+2'", 2, 0, 2);
    BY_HAND("UNH+1'UNT+2'", 1, 6, 2);
    BY_HAND("UNH+1'UNT+2'", 0, 6, 2);
    BY_HAND("UNH+1'UNT+2", 0, 4, 11);
    BY_HAND("UNH+1'\nUNT'", 1, 4, 6);
    BY_HAND("UNH+1'UNT'\n", 0, 4, 10);
    BY_HAND("A\xE4", 0, 4, 1);
}

/* Each ? of a pair is written \?: C reads two of them before a quote as another
 * character. */
static void test_release_and_separators_by_hand(void)
{
    BY_HAND("AAA+?''BBB'", 2, 0, 2);
    BY_HAND("AAA+\?\?'BBB'", 2, 0, 2);
    BY_HAND("AAA+\?\?\?''BB'", 2, 4, 11);
    BY_HAND("AAA+?'BBB'", 2, 0, 1);
    BY_HAND("AAA+?", 2, 4, 5);
    BY_HAND("AAA+:'", 2, 4, 5);
    BY_HAND("AAA+x:+y'", 2, 4, 6);
    BY_HAND("AAA+x:?:+y'", 2, 0, 1);
    BY_HAND("AAA+x:?:+'", 2, 4, 9);
    BY_HAND("AAA+++x'", 2, 0, 1);
    BY_HAND("AAA+:x::y'", 2, 0, 1);
    BY_HAND("AAA?'", 2, 4, 3);
}

/* Short texts. */

/* Bytes that lead into every state: of tags, marks, data alone, and a bad one. */
static const uint8_t alphabet[] = {'A', '+', ':', '\'', '?', 'x', '\n'};
enum { LONGEST_OF_ALL = 5, LONGEST_SHORT = 8 };

/* This text, and longer ones that begin with it: all up to a length, and then those
 * in which at most one byte stands behind the first bad one. */
static void check_texts_from(uint8_t *bytes, size_t length)
{
    struct slice text = {bytes, length};
    look_at(&whole, text);
    for (size_t room = whole.told == 0; room <= whole.told + 1; room++) {
        check_every_cut(HERE, text, room);
    }
    if (length == LONGEST_SHORT ||
        (length >= LONGEST_OF_ALL && length > whole.reached + 1)) {
        return;
    }
    for (size_t i = 0; i < sizeof alphabet; i++) {
        bytes[length] = alphabet[i];
        check_texts_from(bytes, length + 1);
    }
}

static void test_every_cut_of_every_short_text(void)
{
    uint8_t bytes[LONGEST_SHORT];
    check_texts_from(bytes, 0);
}

/* The text in the pattern with its `*` replaced by the byte. */
static void check_byte(struct source source, const char *pattern, int byte)
{
    uint8_t bytes[16];
    struct slice text = {bytes, strlen(pattern)};
    size_t at = strcspn(pattern, "*");
    memcpy(bytes, pattern, text.length);
    bytes[at] = (uint8_t)byte;
    look_at(&whole, text);
    check_guarded_cuts(source, text, 2);
    cut_count = 0;
    cut_at(at, 2);
    cut_at(at + 1, 2);
    cut_at(text.length, 2);
    check_cut(source, text);
}

/* Every byte between two cuts, and amid a piece, in every state. */
static void test_every_byte_in_every_state(void)
{
    const char *const patterns[] = {"*AA'",     "A*A'",    "AA*'",     "AAA*x'",
                                    "AAA+*x'",  "AAA+x*'", "AAA+x:*'", "AAA+x:*y'",
                                    "AAA+x+*'", "AAA+?*'", "AAA'*BB'", "A\n*'"};
    for (size_t i = 0; i < sizeof patterns / sizeof patterns[0]; i++) {
        for (int byte = 0; byte <= 0xFF; byte++) {
            check_byte(HERE, patterns[i], byte);
        }
    }
}

/* Random texts. */

enum { SHORT_TEXT = 200, LONG_TEXT = 4000, LONGEST_SEGMENT = 3 + 6 * (1 + 6 * 2) + 1 };

static uint8_t random_data(void)
{
    uint8_t byte;
    do {
        byte = (uint8_t)next_random();
    } while (!is_data(byte));
    return byte;
}

/* A good segment, and its length. */
static size_t write_segment(uint8_t *bytes)
{
    size_t at = 0;
    size_t components = random_below(6);
    while (at < TAG) {
        bytes[at++] = (uint8_t)"ABCMXYZ01289"[random_below(12)];
    }
    for (size_t i = 0; i < components; i++) {
        bytes[at++] = (uint8_t)(i == 0 || random_below(2) == 0 ? '+' : ':');
        for (size_t left = 1 + random_below(6); left > 0; left--) {
            uint8_t byte = random_below(6) == 0 ? '\'' : random_data();
            if (is_mark(byte)) {
                bytes[at++] = '?';
            }
            bytes[at++] = byte;
        }
    }
    bytes[at++] = '\'';
    return at;
}

/* Good segments. In a quarter of the texts a byte is replaced; of others the end is
 * missing. The next text replaces it. */
static struct slice random_text(void)
{
    static uint8_t bytes[LONG_TEXT + LONGEST_SEGMENT];
    size_t wanted = random_below(random_below(8) == 0 ? LONG_TEXT : SHORT_TEXT);
    size_t length = 0;
    while (length < wanted) {
        length += write_segment(bytes + length);
    }
    if (length > 0 && random_below(4) == 0) {
        bytes[random_below(length)] = (uint8_t)next_random();
    } else if (random_below(3) == 0) {
        length -= random_below(length + 1);
    }
    return (struct slice){bytes, length};
}

/* The same table in all calls; one that grows; another one in each. */
enum { SAME, GROWING, OTHER, ROOM_KINDS };

static size_t random_room(int kind, size_t before)
{
    if (kind == OTHER) {
        return random_below(2) == 0 ? whole.told : random_below(whole.told + 4);
    }
    return kind == GROWING ? before + random_below(3) : before;
}

static void cut_at_random(size_t length, int kind)
{
    const size_t longest[] = {2, 3, 8, 100, LONG_TEXT};
    size_t longest_here = longest[random_below(sizeof longest / sizeof longest[0])];
    size_t room = random_room(OTHER, 0);
    cut_count = 0;
    for (size_t at = 0; at < length; at += random_below(longest_here)) {
        room = random_room(kind, room);
        cut_at(at, room);
    }
    cut_at(length, random_room(kind, room));
}

static void check_random_cuts(struct source source, struct slice text)
{
    look_at(&whole, text);
    for (int kind = SAME; kind < ROOM_KINDS; kind++) {
        struct numbers numbers;
        cut_at_random(text.length, kind);
        numbers = check_guarded_cut(source, text);
        check_same(source, text, numbers, check_cut(source, text));
        if (kind == SAME) {
            cut_nowhere(text.length, longest_room());
            check_same(source, text, numbers, check_cut(source, text));
        }
    }
}

static void test_random_cuts(void)
{
    enum { TEXTS = 1500 };
    for (int i = 0; i < TEXTS; i++) {
        check_random_cuts(HERE, random_text());
    }
}

/* Three segments, each in a call of its own with a table of its own, and one call more:
 * 6 is answered if one of them found no entry. */
static void check_rooms(struct source source, size_t first, size_t second, size_t third,
                        size_t last, uint32_t number)
{
    struct slice text = slice_of("AAA'BBB'CCC'");
    struct desk desk;
    look_at(&whole, text);
    cut_count = 0;
    cut_at(4, first);
    cut_at(8, second);
    cut_at(12, third);
    cut_at(12, last);
    desk = open_desk(source, text, longest_room());
    read_as_cut(&desk, not_yet_begun, 0);
    check_number(&desk, "the oracle's number", number,
                 answer_of(&whole, desk.is_lacking).number);
}

static void test_tables_that_grow_and_shrink(void)
{
    check_rooms(HERE, 1, 2, 3, 0, 0);
    check_rooms(HERE, 3, 3, 3, 3, 0);
    check_rooms(HERE, 9, 2, 3, 1, 0);
    check_rooms(HERE, 0, 3, 3, 3, 6);
    check_rooms(HERE, 1, 1, 3, 3, 6);
    check_rooms(HERE, 1, 1, 3, 99, 6);
    check_rooms(HERE, 3, 3, 2, 3, 6);
    check_rooms(HERE, 3, 3, 0, 99, 6);
    check_rooms(HERE, 0, 0, 0, 99, 6);
}

/* Empty pieces wherever they point, with tables of any length: nothing changes. */
static void test_empty_pieces_anywhere(void)
{
    const struct slice text = slice_of("AAA+?'x:y'BBB'C");
    const uint8_t *const pointers[] = {map_guarded_pages(), text.bytes,
                                       (const uint8_t *)1, (const uint8_t *)SIZE_MAX};
    struct desk desk = open_desk(HERE, text, 3);
    look_at(&whole, text);
    begin(&desk, not_yet_begun, 0);
    for (size_t at = 0; at <= text.length; at++) {
        for (size_t i = 0; i < sizeof pointers / sizeof pointers[0]; i++) {
            struct numbers before = numbers_on(&desk);
            read_piece(&desk, (struct slice){pointers[i], 0}, i);
            check_numbers(&desk, "behind an empty piece reading", before,
                          numbers_on(&desk));
        }
        if (at < text.length) {
            read_piece(&desk, (struct slice){text.bytes + at, 1}, 2);
        }
    }
    read_end(&desk, (struct answer){4, 15});
}

/* Wrong lengths of the state: nothing changes, and they count for nothing. */

static void check_wrong_length(struct desk *desk, size_t length)
{
    const struct slice pieces[] = {one_segment, bad_byte, no_bytes};
    struct numbers before = numbers_on(desk);
    for (size_t i = 0; i < sizeof pieces / sizeof pieces[0]; i++) {
        check_number(desk, "the answer to a piece and a wrong length",
                     TRACKSADDLE_NO_STATE, give_piece(desk, length, pieces[i], 2));
    }
    check_number(desk, "the answer to an end and a wrong length", TRACKSADDLE_NO_STATE,
                 give_end(desk, length));
    check_tables(desk);
    check_numbers(desk, "with a wrong length reading", before, numbers_on(desk));
}

/* Some of the long ones are 8 in fewer bits, or their bytes are 64. */
static void check_wrong_lengths(struct desk *desk)
{
    const size_t long_ones[] = {
        17, 64, 255, 256, 264, 65536, 65544, 0x7FFFFFFF, 0x80000008, 0xFFFFFFFF,
#if SIZE_MAX > 0xFFFFFFFF
        (size_t)0xFFFFFFFF + 1, (size_t)0xFFFFFFFF + 9, ((size_t)1 << 61) + 8,
#endif
        SIZE_MAX / 2, SIZE_MAX / 2 + 9, SIZE_MAX - 7, SIZE_MAX};
    for (size_t length = 0; length <= WIDEST_READING; length++) {
        if (length != 8) {
            check_wrong_length(desk, length);
        }
    }
    for (size_t i = 0; i < sizeof long_ones / sizeof long_ones[0]; i++) {
        check_wrong_length(desk, long_ones[i]);
    }
}

/* Before the first byte, behind each one, and behind the end. */
static void test_wrong_lengths(void)
{
    const struct slice text = slice_of("AAA+?'x:y'BBB'");
    const struct answer answer = {0, 2};
    struct desk desk = open_desk(HERE, text, 3);
    look_at(&whole, text);
    begin(&desk, not_yet_begun, 0);
    check_wrong_lengths(&desk);
    for (size_t at = 0; at < text.length; at++) {
        read_piece(&desk, (struct slice){text.bytes + at, 1}, 3);
        check_wrong_lengths(&desk);
    }
    read_end(&desk, answer);
    check_wrong_lengths(&desk);
    clear_record(&desk);
    check_wrong_lengths(&desk);
    check_behind_the_end(&desk, answer);
}

/* Fewer than eight numbers, and none behind them may be looked at. */
static void test_short_states_before_a_guard(void)
{
    struct desk desk = open_desk(HERE, one_segment, 1);
    size_t *guard = (size_t *)map_guarded_pages();
    for (size_t length = 0; length < READING; length++) {
        desk.reading = guard - length;
        check_number(&desk, "the answer to a piece and a short state",
                     TRACKSADDLE_NO_STATE, give_piece(&desk, length, one_segment, 1));
        check_number(&desk, "the answer to an end and a short state",
                     TRACKSADDLE_NO_STATE, give_end(&desk, length));
    }
}

/* Records of every length, for each answer that a short message gets. */

static void check_record(struct source source, struct slice text, size_t room,
                         size_t length)
{
    struct desk desk = open_desk(source, text, room);
    struct desk guarded = open_guarded_desk(source, text, room, length);
    desk.record_length = length;
    cut_every(text.length, 3, room);
    read_as_cut(&desk, not_yet_begun, 0);
    read_as_cut(&guarded, not_yet_begun, 0);
}

static void check_records(struct source source, const char *bytes, size_t room,
                          uint32_t number, uint32_t place)
{
    struct slice text = slice_of(bytes);
    look_at(&whole, text);
    check_oracle(source, text, room, (struct answer){number, place});
    for (size_t length = 0; length <= LONGEST_RECORD; length++) {
        check_record(source, text, room, length);
    }
}

static void test_records_of_every_length(void)
{
    check_records(HERE, "", 2, 3, 0);
    check_records(HERE, "AAA'BB", 2, 4, 6);
    check_records(HERE, "AAA'BBB'", 1, 6, 2);
    check_records(HERE, "AAA'BBB'", 2, 0, 2);
}

/* Messages beside each other: each has eight numbers, and nothing else is kept. */

enum { BESIDE = 5, LONGEST_BESIDE = 120 };

struct place {
    uint8_t bytes[LONGEST_BESIDE];
    size_t reading[MARGIN + WIDEST_READING + MARGIN];
    uint32_t starts[MARGIN + LONGEST_BESIDE + MARGIN];
    uint32_t expected_starts[LONGEST_BESIDE];
    uint32_t whole_starts[LONGEST_BESIDE];
    uint32_t whole_ends[LONGEST_BESIDE];
    struct whole whole;
    struct desk desk;
};

static void begin_beside(struct place *place)
{
    struct slice text = random_text();
    text.length = text.length < LONGEST_BESIDE ? text.length : LONGEST_BESIDE;
    text.bytes = memcpy(place->bytes, text.bytes, text.length);
    place->whole.starts = place->whole_starts;
    place->whole.ends = place->whole_ends;
    look_at(&place->whole, text);
    place->desk = open_desk(HERE, text, LONGEST_BESIDE);
    place->desk.whole = &place->whole;
    place->desk.reading = place->reading + MARGIN;
    place->desk.starts = place->starts + MARGIN;
    place->desk.expected_starts = place->expected_starts;
    begin(&place->desk, not_yet_begun, 0);
}

/* The next piece, or the end: is it the end? The record is one for all. */
static int goes_to_its_end(struct desk *desk)
{
    size_t left = desk->text.length - desk->come;
    size_t length = random_below(9);
    struct slice piece = {desk->text.bytes + desk->come, length < left ? length : left};
    clear_record(desk);
    if (left == 0) {
        read_end(desk, answer_of(desk->whole, desk->is_lacking));
        return 1;
    }
    read_piece(desk, piece, random_below(4) == 0 ? 1 : LONGEST_BESIDE);
    return 0;
}

/* Whose turn it is has no order; one that has ended makes room for the next. */
static void test_messages_beside_each_other(void)
{
    enum { MESSAGES = 3000 };
    static struct place places[BESIDE];
    int ended = 0;
    for (int i = 0; i < BESIDE; i++) {
        begin_beside(&places[i]);
    }
    while (ended < MESSAGES) {
        struct place *place = &places[random_below(BESIDE)];
        if (goes_to_its_end(&place->desk)) {
            begin_beside(place);
            ended++;
        }
    }
}

/* Any numbers as a state: there is an answer, and it depends on what is handed over
 * alone. */

/* Uniform ones, small ones, and ones near a power of two or a limit. */
static size_t random_number(void)
{
    const size_t near[] = {0, 0x7FFFFFFF, 0xFFFFFFFF, SIZE_MAX / 2, SIZE_MAX,
                           LIMIT_BYTES, LIMIT_SEGMENTS};
    size_t kind = random_below(10);
    if (kind == 0) {
        return (size_t)next_random() << 16 << 16 | next_random();
    }
    if (kind < 3) {
        return random_below(kind == 1 ? 20 : 2);
    }
    return near[kind - 3] + random_below(5) - 2;
}

/* Those of a real message, some of them replaced: all, in a quarter of the cases. */
static struct numbers random_numbers(void)
{
    struct slice text = random_text();
    struct numbers numbers = not_yet_begun;
    uint32_t starts[3];
    uint32_t record[NUMBERS];
    size_t kept = random_below(4);
    tracksaddle_read_piece(numbers.entries, READING, text.bytes, text.length, starts, 3,
                           record, NUMBERS);
    for (int i = 0; i < READING; i++) {
        if (random_below(4) >= kept) {
            numbers.entries[i] = random_number();
        }
    }
    return numbers;
}

/* What a call answers and leaves. */
struct outcome {
    uint32_t number;
    uint32_t place;
    struct numbers numbers;
};

static void check_same_outcome(const struct desk *desk, struct outcome first,
                               struct outcome second)
{
    check_number(desk, "the same call's answer", first.number, second.number);
    check_number(desk, "the same call's place", first.place, second.place);
    check_numbers(desk, "after the same call reading", first.numbers, second.numbers);
}

/* The record holds this answer: any place, if the number has one. */
static struct outcome check_any_answer(struct desk *desk, uint32_t number)
{
    int is_answer = number == 0 || (number >= 3 && number <= 6);
    int has_place = desk->record_length > 1 && number != 3 && number != 5;
    uint32_t place = has_place ? desk->record[1] : 0;
    expect_record(desk, (struct answer){number, place});
    check_number(desk, "that the answer is 0, 3, 4, 5 or 6", 1, is_answer);
    check_tables(desk);
    return (struct outcome){number, place, numbers_on(desk)};
}

static struct outcome check_any_end(struct desk *desk, struct numbers numbers)
{
    struct outcome outcome;
    put_numbers(desk, numbers);
    clear_record(desk);
    outcome = check_any_answer(desk, give_end(desk, READING));
    check_behind_the_end(desk, (struct answer){outcome.number, outcome.place});
    return outcome;
}

/* Either the piece goes on, and the record is as before; or there was an end, and no
 * number and no start has changed. */
static struct outcome check_any_piece(struct desk *desk, struct numbers numbers,
                                      struct slice piece)
{
    uint32_t number;
    put_numbers(desk, numbers);
    clear_record(desk);
    clear_starts(desk);
    number = give_piece(desk, READING, piece, desk->starts_length);
    if (number == TRACKSADDLE_GOES_ON) {
        memcpy(desk->expected_starts, desk->starts,
               desk->starts_length * sizeof *desk->starts);
        check_tables(desk);
        return (struct outcome){number, 0, numbers_on(desk)};
    }
    check_numbers(desk, "behind the end reading", numbers, numbers_on(desk));
    return check_any_answer(desk, number);
}

static void check_any_numbers(struct desk *desk, struct numbers numbers,
                              struct slice piece)
{
    struct outcome first;
    struct outcome end;
    begin(desk, numbers, 0);
    end = check_any_end(desk, numbers);
    first = check_any_piece(desk, numbers, piece);
    if (first.number != TRACKSADDLE_GOES_ON) {
        check_same_outcome(desk, first, end);
    }
    check_any_end(desk, first.numbers);
    check_same_outcome(desk, first, check_any_piece(desk, numbers, piece));
    check_same_outcome(desk, end, check_any_end(desk, numbers));
}

static void test_any_numbers(void)
{
    enum { STATES = 40000, LONGEST_TABLE = 20 };
    for (int i = 0; i < STATES; i++) {
        struct numbers numbers = random_numbers();
        struct slice piece = random_text();
        size_t length = random_below(LONGEST_TABLE);
        size_t record_length = random_below(LONGEST_RECORD);
        struct desk desk = open_desk(HERE, piece, length);
        struct desk guarded = open_guarded_desk(HERE, piece, length, record_length);
        desk.record_length = record_length;
        check_any_numbers(i % 2 == 0 ? &desk : &guarded, numbers, piece);
    }
}

/* Numbers around the limits, over tables around the most entries. */
static void test_any_numbers_over_long_tables(void)
{
    enum { STATES = 30, NEAR = 10 };
    const size_t near[NEAR] = {0,       1,        999998,   999999,   1000000,
                               1000001, 16777215, 16777216, 16777217, 16777218};
    struct slice piece = slice_of("AAA'BBB'CCC'DDD'");
    for (int i = 0; i < STATES; i++) {
        struct desk desk = open_desk(HERE, piece, 999998 + random_below(7));
        struct numbers numbers;
        for (int k = 0; k < READING; k++) {
            numbers.entries[k] = random_below(4) == 0 ? 0 : near[random_below(NEAR)];
        }
        check_any_numbers(&desk, numbers, piece);
    }
}

int main(void)
{
    test_the_constants_in_the_header();
    test_answers_by_hand();
    test_release_and_separators_by_hand();
    test_every_cut_of_every_short_text();
    test_every_byte_in_every_state();
    test_random_cuts();
    test_tables_that_grow_and_shrink();
    test_empty_pieces_anywhere();
    test_wrong_lengths();
    test_short_states_before_a_guard();
    test_records_of_every_length();
    test_messages_beside_each_other();
    test_any_numbers();
    test_any_numbers_over_long_tables();
    return conclude("test_pieces");
}
