/* The desk of a caller who reads one message in pieces: what is lent, what should lie
 * there after each call, and how the message is cut. The tests of messages in pieces
 * share it.
 */
#ifndef PIECES_DESK_H
#define PIECES_DESK_H

#include "pieces_oracle.h"

#include "tracksaddle.h"

enum { READING = TRACKSADDLE_READING, WIDEST_READING = 16 };
enum { NUMBERS = 6, LONGEST_RECORD = 8, MARGIN = 2 };
enum { MOST_STARTS = LIMIT_SEGMENTS + 5 };

/* No number, place or offset of any message here, and no number of a state. */
static const uint32_t canary = 0xA5C3F00D;
static const size_t wide_canary = SIZE_MAX / 3;

/* A wrong archive fails thousands of checks: the first ones tell enough. */
enum { MOST_PRINTED = 20 };

/* Pointers are to a table's first entry. Canaries lie before it, and behind the last
 * one too, unless a guard begins there. A call may be lent fewer starts than there
 * are. */
struct desk {
    struct source source;
    struct slice text;
    const struct whole *whole;
    size_t *reading;
    uint32_t *starts;
    size_t starts_length;
    uint32_t *record;
    size_t record_length;
    int is_guarded;
    /* What should lie there now. */
    uint32_t *expected_starts;
    uint32_t expected_record[LONGEST_RECORD];
    /* How many bytes and segments have come, and whether a start found no entry. */
    size_t come;
    size_t finished;
    int is_lacking;
};

/* A state, as its caller keeps it. */
struct numbers {
    size_t entries[READING];
};

static const struct numbers not_yet_begun = {{0}};

static inline size_t entries_behind(const struct desk *desk)
{
    return desk->is_guarded ? 0 : MARGIN;
}

/* The numbers have room for the widest wrong length. */
static inline size_t numbers_behind(const struct desk *desk)
{
    return desk->is_guarded ? 0 : WIDEST_READING - READING + MARGIN;
}

static inline void fill_with_canaries(uint32_t *table, size_t length)
{
    for (size_t i = 0; i < length; i++) {
        table[i] = canary;
    }
}

static inline void clear_record(struct desk *desk)
{
    fill_with_canaries(desk->record - MARGIN,
                       MARGIN + desk->record_length + entries_behind(desk));
    fill_with_canaries(desk->expected_record, LONGEST_RECORD);
}

static inline void clear_starts(struct desk *desk)
{
    fill_with_canaries(desk->starts - MARGIN,
                       MARGIN + desk->starts_length + entries_behind(desk));
    fill_with_canaries(desk->expected_starts, desk->starts_length);
}

static inline struct numbers numbers_on(const struct desk *desk)
{
    struct numbers numbers;
    memcpy(numbers.entries, desk->reading, sizeof numbers.entries);
    return numbers;
}

static inline void put_numbers(struct desk *desk, struct numbers numbers)
{
    memcpy(desk->reading, numbers.entries, sizeof numbers.entries);
}

/* The state after so many bytes, and fresh tables. */
static inline void begin(struct desk *desk, struct numbers numbers, size_t come)
{
    for (size_t i = 0; i < MARGIN + READING + numbers_behind(desk); i++) {
        desk->reading[(long)i - MARGIN] = wide_canary;
    }
    put_numbers(desk, numbers);
    clear_record(desk);
    clear_starts(desk);
    desk->come = come;
    desk->is_lacking = 0;
    desk->finished = 0;
    while (desk->finished < desk->whole->told &&
           desk->whole->ends[desk->finished] < come) {
        desk->finished++;
    }
}

/* Desks. */

static uint32_t all_starts[LIMIT_SEGMENTS];
static uint32_t all_ends[LIMIT_SEGMENTS];

/* The text that is tried now. */
static struct whole whole = {.starts = all_starts, .ends = all_ends};

/* All between canaries. */
static inline struct desk open_desk(struct source source, struct slice text,
                                    size_t starts_length)
{
    static size_t reading_room[MARGIN + WIDEST_READING + MARGIN];
    static uint32_t starts_room[MARGIN + MOST_STARTS + MARGIN];
    static uint32_t record_room[MARGIN + LONGEST_RECORD + MARGIN];
    static uint32_t expected_starts[MOST_STARTS];
    return (struct desk){
        .source = source,
        .text = text,
        .whole = &whole,
        .reading = reading_room + MARGIN,
        .starts = starts_room + MARGIN,
        .starts_length = starts_length,
        .record = record_room + MARGIN,
        .record_length = NUMBERS,
        .expected_starts = expected_starts,
    };
}

/* All before guards, and every piece too. */
static inline struct desk open_guarded_desk(struct source source, struct slice text,
                                            size_t starts_length, size_t record_length)
{
    enum { TABLES = 3 };
    static uint8_t *guards[TABLES];
    struct desk desk = open_desk(source, text, starts_length);
    for (int i = 0; i < TABLES && guards[i] == NULL; i++) {
        guards[i] = map_guarded_pages();
    }
    desk.reading = (size_t *)guards[0] - READING;
    desk.starts = (uint32_t *)guards[1] - starts_length;
    desk.record = (uint32_t *)guards[2] - record_length;
    desk.record_length = record_length;
    desk.is_guarded = 1;
    return desk;
}

/* Checks. */

static inline void print_bytes(struct slice bytes)
{
    const size_t longest_printed = 60;
    for (size_t i = 0; i < bytes.length && i < longest_printed; i++) {
        if (bytes.bytes[i] >= 0x20 && bytes.bytes[i] <= 0x7E) {
            printf("%c", bytes.bytes[i]);
        } else {
            printf("\\x%02X", bytes.bytes[i]);
        }
    }
    printf("%s (%zu bytes)\n", bytes.length > longest_printed ? "..." : "",
           bytes.length);
}

static inline void check_number(const struct desk *desk, const char *what,
                                size_t expected, size_t found)
{
    checks_made++;
    if (found == expected) {
        return;
    }
    checks_failed++;
    if (checks_failed <= MOST_PRINTED) {
        printf("%s:%d: %s should be %zu and is %zu\n  after %zu bytes of ",
               desk->source.file, desk->source.line, what, expected, found, desk->come);
        print_bytes(desk->text);
        /* A wrong archive may end the test by a signal, a little later. */
        fflush(stdout);
    }
}

static inline void check_entry(const struct desk *desk, const char *name, long at,
                               size_t expected, size_t found)
{
    char what[64];
    snprintf(what, sizeof what, "%s[%ld]", name, at);
    check_number(desk, what, expected, found);
}

/* The entries expected, and canaries around them. Of a wrong table the first wrong
 * entry is shown. */
static inline void check_table(const struct desk *desk, const char *name,
                               const uint32_t *table, const uint32_t *expected,
                               size_t length)
{
    const uint32_t canaries[MARGIN] = {canary, canary};
    size_t behind = entries_behind(desk);
    checks_made++;
    if (memcmp(table, expected, length * sizeof *table) == 0 &&
        memcmp(table - MARGIN, canaries, sizeof canaries) == 0 &&
        memcmp(table + length, canaries, behind * sizeof *table) == 0) {
        return;
    }
    for (long i = -MARGIN; i < (long)(length + behind); i++) {
        uint32_t right = i >= 0 && i < (long)length ? expected[i] : canary;
        if (table[i] != right) {
            check_entry(desk, name, i, right, table[i]);
            return;
        }
    }
}

static inline void check_around_the_numbers(const struct desk *desk)
{
    checks_made++;
    for (long i = -MARGIN; i < (long)(READING + numbers_behind(desk)); i++) {
        if ((i < 0 || i >= READING) && desk->reading[i] != wide_canary) {
            check_entry(desk, "reading", i, wide_canary, desk->reading[i]);
            return;
        }
    }
}

static inline void check_tables(const struct desk *desk)
{
    check_table(desk, "starts", desk->starts, desk->expected_starts,
                desk->starts_length);
    check_table(desk, "record", desk->record, desk->expected_record,
                desk->record_length);
    check_around_the_numbers(desk);
}

static inline void check_numbers(const struct desk *desk, const char *when,
                                 struct numbers expected, struct numbers found)
{
    checks_made++;
    for (int i = 0; i < READING; i++) {
        if (found.entries[i] != expected.entries[i]) {
            check_entry(desk, when, i, expected.entries[i], found.entries[i]);
            return;
        }
    }
}

/* The calls. */

static inline uint32_t give_piece(const struct desk *desk, size_t reading_length,
                                  struct slice piece, size_t room)
{
    struct slice lent = desk->is_guarded ? copy_before_the_guard(piece) : piece;
    uint32_t answer = tracksaddle_read_piece(
        desk->reading, reading_length, lent.bytes, lent.length, desk->starts, room,
        desk->record, desk->record_length);
    if (desk->is_guarded) {
        check_unchanged(desk->source, lent, piece);
    }
    return answer;
}

static inline uint32_t give_end(const struct desk *desk, size_t reading_length)
{
    return tracksaddle_read_end(desk->reading, reading_length, desk->record,
                                desk->record_length);
}

/* One more piece of a message that has not ended, and so many entries with it. */
static inline void read_piece(struct desk *desk, struct slice piece, size_t room)
{
    uint32_t answer = give_piece(desk, READING, piece, room);
    const struct whole *all = desk->whole;
    desk->come += piece.length;
    while (desk->finished < all->told && all->ends[desk->finished] < desk->come) {
        if (desk->finished < room) {
            desk->expected_starts[desk->finished] = all->starts[desk->finished];
        } else {
            desk->is_lacking = 1;
        }
        desk->finished++;
    }
    check_number(desk, "a piece's answer", TRACKSADDLE_GOES_ON, answer);
    check_tables(desk);
}

static inline void expect_record(struct desk *desk, struct answer answer)
{
    const uint32_t numbers[NUMBERS] = {answer.number, answer.place};
    size_t fitting = desk->record_length < NUMBERS ? desk->record_length : NUMBERS;
    memcpy(desk->expected_record, numbers, fitting * sizeof numbers[0]);
}

static const struct slice one_segment = {(const uint8_t *)"AAA'", 4};
static const struct slice bad_byte = {(const uint8_t *)"\n", 1};
static const struct slice no_bytes = {(const uint8_t *)"AAA'" + 4, 0};

/* Behind the end each piece, and each end, is answered as the end was. */
static inline void check_behind_the_end(struct desk *desk, struct answer answer)
{
    enum { PIECES = 3 };
    const struct slice pieces[PIECES] = {one_segment, no_bytes, bad_byte};
    struct numbers ended = numbers_on(desk);
    for (int i = 0; i <= PIECES; i++) {
        uint32_t number;
        clear_record(desk);
        number = i < PIECES ? give_piece(desk, READING, pieces[i], desk->starts_length)
                            : give_end(desk, READING);
        expect_record(desk, answer);
        check_number(desk, "the answer behind the end", answer.number, number);
        check_tables(desk);
        check_numbers(desk, "behind the end reading", ended, numbers_on(desk));
    }
}

/* The end, which is answered so, and calls behind it. */
static inline void read_end(struct desk *desk, struct answer answer)
{
    uint32_t number = give_end(desk, READING);
    expect_record(desk, answer);
    check_number(desk, "the answer", answer.number, number);
    check_tables(desk);
    check_behind_the_end(desk, answer);
}

/* Cuts. */

/* Where a piece ends, and how many entries are lent with it. */
struct cut {
    size_t end;
    size_t room;
};

enum { MOST_CUTS = 1 << 14 };

/* How the text comes. */
static struct cut cuts[MOST_CUTS];
static size_t cut_count;

static inline void cut_at(size_t end, size_t room)
{
    if (cut_count == MOST_CUTS) {
        give_up("more pieces than a text is cut into here");
    }
    cuts[cut_count++] = (struct cut){end, room};
}

static inline void cut_nowhere(size_t length, size_t room)
{
    cut_count = 0;
    cut_at(length, room);
}

static inline void cut_every(size_t length, size_t step, size_t room)
{
    cut_count = 0;
    for (size_t at = step; at < length; at += step) {
        cut_at(at, room);
    }
    cut_at(length, room);
}

/* Of the bytes from here to there, behind each that has a bit in the mask. */
static inline void cut_by_mask(size_t from, size_t length, unsigned mask, size_t room)
{
    cut_count = 0;
    for (size_t at = from + 1; at < length; at++) {
        if (mask >> (at - from - 1) & 1) {
            cut_at(at, room);
        }
    }
    cut_at(length, room);
}

/* As many masks as there are ways to cut so many bytes. */
static inline unsigned masks_of(size_t length)
{
    return length > 1 ? 1u << (length - 1) : 1;
}

/* Single bytes, and empty pieces before each and behind the last. */
static inline void cut_with_empty_pieces(size_t from, size_t length, size_t room)
{
    cut_count = 0;
    for (size_t at = from; at <= length; at++) {
        cut_at(at, room);
        cut_at(at, room);
        cut_at(at, room);
    }
}

static inline size_t longest_room(void)
{
    size_t longest = 0;
    for (size_t i = 0; i < cut_count; i++) {
        longest = cuts[i].room > longest ? cuts[i].room : longest;
    }
    return longest;
}

/* Reads the text as it is cut, from so many bytes on. The numbers before the end are
 * handed back: if one table is lent throughout they do not depend on the cuts. */
static inline struct numbers read_as_cut(struct desk *desk, struct numbers numbers,
                                         size_t from)
{
    begin(desk, numbers, from);
    for (size_t i = 0; i < cut_count; i++) {
        struct slice piece = {desk->text.bytes + desk->come, cuts[i].end - desk->come};
        read_piece(desk, piece, cuts[i].room);
    }
    numbers = numbers_on(desk);
    read_end(desk, answer_of(desk->whole, desk->is_lacking));
    return numbers;
}

static inline struct numbers check_cut(struct source source, struct slice text)
{
    struct desk desk = open_desk(source, text, longest_room());
    return read_as_cut(&desk, not_yet_begun, 0);
}

static inline struct numbers check_guarded_cut(struct source source, struct slice text)
{
    struct desk desk = open_guarded_desk(source, text, longest_room(), NUMBERS);
    return read_as_cut(&desk, not_yet_begun, 0);
}

static inline void check_same(struct source source, struct slice text,
                              struct numbers at_once, struct numbers in_pieces)
{
    struct desk desk = {.source = source, .text = text, .come = text.length};
    check_numbers(&desk, "before the end reading", at_once, in_pieces);
}

/* What is put down by hand is what the oracle says. */
static inline void check_oracle(struct source source, struct slice text, size_t room,
                                struct answer by_hand)
{
    struct desk desk = {.source = source, .text = text, .come = text.length};
    struct answer answer = answer_of(&whole, room < whole.told);
    check_number(&desk, "the oracle's number", by_hand.number, answer.number);
    check_number(&desk, "the oracle's place", by_hand.place, answer.place);
}

#endif
