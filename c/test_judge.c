/* Tests tracksaddle_judge from the C side: every number of the header's table,
 * document 01's bench messages under small book K, the limits, and lent tables
 * and records of many lengths between canaries. c/run_tests builds and runs this.
 */
#include "book_builder.h"

#include "tracksaddle.h"

enum { TABLES = 3, NUMBERS = 6, LONGEST_RECORD = 8, MARGIN = 2 };
enum { RECORD_ROOM = MARGIN + LONGEST_RECORD + MARGIN };
enum { LIMIT_BYTES = 16777216, LIMIT_SEGMENTS = 999999 };
enum { TABLE_ROOM = MARGIN + LIMIT_SEGMENTS + MARGIN };
enum { NO = 0, YES = 1, UNKNOWN = 2 };

/* No number, place, offset or line of any message here. */
static const uint32_t canary = 0xA5C3F00D;

/* The lent tables, between margins: starts, homes and parents. */
static uint32_t tables[TABLES][TABLE_ROOM];
static const char *const table_names[TABLES] = {"starts", "homes", "parents"};

/* One call's arguments, but for the record. */
struct question {
    struct slice message;
    struct slice book;
    struct slice conditions;
    size_t entries[TABLES];
};

/* The right answer: the six numbers, and the first so many entries that the
 * tables get, none for a refusal. */
struct answer {
    uint32_t numbers[NUMBERS];
    size_t segments;
    const uint32_t *entries[TABLES];
};

/* Checks. */

static void fill_with_canaries(uint32_t *table, size_t length)
{
    for (size_t i = 0; i < length; i++) {
        table[i] = canary;
    }
}

static void check_number(struct source source, uint32_t expected, uint32_t found)
{
    checks_made++;
    if (found != expected) {
        checks_failed++;
        printf("%s:%d: the number should be %u and is %u\n", source.file, source.line,
               (unsigned)expected, (unsigned)found);
    }
}

/* A lent table: the first entries are those written, and the others canaries. Of
 * a wrong table the first wrong entry is shown. */
static void check_table(struct source source, const char *name, const uint32_t *table,
                        size_t length, const uint32_t *written, size_t written_length)
{
    checks_made++;
    for (size_t i = 0; i < MARGIN + length + MARGIN; i++) {
        int is_written = i >= MARGIN && i - MARGIN < written_length;
        uint32_t expected = is_written ? written[i - MARGIN] : canary;
        if (table[i] != expected) {
            checks_failed++;
            printf("%s:%d: %s[%ld] should be %u%s and is %u\n", source.file,
                   source.line, name, (long)i - MARGIN, (unsigned)expected,
                   is_written ? "" : " (untouched)", (unsigned)table[i]);
            return;
        }
    }
}

/* One call with a record of one length. */
static void check_call(struct source source, const struct question *question,
                       const struct answer *answer, size_t record_length)
{
    uint32_t record[RECORD_ROOM];
    uint32_t number;
    size_t fitting = record_length < NUMBERS ? record_length : NUMBERS;
    fill_with_canaries(record, RECORD_ROOM);
    for (int i = 0; i < TABLES; i++) {
        fill_with_canaries(tables[i], MARGIN + question->entries[i] + MARGIN);
    }
    number = tracksaddle_judge(
        question->message.bytes, question->message.length, question->book.bytes,
        question->book.length, question->conditions.bytes, question->conditions.length,
        tables[0] + MARGIN, question->entries[0], tables[1] + MARGIN,
        question->entries[1], tables[2] + MARGIN, question->entries[2], record + MARGIN,
        record_length);
    check_number(source, answer->numbers[0], number);
    check_table(source, "record", record, LONGEST_RECORD, answer->numbers, fitting);
    for (int i = 0; i < TABLES; i++) {
        check_table(source, table_names[i], tables[i], question->entries[i],
                    answer->entries[i], answer->segments);
    }
}

/* The inputs of a question, by number. */
enum { INPUTS = 3 };

static struct slice *input_of(struct question *question, int input)
{
    struct slice *const inputs[INPUTS] = {&question->message, &question->book,
                                          &question->conditions};
    return inputs[input];
}

/* A record of every length over lent copies, one of them before the guard. */
static void check_lent(struct source source, struct question original,
                       const struct answer *answer, int guarded)
{
    struct question lent = original;
    for (int i = 0; i < INPUTS; i++) {
        struct slice input = *input_of(&original, i);
        *input_of(&lent, i) =
            i == guarded ? copy_before_the_guard(input) : copy_to_the_heap(input);
    }
    for (size_t length = 0; length <= LONGEST_RECORD; length++) {
        check_call(source, &lent, answer, length);
    }
    for (int i = 0; i < INPUTS; i++) {
        check_unchanged(source, *input_of(&lent, i), *input_of(&original, i));
        if (i != guarded) {
            free_heap_copy(*input_of(&lent, i));
        }
    }
}

static void check(struct source source, struct question question, struct answer answer)
{
    for (int guarded = 0; guarded < INPUTS; guarded++) {
        check_lent(source, question, &answer, guarded);
    }
}

/* Questions and answers. */

static struct slice slice_of(const char *text)
{
    return (struct slice){(const uint8_t *)text, strlen(text)};
}

static const uint8_t states[] = {NO, YES, UNKNOWN};

/* One condition in this state. */
static struct slice condition(int state)
{
    return (struct slice){states + state, 1};
}

/* The bytes of the book that was built last. */
static struct slice built_book(void)
{
    size_t length = write_book();
    return (struct slice){bytes, length};
}

/* Under the book that was built, with tables of so many entries. */
static struct question ask(struct slice message, int state, size_t entries)
{
    return (struct question){
        message, built_book(), condition(state), {entries, entries, entries}};
}

static struct answer numbers(uint32_t number, uint32_t place, uint32_t line,
                             uint32_t element, uint32_t component, uint32_t condition)
{
    return (struct answer){
        {number, place, line, element, component, condition}, 0, {NULL, NULL, NULL}};
}

/* A number with its place alone. */
static struct answer answer_at(uint32_t number, uint32_t place)
{
    return numbers(number, place, 0, 0, 0, 0);
}

enum { MOST_IN_A_TREE = 7 };

/* What the tables get for one short message. */
struct tree {
    size_t segments;
    uint32_t starts[MOST_IN_A_TREE];
    uint32_t homes[MOST_IN_A_TREE];
    uint32_t parents[MOST_IN_A_TREE];
};

static struct answer with_tree(struct answer answer, const struct tree *tree)
{
    answer.segments = tree->segments;
    answer.entries[0] = tree->starts;
    answer.entries[1] = tree->homes;
    answer.entries[2] = tree->parents;
    return answer;
}

/* The tables have room for some entries more than a short message needs. */
enum { ROOM = 12 };

static void check_refusal(struct source source, const char *message, uint32_t number,
                          uint32_t place)
{
    for (int state = NO; state <= UNKNOWN; state++) {
        check(source, ask(slice_of(message), state, ROOM), answer_at(number, place));
    }
}

/* A refusal under book K, whatever the condition is. */
#define REFUSED(message, number, place) check_refusal(HERE, message, number, place)

/* A verdict under book K after which the tables are written. */
#define PLACED(message, state, tree, ...)            \
    check(HERE, ask(slice_of(message), state, ROOM), \
          with_tree(numbers(__VA_ARGS__), tree))

#define HEAD "UNH+1'BGM+7'RFF+Z13:10001'"

static const struct tree tree_of_head = {4, {0, 6, 12, 26}, {1, 2, 3, 7}, {0, 0, 0, 0}};
static const struct tree tree_of_lin = {
    5, {0, 6, 12, 26, 32}, {1, 2, 3, 5, 7}, {0, 0, 0, 0, 0}};
static const struct tree tree_of_qty = {
    6, {0, 6, 12, 26, 32, 42}, {1, 2, 3, 5, 6, 7}, {0, 0, 0, 0, 4, 0}};
static const struct tree tree_of_two = {
    7, {0, 6, 12, 26, 32, 42, 48}, {1, 2, 3, 5, 6, 5, 7}, {0, 0, 0, 0, 4, 0, 0}};

/* 01's bench messages that need book K alone. */

static void test_bench_messages_without_positions(void)
{
    for (int state = NO; state <= UNKNOWN; state++) {
        PLACED(HEAD "UNT+4+1'", state, &tree_of_head, 0, 4, 0, 0, 0, 0);
    }
    REFUSED(HEAD "UNT+5+1'", 8, 4);
    REFUSED(HEAD "UNT+5+2'", 8, 4);
    REFUSED(HEAD "UNT+4+2'", 9, 4);
    REFUSED("UNH+1'BGM+7'UNT+3+1'", 11, 3);
    REFUSED("", 3, 0);
    REFUSED("UNH+1", 4, 5);
    REFUSED("UNH+1?A'", 4, 6);
}

static void test_bench_messages_with_positions(void)
{
    const char *const with_quantity = HEAD "LIN+1'QTY+145:5'UNT+6+1'";
    const char *const without = HEAD "LIN+1'UNT+5+1'";
    const char *const two = HEAD "LIN+1'QTY+145:5'LIN+2'UNT+7+1'";
    PLACED(with_quantity, YES, &tree_of_qty, 0, 6, 0, 0, 0, 0);
    PLACED(with_quantity, NO, &tree_of_qty, 14, 5, 6, 0, 0, 0);
    PLACED(with_quantity, UNKNOWN, &tree_of_qty, 15, 5, 6, 0, 0, 1);
    PLACED(without, YES, &tree_of_lin, 14, 4, 6, 0, 0, 0);
    PLACED(without, NO, &tree_of_lin, 0, 5, 0, 0, 0, 0);
    PLACED(without, UNKNOWN, &tree_of_lin, 15, 4, 6, 0, 0, 1);
    PLACED(two, YES, &tree_of_two, 14, 6, 6, 0, 0, 0);
    PLACED(two, NO, &tree_of_two, 14, 5, 6, 0, 0, 0);
    PLACED(two, UNKNOWN, &tree_of_two, 15, 5, 6, 0, 0, 1);
    REFUSED(HEAD "LIN+1'LIN+2'LIN+3'UNT+7+1'", 11, 6);
    REFUSED(HEAD "QTY+145:5'LIN+1'UNT+6+1'", 11, 4);
}

static void test_bench_message_with_a_bad_field(void)
{
    const struct tree tree = {5, {0, 6, 12, 26, 34}, {1, 2, 3, 5, 7}, {0, 0, 0, 0, 0}};
    for (int state = NO; state <= UNKNOWN; state++) {
        PLACED(HEAD "LIN+1,5'UNT+5+1'", state, &tree, 12, 4, 5, 1, 1, 0);
    }
}

/* Numbers 1 and 2. */

static void test_malformed_books(void)
{
    for (size_t at = 0; at < sizes().header; at++) {
        struct question question = ask(slice_of(HEAD "UNT+4+1'"), NO, ROOM);
        bytes[at] ^= 0x80;
        check(HERE, question, answer_at(1, 0));
    }
    for (size_t length = 0; length < built_book().length; length += 17) {
        struct question question = ask(slice_of(""), NO, 0);
        question.book.length = length;
        question.conditions = slice_of("\x07");
        check(HERE, question, answer_at(1, 0));
    }
}

static void check_conditions(struct source source, const char *message,
                             const uint8_t *conditions, size_t length)
{
    struct question question = ask(slice_of(message), NO, ROOM);
    question.conditions = (struct slice){conditions, length};
    check(source, question, answer_at(2, 0));
}

static void test_bad_conditions(void)
{
    const uint8_t values[] = {3, 4, 127, 128, 255};
    const uint8_t many[] = {NO, YES, UNKNOWN};
    for (size_t i = 0; i < sizeof values; i++) {
        check_conditions(HERE, HEAD "UNT+4+1'", values + i, 1);
        check_conditions(HERE, "", values + i, 1);
    }
    check_conditions(HERE, HEAD "UNT+4+1'", many, 0);
    check_conditions(HERE, HEAD "UNT+4+1'", many, 2);
    check_conditions(HERE, "no message", many, 3);
}

static void check_two_conditions(struct source source, int first, int second,
                                 struct answer answer)
{
    const uint8_t conditions[] = {(uint8_t)first, (uint8_t)second};
    struct question question = ask(slice_of(HEAD "LIN+1'QTY+145:5'UNT+6+1'"), NO, ROOM);
    question.conditions = (struct slice){conditions, sizeof conditions};
    check(source, question, with_tree(answer, &tree_of_qty));
}

/* A quantity is there, and must be if both hold, otherwise never. Of the row's
 * unknown conditions the lowest is named. */
static void test_two_conditions(void)
{
    const struct answer broken = numbers(14, 5, 6, 0, 0, 0);
    build_k();
    book.condition_count = 2;
    set_row(0, K_QTY, MUST_IF, ALL, 1, 2, 0);
    check_two_conditions(HERE, YES, YES, answer_at(0, 6));
    check_two_conditions(HERE, YES, NO, broken);
    check_two_conditions(HERE, NO, UNKNOWN, broken);
    check_two_conditions(HERE, UNKNOWN, NO, broken);
    check_two_conditions(HERE, YES, UNKNOWN, numbers(15, 5, 6, 0, 0, 2));
    check_two_conditions(HERE, UNKNOWN, YES, numbers(15, 5, 6, 0, 0, 1));
    check_two_conditions(HERE, UNKNOWN, UNKNOWN, numbers(15, 5, 6, 0, 0, 1));
    build_k();
}

/* Numbers 4 and 7 to 11, and the order between them. */

static void test_bad_bytes(void)
{
    REFUSED("u", 4, 0);
    REFUSED("U", 4, 1);
    REFUSED("UNH", 4, 3);
    REFUSED("UNHA", 4, 3);
    REFUSED("UNH?", 4, 3);
    REFUSED("UNH+1\n", 4, 5);
    REFUSED("UNH+1\x7F'", 4, 5);
    REFUSED("UNH+1?", 4, 6);
    REFUSED("UNH+1?'", 4, 7);
    REFUSED("UNH+1'\r\nBGM+7'", 4, 6);
    REFUSED("UNH+1'BGM+7'R", 4, 13);
    REFUSED(HEAD "UNT+4+1'\n", 4, 34);
    REFUSED(HEAD "UNT+4+1", 4, 33);
}

/* `+` or `'` right behind `:`, and `'` right behind `+`, in the first segment, in one
 * amid the message and in the last: the place is the later byte's. */
static void test_needless_separators(void)
{
    REFUSED("UNH+'BGM+7'RFF+Z13:10001'UNT+4+1'", 4, 4);
    REFUSED("UNH+1+'BGM+7'RFF+Z13:10001'UNT+4+1'", 4, 6);
    REFUSED("UNH+1:'BGM+7'RFF+Z13:10001'UNT+4+1'", 4, 6);
    REFUSED("UNH+1:+2'BGM+7'RFF+Z13:10001'UNT+4+1'", 4, 6);
    REFUSED("UNH+1'BGM+'RFF+Z13:10001'UNT+4+1'", 4, 10);
    REFUSED("UNH+1'BGM+7+'RFF+Z13:10001'UNT+4+1'", 4, 12);
    REFUSED("UNH+1'BGM+7:'RFF+Z13:10001'UNT+4+1'", 4, 12);
    REFUSED("UNH+1'BGM+7:+8'RFF+Z13:10001'UNT+4+1'", 4, 12);
    REFUSED(HEAD "UNT+4+1+'", 4, 34);
    REFUSED(HEAD "UNT+4+1:'", 4, 34);
    REFUSED(HEAD "UNT+4:+1'", 4, 32);
    REFUSED(HEAD "UNT+'", 4, 30);
}

/* Several in a row: the place is behind the last. A message that stops behind one is
 * cut short. */
static void test_many_needless_separators(void)
{
    REFUSED("UNH+1+++'BGM+7'", 4, 8);
    REFUSED("UNH+1:::'BGM+7'", 4, 8);
    REFUSED("UNH+1::+::'BGM+7'", 4, 7);
    REFUSED("UNH+1++:'BGM+7'", 4, 8);
    REFUSED("UNH+:+'", 4, 5);
    REFUSED(HEAD "LIN+1++'UNT+5+1'", 4, 33);
    REFUSED(HEAD "UNT+4+", 4, 32);
    REFUSED(HEAD "UNT+4:", 4, 32);
    REFUSED(HEAD "UNT+4+1:\n", 4, 34);
}

/* A released mark is data, and so is a released ?: an element may end with it. */
static void test_needless_separators_behind_released_marks(void)
{
    const struct tree longer = {4, {0, 8, 14, 28}, {1, 2, 3, 7}, {0, 0, 0, 0}};
    REFUSED("UNH+1?::'BGM+7'", 4, 8);
    REFUSED("UNH+1?::+2'BGM+7'", 4, 8);
    REFUSED("UNH+1?++'BGM+7'", 4, 8);
    REFUSED("UNH+1\?\?:'BGM+7'", 4, 8);
    REFUSED("UNH+1\?\?+'BGM+7'", 4, 8);
    REFUSED(HEAD "UNT+4+?:+'", 4, 35);
    REFUSED(HEAD "UNT+4+\?\?:'", 4, 35);
    PLACED("UNH+1?:'BGM+7'RFF+Z13:10001'UNT+4+1?:'", NO, &longer, 0, 4, 0, 0, 0, 0);
    PLACED("UNH+1?+'BGM+7'RFF+Z13:10001'UNT+4+1?+'", NO, &longer, 0, 4, 0, 0, 0, 0);
    PLACED("UNH+1\?\?'BGM+7'RFF+Z13:10001'UNT+4+1\?\?'", NO, &longer, 0, 4, 0, 0, 0, 0);
    PLACED("UNH+1?:'BGM+7'RFF+Z13:10001'UNT+4+1?:+X'", NO, &longer, 12, 4, 7, 3, 1, 0);
}

/* Empty elements and components before a value are good. */
static void test_empty_before_a_value(void)
{
    const struct tree shorter = {4, {0, 6, 12, 23}, {1, 2, 3, 7}, {0, 0, 0, 0}};
    const struct tree longer = {
        5, {0, 6, 12, 26, 35}, {1, 2, 3, 5, 7}, {0, 0, 0, 0, 0}};
    const struct tree of_qty = {
        6, {0, 6, 12, 26, 32, 39}, {1, 2, 3, 5, 6, 7}, {0, 0, 0, 0, 4, 0}};
    PLACED("UNH+1'BGM+7'RFF+:10001'UNT+4+1'", NO, &shorter, 0, 4, 0, 0, 0, 0);
    PLACED(HEAD "LIN+1'QTY+:5'UNT+6+1'", YES, &of_qty, 0, 6, 0, 0, 0, 0);
    PLACED(HEAD "LIN+1++X'UNT+5+1'", NO, &longer, 12, 4, 5, 3, 1, 0);
    PLACED(HEAD "LIN+1::X'UNT+5+1'", NO, &longer, 12, 4, 5, 1, 3, 0);
    PLACED(HEAD "LIN+1+:X'UNT+5+1'", NO, &longer, 12, 4, 5, 2, 2, 0);
    REFUSED(HEAD "XYZ'UNT+5+1'", 10, 4);
    REFUSED(HEAD "XYZ++:1::2'UNT+5+1'", 10, 4);
}

/* Number 4 comes before what else is wrong: 7 to 10, and tables without an entry. */
static void test_needless_separators_come_first(void)
{
    REFUSED("BGM+7'RFF+Z13:10001+'", 4, 20);
    REFUSED(HEAD "UNT+5+1+'", 4, 34);
    REFUSED(HEAD "UNT+4+2:'", 4, 34);
    REFUSED(HEAD "ABC+'UNT+5+1'", 4, 30);
    check(HERE, ask(slice_of(HEAD "UNT+4+1+'"), NO, 0), answer_at(4, 34));
}

static void test_frames(void)
{
    REFUSED("UNH+1'", 7, 1);
    REFUSED("UNT+1+1'", 7, 1);
    REFUSED("BGM+7'UNT+2+1'", 7, 1);
    REFUSED("UNH+1'BGM+7'", 7, 2);
    REFUSED("UNH+1'UNH+1'UNT+3+1'", 7, 2);
    REFUSED("UNH+1'UNT+2+1'UNT+3+1'", 7, 2);
    REFUSED("UNT+3+1'BGM+7'UNH+1'", 7, 1);
    REFUSED("UNH+1'ABC'UNH+1'", 7, 3);
}

static void test_counts_and_references(void)
{
    REFUSED(HEAD "UNT'", 8, 4);
    REFUSED(HEAD "UNT++1'", 8, 4);
    REFUSED(HEAD "UNT+04+1'", 8, 4);
    REFUSED(HEAD "UNT+ 4+1'", 8, 4);
    REFUSED(HEAD "UNT+4.0+1'", 8, 4);
    REFUSED(HEAD "UNT+-4+1'", 8, 4);
    REFUSED(HEAD "UNT+260+1'", 8, 4);
    REFUSED(HEAD "UNT+65540+1'", 8, 4);
    REFUSED(HEAD "UNT+4294967300+1'", 8, 4);
    REFUSED(HEAD "UNT+18446744073709551620+1'", 8, 4);
    REFUSED(HEAD "UNT+4'", 9, 4);
    REFUSED(HEAD "UNT+4+11'", 9, 4);
    REFUSED(HEAD "UNT+4+:1'", 9, 4);
    REFUSED("UNH+?+'BGM+7'RFF+Z13:10001'UNT+4+?:'", 9, 4);
}

static void test_homes(void)
{
    REFUSED(HEAD "ABC'UNT+5+1'", 10, 4);
    REFUSED(HEAD "QTY+145:5'LIN+1'ABC'UNT+7+1'", 10, 6);
    REFUSED("UNH+1'RFF+Z13:10001'BGM+7'UNT+4+1'", 11, 2);
    REFUSED("UNH+1'UNT+2+1'", 11, 2);
}

/* Numbers 12 and 13. */

static void test_fields(void)
{
    const struct tree empty_lin = {
        5, {0, 6, 12, 26, 30}, {1, 2, 3, 5, 7}, {0, 0, 0, 0, 0}};
    const struct tree wide_lin = {
        5, {0, 6, 12, 26, 34}, {1, 2, 3, 5, 7}, {0, 0, 0, 0, 0}};
    const struct tree long_lin = {
        5, {0, 6, 12, 26, 38}, {1, 2, 3, 5, 7}, {0, 0, 0, 0, 0}};
    const struct tree signed_lin = {
        5, {0, 6, 12, 26, 39}, {1, 2, 3, 5, 7}, {0, 0, 0, 0, 0}};
    PLACED(HEAD "LIN'UNT+5+1'", NO, &empty_lin, 12, 4, 5, 1, 1, 0);
    PLACED(HEAD "LIN+1+X'UNT+5+1'", NO, &wide_lin, 12, 4, 5, 2, 1, 0);
    PLACED(HEAD "LIN+1:X'UNT+5+1'", NO, &wide_lin, 12, 4, 5, 1, 2, 0);
    PLACED(HEAD "LIN++12'UNT+5+1'", NO, &wide_lin, 12, 4, 5, 1, 1, 0);
    PLACED(HEAD "LIN+-123.456'UNT+5+1'", NO, &signed_lin, 0, 5, 0, 0, 0, 0);
    PLACED(HEAD "LIN+1234567'UNT+5+1'", NO, &long_lin, 12, 4, 5, 1, 1, 0);
    PLACED(HEAD "UNT+4:4+1'", NO, &tree_of_head, 12, 4, 7, 1, 2, 0);
    PLACED(HEAD "UNT+4+1+Z'", NO, &tree_of_head, 12, 4, 7, 3, 1, 0);
}

static void test_foreign_identifiers(void)
{
    for (int state = NO; state <= UNKNOWN; state++) {
        PLACED("UNH+1'BGM+7'RFF+Z13:10002'UNT+4+1'", state, &tree_of_head, 13, 3, 0, 0,
               0, 0);
    }
}

/* Released bytes: `?'` is no segment end, `??'` is one. */
static void test_released_bytes(void)
{
    const struct tree quote = {4, {0, 7, 13, 27}, {1, 2, 3, 7}, {0, 0, 0, 0}};
    PLACED("UNH+?''BGM+7'RFF+Z13:10001'UNT+4+?''", NO, &quote, 0, 4, 0, 0, 0, 0);
    PLACED("UNH+\?\?'BGM+7'RFF+Z13:10001'UNT+4+\?\?'", NO, &quote, 0, 4, 0, 0, 0, 0);
}

/* Tables: each of its own length, too short by one and by all. */
static void test_table_lengths(void)
{
    const struct slice message = slice_of(HEAD "LIN+1'QTY+145:5'UNT+6+1'");
    const struct answer accepted = with_tree(answer_at(0, 6), &tree_of_qty);
    struct question question = ask(message, YES, 6);
    check(HERE, question, accepted);
    for (int i = 0; i < TABLES; i++) {
        question = ask(message, YES, 6);
        question.entries[i] = 5;
        check(HERE, question, answer_at(6, 6));
        question.entries[i] = 0;
        check(HERE, question, answer_at(6, 6));
        question.entries[i] = 7;
        check(HERE, question, accepted);
        question = ask(message, YES, ROOM);
        question.entries[i] = 6;
        check(HERE, question, accepted);
        question.entries[i] = 5;
        check(HERE, question, answer_at(6, 6));
    }
    check(HERE, ask(message, YES, 0), answer_at(6, 6));
    check(HERE, ask(slice_of("ABC'"), YES, 0), answer_at(6, 1));
    check(HERE, ask(slice_of("ABC'"), YES, 1), answer_at(7, 1));
}

/* The limits, over the longest messages: on the heap alone, with one record. */

static void check_long(struct source source, struct question question,
                       struct answer answer)
{
    struct slice message = question.message;
    check_call(source, &question, &answer, NUMBERS);
    free_heap_copy(message);
}

/* A message in a heap buffer of exactly its length: `before`, so many times
 * `repeated`, and `after`. */
static struct slice long_message(const char *before, const char *repeated, size_t times,
                                 const char *after)
{
    size_t length = strlen(before) + times * strlen(repeated) + strlen(after);
    uint8_t *allocation = malloc(length);
    uint8_t *at = allocation;
    if (allocation == NULL) {
        give_up("out of memory");
    }
    memcpy(at, before, strlen(before));
    at += strlen(before);
    for (size_t i = 0; i < times; i++) {
        memcpy(at, repeated, strlen(repeated));
        at += strlen(repeated);
    }
    memcpy(at, after, strlen(after));
    return (struct slice){allocation, length};
}

/* 01's longest bench message: a segment count held in 16 bits would pass. */
static void test_65544_segments(void)
{
    enum { SEGMENTS = 65544 };
    const size_t rest = SEGMENTS - 4;
    check_long(HERE, ask(long_message(HEAD, "LIN+1'", rest, "UNT+8+1'"), NO, SEGMENTS),
               answer_at(8, SEGMENTS));
    check_long(HERE,
               ask(long_message(HEAD, "LIN+1'", rest, "UNT+8+1'"), NO, SEGMENTS - 1),
               answer_at(6, SEGMENTS));
    check_long(HERE,
               ask(long_message(HEAD, "LIN+1'", rest, "UNT+65544+1'"), NO, SEGMENTS),
               answer_at(11, 6));
}

/* The answer with what the tables get for HEAD, many times `LIN+1'`, and UNT. */
static struct answer with_positions(struct answer answer, size_t segments)
{
    static uint32_t starts[LIMIT_SEGMENTS];
    static uint32_t homes[LIMIT_SEGMENTS];
    static uint32_t parents[LIMIT_SEGMENTS];
    for (size_t i = 0; i < segments; i++) {
        int is_in_head = i < 3;
        starts[i] = (uint32_t)(is_in_head ? 6 * i : strlen(HEAD) + 6 * (i - 3));
        homes[i] = (uint32_t)(is_in_head ? i + 1 : K_LIN + 1);
        parents[i] = 0;
    }
    homes[segments - 1] = K_UNT + 1;
    answer.segments = segments;
    answer.entries[0] = starts;
    answer.entries[1] = homes;
    answer.entries[2] = parents;
    return answer;
}

/* Book K with room for as many positions as a message can have. */
static void build_k_with_room(void)
{
    build_k();
    set_maximum(K_GROUP, LIMIT_SEGMENTS);
}

static void test_the_most_segments(void)
{
    const size_t rest = LIMIT_SEGMENTS - 4;
    const char *const unt = "UNT+999999+1'";
    build_k_with_room();
    check_long(HERE, ask(long_message(HEAD, "LIN+1'", rest, unt), NO, LIMIT_SEGMENTS),
               with_positions(answer_at(0, LIMIT_SEGMENTS), LIMIT_SEGMENTS));
    check_long(HERE,
               ask(long_message(HEAD, "LIN+1'", rest, unt), UNKNOWN, LIMIT_SEGMENTS),
               with_positions(numbers(15, 4, 6, 0, 0, 1), LIMIT_SEGMENTS));
    check_long(HERE,
               ask(long_message(HEAD, "LIN+1'", rest, unt), NO, LIMIT_SEGMENTS - 1),
               answer_at(6, LIMIT_SEGMENTS));
    check_long(HERE,
               ask(long_message(HEAD, "LIN+1'", rest + 1, "UNT+1000000+1'"), NO,
                   LIMIT_SEGMENTS),
               answer_at(5, 0));
    check_long(HERE, ask(long_message("", "ABC'", LIMIT_SEGMENTS + 1, ""), NO, 0),
               answer_at(5, 0));
    check_long(HERE, ask(long_message("", "ABC'", LIMIT_SEGMENTS, ""), NO, 0),
               answer_at(6, LIMIT_SEGMENTS));
    build_k();
}

static void test_the_most_bytes(void)
{
    const char *const before = "UNH+1'BGM+7'RFF+Z13:";
    const char *const after = "'UNT+4+1'";
    const size_t rest = LIMIT_BYTES - strlen(before) - strlen(after);
    const struct tree tree = {
        4, {0, 6, 12, LIMIT_BYTES - 8}, {1, 2, 3, 7}, {0, 0, 0, 0}};
    check_long(HERE, ask(long_message(before, "A", rest, after), NO, ROOM),
               with_tree(numbers(12, 3, 3, 1, 2, 0), &tree));
    check_long(HERE, ask(long_message(before, "A", rest + 1, after), NO, ROOM),
               answer_at(3, 0));
    check_long(HERE, ask(long_message("\n", "A", LIMIT_BYTES, ""), NO, ROOM),
               answer_at(3, 0));
    check_long(HERE, ask(long_message(before, "A", rest + strlen(after), ""), NO, ROOM),
               answer_at(4, LIMIT_BYTES));
    check_long(HERE,
               ask(long_message(before, "A", rest + strlen(after) - 1, "\n"), NO, ROOM),
               answer_at(4, LIMIT_BYTES - 1));
}

int main(void)
{
    build_k();
    test_bench_messages_without_positions();
    test_bench_messages_with_positions();
    test_bench_message_with_a_bad_field();
    test_malformed_books();
    test_bad_conditions();
    test_two_conditions();
    test_bad_bytes();
    test_needless_separators();
    test_many_needless_separators();
    test_needless_separators_behind_released_marks();
    test_empty_before_a_value();
    test_needless_separators_come_first();
    test_frames();
    test_counts_and_references();
    test_homes();
    test_fields();
    test_foreign_identifiers();
    test_released_bytes();
    test_table_lengths();
    test_65544_segments();
    test_the_most_segments();
    test_the_most_bytes();
    return conclude("test_judge");
}
