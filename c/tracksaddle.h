/* Tracksaddle for C callers: judges one EDIFACT message against a guide book,
 * answers questions about the message and about the book, reads a message that
 * comes in pieces, and tallies verdicts.
 *
 * Every function here works on memory that the caller lends for the call. It
 * keeps nothing, allocates nothing and shares no state between calls, so calls
 * may run in parallel, each over tables of its own. Any bytes and any numbers are
 * fine: nothing needs to be checked first, and nothing can fail.
 *
 * Pointers: pass a valid non-null pointer even when a length is 0. A table that
 * is written to must not overlap another table or any of the bytes handed over.
 *
 * In short, for a converter that wants a verdict on a message:
 *
 *   enum { MOST = 999999 };
 *   static uint32_t starts[MOST], homes[MOST], parents[MOST];
 *   uint32_t record[6];
 *   uint8_t conditions[1] = {2};            // one condition, unknown
 *   uint32_t number = tracksaddle_judge(message, message_len,
 *                                       book, book_len,
 *                                       conditions, 1,
 *                                       starts, MOST, homes, MOST, parents, MOST,
 *                                       record, 6);
 *   if (number == 0) {
 *       printf("accepted, %u segments\n", record[1]);
 *       for (uint32_t i = 0; i < record[1]; i++) {
 *           printf("segment %u at %u is line %u of the guide, in %u\n",
 *                  i + 1, starts[i], homes[i], parents[i]);
 *       }
 *   } else {
 *       printf("number %u, place %u, line %u, element %u, component %u, "
 *              "condition %u\n", number, record[1], record[2], record[3],
 *              record[4], record[5]);
 *   }
 */
#ifndef TRACKSADDLE_H
#define TRACKSADDLE_H

#include <stddef.h>
#include <stdint.h>

#ifdef __cplusplus
extern "C" {
#endif

/* Judges one message, UNH to UNT, under a guide book.
 *
 *   message, message_len  the bytes; at most 16,777,216 of them and at most
 *                         999,999 segments are judged, more are refused
 *   book, book_len        a guide book; it is checked with every call
 *   conditions,           what is known of each of the book's conditions, in
 *   conditions_len        their order: 0 false, 1 true, 2 unknown. As many bytes
 *                         as the book has conditions
 *   starts, homes,        three lent tables. One with fewer entries than the
 *   parents, their _len   message has segments is refused; longer is fine. A
 *                         message has at most message_len / 4 segments
 *   record, record_len    the lent table for the answer's six numbers
 *
 * Returns the number of the verdict, and writes the answer into record:
 *
 *   record[0]  number     as returned
 *   record[1]  place      a segment's number, counted from 1, unless said
 *                         otherwise below
 *   record[2]  line       of the guide book, counted from 1
 *   record[3]  element    counted from 1
 *   record[4]  component  counted from 1
 *   record[5]  condition  counted from 1
 *
 * As many of the six as fit are written, whatever the number: none if record_len
 * is 0, the first three if it is 3. Nothing else in record changes. Entries that
 * the table does not name are written as 0.
 *
 * The judge stops at the first fault in this order; n is the segment count:
 *
 *   number  given exactly when                      entries
 *   ------  --------------------------------------  ------------------------------
 *        1  the book is malformed                   -
 *        2  the conditions are not as many as the   -
 *           book says, or a byte is above 2
 *        3  the message is empty or over            -
 *           16,777,216 bytes
 *        4  the message is not well-formed          place: the smallest offset k,
 *                                                   counted from 0, such that the
 *                                                   first k+1 bytes begin no
 *                                                   well-formed message; if there
 *                                                   is none, message_len
 *        5  n is over 999,999                       -
 *        6  a table (starts, homes, parents) has    place n
 *           fewer than n entries
 *        7  segment 1 is not UNH, segment n is      the smallest such place
 *           not UNT, or another is either; always
 *           if n is 1
 *        8  UNT element 1, component 1, is not n    place n
 *           in decimal without leading zeros
 *        9  UNT element 2 differs from UNH          place n
 *           element 1 (first components)
 *       10  a segment has no line in the book       place of the first
 *       11  the lines are not in an allowed         place: the smallest k such that
 *           sequence                                the first k lines begin no
 *                                                   allowed sequence
 *       12  a field is at fault                     place of the first such segment,
 *                                                   its line, and the smallest
 *                                                   (element, component) at fault
 *       13  element 1 component 2 of the            its place
 *           Pruefidentifikator's segment is not
 *           in the book
 *       14  the row named below is broken whatever  place, line
 *           the unknown conditions are
 *       15  open: whether that row is broken        place, line, lowest unknown
 *           depends on unknown conditions           condition of the row
 *        0  none of these                           place n
 *
 * 14 and 15 speak of the first row, by line and then by instance of the line's
 * parent, that some values of the unknown conditions break. Its place is the
 * line's first segment in that instance if there is one, otherwise the segment
 * that opens the instance (1 for the message itself).
 *
 * Numbers 1 to 11 change no entry of starts, homes and parents. The others, 0 and
 * 12 to 15, write the first n entries of each and change none beyond:
 *
 *   starts[i]   the offset of segment i+1 in message, which is that of its tag
 *   homes[i]    the segment's line in the guide book
 *   parents[i]  the number of the segment that opens the innermost group instance
 *               that holds segment i+1; for such an opening segment itself, that
 *               of the instance around its own; 0 at the message's own level
 *
 * The four tables must not overlap each other or message, book and conditions.
 * The answer depends on the arguments alone.
 *
 * The tables that it works with are on the stack: leave it 256 KB there.
 */
uint32_t tracksaddle_judge(const uint8_t *message, size_t message_len,
                           const uint8_t *book, size_t book_len,
                           const uint8_t *conditions, size_t conditions_len,
                           uint32_t *starts, size_t starts_len,
                           uint32_t *homes, size_t homes_len,
                           uint32_t *parents, size_t parents_len,
                           uint32_t *record, size_t record_len);

/* Finds one component of one segment, as a part of the message.
 *
 *   message, message_len  the bytes; they need not be a well-formed message
 *   at                    the offset in message at which the segment's tag starts
 *   element, component    which one: elements count from 1, and components count
 *                         from 1 within their element
 *   part, part_len        the lent table for the answer:
 *                           part[0]  offset of the part in message
 *                           part[1]  its length in bytes
 *                         As many as fit are written: none if part_len is 0, the
 *                         offset alone if it is 1. Nothing else in part changes.
 *
 * The answer is always a part of the message (offset + length <= message_len):
 *
 *   the component is present,   its own bytes as they stand, each releasing `?`
 *   also when it is empty       included; an empty one has its own offset and
 *                               length 0
 *   the segment does not        the offset of the segment's closing `'`, length 0
 *   have that component
 *   element or component is 0,  message_len, length 0
 *   or no segment starts at at
 *
 * A segment starts at an offset when the bytes from there on begin with a
 * well-formed one: a tag of three bytes (A-Z, 0-9), then elements each opened by
 * `+`, with `:` between components, then `'`. Data bytes are 0x20-0x7E and
 * 0xA0-0xFF; `?` releases `:`, `+`, `'` and `?` and may stand before nothing
 * else. A needless separator is a fault (number 4, at the byte behind it): `:` right
 * before `+` or `'`, and `+` right before `'`. What lies before the offset and after
 * the `'` does not matter.
 *
 * Example: in the 13 bytes AAA+B:?'C++D' with at = 0,
 *   element 1, component 2 is the part ?'C:   offset  6, length 3
 *   element 2, component 1 is empty:          offset 10, length 0
 *   element 3, component 1 is the part D:     offset 11, length 1
 *   element 3, component 2 is absent:         offset 12, length 0
 *   element 0, component 1 is nowhere:        offset 13, length 0
 */
void tracksaddle_find_component(const uint8_t *message, size_t message_len,
                                size_t at, size_t element, size_t component,
                                size_t *part, size_t part_len);

/* A message in pieces: it is read as it comes, without a book, and need never be
 * whole in memory. It may be cut anywhere, inside a release pair or a tag too, and
 * pieces may be empty. Between two calls the caller keeps eight numbers, the state
 * of the reading, and nothing else:
 *
 *   size_t reading[TRACKSADDLE_READING] = {0};
 *
 * Eight zeros are a message not yet begun. What the numbers mean otherwise is not
 * the caller's business. They may be copied, and the copy goes on from the same
 * place; messages that are read at the same time have eight each. Any eight numbers
 * get an answer, but what it says holds if they began as zeros.
 *
 * Hand the pieces over in their order with tracksaddle_read_piece, and then end the
 * message with tracksaddle_read_end. The end alone gives the answer: a later piece
 * can turn number 4 into 3. The answer is that of the whole message at once,
 * however it was cut, and the first of these that is so; n is the segment count:
 *
 *   number  given exactly when                      place
 *   ------  --------------------------------------  ------------------------------
 *        3  the message is empty or over            0
 *           16,777,216 bytes
 *        4  the message is not well-formed          the smallest offset k, counted
 *                                                   from 0, such that the first k+1
 *                                                   bytes begin no well-formed
 *                                                   message; if there is none, the
 *                                                   message's length
 *        5  n is over 999,999                       0
 *        6  a segment's start found no entry in     n
 *           starts
 *        0  none of these                           n
 *
 * It is written into record as the judge's is: the number, the place and four
 * zeros, as many of the six as fit, and nothing else in record changes.
 *
 * The starts are written as segments end:
 *
 *   starts[i]   the offset of segment i+1 in the whole message, which is that of
 *               its tag
 *
 * Each is written in the call whose piece brings the segment's closing `'`, if the
 * table lent in that call has the entry. Nothing else in starts changes. A refusal
 * too leaves the starts of those segments that ended before the first bad byte,
 * within the first 16,777,216 bytes and among the first 999,999. The table may be
 * another one in each call, or grow between calls, but a start that has found no
 * entry is not written later. With 999,999 entries, or as many as a quarter of the
 * message's length, each start finds its own.
 *
 * After the end every further piece and every further end gets the same answer, in
 * record too, and changes neither the eight numbers nor starts. For the next
 * message make the numbers 0 again. Two calls over the same eight must not run at
 * the same time.
 *
 * A whole program. It reads the file that is named to it in blocks of 64 KiB:
 *
 *   #include "tracksaddle.h"
 *   #include <stdio.h>
 *
 *   enum { BLOCK = 65536, MOST = 999999 };
 *   static uint8_t block[BLOCK];
 *   static uint32_t starts[MOST];
 *
 *   int main(int argc, char **argv) {
 *       FILE *file = argc == 2 ? fopen(argv[1], "rb") : NULL;
 *       size_t reading[TRACKSADDLE_READING] = {0}, length;
 *       uint32_t record[6];
 *       while (file != NULL && (length = fread(block, 1, BLOCK, file)) > 0) {
 *           tracksaddle_read_piece(reading, TRACKSADDLE_READING, block, length,
 *                                  starts, MOST, record, 6);
 *       }
 *       if (file == NULL || ferror(file)) {
 *           return 2;                       // that is not the message's end
 *       }
 *       if (tracksaddle_read_end(reading, TRACKSADDLE_READING, record, 6) != 0) {
 *           printf("number %u, place %u\n", record[0], record[1]);
 *           return 1;
 *       }
 *       printf("%u segments, the last at %u\n", record[1], starts[record[1] - 1]);
 *       return 0;
 *   }
 */
#define TRACKSADDLE_READING 8            /* as many numbers are a state */
#define TRACKSADDLE_GOES_ON 0xffffffffu  /* no answer yet */
#define TRACKSADDLE_NO_STATE 0xfffffffeu /* not as many numbers as a state has */

/* Reads one more piece.
 *
 *   reading, reading_len  the eight numbers
 *   piece, piece_len      the bytes behind those read so far; there may be none
 *   starts, starts_len    the lent table for the starts
 *   record, record_len    the lent table for an answer's six numbers
 *
 * Returns
 *   TRACKSADDLE_GOES_ON   the piece was read; record does not change
 *   0, 3, 4, 5 or 6       the message has ended already: its answer again
 *   TRACKSADDLE_NO_STATE  reading_len is not 8; nothing changes, and the piece was
 *                         not read
 */
uint32_t tracksaddle_read_piece(size_t *reading, size_t reading_len,
                                const uint8_t *piece, size_t piece_len,
                                uint32_t *starts, size_t starts_len,
                                uint32_t *record, size_t record_len);

/* Ends the message.
 *
 *   reading, reading_len  the eight numbers
 *   record, record_len    the lent table for the answer's six numbers
 *
 * Returns
 *   0, 3, 4, 5 or 6       the message's answer
 *   TRACKSADDLE_NO_STATE  reading_len is not 8; nothing changes, and the message
 *                         has not ended
 */
uint32_t tracksaddle_read_end(size_t *reading, size_t reading_len,
                              uint32_t *record, size_t record_len);

/* Checks a guide book. books/README.md says what a book holds and how it is made.
 *
 *   book, book_len  the bytes; any bytes are fine
 *
 * Returns
 *   0  the book is good: its bytes keep every rule of the format
 *   1  the book is malformed: they break at least one
 *
 * The answer depends on the bytes alone, so a book that has passed once need not
 * be checked again. Judging does not rely on this call either: it checks the book
 * itself and answers 1 for a malformed one.
 *
 * The tables that it works with are on the stack: leave it 256 KB there.
 */
uint32_t tracksaddle_check_book(const uint8_t *book, size_t book_len);

/* A tally: how often each verdict number was given, for a day or whatever the
 * caller counts. It is 64 bytes that the caller keeps: for each of the numbers 0
 * to 15 a count of four bytes, little-endian, that of number i at byte 4i. Clear
 * it before the first verdict; 64 zero bytes are a cleared tally.
 *
 *   uint8_t tally[TRACKSADDLE_TALLY];
 *   tracksaddle_tally_clear(tally, TRACKSADDLE_TALLY);
 *   ...
 *   if (tracksaddle_tally_add(tally, TRACKSADDLE_TALLY, number) != 0) {
 *       // not counted
 *   }
 *
 * Since the last clearing each count is how often its number was answered 0, and
 * the counts sum to the number of adds answered 0 (sum them in 64 bits). A call
 * changes no byte but those of the tally. Two calls over the same bytes must not
 * run at the same time.
 */
#define TRACKSADDLE_TALLY 64

/* Adds one to the count of a verdict's number, and to no other.
 *
 *   tally, tally_len  the tally
 *   number            of the verdict, as tracksaddle_judge returns it
 *
 * Returns 0 if it was added, and otherwise the first of these that is so:
 *   1  tally_len is not 64
 *   2  number is above 15
 *   3  that count is full: it is 4,294,967,295, and stays so
 * Only 0 changes a byte.
 */
uint32_t tracksaddle_tally_add(uint8_t *tally, size_t tally_len, uint32_t number);

/* Makes every count 0.
 *
 * Returns
 *   0  cleared
 *   1  tally_len is not 64; no byte is changed
 */
uint32_t tracksaddle_tally_clear(uint8_t *tally, size_t tally_len);

#ifdef __cplusplus
}
#endif

#endif
