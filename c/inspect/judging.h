/* Asking the library for its verdict, with tables of the right size. */
#ifndef INSPECT_JUDGING_H
#define INSPECT_JUDGING_H

#include "guide.h"
#include "segments.h"

/* The record's entries, and the most bytes of a message. */
enum { NUMBER, PLACE, LINE, ELEMENT, COMPONENT, CONDITION, RECORD_LENGTH };
enum { MOST_MESSAGE_BYTES = 16777216 };

enum {
    ACCEPTED = 0,
    BOOK_MALFORMED = 1,
    CONDITIONS_DO_NOT_FIT = 2,
    SIZE_REFUSED = 3,
    NOT_WELL_FORMED = 4,
    TOO_MANY_SEGMENTS = 5,
    TABLE_TOO_SHORT = 6,
    NO_FRAME = 7,
    WRONG_COUNT = 8,
    OTHER_REFERENCE = 9,
    NO_HOME = 10,
    OUT_OF_PLACE = 11,
    FIELD_FAULT = 12,
    UNKNOWN_IDENTIFIER = 13,
    ROW_BROKEN = 14,
    OPEN = 15,
    VERDICTS /* how many there are */
};

/* What is known of a condition. */
enum { IS_FALSE = 0, IS_TRUE = 1, IS_UNKNOWN = 2 };

struct record {
    uint32_t entries[RECORD_LENGTH];
};

/* A message, the guide that it is judged by, and what came of it. The tables are
 * there if is_placed says so. */
struct judgement {
    struct message message;
    const struct guide *guide;
    const uint8_t *conditions; /* MOST_CONDITIONS bytes; the guide's count is used */
    struct record record;
    uint32_t segments; /* 0 if not counted: numbers 1 to 5 */
    uint32_t *starts;
    uint32_t *homes;
    uint32_t *parents;
};

struct judgement judge(struct message message, const struct guide *guide,
                       const uint8_t *conditions);

/* The record if this condition were known to be so. */
struct record judge_if(const struct judgement *judgement, uint32_t condition,
                       uint8_t value);

bool is_placed(const struct judgement *judgement);

void free_judgement(struct judgement *judgement);

/* A few words for the number, as "a field is at fault". */
const char *number_words(uint32_t number);

/* "accepted", "refused" or "open". */
const char *status_words(uint32_t number);

/* "false", "true" or "unknown": what is known of a condition. */
const char *value_words(uint8_t value);

#endif
