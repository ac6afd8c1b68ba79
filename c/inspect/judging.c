/* Asking the library for its verdict. */
#include "judging.h"

#include "../tracksaddle.h"

#include <stdlib.h>
#include <string.h>

static struct record ask(const struct judgement *judgement, const uint8_t *conditions,
                         size_t entries)
{
    struct record record;
    tracksaddle_judge(judgement->message.bytes, judgement->message.length,
                      judgement->guide->bytes, judgement->guide->length, conditions,
                      condition_count(judgement->guide), judgement->starts, entries,
                      judgement->homes, entries, judgement->parents, entries,
                      record.entries, RECORD_LENGTH);
    return record;
}

/* The tables need as many entries as the message has segments, up to 999,999 each.
 * The library is asked first with tables of no entries: then number 6, whose place
 * is that count, comes before everything that needs tables, and so nobody else has
 * to count. They are allocated once, as three parts of one block: parts do not
 * overlap, as tracksaddle.h asks. */
struct judgement judge(struct message message, const struct guide *guide,
                       const uint8_t *conditions)
{
    uint32_t none[3] = {0, 0, 0};
    struct judgement judgement = {
        .message = message,
        .guide = guide,
        .conditions = conditions,
        .starts = &none[0],
        .homes = &none[1],
        .parents = &none[2],
    };
    judgement.record = ask(&judgement, conditions, 0);
    judgement.starts = judgement.homes = judgement.parents = NULL;
    if (judgement.record.entries[NUMBER] == TABLE_TOO_SHORT) {
        size_t count = judgement.record.entries[PLACE];
        judgement.segments = (uint32_t)count;
        judgement.starts = need_memory(3 * count * sizeof judgement.starts[0]);
        judgement.homes = judgement.starts + count;
        judgement.parents = judgement.homes + count;
        judgement.record = ask(&judgement, conditions, count);
    }
    return judgement;
}

/* The tables are written again, with what stands there: they depend on the message
 * and the book alone. */
struct record judge_if(const struct judgement *judgement, uint32_t condition,
                       uint8_t value)
{
    uint8_t conditions[MOST_CONDITIONS];
    memcpy(conditions, judgement->conditions, sizeof conditions);
    conditions[condition - 1] = value;
    return ask(judgement, conditions, judgement->segments);
}

bool is_placed(const struct judgement *judgement)
{
    uint32_t number = judgement->record.entries[NUMBER];
    return number == ACCEPTED || number > OUT_OF_PLACE;
}

void free_judgement(struct judgement *judgement)
{
    free(judgement->starts);
    judgement->starts = judgement->homes = judgement->parents = NULL;
}

const char *number_words(uint32_t number)
{
    static const char *const words[VERDICTS] = {
        [ACCEPTED] = "accepted",
        [BOOK_MALFORMED] = "the guide book is malformed",
        [CONDITIONS_DO_NOT_FIT] = "the conditions do not fit the guide book",
        [SIZE_REFUSED] = "empty or too long",
        [NOT_WELL_FORMED] = "not well-formed",
        [TOO_MANY_SEGMENTS] = "too many segments",
        [TABLE_TOO_SHORT] = "the tables are too short",
        [NO_FRAME] = "not one message from UNH to UNT",
        [WRONG_COUNT] = "UNT counts the segments wrongly",
        [OTHER_REFERENCE] = "UNT and UNH have different references",
        [NO_HOME] = "a segment that the guide does not have",
        [OUT_OF_PLACE] = "a segment out of place",
        [FIELD_FAULT] = "a field is at fault",
        [UNKNOWN_IDENTIFIER] = "the Prüfidentifikator is not in the guide",
        [ROW_BROKEN] = "a rule of the Prüfidentifikator is broken",
        [OPEN] = "a condition that is not known decides",
    };
    return number < VERDICTS ? words[number] : "unknown number";
}

const char *status_words(uint32_t number)
{
    return number == ACCEPTED ? "accepted" : number == OPEN ? "open" : "refused";
}

const char *value_words(uint8_t value)
{
    static const char *const words[] = {
        [IS_FALSE] = "false", [IS_TRUE] = "true", [IS_UNKNOWN] = "unknown"};
    return words[value];
}
