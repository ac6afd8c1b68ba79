/* A verdict in words: which part describes it. */
#include "describing.h"

#include "describe_bytes.h"
#include "describe_field.h"
#include "describe_frame.h"
#include "describe_place.h"
#include "describe_row.h"

static void describe_others(const struct judgement *judgement, struct finding *finding)
{
    append(&finding->answer, "%s", number_words(judgement->record.entries[NUMBER]));
}

static void describe_by_number(const struct judgement *judgement,
                               struct finding *finding)
{
    switch (judgement->record.entries[NUMBER]) {
    case ACCEPTED: describe_accepted(judgement, finding); break;
    case SIZE_REFUSED:
    case NOT_WELL_FORMED:
    case TOO_MANY_SEGMENTS: describe_bytes(judgement, finding); break;
    case NO_FRAME:
    case WRONG_COUNT:
    case OTHER_REFERENCE: describe_frame(judgement, finding); break;
    case NO_HOME: describe_home(judgement, finding); break;
    case OUT_OF_PLACE: describe_sequence(judgement, finding); break;
    case FIELD_FAULT: describe_field(judgement, finding); break;
    case UNKNOWN_IDENTIFIER: describe_identifier(judgement, finding); break;
    case ROW_BROKEN:
    case OPEN: describe_row(judgement, finding); break;
    default: describe_others(judgement, finding); break;
    }
}

struct finding describe(const struct judgement *judgement)
{
    struct finding finding = {.identifier = -1};
    describe_by_number(judgement, &finding);
    return finding;
}

struct answers describe_answers(const struct judgement *judgement)
{
    struct answers answers = {0};
    for (uint8_t value = IS_FALSE; value <= IS_TRUE; value++) {
        struct judgement then = *judgement;
        then.record = judge_if(judgement, judgement->record.entries[CONDITION], value);
        struct finding finding = describe(&then);
        answers.record_if[value] = then.record;
        append_text(&answers.answer_if[value], &finding.answer);
        free_finding(&finding);
    }
    return answers;
}

void free_answers(struct answers *answers)
{
    free_text(&answers->answer_if[IS_FALSE]);
    free_text(&answers->answer_if[IS_TRUE]);
}
