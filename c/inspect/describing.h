/* A verdict in words: the facts behind its six numbers, found once and then
 * shown. */
#ifndef INSPECT_DESCRIBING_H
#define INSPECT_DESCRIBING_H

#include "finding.h"

struct finding describe(const struct judgement *judgement);

/* For number 15: what the verdict is if the condition is so. */
struct answers {
    struct record record_if[2];
    struct text answer_if[2]; /* by IS_FALSE and IS_TRUE */
};

struct answers describe_answers(const struct judgement *judgement);

void free_answers(struct answers *answers);

#endif
