/* Number 12 in words: which rule of the field failed. */
#ifndef INSPECT_DESCRIBE_FIELD_H
#define INSPECT_DESCRIBE_FIELD_H

#include "finding.h"

void describe_field(const struct judgement *judgement, struct finding *finding);

#endif
