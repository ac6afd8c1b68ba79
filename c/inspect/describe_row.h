/* Numbers 0, 13, 14 and 15 in words: the Pruefidentifikator and its rows. */
#ifndef INSPECT_DESCRIBE_ROW_H
#define INSPECT_DESCRIBE_ROW_H

#include "finding.h"

/* Number 0. */
void describe_accepted(const struct judgement *judgement, struct finding *finding);

/* Number 13. */
void describe_identifier(const struct judgement *judgement, struct finding *finding);

/* Numbers 14 and 15. */
void describe_row(const struct judgement *judgement, struct finding *finding);

#endif
