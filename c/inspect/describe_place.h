/* Numbers 10 and 11 in words: a segment that the guide does not have, or not
 * here. */
#ifndef INSPECT_DESCRIBE_PLACE_H
#define INSPECT_DESCRIBE_PLACE_H

#include "finding.h"

/* Number 10. */
void describe_home(const struct judgement *judgement, struct finding *finding);

/* Number 11. */
void describe_sequence(const struct judgement *judgement, struct finding *finding);

#endif
