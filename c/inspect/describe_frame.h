/* Numbers 7, 8 and 9 in words: what is wrong with UNH and UNT. */
#ifndef INSPECT_DESCRIBE_FRAME_H
#define INSPECT_DESCRIBE_FRAME_H

#include "finding.h"

void describe_frame(const struct judgement *judgement, struct finding *finding);

#endif
