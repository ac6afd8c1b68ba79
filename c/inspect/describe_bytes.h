/* Numbers 3, 4 and 5 in words: what is wrong with the bytes. */
#ifndef INSPECT_DESCRIBE_BYTES_H
#define INSPECT_DESCRIBE_BYTES_H

#include "finding.h"

void describe_bytes(const struct judgement *judgement, struct finding *finding);

#endif
