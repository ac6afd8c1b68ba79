/* A verdict as text for a person: the answer first, then where and why. */
#ifndef INSPECT_REPORT_H
#define INSPECT_REPORT_H

#include "judging.h"
#include "output.h"

void report(struct output *output, const char *name, const struct judgement *judgement);

/* The verdict's colour, wherever it is shown. */
enum colour colour_of(uint32_t number);

#endif
