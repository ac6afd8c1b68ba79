/* A tally as a table for a person: every number with its words, count, share and
 * bar, and the sum. */
#ifndef INSPECT_TALLY_TABLE_H
#define INSPECT_TALLY_TABLE_H

#include "output.h"
#include "tally.h"

void draw_tally(struct output *output, const char *name, const struct tally *tally);

#endif
