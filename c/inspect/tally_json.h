/* A tally as one line of JSON. */
#ifndef INSPECT_TALLY_JSON_H
#define INSPECT_TALLY_JSON_H

#include "output.h"
#include "tally.h"

void report_tally_json(struct output *output, const char *name,
                       const struct tally *tally);

/* A file that is no tally, or cannot be read: every fact is null but the file and the
 * error. */
void report_tally_json_error(struct output *output, const char *name,
                             const struct text *error);

#endif
