/* A verdict as one line of JSON, with the same names for every file. The number
 * comes first, so that plain tools can count it. */
#ifndef INSPECT_JSON_H
#define INSPECT_JSON_H

#include "judging.h"
#include "output.h"

void report_json(struct output *output, const char *name,
                 const struct judgement *judgement, bool with_tree);

/* A file that could not be read: every fact is null but the file and the error. */
void report_json_error(struct output *output, const char *name, const char *error,
                       bool with_tree);

#endif
