/* A tally in a file, to which several inspectors may add at the same time: none of
 * them loses what another has added, and one that is killed leaves the bytes from
 * before or those from after.
 *
 * Each call opens the file by its name: a tally that was moved away is over, and the
 * next one begins. Each answers false if something stands against it, and then says
 * in error what; a file that is no tally is left as it is. */
#ifndef INSPECT_TALLY_FILE_H
#define INSPECT_TALLY_FILE_H

#include "tally.h"

/* Whether verdicts can be added: so it is known before the first one. A tally that
 * is not there is made. */
bool take_tally_file(const char *name, struct text *error);

/* The same, and adds a verdict. */
bool add_to_tally_file(const char *name, uint32_t number, struct text *error);

/* Only reads. */
bool read_tally_file(const char *name, struct tally *tally, struct text *error);

#endif
