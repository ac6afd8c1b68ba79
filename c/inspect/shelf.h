/* The guide book to judge by: the one inside, or one from a file. */
#ifndef INSPECT_SHELF_H
#define INSPECT_SHELF_H

#include "files.h"
#include "guide.h"

/* A guide, and what is freed with it. */
struct shelf {
    struct guide guide;
    struct file file;
};

/* A null name is the book inside. Complains and answers false if the book cannot
 * be read or is malformed: then no message can be judged. */
bool take_guide(struct shelf *shelf, const char *name);

void free_shelf(struct shelf *shelf);

#endif
