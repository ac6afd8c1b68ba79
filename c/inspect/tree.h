/* The message's tree, with the guide's names. */
#ifndef INSPECT_TREE_H
#define INSPECT_TREE_H

#include "judging.h"
#include "output.h"

/* A line for each segment, and one above each instance of a group. The segment at
 * the place of a fault or of an open row is pointed at. */
void draw_tree(struct output *output, const struct judgement *judgement);

#endif
