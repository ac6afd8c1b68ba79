/* The part of a segment that fits on a line of a terminal, around its mark. */
#ifndef INSPECT_EXCERPT_H
#define INSPECT_EXCERPT_H

#include "finding.h"

struct excerpt {
    struct part shown;
    bool is_cut_before;
    bool is_cut_after;
    size_t column; /* of the mark, in what is shown, and how wide it is */
    size_t width;
};

struct excerpt excerpt_of(const struct finding *finding);

/* Its text, with … where it is cut. */
void append_excerpt(struct text *text, struct message message, struct excerpt excerpt);

#endif
