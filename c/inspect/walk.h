/* Why a segment is out of place (number 11). The library says which segment it is;
 * this walk through the guide's lines only finds the words for it. */
#ifndef INSPECT_WALK_H
#define INSPECT_WALK_H

#include "guide.h"

enum obstacle {
    NO_OBSTACLE,
    ALREADY_PASSED, /* other: the line that has been reached */
    GROUP_NOT_OPEN, /* other: the group in which the segment belongs */
    TOO_MANY,       /* other: the line or group that is used up */
    LINE_MISSING    /* other: the required line that is missing before */
};

struct step {
    enum obstacle obstacle;
    unsigned other;
    uint32_t opened; /* the segment that opened the instance with the missing line */
};

/* At each depth the line reached, how often in a row, and the segment that opened
 * the instance in which that is. */
struct level {
    unsigned line;
    uint32_t count;
    uint32_t opened;
};

struct walk {
    const struct guide *guide;
    struct level levels[MOST_DEPTHS];
    unsigned deepest;
};

/* Moves on by one segment with its home, or says what stands against it. */
struct step take_step(struct walk *walk, unsigned home, uint32_t segment);

#endif
