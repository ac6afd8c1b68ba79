/* Why a segment is out of place. A segment continues the instance of its parent
 * that is open, or, if it is a trigger, opens the next instance of its group. */
#include "walk.h"

#include <string.h>

static struct step against(enum obstacle obstacle, unsigned other)
{
    return (struct step){obstacle, other, 0};
}

/* The outermost group around the line that is not open, 0 if all are. */
static unsigned closed_group(const struct walk *walk, unsigned line)
{
    unsigned closed = 0;
    for (unsigned group = parent_line(walk->guide, line); group > 0;
         group = parent_line(walk->guide, group)) {
        if (walk->levels[guide_line(walk->guide, group).depth].line != group) {
            closed = group;
        }
    }
    return closed;
}

/* A required line behind the one reached at this depth and before the other, 0 if
 * there is none. */
static unsigned missing_line(const struct walk *walk, unsigned depth, unsigned before)
{
    for (unsigned line = walk->levels[depth].line + 1; line < before; line++) {
        struct guide_line read = guide_line(walk->guide, line);
        if (read.depth < depth) {
            return 0;
        }
        if (read.depth == depth && read.required) {
            return line;
        }
    }
    return 0;
}

/* What the instances inside that are left, and then this one, still require. */
static struct step missing_before(const struct walk *walk, unsigned depth,
                                  unsigned line)
{
    for (unsigned d = walk->deepest + 1; d-- > depth;) {
        unsigned before = d > depth ? line_count(walk->guide) : line;
        unsigned missing = missing_line(walk, d, before);
        if (missing > 0) {
            return (struct step){LINE_MISSING, missing, walk->levels[d].opened};
        }
    }
    return against(NO_OBSTACLE, 0);
}

static void move_to(struct walk *walk, unsigned depth, unsigned line)
{
    struct level *level = &walk->levels[depth];
    level->count = level->line == line ? level->count + 1 : 1;
    level->line = line;
    walk->deepest = depth;
    for (unsigned d = depth + 1; d < MOST_DEPTHS; d++) {
        memset(&walk->levels[d], 0, sizeof walk->levels[d]);
    }
}

struct step take_step(struct walk *walk, unsigned home, uint32_t segment)
{
    bool opens = is_trigger(walk->guide, home);
    unsigned line = opens ? home - 1 : home;
    struct guide_line read = guide_line(walk->guide, line);
    struct level reached = walk->levels[read.depth];
    unsigned closed = closed_group(walk, line);
    if (closed > 0) {
        return against(GROUP_NOT_OPEN, closed);
    }
    if (line < reached.line) {
        return against(ALREADY_PASSED, reached.line);
    }
    if (line == reached.line && reached.count == read.maximum) {
        return against(TOO_MANY, line);
    }
    struct step step = missing_before(walk, read.depth, line);
    if (step.obstacle == NO_OBSTACLE) {
        move_to(walk, read.depth, line);
        if (opens) {
            walk->levels[read.depth + 1] = (struct level){home, 1, segment};
            walk->deepest = read.depth + 1;
        }
    }
    return step;
}
