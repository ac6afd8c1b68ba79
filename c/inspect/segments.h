/* Finding one's way in a message's bytes, to show what a verdict speaks of. The
 * verdict itself comes from the library; components are found by it too. */
#ifndef INSPECT_SEGMENTS_H
#define INSPECT_SEGMENTS_H

#include "guide.h"

#include <stddef.h>
#include <stdint.h>

/* Service characters. */
enum { COMPONENT_MARK = ':', ELEMENT_MARK = '+', END = '\'', RELEASE = '?' };

struct message {
    const uint8_t *bytes;
    size_t length;
};

/* Bytes of a message. */
struct part {
    size_t start;
    size_t length;
};

/* Numbers count from 1; the closing ' belongs to the segment. */
struct segment {
    uint32_t number;
    struct part part;
};

/* The segment of this number, in a message that is well-formed. */
struct segment find_segment(struct message message, uint32_t number);

/* The segment that has begun at this offset, or begins there. What stands before
 * the offset is well-formed; the segment is taken to end at the next ', at the
 * latest with the message. */
struct segment segment_around(struct message message, size_t offset);

/* The segment that follows. */
struct segment next_segment(struct message message, struct segment segment);

/* Whether the segment is of this tag. No segment is of a group's, which is empty. */
bool has_tag(struct message message, struct segment segment, const char *tag);

/* A component of the segment that starts there. */
struct part component_of(struct message message, struct segment segment,
                         uint32_t element, uint32_t component);

/* A component's value: its bytes with each releasing ? removed. */
struct text value_of(struct message message, struct part part);

/* The segment's line in the guide, 0 if it has none. */
unsigned home_of(const struct guide *guide, struct message message,
                 struct segment segment);

#endif
