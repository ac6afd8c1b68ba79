/* Finding one's way in a message's bytes. */
#include "segments.h"

#include "../tracksaddle.h"

#include <string.h>

/* Just behind the ' that ends the segment in which this offset lies. */
static size_t end_of_segment(struct message message, size_t at)
{
    while (at < message.length && message.bytes[at] != END) {
        at += message.bytes[at] == RELEASE ? 2 : 1;
    }
    return at < message.length ? at + 1 : message.length;
}

static struct segment segment_from(struct message message, uint32_t number,
                                   size_t start)
{
    size_t end = end_of_segment(message, start);
    return (struct segment){number, {start, end - start}};
}

struct segment next_segment(struct message message, struct segment segment)
{
    size_t start = segment.part.start + segment.part.length;
    return segment_from(message, segment.number + 1, start);
}

struct segment find_segment(struct message message, uint32_t number)
{
    struct segment segment = segment_from(message, 1, 0);
    while (segment.number < number && segment.part.length > 0) {
        segment = next_segment(message, segment);
    }
    return segment;
}

struct segment segment_around(struct message message, size_t offset)
{
    struct segment segment = {1, {0, 0}};
    for (size_t at = 0; at < offset; at++) {
        if (message.bytes[at] == RELEASE) {
            at++;
        } else if (message.bytes[at] == END) {
            segment.number++;
            segment.part.start = at + 1;
        }
    }
    size_t end = offset;
    while (end < message.length && message.bytes[end] != END) {
        end++;
    }
    end += end < message.length ? 1 : 0;
    segment.part.length = end - segment.part.start;
    return segment;
}

bool has_tag(struct message message, struct segment segment, const char *tag)
{
    return strncmp((const char *)message.bytes + segment.part.start, tag,
                   TAG_LENGTH) == 0;
}

struct part component_of(struct message message, struct segment segment,
                         uint32_t element, uint32_t component)
{
    size_t part[2];
    tracksaddle_find_component(message.bytes, message.length, segment.part.start,
                               element, component, part, 2);
    return (struct part){part[0], part[1]};
}

struct text value_of(struct message message, struct part part)
{
    struct text value = {NULL, 0, 0};
    const char *bytes = (const char *)message.bytes + part.start;
    for (size_t at = 0; at < part.length; at++) {
        if (bytes[at] == RELEASE && at + 1 < part.length) {
            at++;
        }
        append_bytes(&value, bytes + at, 1);
    }
    return value;
}

/* The selector's component is looked up for each line of the tag: a guide has few
 * such lines. */
unsigned home_of(const struct guide *guide, struct message message,
                 struct segment segment)
{
    for (unsigned line = 1; line <= line_count(guide); line++) {
        struct guide_line read = guide_line(guide, line);
        if (!has_tag(message, segment, read.tag)) {
            continue;
        }
        struct part part =
            component_of(message, segment, read.element, read.component);
        if (read.element == 0 ||
            has_code(guide, read.codes, message.bytes + part.start, part.length)) {
            return line;
        }
    }
    return 0;
}
