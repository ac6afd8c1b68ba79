/* The part of a segment that fits on a line of a terminal. */
#include "excerpt.h"

/* So many bytes are shown, each in a column, and so many of them before a mark
 * that lies far inside. */
enum { MOST_SHOWN = 96, SHOWN_BEFORE_MARK = 48 };

static size_t least(size_t a, size_t b)
{
    return a < b ? a : b;
}

/* Behind the mark as much is shown as there is room for, and a long segment's end
 * fills the line. */
static size_t first_shown(struct part segment, struct part mark)
{
    size_t end = segment.start + segment.length;
    size_t before = least(mark.start - segment.start, SHOWN_BEFORE_MARK);
    if (segment.length <= MOST_SHOWN) {
        return segment.start;
    }
    return least(mark.start - before, end - MOST_SHOWN);
}

struct excerpt excerpt_of(const struct finding *finding)
{
    struct part segment = finding->shown;
    struct part mark = finding->mark;
    size_t first = first_shown(segment, mark);
    size_t end = segment.start + segment.length;
    size_t length = least(end - first, MOST_SHOWN);
    size_t column = mark.start - first;
    size_t room = length > column ? length - column : 1;
    size_t width = mark.length == 0 ? 1 : least(mark.length, room);
    return (struct excerpt){
        .shown = {first, length},
        .is_cut_before = first > segment.start,
        .is_cut_after = first + length < end,
        .column = column + (first > segment.start ? 1 : 0),
        .width = width,
    };
}

void append_excerpt(struct text *text, struct message message, struct excerpt excerpt)
{
    append(text, "%s", excerpt.is_cut_before ? "…" : "");
    append_message(text, message.bytes + excerpt.shown.start, excerpt.shown.length);
    append(text, "%s", excerpt.is_cut_after ? "…" : "");
}
