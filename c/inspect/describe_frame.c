/* Numbers 7, 8 and 9 in words: what is wrong with UNH and UNT. */
#include "describe_frame.h"

static void append_tag(struct text *text, const struct judgement *judgement,
                       struct segment segment)
{
    append_message(text, judgement->message.bytes + segment.part.start, TAG_LENGTH);
}

static void describe_ends(const struct judgement *judgement, struct finding *finding)
{
    struct text *answer = &finding->answer;
    struct segment segment = finding->segment;
    mark_tag(finding);
    if (segment.number == 1 && !has_tag(judgement->message, segment, "UNH")) {
        append(answer, "the first segment must be UNH, and is ");
        append_tag(answer, judgement, segment);
    } else if (judgement->segments == 1) {
        append(answer, "UNH is the only segment");
    } else if (segment.number == judgement->segments) {
        append(answer, "the last segment must be UNT, and is ");
        append_tag(answer, judgement, segment);
    } else {
        append_tag(answer, judgement, segment);
        append(answer, " stands amid the segments: a file holds one message");
    }
    if (segment.number == 1 && has_tag(judgement->message, segment, "UNB")) {
        append(&finding->notes, "The file begins with UNB: it is an interchange. A "
                                "message runs from UNH to UNT.\n");
    }
}

static void describe_count(const struct judgement *judgement, struct finding *finding)
{
    mark_component(judgement, finding, 1, 1);
    append(&finding->answer, "the message has ");
    append_number(&finding->answer, judgement->segments);
    append(&finding->answer, " segments, and the count in UNT ");
    append_has(&finding->answer, judgement->message, finding->mark);
    if (finding->mark.length > 1 &&
        judgement->message.bytes[finding->mark.start] == '0') {
        append(&finding->notes, "The count is written without leading zeros.\n");
    }
}

/* What is quoted is cut: long references may look the same. */
static void note_difference(struct message message, struct part one, struct part other,
                            struct text *notes)
{
    size_t same = 0;
    while (same < one.length && same < other.length &&
           message.bytes[one.start + same] == message.bytes[other.start + same]) {
        same++;
    }
    if (same >= LONGEST_QUOTED) {
        append(notes, "The first ");
        append_number(notes, same);
        append(notes, " bytes of the two are the same.\n");
    }
}

static void describe_references(const struct judgement *judgement,
                                struct finding *finding)
{
    struct segment head = find_segment(judgement->message, 1);
    struct part reference = component_of(judgement->message, head, 1, 1);
    mark_component(judgement, finding, 2, 1);
    append(&finding->answer, "the reference in UNH ");
    append_has(&finding->answer, judgement->message, reference);
    append(&finding->answer, ", and the one in UNT ");
    append_has(&finding->answer, judgement->message, finding->mark);
    note_difference(judgement->message, reference, finding->mark, &finding->notes);
}

void describe_frame(const struct judgement *judgement, struct finding *finding)
{
    show_segment(judgement, finding);
    switch (judgement->record.entries[NUMBER]) {
    case WRONG_COUNT: describe_count(judgement, finding); break;
    case OTHER_REFERENCE: describe_references(judgement, finding); break;
    default: describe_ends(judgement, finding); break;
    }
}
