/* What has been found out about a verdict. */
#include "finding.h"

void free_finding(struct finding *finding)
{
    free_text(&finding->answer);
    free_text(&finding->field_rule);
    free_text(&finding->row_rule);
    free_text(&finding->notes);
}

void show_segment(const struct judgement *judgement, struct finding *finding)
{
    uint32_t place = judgement->record.entries[PLACE];
    finding->has_segment = true;
    finding->segment = find_segment(judgement->message, place);
    finding->shown = finding->segment.part;
}

void mark_tag(struct finding *finding)
{
    finding->mark = (struct part){finding->segment.part.start, TAG_LENGTH};
}

void mark_component(const struct judgement *judgement, struct finding *finding,
                    uint32_t element, uint32_t component)
{
    finding->mark =
        component_of(judgement->message, finding->segment, element, component);
}

void append_instance(struct text *text, const struct guide *guide, unsigned group,
                     uint32_t trigger)
{
    append(text, " in ");
    append_line_name(text, guide, group);
    append(text, " that segment ");
    append_number(text, trigger);
    append(text, " opens");
}

void append_has(struct text *text, struct message message, struct part part)
{
    if (part.length == 0) {
        append(text, "has no value");
    } else {
        append(text, "is ");
        append_quoted(text, message.bytes + part.start, part.length);
    }
}
