/* Numbers 10 and 11 in words: a segment that the guide does not have, or not
 * here. */
#include "describe_place.h"

#include "walk.h"

static void note_line(const struct guide *guide, unsigned line, struct text *notes)
{
    struct guide_line read = guide_line(guide, line);
    append(notes, "guide line %u: ", line);
    append_line_name(notes, guide, line);
    if (read.codes.count > 0) {
        append(notes, " with ");
        append_codes(notes, guide, read.codes);
    }
    append(notes, "\n");
}

/* Lines of one tag have the same selector place, so any of them tells it. */
void describe_home(const struct judgement *judgement, struct finding *finding)
{
    struct guide_line found = {.element = 0};
    show_segment(judgement, finding);
    mark_tag(finding);
    for (unsigned line = 1; line <= line_count(judgement->guide); line++) {
        struct guide_line read = guide_line(judgement->guide, line);
        if (has_tag(judgement->message, finding->segment, read.tag)) {
            found = read;
            note_line(judgement->guide, line, &finding->notes);
        }
    }
    append(&finding->answer, "the guide has no ");
    append_message(&finding->answer, judgement->message.bytes + finding->mark.start,
                   finding->mark.length);
    if (found.element > 0) {
        mark_component(judgement, finding, found.element, found.component);
        append(&finding->answer, " whose component %u.%u ", found.element,
               found.component);
        append_has(&finding->answer, judgement->message, finding->mark);
    }
}

/* The walk up to the segment at the verdict's place. Every segment has a home:
 * otherwise the number would be 10. */
static struct step obstacle_at(const struct judgement *judgement, unsigned *home)
{
    struct walk walk = {.guide = judgement->guide};
    struct segment segment = find_segment(judgement->message, 1);
    for (;;) {
        *home = home_of(judgement->guide, judgement->message, segment);
        struct step step = take_step(&walk, *home, segment.number);
        if (segment.number == judgement->record.entries[PLACE]) {
            return step;
        }
        segment = next_segment(judgement->message, segment);
    }
}

static void append_missing(struct text *answer, const struct guide *guide,
                           struct step step)
{
    append_line_name(answer, guide, step.other);
    append(answer, ", which is required, is missing before this segment");
    if (step.opened > 0) {
        append(answer, ",");
        append_instance(answer, guide, parent_line(guide, step.other), step.opened);
    }
}

static void append_not_open(struct text *answer, const struct guide *guide,
                            struct step step)
{
    append(answer, " belongs in ");
    append_line_name(answer, guide, step.other);
    append(answer, ", which opens with ");
    append_short_name(answer, guide, step.other + 1);
    append(answer, " and is not open here");
}

static void append_too_many(struct text *answer, const struct guide *guide,
                            struct step step)
{
    struct guide_line used_up = guide_line(guide, step.other);
    if (used_up.is_group) {
        append(answer, " opens ");
        append_line_name(answer, guide, step.other);
        append(answer, " once too often: ");
    } else {
        append(answer, " stands here once too often: ");
    }
    append_number(answer, used_up.maximum);
    append(answer, " at most");
}

void describe_sequence(const struct judgement *judgement, struct finding *finding)
{
    struct text *answer = &finding->answer;
    struct step step = obstacle_at(judgement, &finding->line);
    show_segment(judgement, finding);
    mark_tag(finding);
    if (step.obstacle != NO_OBSTACLE && step.other != finding->line) {
        append(&finding->notes, "%s", step.obstacle == LINE_MISSING ? "missing: " : "");
        note_line(judgement->guide, step.other, &finding->notes);
    }
    if (step.obstacle == LINE_MISSING) {
        append_missing(answer, judgement->guide, step);
        return;
    }
    append_line_name(answer, judgement->guide, finding->line);
    switch (step.obstacle) {
    case ALREADY_PASSED:
        append(answer, " comes too late: the guide has it before ");
        append_line_name(answer, judgement->guide, step.other);
        break;
    case GROUP_NOT_OPEN: append_not_open(answer, judgement->guide, step); break;
    case TOO_MANY: append_too_many(answer, judgement->guide, step); break;
    default: append(answer, " may not stand here"); break;
    }
}
