/* A verdict as text for a person. */
#include "report.h"

#include "describing.h"
#include "excerpt.h"

#include <string.h>

enum colour colour_of(uint32_t number)
{
    return number == ACCEPTED ? GREEN : number == OPEN ? YELLOW : RED;
}

/* "refused (12): LIN 1.1 must be a number, and is "1,5"". */
static void append_answer(struct output *output, uint32_t number,
                          const struct text *answer)
{
    append_painted(output, colour_of(number), status_words(number));
    append(&output->text, " (%u): ", number);
    append_text(&output->text, answer);
    append(&output->text, "\n");
}

/* The segment's number and text, with the place marked under it. */
static void append_place(struct output *output, const struct judgement *judgement,
                         const struct finding *finding)
{
    struct text *text = &output->text;
    struct excerpt excerpt = excerpt_of(finding);
    append(text, "  segment ");
    append_number(text, finding->segment.number);
    if (judgement->segments > 0) {
        append(text, " of ");
        append_number(text, judgement->segments);
    }
    append(text, ", byte offset ");
    append_number(text, finding->mark.start);
    append(text, "\n    ");
    append_excerpt(text, judgement->message, excerpt);
    append(text, "\n    ");
    append_times(text, " ", excerpt.column);
    append_times(text, "^", excerpt.width);
    append(text, "\n");
}

static void append_guide(struct text *text, const struct guide *guide,
                         const struct finding *finding)
{
    append(text, "  guide line %u: ", finding->line);
    append_line_name(text, guide, finding->line);
    append(text, "\n");
    if (finding->has_field) {
        append(text, "  field %u.%u", finding->element, finding->component);
        append_words(text, field_words(&guide->names, finding->line, finding->element,
                                       finding->component));
        append(text, ": ");
        append_text(text, &finding->field_rule);
        append(text, "\n");
    }
}

/* The row's rule, and what is known of its conditions. */
static void append_row(struct text *text, const struct judgement *judgement,
                       const struct finding *finding)
{
    const struct guide *guide = judgement->guide;
    unsigned identifier = (unsigned)finding->identifier;
    struct row row = guide_row(guide, identifier, finding->line);
    append(text, "  rule of ");
    append_identifier(text, guide, identifier);
    append(text, ": ");
    append_text(text, &finding->row_rule);
    append(text, "\n");
    for (unsigned i = 0; i < row.count; i++) {
        unsigned condition = row.literals[i].condition;
        append(text, "    condition %u is %s", condition,
               value_words(judgement->conditions[condition - 1]));
        append_words(text, condition_words(&guide->names, condition));
        append(text, "\n");
    }
}

static void append_answers(struct output *output, const struct judgement *judgement)
{
    struct answers answers = describe_answers(judgement);
    for (int value = IS_TRUE; value >= IS_FALSE; value--) {
        append(&output->text, "  if condition %u is %s%s",
               judgement->record.entries[CONDITION], value_words((uint8_t)value),
               value == IS_TRUE ? ":  " : ": ");
        append_answer(output, answers.record_if[value].entries[NUMBER],
                      &answers.answer_if[value]);
    }
    free_answers(&answers);
}

/* Each note is a line of its own. */
static void append_notes(struct text *text, const struct text *notes)
{
    size_t at = 0;
    while (at < notes->length) {
        const char *line = notes->bytes + at;
        const char *end = memchr(line, '\n', notes->length - at);
        size_t length = (size_t)(end - line) + 1;
        append(text, "  ");
        append_bytes(text, line, length);
        at += length;
    }
}

void report(struct output *output, const char *name, const struct judgement *judgement)
{
    uint32_t number = judgement->record.entries[NUMBER];
    struct finding finding = describe(judgement);
    append_name(&output->text, name, strlen(name));
    append(&output->text, ": ");
    append_answer(output, number, &finding.answer);
    if (finding.has_segment) {
        append_place(output, judgement, &finding);
    }
    if (finding.line > 0) {
        append_guide(&output->text, judgement->guide, &finding);
    }
    if (finding.line > 0 && finding.identifier >= 0) {
        append_row(&output->text, judgement, &finding);
    }
    if (number == OPEN) {
        append_answers(output, judgement);
    }
    append_notes(&output->text, &finding.notes);
    free_finding(&finding);
}
