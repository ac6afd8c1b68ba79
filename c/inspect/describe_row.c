/* Numbers 0, 13, 14 and 15 in words: the Pruefidentifikator and its rows. */
#include "describe_row.h"

/* As many Pruefidentifikatoren are listed in a sentence. */
enum { MOST_LISTED = 12 };

/* Where the Pruefidentifikator stands in its segment. */
enum { IDENTIFIER_ELEMENT = 1, IDENTIFIER_COMPONENT = 2 };

/* The segment that carries the Pruefidentifikator: the one with that home. */
static struct segment carrier_of(const struct judgement *judgement)
{
    uint32_t number = 1;
    while (number < judgement->segments &&
           judgement->homes[number - 1] != carrier_line(judgement->guide)) {
        number++;
    }
    return (struct segment){number, {judgement->starts[number - 1], 0}};
}

static int identifier_of(const struct judgement *judgement)
{
    struct message message = judgement->message;
    struct part part = component_of(message, carrier_of(judgement), IDENTIFIER_ELEMENT,
                                    IDENTIFIER_COMPONENT);
    return find_identifier(judgement->guide, message.bytes + part.start, part.length);
}

void describe_accepted(const struct judgement *judgement, struct finding *finding)
{
    const char *title = book_title(&judgement->guide->names);
    finding->identifier = identifier_of(judgement);
    append_number(&finding->answer, judgement->segments);
    append(&finding->answer, " segments, ");
    append(&finding->answer, "%s%s", title, title[0] == '\0' ? "" : ", ");
    append(&finding->answer, "Prüfidentifikator ");
    append_identifier(&finding->answer, judgement->guide,
                      (unsigned)finding->identifier);
}

void describe_identifier(const struct judgement *judgement, struct finding *finding)
{
    const struct guide *guide = judgement->guide;
    unsigned count = identifier_count(guide);
    show_segment(judgement, finding);
    mark_component(judgement, finding, IDENTIFIER_ELEMENT, IDENTIFIER_COMPONENT);
    finding->line = carrier_line(guide);
    append(&finding->answer, "the Prüfidentifikator ");
    append_has(&finding->answer, judgement->message, finding->mark);
    append(&finding->answer, ", and the guide has ");
    for (unsigned i = 0; i < count && i < MOST_LISTED; i++) {
        append(&finding->answer, "%s%.*s", i == 0 ? "" : ", ", IDENTIFIER_LENGTH,
               identifier_digits(guide, i));
    }
    if (count > MOST_LISTED) {
        append(&finding->answer, " and %u more", count - MOST_LISTED);
    }
}

/* "[1] and not [2]". */
static void append_expression(struct text *text, const struct row *row)
{
    for (unsigned i = 0; i < row->count; i++) {
        append(text, "%s%s[%u]", i == 0 ? "" : row->any ? " or " : " and ",
               row->literals[i].negated ? "not " : "", row->literals[i].condition);
    }
}

static void append_row_rule(struct text *rule, const struct row *row)
{
    static const char *const modes[] = {
        [NEVER] = "never",
        [MUST] = "must",
        [MAY] = "may",
        [MUST_IF] = "must if ",
        [MAY_IF] = "may if ",
    };
    append(rule, "%s", modes[row->mode]);
    append_expression(rule, row);
    if (row->mode == MUST_IF || row->mode == MAY_IF) {
        append(rule, ", otherwise never");
    }
}

/* Where the row applies: in an instance of the line's group, or in the message. */
static void append_where(struct text *answer, const struct judgement *judgement,
                         bool is_present)
{
    uint32_t place = judgement->record.entries[PLACE];
    unsigned group = parent_line(judgement->guide, judgement->record.entries[LINE]);
    if (group == 0) {
        append(answer, " in the message");
    } else {
        append_instance(answer, judgement->guide, group,
                        is_present ? judgement->parents[place - 1] : place);
    }
}

/* A present line's place is its own first segment, which for a group is its
 * trigger, on the next line; otherwise it is the parent's trigger. */
static bool is_present(const struct judgement *judgement)
{
    uint32_t line = judgement->record.entries[LINE];
    uint32_t home = judgement->homes[judgement->record.entries[PLACE] - 1];
    return home == (guide_line(judgement->guide, line).is_group ? line + 1 : line);
}

static void append_row_answer(struct text *answer, const struct judgement *judgement)
{
    bool present = is_present(judgement);
    uint32_t condition = judgement->record.entries[CONDITION];
    append(answer, "%s", condition > 0 ? "whether " : "");
    append_line_name(answer, judgement->guide, judgement->record.entries[LINE]);
    if (condition > 0) {
        append(answer, present ? " may stand" : " must stand");
    } else {
        append(answer, present ? " must not stand" : " is missing");
    }
    append_where(answer, judgement, present);
    if (condition > 0) {
        append(answer, " depends on condition %u, which is not known", condition);
    }
}

void describe_row(const struct judgement *judgement, struct finding *finding)
{
    finding->line = judgement->record.entries[LINE];
    finding->identifier = identifier_of(judgement);
    struct row row =
        guide_row(judgement->guide, (unsigned)finding->identifier, finding->line);
    show_segment(judgement, finding);
    mark_tag(finding);
    append_row_answer(&finding->answer, judgement);
    append_row_rule(&finding->row_rule, &row);
}
