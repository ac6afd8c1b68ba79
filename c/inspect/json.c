/* A verdict as one line of JSON. */
#include "json.h"

#include "describing.h"
#include "excerpt.h"
#include "facts.h"

#include <string.h>

static const char *const record_names[RECORD_LENGTH] = {
    "number", "place", "line", "element", "component", "condition",
};

/* Without braces: other facts follow. */
static void add_record(struct text *text, const struct record *record)
{
    for (int i = 0; i < RECORD_LENGTH; i++) {
        add_number(text, record_names[i], record->entries[i]);
    }
    add_words(text, "status", status_words(record->entries[NUMBER]));
    add_words(text, "verdict", number_words(record->entries[NUMBER]));
}

static void add_place(struct text *text, struct message message,
                      const struct finding *finding)
{
    if (!finding->has_segment) {
        add_null(text, "segment");
        add_null(text, "mark");
        return;
    }
    struct text shown = {NULL, 0, 0};
    append_excerpt(&shown, message, excerpt_of(finding));
    append(text, ",\"segment\":{\"number\":%u", finding->segment.number);
    add_number(text, "offset", finding->segment.part.start);
    add_number(text, "length", finding->segment.part.length);
    add_text(text, "text", &shown);
    append(text, "},\"mark\":{\"offset\":%zu", finding->mark.start);
    add_number(text, "length", finding->mark.length);
    append(text, "}");
    free_text(&shown);
}

static void add_guide(struct text *text, const struct guide *guide,
                      const struct finding *finding)
{
    if (finding->line == 0) {
        add_null(text, "guide");
        add_null(text, "field");
        return;
    }
    const char *name = line_name(&guide->names, finding->line);
    struct guide_line line = guide_line(guide, finding->line);
    append(text, ",\"guide\":{\"line\":%u", finding->line);
    add_words(text, "name", name[0] == '\0' ? line.tag : name);
    add_words(text, "words", line_words(&guide->names, finding->line));
    append(text, "}");
    if (!finding->has_field) {
        add_null(text, "field");
        return;
    }
    append(text, ",\"field\":{\"element\":%u", finding->element);
    add_number(text, "component", finding->component);
    add_words(text, "words", field_words(&guide->names, finding->line, finding->element,
                                         finding->component));
    add_text(text, "rule", &finding->field_rule);
    append(text, "}");
}

static void add_conditions(struct text *text, const struct judgement *judgement,
                           const struct row *row)
{
    add_key(text, "conditions");
    append(text, "[");
    for (unsigned i = 0; i < row->count; i++) {
        unsigned condition = row->literals[i].condition;
        append(text, "%s{\"number\":%u", i == 0 ? "" : ",", condition);
        add_words(text, "value", value_words(judgement->conditions[condition - 1]));
        add_words(text, "words",
                  condition_words(&judgement->guide->names, condition));
        append(text, "}");
    }
    append(text, "]");
}

static void add_identifier(struct text *text, const struct judgement *judgement,
                           const struct finding *finding)
{
    if (finding->identifier < 0) {
        add_null(text, "identifier");
        add_null(text, "row");
        return;
    }
    const struct guide *guide = judgement->guide;
    unsigned identifier = (unsigned)finding->identifier;
    const char *digits = identifier_digits(guide, identifier);
    append(text, ",\"identifier\":{\"digits\":\"%.*s\"", IDENTIFIER_LENGTH, digits);
    add_words(text, "words", identifier_words(&guide->names, digits));
    append(text, "}");
    if (finding->line == 0) {
        add_null(text, "row");
        return;
    }
    struct row row = guide_row(guide, identifier, finding->line);
    append(text, ",\"row\":{\"rule\":");
    add_string(text, finding->row_rule.bytes, finding->row_rule.length);
    add_conditions(text, judgement, &row);
    append(text, "}");
}

static void add_answers(struct text *text, const struct judgement *judgement)
{
    static const char *const keys[] = {[IS_FALSE] = "if_false", [IS_TRUE] = "if_true"};
    if (judgement->record.entries[NUMBER] != OPEN) {
        add_null(text, keys[IS_TRUE]);
        add_null(text, keys[IS_FALSE]);
        return;
    }
    struct answers answers = describe_answers(judgement);
    for (int value = IS_TRUE; value >= IS_FALSE; value--) {
        add_key(text, keys[value]);
        append(text, "{");
        add_record(text, &answers.record_if[value]);
        add_text(text, "answer", &answers.answer_if[value]);
        append(text, "}");
    }
    free_answers(&answers);
}

static void add_notes(struct text *text, const struct text *notes)
{
    add_key(text, "notes");
    append(text, "[");
    for (size_t at = 0; at < notes->length;) {
        const char *line = notes->bytes + at;
        const char *end = memchr(line, '\n', notes->length - at);
        append(text, "%s", at == 0 ? "" : ",");
        add_string(text, line, (size_t)(end - line));
        at += (size_t)(end - line) + 1;
    }
    append(text, "]");
}

static void add_tree(struct output *output, const struct judgement *judgement)
{
    add_key(&output->text, "tree");
    if (!is_placed(judgement)) {
        append(&output->text, "null");
        return;
    }
    append(&output->text, "[");
    for (uint32_t i = 0; i < judgement->segments; i++) {
        append(&output->text, "%s{\"offset\":%u,\"line\":%u,\"parent\":%u}",
               i == 0 ? "" : ",", judgement->starts[i], judgement->homes[i],
               judgement->parents[i]);
        write_when_long(output);
    }
    append(&output->text, "]");
}

/* A file over the limit was not read to its end: nobody knows its length. */
static void add_sizes(struct text *text, const struct judgement *judgement)
{
    if (judgement->message.length > MOST_MESSAGE_BYTES) {
        add_null(text, "bytes");
    } else {
        add_number(text, "bytes", judgement->message.length);
    }
    if (judgement->segments == 0) {
        add_null(text, "segments");
    } else {
        add_number(text, "segments", judgement->segments);
    }
}

void report_json(struct output *output, const char *name,
                 const struct judgement *judgement, bool with_tree)
{
    struct text *text = &output->text;
    struct finding finding = describe(judgement);
    append(text, "{");
    add_record(text, &judgement->record);
    add_file(text, name);
    add_words(text, "book", book_title(&judgement->guide->names));
    add_text(text, "answer", &finding.answer);
    add_sizes(text, judgement);
    add_place(text, judgement->message, &finding);
    add_guide(text, judgement->guide, &finding);
    add_identifier(text, judgement, &finding);
    add_answers(text, judgement);
    add_notes(text, &finding.notes);
    add_null(text, "error");
    if (with_tree) {
        add_tree(output, judgement);
    }
    append(text, "}\n");
    free_finding(&finding);
}

void report_json_error(struct output *output, const char *name, const char *error,
                       bool with_tree)
{
    static const char *const facts[] = {
        "book",  "answer",     "bytes", "segments", "segment",  "mark", "guide",
        "field", "identifier", "row",   "if_true",  "if_false", "notes",
    };
    struct text *text = &output->text;
    append(text, "{");
    for (int i = 0; i < RECORD_LENGTH; i++) {
        add_null(text, record_names[i]);
    }
    add_words(text, "status", "unreadable");
    add_null(text, "verdict");
    add_file(text, name);
    for (size_t i = 0; i < sizeof facts / sizeof facts[0]; i++) {
        add_null(text, facts[i]);
    }
    add_words(text, "error", error);
    if (with_tree) {
        add_null(text, "tree");
    }
    append(text, "}\n");
}
