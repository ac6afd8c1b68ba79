/* Number 12 in words: which rule of the field failed. */
#include "describe_field.h"

/* More codes than these are listed with the field's rule alone. */
enum { MOST_IN_SENTENCE = 8 };

static bool is_digit(char byte)
{
    return byte >= '0' && byte <= '9';
}

static size_t skip_digits(struct text value, size_t at)
{
    while (at < value.length && is_digit(value.bytes[at])) {
        at++;
    }
    return at;
}

/* An optional minus, digits, and optionally a point and digits. */
static bool is_number(struct text value)
{
    size_t first = value.length > 0 && value.bytes[0] == '-' ? 1 : 0;
    size_t at = skip_digits(value, first);
    if (at > first && at + 1 < value.length && value.bytes[at] == '.') {
        size_t fraction = at + 1;
        at = skip_digits(value, fraction);
        return at > fraction && at == value.length;
    }
    return at > first && at == value.length;
}

/* Minus and point of a number do not count. */
static size_t counted_length(struct text value, enum form form)
{
    size_t length = value.length;
    for (size_t i = 0; i < value.length && form == FORM_N; i++) {
        length -= !is_digit(value.bytes[i]);
    }
    return length;
}

static void append_wrong_value(struct text *answer, const struct guide *guide,
                               const struct guide_field *field, struct text value)
{
    size_t length = counted_length(value, field->form);
    if (field->form == FORM_N && !is_number(value)) {
        append(answer, " must be a number, and is ");
    } else if (length > field->longest) {
        append(answer, " may have at most ");
        append_number(answer, field->longest);
        append(answer, " %s, and has ",
               field->form == FORM_N ? "digits" : "characters");
        append_number(answer, length);
        return;
    } else if (field->codes.count > MOST_IN_SENTENCE) {
        append(answer, " must be one of %u codes, and is ", field->codes.count);
    } else {
        append(answer, " must be ");
        append_codes(answer, guide, field->codes);
        append(answer, ", and is ");
    }
    append_quoted(answer, (const uint8_t *)value.bytes, value.length);
}

static void append_rule_failed(struct text *answer, const struct guide *guide,
                               const struct guide_field *field, struct text value)
{
    if (value.length == 0) {
        append(answer, " must have a value");
        if (field->presence == MUST_IF_ELEMENT) {
            append(answer, ", because its element is used");
        }
    } else if (field->presence == MUST_BE_EMPTY) {
        append(answer, " must be empty, and is ");
        append_quoted(answer, (const uint8_t *)value.bytes, value.length);
    } else {
        append_wrong_value(answer, guide, field, value);
    }
}

/* The whole rule, as "required, n..6". */
static void append_field_rule(struct text *rule, const struct guide *guide,
                              const struct guide_field *field)
{
    static const char *const presences[] = {
        [MUST_BE_EMPTY] = "must be empty",
        [MUST_HAVE_BYTES] = "required",
        [MAY_HAVE_BYTES] = "optional",
        [MUST_IF_ELEMENT] = "required if its element is used",
    };
    append(rule, "%s", presences[field->presence]);
    if (field->presence != MUST_BE_EMPTY) {
        append(rule, ", %s..%u", field->form == FORM_N ? "n" : "an", field->longest);
    }
    if (field->codes.count > 0) {
        append(rule, ": ");
        append_codes(rule, guide, field->codes);
    }
}

void describe_field(const struct judgement *judgement, struct finding *finding)
{
    const uint32_t *entries = judgement->record.entries;
    struct guide_line line = guide_line(judgement->guide, entries[LINE]);
    struct guide_field field;
    show_segment(judgement, finding);
    finding->line = entries[LINE];
    finding->has_field = true;
    finding->element = entries[ELEMENT];
    finding->component = entries[COMPONENT];
    mark_component(judgement, finding, finding->element, finding->component);
    struct text value = value_of(judgement->message, finding->mark);
    append(&finding->answer, "%s %u.%u", line.tag, finding->element,
           finding->component);
    if (find_field(judgement->guide, finding->line, finding->element,
                   finding->component, &field)) {
        append_rule_failed(&finding->answer, judgement->guide, &field, value);
        append_field_rule(&finding->field_rule, judgement->guide, &field);
    } else {
        append(&finding->answer,
               " must be empty, since the guide does not have it, and is ");
        append_quoted(&finding->answer, (const uint8_t *)value.bytes, value.length);
        append(&finding->field_rule, "not in the guide");
    }
    free_text(&value);
}
