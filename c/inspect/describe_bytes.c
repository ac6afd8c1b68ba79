/* Numbers 3, 4 and 5 in words: what is wrong with the bytes. */
#include "describe_bytes.h"

#include <string.h>

enum { CARRIAGE_RETURN = '\r', LINE_FEED = '\n' };

static void append_byte(struct text *text, uint8_t byte)
{
    if (byte == CARRIAGE_RETURN || byte == LINE_FEED) {
        append(text, "a line break (byte 0x%02X)", byte);
    } else if (byte > 0x20 && (byte < 0x7F || byte > 0xA0)) {
        append(text, "\"");
        append_message(text, &byte, 1);
        append(text, "\"");
    } else if (byte == ' ') {
        append(text, "a space");
    } else {
        append(text, "the byte 0x%02X", byte);
    }
}

/* Whether the byte here is data because an odd number of ? stands right before it. */
static bool is_released(struct message message, size_t at)
{
    size_t releases = 0;
    while (releases < at && message.bytes[at - 1 - releases] == RELEASE) {
        releases++;
    }
    return releases % 2 == 1;
}

/* The separator right before this place that the byte here shows to be needless: in
 * its element nothing follows the :, or in its segment nothing follows the +.
 * Otherwise 0. */
static uint8_t needless_before(struct message message, size_t at)
{
    if (at == 0 || at == message.length || is_released(message, at - 1)) {
        return 0;
    }
    uint8_t separator = message.bytes[at - 1];
    bool ends_segment = message.bytes[at] == END;
    bool ends_element = message.bytes[at] == ELEMENT_MARK || ends_segment;
    bool is_needless = (separator == COMPONENT_MARK && ends_element) ||
                       (separator == ELEMENT_MARK && ends_segment);
    return is_needless ? separator : 0;
}

/* What is wrong behind a tag. There + and ' may always stand for themselves: if one is
 * at fault, it is for what stands before it. */
static const char *wrong_in_elements(struct message message, size_t at)
{
    switch (needless_before(message, at)) {
    case COMPONENT_MARK: return "the : before it is a needless separator";
    case ELEMENT_MARK: return "the + before it is a needless separator";
    default: break;
    }
    return is_released(message, at) ? "? may stand only before : + ' and ?"
                                    : "this byte is not allowed in data";
}

/* What the grammar wants at a place before which everything is well-formed. */
static const char *wanted_at(struct message message, size_t start, size_t at)
{
    size_t inside = at - start;
    if (inside < TAG_LENGTH) {
        return inside == 0 ? "a segment must begin here, with its tag"
                           : "a tag has three capital letters or digits";
    }
    return inside == TAG_LENGTH ? "+ or ' must follow the tag"
                                : wrong_in_elements(message, at);
}

static bool begins_with(struct message message, const char *what)
{
    size_t length = strlen(what);
    return message.length >= length && memcmp(message.bytes, what, length) == 0;
}

/* Hints for what happens most: line breaks, needless separators, an interchange, the
 * wrong encoding, and an end that looks closed. */
static void add_hints(struct message message, size_t at, struct text *notes)
{
    uint8_t byte = at < message.length ? message.bytes[at] : 0;
    if (at == message.length && message.bytes[at - 1] == END) {
        append(notes, "The last ' is data, since the ? before it releases it.\n");
    }
    if (byte == CARRIAGE_RETURN || byte == LINE_FEED) {
        append(notes, "Nothing may stand between segments or behind the last one, no "
                      "line break either.\n");
    }
    if (needless_before(message, at) != 0) {
        append(notes, "Leave out each : that no value follows in its element, and each "
                      "+ that no value follows in its segment.\n");
    }
    if (begins_with(message, "UNA") && at == TAG_LENGTH) {
        append(notes, "The file begins with UNA: it is an interchange. A message runs "
                      "from UNH to UNT.\n");
    }
    bool after_lead = at > 0 && message.bytes[at - 1] >= 0xC2;
    if (byte >= 0x80 && byte < 0xA0 && after_lead) {
        append(notes, "The text looks like UTF-8; a message is ISO 8859-1.\n");
    }
    if (begins_with(message, "\xEF\xBB\xBF") && at == 0) {
        append(notes, "The file begins with the byte order mark of UTF-8, which is no "
                      "part of a message.\n");
    }
}

/* What is at fault right behind a segment is shown with that segment. */
static struct part shown_around(struct message message, struct segment segment,
                                size_t at)
{
    struct part shown = segment.part;
    if (at == shown.start && segment.number > 1) {
        shown.start = segment_around(message, at - 1).part.start;
        shown.length += at - shown.start;
    }
    return shown;
}

static void describe_fault(const struct judgement *judgement, struct finding *finding)
{
    struct message message = judgement->message;
    size_t at = judgement->record.entries[PLACE];
    finding->has_segment = true;
    finding->segment = segment_around(message, at);
    finding->shown = shown_around(message, finding->segment, at);
    finding->mark = (struct part){at, at < message.length ? 1 : 0};
    if (at < message.length) {
        append(&finding->answer, "at byte offset ");
        append_number(&finding->answer, at);
        append(&finding->answer, " is ");
        append_byte(&finding->answer, message.bytes[at]);
        append(&finding->answer, ": %s",
               wanted_at(message, finding->segment.part.start, at));
    } else {
        append(&finding->answer, "the message stops at byte offset ");
        append_number(&finding->answer, at);
        append(&finding->answer, ", inside a segment: its closing ' is missing");
    }
    add_hints(message, at, &finding->notes);
}

void describe_bytes(const struct judgement *judgement, struct finding *finding)
{
    uint32_t number = judgement->record.entries[NUMBER];
    if (number == NOT_WELL_FORMED) {
        describe_fault(judgement, finding);
    } else if (number == TOO_MANY_SEGMENTS) {
        append(&finding->answer, "the message has more than 999,999 segments");
    } else if (judgement->message.length == 0) {
        append(&finding->answer, "there is no message: not a single byte");
    } else {
        append(&finding->answer, "the message has more than ");
        append_number(&finding->answer, MOST_MESSAGE_BYTES);
        append(&finding->answer, " bytes");
    }
}
