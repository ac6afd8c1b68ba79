/* What a guide prints beside its numbers. */
#include "names.h"

#include "../book_layout.h"
#include "text.h"

#include <stdio.h>
#include <stdlib.h>
#include <string.h>

/* The words of an entry, between tabs. */
enum { MOST_PARTS = 4 };

/* A copy without control characters but for tabs and line ends, and its closing
 * zero. */
static char *clean_copy(const char *bytes, size_t length)
{
    struct text text = {NULL, 0, 0};
    for (size_t at = 0; at < length;) {
        size_t plain = 0;
        while (at + plain < length && strchr("\t\n\r", bytes[at + plain]) == NULL) {
            plain++;
        }
        append_name(&text, bytes + at, plain);
        at += plain;
        if (at < length) {
            append_bytes(&text, bytes[at] == '\0' ? " " : bytes + at, 1);
            at++;
        }
    }
    append_bytes(&text, "", 1);
    return text.bytes;
}

/* Cuts the text at the next of these bytes; null if nothing is left. */
static char *cut(char **rest, const char *at)
{
    char *start = *rest;
    if (start == NULL) {
        return NULL;
    }
    char *end = start + strcspn(start, at);
    *rest = *end == '\0' ? NULL : end + 1;
    *end = '\0';
    return start;
}

/* book WORDS; line N NAME WORDS; field N PLACE WORDS; identifier and condition
 * N WORDS. */
static struct name name_from(char *entry)
{
    const char *parts[MOST_PARTS] = {"", "", "", ""};
    size_t count = 0;
    while (count < MOST_PARTS && entry != NULL) {
        parts[count++] = cut(&entry, "\t");
    }
    switch (count) {
    case 2: return (struct name){parts[0], "", "", parts[1]};
    case 3: return (struct name){parts[0], parts[1], "", parts[2]};
    default: return (struct name){parts[0], parts[1], parts[2], parts[3]};
    }
}

static size_t count_lines(const char *text)
{
    size_t lines = 1;
    for (; *text != '\0'; text++) {
        lines += *text == '\n' || *text == '\r';
    }
    return lines;
}

struct names read_names(const char *bytes, size_t length)
{
    struct names names = {clean_copy(bytes, length), NULL, 0};
    names.entries = need_memory(count_lines(names.text) * sizeof names.entries[0]);
    char *rest = names.text;
    char *entry;
    while ((entry = cut(&rest, "\r\n")) != NULL) {
        if (entry[0] != '\0' && entry[0] != '#') {
            names.entries[names.count++] = name_from(entry);
        }
    }
    return names;
}

void free_names(struct names *names)
{
    free(names->text);
    free(names->entries);
    *names = (struct names){NULL, NULL, 0};
}

/* The entry, or one with empty strings. */
static struct name find(const struct names *names, const char *kind, const char *key,
                        const char *place)
{
    for (size_t i = 0; i < names->count; i++) {
        struct name entry = names->entries[i];
        if (strcmp(entry.kind, kind) == 0 && strcmp(entry.key, key) == 0 &&
            (place == NULL || strcmp(entry.place, place) == 0)) {
            return entry;
        }
    }
    return (struct name){"", "", "", ""};
}

static struct name find_number(const struct names *names, const char *kind,
                               unsigned number, const char *place)
{
    char key[16];
    snprintf(key, sizeof key, "%u", number);
    return find(names, kind, key, place);
}

const char *book_title(const struct names *names)
{
    return find(names, "book", "", NULL).words;
}

const char *line_name(const struct names *names, unsigned line)
{
    return find_number(names, "line", line, NULL).place;
}

const char *line_words(const struct names *names, unsigned line)
{
    return find_number(names, "line", line, NULL).words;
}

const char *field_words(const struct names *names, unsigned line, unsigned element,
                        unsigned component)
{
    char place[32];
    snprintf(place, sizeof place, "%u.%u", element, component);
    return find_number(names, "field", line, place).words;
}

const char *condition_words(const struct names *names, unsigned condition)
{
    return find_number(names, "condition", condition, NULL).words;
}

const char *identifier_words(const struct names *names, const char *digits)
{
    char key[IDENTIFIER_LENGTH + 1];
    snprintf(key, sizeof key, "%.*s", IDENTIFIER_LENGTH, digits);
    return find(names, "identifier", key, NULL).words;
}
