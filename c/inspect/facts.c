/* Facts in a line of JSON. */
#include "facts.h"

#include <stdbool.h>
#include <string.h>

void add_string(struct text *text, const char *bytes, size_t length)
{
    append(text, "\"");
    for (size_t i = 0; i < length; i++) {
        if (bytes[i] == '"' || bytes[i] == '\\') {
            append(text, "\\");
        }
        append_bytes(text, bytes + i, 1);
    }
    append(text, "\"");
}

/* No value ends with a {: those of strings end with their quotes. */
void add_key(struct text *text, const char *key)
{
    bool is_first = text->length > 0 && text->bytes[text->length - 1] == '{';
    append(text, "%s\"%s\":", is_first ? "" : ",", key);
}

void add_text(struct text *text, const char *key, const struct text *value)
{
    add_key(text, key);
    add_string(text, value->bytes, value->length);
}

void add_words(struct text *text, const char *key, const char *words)
{
    add_key(text, key);
    if (words[0] == '\0') {
        append(text, "null");
    } else {
        add_string(text, words, strlen(words));
    }
}

void add_null(struct text *text, const char *key)
{
    add_key(text, key);
    append(text, "null");
}

void add_number(struct text *text, const char *key, unsigned long long number)
{
    add_key(text, key);
    append(text, "%llu", number);
}

void add_file(struct text *text, const char *name)
{
    struct text shown = {NULL, 0, 0};
    append_name(&shown, name, strlen(name));
    add_text(text, "file", &shown);
    free_text(&shown);
}
