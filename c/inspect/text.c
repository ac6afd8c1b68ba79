/* Text that grows, and how bytes become characters. */
#include "text.h"

#include <stdio.h>
#include <stdlib.h>
#include <string.h>

/* What stands for bytes without a sign of their own: the control pictures of
 * Unicode, and the replacement character for 0x80 to 0x9F. */
enum { FIRST_PICTURE = 0x2400, DELETE_PICTURE = 0x2421, NO_SIGN = 0xFFFD };
enum { DELETE = 0x7F };

void *need_memory(size_t bytes)
{
    void *memory = malloc(bytes == 0 ? 1 : bytes);
    if (memory == NULL) {
        fputs("inspect: out of memory\n", stderr);
        exit(2);
    }
    return memory;
}

/* Doubles, so that adding byte by byte stays linear. */
static void make_room(struct text *text, size_t more)
{
    if (text->room - text->length >= more) {
        return;
    }
    size_t room = 2 * text->room + more;
    char *bytes = need_memory(room);
    if (text->length > 0) {
        memcpy(bytes, text->bytes, text->length);
    }
    free(text->bytes);
    text->bytes = bytes;
    text->room = room;
}

void append_bytes(struct text *text, const char *bytes, size_t length)
{
    if (length > 0) {
        make_room(text, length);
        memcpy(text->bytes + text->length, bytes, length);
        text->length += length;
    }
}

void append_text(struct text *text, const struct text *more)
{
    append_bytes(text, more->bytes, more->length);
}

void append_values(struct text *text, const char *format, va_list values)
{
    va_list again;
    va_copy(again, values);
    int length = vsnprintf(NULL, 0, format, values);
    if (length > 0) {
        make_room(text, (size_t)length + 1);
        vsnprintf(text->bytes + text->length, (size_t)length + 1, format, again);
        text->length += (size_t)length;
    }
    va_end(again);
}

void append(struct text *text, const char *format, ...)
{
    va_list values;
    va_start(values, format);
    append_values(text, format, values);
    va_end(values);
}

void append_words(struct text *text, const char *words)
{
    if (words[0] != '\0') {
        append(text, " (%s)", words);
    }
}

void append_times(struct text *text, const char *what, size_t times)
{
    for (size_t i = 0; i < times; i++) {
        append_bytes(text, what, strlen(what));
    }
}

/* One character below 0x10000 as UTF-8. */
static void append_character(struct text *text, unsigned character)
{
    char bytes[3];
    size_t length = 0;
    if (character < 0x80) {
        bytes[length++] = (char)character;
    } else if (character < 0x800) {
        bytes[length++] = (char)(0xC0 | character >> 6);
        bytes[length++] = (char)(0x80 | (character & 0x3F));
    } else {
        bytes[length++] = (char)(0xE0 | character >> 12);
        bytes[length++] = (char)(0x80 | (character >> 6 & 0x3F));
        bytes[length++] = (char)(0x80 | (character & 0x3F));
    }
    append_bytes(text, bytes, length);
}

static unsigned sign_of(uint8_t byte)
{
    if (byte < 0x20) {
        return FIRST_PICTURE + byte;
    }
    if (byte == DELETE) {
        return DELETE_PICTURE;
    }
    return byte > DELETE && byte < 0xA0 ? NO_SIGN : byte;
}

void append_message(struct text *text, const uint8_t *bytes, size_t length)
{
    for (size_t i = 0; i < length; i++) {
        append_character(text, sign_of(bytes[i]));
    }
}

void append_quoted(struct text *text, const uint8_t *bytes, size_t length)
{
    append(text, "\"");
    append_message(text, bytes, length > LONGEST_QUOTED ? LONGEST_QUOTED : length);
    append(text, length > LONGEST_QUOTED ? "…\"" : "\"");
}

/* How long the UTF-8 character is that begins with this byte, 0 if none does. */
static size_t length_by_first(uint8_t first)
{
    if (first < 0x80) {
        return 1;
    }
    if (first < 0xC2 || first > 0xF4) {
        return 0;
    }
    return first < 0xE0 ? 2 : first < 0xF0 ? 3 : 4;
}

/* Characters with a shorter form, surrogates and those beyond Unicode are none. */
static int is_outside(const uint8_t *bytes)
{
    return (bytes[0] == 0xE0 && bytes[1] < 0xA0) ||
           (bytes[0] == 0xED && bytes[1] > 0x9F) ||
           (bytes[0] == 0xF0 && bytes[1] < 0x90) ||
           (bytes[0] == 0xF4 && bytes[1] > 0x8F);
}

/* The length of the UTF-8 character that starts here, 0 if none does. */
static size_t character_length(const uint8_t *bytes, size_t length)
{
    size_t expected = length_by_first(bytes[0]);
    if (expected > length) {
        return 0;
    }
    for (size_t i = 1; i < expected; i++) {
        if ((bytes[i] & 0xC0) != 0x80) {
            return 0;
        }
    }
    return expected > 2 && is_outside(bytes) ? 0 : expected;
}

void append_name(struct text *text, const char *name, size_t length)
{
    const uint8_t *bytes = (const uint8_t *)name;
    for (size_t at = 0; at < length;) {
        size_t taken = character_length(bytes + at, length - at);
        int is_control = taken == 2 && bytes[at] == 0xC2 && bytes[at + 1] < 0xA0;
        if (taken < 2) {
            append_message(text, bytes + at, 1);
        } else if (is_control) {
            append_character(text, NO_SIGN);
        } else {
            append_bytes(text, name + at, taken);
        }
        at += taken == 0 ? 1 : taken;
    }
}

void append_number(struct text *text, unsigned long long number)
{
    if (number >= 1000) {
        append_number(text, number / 1000);
        append(text, ",%03llu", number % 1000);
    } else {
        append(text, "%llu", number);
    }
}

size_t columns_of(const char *bytes, size_t length)
{
    size_t columns = 0;
    for (size_t i = 0; i < length; i++) {
        columns += ((uint8_t)bytes[i] & 0xC0) != 0x80;
    }
    return columns;
}

void empty_text(struct text *text)
{
    text->length = 0;
}

void free_text(struct text *text)
{
    free(text->bytes);
    *text = (struct text){NULL, 0, 0};
}
