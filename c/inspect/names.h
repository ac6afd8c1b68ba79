/* What a guide prints beside its numbers: names of lines, words of fields,
 * Pruefidentifikatoren and conditions. books/compile_book.py --names writes them,
 * an entry a line, separated by tabs; lines that begin with # are comments.
 * Without names every answer is an empty string. */
#ifndef INSPECT_NAMES_H
#define INSPECT_NAMES_H

#include <stddef.h>

/* One entry: its kind, what it is about, its words. Strings lie in the text. */
struct name {
    const char *kind;
    const char *key;   /* a line's or condition's number, or five digits */
    const char *place; /* of a field, as 1.2; a line's name */
    const char *words;
};

struct names {
    char *text; /* null without names */
    struct name *entries;
    size_t count;
};

/* Takes a copy. Bytes that are not UTF-8 are read as ISO 8859-1. */
struct names read_names(const char *bytes, size_t length);

void free_names(struct names *names);

const char *book_title(const struct names *names);
const char *line_name(const struct names *names, unsigned line);
const char *line_words(const struct names *names, unsigned line);
const char *field_words(const struct names *names, unsigned line, unsigned element,
                        unsigned component);
const char *condition_words(const struct names *names, unsigned condition);

/* Digits need no closing zero. */
const char *identifier_words(const struct names *names, const char *digits);

#endif
