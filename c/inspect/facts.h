/* Facts in a line of JSON: a key and its value. One that follows a { is the first of
 * its object, and the others have a comma before them. */
#ifndef INSPECT_FACTS_H
#define INSPECT_FACTS_H

#include "text.h"

/* A value alone: text that is UTF-8 without control characters, as all of ours is. */
void add_string(struct text *text, const char *bytes, size_t length);

/* A key alone. */
void add_key(struct text *text, const char *key);

void add_text(struct text *text, const char *key, const struct text *value);

/* An empty string is a fact that is not there. */
void add_words(struct text *text, const char *key, const char *words);

void add_null(struct text *text, const char *key);
void add_number(struct text *text, const char *key, unsigned long long number);

/* The name of a file, which may hold any bytes. */
void add_file(struct text *text, const char *name);

#endif
