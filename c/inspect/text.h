/* Text that grows: what is said about a file is put together in memory and then
 * written at once, so that several inspectors may share one pipe. */
#ifndef INSPECT_TEXT_H
#define INSPECT_TEXT_H

#include <stdarg.h>
#include <stddef.h>
#include <stdint.h>

/* Starts as all zeros; UTF-8, without a closing zero. */
struct text {
    char *bytes;
    size_t length;
    size_t room;
};

/* The memory for some bytes, or the end of the program. Never null, also for 0
 * bytes: tracksaddle.h asks for valid pointers. */
void *need_memory(size_t bytes);

void append_bytes(struct text *text, const char *bytes, size_t length);
void append_text(struct text *text, const struct text *more);

/* As printf, and as vprintf. */
void append(struct text *text, const char *format, ...)
    __attribute__((format(printf, 2, 3)));
void append_values(struct text *text, const char *format, va_list values)
    __attribute__((format(printf, 2, 0), nonnull(2)));

/* " (words)" if there are any. */
void append_words(struct text *text, const char *words);

/* The same byte or character several times. */
void append_times(struct text *text, const char *what, size_t times);

/* Bytes of a message, each as one column: ISO 8859-1 as UTF-8, and a sign for
 * each byte that a terminal would not show. */
void append_message(struct text *text, const uint8_t *bytes, size_t length);

/* Bytes of a message in quotes, cut if they are more than these. */
enum { LONGEST_QUOTED = 40 };
void append_quoted(struct text *text, const uint8_t *bytes, size_t length);

/* A name from outside, such as a file's: UTF-8 stays, what is not UTF-8 is read as
 * ISO 8859-1, and control characters become signs. */
void append_name(struct text *text, const char *name, size_t length);

/* A number with commas, as in 16,777,216. */
void append_number(struct text *text, unsigned long long number);

/* How many columns a terminal needs for UTF-8 text. */
size_t columns_of(const char *bytes, size_t length);

void empty_text(struct text *text);
void free_text(struct text *text);

#endif
