/* Where the answers go: standard output, in whole pieces. */
#ifndef INSPECT_OUTPUT_H
#define INSPECT_OUTPUT_H

#include "text.h"

#include <stdbool.h>

struct output {
    struct text text;
    bool is_terminal;
    bool has_colour;
};

/* Colour on a terminal alone, and not where NO_COLOR or a dumb terminal says no. */
struct output open_output(void);

/* Whether this is a terminal that understands escape sequences. */
bool is_able_terminal(int descriptor);

enum colour { GREEN = 32, RED = 31, YELLOW = 33 };

void append_painted(struct output *output, enum colour colour, const char *words);

/* Writes what has been put together, in one piece if the system takes it so; ends
 * the program if it cannot be written. */
void write_output(struct output *output);

/* The same once it has become long. */
void write_when_long(struct output *output);

/* A line on standard error, behind "inspect: ", in one piece too. */
void complain(const char *format, ...) __attribute__((format(printf, 1, 2)));

#endif
