/* Where the answers go. write is asked directly: stdio would cut a long line, and
 * then the lines of inspectors that share a pipe would mix. */
#define _POSIX_C_SOURCE 200809L
#include "output.h"

#include <errno.h>
#include <stdarg.h>
#include <stdio.h>
#include <stdlib.h>
#include <string.h>
#include <unistd.h>

enum { LONG_OUTPUT = 1 << 20 };

bool is_able_terminal(int descriptor)
{
    const char *terminal = getenv("TERM");
    return isatty(descriptor) && terminal != NULL && strcmp(terminal, "dumb") != 0;
}

struct output open_output(void)
{
    bool has_colour = is_able_terminal(STDOUT_FILENO) && getenv("NO_COLOR") == NULL;
    return (struct output){{NULL, 0, 0}, isatty(STDOUT_FILENO) != 0, has_colour};
}

void append_painted(struct output *output, enum colour colour, const char *words)
{
    if (output->has_colour) {
        append(&output->text, "\033[1;%dm%s\033[0m", (int)colour, words);
    } else {
        append(&output->text, "%s", words);
    }
}

void write_output(struct output *output)
{
    size_t written = 0;
    while (written < output->text.length) {
        ssize_t more = write(STDOUT_FILENO, output->text.bytes + written,
                             output->text.length - written);
        if (more < 0 && errno != EINTR) {
            complain("cannot write the answer: %s", strerror(errno));
            exit(2);
        }
        written += more > 0 ? (size_t)more : 0;
    }
    empty_text(&output->text);
}

void write_when_long(struct output *output)
{
    if (output->text.length > LONG_OUTPUT) {
        write_output(output);
    }
}

/* Words of the command line may stand in it: control characters become signs. */
void complain(const char *format, ...)
{
    struct text said = {NULL, 0, 0};
    struct text shown = {NULL, 0, 0};
    va_list values;
    va_start(values, format);
    append_values(&said, format, values);
    va_end(values);
    append(&shown, "inspect: ");
    append_name(&shown, said.bytes, said.length);
    append(&shown, "\n");
    fwrite(shown.bytes, 1, shown.length, stderr);
    free_text(&said);
    free_text(&shown);
}
