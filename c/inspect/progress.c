/* How far it has come: a line on standard error that is written over. */
#define _POSIX_C_SOURCE 200809L
#include "progress.h"

#include "output.h"

#include <stdio.h>
#include <unistd.h>

/* With fewer files nobody waits. */
enum { MANY = 20 };

struct progress begin_progress(size_t files)
{
    return (struct progress){
        .files = files,
        .is_wanted = files >= MANY && is_able_terminal(STDERR_FILENO),
        .shown_at = time(NULL),
    };
}

void show_progress(struct progress *progress, size_t done)
{
    time_t now = time(NULL);
    if (progress->is_wanted && (progress->is_hidden || now != progress->shown_at)) {
        fprintf(stderr, "\rinspect: %zu of %zu files", done, progress->files);
        progress->is_shown = true;
        progress->is_hidden = false;
        progress->shown_at = now;
    }
}

/* To the line's start, and what stands there goes. */
void hide_progress(struct progress *progress)
{
    if (progress->is_shown) {
        fputs("\r\033[K", stderr);
        progress->is_shown = false;
        progress->is_hidden = true;
    }
}
