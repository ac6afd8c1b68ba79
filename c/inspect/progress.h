/* How far it has come, on a terminal and with many files: a line that stays at the
 * bottom, from the first second on. */
#ifndef INSPECT_PROGRESS_H
#define INSPECT_PROGRESS_H

#include <stdbool.h>
#include <stddef.h>
#include <time.h>

struct progress {
    size_t files;
    bool is_wanted;
    bool is_shown;
    bool is_hidden; /* for something else: it comes back */
    time_t shown_at;
};

struct progress begin_progress(size_t files);

/* Before a file is judged: so many are done. Shown once a second, and where it had
 * to be hidden. */
void show_progress(struct progress *progress, size_t done);

/* Before anything else is written to the same terminal. */
void hide_progress(struct progress *progress);

#endif
