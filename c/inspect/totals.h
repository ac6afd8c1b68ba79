/* How many files got which number, and the exit status that follows. */
#ifndef INSPECT_TOTALS_H
#define INSPECT_TOTALS_H

#include "output.h"
#include "tally.h"

struct totals {
    size_t files;
    size_t unreadable;
    size_t uncounted; /* judged, and their count in the tally here was full */
    size_t unadded;   /* judged, and not added to the tally in a file */
    bool has_refused;
    bool has_open;
    struct tally tally;
};

/* Scripts rely on these. */
enum {
    EXIT_ALL_ACCEPTED = 0,
    EXIT_SOME_REFUSED = 1,
    EXIT_TROUBLE = 2,
    EXIT_SOME_OPEN = 3
};

struct totals begin_totals(void);

void count_verdict(struct totals *totals, uint32_t number);
void count_unreadable(struct totals *totals);
void count_unadded(struct totals *totals);

void report_totals(struct output *output, const struct totals *totals);

int exit_status(const struct totals *totals);

#endif
