/* What the command line asks for. */
#ifndef INSPECT_OPTIONS_H
#define INSPECT_OPTIONS_H

#include "guide.h"

struct options {
    const char *book;        /* null for the one inside */
    const char *tally;       /* to which verdicts are added, or null */
    const char *shown_tally; /* to be shown, and nothing is judged; or null */
    uint8_t conditions[MOST_CONDITIONS];
    unsigned highest_condition; /* of those given, 0 without any */
    bool json;
    bool tree;
    bool quiet;
    bool help;
    char **files;
    size_t file_count;
};

/* Complains and answers false if the words cannot be understood. The file names
 * are moved to the front of words, which options keeps. */
bool read_options(struct options *options, char **words, size_t count);

extern const char usage[];

#endif
