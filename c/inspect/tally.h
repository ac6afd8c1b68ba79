/* A tally: how often each verdict number was given, in the bytes that tracksaddle.h
 * describes. The library clears and adds; here counts are read and get words. */
#ifndef INSPECT_TALLY_H
#define INSPECT_TALLY_H

#include "../tracksaddle.h"
#include "judging.h"

struct tally {
    uint8_t bytes[TRACKSADDLE_TALLY];
};

/* What the library answers to a verdict that is to be added. */
enum { ADDED = 0, NO_TALLY = 1, NO_SUCH_COUNT = 2, COUNT_IS_FULL = 3 };

struct tally begin_tally(void);

uint32_t add_verdict(struct tally *tally, uint32_t number);

/* Of a number below VERDICTS. */
uint32_t count_of(const struct tally *tally, uint32_t number);

/* Whether the count can take no more. */
bool is_full(uint32_t count);

uint64_t sum_of(const struct tally *tally);

/* How many of so many parts of the whole, which is not 0, a count is: rounded, and
 * halves up. */
uint64_t parts_of(uint32_t count, uint64_t whole, unsigned parts);

/* Why a verdict of this number was not added. */
void append_refusal(struct text *text, uint32_t answer, uint32_t number);

/* "(12)": a number as it stands before its words in totals and tables. */
struct label {
    char words[16];
};

struct label label_of(uint32_t number);

/* The label in its columns, which may be empty, and words. */
void append_labelled(struct text *text, const char *label, const char *words);

#endif
