/* A tally: its counts read and put into words. */
#include "tally.h"

#include "../book_layout.h"

#include <stdio.h>

/* Of each count. */
enum { COUNT_BYTES = 4 };

/* A tally has a count for each verdict: where it has not, this does not compile. */
typedef char
    a_count_for_each_verdict[TRACKSADDLE_TALLY == VERDICTS * COUNT_BYTES ? 1 : -1];

struct tally begin_tally(void)
{
    struct tally tally;
    tracksaddle_tally_clear(tally.bytes, sizeof tally.bytes);
    return tally;
}

uint32_t add_verdict(struct tally *tally, uint32_t number)
{
    return tracksaddle_tally_add(tally->bytes, sizeof tally->bytes, number);
}

uint32_t count_of(const struct tally *tally, uint32_t number)
{
    return four_bytes(tally->bytes + COUNT_BYTES * number);
}

bool is_full(uint32_t count)
{
    return count == UINT32_MAX;
}

uint64_t sum_of(const struct tally *tally)
{
    uint64_t sum = 0;
    for (uint32_t number = 0; number < VERDICTS; number++) {
        sum += count_of(tally, number);
    }
    return sum;
}

/* Half of the whole is added before dividing, so all is done with whole numbers. */
uint64_t parts_of(uint32_t count, uint64_t whole, unsigned parts)
{
    return ((uint64_t)count * parts * 2 + whole) / (whole * 2);
}

void append_refusal(struct text *text, uint32_t answer, uint32_t number)
{
    switch (answer) {
    case NO_TALLY:
        append(text, "this is no tally: a tally is an ordinary file of %d bytes",
               TRACKSADDLE_TALLY);
        break;
    case COUNT_IS_FULL:
        append(text, "the count of number %u is full at ", number);
        append_number(text, UINT32_MAX);
        break;
    default: append(text, "a tally has no count of number %u", number); break;
    }
}

struct label label_of(uint32_t number)
{
    struct label label;
    snprintf(label.words, sizeof label.words, "(%u)", number);
    return label;
}

void append_labelled(struct text *text, const char *label, const char *words)
{
    append(text, "%4s  %s", label, words);
}
