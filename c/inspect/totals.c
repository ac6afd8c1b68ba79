/* How many files got which number. */
#include "totals.h"

struct totals begin_totals(void)
{
    return (struct totals){.tally = begin_tally()};
}

/* The exit status does not hang on the counts: one of them may be full. */
void count_verdict(struct totals *totals, uint32_t number)
{
    totals->files++;
    totals->has_open = totals->has_open || number == OPEN;
    totals->has_refused = totals->has_refused || (number != ACCEPTED && number != OPEN);
    if (add_verdict(&totals->tally, number) != ADDED) {
        totals->uncounted++;
    }
}

void count_unreadable(struct totals *totals)
{
    totals->files++;
    totals->unreadable++;
}

void count_unadded(struct totals *totals)
{
    totals->unadded++;
}

static void add_total(struct text *text, size_t count, const char *label,
                      const char *words)
{
    if (count > 0) {
        append(text, "%9zu  ", count);
        append_labelled(text, label, words);
        append(text, "\n");
    }
}

void report_totals(struct output *output, const struct totals *totals)
{
    struct text *text = &output->text;
    append(text, "total: ");
    append_number(text, totals->files);
    append(text, " files\n");
    for (uint32_t number = 0; number < VERDICTS; number++) {
        struct label label = label_of(number);
        add_total(text, count_of(&totals->tally, number), label.words,
                  number_words(number));
    }
    add_total(text, totals->unreadable, "", "cannot be read");
    add_total(text, totals->uncounted, "", "not counted here: their count is full");
    add_total(text, totals->unadded, "", "not added to the tally");
}

int exit_status(const struct totals *totals)
{
    if (totals->unreadable > 0 || totals->unadded > 0) {
        return EXIT_TROUBLE;
    }
    if (totals->has_refused) {
        return EXIT_SOME_REFUSED;
    }
    return totals->has_open ? EXIT_SOME_OPEN : EXIT_ALL_ACCEPTED;
}
