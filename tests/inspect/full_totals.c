/* What the totals say where a count is full, which no run comes to.
 *
 *   full_totals FULL NUMBER...
 *
 * So many verdicts of number FULL are taken as counted that there is no room for more;
 * then one of each NUMBER is counted, and the totals are shown. The exit status is the
 * inspector's. */
#include "../../c/inspect/totals.h"

#include <stdlib.h>
#include <string.h>

static uint32_t number_from(const char *word)
{
    return (uint32_t)strtoul(word, NULL, 10);
}

static struct totals fill_totals(uint32_t number)
{
    struct totals totals = begin_totals();
    count_verdict(&totals, number);
    totals.files = UINT32_MAX;
    memset(totals.tally.bytes + sizeof(uint32_t) * number, 0xFF, sizeof(uint32_t));
    return totals;
}

int main(int argc, char **argv)
{
    struct output output = open_output();
    struct totals totals = fill_totals(argc > 1 ? number_from(argv[1]) : ACCEPTED);
    for (int i = 2; i < argc; i++) {
        count_verdict(&totals, number_from(argv[i]));
    }
    report_totals(&output, &totals);
    write_output(&output);
    free_text(&output.text);
    return exit_status(&totals);
}
