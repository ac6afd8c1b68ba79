/* A tally as one line of JSON. */
#include "tally_json.h"

#include "facts.h"

/* A fraction of the sum; of nothing there is no share. */
static void add_share(struct text *text, uint32_t count, uint64_t sum)
{
    if (sum == 0) {
        add_null(text, "share");
        return;
    }
    unsigned share = (unsigned)parts_of(count, sum, 10000);
    add_key(text, "share");
    append(text, "%u.%04u", share / 10000, share % 10000);
}

static void add_count(struct text *text, const struct tally *tally, uint32_t number,
                      uint64_t sum)
{
    uint32_t count = count_of(tally, number);
    append(text, "{");
    add_number(text, "number", number);
    add_words(text, "verdict", number_words(number));
    add_number(text, "count", count);
    add_share(text, count, sum);
    add_key(text, "full");
    append(text, is_full(count) ? "true}" : "false}");
}

void report_tally_json(struct output *output, const char *name,
                       const struct tally *tally)
{
    struct text *text = &output->text;
    uint64_t sum = sum_of(tally);
    append(text, "{");
    add_file(text, name);
    add_number(text, "sum", sum);
    add_key(text, "counts");
    for (uint32_t number = 0; number < VERDICTS; number++) {
        append(text, number == 0 ? "[" : ",");
        add_count(text, tally, number, sum);
    }
    append(text, "]");
    add_null(text, "error");
    append(text, "}\n");
}

void report_tally_json_error(struct output *output, const char *name,
                             const struct text *error)
{
    struct text *text = &output->text;
    append(text, "{");
    add_file(text, name);
    add_null(text, "sum");
    add_null(text, "counts");
    add_text(text, "error", error);
    append(text, "}\n");
}
