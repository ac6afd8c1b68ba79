/* A tally as a table for a person. */
#include "tally_table.h"

#include "report.h"

#include <string.h>

/* How wide the largest count's bar is; Unicode's blocks divide a column by eight. */
enum { BAR_COLUMNS = 24, COLUMN_PARTS = 8 };

struct table {
    const struct tally *tally;
    uint64_t sum;
    uint32_t largest;
    size_t count_end; /* the column in which counts end */
};

static uint32_t largest_count(const struct tally *tally)
{
    uint32_t largest = 0;
    for (uint32_t number = 0; number < VERDICTS; number++) {
        uint32_t count = count_of(tally, number);
        largest = count > largest ? count : largest;
    }
    return largest;
}

static void append_head(struct text *text, const char *label, const char *words)
{
    append(text, "  ");
    append_labelled(text, label, words);
}

static size_t longest_head(void)
{
    size_t longest = 0;
    for (uint32_t number = 0; number < VERDICTS; number++) {
        struct text head = {NULL, 0, 0};
        append_head(&head, "", number_words(number));
        size_t columns = columns_of(head.bytes, head.length);
        longest = columns > longest ? columns : longest;
        free_text(&head);
    }
    return longest;
}

/* No count is longer than the sum. */
static struct table lay_out(const struct tally *tally)
{
    struct table table = {tally, sum_of(tally), largest_count(tally), 0};
    struct text sum = {NULL, 0, 0};
    append_number(&sum, table.sum);
    table.count_end = longest_head() + 2 + sum.length;
    free_text(&sum);
    return table;
}

/* The words, and a count that ends where all of them end. */
static void append_count(struct text *text, const struct table *table,
                         const char *label, const char *words, uint64_t count)
{
    struct text shown = {NULL, 0, 0};
    size_t line_start = text->length;
    append_head(text, label, words);
    append_number(&shown, count);
    size_t columns = columns_of(text->bytes + line_start, text->length - line_start);
    append_times(text, " ", table->count_end - columns - shown.length);
    append_text(text, &shown);
    free_text(&shown);
}

/* "   74.8 %"; of nothing there is no share. */
static void append_share(struct text *text, uint32_t count, uint64_t sum)
{
    if (sum == 0) {
        append(text, "     -");
        return;
    }
    unsigned tenths = (unsigned)parts_of(count, sum, 1000);
    append(text, "  %4u.%u %%", tenths / 10, tenths % 10);
}

/* A count above 0 is always seen. */
static void append_bar(struct output *output, uint32_t number, uint32_t count,
                       uint32_t largest)
{
    static const char *const blocks[COLUMN_PARTS] = {"",  "▏", "▎", "▍",
                                                     "▌", "▋", "▊", "▉"};
    struct text bar = {NULL, 0, 0};
    uint64_t parts = parts_of(count, largest, BAR_COLUMNS * COLUMN_PARTS);
    parts = parts == 0 ? 1 : parts;
    append_times(&bar, "█", parts / COLUMN_PARTS);
    append(&bar, "%s", blocks[parts % COLUMN_PARTS]);
    append_bytes(&bar, "", 1);
    append(&output->text, "  ");
    append_painted(output, colour_of(number), bar.bytes);
    free_text(&bar);
}

static void draw_number(struct output *output, const struct table *table,
                        uint32_t number)
{
    struct label label = label_of(number);
    uint32_t count = count_of(table->tally, number);
    append_count(&output->text, table, label.words, number_words(number), count);
    append_share(&output->text, count, table->sum);
    if (count > 0) {
        append_bar(output, number, count, table->largest);
    }
    append(&output->text, is_full(count) ? "  full: no more are counted\n" : "\n");
}

void draw_tally(struct output *output, const char *name, const struct tally *tally)
{
    struct text *text = &output->text;
    struct table table = lay_out(tally);
    append_name(text, name, strlen(name));
    append(text, ": ");
    append_number(text, table.sum);
    append(text, table.sum == 1 ? " verdict\n" : " verdicts\n");
    for (uint32_t number = 0; number < VERDICTS; number++) {
        draw_number(output, &table, number);
    }
    append_count(text, &table, "", "sum", table.sum);
    append(text, "\n");
}
