/* inspect: judges files against a guide book and says what is wrong and where.
 *
 * options.c reads the command line, shelf.c finds the guide book, files.c reads,
 * judging.c asks the library, describing.c and below it the describe_*.c find the
 * words, report.c, json.c and tree.c show them, totals.c counts. tally_file.c adds to
 * a tally, and tally_table.c and tally_json.c show one. */
#include "files.h"
#include "json.h"
#include "judging.h"
#include "options.h"
#include "output.h"
#include "progress.h"
#include "report.h"
#include "shelf.h"
#include "tally_file.h"
#include "tally_json.h"
#include "tally_table.h"
#include "totals.h"
#include "tree.h"

#include <stdio.h>
#include <string.h>

/* What goes from file to file. */
struct inspection {
    const struct options *options;
    const struct guide *guide;
    struct output output;
    struct progress progress;
    struct totals totals;
};

static const char *shown_name(const char *name)
{
    return strcmp(name, "-") == 0 ? "standard input" : name;
}

static void show_verdict(struct inspection *inspection, const char *name,
                         const struct judgement *judgement)
{
    struct output *output = &inspection->output;
    if (inspection->options->quiet) {
        return;
    }
    if (output->is_terminal) {
        hide_progress(&inspection->progress);
    }
    if (inspection->options->json) {
        report_json(output, name, judgement, inspection->options->tree);
        return;
    }
    report(output, shown_name(name), judgement);
    if (inspection->options->tree) {
        draw_tree(output, judgement);
    }
}

static void show_error(struct inspection *inspection, const char *name,
                       const char *error)
{
    hide_progress(&inspection->progress);
    complain("%s: %s", shown_name(name), error);
    if (inspection->options->json && !inspection->options->quiet) {
        report_json_error(&inspection->output, name, error, inspection->options->tree);
    }
}

/* The verdict stands, and is shown, also if the tally cannot take it. */
static void add_to_tally(struct inspection *inspection, const char *name,
                         uint32_t number)
{
    const char *tally = inspection->options->tally;
    struct text error = {NULL, 0, 0};
    if (tally != NULL && !add_to_tally_file(tally, number, &error)) {
        count_unadded(&inspection->totals);
        hide_progress(&inspection->progress);
        complain("%s: the verdict on %s is not added: %.*s", tally, shown_name(name),
                 (int)error.length, error.bytes);
    }
    free_text(&error);
}

/* It is added before it is shown: no verdict is seen that the tally lacks. */
static void inspect_file(struct inspection *inspection, const char *name)
{
    struct file file = read_file(name, MOST_MESSAGE_BYTES);
    if (file.error != NULL) {
        count_unreadable(&inspection->totals);
        show_error(inspection, name, file.error);
    } else {
        struct message message = {file.bytes, file.length};
        struct judgement judgement =
            judge(message, inspection->guide, inspection->options->conditions);
        uint32_t number = judgement.record.entries[NUMBER];
        count_verdict(&inspection->totals, number);
        add_to_tally(inspection, name, number);
        show_verdict(inspection, name, &judgement);
        free_judgement(&judgement);
    }
    write_output(&inspection->output);
    free_file(&file);
}

static int inspect_files(const struct options *options, const struct guide *guide)
{
    struct inspection inspection = {
        .options = options,
        .guide = guide,
        .output = open_output(),
        .progress = begin_progress(options->file_count),
        .totals = begin_totals(),
    };
    for (size_t i = 0; i < options->file_count; i++) {
        show_progress(&inspection.progress, i);
        inspect_file(&inspection, options->files[i]);
    }
    hide_progress(&inspection.progress);
    if (options->file_count > 1 && !options->quiet && !options->json) {
        report_totals(&inspection.output, &inspection.totals);
        write_output(&inspection.output);
    }
    free_text(&inspection.output.text);
    return exit_status(&inspection.totals);
}

static bool conditions_fit(const struct options *options, const struct guide *guide)
{
    unsigned count = condition_count(guide);
    if (options->highest_condition > count) {
        complain("there is no condition %u: the guide book has %u",
                 options->highest_condition, count);
        return false;
    }
    return true;
}

static void complain_of(const char *name, const struct text *error)
{
    complain("%s: %.*s", name, (int)error->length, error->bytes);
}

/* Before anything is judged, as with the book. */
static bool take_tally(const char *name)
{
    struct text error = {NULL, 0, 0};
    bool is_taken = name == NULL || take_tally_file(name, &error);
    if (!is_taken) {
        complain_of(name, &error);
    }
    free_text(&error);
    return is_taken;
}

static int show_tally(const struct options *options)
{
    const char *name = options->shown_tally;
    struct output output = open_output();
    struct text error = {NULL, 0, 0};
    struct tally tally;
    bool is_read = read_tally_file(name, &tally, &error);
    if (!is_read) {
        complain_of(name, &error);
    }
    if (options->json && is_read) {
        report_tally_json(&output, name, &tally);
    } else if (options->json) {
        report_tally_json_error(&output, name, &error);
    } else if (is_read) {
        draw_tally(&output, name, &tally);
    }
    if (!options->quiet) {
        write_output(&output);
    }
    free_text(&output.text);
    free_text(&error);
    return is_read ? EXIT_ALL_ACCEPTED : EXIT_TROUBLE;
}

/* As an answer: it is no success if it cannot be written. */
static int show_help(void)
{
    struct output output = open_output();
    append(&output.text, "%s", usage);
    write_output(&output);
    free_text(&output.text);
    return EXIT_ALL_ACCEPTED;
}

int main(int argc, char **argv)
{
    struct options options;
    struct shelf shelf;
    size_t given = argc > 0 ? (size_t)argc - 1 : 0;
    if (!read_options(&options, argv + (argc > 0), given)) {
        return EXIT_TROUBLE;
    }
    if (options.help) {
        return show_help();
    }
    if (options.shown_tally != NULL) {
        return show_tally(&options);
    }
    if (options.file_count == 0) {
        fputs(usage, stderr);
        return EXIT_TROUBLE;
    }
    int status = EXIT_TROUBLE;
    if (take_guide(&shelf, options.book) && conditions_fit(&options, &shelf.guide) &&
        take_tally(options.tally)) {
        status = inspect_files(&options, &shelf.guide);
    }
    free_shelf(&shelf);
    return status;
}
