/* What the command line asks for. */
#include "options.h"

#include "judging.h"
#include "output.h"

#include <string.h>

const char usage[] =
    "usage: inspect [OPTION]... FILE...\n"
    "       inspect [--json] [--quiet] --show-tally FILE\n"
    "\n"
    "Judges each FILE, one EDIFACT message from UNH to UNT, against a guide book,\n"
    "and says what is wrong and where. - is standard input.\n"
    "\n"
    "  --book FILE       the compiled guide book to judge by, instead of the one\n"
    "                    inside; printed names are taken from FILE with .names in\n"
    "                    place of .bin, if there is one\n"
    "  --condition N=V   what is known of the guide's condition N: true, false or\n"
    "                    unknown. Without it a condition is unknown\n"
    "  --tree            draw the message's tree with the guide's names\n"
    "  --tally FILE      add each verdict to the tally in FILE, which is made if it\n"
    "                    is not there. Several inspectors may add to one FILE\n"
    "  --show-tally FILE show how often each number was added to the tally in FILE,\n"
    "                    and judge nothing\n"
    "  --json            one line of JSON for each file\n"
    "  --quiet           no answers, only the exit status\n"
    "  --help            this\n"
    "\n"
    "Exit status: 0 every message is accepted, or the tally is shown; 1 some message\n"
    "is refused; 3 none is refused, but some verdict is open; 2 wrong usage, or\n"
    "something cannot be read, or not be added to the tally.\n";

/* An option with a value. */
struct valued_option {
    const char *name;
    const char **file; /* where a file's name goes; null for --condition */
    const char *once;  /* why a file is given once */
};

/* Whether the word is NAME or NAME=VALUE. */
static bool is_option(const char *word, const char *name)
{
    size_t length = strlen(name);
    return strncmp(word, name, length) == 0 &&
           (word[length] == '\0' || word[length] == '=');
}

/* The option that the word is; without a name if it is none of these. */
static struct valued_option find_valued(struct options *options, const char *word)
{
    const struct valued_option valued[] = {
        {"--condition", NULL, NULL},
        {"--book", &options->book, "messages are judged by one book"},
        {"--tally", &options->tally, "verdicts are added to one tally"},
        {"--show-tally", &options->shown_tally, "one tally is shown"},
    };
    for (size_t i = 0; i < sizeof valued / sizeof valued[0]; i++) {
        if (is_option(word, valued[i].name)) {
            return valued[i];
        }
    }
    return (struct valued_option){NULL, NULL, NULL};
}

/* What stands behind =, or else the next word; null if there is none. */
static const char *find_value(char **words, size_t count, size_t *at)
{
    const char *equals = strchr(words[*at], '=');
    if (equals != NULL) {
        return equals + 1;
    }
    return *at + 1 < count ? words[++*at] : NULL;
}

/* The number before =, 0 if there is none from 1 to 64. */
static unsigned condition_number(const char *words)
{
    unsigned number = 0;
    while (*words >= '0' && *words <= '9' && number <= MOST_CONDITIONS) {
        number = 10 * number + (unsigned)(*words++ - '0');
    }
    return *words == '=' && number <= MOST_CONDITIONS ? number : 0;
}

static bool read_value(const char *words, uint8_t *value)
{
    for (uint8_t i = IS_FALSE; i <= IS_UNKNOWN; i++) {
        if (strcmp(words, value_words(i)) == 0) {
            *value = i;
            return true;
        }
    }
    return false;
}

/* What is given twice may be a slip: the last pair of eyes asks. */
static bool read_file_name(const struct valued_option *option, const char *name)
{
    if (*option->file != NULL) {
        complain("%s is given twice: %s", option->name, option->once);
        return false;
    }
    *option->file = name;
    return true;
}

static bool read_condition(struct options *options, bool *is_given, const char *words)
{
    unsigned number = condition_number(words);
    uint8_t value;
    if (number == 0 || !read_value(strchr(words, '=') + 1, &value)) {
        complain("--condition takes N=true, N=false or N=unknown with N from 1 to %d, "
                 "not %s",
                 MOST_CONDITIONS, words);
        return false;
    }
    if (is_given[number - 1]) {
        complain("condition %u is given twice", number);
        return false;
    }
    is_given[number - 1] = true;
    options->conditions[number - 1] = value;
    if (number > options->highest_condition) {
        options->highest_condition = number;
    }
    return true;
}

/* An option without a value; false if the word is none. */
static bool read_flag(struct options *options, const char *word)
{
    bool *flag = strcmp(word, "--json") == 0    ? &options->json
                 : strcmp(word, "--tree") == 0  ? &options->tree
                 : strcmp(word, "--quiet") == 0 ? &options->quiet
                 : strcmp(word, "--help") == 0  ? &options->help
                                                : NULL;
    if (flag != NULL) {
        *flag = true;
    }
    return flag != NULL;
}

static bool read_option(struct options *options, bool *is_given, char **words,
                        size_t count, size_t *at)
{
    const char *word = words[*at];
    if (read_flag(options, word)) {
        return true;
    }
    struct valued_option option = find_valued(options, word);
    if (option.name == NULL) {
        complain("there is no option %s; see --help", word);
        return false;
    }
    const char *value = find_value(words, count, at);
    if (value == NULL) {
        complain("%s wants a value", word);
        return false;
    }
    return option.file == NULL ? read_condition(options, is_given, value)
                               : read_file_name(&option, value);
}

static bool is_standard_input(const char *name)
{
    return name != NULL && strcmp(name, "-") == 0;
}

/* Whether anything is asked for that only a judged message has. */
static bool wants_judging(const struct options *options)
{
    return options->file_count > 0 || options->tally != NULL || options->book != NULL ||
           options->highest_condition > 0 || options->tree;
}

static bool fit_together(const struct options *options)
{
    if (is_standard_input(options->tally) || is_standard_input(options->shown_tally)) {
        complain("a tally is a file, not standard input; one named - is ./-");
        return false;
    }
    if (options->shown_tally != NULL && wants_judging(options)) {
        complain("--show-tally judges nothing: it goes with --json and --quiet alone");
        return false;
    }
    return true;
}

bool read_options(struct options *options, char **words, size_t count)
{
    bool is_given[MOST_CONDITIONS] = {false};
    bool only_files = false;
    *options = (struct options){.files = words};
    memset(options->conditions, IS_UNKNOWN, sizeof options->conditions);
    for (size_t at = 0; at < count; at++) {
        char *word = words[at];
        if (only_files || word[0] != '-' || strcmp(word, "-") == 0) {
            options->files[options->file_count++] = word;
        } else if (strcmp(word, "--") == 0) {
            only_files = true;
        } else if (!read_option(options, is_given, words, count, &at)) {
            return false;
        }
    }
    return options->help || fit_together(options);
}
