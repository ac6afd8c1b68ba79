/* The message's tree: the segments in their order, moved in by their depth, with
 * each instance of a group under its name. */
#include "tree.h"

#include <stdlib.h>

/* Where a line's name and a segment's text begin, and how much of it is shown. */
enum { LABEL_COLUMN = 11, TEXT_COLUMN = 64, MOST_SHOWN = 48 };

/* The group last opened at a depth, in which instance, for the how-manieth time. */
struct opened {
    uint32_t group;
    uint32_t parent;
    uint32_t count;
};

/* A line as it is drawn: its depth and its name are looked up once for a message,
 * which may have a million segments. */
struct label {
    unsigned depth;
    bool is_trigger;
    bool may_repeat;
    struct text name;
};

static struct label *make_labels(const struct guide *guide)
{
    unsigned count = line_count(guide);
    struct label *labels = need_memory(count * sizeof labels[0]);
    for (unsigned line = 1; line <= count; line++) {
        struct guide_line read = guide_line(guide, line);
        struct label *label = &labels[line - 1];
        *label = (struct label){read.depth, is_trigger(guide, line), read.maximum > 1,
                                {NULL, 0, 0}};
        append_line_name(&label->name, guide, line);
    }
    return labels;
}

static void free_labels(struct label *labels, unsigned count)
{
    for (unsigned i = 0; i < count; i++) {
        free_text(&labels[i].name);
    }
    free(labels);
}

static void draw_label(struct text *text, const struct label *label)
{
    append_times(text, "│ ", label->depth);
    append_bytes(text, label->name.bytes, label->name.length);
}

/* "SG1 (positions) no. 2": the second instance in its parent. */
static void draw_group(struct text *text, const struct label *label, uint32_t count)
{
    append_times(text, " ", LABEL_COLUMN);
    draw_label(text, label);
    if (label->may_repeat) {
        append(text, " no. %u", count);
    }
    append(text, "\n");
}

/* An accepted message's place is its last segment: nothing to point at. */
static bool is_at_fault(const struct judgement *judgement, uint32_t number)
{
    return judgement->record.entries[NUMBER] != ACCEPTED &&
           judgement->record.entries[PLACE] == number;
}

static void draw_segment(struct text *text, const struct judgement *judgement,
                         const struct label *label, uint32_t number)
{
    struct message message = judgement->message;
    size_t line_start = text->length;
    size_t start = judgement->starts[number - 1];
    size_t end =
        number < judgement->segments ? judgement->starts[number] : message.length;
    bool is_long = end - start > MOST_SHOWN;
    append(text, "%s %7u  ", is_at_fault(judgement, number) ? ">" : " ", number);
    draw_label(text, label);
    size_t columns = columns_of(text->bytes + line_start, text->length - line_start);
    append_times(text, " ", columns < TEXT_COLUMN ? TEXT_COLUMN - columns : 2);
    append_message(text, message.bytes + start, is_long ? MOST_SHOWN : end - start);
    append(text, is_long ? "…\n" : "\n");
}

/* Which instance of its group a trigger opens, counted in the parent's instance. */
static uint32_t count_instance(struct opened *opened, uint32_t group, uint32_t parent)
{
    bool is_next = opened->group == group && opened->parent == parent;
    *opened = (struct opened){group, parent, is_next ? opened->count + 1 : 1};
    return opened->count;
}

static void draw_segments(struct output *output, const struct judgement *judgement,
                          const struct label *labels)
{
    struct opened opened[MOST_DEPTHS] = {{0, 0, 0}};
    for (uint32_t i = 0; i < judgement->segments; i++) {
        const struct label *label = &labels[judgement->homes[i] - 1];
        if (label->is_trigger) {
            const struct label *group = label - 1;
            uint32_t count = count_instance(&opened[group->depth], judgement->homes[i],
                                            judgement->parents[i]);
            draw_group(&output->text, group, count);
        }
        draw_segment(&output->text, judgement, label, i + 1);
        write_when_long(output);
    }
}

void draw_tree(struct output *output, const struct judgement *judgement)
{
    if (!is_placed(judgement)) {
        append(&output->text, "  no tree: it takes a message whose segments all have "
                              "their place in the guide\n");
        return;
    }
    struct label *labels = make_labels(judgement->guide);
    draw_segments(output, judgement, labels);
    free_labels(labels, line_count(judgement->guide));
}
