/* What has been found out about a verdict: the facts that are shown as text
 * (report.c) or JSON (json.c). The describe_*.c fill it in; here is what they
 * share. */
#ifndef INSPECT_FINDING_H
#define INSPECT_FINDING_H

#include "judging.h"
#include "segments.h"
#include "text.h"

struct finding {
    struct text answer; /* one sentence, without file name and number */
    bool has_segment;
    struct segment segment; /* the one that the verdict speaks of */
    struct part shown;      /* its text, or more */
    struct part mark;       /* in it, what is at fault; may be empty */
    unsigned line;          /* of the guide, 0 for none */
    bool has_field;         /* of that line, and its rule in words */
    uint32_t element;
    uint32_t component;
    struct text field_rule;
    int identifier; /* its index, -1 for none: whose row it is */
    struct text row_rule;
    struct text notes; /* further lines, each with its line end */
};

void free_finding(struct finding *finding);

/* The segment at the verdict's place is what is spoken of, and in it the tag, or a
 * component, is marked. */
void show_segment(const struct judgement *judgement, struct finding *finding);
void mark_tag(struct finding *finding);
void mark_component(const struct judgement *judgement, struct finding *finding,
                    uint32_t element, uint32_t component);

/* " in SG1 (positions) that segment 4 opens". */
void append_instance(struct text *text, const struct guide *guide, unsigned group,
                     uint32_t trigger);

/* "is "5"", or "has no value". */
void append_has(struct text *text, struct message message, struct part part);

#endif
