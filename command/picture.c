/* picture.c: pachallu picture: a rule's monitor as a drawing for Graphviz. */
#include <stdio.h>
#include <string.h>
#include <unistd.h>

#include "command.h"
#include "rule.h"

enum { WIDEST_LABEL = 28 };

static const char *const operation_words[] = {"halt", "store", "dump"};
static const char *const arrow_styles[] = {"dotted", "dashed", "solid"};

static const char legend[] = "An arrow says codes and operation: solid dump, dashed store, dotted halt.\\n"
                             "Two rings: accepted there. A grey box: stopping, nothing more can be accepted.";

static void put_state(struct sink *out, const struct loaded *loaded, size_t state, bool stopping) {
    const struct rule *rule = &loaded->rule;
    const char *shape = stopping ? "shape=box, style=filled, fillcolor=lightgrey" : "shape=ellipse";
    put_line(out, "    s%zu [label=\"%s\", tooltip=\"state %zu\", %s%s];\n", state, word_for(rule->names.state, state), state,
             shape, in_set(met_states(rule, rule->pairs), state) ? ", peripheries=2" : "");
}

/* The codes that move from one state to another, broken over lines. No name has a mark that Graphviz would read. */
static void put_codes(struct sink *out, const struct rule *rule, size_t from, size_t to) {
    size_t column = 0;
    for (size_t code = 0; code < rule->codes; code++) {
        if (move_of(rule, from, code) != to) continue;
        const char *word = word_for(rule->names.code, code);
        if (column > 0) put_text(out, column + strlen(word) > WIDEST_LABEL ? ",\\n" : ", ");
        if (column + strlen(word) > WIDEST_LABEL) column = 0;
        put_text(out, word);
        column += strlen(word) + 2;
    }
}

/* One arrow for all codes that move from one state to another. */
static void put_arrow(struct sink *out, const struct loaded *loaded, size_t from, size_t to) {
    const struct rule *rule = &loaded->rule;
    size_t count = 0, operation = 0;
    for (size_t code = 0; code < rule->codes; code++) {
        if (move_of(rule, from, code) != to) continue;
        count++;
        operation = loaded->sheet[from * rule->codes + code] / 64;
    }
    if (count == 0) return;
    put_line(out, "    s%zu -> s%zu [label=\"", from, to);
    if (count == rule->codes && count > 1)
        put_text(out, "any");
    else
        put_codes(out, rule, from, to);
    put_line(out, ": %s\", style=%s];\n", operation_words[operation], arrow_styles[operation]);
}

enum status command_picture(const struct arguments *arguments) {
    static struct loaded loaded;
    enum status status = load_accepted(&arguments->rule, &loaded);
    if (status != DONE) return status;
    struct sink out = sink_to(STDOUT_FILENO);
    const struct rule *rule = &loaded.rule;
    uint64_t stopping = stopping_states(&loaded);
    put_text(&out, "digraph rule {\n    rankdir=LR;\n    fontname=\"sans-serif\";\n    fontsize=10;\n");
    put_text(&out, "    node [fontname=\"sans-serif\"];\n    edge [fontname=\"sans-serif\", fontsize=11];\n");
    put_line(&out, "    label=\"Class %s%s. %s\";\n", class_words[rule->class], rule->mode == JOINT ? ", mode joint" : "", legend);
    for (size_t state = 0; state < rule->states; state++) put_state(&out, &loaded, state, in_set(stopping, state));
    put_line(&out, "    start [shape=point, label=\"\"];\n    start -> s%zu;\n", rule->start);
    for (size_t from = 0; from < rule->states; from++)
        for (size_t to = 0; to < rule->states; to++) put_arrow(&out, &loaded, from, to);
    put_text(&out, "}\n");
    return end_output(&out, DONE);
}
