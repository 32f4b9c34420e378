/* check.c: pachallu check: is a rule accepted? */
#include <unistd.h>

#include "command.h"
#include "words.h"

static const char *plural(size_t count) { return count == 1 ? "" : "s"; }

static void put_accepted(struct sink *out, const struct loaded *loaded) {
    const struct rule *rule = &loaded->rule;
    uint64_t stopping = stopping_states(loaded);
    const char *mark = "; stopping ";
    put_line(out, "accepted: class %s%s, %zu state%s, %zu code%s, %zu pair%s; start %s", class_words[rule->class],
             rule->mode == JOINT ? ", mode joint" : "", rule->states, plural(rule->states), rule->codes, plural(rule->codes),
             rule->pairs, plural(rule->pairs), word_for(rule->names.state, rule->start));
    for (size_t state = 0; state < rule->states; state++) {
        if (!in_set(stopping, state)) continue;
        put_line(out, "%s%s", mark, word_for(rule->names.state, state));
        mark = " ";
    }
    mark = "; remarks ";
    for (size_t code = rule->codes; code < ALL_CODES; code++) {
        if (rule->names.code[code].len == 0) continue;
        put_line(out, "%s%s", mark, rule->names.code[code].text);
        mark = " ";
    }
    put_text(out, "\n");
}

/* The states that a run can come to. */
static uint64_t reached_states(const struct rule *rule) {
    uint64_t reached = (uint64_t)1 << rule->start, before = 0;
    while (reached != before) {
        before = reached;
        for (size_t cell = 0; cell < rule->states * rule->codes; cell++)
            if (in_set(reached, cell / rule->codes)) reached |= (uint64_t)1 << rule->table[cell];
    }
    return reached;
}

/* The states among them to which a code leads that is held, where the same rule in joint mode halts it or is refused. */
static uint64_t hopeless_states(const struct loaded *loaded, const struct loaded *joint) {
    const struct rule *rule = &loaded->rule;
    uint64_t reached = reached_states(rule), hopeless = 0;
    for (size_t cell = 0; cell < rule->states * rule->codes; cell++) {
        bool halts = joint->made.refusal || joint->sheet[cell] / 64 == PACHALLU_HALT;
        if (in_set(reached, cell / rule->codes) && loaded->sheet[cell] / 64 == PACHALLU_STORE && halts)
            hopeless |= (uint64_t)1 << rule->table[cell];
    }
    return hopeless;
}

/* Tells of a rule of several pairs where it holds codes for nothing. */
static void put_hopeless(struct sink *out, const struct loaded *loaded) {
    static struct loaded joint;
    const struct rule *rule = &loaded->rule;
    if (rule->pairs == 1 || rule->mode == JOINT) return;
    load_joint(loaded, &joint);
    uint64_t hopeless = hopeless_states(loaded, &joint);
    if (hopeless == 0) return;
    put_line(out, "%s: %scodes are held with no hope at", file_words(loaded->file), loaded->part);
    for (size_t state = 0; state < rule->states; state++)
        if (in_set(hopeless, state)) put_line(out, " %s", word_for(rule->names.state, state));
    put_text(out, ": each pair can still be met there, but not all of them together. ");
    put_line(out, "With \"mode joint\" in its drawing the rule %s\n",
             joint.made.refusal ? "is refused: it accepts nothing" : "halts there");
}

enum status command_check(const struct arguments *arguments) {
    static struct loaded loaded;
    enum status status = load(&arguments->rule, &loaded);
    if (status != DONE) return status;
    struct sink out = sink_to(STDOUT_FILENO);
    put_line(&out, "%s: %s", file_words(loaded.file), loaded.part);
    if (loaded.made.refusal == 0) {
        put_accepted(&out, &loaded);
        put_hopeless(&out, &loaded);
    } else {
        char words[REFUSAL_WORDS];
        refusal_words(&loaded, words);
        put_line(&out, "%s\n", words);
        status = ANSWER_NO;
    }
    return end_output(&out, status);
}
