/* why.c: pachallu why: what a held code waits for and why a code is halted, as the library tells it. */
#include "why.h"

#include <string.h>
#include <unistd.h>

#include "command.h"

enum { NAMES_SHOWN = 8 };

static void ask(const struct loaded *loaded, uint8_t state, uint8_t code, struct reason *reason) {
    reason->told = pachallu_why(loaded->bytes, loaded->len, state, code, reason->way, sizeof reason->way);
    if (reason->told.refusal == 0) reason->at = move_of(&loaded->rule, state, code);
}

/* All is judged at the state to which a code leads, so that any move to it will do. */
static void ask_at(const struct loaded *loaded, size_t state, struct reason *reason) {
    const struct rule *rule = &loaded->rule;
    for (size_t cell = 0; cell < rule->states * rule->codes; cell++) {
        if (rule->table[cell] != state) continue;
        ask(loaded, (uint8_t)(cell / rule->codes), (uint8_t)(cell % rule->codes), reason);
        return;
    }
}

const struct reason *reason_at(struct reasons *reasons, size_t state) {
    if (!reasons->asked[state]) ask_at(reasons->loaded, state, &reasons->reason[state]);
    reasons->asked[state] = true;
    return &reasons->reason[state];
}

bool release_at(const struct loaded *loaded, size_t state, struct reason *release) {
    static struct loaded joint;
    load_joint(loaded, &joint);
    if (joint.made.refusal) return false;
    ask_at(&joint, state, release);
    return release->told.operation == PACHALLU_STORE;
}

/* ---- in words */

/* " between half": the names of a set, or the numbers of those that have none, at most so many. */
static void put_set(struct sink *out, const struct name *names, size_t count, uint64_t set, size_t most) {
    size_t shown = 0;
    for (size_t i = 0; i < count && shown <= most; i++)
        if (in_set(set, i)) put_line(out, " %s", shown++ < most ? word_for(names, i) : "..");
}

static void put_way(struct sink *out, const struct rule *rule, const struct reason *reason, size_t most) {
    for (size_t i = 0; i < reason->told.length && i <= most; i++)
        put_line(out, " %s", i < most ? word_for(rule->names.code, reason->way[i]) : "..");
}

void put_wait(struct sink *out, const struct rule *rule, const struct reason *reason, size_t most) {
    put_way(out, rule, reason, most);
    if (rule->pairs > 1 && reason->told.pair < rule->pairs) put_line(out, " (pair %u)", (unsigned)reason->told.pair);
}

/* The states in which the pair is met that a reason names, or in which all are. */
static void put_met(struct sink *out, const struct rule *rule, const struct reason *reason) {
    put_set(out, rule->names.state, rule->states, met_states(rule, reason->told.pair), rule->states);
}

void put_lost(struct sink *out, const struct rule *rule, const struct reason *reason) {
    if (reason->told.pair < rule->pairs)
        put_line(out, "pair %u, which wants one of:", (unsigned)reason->told.pair);
    else
        put_text(out, "all pairs together, which want one of:");
    put_met(out, rule, reason);
}

static void put_halt(struct sink *out, const struct rule *rule, const struct reason *reason) {
    if (reason->told.pair < rule->pairs)
        put_line(out, "halt: pair %u is lost. It wants one of:", (unsigned)reason->told.pair);
    else
        put_text(out, "halt: all pairs together are lost, though none by itself. They want one of:");
    put_met(out, rule, reason);
    put_line(out, "; no codes lead there from %s.", word_for(rule->names.state, reason->at));
}

/* No code leads into P from outside it, so that of one pair R is what is wanted. */
static void put_store(struct sink *out, const struct rule *rule, const struct reason *reason) {
    size_t pair = rule->pairs == 1 ? 0 : reason->told.pair;
    if (pair < rule->pairs) {
        put_line(out, "store: pair %zu wants one of:", pair);
        put_set(out, rule->names.state, rule->states, rule->r[pair], rule->states);
    } else {
        put_text(out, "store: all pairs together want one of:");
        put_met(out, rule, reason);
    }
    put_text(out, ". The shortest way there:");
    put_way(out, rule, reason, PACHALLU_WAY_MAX);
    put_text(out, ".");
}

void put_reason(struct sink *out, const struct rule *rule, const struct reason *reason) {
    switch (reason->told.operation) {
    case PACHALLU_HALT: put_halt(out, rule, reason); break;
    case PACHALLU_STORE: put_store(out, rule, reason); break;
    default:
        put_line(out, "dump: every pair is met at %s. The code goes in, and with it all that is held.",
                 word_for(rule->names.state, reason->at));
    }
}

/* ---- the command */

/* The number up to 255 that a word writes or names, or -1. */
static int called(const char *word, const struct name *names, size_t count) {
    const uint8_t *text = (const uint8_t *)word;
    int number = number_in(text, strlen(word));
    if (number < 0) return find_name(names, count, text, strlen(word));
    return number < ALL_CODES ? number : -1;
}

/* The rule has no such state or code; `what` goes on after the word. */
static enum status tell_none(const struct loaded *loaded, const char *word, const char *what, const struct name *names,
                             size_t count) {
    struct sink those = sink_to(-1);
    put_set(&those, names, count, ~(uint64_t)0, NAMES_SHOWN);
    tell(loaded->file, 0, "%srefused %s: %s is %s; it has%.*s", loaded->part, names == loaded->rule.names.state ? "12" : "13",
         quoted(word, strlen(word)), what, (int)those.used, (const char *)those.bytes);
    sink_free(&those);
    return ANSWER_NO;
}

enum status command_why(const struct arguments *arguments) {
    static struct loaded loaded;
    const struct rule *rule = &loaded.rule;
    const struct name *states = rule->names.state, *codes = rule->names.code;
    struct reason reason, release;
    enum status status = load_accepted(&arguments->rule, &loaded);
    if (status != DONE) return status;
    int state = called(arguments->state, states, rule->states), code = called(arguments->code, codes, ALL_CODES);
    /* 255 is no state and no code of any rule */
    ask(&loaded, state < 0 ? 255 : (uint8_t)state, code < 0 ? 255 : (uint8_t)code, &reason);
    if (reason.told.refusal == 12) return tell_none(&loaded, arguments->state, "no state of this rule", states, rule->states);
    if (reason.told.refusal == 13)
        return tell_none(&loaded, arguments->code,
                         code < 0 ? "no code of this rule" : "no code of this rule, but a remark, which a run ignores", codes,
                         rule->codes);
    struct sink out = sink_to(STDOUT_FILENO);
    put_reason(&out, rule, &reason);
    if (reason.told.operation == PACHALLU_STORE && rule->pairs > 1 && !release_at(&loaded, reason.at, &release))
        put_text(&out, " But all pairs together can never be met: in joint mode it would halt.");
    put_text(&out, "\n");
    return end_output(&out, DONE);
}
