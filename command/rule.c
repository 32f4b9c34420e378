/* rule.c: a rule taken out of its file, or about to be written into one, and what the library says of it. */
#include "rule.h"

#include <stdio.h>
#include <stdlib.h>
#include <string.h>

#include "rulebook.h"
#include "words.h"

const char *const class_words[CLASSES] = {NULL, "safety", "guarantee", "obligation", "response"};

enum { TRAILER = 12, PAIR = 16 };

size_t move_of(const struct rule *rule, size_t state, size_t code) { return rule->table[state * rule->codes + code]; }

bool in_set(uint64_t set, size_t state) { return state < PACHALLU_STATES_MAX && (set >> state & 1) != 0; }

uint64_t met_states(const struct rule *rule, size_t pair) {
    uint64_t all = ~(uint64_t)0;
    if (pair < rule->pairs) return rule->r[pair] | rule->p[pair];
    for (size_t i = 0; i < rule->pairs; i++) all &= rule->r[i] | rule->p[i];
    return all;
}

static void put_number(uint8_t *bytes, uint64_t number, size_t len) {
    for (size_t i = 0; i < len; i++) bytes[i] = (uint8_t)(number >> 8 * i);
}

static uint64_t number_at(const uint8_t *bytes, size_t len) {
    uint64_t number = 0;
    for (size_t i = 0; i < len; i++) number |= (uint64_t)bytes[i] << 8 * i;
    return number;
}

size_t rule_to_file(const struct rule *rule, bool with_names, uint8_t bytes[PACHALLU_RULE_MAX], size_t *note_len) {
    size_t cells = rule->states * rule->codes, pairs = PAIR * rule->pairs;
    size_t at = with_names ? names_to_note(&rule->names, rule->states, bytes) : 0;
    *note_len = at + rule->note_len;
    if (*note_len > NOTE_MOST) return 0;
    memcpy(bytes + at, rule->note, rule->note_len);
    at += rule->note_len;
    memcpy(bytes + at, rule->table, cells);
    at += cells;
    for (size_t i = 0; i < rule->pairs; i++, at += PAIR) {
        put_number(bytes + at, rule->r[i], 8);
        put_number(bytes + at + 8, rule->p[i], 8);
    }
    uint8_t trailer[TRAILER] = {(uint8_t)rule->class,
                                (uint8_t)rule->states,
                                (uint8_t)rule->codes,
                                (uint8_t)rule->pairs,
                                (uint8_t)rule->start,
                                (uint8_t)rule->mode,
                                0,
                                0,
                                0,
                                0,
                                72,
                                82};
    put_number(trailer + 6, TRAILER + pairs + cells, 2);
    put_number(trailer + 8, TRAILER + pairs, 2);
    memcpy(bytes + at, trailer, TRAILER);
    return at + TRAILER;
}

/* For a file that has passed the checks 1 to 4. */
static void take_apart(const uint8_t *bytes, size_t len, struct rule *rule) {
    const uint8_t *trailer = bytes + len - TRAILER;
    rule->class = trailer[0];
    rule->states = trailer[1];
    rule->codes = trailer[2];
    rule->pairs = trailer[3];
    rule->start = trailer[4];
    rule->mode = trailer[5];
    const uint8_t *pairs = trailer - PAIR * rule->pairs, *table = pairs - rule->states * rule->codes;
    memcpy(rule->table, table, rule->states * rule->codes);
    for (size_t i = 0; i < rule->pairs; i++) {
        rule->r[i] = number_at(pairs + PAIR * i, 8);
        rule->p[i] = number_at(pairs + PAIR * i + 8, 8);
    }
    size_t note = (size_t)(table - bytes), named = names_in_note(bytes, note, rule->states, &rule->names);
    rule->note_len = note - named;
    memcpy(rule->note, bytes + named, rule->note_len);
}

void judge(struct loaded *loaded) {
    loaded->made = pachallu_make(loaded->bytes, loaded->len, loaded->sheet, sizeof loaded->sheet);
    loaded->rule = (struct rule){0};
    if (loaded->made.refusal == 0 || loaded->made.refusal > 4) take_apart(loaded->bytes, loaded->len, &loaded->rule);
}

void load_bytes(struct loaded *loaded, const uint8_t *bytes, size_t len) {
    loaded->long_book = false;
    loaded->len = len < sizeof loaded->bytes ? len : sizeof loaded->bytes;
    memcpy(loaded->bytes, bytes, loaded->len);
    judge(loaded);
}

void load_joint(const struct loaded *loaded, struct loaded *joint) {
    load_bytes(joint, loaded->bytes, loaded->len);
    joint->bytes[joint->len - TRAILER + 5] = JOINT;
    judge(joint);
}

static enum status load_from_books(const struct source *from, struct loaded *loaded) {
    struct found found;
    enum status status = find_rule(from, &found);
    if (status == DONE) {
        loaded->file = found.in->file;
        snprintf(loaded->part, sizeof loaded->part, "rule %u, age %u: ", from->number, from->age);
        load_bytes(loaded, found.in->bytes + found.place, found.length);
    }
    found_free(&found);
    return status;
}

/* A file that is too long for a rule is read a second time, as a whole, where that can be done. */
static bool is_long_book(const char *file) {
    struct rulebook book = {NULL, NULL, 0};
    bool is_book = is_old_file(file) && rulebook_read(file, &book) == DONE && is_rulebook(&book);
    rulebook_free(&book);
    return is_book;
}

enum status load(const struct source *from, struct loaded *loaded) {
    if (!from->file) return load_from_books(from, loaded);
    loaded->file = from->file;
    loaded->part[0] = 0;
    enum status status = read_file(from->file, loaded->bytes, sizeof loaded->bytes, &loaded->len);
    if (status != DONE) return status;
    loaded->long_book = loaded->len > PACHALLU_RULE_MAX && is_long_book(from->file);
    judge(loaded);
    return DONE;
}

enum status load_accepted(const struct source *from, struct loaded *loaded) {
    char words[REFUSAL_WORDS];
    enum status status = load(from, loaded);
    if (status != DONE || loaded->made.refusal == 0) return status;
    refusal_words(loaded, words);
    tell(loaded->file, 0, "%s%s", loaded->part, words);
    return ANSWER_NO;
}

void source_files(const struct source *from, const char *files[3]) {
    files[0] = from->file ? from->file : from->office;
    files[1] = from->file ? NULL : from->job;
    files[2] = NULL;
}

uint64_t stopping_states(const struct loaded *loaded) {
    static char text[PACHALLU_TEXT_MAX + 1];
    uint64_t set = 0;
    pachallu_made printed = pachallu_print(loaded->bytes, loaded->len, (uint8_t *)text, PACHALLU_TEXT_MAX);
    text[printed.written] = 0;
    /* the last line is "stop" and the states, or "stop -" */
    const char *at = strstr(text, "stop ");
    if (!at || at[5] == '-') return 0;
    for (at += 4; *at == ' ';) {
        char *end;
        unsigned long state = strtoul(at + 1, &end, 10);
        if (state < PACHALLU_STATES_MAX) set |= (uint64_t)1 << state;
        at = end;
    }
    return set;
}
