/* words.c: a refusal put into words, with the rule's own names and numbers, or the book's. */
#include "words.h"

#include <stdarg.h>
#include <stdio.h>
#include <string.h>

/* The words as they grow. */
struct growing {
    char *text;
    size_t used;
};

static void say(struct growing *words, const char *format, ...) PRINTF_LIKE(2, 3);

static void say(struct growing *words, const char *format, ...) {
    va_list list;
    va_start(list, format);
    int len = vsnprintf(words->text + words->used, REFUSAL_WORDS - words->used, format, list);
    va_end(list);
    if (len > 0) words->used += (size_t)len;
    if (words->used >= REFUSAL_WORDS) words->used = REFUSAL_WORDS - 1;
}

static bool is_text(const uint8_t *bytes, size_t len) {
    for (size_t i = 0; i < len; i++)
        if (bytes[i] < ' ' && bytes[i] != '\n' && bytes[i] != '\r' && bytes[i] != '\t') return false;
    return len > 0;
}

static void no_rule_file(struct growing *words, const struct loaded *l) {
    const struct rulebook as_book = {NULL, (uint8_t *)l->bytes, l->len};
    if (l->len > PACHALLU_RULE_MAX)
        say(words, "this is no rule file: it has over %d bytes", PACHALLU_RULE_MAX);
    else if (l->len < 12)
        say(words, "this is no rule file: it has %zu byte%s, and the trailer alone has 12", l->len, l->len == 1 ? "" : "s");
    else
        say(words, "this is no rule file: its last two bytes are %u and %u; 72 and 82 are wanted", (unsigned)l->bytes[l->len - 2],
            (unsigned)l->bytes[l->len - 1]);
    if (is_text(l->bytes, l->len)) say(words, ". It is text: pachallu draw makes a rule file of a drawing in text");
    if (l->long_book || (l->len <= PACHALLU_RULE_MAX && is_rulebook(&as_book)))
        say(words, ". It is a rule book: --book BOOK --rule NUMBER takes a rule out of it");
}

static void out_of_range(struct growing *words, const uint8_t *trailer) {
    if (trailer[1] < 1 || trailer[1] > PACHALLU_STATES_MAX)
        say(words, "it has %u states; 1 to 64 are wanted", (unsigned)trailer[1]);
    else if (trailer[2] < 1 || trailer[2] > PACHALLU_EVENTS_MAX)
        say(words, "it has %u codes; 1 to 32 are wanted", (unsigned)trailer[2]);
    else if (trailer[3] < 1 || trailer[3] > PACHALLU_PAIRS_MAX)
        say(words, "it has %u pairs; 1 to 8 are wanted", (unsigned)trailer[3]);
    else if (trailer[4] >= trailer[1])
        say(words, "it starts at state %u, and has only %u states, numbered from 0", (unsigned)trailer[4], (unsigned)trailer[1]);
    else if (trailer[5] > JOINT)
        say(words, "its mode, byte 5 of the trailer, is %u; 0 or 1 is wanted", (unsigned)trailer[5]);
    else
        say(words, "it has %u pairs, and a rule of class %s has one", (unsigned)trailer[3], class_words[trailer[0]]);
}

static void wrong_layout(struct growing *words, const struct loaded *l) {
    const uint8_t *trailer = l->bytes + l->len - 12;
    unsigned pairs = 12u + 16u * trailer[3], table = pairs + (unsigned)trailer[1] * trailer[2];
    unsigned table_told = trailer[6] | (unsigned)trailer[7] << 8, pairs_told = trailer[8] | (unsigned)trailer[9] << 8;
    if (table_told != table)
        say(words, "its trailer says that the table begins %u bytes before the end; by its sizes it is %u", table_told, table);
    else if (pairs_told != pairs)
        say(words, "its trailer says that the pairs begin %u bytes before the end; by their number it is %u", pairs_told, pairs);
    else if (l->len < table)
        say(words, "it has %zu bytes, and its table and pairs alone take %u", l->len, table);
    else
        say(words, "its note has %zu bytes; %d are the most", l->len - table, NOTE_MOST);
}

static void foreign_state(struct growing *words, const struct rule *rule, unsigned pair, bool in_p) {
    uint64_t set = in_p ? rule->p[pair] : rule->r[pair];
    size_t state = rule->states;
    while (!in_set(set, state) && state < PACHALLU_STATES_MAX) state++;
    say(words, "%s of pair %u has state %zu, and there are only %zu states, numbered from 0", in_p ? "P" : "R", pair, state,
        rule->states);
}

static void class_sets(struct growing *words, const struct rule *rule) {
    if (rule->class == SAFETY)
        say(words, "a rule of class safety is drawn with P alone, and this one has states in R");
    else
        say(words, "a rule of class %s is drawn with R alone, and this one has states in P", class_words[rule->class]);
}

/* Which pair forbids the move, and on which side: the first that does. */
static void forbidden_move(struct growing *words, const struct rule *rule, size_t state, size_t code) {
    size_t to = move_of(rule, state, code), pair = 0;
    bool into_p = false;
    for (; pair < rule->pairs; pair++) {
        into_p = rule->class != GUARANTEE && !in_set(rule->p[pair], state) && in_set(rule->p[pair], to);
        if (into_p || (rule->class != SAFETY && in_set(rule->r[pair], state) && !in_set(rule->r[pair], to))) break;
    }
    say(words, "class %s forbids the move of %s by %s to %s: ", class_words[rule->class], told_state(&rule->names, state),
        told_code(&rule->names, code), told_state(&rule->names, to));
    if (into_p)
        say(words, "no move leads into P from outside it");
    else
        say(words, "no move leads out of R");
    if (rule->pairs > 1) say(words, " (pair %zu)", pair);
}

static void hopeless_start(struct growing *words, const struct rule *rule, unsigned pair) {
    const char *start = told_state(&rule->names, rule->start);
    if (pair < rule->pairs)
        say(words, "nothing can ever be accepted: the start, %s, is not in P and reaches no state of R", start);
    else
        say(words, "nothing can ever be accepted: the start, %s, reaches no state that all pairs accept together", start);
    if (rule->pairs > 1 && pair < rule->pairs) say(words, " (pair %u)", pair);
}

void refusal_words(const struct loaded *l, char text[REFUSAL_WORDS]) {
    struct growing words = {text, 0};
    const struct rule *rule = &l->rule;
    unsigned a = l->made.a, b = l->made.b;
    say(&words, "refused %u: ", (unsigned)l->made.refusal);
    switch (l->made.refusal) {
    case 1: no_rule_file(&words, l); break;
    case 2: say(&words, "its class is %u; 1 to 4 are wanted", (unsigned)l->bytes[l->len - 12]); break;
    case 3: out_of_range(&words, l->bytes + l->len - 12); break;
    case 4: wrong_layout(&words, l); break;
    case 5:
        say(&words, "%s moves by %s to state %zu, and there are only %zu states, numbered from 0", told_state(&rule->names, a),
            told_code(&rule->names, b), move_of(rule, a, b), rule->states);
        break;
    case 6: foreign_state(&words, rule, a, b != 0); break;
    case 7: class_sets(&words, rule); break;
    case 8: forbidden_move(&words, rule, a, b); break;
    case 9: hopeless_start(&words, rule, a); break;
    default: say(&words, "%s (A %u, B %u)", pachallu_refusal_text(l->made.refusal), a, b);
    }
}

/* ---- rule books */

enum { ENTRY = 8, COUNT = 2 };

/* The first thing that is wrong in a directory that has room in its book. */
static void wrong_directory(struct growing *words, const struct rulebook *book, size_t count) {
    size_t directory = book->len - COUNT - ENTRY * count, taken = 0;
    for (size_t at = 0; at < count; at++) {
        struct entry entry = rulebook_entry(book, at);
        if (entry.second != 0) {
            say(words, "the second byte of entry %zu is %u; 0 is wanted", at + 1, entry.second);
            return;
        }
        if (entry.distance + taken != book->len && taken <= directory) {
            say(words, "entry %zu says that its rule begins %zu bytes before the end of the book; %zu are wanted: %s", at + 1,
                entry.distance, book->len - taken,
                at == 0 ? "the first rule stands at the front" : "the rules stand one after another");
            return;
        }
        taken += entry.length;
    }
    say(words, "by its directory the rules take %zu bytes, and %zu stand before the directory", taken, directory);
}

void bad_book_words(const struct rulebook *book, char text[REFUSAL_WORDS]) {
    struct growing words = {text, 0};
    uint8_t sheet[PACHALLU_SHEET_MAX];
    size_t count = book->len < COUNT ? 0 : rulebook_count(book), after = COUNT + ENTRY * count;
    say(&words, "refused 17: this is no rule book: ");
    if (book->len < COUNT)
        say(&words, "it has %zu byte%s, and the count at its end alone has 2", book->len, book->len == 1 ? "" : "s");
    else if (book->len > PACHALLU_BOOK_MAX)
        say(&words, "it has over %d bytes", PACHALLU_BOOK_MAX);
    else if (count > PACHALLU_BOOK_RULES_MAX)
        say(&words, "its last two bytes say that it has %zu rules; %d are the most", count, PACHALLU_BOOK_RULES_MAX);
    else if (book->len < after)
        say(&words, "it has %zu bytes, and the directory of %zu rule%s takes %zu with the count", book->len, count,
            count == 1 ? "" : "s", after);
    else
        wrong_directory(&words, book, count);
    if (pachallu_make(book->bytes, book->len, sheet, sizeof sheet).refusal == 0)
        say(&words, ". It is a rule file: pachallu book add puts it into a rule book");
    else if (book->len == 0 || is_text(book->bytes, book->len))
        say(&words, ". It is %s: pachallu book new begins a rule book", book->len == 0 ? "empty" : "text");
}

void not_found_words(const struct rulebook *job, const struct rulebook *office, const struct source *from,
                     char text[REFUSAL_WORDS]) {
    struct growing words = {text, 0};
    size_t in_job = rulebook_ages(job, from->number), ages = in_job > 0 ? in_job : rulebook_ages(office, from->number);
    say(&words, "refused 18: ");
    if (ages == 0)
        say(&words, "it has no rule %u", from->number);
    else
        say(&words, "its rule %u has %s%zu%s, and none is of age %u", from->number, ages == 1 ? "the age " : "the ages 0 to ",
            ages - 1, ages == 1 ? " alone" : "", from->age);
    if (ages == 0 && job->file) say(&words, ", nor has the job's book %s", file_words(job->file));
    if (in_job > 0 && rulebook_ages(office, from->number) > 0)
        say(&words, "; the office's book is not asked for a number that the job's has");
}

const char *not_added_words(uint8_t refusal) {
    return refusal == 26 ? "refused 26: it has 1024 rules, the most that a rule book has: begin another one with pachallu book new"
                         : pachallu_refusal_text(refusal);
}
