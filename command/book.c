/* book.c: pachallu book: a rule book begun, added to, listed, and a rule taken out of it. */
#include "book.h"

#include <stdlib.h>
#include <unistd.h>

#include "command.h"
#include "words.h"

enum { NAMES_SHOWN = 3 };

enum status command_book_new(const struct arguments *arguments) {
    static const uint8_t no_rules[] = {0, 0};
    static const char *const no_sources[] = {NULL};
    if (arguments->output && is_old_file(arguments->output)) {
        tell(arguments->output, 0, "is there already, and an empty book does not take its place: name another one with -o FILE");
        return FAILED;
    }
    return write_file(arguments->output, no_sources, no_rules, sizeof no_rules);
}

/* ---- list */

/* "response, 3 states, 3 codes: backsight foresight disturbed", and "joint" where it is */
static void put_summary(struct sink *out, const struct rule *rule) {
    size_t shown = 0;
    put_line(out, "%s%s, %zu state%s, %zu code%s", class_words[rule->class], rule->mode == JOINT ? ", joint" : "", rule->states,
             rule->states == 1 ? "" : "s", rule->codes, rule->codes == 1 ? "" : "s");
    for (size_t code = 0; code < rule->codes; code++) {
        if (rule->names.code[code].len == 0) continue;
        if (shown++ == NAMES_SHOWN) {
            put_text(out, " ..");
            break;
        }
        put_line(out, "%s %s", shown == 1 ? ":" : "", rule->names.code[code].text);
    }
    put_text(out, "\n");
}

/* Answers whether its rule is accepted. */
static bool put_entry(struct sink *out, const struct rulebook *book, const struct entry *entry) {
    static struct loaded loaded;
    char words[REFUSAL_WORDS];
    load_bytes(&loaded, book->bytes + entry->place, entry->length);
    put_line(out, "%6u  %4zu  %6u  %8zu  ", entry->number, entry->age, entry->length, entry->place);
    if (loaded.made.refusal == 0) {
        put_summary(out, &loaded.rule);
        return true;
    }
    refusal_words(&loaded, words);
    put_line(out, "%s\n", words);
    return false;
}

bool put_book(struct sink *out, const struct rulebook *book) {
    bool accepted = true;
    size_t count = rulebook_count(book);
    put_text(out, count == 0 ? "no rules\n" : "number   age  length     place  rule\n");
    for (size_t at = 0; at < count; at++) {
        struct entry entry = rulebook_entry(book, at);
        if (!put_entry(out, book, &entry)) accepted = false;
    }
    return accepted;
}

static enum status list(const struct rulebook *book) {
    struct sink out = sink_to(STDOUT_FILENO);
    bool accepted = put_book(&out, book);
    return end_output(&out, accepted ? DONE : ANSWER_NO);
}

static enum status tell_bad_book(const struct rulebook *book) {
    char words[REFUSAL_WORDS];
    bad_book_words(book, words);
    tell(book->file, 0, "%s", words);
    return ANSWER_NO;
}

enum status command_book_list(const struct arguments *arguments) {
    struct rulebook book;
    enum status status = rulebook_read(arguments->file[0], &book);
    if (status == DONE) status = is_rulebook(&book) ? list(&book) : tell_bad_book(&book);
    rulebook_free(&book);
    return status;
}

/* ---- add */

static enum status tell_not_added(const struct rulebook *book, const struct loaded *rule, const pachallu_made *made) {
    char words[REFUSAL_WORDS];
    if (made->refusal == 17) return tell_bad_book(book);
    if (made->refusal > 9) {
        tell(book->file, 0, "%s", not_added_words(made->refusal));
    } else {
        refusal_words(rule, words);
        tell(rule->file, 0, "%s", words);
    }
    return ANSWER_NO;
}

/* The rule is never written over; the book may be: all that it had is in the new one. */
static enum status add(const struct arguments *arguments, const struct rulebook *book, const struct loaded *rule) {
    const char *const sources[] = {rule->file, NULL};
    size_t room = book->len + rule->len + 8;
    uint8_t *grown = room_for(NULL, room);
    pachallu_made made = pachallu_add(book->bytes, book->len, (uint8_t)arguments->rule.number, rule->bytes, rule->len, grown, room);
    enum status status =
        made.refusal ? tell_not_added(book, rule, &made) : write_file(arguments->output, sources, grown, made.written);
    free(grown);
    return status;
}

enum status command_book_add(const struct arguments *arguments) {
    static struct loaded rule;
    const struct source from = {arguments->file[1], NULL, NULL, 0, 0};
    struct rulebook book;
    if (is_missing(arguments->file[0])) {
        tell(arguments->file[0], 0, "there is no such file; pachallu book new -o BOOK begins a rule book");
        return FAILED;
    }
    hold_file(arguments->file[0]);
    enum status status = rulebook_read(arguments->file[0], &book);
    if (status == DONE) status = load(&from, &rule);
    if (status == DONE) status = add(arguments, &book, &rule);
    rulebook_free(&book);
    return status;
}

/* ---- find */

static enum status put_place(const struct source *from, const struct found *found) {
    struct sink out = sink_to(STDOUT_FILENO);
    put_line(&out, "rule %u, age %u: %zu byte%s from byte %zu on, in the %s's book %s\n", from->number, from->age, found->length,
             found->length == 1 ? "" : "s", found->place, found->in == &found->job ? "job" : "office", file_words(found->in->file));
    return end_output(&out, DONE);
}

enum status command_book_find(const struct arguments *arguments) {
    const struct source *from = &arguments->rule;
    const char *files[3];
    struct found found;
    enum status status = find_rule(from, &found);
    source_files(from, files);
    if (status == DONE && !arguments->output)
        status = put_place(from, &found);
    else if (status == DONE)
        status = write_file(arguments->output, files, found.in->bytes + found.place, found.length);
    found_free(&found);
    return status;
}
