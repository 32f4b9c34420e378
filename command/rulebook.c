/* rulebook.c: rule books, which have rule files under numbers (docs/FORMATS.md): read, looked through, and a rule found in them. */
#include "rulebook.h"

#include <stdlib.h>
#include <string.h>

#include "words.h"

enum { ENTRY = 8, COUNT = 2 };

static const uint8_t no_rules[COUNT] = {0, 0};

enum status rulebook_read(const char *file, struct rulebook *book) {
    book->file = file;
    /* one byte more shows a file that is too long */
    if (file) return read_whole(file, (size_t)PACHALLU_BOOK_MAX + 1, &book->bytes, &book->len);
    book->len = sizeof no_rules;
    book->bytes = room_for(NULL, book->len);
    memcpy(book->bytes, no_rules, book->len);
    return DONE;
}

void rulebook_free(struct rulebook *book) { free(book->bytes); }

bool is_rulebook(const struct rulebook *book) {
    return pachallu_find(book->bytes, book->len, no_rules, sizeof no_rules, 0, 0).refusal != 17;
}

size_t rulebook_count(const struct rulebook *book) {
    const uint8_t *count = book->bytes + book->len - COUNT;
    return count[0] | (size_t)count[1] << 8;
}

struct entry rulebook_entry(const struct rulebook *book, size_t at) {
    size_t count = rulebook_count(book);
    const uint8_t *bytes = book->bytes + book->len - COUNT - ENTRY * (count - at);
    struct entry entry = {bytes[0], bytes[1], bytes[2] | (unsigned)bytes[3] << 8, 0, 0, 0};
    for (size_t i = 0; i < 4; i++) entry.distance |= (size_t)bytes[4 + i] << 8 * i;
    entry.place = book->len - entry.distance;
    for (size_t later = at + 1; later < count; later++)
        if (bytes[ENTRY * (later - at)] == entry.number) entry.age++;
    return entry;
}

size_t rulebook_ages(const struct rulebook *book, unsigned number) {
    size_t ages = 0;
    for (size_t at = 0, count = rulebook_count(book); at < count; at++)
        if (book->bytes[book->len - COUNT - ENTRY * (count - at)] == number) ages++;
    return ages;
}

/* ---- a rule in two books */

static enum status tell_refused(const struct source *from, const struct found *found, const pachallu_found *answer) {
    char words[REFUSAL_WORDS];
    const struct rulebook *book = &found->office;
    if (answer->refusal == 17) {
        if (answer->a == 0) book = &found->job;
        bad_book_words(book, words);
    } else {
        if (rulebook_ages(&found->job, from->number) > 0) book = &found->job;
        not_found_words(&found->job, &found->office, from, words);
    }
    tell(book->file, 0, "%s", words);
    return ANSWER_NO;
}

enum status find_rule(const struct source *from, struct found *found) {
    *found = (struct found){{NULL, NULL, 0}, {NULL, NULL, 0}, NULL, 0, 0};
    enum status status = rulebook_read(from->job, &found->job);
    if (status == DONE) status = rulebook_read(from->office, &found->office);
    if (status != DONE) return status;
    pachallu_found answer = pachallu_find(found->job.bytes, found->job.len, found->office.bytes, found->office.len,
                                          (uint8_t)from->number, (uint16_t)from->age);
    if (answer.refusal) return tell_refused(from, found, &answer);
    found->in = answer.book == 0 ? &found->job : &found->office;
    found->place = answer.start;
    found->length = answer.length;
    return DONE;
}

void found_free(struct found *found) {
    rulebook_free(&found->job);
    rulebook_free(&found->office);
}
