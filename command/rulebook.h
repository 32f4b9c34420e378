/* rulebook.h: rule books, which have rule files under numbers (docs/FORMATS.md): read, looked through, and a rule found in them. */
#ifndef RULEBOOK_H
#define RULEBOOK_H

#include "rule.h"

/* A book that was read, as it is: it may be none. */
struct rulebook {
    const char *file; /* NULL: the book of no rules, where a job has none */
    uint8_t *bytes;
    size_t len;
};

/* An entry of the directory, and what follows from its place in it. */
struct entry {
    unsigned number, second, length;
    size_t distance; /* from the book's end back to the rule */
    size_t place;    /* of the rule's first byte */
    size_t age;      /* how many later entries have the number */
};

/* Reads a book, NULL for the one of no rules. FAILED, and told: it could not be read. To be freed in any case. */
enum status rulebook_read(const char *file, struct rulebook *book);
void rulebook_free(struct rulebook *book);

/* Is it a book? The library says so. */
bool is_rulebook(const struct rulebook *book);
/* What its last two bytes say. */
size_t rulebook_count(const struct rulebook *book);
/* An entry, counted from 0, the oldest. The book has to be long enough for its directory; the place is right in a sound one. */
struct entry rulebook_entry(const struct rulebook *book, size_t at);
/* How many entries of a sound book have the number. */
size_t rulebook_ages(const struct rulebook *book, unsigned number);

/* A rule in a job's book or an office's. */
struct found {
    struct rulebook job, office;
    const struct rulebook *in; /* one of the two */
    size_t place, length;
};

/* Reads the books and looks the rule up. FAILED, and told: one could not be read; ANSWER_NO, and told: refused. To be freed. */
enum status find_rule(const struct source *from, struct found *found);
void found_free(struct found *found);

#endif
