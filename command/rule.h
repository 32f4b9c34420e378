/* rule.h: a rule taken out of its file, or about to be written into one, and what the library says of it. */
#ifndef RULE_H
#define RULE_H

#include <pachallu.h>

#include "names.h"
#include "streams.h"

enum { SAFETY = 1, GUARANTEE, OBLIGATION, RESPONSE, CLASSES };
/* Is each pair judged by itself, or are all of them together? */
enum { EACH_PAIR, JOINT };

/* The word for a class from 1 to 4. */
extern const char *const class_words[CLASSES];

struct rule {
    size_t class, states, codes, pairs, start, mode;
    uint8_t table[PACHALLU_STATES_MAX * PACHALLU_EVENTS_MAX]; /* by state, then by code */
    uint64_t r[PACHALLU_PAIRS_MAX], p[PACHALLU_PAIRS_MAX];    /* bit s for state s */
    struct names names;
    uint8_t note[NOTE_MOST]; /* what the note has besides the names */
    size_t note_len;
};

size_t move_of(const struct rule *rule, size_t state, size_t code);
bool in_set(uint64_t set, size_t state);
/* The states in R or P of a pair; for one past the last: of every pair. */
uint64_t met_states(const struct rule *rule, size_t pair);

/* The file of a rule, names and all; 0 where the note would be over NOTE_MOST bytes. `note_len` is what it takes. */
size_t rule_to_file(const struct rule *rule, bool with_names, uint8_t bytes[PACHALLU_RULE_MAX], size_t *note_len);

/* Where a rule is taken from: a file of its own; or rule books, by its number and age. */
struct source {
    const char *file;         /* NULL: from books */
    const char *office, *job; /* job NULL: the job has no book */
    unsigned number, age;
};

/* What was read from there, and its answer: a refusal with the rule's places, or the rule's sheet. */
struct loaded {
    const char *file;                     /* the rule's own, or the book that has it */
    char part[32];                        /* "rule 7, age 0: " of a book; else nothing */
    uint8_t bytes[PACHALLU_RULE_MAX + 1]; /* one more shows a file that is too long */
    size_t len;
    bool long_book; /* it is too long for a rule file, and a rule book */
    uint8_t sheet[PACHALLU_SHEET_MAX];
    pachallu_made made;
    struct rule rule; /* all 0 for a refusal from 1 to 4: the file has no parts then */
};

/* Asks the library about the bytes, and takes the rule out of them. */
void judge(struct loaded *loaded);
/* Puts a rule's bytes there, as many as show whether they are too many, and judges them. */
void load_bytes(struct loaded *loaded, const uint8_t *bytes, size_t len);
/* An accepted rule in joint mode. It is refused where it accepts nothing so. */
void load_joint(const struct loaded *loaded, struct loaded *joint);
/* Reads a rule. DONE: read, and accepted or refused. FAILED, and told: it could not be read. ANSWER_NO, and told: the books do not
 * have it. */
enum status load(const struct source *from, struct loaded *loaded);
/* The same, where only an accepted rule will do; a refused one is told and is ANSWER_NO. */
enum status load_accepted(const struct source *from, struct loaded *loaded);
/* The files that were read for it, and a NULL. */
void source_files(const struct source *from, const char *files[3]);

/* The stopping states of a loaded rule, as the proved text tells them. */
uint64_t stopping_states(const struct loaded *loaded);

#endif
