/* names.h: names of states, codes and remarks, and how they stand in a rule's note (docs/FORMATS.md). */
#ifndef NAMES_H
#define NAMES_H

#include <pachallu.h>
#include <stdbool.h>

enum { NAME_MOST = 64, NOTE_MOST = 1024, ALL_CODES = 256 };

/* A name; one of length 0 is none: the state or code is shown by its number. */
struct name {
    size_t len;
    char text[NAME_MOST + 1];
};

struct names {
    struct name code[ALL_CODES]; /* those of the rule, and behind them remarks: codes that it ignores */
    struct name state[PACHALLU_STATES_MAX];
};

/* How many bytes at the front of the text can be part of a name. */
size_t name_bytes(const uint8_t *text, size_t len);
/* NULL if these bytes are a name, else what is wrong with them. */
const char *not_a_name(const uint8_t *text, size_t len);
/* The number that these bytes write in decimal, at most 1,000; -1 if they do not. */
int number_in(const uint8_t *text, size_t len);
struct name name_of(const uint8_t *text, size_t len);
/* The place of a name among `count`, or -1. */
int find_name(const struct name *names, size_t count, const uint8_t *text, size_t len);

/* The name, or the number where there is none. Eight answers are kept. */
const char *word_for(const struct name *names, size_t number);
/* The same for a sentence: "half" in quotation marks, or state 1. */
const char *told_state(const struct names *names, size_t number);
const char *told_code(const struct names *names, size_t number);

/* Puts the names at the front of a note; answers how many bytes they take, and writes nothing where that is over NOTE_MOST.
 * No bytes where there is no name at all. */
size_t names_to_note(const struct names *names, size_t states, uint8_t *note);
/* Takes the names out of a note; answers how many bytes they take, 0 where the note does not begin with names. */
size_t names_in_note(const uint8_t *note, size_t len, size_t states, struct names *names);

#endif
