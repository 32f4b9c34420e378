/* words.h: a refusal put into words, with the rule's own names and numbers, or the book's. */
#ifndef WORDS_H
#define WORDS_H

#include "rulebook.h"

enum { REFUSAL_WORDS = 1024 };

/* "refused 8: .." for a loaded rule that was refused, with no full stop. */
void refusal_words(const struct loaded *loaded, char words[REFUSAL_WORDS]);

/* "refused 17: .." for a rule book that is not well formed. */
void bad_book_words(const struct rulebook *book, char words[REFUSAL_WORDS]);
/* "refused 18: .." for a rule that two sound books do not have; said of the job's where it has the number, else of the office's. */
void not_found_words(const struct rulebook *job, const struct rulebook *office, const struct source *from,
                     char words[REFUSAL_WORDS]);
/* Why a book takes no further rule, the same way. */
const char *not_added_words(uint8_t refusal);

#endif
