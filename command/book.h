/* book.h: a rule book as a list. */
#ifndef BOOK_H
#define BOOK_H

#include "rulebook.h"

/* Writes a line for each rule of a sound book, oldest first. Answers whether all of them are accepted. */
bool put_book(struct sink *out, const struct rulebook *book);

#endif
