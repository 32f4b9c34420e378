/* tokens.h: the text of a drawing, cut into tokens and statements. */
#ifndef TOKENS_H
#define TOKENS_H

#include "complaints.h"

/* SPOILED is the rest of a line that cannot be read, which is told where it is cut. */
enum kind { WORD, STRING, ARROW, COMMA, EQUALS, SPOILED, END };

struct token {
    enum kind kind;
    size_t line;
    const uint8_t *text;
    size_t len;
};

/* A statement is a line, and the next one too where a line ends with a comma; an END stands after each. */
struct tokens {
    struct token *list;
    size_t count, size;
};

void tokens_cut(const uint8_t *text, size_t len, struct tokens *tokens, struct complaints *complaints);

/* The token as a message shows it. */
const char *seen(const struct token *token);
bool says(const struct token *token, const char *word);
/* The number that the token is, or -1. */
int number_of(const struct token *token);
/* Is there a token of this kind in the statement, from here on? */
bool has(const struct token *token, enum kind kind);

#endif
