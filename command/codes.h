/* codes.h: the codes of a book, read in blocks as they come. */
#ifndef CODES_H
#define CODES_H

#include "names.h"
#include "streams.h"

enum { BOOK_READ = 1 << 16, LINE_KEPT = 200, WORD_MOST = NAME_MOST + 1 };

/* What came next in a book. */
enum came { CODES, THE_END, NO_CODE, NOT_READ, NOT_WRITTEN };

/* A book being read. Its text is codes with white space between them: numbers from 0 to 255, or names; # begins a comment. */
struct codes {
    const char *file;
    const struct names *names; /* of the rule */
    struct sink *out;          /* flushed before each read, so that what is known is seen while the book waits */
    size_t count; /* codes so far, with the block; not beside `gathered`: one store for both is slow where it is split */
    int fd;
    uint8_t bytes[BOOK_READ]; /* what was read last, and how far it is looked through */
    size_t at, len;
    size_t line;   /* of the first of these bytes */
    enum came end; /* why there is no more; CODES: there may be */
    bool comment;  /* in a comment */
    /* the word that is not over yet, and the place of its first byte, 0 if that was read before; or the word that is no code */
    uint8_t word[WORD_MOST];
    size_t word_len, word_at;
    bool no_code;
    /* the block, and the places of its codes among the bytes */
    uint8_t block[PACHALLU_LOG_MAX];
    uint32_t where[PACHALLU_LOG_MAX];
    size_t gathered;
    uint8_t text[LINE_KEPT]; /* the front of the line that was not over when the bytes were read, or of the kept line */
    size_t text_len;
    bool kept, kept_over;
    size_t kept_at;        /* where the kept line goes on among the bytes */
    long long began, told; /* seconds, for the progress */
};

/* Opens a book; false, and told, when it cannot be. */
bool codes_open(struct codes *in, const char *file, const struct names *names, struct sink *out);
/* The next block: from 1 to `most` codes, and fewer than `most` where the book would have to be read for more. NO_CODE (a word that
 * is none) and NOT_READ are told here. */
enum came next_codes(struct codes *in, size_t most);
/* Of the code at `place` in the block: which one of the book it is, from 1, and its line. */
size_t number_of_code(const struct codes *in, size_t place);
size_t line_of_code(const struct codes *in, size_t place);
/* To be called once: `text` becomes the front of that code's line, as far as the book is looked through when it is closed. */
void keep_line(struct codes *in, size_t place);
void codes_close(struct codes *in);

#endif
