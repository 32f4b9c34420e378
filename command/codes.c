/* codes.c: the codes of a book, read in blocks as they come. */
#define _XOPEN_SOURCE 700
#include "codes.h"

#include <stdio.h>
#include <string.h>
#include <time.h>
#include <unistd.h>

static long long seconds(void) {
    struct timespec now;
    return clock_gettime(CLOCK_MONOTONIC, &now) == 0 ? (long long)now.tv_sec : 0;
}

bool codes_open(struct codes *in, const char *file, const struct names *names, struct sink *out) {
    memset(in, 0, sizeof *in);
    in->file = file;
    in->names = names;
    in->out = out;
    in->line = 1;
    in->began = in->told = seconds();
    in->fd = open_input(file);
    return in->fd >= 0;
}

/* How far the work is, once a second on a terminal, where it does not run into the answer. */
static void progress(struct codes *in) {
    long long now = seconds();
    if (now - in->began < 2 || now == in->told || !isatty(STDERR_FILENO) || (in->out->written && isatty(STDOUT_FILENO))) return;
    in->told = now;
    fprintf(stderr, "\rpachallu: %zu codes so far", in->count);
    fflush(stderr);
}

static void end_progress(struct codes *in) {
    if (in->told != in->began) fputs("\r\033[K", stderr);
    in->told = in->began;
}

/* ---- lines */

static size_t line_at(const struct codes *in, size_t place) {
    size_t line = in->line;
    for (size_t i = 0; i < place; i++) line += in->bytes[i] == '\n';
    return line;
}

/* The place behind the last end of a line before `place`; 0 where the line began in bytes that were read before. */
static size_t line_begins(const struct codes *in, size_t place) {
    while (place > 0 && in->bytes[place - 1] != '\n') place--;
    return place;
}

/* Adds bytes to the text of a line; true where the line ends in them. */
static bool add_to_text(struct codes *in, size_t from, size_t to) {
    for (; from < to && in->bytes[from] != '\n'; from++)
        if (in->text_len < LINE_KEPT) in->text[in->text_len++] = in->bytes[from];
    return from < to;
}

static void go_on_keeping(struct codes *in) {
    if (in->kept && !in->kept_over) in->kept_over = add_to_text(in, in->kept_at, in->at);
    in->kept_at = in->at;
}

size_t number_of_code(const struct codes *in, size_t place) { return in->count - in->gathered + place + 1; }

size_t line_of_code(const struct codes *in, size_t place) { return line_at(in, in->where[place]); }

void keep_line(struct codes *in, size_t place) {
    in->kept = true;
    in->kept_at = line_begins(in, in->where[place]);
    if (in->kept_at > 0) in->text_len = 0;
}

/* ---- reading */

void codes_close(struct codes *in) {
    end_progress(in);
    go_on_keeping(in);
    if (in->fd > STDIN_FILENO) close(in->fd);
}

/* All bytes are looked through: lets go of them, with the line's number and its front kept. */
static void let_go(struct codes *in) {
    size_t begins = line_begins(in, in->len);
    in->line = line_at(in, in->len);
    go_on_keeping(in);
    if (!in->kept) {
        if (begins > 0) in->text_len = 0;
        add_to_text(in, begins, in->len);
    }
    in->at = in->len = in->word_at = in->kept_at = 0;
}

/* Reads more; THE_END, NOT_READ or NOT_WRITTEN where there is none, then and ever after. */
static enum came fill(struct codes *in) {
    if (in->end != CODES) return in->end;
    progress(in);
    if (!sink_flush(in->out)) return in->end = NOT_WRITTEN;
    let_go(in);
    long got = read_some(in->fd, in->file, in->bytes, sizeof in->bytes);
    if (got <= 0) return in->end = got < 0 ? NOT_READ : THE_END;
    in->len = (size_t)got;
    return CODES;
}

/* ---- codes */

static bool is_space(uint8_t byte) { return byte == ' ' || (byte >= '\t' && byte <= '\r'); }

/* The code that a word is, or -1. */
static int code_in(const struct codes *in, const uint8_t *word, size_t len) {
    int number = number_in(word, len);
    if (number < 0) return find_name(in->names->code, ALL_CODES, word, len);
    return number <= 255 ? number : -1;
}

static void tell_no_code(struct codes *in) {
    bool named = false;
    for (size_t i = 0; i < ALL_CODES; i++) named = named || in->names->code[i].len > 0;
    end_progress(in);
    tell(in->file, line_at(in, in->word_at), "%s is no code: a number from 0 to 255%s is wanted. The run ends before it",
         in->word_len == WORD_MOST ? "a word of over 64 bytes" : quoted(in->word, in->word_len),
         named ? " or the name of one of the rule's codes" : "");
}

/* The word is over, or longer than any code: its code goes into the block. A word that is none stays. */
static void end_word(struct codes *in) {
    int code = in->word_len < WORD_MOST ? code_in(in, in->word, in->word_len) : -1;
    in->no_code = code < 0;
    if (in->no_code) return;
    in->block[in->gathered] = (uint8_t)code;
    in->where[in->gathered++] = (uint32_t)in->word_at;
    in->count++;
    in->word_len = 0;
}

/* The byte before `at` is part of a word. */
static void add_to_word(struct codes *in, uint8_t byte) {
    if (in->word_len == 0) in->word_at = in->at - 1;
    in->word[in->word_len++] = byte;
    /* a byte-order mark is no part of the first word */
    bool mark = in->word_len == 3 && in->count == 0 && memcmp(in->word, "\xef\xbb\xbf", 3) == 0;
    if (mark && line_at(in, in->word_at) == 1) in->word_len = 0;
    if (in->word_len == WORD_MOST) end_word(in);
}

/* Looks through what was read, up to `most` codes or a word that is none. */
static void gather(struct codes *in, size_t most) {
    while (in->at < in->len && in->gathered < most && !in->no_code) {
        uint8_t byte = in->bytes[in->at++];
        if (in->comment || byte == '#') in->comment = byte != '\n';
        if (in->comment) continue;
        if (!is_space(byte))
            add_to_word(in, byte);
        else if (in->word_len > 0)
            end_word(in);
    }
}

enum came next_codes(struct codes *in, size_t most) {
    in->gathered = 0;
    gather(in, most);
    while (in->gathered == 0 && !in->no_code && fill(in) == CODES) gather(in, most);
    if (in->gathered > 0) return CODES;
    /* the book may end with a word */
    if (!in->no_code && in->word_len > 0) end_word(in);
    if (in->gathered > 0) return CODES;
    if (!in->no_code) return in->end;
    tell_no_code(in);
    return NO_CODE;
}
