/* tokens.c: the text of a drawing, cut into tokens and statements. */
#include "tokens.h"

#include <string.h>

#include "names.h"

const char *seen(const struct token *token) {
    switch (token->kind) {
    case END: return "the end of the line";
    case ARROW: return "\"->\"";
    case STRING: return "a text in quotation marks";
    default: return quoted(token->text, token->len);
    }
}

bool says(const struct token *token, const char *word) {
    return token->kind == WORD && token->len == strlen(word) && memcmp(token->text, word, token->len) == 0;
}

int number_of(const struct token *token) { return token->kind == WORD ? number_in(token->text, token->len) : -1; }

bool has(const struct token *token, enum kind kind) {
    while (token->kind != END && token->kind != kind) token++;
    return token->kind == kind;
}

/* ---- cutting */

/* A text that is being cut. */
struct text {
    struct tokens *tokens;
    struct complaints *complaints;
    const uint8_t *text;
    size_t len, at, line;
};

static void add_token(struct text *in, enum kind kind, size_t len) {
    struct tokens *tokens = in->tokens;
    if (tokens->count == tokens->size)
        tokens->list = room_for(tokens->list, (tokens->size = 2 * tokens->size + 64) * sizeof *tokens->list);
    tokens->list[tokens->count++] = (struct token){kind, in->line, in->text + in->at, len};
    in->at += len;
}

/* The length of a text in quotation marks, the marks included; 0 if the second mark is missing in this line. */
static size_t string_bytes(const uint8_t *text, size_t len) {
    for (size_t i = 1; i < len && text[i] != '\n' && text[i] != '\r'; i++) {
        if (text[i] == '"') return i + 1;
        if (text[i] == '\\' && i + 1 < len && text[i + 1] != '\n' && text[i + 1] != '\r') i++;
    }
    return 0;
}

static size_t rest_of_line(const uint8_t *text, size_t len) {
    size_t i = 0;
    while (i < len && text[i] != '\n' && text[i] != '\r') i++;
    return i;
}

static void add_string(struct text *in) {
    size_t len = string_bytes(in->text + in->at, in->len - in->at);
    if (len > 0) {
        add_token(in, STRING, len);
        return;
    }
    complain(in->complaints, in->line, "a text begins with a quotation mark and does not end with one in this line");
    add_token(in, SPOILED, rest_of_line(in->text + in->at, in->len - in->at));
}

/* A byte that begins no token. It is told, and what follows it in the line is passed over. */
static void add_spoiled(struct text *in) {
    const uint8_t *text = in->text + in->at;
    size_t seen_bytes = visible_bytes(text, in->len - in->at);
    if (text[0] == '<' || text[0] == '>')
        complain(in->complaints, in->line, "\"%c\" has no place here; an arrow is written ->", text[0]);
    else if (seen_bytes > 0)
        complain(in->complaints, in->line, "%s has no place in a drawing outside of a text in quotation marks",
                 quoted(text, seen_bytes));
    else if (text[0] < 0x80)
        complain(in->complaints, in->line, "the control byte 0x%02x has no place in a drawing", (unsigned)text[0]);
    else
        complain(in->complaints, in->line, "byte 0x%02x begins no character of UTF-8 that can be seen: type this place anew",
                 (unsigned)text[0]);
    add_token(in, SPOILED, rest_of_line(text, in->len - in->at));
}

/* An END stands, so to speak, before the first token. */
static enum kind last_kind(const struct text *in) {
    return in->tokens->count > 0 ? in->tokens->list[in->tokens->count - 1].kind : END;
}

static void end_line(struct text *in) {
    /* after a comma the statement goes on in the next line */
    if (last_kind(in) != COMMA && last_kind(in) != END) add_token(in, END, 0);
    if (in->text[in->at] == '\r' && in->at + 1 < in->len && in->text[in->at + 1] == '\n') in->at++;
    in->at++;
    in->line++;
}

static void next_token(struct text *in) {
    const uint8_t *text = in->text + in->at;
    size_t left = in->len - in->at, name = name_bytes(text, left);
    if (text[0] == ' ' || text[0] == '\t')
        in->at++;
    else if (text[0] == '#')
        in->at += rest_of_line(text, left);
    else if (text[0] == '\n' || text[0] == '\r')
        end_line(in);
    else if (text[0] == ',' || text[0] == '=')
        add_token(in, text[0] == ',' ? COMMA : EQUALS, 1);
    else if (left > 1 && text[0] == '-' && text[1] == '>')
        add_token(in, ARROW, 2);
    else if (text[0] == '"')
        add_string(in);
    else if (name > 0)
        add_token(in, WORD, name);
    else
        add_spoiled(in);
}

void tokens_cut(const uint8_t *bytes, size_t len, struct tokens *tokens, struct complaints *complaints) {
    struct text text = {tokens, complaints, bytes, len, 0, 1};
    *tokens = (struct tokens){NULL, 0, 0};
    if (len >= 3 && memcmp(bytes, "\xef\xbb\xbf", 3) == 0) text.at = 3;
    while (text.at < len) next_token(&text);
    if (tokens->count == 0 || last_kind(&text) != END) add_token(&text, END, 0);
}
