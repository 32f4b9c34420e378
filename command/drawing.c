/* drawing.c: a rule drawn in text (docs/FORMATS.md), read, with everything told that is wrong with it.
 *
 * The first walk over the statements takes what declares something (class, codes, rows, note); the second takes what uses
 * names or the number of codes (remarks, start, accept, moves), so that a state may be used above its row.
 */
#include "drawing.h"

#include <stdio.h>
#include <stdlib.h>
#include <string.h>

#include "tokens.h"

enum { NOT_DRAWN = 255 };

struct reader {
    struct drawing *drawing;
    struct complaints *complaints; /* of the drawing */
    const struct token *start_word;
    const struct token *row[PACHALLU_STATES_MAX], *pair[PACHALLU_PAIRS_MAX]; /* the statement of each */
    bool code_drawn[PACHALLU_EVENTS_MAX];
    size_t codes_line, state_count, pair_count, next_remark;
    bool too_many_codes, too_many_states;
};

/* Nothing more may stand in this statement. */
static void want_end(struct reader *in, const struct token *token) {
    if (token->kind != END && token->kind != SPOILED)
        complain(in->complaints, token->line, "%s is too much here: the line should end before it", seen(token));
}

/* ---- what declares something */

static void take_class(struct reader *in, const struct token *token) {
    struct drawing *d = in->drawing;
    if (d->class_line) {
        complain(in->complaints, token->line, "the class is given already, in line %zu", d->class_line);
        return;
    }
    d->class_line = token->line;
    token++;
    for (size_t class = SAFETY; class < CLASSES; class ++)
        if (says(token, class_words[class])) d->rule.class = class;
    if (d->rule.class > 0)
        want_end(in, token + 1);
    else
        complain(in->complaints, d->class_line, "%s is no class: safety, guarantee, obligation or response is wanted", seen(token));
}

/* There is one word for it: the other mode is that of a drawing without this line. */
static void take_mode(struct reader *in, const struct token *token) {
    struct drawing *d = in->drawing;
    if (d->mode_line) {
        complain(in->complaints, token->line, "the mode is given already, in line %zu", d->mode_line);
        return;
    }
    d->mode_line = token->line;
    if (says(token + 1, "joint")) {
        d->rule.mode = JOINT;
        want_end(in, token + 2);
    } else if (token[1].kind != SPOILED) {
        complain(in->complaints, token->line, "%s is no mode: joint is wanted, or no such line where each pair is judged by itself",
                 seen(token + 1));
    }
}

/* Declares a code, with a name if there is one. */
static void declare_code(struct reader *in, size_t number, const struct token *name, size_t line) {
    struct rule *rule = &in->drawing->rule;
    if (number >= PACHALLU_EVENTS_MAX) {
        if (!in->too_many_codes)
            complain(in->complaints, line, "there is no room for code %zu: codes are numbered 0 to 31", number);
        in->too_many_codes = true;
        return;
    }
    if (in->code_drawn[number]) {
        complain(in->complaints, line, "code %zu is given twice", number);
        return;
    }
    in->code_drawn[number] = true;
    if (rule->codes < number + 1) rule->codes = number + 1;
    if (!name) return;
    const char *fault = not_a_name(name->text, name->len);
    if (fault)
        complain(in->complaints, line, "%s %s", seen(name), fault);
    else if (find_name(rule->names.code, PACHALLU_EVENTS_MAX, name->text, name->len) >= 0)
        complain(in->complaints, line, "the name %s is given to two codes", seen(name));
    else
        rule->names.code[number] = name_of(name->text, name->len);
}

/* NAME, NUMBER=NAME or NUMBER; a name alone has the number after the one before. */
static void take_codes(struct reader *in, const struct token *token) {
    size_t line = token->line;
    token++;
    if (!in->codes_line) in->codes_line = line;
    if (token->kind == END) complain(in->complaints, line, "codes is followed by no code");
    while (token->kind == WORD) {
        int number = number_of(token);
        if (token[1].kind == EQUALS && (number < 0 || token[2].kind != WORD)) break;
        size_t next = number >= 0 ? (size_t)number : in->drawing->rule.codes;
        if (token[1].kind == EQUALS) {
            declare_code(in, next, token + 2, line);
            token += 3;
        } else {
            declare_code(in, next, number >= 0 ? NULL : token, line);
            token++;
        }
    }
    if (token->kind != END && token->kind != SPOILED)
        complain(in->complaints, line, "NAME or NUMBER=NAME with spaces between them are wanted after codes; %s does not fit",
                 seen(token));
}

/* A row: its place among the rows is the state's number. */
static void declare_state(struct reader *in, const struct token *token) {
    struct drawing *d = in->drawing;
    const char *fault = not_a_name(token->text, token->len);
    size_t state = in->state_count;
    int number = number_of(token), twice = number < 0 ? find_name(d->rule.names.state, state, token->text, token->len) : -1;
    if (twice >= 0) {
        complain(in->complaints, token->line, "the state %s has a row already, in line %zu", seen(token), d->row_line[twice]);
        return;
    }
    if (state == PACHALLU_STATES_MAX) {
        if (!in->too_many_states)
            complain(in->complaints, token->line, "there is no room for %s: a rule has at most 64 states", seen(token));
        in->too_many_states = true;
        return;
    }
    if (number >= 0 && (size_t)number != state)
        complain(in->complaints, token->line,
                 "a state that has no name is written by its number, and this row is that of state %zu, not %d", state, number);
    else if (number < 0 && fault)
        complain(in->complaints, token->line, "%s %s", seen(token), fault);
    else if (number < 0)
        d->rule.names.state[state] = name_of(token->text, token->len);
    d->row_line[state] = token->line;
    in->row[state] = token;
    in->state_count++;
}

static int hexadecimal(uint8_t digit) {
    static const char digits[] = "0123456789abcdef";
    const char *at = digit ? strchr(digits, digit >= 'A' && digit <= 'F' ? digit + 32 : digit) : NULL;
    return at ? (int)(at - digits) : -1;
}

/* The byte that an escape stands for, with the length of the escape; -1 if it is none. */
static int escaped(const uint8_t *text, size_t len, size_t *taken) {
    *taken = 2;
    if (len > 1 && (text[1] == '"' || text[1] == '\\')) return text[1];
    if (len > 1 && text[1] == 'n') return '\n';
    *taken = 4;
    if (len < 4 || text[1] != 'x' || hexadecimal(text[2]) < 0 || hexadecimal(text[3]) < 0) return -1;
    return 16 * hexadecimal(text[2]) + hexadecimal(text[3]);
}

/* The bytes of one text in quotation marks are put behind those of the note lines before it. */
static void take_note_text(struct reader *in, const struct token *token) {
    struct rule *rule = &in->drawing->rule;
    const uint8_t *text = token->text;
    for (size_t at = 1, taken; at < token->len - 1; at += taken) {
        taken = 1;
        int byte = text[at] == '\\' ? escaped(text + at, token->len - 1 - at, &taken) : text[at];
        if (byte < 0) {
            complain(in->complaints, token->line, "%s is not known in a note: \\\", \\\\, \\n and \\x with two digits are",
                     quoted(text + at, 2));
            return;
        }
        if (taken == 1 && (taken = visible_bytes(text + at, token->len - at)) == 0) {
            complain(in->complaints, token->line, "byte 0x%02x has no place in a note; write it \\x%02x", (unsigned)text[at],
                     (unsigned)text[at]);
            return;
        }
        bool escape = text[at] == '\\';
        for (size_t i = 0; i < (escape ? 1 : taken); i++, rule->note_len++)
            if (rule->note_len < NOTE_MOST) rule->note[rule->note_len] = escape ? (uint8_t)byte : text[at + i];
    }
}

static void take_note(struct reader *in, const struct token *token) {
    struct rule *rule = &in->drawing->rule;
    bool fits = rule->note_len <= NOTE_MOST;
    if (token[1].kind != STRING) {
        if (token[1].kind != SPOILED)
            complain(in->complaints, token->line, "note wants a text in quotation marks, not %s", seen(token + 1));
        return;
    }
    take_note_text(in, token + 1);
    if (fits && rule->note_len > NOTE_MOST)
        complain(in->complaints, token->line, "the note is over 1024 bytes here, the most for a note");
    want_end(in, token + 2);
}

static void take_start(struct reader *in, const struct token *token) {
    struct drawing *d = in->drawing;
    if (d->start_line) {
        complain(in->complaints, token->line, "the start is given already, in line %zu", d->start_line);
        return;
    }
    d->start_line = token->line;
    in->start_word = token + 1;
}

static void take_accept(struct reader *in, const struct token *token) {
    if (in->pair_count < PACHALLU_PAIRS_MAX) {
        in->drawing->pair_line[in->pair_count] = token->line;
        in->pair[in->pair_count] = token;
    } else if (in->pair_count == PACHALLU_PAIRS_MAX) {
        complain(in->complaints, token->line, "there is no room for another pair: a rule has at most 8");
    }
    in->pair_count++;
}

static void take_declaration(struct reader *in, const struct token *token) {
    if (token->kind == SPOILED || says(token, "remarks")) return; /* told already; taken later */
    if (token->kind != WORD)
        complain(in->complaints, token->line,
                 "a line begins with a state or with class, mode, codes, remarks, start, accept or note, not with %s", seen(token));
    else if (says(token, "class"))
        take_class(in, token);
    else if (says(token, "mode"))
        take_mode(in, token);
    else if (says(token, "codes"))
        take_codes(in, token);
    else if (says(token, "start"))
        take_start(in, token);
    else if (says(token, "accept"))
        take_accept(in, token);
    else if (says(token, "note"))
        take_note(in, token);
    else if (has(token, ARROW) || has(token, SPOILED))
        declare_state(in, token);
    else
        complain(in->complaints, token->line,
                 "%s begins no line of a drawing: those are STATE CODE -> STATE, .. and class, mode, codes, remarks, start, accept "
                 "and note",
                 seen(token));
}

/* ---- what uses names, or the number of codes */

/* Names a code that the rule ignores. */
static void declare_remark(struct reader *in, size_t number, const struct token *name, size_t line) {
    struct rule *rule = &in->drawing->rule;
    const char *fault = not_a_name(name->text, name->len);
    if (number < rule->codes)
        complain(in->complaints, line, "code %zu is one of the rule's own; a remark is a code from %zu to 255", number,
                 rule->codes);
    else if (number >= ALL_CODES)
        complain(in->complaints, line, "there is no room for remark %zu: codes and remarks are numbered 0 to 255", number);
    else if (rule->names.code[number].len > 0)
        complain(in->complaints, line, "remark %zu is given twice", number);
    else if (fault)
        complain(in->complaints, line, "%s %s", seen(name), fault);
    else if (find_name(rule->names.code, ALL_CODES, name->text, name->len) >= 0)
        complain(in->complaints, line, "the name %s is given to two codes", seen(name));
    else
        rule->names.code[number] = name_of(name->text, name->len);
    if (number >= in->next_remark && number < ALL_CODES) in->next_remark = number + 1;
}

/* NAME or NUMBER=NAME; a name alone has the number after the highest so far, of codes and remarks. */
static void take_remarks(struct reader *in, const struct token *token) {
    size_t line = token->line;
    if (!says(token, "remarks")) return;
    token++;
    if (token->kind == END) complain(in->complaints, line, "remarks is followed by no remark");
    while (token->kind == WORD) {
        int number = number_of(token);
        bool numbered = token[1].kind == EQUALS;
        if (numbered ? number < 0 || token[2].kind != WORD : number >= 0) break;
        declare_remark(in, numbered ? (size_t)number : in->next_remark, numbered ? token + 2 : token, line);
        token += numbered ? 3 : 1;
    }
    if (token->kind != END && token->kind != SPOILED)
        complain(in->complaints, line, "NUMBER=NAME or NAME with spaces between them are wanted after remarks; %s does not fit",
                 seen(token));
}

/* The state that a word names, or -1, which it tells. */
static int state_named(struct reader *in, const struct token *token) {
    struct drawing *d = in->drawing;
    int number = number_of(token);
    if (token->kind == SPOILED) return -1;
    if (token->kind != WORD) {
        complain(in->complaints, token->line, "a state is wanted, not %s", seen(token));
        return -1;
    }
    if (number < 0) {
        int found = find_name(d->rule.names.state, in->state_count, token->text, token->len);
        if (found < 0 && !in->too_many_states)
            complain(in->complaints, token->line, "%s is no state: no row begins with it", seen(token));
        return found;
    }
    if ((size_t)number >= in->state_count) {
        if (!in->too_many_states)
            complain(in->complaints, token->line, "there is no state %d: there are %zu rows, numbered from 0", number,
                     in->state_count);
        return -1;
    }
    if (d->rule.names.state[number].len > 0) {
        complain(in->complaints, token->line, "state %d has a name: write %s", number, d->rule.names.state[number].text);
        return -1;
    }
    return number;
}

/* The code that a word names, or -1, which it tells. `before` is the token before it. */
static int code_named(struct reader *in, const struct token *token, const struct token *before) {
    struct drawing *d = in->drawing;
    int number = number_of(token);
    if (number < 0) {
        int found = find_name(d->rule.names.code, ALL_CODES, token->text, token->len);
        bool remark = found >= (int)d->rule.codes;
        if (!remark && (found >= 0 || in->too_many_codes)) return found;
        if (remark)
            complain(in->complaints, token->line, "%s is a remark: the rule ignores it, and no move is drawn for it", seen(token));
        else if (before->line != token->line)
            complain(in->complaints, token->line,
                     "%s is none of the codes (the comma at the end of line %zu joins this line to it)", seen(token), before->line);
        else
            complain(in->complaints, token->line, "%s is none of the codes", seen(token));
        return -1;
    }
    if ((size_t)number >= d->rule.codes) {
        if (!in->too_many_codes)
            complain(in->complaints, token->line, "there is no code %d: the highest is %d", number, (int)d->rule.codes - 1);
        return -1;
    }
    if (d->rule.names.code[number].len > 0) {
        complain(in->complaints, token->line, "code %d has a name: write %s", number, d->rule.names.code[number].text);
        return -1;
    }
    return number;
}

static void resolve_start(struct reader *in) {
    if (!in->start_word) return;
    int state = state_named(in, in->start_word);
    if (state >= 0) in->drawing->rule.start = (size_t)state;
    if (in->start_word->kind == WORD) want_end(in, in->start_word + 1);
}

/* accept R a b  P c: either may be missing, not both. */
static void resolve_pair(struct reader *in, size_t pair) {
    struct drawing *d = in->drawing;
    uint64_t *const sets[] = {&d->rule.r[pair], &d->rule.p[pair]};
    bool given[] = {false, false};
    const struct token *token = in->pair[pair] + 1;
    if (!says(token, "R") && !says(token, "P")) {
        if (token->kind != SPOILED)
            complain(in->complaints, token->line, "accept wants R and states, P and states, or both, not %s", seen(token));
        return;
    }
    while (token->kind == WORD) {
        size_t side = says(token, "R") ? 0 : 1;
        if (given[side]) complain(in->complaints, token->line, "%s is given twice in this pair", seen(token));
        given[side] = true;
        const struct token *set_word = token++;
        if (token->kind == END || says(token, "R") || says(token, "P"))
            complain(in->complaints, set_word->line, "%s is followed by no state; leave it out where it has none", seen(set_word));
        for (; token->kind == WORD && !says(token, "R") && !says(token, "P"); token++) {
            int state = state_named(in, token);
            if (state >= 0 && in_set(*sets[side], (size_t)state))
                complain(in->complaints, token->line, "the state %s is twice in %s", seen(token), side == 0 ? "R" : "P");
            if (state >= 0) *sets[side] |= (uint64_t)1 << state;
        }
    }
    want_end(in, token);
}

/* What a row has drawn so far. */
struct row {
    size_t state;
    uint8_t to[PACHALLU_EVENTS_MAX];
    int rest; /* where else leads; -1: not given */
    bool rest_given;
    bool broken; /* something was told of it: what is missing is not */
};

/* The codes before an arrow; answers the token after them. */
static const struct token *take_move_codes(struct reader *in, struct row *row, const struct token *token, bool chosen[]) {
    for (; token->kind == WORD; token++) {
        if (says(token, "else")) {
            if (row->rest_given) complain(in->complaints, token->line, "else is given twice in this row");
            row->broken = row->broken || row->rest_given;
            row->rest_given = chosen[PACHALLU_EVENTS_MAX] = true;
            continue;
        }
        int code = code_named(in, token, token - 1);
        if (code < 0) {
            row->broken = true;
        } else if (row->to[code] != NOT_DRAWN || chosen[code]) {
            complain(in->complaints, token->line, "the move of %s by %s is drawn twice",
                     told_state(&in->drawing->rule.names, row->state), told_code(&in->drawing->rule.names, (size_t)code));
            row->broken = true;
        } else {
            chosen[code] = true;
        }
    }
    return token;
}

/* CODE .. -> STATE; answers the token after it, or NULL where the rest of the row cannot be read. */
static const struct token *take_move(struct reader *in, struct row *row, const struct token *token) {
    bool chosen[PACHALLU_EVENTS_MAX + 1] = {false};
    const struct token *first = token;
    token = take_move_codes(in, row, token, chosen);
    if (token->kind != ARROW || token == first) {
        if (token->kind != SPOILED)
            complain(in->complaints, token->line,
                     "%s is wanted here, not %s; a row is STATE CODE -> STATE, CODE -> STATE, else -> STATE",
                     token == first ? "a code or else" : "->", seen(token));
        return NULL;
    }
    int to = state_named(in, ++token);
    if (to < 0) row->broken = true;
    if (token->kind != WORD) return NULL;
    for (size_t code = 0; code < PACHALLU_EVENTS_MAX; code++)
        if (chosen[code]) row->to[code] = to < 0 ? 0 : (uint8_t)to;
    if (chosen[PACHALLU_EVENTS_MAX]) row->rest = to;
    return token + 1;
}

/* Names the codes of a row that have no move and no else. */
static void complain_of_missing(struct reader *in, const struct row *row) {
    struct drawing *d = in->drawing;
    char codes[700] = "";
    size_t used = 0;
    for (size_t code = 0; code < d->rule.codes; code++) {
        if (row->to[code] != NOT_DRAWN) continue;
        const char *word = told_code(&d->rule.names, code);
        if (used + strlen(word) + 8 > sizeof codes) {
            used += (size_t)sprintf(codes + used, " ..");
            break;
        }
        used += (size_t)sprintf(codes + used, "%s%s", used ? ", " : "", word);
    }
    if (used > 0)
        complain(in->complaints, d->row_line[row->state], "%s has no move for %s: draw it, or end the row with else -> STATE",
                 told_state(&d->rule.names, row->state), codes);
}

static void resolve_row(struct reader *in, size_t state) {
    struct drawing *d = in->drawing;
    struct row row = {state, {0}, -1, false, has(in->row[state], SPOILED)};
    const struct token *token = in->row[state] + 1;
    memset(row.to, NOT_DRAWN, sizeof row.to);
    while ((token = take_move(in, &row, token)) && token->kind == COMMA) token++;
    if (!token || token->kind != END) row.broken = true;
    if (token && token->kind != END && token->kind != SPOILED)
        complain(in->complaints, token->line, "a comma is wanted between two moves, before %s", seen(token));
    for (size_t code = 0; code < d->rule.codes && row.rest >= 0; code++)
        if (row.to[code] == NOT_DRAWN) row.to[code] = (uint8_t)row.rest;
    if (!row.broken) complain_of_missing(in, &row);
    memcpy(d->rule.table + state * d->rule.codes, row.to, d->rule.codes);
}

/* ---- the whole */

static void want_whole(struct reader *in) {
    struct drawing *d = in->drawing;
    if (!d->class_line) complain(in->complaints, 0, "there is no class: a line such as \"class response\" is wanted");
    if (!in->codes_line) complain(in->complaints, 0, "there are no codes: a line such as \"codes backsight foresight\" is wanted");
    if (in->state_count == 0)
        complain(in->complaints, 0,
                 "there are no states: a line for each is wanted, such as \"half  foresight -> between, else -> lost\"");
    if (!d->start_line) complain(in->complaints, 0, "there is no start: a line such as \"start between\" is wanted");
    if (in->pair_count == 0) complain(in->complaints, 0, "nothing is accepted: a line such as \"accept R between\" is wanted");
    if (in->pair_count > 1 && d->rule.class != OBLIGATION && d->rule.class > 0)
        complain(in->complaints, d->pair_line[1], "a rule of class %s has one pair, and this is a second accept",
                 class_words[d->rule.class]);
}

static void for_each_statement(struct reader *in, const struct tokens *tokens,
                               void (*take)(struct reader *, const struct token *)) {
    for (size_t i = 0; i < tokens->count; i++) {
        const struct token *first = &tokens->list[i];
        while (tokens->list[i].kind != END) i++;
        if (first->kind != END) take(in, first);
    }
}

void drawing_read(const uint8_t *text, size_t len, struct drawing *d) {
    struct tokens tokens = {NULL, 0, 0};
    struct reader in = {0};
    *d = (struct drawing){0};
    in.drawing = d;
    in.complaints = &d->complaints;
    tokens_cut(text, len, &tokens, in.complaints);
    for_each_statement(&in, &tokens, take_declaration);
    d->rule.states = in.state_count;
    d->rule.pairs = in.pair_count < PACHALLU_PAIRS_MAX ? in.pair_count : PACHALLU_PAIRS_MAX;
    in.next_remark = d->rule.codes;
    for_each_statement(&in, &tokens, take_remarks);
    resolve_start(&in);
    for (size_t pair = 0; pair < d->rule.pairs; pair++) resolve_pair(&in, pair);
    for (size_t state = 0; state < in.state_count; state++) resolve_row(&in, state);
    want_whole(&in);
    complaints_sort(in.complaints);
    free(tokens.list);
}
