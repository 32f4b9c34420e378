/* text.c: pachallu text: the drawing in text again. */
#include "text.h"

#include <stdio.h>
#include <string.h>
#include <unistd.h>

#include "command.h"

enum { WIDEST = 100, WIDEST_HEAD = 24 };

/* A statement that is broken over lines where it gets wide. */
struct layout {
    struct sink *out;
    size_t column;
};

/* Characters, not bytes: what a line takes on the screen, near enough. */
static size_t width(const char *text) {
    size_t count = 0;
    for (; *text; text++) count += ((unsigned char)*text & 0xc0) != 0x80;
    return count;
}

static void put(struct layout *layout, const char *text) {
    put_text(layout->out, text);
    layout->column += width(text);
}

/* Puts a word and spaces up to the column. */
static void put_head(struct layout *layout, const char *word, size_t column) {
    put(layout, word);
    do put(layout, " ");
    while (layout->column < column);
}

/* A code in the line "codes": its name, with its number where the one before has not the number before; a number alone where
 * no later code has a name. Answers false where it is left out. */
static bool code_item(const struct rule *rule, size_t code, size_t next, char *item, size_t size) {
    const struct name *names = rule->names.code;
    if (names[code].len > 0) {
        char number[24] = "";
        if (code != next) snprintf(number, sizeof number, "%zu=", code);
        snprintf(item, size, "%s%s", number, names[code].text);
        return true;
    }
    for (size_t later = code + 1; later < rule->codes; later++)
        if (names[later].len > 0) return false;
    snprintf(item, size, "%zu", code);
    return true;
}

/* An item of a line "codes" or "remarks"; a new such line begins where it gets wide. */
static void put_item(struct layout *layout, const char *word, const char *item) {
    if (layout->column + 1 + width(item) > WIDEST && layout->column > strlen(word) + 1) {
        put_text(layout->out, "\n");
        layout->column = 0;
    }
    if (layout->column == 0)
        put_head(layout, word, 8);
    else
        put(layout, " ");
    put(layout, item);
}

static void put_codes(struct sink *out, const struct rule *rule) {
    struct layout layout = {out, 0};
    char item[NAME_MOST + 24];
    for (size_t code = 0, next = 0; code < rule->codes; code++) {
        if (!code_item(rule, code, next, item, sizeof item)) continue;
        next = code + 1;
        put_item(&layout, "codes", item);
    }
    put_text(out, "\n");
}

/* Each with its number, so that it stays what it is where a code is put in before it. */
static void put_remarks(struct sink *out, const struct rule *rule) {
    struct layout layout = {out, 0};
    char item[NAME_MOST + 24];
    for (size_t code = rule->codes; code < ALL_CODES; code++) {
        if (rule->names.code[code].len == 0) continue;
        snprintf(item, sizeof item, "%zu=%s", code, rule->names.code[code].text);
        put_item(&layout, "remarks", item);
    }
    if (layout.column > 0) put_text(out, "\n");
}

/* The state to which most codes of a row move, if that is more than one of them: its else. Else the number of states. */
static size_t rest_of_row(const struct rule *rule, size_t state) {
    size_t count[PACHALLU_STATES_MAX] = {0}, best = rule->states, most = 1;
    if (rule->codes == 1) return move_of(rule, state, 0);
    for (size_t code = 0; code < rule->codes; code++) count[move_of(rule, state, code)]++;
    for (size_t to = 0; to < rule->states; to++)
        if (count[to] > most) most = count[best = to];
    return best;
}

/* "a b -> to": all codes of the row that move there, or else. */
static void move_item(const struct rule *rule, size_t state, size_t to, bool rest, char *item, size_t size) {
    size_t used = 0;
    if (rest) used += (size_t)snprintf(item, size, "else ");
    for (size_t code = 0; code < rule->codes && !rest; code++)
        if (move_of(rule, state, code) == to)
            used += (size_t)snprintf(item + used, size - used, "%s ", word_for(rule->names.code, code));
    snprintf(item + used, size - used, "-> %s", word_for(rule->names.state, to));
}

static void put_move(struct layout *layout, const char *item, bool first, size_t column) {
    if (!first && layout->column + 2 + width(item) > WIDEST) {
        put_text(layout->out, ",\n");
        layout->column = 0;
        put_head(layout, "", column);
    } else if (!first) {
        put(layout, ", ");
    }
    put(layout, item);
}

static void put_row(struct sink *out, const struct rule *rule, size_t state, size_t column) {
    struct layout layout = {out, 0};
    char item[PACHALLU_EVENTS_MAX * (NAME_MOST + 1) + NAME_MOST + 8];
    size_t rest = rest_of_row(rule, state);
    bool done[PACHALLU_STATES_MAX] = {false}, first = true;
    put_head(&layout, word_for(rule->names.state, state), column);
    for (size_t code = 0; code < rule->codes; code++) {
        size_t to = move_of(rule, state, code);
        if (done[to] || to == rest) continue;
        done[to] = true;
        move_item(rule, state, to, false, item, sizeof item);
        put_move(&layout, item, first, column);
        first = false;
    }
    if (rest < rule->states) {
        move_item(rule, state, rest, true, item, sizeof item);
        put_move(&layout, item, first, column);
    }
    put_text(out, "\n");
}

static void put_set(struct sink *out, const struct rule *rule, const char *word, uint64_t set) {
    if (set == 0) return;
    put_text(out, word);
    for (size_t state = 0; state < rule->states; state++)
        if (in_set(set, state)) put_line(out, " %s", word_for(rule->names.state, state));
}

/* The note as texts in quotation marks, a new one after each new line and where one gets wide. */
static void put_note(struct sink *out, const struct rule *rule) {
    size_t column = 0;
    for (size_t at = 0, taken; at < rule->note_len; at += taken) {
        const uint8_t *byte = rule->note + at;
        if (column == 0) put_text(out, "note    \"");
        taken = visible_bytes(byte, rule->note_len - at);
        if (taken == 1 && (*byte == '"' || *byte == '\\'))
            put_line(out, "\\%c", *byte);
        else if (taken > 0)
            put_bytes(out, byte, taken);
        else if (*byte == '\n')
            put_text(out, "\\n");
        else
            put_line(out, "\\x%02x", (unsigned)*byte);
        column += taken > 0 ? 1 : 4;
        if (taken == 0) taken = 1;
        if (*byte == '\n' || column > WIDEST - 12 || at + taken == rule->note_len) {
            put_text(out, "\"\n");
            column = 0;
        }
    }
}

void put_drawing(struct sink *out, const struct rule *rule) {
    size_t column = 0;
    for (size_t state = 0; state < rule->states; state++) {
        size_t wide = width(word_for(rule->names.state, state));
        if (wide > column) column = wide;
    }
    column = column > WIDEST_HEAD ? WIDEST_HEAD : column + 2;
    put_line(out, "class   %s\n%s", class_words[rule->class], rule->mode == JOINT ? "mode    joint\n" : "");
    put_codes(out, rule);
    put_remarks(out, rule);
    put_line(out, "start   %s\n\n", word_for(rule->names.state, rule->start));
    for (size_t state = 0; state < rule->states; state++) put_row(out, rule, state, column);
    put_text(out, "\n");
    for (size_t pair = 0; pair < rule->pairs; pair++) {
        put_text(out, "accept");
        put_set(out, rule, "  R", rule->r[pair]);
        put_set(out, rule, "  P", rule->p[pair]);
        put_text(out, "\n");
    }
    put_note(out, rule);
}

enum status command_text(const struct arguments *arguments) {
    static struct loaded loaded;
    enum status status = load_accepted(&arguments->rule, &loaded);
    if (status != DONE) return status;
    struct sink out = sink_to(STDOUT_FILENO);
    put_drawing(&out, &loaded.rule);
    return end_output(&out, DONE);
}
