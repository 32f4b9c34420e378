/* names.c: names of states, codes and remarks, and how they stand in a rule's note (docs/FORMATS.md). */
#include "names.h"

#include <stdio.h>
#include <string.h>

#include "streams.h"

static const char names_mark[] = "pachallu 1\n";

size_t name_bytes(const uint8_t *text, size_t len) {
    size_t at = 0;
    while (at < len) {
        size_t count = visible_bytes(text + at, len - at);
        if (count == 0 || (count == 1 && strchr(" ,=#\"\\<>", text[at]))) break;
        if (text[at] == '-' && at + 1 < len && text[at + 1] == '>') break;
        at += count;
    }
    return at;
}

int number_in(const uint8_t *text, size_t len) {
    int number = 0;
    if (len == 0) return -1;
    for (size_t i = 0; i < len; i++) {
        if (text[i] < '0' || text[i] > '9') return -1;
        number = number > 99 ? 1000 : 10 * number + (text[i] - '0');
    }
    return number;
}

/* Words of the notation. */
static bool is_reserved(const uint8_t *text, size_t len) {
    static const char *const words[] = {"class", "codes", "start", "accept", "note", "else", "R", "P", "remarks", "mode"};
    for (size_t i = 0; i < sizeof words / sizeof words[0]; i++)
        if (len == strlen(words[i]) && memcmp(text, words[i], len) == 0) return true;
    return false;
}

const char *not_a_name(const uint8_t *text, size_t len) {
    if (len > NAME_MOST) return "is longer than 64 bytes, the most for a name";
    if (len == 0 || name_bytes(text, len) != len) return "has a character that no name has";
    if (number_in(text, len) >= 0) return "is a number and no name";
    if (is_reserved(text, len)) return "is a word of the notation and cannot be a name";
    return NULL;
}

struct name name_of(const uint8_t *text, size_t len) {
    struct name name = {len, {0}};
    memcpy(name.text, text, len);
    return name;
}

int find_name(const struct name *names, size_t count, const uint8_t *text, size_t len) {
    for (size_t i = 0; i < count && len > 0; i++)
        if (names[i].len == len && memcmp(names[i].text, text, len) == 0) return (int)i;
    return -1;
}

/* `named` and `unnamed` are formats for the name and for the number. */
static const char *kept_word(const char *named, const char *unnamed, const struct name *name, size_t number) {
    static char kept[8][NAME_MOST + 8];
    static unsigned turn;
    char *word = kept[turn++ % 8];
    if (name->len > 0)
        snprintf(word, sizeof kept[0], named, name->text);
    else
        snprintf(word, sizeof kept[0], unnamed, number);
    return word;
}

const char *word_for(const struct name *names, size_t number) { return kept_word("%s", "%zu", &names[number], number); }

const char *told_state(const struct names *names, size_t number) {
    return kept_word("\"%s\"", "state %zu", &names->state[number], number);
}

const char *told_code(const struct names *names, size_t number) {
    return kept_word("\"%s\"", "code %zu", &names->code[number], number);
}

/* ---- the note */

/* A note on its way. What does not fit is counted and not written. */
struct note {
    uint8_t *bytes;
    size_t used;
};

static void add(struct note *note, const char *text, size_t len) {
    if (note->used + len <= NOTE_MOST) memcpy(note->bytes + note->used, text, len);
    note->used += len;
}

/* " NAME", or " NUMBER=NAME" where names are left out before it. */
static void add_list(struct note *note, const char *word, const struct name *names, size_t count) {
    size_t next = 0;
    add(note, word, strlen(word));
    for (size_t i = 0; i < count; i++) {
        char number[24] = " ";
        if (names[i].len == 0) continue;
        if (i != next) snprintf(number, sizeof number, " %zu=", i);
        add(note, number, strlen(number));
        add(note, names[i].text, names[i].len);
        next = i + 1;
    }
    add(note, "\n", 1);
}

static bool any_name(const struct name *names, size_t count) {
    for (size_t i = 0; i < count; i++)
        if (names[i].len > 0) return true;
    return false;
}

size_t names_to_note(const struct names *names, size_t states, uint8_t *bytes) {
    struct note note = {bytes, 0};
    if (!any_name(names->state, states) && !any_name(names->code, ALL_CODES)) return 0;
    add(&note, names_mark, sizeof names_mark - 1);
    add_list(&note, "codes", names->code, ALL_CODES);
    add_list(&note, "states", names->state, states);
    return note.used;
}

/* One " NAME" or " NUMBER=NAME" at the front of the bytes; answers its length, or 0. */
static size_t take_name(const uint8_t *bytes, size_t len, struct name *names, size_t count, size_t *next) {
    size_t at = 1, part = name_bytes(bytes + 1, len - 1);
    int number = number_in(bytes + at, part);
    if (number >= 0 && at + part < len && bytes[at + part] == '=') {
        *next = (size_t)number;
        at += part + 1;
        part = name_bytes(bytes + at, len - at);
    }
    if (*next >= count || not_a_name(bytes + at, part) || find_name(names, count, bytes + at, part) >= 0) return 0;
    names[(*next)++] = name_of(bytes + at, part);
    return at + part;
}

/* A line of names; answers its length with the new line, or 0. */
static size_t take_list(const uint8_t *bytes, size_t len, const char *word, struct name *names, size_t count) {
    size_t at = strlen(word), next = 0;
    if (len < at || memcmp(bytes, word, at) != 0) return 0;
    while (at < len && bytes[at] == ' ') {
        size_t taken = take_name(bytes + at, len - at, names, count, &next);
        if (taken == 0) return 0;
        at += taken;
    }
    return at < len && bytes[at] == '\n' ? at + 1 : 0;
}

size_t names_in_note(const uint8_t *note, size_t len, size_t states, struct names *names) {
    uint8_t again[NOTE_MOST];
    size_t at = sizeof names_mark - 1, part = 0;
    *names = (struct names){0};
    if (len > at && memcmp(note, names_mark, at) == 0) part = take_list(note + at, len - at, "codes", names->code, ALL_CODES);
    if (part > 0) {
        at += part;
        part = take_list(note + at, len - at, "states", names->state, states);
        at += part;
    }
    /* written in any other way than ours, it would not come back byte for byte */
    if (part > 0 && names_to_note(names, states, again) == at && memcmp(again, note, at) == 0) return at;
    *names = (struct names){0};
    return 0;
}
