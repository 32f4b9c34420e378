/* generate: writes accepted rule files of all kinds, for the round trips.
 *
 *     generate FOLDER COUNT
 *
 * The same files every time. All classes, both modes, sizes from 1 x 1 to 64 x 32, 1 to 8 pairs; notes that are empty, names,
 * names and a text, any bytes, nearly names, and as long as can be. The form of the names is written here a second time, from
 * docs/FORMATS.md.
 */
#include <pachallu.h>
#include <stdio.h>
#include <stdlib.h>
#include <string.h>

enum { NOTE = 1024 };

static uint64_t dice_state = 88172645463325252u;

/* A number under `most`. */
static size_t dice(size_t most) {
    dice_state ^= dice_state << 13;
    dice_state ^= dice_state >> 7;
    dice_state ^= dice_state << 17;
    return (size_t)(dice_state >> 11) % most;
}

static uint64_t dice_set(size_t states) {
    uint64_t all = states == 64 ? ~(uint64_t)0 : ((uint64_t)1 << states) - 1;
    uint64_t set = 0;
    for (int i = 0; i < 4; i++) set = set << 16 | dice(1 << 16);
    return set & all;
}

struct rule {
    size_t class, states, codes, pairs, start, mode;
    uint64_t r[8], p[8];
    uint8_t table[64 * 32];
};

static int allowed(const struct rule *rule, size_t from, size_t to) {
    for (size_t i = 0; i < rule->pairs; i++) {
        uint64_t r = rule->r[i], p = rule->p[i];
        if (rule->class != 2 && rule->class != 4 && !(p >> from & 1) && p >> to & 1) return 0;
        if (rule->class != 1 && rule->class != 4 && r >> from & 1 && !(r >> to & 1)) return 0;
    }
    return 1;
}

static struct rule random_rule(size_t number) {
    struct rule rule = {1 + number % 4, 1 + dice(8), 1 + dice(6), 1, 0, dice(3) == 0, {0}, {0}, {0}};
    if (number % 7 == 0) rule.states = 1 + dice(64), rule.codes = 1 + dice(32);
    if (number % 25 == 1) rule.states = 64, rule.codes = 32;
    if (number % 25 == 2) rule.states = rule.codes = 1;
    if (rule.class == 3) rule.pairs = 1 + dice(8);
    rule.start = dice(rule.states);
    for (size_t i = 0; i < rule.pairs; i++) {
        if (rule.class != 1) rule.r[i] = dice_set(rule.states);
        if (rule.class == 1 || (rule.class == 3 && dice(2))) rule.p[i] = dice_set(rule.states);
    }
    size_t favourite = dice(rule.states);
    for (size_t i = 0; i < rule.states * rule.codes; i++) {
        size_t from = i / rule.codes, to = dice(3) ? favourite : dice(rule.states);
        for (int tries = 0; tries < 20 && !allowed(&rule, from, to); tries++) to = dice(rule.states);
        rule.table[i] = (uint8_t)(allowed(&rule, from, to) ? to : from);
    }
    return rule;
}

/* A line of names that are different, some left out. */
static size_t list_names(char *line, const char *word, size_t count) {
    static const char *const parts[] = {"a",  "zz", "+", "-x", "mark", "niv\xc3\xa9", "\xe6\xb0\xb4", "_",
                                        "3b", "R1", "/", "'",  "-"};
    size_t used = (size_t)sprintf(line, "%s", word), next = 0;
    for (size_t i = 0; i < count; i++) {
        if (dice(9) == 0) continue;
        const char *part = parts[dice(sizeof parts / sizeof parts[0])];
        used += (size_t)sprintf(line + used, " ");
        if (i != next) used += (size_t)sprintf(line + used, "%zu=", i);
        used += (size_t)sprintf(line + used, "%c%zu%s", (char)('b' + dice(20)), i, part);
        next = i + 1;
    }
    return used + (size_t)sprintf(line + used, "\n");
}

static size_t names(const struct rule *rule, char *note) {
    size_t used = (size_t)sprintf(note, "pachallu 1\n");
    used += list_names(note + used, "codes", rule->codes + (dice(3) ? 0 : dice(60))); /* some with remarks */
    used += list_names(note + used, "states", rule->states);
    return used;
}

static size_t random_note(const struct rule *rule, size_t kind, uint8_t note[NOTE]) {
    char text[4096];
    size_t len = kind == 0 || kind == 3 ? 0 : names(rule, text);
    if (len > NOTE) len = 0;
    memcpy(note, text, len);
    size_t more = kind < 2 ? 0 : kind == 5 ? NOTE - len : kind == 4 ? 0 : dice(NOTE - len + 1) / (1 + dice(9));
    for (size_t i = 0; i < more; i++) note[len + i] = (uint8_t)(dice(3) ? 32 + dice(95) : dice(256));
    len += more;
    if (kind == 4 && len > 0) note[dice(len)] = (uint8_t)dice(256);
    return len;
}

static void put(uint8_t *bytes, uint64_t number, size_t len) {
    for (size_t i = 0; i < len; i++) bytes[i] = (uint8_t)(number >> 8 * i);
}

static size_t lay_out(const struct rule *rule, const uint8_t *note, size_t note_len, uint8_t *file) {
    size_t cells = rule->states * rule->codes, at = note_len + cells;
    memcpy(file, note, note_len);
    memcpy(file + note_len, rule->table, cells);
    for (size_t i = 0; i < rule->pairs; i++, at += 16) put(file + at, rule->r[i], 8), put(file + at + 8, rule->p[i], 8);
    uint8_t *trailer = file + at;
    trailer[0] = (uint8_t)rule->class, trailer[1] = (uint8_t)rule->states, trailer[2] = (uint8_t)rule->codes;
    trailer[3] = (uint8_t)rule->pairs, trailer[4] = (uint8_t)rule->start, trailer[5] = (uint8_t)rule->mode;
    put(trailer + 6, 12 + 16 * rule->pairs + cells, 2);
    put(trailer + 8, 12 + 16 * rule->pairs, 2);
    trailer[10] = 72, trailer[11] = 82;
    return at + 12;
}

int main(int count, char **words) {
    static uint8_t file[PACHALLU_RULE_MAX], sheet[PACHALLU_SHEET_MAX], note[NOTE];
    size_t wanted = count == 3 ? strtoul(words[2], NULL, 10) : 0;
    for (size_t done = 0, tried = 0; done < wanted; tried++) {
        struct rule rule = random_rule(done);
        size_t len = lay_out(&rule, note, random_note(&rule, done % 6, note), file);
        if (pachallu_make(file, len, sheet, sizeof sheet).refusal) continue;
        char name[4096];
        snprintf(name, sizeof name, "%s/%04zu.rule", words[1], done++);
        FILE *out = fopen(name, "wb");
        if (!out || fwrite(file, 1, len, out) != len || fclose(out) != 0) return perror(name), 2;
    }
    return wanted > 0 ? 0 : (fputs("usage: generate FOLDER COUNT\n", stderr), 2);
}
