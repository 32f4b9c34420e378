/* books: writes rule books that are full, nearly full, too full and as long as can be, for the cases.
 *
 *     books FOLDER
 *
 * The full one grows rule by rule, by pachallu_add, and now and then what is found under every number at every age is held against
 * a list that is kept here. The layout is written here a second time, from docs/FORMATS.md.
 */
#include <pachallu.h>
#include <stdio.h>
#include <stdlib.h>
#include <string.h>

enum { RULES = PACHALLU_BOOK_RULES_MAX, NUMBERS = 200, LONGEST = 65535 };

/* Setup rule A of the paper, and in front of it a note of as many bytes as wanted. */
static const uint8_t rule_a[] = {1, 2, 0, 2, 0, 2, 2, 2, 2, 1, 0, 0, 0,  0, 0,  0, 0,  0, 0,
                                 0, 0, 0, 0, 0, 0, 4, 3, 3, 1, 0, 0, 37, 0, 28, 0, 72, 82};

struct kept {
    uint8_t number;
    size_t start, length;
};

static struct kept list[RULES];
static size_t count;

static void wrong(const char *what) {
    fprintf(stderr, "books: with %zu rules: %s\n", count, what);
    exit(1);
}

static uint8_t number_of(size_t at) { return (uint8_t)(at * at % NUMBERS); }

/* Every number at every age, and one past the oldest. */
static void compare(const uint8_t *book, size_t len) {
    static const uint8_t none[] = {0, 0};
    for (unsigned number = 0; number < 256; number++) {
        uint16_t age = 0;
        for (size_t at = count; at-- > 0;) {
            if (list[at].number != number) continue;
            pachallu_found found = pachallu_find(none, sizeof none, book, len, (uint8_t)number, age++);
            if (found.refusal || found.book != 1 || found.start != list[at].start || found.length != list[at].length)
                wrong("another rule is found than was added");
        }
        if (pachallu_find(book, len, none, sizeof none, (uint8_t)number, age).refusal != 18)
            wrong("a rule is found that was not added");
    }
}

static void write_to(const char *folder, const char *name, const uint8_t *bytes, size_t len, long from) {
    char path[4096];
    snprintf(path, sizeof path, "%s/%s", folder, name);
    FILE *out = fopen(path, "wb");
    if (!out || fseek(out, from, SEEK_SET) != 0 || fwrite(bytes, 1, len, out) != len || fclose(out) != 0) {
        perror(path);
        exit(2);
    }
}

static size_t put(uint8_t *bytes, uint64_t number, size_t len) {
    for (size_t i = 0; i < len; i++) bytes[i] = (uint8_t)(number >> 8 * i);
    return len;
}

/* A directory of as many rules, all of a length, with its count. */
static size_t directory(uint8_t *bytes, size_t rules, size_t length) {
    size_t used = 0;
    for (size_t at = 0; at < rules; at++) {
        used += put(bytes + used, at % 256, 2);
        used += put(bytes + used, length, 2);
        used += put(bytes + used, (rules - at) * length + 8 * rules + 2, 4);
    }
    return used + put(bytes + used, rules, 2);
}

int main(int words, char **word) {
    static uint8_t book[2][RULES * (sizeof rule_a + 24)], rule[sizeof rule_a + 8], last[8 * (RULES + 1) + 2];
    size_t len = 2, used;
    if (words != 2) return fputs("usage: books FOLDER\n", stderr), 2;
    for (; count < RULES; count++) {
        size_t note = count % 9, turn = count % 2;
        memset(rule, 'n', note);
        memcpy(rule + note, rule_a, sizeof rule_a);
        list[count] = (struct kept){number_of(count), len - 8 * count - 2, note + sizeof rule_a};
        pachallu_made made = pachallu_add(book[turn], len, number_of(count), rule, note + sizeof rule_a, book[1 - turn],
                                          len + note + sizeof rule_a + 8);
        if (made.refusal || made.written != len + note + sizeof rule_a + 8) wrong("it is not added");
        len = made.written;
        if (count == RULES - 2) write_to(word[1], "nearly.rules", book[1 - turn], len, 0);
        if (count % 64 == 63) count++, compare(book[1 - turn], len), count--;
    }
    write_to(word[1], "full.rules", book[0], len, 0);
    if (pachallu_add(book[0], len, 1, rule_a, sizeof rule_a, book[1], sizeof book[1]).refusal != 26) wrong("one more is added");
    used = directory(last, RULES + 1, 0);
    write_to(word[1], "over.rules", last, used, 0);
    used = directory(last, RULES, LONGEST);
    write_to(word[1], "greatest.rules", last, used, (long)RULES * LONGEST);
    return 0;
}
