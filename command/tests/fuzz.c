/* fuzz: reads spoiled drawings, rule files and rule books for some seconds, with the sanitizers compiled in.
 *
 *     fuzz SECONDS FILE..
 *
 * FILE is a drawing (.draw), a rule file (.rule) or a rule book (.rules). The same changes every time, as many as the time allows.
 * Of every drawing that is accepted: its rule file, written as text and read again, is the same file. Of every rule file that is
 * accepted: the same, and the reasons of some of its moves are what they should be. Of every rule book: it is listed or its fault
 * is told, and each entry is found by its number and age.
 */
#include <stdio.h>
#include <stdlib.h>
#include <string.h>
#include <time.h>

#include "../book.h"
#include "../drawing.h"
#include "../text.h"
#include "../why.h"
#include "../words.h"

enum { SEEDS = 1000, LONGEST = 20000 };

struct seed {
    uint8_t *bytes;
    size_t len;
    void (*try)(const uint8_t *bytes, size_t len);
};

static struct seed seeds[SEEDS];
static size_t seed_count, drawings, drawn, rules, accepted, books, sound;
static uint64_t dice_state = 88172645463325252u;

static size_t dice(size_t most) {
    dice_state ^= dice_state << 13;
    dice_state ^= dice_state >> 7;
    dice_state ^= dice_state << 17;
    return (size_t)(dice_state >> 11) % most;
}

static void fail(const char *what, const uint8_t *bytes, size_t len) {
    FILE *out = fopen("fuzz.failed", "wb");
    if (out) {
        fwrite(bytes, 1, len, out);
        fclose(out);
    }
    fprintf(stderr, "fuzz: %s; the input is in fuzz.failed, %zu bytes\n", what, len);
    abort();
}

static void no_control_bytes(const char *words, const uint8_t *input, size_t len) {
    for (; *words; words++)
        if ((unsigned char)*words < 32) fail("a message has a control byte", input, len);
}

/* An accepted rule: through its text and back. */
static void round_trip(const struct loaded *loaded, const uint8_t *input, size_t len) {
    static struct drawing again;
    uint8_t bytes[PACHALLU_RULE_MAX];
    size_t note;
    struct sink out = sink_to(-1);
    put_drawing(&out, &loaded->rule);
    if (out.used > DRAWING_MOST) fail("the text of a rule is longer than a drawing may be", input, len);
    uint8_t *exact = room_for(NULL, out.used);
    memcpy(exact, out.bytes, out.used);
    drawing_read(exact, out.used, &again);
    if (again.complaints.count > 0) fail(again.complaints.list[0].words, input, len);
    if (rule_to_file(&again.rule, true, bytes, &note) != loaded->len || memcmp(bytes, loaded->bytes, loaded->len) != 0)
        fail("the text of a rule is another rule", input, len);
    complaints_free(&again.complaints);
    free(exact);
    sink_free(&out);
}

/* Where a code is held: what would release it leads to a state that every pair accepts. In joint mode there always is a way. */
static void try_release(const struct loaded *loaded, size_t state, const uint8_t *input, size_t len) {
    const struct rule *rule = &loaded->rule;
    struct reason release;
    bool hope = release_at(loaded, state, &release);
    for (size_t at = 0; hope && at < release.told.length; at++) state = move_of(rule, state, release.way[at]);
    if (hope ? !in_set(met_states(rule, rule->pairs), state) : rule->mode == JOINT || rule->pairs == 1)
        fail("a way does not release what is held", input, len);
}

/* Of some moves of an accepted rule: the reason has the sheet's operation, and its way meets the pair at its end and not before. */
static void try_reasons(const struct loaded *loaded, const uint8_t *input, size_t len) {
    static struct reasons reasons;
    const struct rule *rule = &loaded->rule;
    struct sink out = sink_to(-1);
    memset(&reasons, 0, sizeof reasons);
    reasons.loaded = loaded;
    for (int i = 0; i < 3; i++) {
        size_t cell = dice(rule->states * rule->codes), state = rule->table[cell];
        const struct reason *reason = reason_at(&reasons, state);
        const uint64_t met = met_states(rule, reason->told.pair);
        if (reason->told.refusal || reason->told.operation != loaded->sheet[cell] / 64)
            fail("a reason has another operation", input, len);
        for (size_t at = 0; at < reason->told.length; state = move_of(rule, state, reason->way[at++]))
            if (in_set(met, state)) fail("a way goes on where its pair is met", input, len);
        if (in_set(met, state) != (reason->told.operation == PACHALLU_STORE) && reason->told.operation != PACHALLU_DUMP)
            fail("a way does not meet its pair, or a lost pair is met", input, len);
        put_reason(&out, rule, reason);
        if (reason->told.operation == PACHALLU_STORE) try_release(loaded, rule->table[cell], input, len);
    }
    for (size_t i = 0; i < out.used; i++)
        if (out.bytes[i] < 32 && out.bytes[i] != '\n') fail("a reason has a control byte", input, len);
    sink_free(&out);
}

static void judge_and_tell(struct loaded *loaded, const uint8_t *input, size_t len) {
    char words[REFUSAL_WORDS];
    judge(loaded);
    if (loaded->made.refusal == 0) {
        accepted++;
        round_trip(loaded, input, len);
        try_reasons(loaded, input, len);
    } else {
        refusal_words(loaded, words);
        no_control_bytes(words, input, len);
    }
}

static void try_drawing(const uint8_t *bytes, size_t len) {
    static struct drawing drawing;
    static struct loaded loaded;
    size_t note;
    drawings++;
    drawing_read(bytes, len, &drawing);
    for (size_t i = 0; i < drawing.complaints.count; i++) no_control_bytes(drawing.complaints.list[i].words, bytes, len);
    if (drawing.complaints.count == 0) {
        drawn++;
        loaded.len = rule_to_file(&drawing.rule, true, loaded.bytes, &note);
        if (loaded.len > 0) judge_and_tell(&loaded, bytes, len);
        if (loaded.len > 0 && loaded.made.refusal > 0 && loaded.made.refusal < 7)
            fail("a drawing makes a spoiled file", bytes, len);
    }
    complaints_free(&drawing.complaints);
}

static void try_rule(const uint8_t *bytes, size_t len) {
    static struct loaded loaded;
    rules++;
    loaded.len = len < sizeof loaded.bytes ? len : sizeof loaded.bytes;
    memcpy(loaded.bytes, bytes, loaded.len);
    judge_and_tell(&loaded, bytes, len);
}

/* Each entry of a sound book, as the library finds it. */
static void find_entries(const struct rulebook *book) {
    static const uint8_t none[] = {0, 0};
    for (size_t at = 0, place = 0; at < rulebook_count(book); at++) {
        struct entry entry = rulebook_entry(book, at);
        pachallu_found found = pachallu_find(none, sizeof none, book->bytes, book->len, (uint8_t)entry.number, (uint16_t)entry.age);
        if (found.refusal || found.start != entry.place || found.length != entry.length || entry.place != place)
            fail("an entry is not what is found", book->bytes, book->len);
        place += entry.length;
    }
}

static void try_book(const uint8_t *bytes, size_t len) {
    const struct rulebook book = {NULL, (uint8_t *)bytes, len};
    char words[REFUSAL_WORDS];
    books++;
    if (!is_rulebook(&book)) {
        bad_book_words(&book, words);
        no_control_bytes(words, bytes, len);
        return;
    }
    struct sink out = sink_to(-1);
    sound++;
    find_entries(&book);
    put_book(&out, &book);
    for (size_t i = 0; i < out.used; i++)
        if (out.bytes[i] < 32 && out.bytes[i] != '\n') fail("a list has a control byte", bytes, len);
    sink_free(&out);
}

/* ---- changes */

static const char *const words[] = {
    "class ", "codes ", "start ", "accept ",      "note \"",  "else ",    "-> ",          ", ",      "= ",          "R ",
    "P ",     "0 ",     "1 ",     "31",           "64 ",      "safety\n", "\n",           "\r\n",    "\"",          "\\",
    "\\x0",   "\\n",    "#",      "\xef\xbb\xbf", "\xc3\xb1", "\xc2\xa0", "pachallu 1\n", "states ", "99999999999", " a b c d e f ",
    "remarks ", "40=",  " 255=",  "mode joint\n",
};

static size_t put_in(uint8_t *bytes, size_t len, size_t at, const void *part, size_t part_len) {
    if (len + part_len > LONGEST) return len;
    memmove(bytes + at + part_len, bytes + at, len - at);
    memcpy(bytes + at, part, part_len);
    return len + part_len;
}

static size_t change(uint8_t *bytes, size_t len) {
    size_t at = dice(len + 1), part = dice(1 + (len - at < 40 ? len - at : 40));
    const struct seed *other = &seeds[dice(seed_count)];
    uint8_t kept[64];
    switch (dice(7)) {
    case 0: /* another byte */
        if (at < len) bytes[at] = (uint8_t)dice(256);
        return len;
    case 1: /* another bit */
        if (at < len) bytes[at] ^= (uint8_t)(1u << dice(8));
        return len;
    case 2: /* a word */ {
        const char *word = words[dice(sizeof words / sizeof words[0])];
        return put_in(bytes, len, at, word, strlen(word));
    }
    case 3: /* less */ memmove(bytes + at, bytes + at + part, len - at - part); return len - part;
    case 4: /* a part twice, elsewhere */ memcpy(kept, bytes + at, part); return put_in(bytes, len, dice(len + 1), kept, part);
    case 5: /* a part of another seed */
        if (other->len == 0) return len;
        at = dice(other->len);
        part = dice(other->len - at < 60 ? other->len - at + 1 : 60);
        return put_in(bytes, len, dice(len + 1), other->bytes + at, part);
    default: /* the end cut off */ return dice(8) ? len : at;
    }
}

static void try_one(void) {
    static uint8_t bytes[LONGEST];
    const struct seed *seed = &seeds[dice(seed_count)];
    size_t len = seed->len;
    memcpy(bytes, seed->bytes, len);
    for (size_t i = 1 + dice(4); i > 0; i--) len = change(bytes, len);
    /* exactly as long as it is, so that a read past its end is seen */
    uint8_t *exact = room_for(NULL, len ? len : 1);
    memcpy(exact, bytes, len);
    seed->try(exact, len);
    free(exact);
}

static void read_seed(const char *file) {
    struct seed *seed = &seeds[seed_count];
    const char *end = strrchr(file, '.');
    seed->bytes = room_for(NULL, LONGEST);
    if (read_file(file, seed->bytes, LONGEST, &seed->len) != DONE) exit(FAILED);
    seed->try = end && strcmp(end, ".rule") == 0 ? try_rule : end && strcmp(end, ".rules") == 0 ? try_book : try_drawing;
    seed_count++;
}

int main(int count, char **arguments) {
    time_t end = time(NULL) + (count > 2 ? atoi(arguments[1]) : 0);
    for (int i = 2; i < count && seed_count < SEEDS; i++) read_seed(arguments[i]);
    if (seed_count == 0) return fputs("usage: fuzz SECONDS FILE..\n", stderr), FAILED;
    for (size_t i = 0; i < seed_count; i++) seeds[i].try(seeds[i].bytes, seeds[i].len);
    if (accepted + sound != seed_count) return fputs("fuzz: a seed is not accepted\n", stderr), FAILED;
    do
        for (int i = 0; i < 100; i++) try_one();
    while (time(NULL) < end);
    printf("%zu drawings, %zu without complaint; %zu rule files; %zu accepted; %zu rule books, %zu sound\n", drawings, drawn, rules,
           accepted, books, sound);
    for (size_t i = 0; i < seed_count; i++) free(seeds[i].bytes);
    return drawn > 100 && accepted > 100 && sound > 100 ? DONE
                                                        : (fputs("fuzz: too few were accepted to say much\n", stderr), FAILED);
}
