/* run.c: pachallu run: a book of codes through the monitor of a rule. */
#include <stdio.h>
#include <stdlib.h>
#include <string.h>
#include <unistd.h>

#include "codes.h"
#include "command.h"
#include "why.h"

/* The most codes that are held, so that an endless book ends; the released codes that -t lists again at the end; the codes of a way
 * that it tells of each held one. */
#define HELD_MOST ((size_t)1 << 28)
enum { LISTED = 4096, WAY_TOLD = 8 };

/* A code as it is printed in a list, a space before it. */
struct word {
    char text[NAME_MOST + 2];
    size_t len;
};

struct course {
    const struct loaded *loaded;
    struct reasons reasons;
    bool tell_each;
    struct sink out;
    struct codes book;
    struct word words[ALL_CODES];
    size_t widest;
    /* the run state, and room for what is held and for what is released at once */
    uint8_t state;
    size_t held, room;
    uint8_t *memory, *output;
    /* what has come of it */
    size_t released, halted_at, halted_line, halted_state;
    size_t ignored, ignored_at, ignored_line;
    uint8_t ignored_code;
    uint8_t fault; /* a refusal that should never be: the sheet was made here, and there is room; 0: none */
    uint8_t listed[LISTED];
};

/* Characters, as the screen counts them. */
static size_t width(const struct word *word) {
    size_t count = 0;
    for (size_t i = 1; i < word->len; i++) count += ((unsigned char)word->text[i] & 0xc0) != 0x80;
    return count;
}

static void name_codes(struct course *c) {
    for (size_t code = 0; code < ALL_CODES; code++) {
        struct word *word = &c->words[code];
        snprintf(word->text, sizeof word->text, " %s", word_for(c->loaded->rule.names.code, code));
        word->len = strlen(word->text);
        if (width(word) > c->widest) c->widest = width(word);
    }
}

static void put_code(struct course *c, uint8_t code) { put_bytes(&c->out, c->words[code].text, c->words[code].len); }

static void put_list(struct course *c, const char *what, const uint8_t *codes, size_t count) {
    put_text(&c->out, what);
    for (size_t i = 0; i < count; i++) put_code(c, codes[i]);
    put_text(&c->out, count > 0 ? "\n" : " none\n");
}

/* ---- with -t: a line for each code */

static void tell_code(struct course *c, uint8_t code) {
    put_line(&c->out, "%4zu ", c->book.count);
    put_code(c, code);
    for (size_t i = width(&c->words[code]); i < c->widest + 2; i++) put_text(&c->out, " ");
}

static void tell_store(struct course *c, const pachallu_evening *answer) {
    put_line(&c->out, "store  %zu held; waits for", answer->held);
    put_wait(&c->out, &c->loaded->rule, reason_at(&c->reasons, answer->state), WAY_TOLD);
    put_text(&c->out, "\n");
}

/* What is lost is told where it is lost, and not again. */
static void tell_halt(struct course *c, const pachallu_evening *answer) {
    put_text(&c->out, "halt");
    if (!c->halted_at) {
        put_text(&c->out, "   lost: ");
        put_lost(&c->out, &c->loaded->rule, reason_at(&c->reasons, answer->state));
    }
    put_text(&c->out, "\n");
}

static void tell_answer(struct course *c, uint8_t code, const pachallu_evening *answer) {
    tell_code(c, code);
    if (answer->refusal)
        put_line(&c->out, "not taken: %s\n", pachallu_refusal_text(answer->refusal));
    else if (answer->ignored > 0)
        put_text(&c->out, "ignored\n");
    else if (answer->released > 0)
        put_list(c, "dump   out:", c->output, answer->released);
    else if (answer->held > c->held)
        tell_store(c, answer);
    else
        tell_halt(c, answer);
}

/* ---- the run */

/* The most codes for the next block; 0, and told, where too many are held. */
static size_t most_codes(struct course *c) {
    size_t most = c->tell_each ? 1 : PACHALLU_LOG_MAX, left = HELD_MOST - c->held;
    if (left == 0)
        tell(c->book.file, line_of_code(&c->book, c->book.gathered - 1),
             "%zu codes are held, the most that this command holds. The run ends here", c->held);
    return left < most ? left : most;
}

/* Room to hold, or to release, all that is held and the block. */
static void make_room(struct course *c) {
    size_t wanted = c->held + c->book.gathered, old = c->room;
    while (c->room < wanted) c->room = c->room ? 2 * c->room : BOOK_READ;
    if (c->room == old) return;
    c->memory = room_for(c->memory, c->room);
    c->output = room_for(c->output, c->room);
}

static void release(struct course *c, size_t count) {
    for (size_t i = 0; i < count && c->tell_each; i++)
        if (c->released + i < LISTED) c->listed[c->released + i] = c->output[i];
    if (!c->tell_each && c->released == 0 && count > 0) put_text(&c->out, "released ");
    for (size_t i = 0; i < count && !c->tell_each; i++) put_code(c, c->output[i]);
    c->released += count;
}

/* The first code that is halted: of the block, behind so many that were taken. The run stands where it stood before the block. */
static void note_halt(struct course *c, size_t taken) {
    const struct rule *rule = &c->loaded->rule;
    size_t place = 0;
    c->halted_state = c->state;
    for (;; place++) {
        if (c->book.block[place] >= rule->codes) continue;
        c->halted_state = move_of(rule, c->halted_state, c->book.block[place]);
        if (taken-- == 0) break;
    }
    c->halted_at = number_of_code(&c->book, place);
    c->halted_line = line_of_code(&c->book, place);
    keep_line(&c->book, place);
}

static void note_ignored(struct course *c) {
    size_t place = 0;
    while (c->book.block[place] < c->loaded->rule.codes) place++;
    c->ignored_at = number_of_code(&c->book, place);
    c->ignored_line = line_of_code(&c->book, place);
    c->ignored_code = c->book.block[place];
}

static void take_block(struct course *c) {
    make_room(c);
    pachallu_evening answer = pachallu_events(c->loaded->sheet, c->loaded->made.written, c->state, c->held, c->book.block,
                                              c->book.gathered, c->memory, c->room, c->output, c->room);
    /* what is taken is released, held or halted; and from the first halt on all that is taken is halted */
    size_t halted = c->held + answer.taken - answer.released - answer.held;
    if (c->tell_each) tell_answer(c, c->book.block[0], &answer);
    release(c, answer.released);
    if (halted > 0 && !c->halted_at) note_halt(c, answer.taken - halted);
    if (answer.ignored > 0 && c->ignored == 0) note_ignored(c);
    c->ignored += answer.ignored;
    c->state = answer.state;
    c->held = answer.held;
    c->fault = answer.refusal;
    if (c->fault)
        tell(NULL, 0, "run: a fault of this program: refusal %u: %s. The run ends here", (unsigned)c->fault,
             pachallu_refusal_text(c->fault));
}

/* ---- what came of it */

static void put_released(struct course *c) {
    if (c->released == 0)
        put_text(&c->out, "released  none\n");
    else if (!c->tell_each)
        put_text(&c->out, "\n");
    else if (c->released <= LISTED)
        put_list(c, "released ", c->listed, c->released);
    else
        put_line(&c->out, "released  %zu codes, each told above\n", c->released);
}

/* What would release the held codes; or what was lost at the first halt, so that nothing does. */
static void put_why(struct course *c) {
    const struct rule *rule = &c->loaded->rule;
    struct reason release;
    if (c->halted_at) {
        put_text(&c->out, "lost      ");
        put_lost(&c->out, rule, reason_at(&c->reasons, c->halted_state));
        put_text(&c->out, "\n");
    } else if (c->held > 0) {
        put_text(&c->out, "waits for");
        if (release_at(c->loaded, c->state, &release))
            put_wait(&c->out, rule, &release, PACHALLU_WAY_MAX);
        else
            put_text(&c->out, " nothing that can come: all pairs together can never be met; in joint mode it would halt");
        put_text(&c->out, "\n");
    }
}

static void put_report(struct course *c) {
    put_released(c);
    put_list(c, "held     ", c->memory, c->held);
    if (c->halted_at)
        put_line(&c->out, "halted    at code %zu, line %zu of the book: %s\n", c->halted_at, c->halted_line,
                 visible(c->book.text, c->book.text_len));
    else
        put_text(&c->out, "halted    nowhere\n");
    put_why(c);
    if (c->ignored)
        put_line(&c->out, "ignored   %zu code%s, the first at code %zu, line %zu of the book:%s\n", c->ignored,
                 c->ignored == 1 ? "" : "s", c->ignored_at, c->ignored_line, c->words[c->ignored_code].text);
}

static enum status run_book(struct course *c) {
    enum came came = CODES;
    size_t most = 0;
    while (!c->fault && (most = most_codes(c)) > 0 && (came = next_codes(&c->book, most)) == CODES) take_block(c);
    codes_close(&c->book);
    if (came == NOT_READ && c->book.count == 0) return FAILED;
    put_report(c);
    if (most == 0 || c->fault || came == NOT_READ) return FAILED;
    return came == NO_CODE || c->halted_at || c->held ? ANSWER_NO : DONE;
}

enum status command_run(const struct arguments *arguments) {
    static struct loaded loaded;
    static struct course c;
    enum status status = load_accepted(&arguments->rule, &loaded);
    if (status != DONE) return status;
    c.loaded = c.reasons.loaded = &loaded;
    c.tell_each = arguments->tell_each;
    c.out = sink_to(STDOUT_FILENO);
    name_codes(&c);
    pachallu_start start = pachallu_fresh(loaded.sheet, loaded.made.written);
    c.state = start.state;
    c.held = start.held;
    status = codes_open(&c.book, arguments->file[0], &loaded.rule.names, &c.out) ? run_book(&c) : FAILED;
    free(c.memory);
    free(c.output);
    return end_output(&c.out, status);
}
