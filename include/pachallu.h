/* pachallu.h: monitors for drawn rules.
 *
 * A rule is drawn as states and moves and kept in a rule file. pachallu_make turns the file into a sheet, once.
 * pachallu_fresh begins a run on a sheet. pachallu_event takes one event at a time and says what became of it:
 *
 *     store   the event is held back; it stands in the memory, behind those already held
 *     dump    the held events and then this one are released: they stand in the output, from its front
 *     halt    no continuation can make the events acceptable any more: nothing is released, the event is not held, what was
 *             held stays held; every later event of the rule is answered halt too
 *     ignore  the code is not one of the rule's events (it is K or more, of K events): a remark, a weather code. Nothing changes, at any
 *             time, after a halt too: state and held are those that were given, nothing is released, and it does not count as taken
 *
 * What has been released is always the longest beginning of the taken events that the rule accepts.
 *
 *     uint8_t sheet[PACHALLU_SHEET_MAX], memory[100], output[101];
 *     pachallu_made made = pachallu_make(rule, rule_len, sheet, sizeof sheet);
 *     if (made.refusal) ...
 *     pachallu_start start = pachallu_fresh(sheet, made.written);
 *     uint8_t state = start.state;
 *     size_t held = start.held;
 *     for each event:
 *         pachallu_answer a = pachallu_event(sheet, made.written, state, held, event, memory, sizeof memory, output, sizeof output);
 *         if (a.refusal) ...                            the event was not taken; nothing has changed
 *         else use output[0] to output[a.released - 1]  nothing if a.released is 0
 *         state = a.state;
 *         held = a.held;
 *
 * pachallu_events takes up to 4,096 events in one call: what it does to the run, the memory and the output is what single calls of
 * pachallu_event do, one after another, each given the unwritten rest of the output. A halt does not end it, nor does an ignored code; the first
 * refused event does.
 *
 * Byte 5 of a rule file's trailer is its mode. In mode 0 an event halts where some accepting pair can no longer be met. With several pairs a run
 * may then hold events for nothing: each pair can still be met, but not all of them at one state. In mode 1, joint, an event halts exactly where
 * nothing can be accepted any more: it is a dump where every pair is met, a halt where no further events lead to a state at which every pair is
 * met, and else a store. With one pair the two modes give the same sheet.
 *
 * THE RUN STATE is the two numbers `state` and `held`, and the first `held` bytes of the memory. The library keeps nothing
 * between calls: carry the two numbers from each answer into the next call, with the same sheet and the same memory, and leave
 * the held bytes alone. The memory's other bytes are yours between calls. Several runs may share one sheet; each has its own
 * state, held and memory. The calls are safe in several threads at once as long as no buffer that is written is shared.
 *
 * pachallu_why says why an event is answered as it is: for a rule file, a state and an event it names the operation and the ground for it, both
 * judged at the state after the event. A pair is met at a state of its R or P.
 *
 *     halt    the lowest pair that is not met there and that no further events can meet
 *     store   the lowest pair not yet met there, and the shortest sequence of further events that meets it, the lowest in event order among
 *             equals: way[0] to way[length - 1], one event to 63. Taken after the event they meet the pair; in a rule of one pair, or in joint
 *             mode, the last of them is a dump, and all that was held goes out
 *     dump    no ground is needed
 *
 * In joint mode a store always names m, the number of pairs, and its way is the shortest one to a state at which every pair is met; a halt names
 * m where no single pair is at fault.
 *
 * A RULE BOOK keeps rule files under numbers from 0 to 255; docs/FORMATS.md has its bytes. Two bytes 0 are the book of no rules.
 * pachallu_add writes a book with one rule more. A number may be added again: the latest rule is in force, at age 0, and the ones
 * before it stay readable at age 1, 2 and so on. pachallu_find looks a number up in a job's book and, where that has none, in the
 * office's, and says where the rule stands; nothing is copied:
 *
 *     pachallu_found f = pachallu_find(job, job_len, office, office_len, number, 0);
 *     if (f.refusal) ...
 *     const uint8_t *rule = (f.book ? office : job) + f.start;
 *     pachallu_made made = pachallu_make(rule, f.length, sheet, sizeof sheet);
 *
 * Both books are always checked, the job's first. The age counts within the book that is used: the job's if it has the number at
 * all. A lookup does not judge the rule, pachallu_make does; a rule that pachallu_add put in is never refused by it but for room.
 *
 * BUFFERS belong to the caller; the library keeps no pointer after a call, allocates nothing and frees nothing. Each buffer is a
 * pointer and its length in bytes.
 *   - The buffers of one call must not overlap, neither in part nor as a whole. (Several calls may use the same buffer.)
 *   - A buffer of length 0 is never touched, and its pointer may be NULL, as C++ callers have it (an empty vector's data()). A length of 0
 *     is fine everywhere, and is answered by a refusal where bytes were needed. With any other length the pointer must be valid.
 *   - `const` buffers are only read.
 *   - Nothing outside of what an answer names is written: pachallu_make writes sheet[0] to sheet[written - 1],
 *     pachallu_add out[0] to out[written - 1]; a store writes the one byte memory[held] (held as it was given); a dump writes
 *     output[0] to output[released - 1]; a halt, an ignored code and pachallu_find write nothing; pachallu_why writes way[0] to way[length - 1].
 *
 * A REFUSAL (`refusal` not 0) changes no byte of any buffer. A refused make or add has written 0; a refused find has book, start
 * and length 0 (a rule that was found may have length 0 too: look at `refusal`); a refused start has state 0 and held 0; a
 * refused event returns the state and held that it was given, with operation 0 and released 0; a refused why has operation, pair and
 * length 0: look at `refusal` before `operation`. A refused event is not taken: the same or another one may be offered next, for instance with
 * a longer output.
 * `a` and `b` are the two places of the table below, 0 where none is named.
 * pachallu_events keeps what came before the event that was refused: its state, held, taken, released and ignored, the memory and the output
 * are those that the codes before it left, and the refused event, log[taken + ignored], changed nothing. With refusal 19, or for an empty log,
 * nothing was taken or ignored: the answer has the state and held that were given, and no byte changed.
 *
 *     no.  given when                                                                        a, b
 *      1   rule file under 12 or over 3,212 bytes, or its last two bytes are not 72, 82
 *      2   class not 1 to 4
 *      3   states, events, pairs or initial state out of range, byte 5 of the trailer, the
 *          mode, not 0 or 1, or several pairs in class 1, 2 or 4
 *      4   a distance is wrong, the file is too short for its table, or the note is over
 *          1,024 bytes
 *      5   a table entry is no state                                                         state, event: first such cell
 *      6   a pair names a state that is not there                                            pair; 0 if R does, 1 if only P
 *      7   class 1 with R not empty, class 2 or 4 with P not empty
 *      8   a move that the class forbids                                                     state, event: first such cell
 *      9   the initial state is stopping: nothing could ever be accepted                     lowest pair by which it is; in joint mode
 *                                                                                            m, where no single pair is at fault
 *     11   this is no sheet: length, mark, sizes or initial state are wrong
 *     12   this is no run state of the sheet: state too great, or more held than the memory
 *          is long; for pachallu_why: the rule has no such state
 *     13   the event is not one of the rule's (pachallu_why alone: a run ignores it)
 *     14   the sheet's cell is spoiled                                                       state, event
 *     15   to be stored, but the memory is full
 *     16   the output has too little room (for pachallu_why: the way)
 *     17   this is no rule book: its count is missing or over 1,024, the directory is        0 the job's book, 1 the office's;
 *          longer than the book, an entry's second byte is not 0, or the rules, in the       0 for the book of pachallu_add
 *          order of the entries, do not exactly fill the book up to the directory
 *     18   neither book has the number, or the book that is used has no such age
 *     19   the log is over 4,096 codes, ignored ones counted
 *     26   the book has 1,024 entries already
 *
 * pachallu_make gives 1 to 9, then 16; pachallu_fresh gives 11; pachallu_event gives 11, 12, and, of an event of the rule, 14 to 16;
 * pachallu_events gives 19, then 11 and 12 (of an empty log too), then 14 to 16 of each event in turn; always the first that holds.
 * pachallu_why gives 1 to 9, 12 for the state, 13 for the event, then 16, in this order.
 * pachallu_find gives 17, then 18; pachallu_add gives 17, 1 to 9, 26, then 16, in this order.
 * pachallu_print tells 1 to 9 in its text, and gives 16. pachallu_refusal_text puts a number into words.
 *
 * The library is x86-64 code for Linux. Usable from C99 and C++.
 */
#ifndef PACHALLU_H
#define PACHALLU_H

#include <stddef.h>
#include <stdint.h>

#ifdef __cplusplus
extern "C" {
#endif

#define PACHALLU_VERSION "0.2.0"

/* The longest rule file, the longest sheet, the longest printed monitor, and the limits of a rule: states, events, accepting
 * pairs. */
#define PACHALLU_RULE_MAX 3212
#define PACHALLU_SHEET_MAX 2054
#define PACHALLU_TEXT_MAX 32768
#define PACHALLU_STATES_MAX 64
#define PACHALLU_EVENTS_MAX 32
#define PACHALLU_PAIRS_MAX 8

/* The most rules of a rule book, and the longest book. */
#define PACHALLU_BOOK_RULES_MAX 1024
#define PACHALLU_BOOK_MAX 67116034

/* The longest way of pachallu_why. */
#define PACHALLU_WAY_MAX 63

/* The longest log of pachallu_events, in codes, ignored or not. */
#define PACHALLU_LOG_MAX 4096

/* pachallu_answer.operation; all but the last also pachallu_reason.operation */
#define PACHALLU_HALT 0
#define PACHALLU_STORE 1
#define PACHALLU_DUMP 2
#define PACHALLU_IGNORE 3

typedef struct {
    uint8_t refusal; /* 0: done */
    uint8_t a, b;    /* places of a refusal */
    size_t written;  /* bytes at the front of the output; of a sheet: states * events + 6 */
} pachallu_made;

typedef struct {
    uint8_t refusal; /* 0: done */
    uint8_t a, b;    /* always 0: refusal 11 names no place */
    uint8_t state;   /* the initial state */
    size_t held;     /* 0 */
} pachallu_start;

typedef struct {
    uint8_t refusal;   /* 0: taken, or ignored */
    uint8_t a, b;      /* places of a refusal */
    uint8_t operation; /* PACHALLU_HALT, PACHALLU_STORE, PACHALLU_DUMP or PACHALLU_IGNORE */
    uint8_t state;     /* the run state after the event, for the next call */
    size_t held;
    size_t released;   /* bytes at the front of the output: held as given + 1 for a dump, else 0 */
} pachallu_answer;

typedef struct {
    uint8_t refusal; /* 0: all taken or ignored; else that of the first event that was refused, log[taken + ignored], or 19, or 11 or 12 */
    uint8_t a, b;    /* places of a refusal */
    uint8_t state;   /* the run state after the events taken, for the next call */
    size_t held;
    size_t taken;    /* events taken; with the ignored codes among them, from the front of the log */
    size_t released; /* bytes at the front of the output */
    size_t ignored;  /* codes that are not the rule's */
} pachallu_evening;

typedef struct {
    uint8_t refusal;   /* 0: answered */
    uint8_t a, b;      /* places of a refusal */
    uint8_t operation; /* PACHALLU_HALT, PACHALLU_STORE or PACHALLU_DUMP: that of the sheet's cell */
    uint8_t pair;      /* the ground of a halt or a store: an accepting pair, the first is 0, or m: all together; 0 for a dump */
    size_t length;     /* events at the front of the way: 1 to 63 for a store, else 0 */
} pachallu_reason;

/* Makes the sheet of a rule file. PACHALLU_SHEET_MAX bytes of room are always enough. */
pachallu_made pachallu_make(const uint8_t *rule, size_t rule_len, uint8_t *sheet, size_t sheet_len);

/* Begins a run. sheet_len is the sheet's exact length, `written` of pachallu_make. */
pachallu_start pachallu_fresh(const uint8_t *sheet, size_t sheet_len);

/* Takes one event, or ignores a code that is none of the rule's. An output of memory_len + 1 bytes is always enough. */
pachallu_answer pachallu_event(const uint8_t *sheet, size_t sheet_len, uint8_t state, size_t held, uint8_t event,
                               uint8_t *memory, size_t memory_len, uint8_t *output, size_t output_len);

/* Where a rule stands that was looked up. */
typedef struct {
    uint8_t refusal; /* 0: found */
    uint8_t a, b;    /* places of a refusal */
    uint8_t book;    /* 0: in the job's book, 1: in the office's */
    size_t start;    /* the rule's first byte in that book, */
    size_t length;   /* and its length in bytes */
} pachallu_found;

/* Looks a rule up in two rule books, by its number and age: in the job's where that has the number at all, else in the office's. For a
 * lookup in one book let the other be the two bytes 0. */
pachallu_found pachallu_find(const uint8_t *job, size_t job_len, const uint8_t *office, size_t office_len, uint8_t number,
                             uint16_t age);

/* Writes a rule book with one rule more, which is then in force under its number: book_len + rule_len + 8 bytes, `written`. The earlier
 * rules' bytes stand where they stood. */
pachallu_made pachallu_add(const uint8_t *book, size_t book_len, uint8_t number, const uint8_t *rule, size_t rule_len,
                           uint8_t *out, size_t out_len);

/* Takes up to PACHALLU_LOG_MAX codes, the ignored ones counted, each release right after the one before. An output of held + log_len bytes is always enough. */
pachallu_evening pachallu_events(const uint8_t *sheet, size_t sheet_len, uint8_t state, size_t held, const uint8_t *log, size_t log_len,
                                 uint8_t *memory, size_t memory_len, uint8_t *output, size_t output_len);

/* Says why the event is answered as it is in the state, and which events would meet the pair that a store waits for. PACHALLU_WAY_MAX bytes of room are
 * always enough. */
pachallu_reason pachallu_why(const uint8_t *rule, size_t rule_len, uint8_t state, uint8_t event, uint8_t *way, size_t way_len);

/* Prints a rule file's monitor, or its refusal, as the program table does. 16 where the text does not fit; PACHALLU_TEXT_MAX bytes are always enough. */
pachallu_made pachallu_print(const uint8_t *rule, size_t rule_len, uint8_t *text, size_t text_len);

/* What a refusal number means, in a few words and with no full stop; never NULL. A and B are the places of the table above. */
static inline const char *pachallu_refusal_text(uint8_t refusal) {
    static const char *const texts[] = {
        "not refused",
        "this is no rule file: its length or its last two bytes are wrong",
        "the class is not 1 to 4",
        "the states, events, pairs or initial state are out of range, or byte 5 of the trailer, the mode, is not 0 or 1",
        "a distance in the trailer is wrong, the file is too short for its table, or its note is over 1,024 bytes",
        "the move of state A by event B leads to no state",
        "pair A names a state that is not there (B 0: in R, 1: in P)",
        "the class wants R or P to be empty, and it is not",
        "the class forbids the move of state A by event B",
        "from the initial state nothing can ever be accepted (by pair A; by all together where A is the number of pairs)",
        0, /* 10 stays unused: it was for a pair with R and P both empty, and such a rule is refused 9 before */
        "this is no sheet",
        "this is no run state of the sheet, or no state of the rule",
        "the event is not one of the rule's",
        "the sheet is spoiled at state A, event B",
        "the event is to be held, and the memory is full",
        "the output has too little room",
        "this is no rule book: its count, its directory or its rules' lengths are wrong (A 0: the job's or the one added to, 1: the "
        "office's)",
        "neither book has a rule of this number, or the one that is used has none of this age",
        "the log is over 4,096 events",
        0, 0, 0, 0, 0, 0, /* 20 to 25 */
        "the rule book has 1,024 rules already",
    };
    const char *text = refusal < sizeof texts / sizeof texts[0] ? texts[refusal] : 0;
    return text ? text : "this number is not known to this version";
}

#ifdef __cplusplus
}
#endif

#endif
