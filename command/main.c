/* main.c: the command pachallu: the table of its subcommands, their options, and the help. */
#include <pachallu.h>
#include <stdio.h>
#include <string.h>
#include <unistd.h>

#include "command.h"

enum { OUTPUT = 1, TELL_EACH = 2, NO_NAMES = 4, OFFICE = 8, JOB = 16, NUMBER = 32, AGE = 64, NO_JOB = 128 };
enum { FROM_BOOK = OFFICE | JOB | NUMBER | AGE, NUMBER_MOST = 255, AGE_MOST = 65535, WORDS_MOST = 4 };

/* The words that a subcommand takes, a letter each: r a rule file, in place of which there may be --book and what goes with it;
 * s a state and c a code of the rule; f another file; j and o the rule books of a job and an office, the first not with --no-job;
 * n the number of a rule; a an age, which may be left out. */
static const struct subcommand {
    const char *name, *operands;
    unsigned options;
    const char *usage, *help;
    enum status (*act)(const struct arguments *);
} subcommands[] = {
    {"draw", "f", OUTPUT | NO_NAMES, "TEXT [-o RULE] [--no-names]", "a drawing in text becomes a rule file", command_draw},
    {"check", "r", FROM_BOOK, "RULE", "is the rule accepted? If not, what is wrong and where", command_check},
    {"table", "r", FROM_BOOK, "RULE", "its monitor, cell by cell, in numbers", command_table},
    {"picture", "r", FROM_BOOK, "RULE", "its monitor as a drawing for Graphviz", command_picture},
    {"text", "r", FROM_BOOK, "RULE", "the drawing in text again", command_text},
    {"make", "r", OUTPUT | FROM_BOOK, "RULE [-o SHEET]", "the monitor sheet, for the library", command_make},
    {"run", "rf", TELL_EACH | FROM_BOOK, "RULE BOOK [-t]", "what is released, what is held, where it halts", command_run},
    {"why", "rsc", FROM_BOOK, "RULE STATE CODE", "is the code held or halted there, and why", command_why},
    {"book new", "", OUTPUT, "[-o BOOK]", "begins a rule book: one of no rules", command_book_new},
    {"book add", "fnf", OUTPUT, "BOOK NUMBER RULE [-o NEW]", "the rule book with one rule more; NEW may be BOOK", command_book_add},
    {"book list", "f", 0, "BOOK", "its rules, oldest first", command_book_list},
    {"book find", "jona", OUTPUT | NO_JOB, "JOB OFFICE NUMBER [AGE] [-o RULE]", "where the books have a rule; with -o the rule",
     command_book_find},
};

static const struct option {
    const char *word;
    unsigned mask;
    const char *no_value; /* what to say where its value is missing; NULL: it has none */
    const char *help;
} options[] = {
    {"-o", OUTPUT, "a file is missing after",
     "-o FILE      write into FILE in place of standard output; an old file stays until all is written"},
    {"-t", TELL_EACH, NULL, "-t           tell what becomes of each code"},
    {"--no-names", NO_NAMES, NULL, "--no-names   leave the names of states and codes out of the rule's note"},
    {"--book", OFFICE, "a file is missing after",
     "--book FILE  in place of RULE: take the rule out of this rule book, the office's"},
    {"--job", JOB, "a file is missing after",
     "--job FILE   the job's rule book: where it has the number, the office's is not asked"},
    {"--rule", NUMBER, "a number is missing after", "--rule N     the number of the rule in the book, 0 to 255"},
    {"--age", AGE, "a number is missing after",
     "--age N      0: the latest rule of this number, also if this is not given; 1: the one before it; up to 65535"},
    {"--no-job", NO_JOB, NULL, "--no-job     in place of JOB: the job has no book"},
};

enum { SUBCOMMANDS = sizeof subcommands / sizeof subcommands[0], OPTIONS = sizeof options / sizeof options[0] };

static const char more[] =
    "\nIn place of RULE: --book OFFICE [--job JOB] --rule NUMBER [--age AGE], a rule out of rule books. For JOB: --no-job.\n"
    "A file called - is standard input or output. `pachallu COMMAND --help` tells the options of one command, `man pachallu` all.\n"
    "Exit status: 0 done; 1 the answer is no (a rule, drawing or book is refused; a book has no such rule; codes were halted\n"
    "or held); 2 bad use, or something could not be read or written.\n";

static void put_usage_line(struct sink *out, const struct subcommand *sub) {
    put_line(out, "  pachallu %-9s %-33s  %s\n", sub->name, sub->usage, sub->help);
}

static void put_usage(struct sink *out) {
    put_text(out, "pachallu: monitors for drawn rules\n\n");
    for (size_t i = 0; i < SUBCOMMANDS; i++) put_usage_line(out, &subcommands[i]);
    put_text(out, "  pachallu --version\n");
    put_text(out, more);
}

static enum status help(const struct subcommand *sub) {
    struct sink out = sink_to(STDOUT_FILENO);
    if (!sub) {
        put_usage(&out);
        return end_output(&out, DONE);
    }
    put_line(&out, "pachallu %s %s\n    %s\n", sub->name, sub->usage, sub->help);
    for (size_t i = 0; i < OPTIONS; i++)
        if (sub->options & options[i].mask) put_line(&out, "    %s\n", options[i].help);
    return end_output(&out, DONE);
}

static enum status version(void) {
    struct sink out = sink_to(STDOUT_FILENO);
    put_text(&out, "pachallu " PACHALLU_VERSION "\n");
    return end_output(&out, DONE);
}

static enum status bad_use(const struct subcommand *sub, const char *what, const char *word) {
    tell(NULL, 0, "%s: %s%s%s. It is: pachallu %s %s", sub->name, what, word ? " " : "", word ? quoted(word, strlen(word)) : "",
         sub->name, sub->usage);
    return FAILED;
}

/* ---- words */

/* The number that a word writes in decimal; false where it is none, or over the most. */
static bool take_number(const char *word, unsigned most, unsigned *number) {
    *number = 0;
    if (word[0] == 0) return false;
    for (; *word; word++) {
        if (*word < '0' || *word > '9') return false;
        *number = 10 * *number + (unsigned)(*word - '0');
        if (*number > most) return false;
    }
    return true;
}

static enum status take_rule_number(const struct subcommand *sub, const char *word, struct source *rule) {
    return take_number(word, NUMBER_MOST, &rule->number) ? DONE : bad_use(sub, "a rule's number is from 0 to 255, not", word);
}

static enum status take_age(const struct subcommand *sub, const char *word, struct source *rule) {
    return take_number(word, AGE_MOST, &rule->age) ? DONE : bad_use(sub, "an age is from 0 to 65535, not", word);
}

static enum status take_file(const struct subcommand *sub, const char *word, const char **file) {
    *file = word;
    return word[0] != 0 ? DONE : bad_use(sub, "a file cannot be called", word);
}

/* An option that the subcommand has, or NULL. */
static const struct option *option_called(const struct subcommand *sub, const char *word) {
    for (size_t i = 0; i < OPTIONS; i++)
        if ((sub->options & options[i].mask) && strcmp(options[i].word, word) == 0) return &options[i];
    return NULL;
}

static enum status set_option(const struct subcommand *sub, const struct option *option, const char *value,
                              struct arguments *arguments) {
    switch (option->mask) {
    case OUTPUT: return take_file(sub, value, &arguments->output);
    case TELL_EACH: arguments->tell_each = true; break;
    case NO_NAMES: arguments->no_names = true; break;
    case OFFICE: return take_file(sub, value, &arguments->rule.office);
    case JOB: return take_file(sub, value, &arguments->rule.job);
    case NUMBER: return take_rule_number(sub, value, &arguments->rule);
    case AGE: return take_age(sub, value, &arguments->rule);
    }
    return DONE;
}

/* A word of a subcommand, by its letter. */
static enum status set_operand(const struct subcommand *sub, char letter, const char *word, struct arguments *arguments) {
    switch (letter) {
    case 'r': return take_file(sub, word, &arguments->rule.file);
    case 'j': return take_file(sub, word, &arguments->rule.job);
    case 'o': return take_file(sub, word, &arguments->rule.office);
    case 'n': return take_rule_number(sub, word, &arguments->rule);
    case 's': arguments->state = word; return DONE;
    case 'c': arguments->code = word; return DONE;
    case 'a': return take_age(sub, word, &arguments->rule);
    default: return take_file(sub, word, &arguments->file[arguments->files++]);
    }
}

/* What to say where the word of this letter is missing. */
static const char *missing(char letter) {
    switch (letter) {
    case 'n': return "a rule's number is missing";
    case 's': return "a state is missing";
    case 'c': return "a code is missing";
    default: return "a file is missing";
    }
}

/* Gives each word its place; an option may have taken that of the first. */
static enum status set_operands(const struct subcommand *sub, unsigned given, const char **words, size_t count,
                                struct arguments *arguments) {
    size_t next = 0;
    for (const char *letter = sub->operands; *letter; letter++) {
        if ((*letter == 'r' && (given & OFFICE)) || (*letter == 'j' && (given & NO_JOB))) continue;
        if (next == count && *letter == 'a') break;
        if (next == count) return bad_use(sub, missing(*letter), NULL);
        enum status status = set_operand(sub, *letter, words[next++], arguments);
        if (status != DONE) return status;
    }
    return next == count ? DONE : bad_use(sub, "this is one word too many:", words[next]);
}

static enum status one_standard_input(const struct subcommand *sub, const struct arguments *arguments) {
    const struct source *rule = &arguments->rule;
    const char *const files[] = {rule->file, rule->office, rule->job, arguments->file[0], arguments->file[1]};
    size_t inputs = 0;
    for (size_t i = 0; i < sizeof files / sizeof files[0]; i++)
        if (files[i] && strcmp(files[i], "-") == 0) inputs++;
    return inputs < 2 ? DONE : bad_use(sub, "only one of its files can be standard input", NULL);
}

/* Could the word be an option? One that begins like a number below 0 is none, where a number is wanted. */
static bool is_option(const struct subcommand *sub, const char *word) {
    return word[0] == '-' && word[1] != 0 && !(strpbrk(sub->operands, "ns") && word[1] >= '0' && word[1] <= '9');
}

/* Takes the words after a subcommand. An option may stand anywhere; -- ends them. */
static enum status take_words(const struct subcommand *sub, int count, char **words, struct arguments *arguments) {
    const char *operands[WORDS_MOST + 1];
    bool only_operands = false;
    unsigned given = 0;
    size_t taken = 0;
    enum status status = DONE;
    for (int i = 0; i < count && status == DONE; i++) {
        const char *word = words[i];
        const struct option *option = only_operands ? NULL : option_called(sub, word);
        if (!only_operands && strcmp(word, "--") == 0) {
            only_operands = true;
        } else if (option) {
            if (given & option->mask) return bad_use(sub, "this is given twice:", word);
            if (option->no_value && ++i == count) return bad_use(sub, option->no_value, word);
            given |= option->mask;
            status = set_option(sub, option, option->no_value ? words[i] : NULL, arguments);
        } else if (!only_operands && is_option(sub, word)) {
            return bad_use(sub, "it has no option", word);
        } else if (taken <= WORDS_MOST) {
            operands[taken++] = word; /* one more than any takes shows that it is too many */
        }
    }
    if (status == DONE && (given & FROM_BOOK) && (given & (OFFICE | NUMBER)) != (OFFICE | NUMBER))
        return bad_use(sub, "a rule out of a rule book is --book OFFICE [--job JOB] --rule NUMBER [--age AGE]", NULL);
    if (status == DONE) status = set_operands(sub, given, operands, taken, arguments);
    return status == DONE ? one_standard_input(sub, arguments) : status;
}

/* ---- subcommands */

static bool asks_for_help(int count, char **words) {
    for (int i = 0; i < count && strcmp(words[i], "--") != 0; i++)
        if (strcmp(words[i], "--help") == 0 || strcmp(words[i], "-h") == 0) return true;
    return false;
}

static enum status act(const struct subcommand *sub, int count, char **words) {
    struct arguments arguments = {0};
    if (asks_for_help(count, words)) return help(sub);
    enum status status = take_words(sub, count, words, &arguments);
    return status == DONE ? sub->act(&arguments) : status;
}

/* Is this the first word of the subcommand's name? */
static bool begins(const struct subcommand *sub, const char *word) {
    size_t len = strcspn(sub->name, " ");
    return strlen(word) == len && memcmp(word, sub->name, len) == 0;
}

/* How many words of the call are the subcommand's name; 0 where it is another one. */
static int words_of(const struct subcommand *sub, int count, char **words) {
    const char *second = strchr(sub->name, ' ');
    if (!begins(sub, words[0])) return 0;
    if (!second) return 1;
    return count > 1 && strcmp(words[1], second + 1) == 0 ? 2 : 0;
}

/* A first word of a name of two, with no second one that goes with it. */
static enum status half_a_name(int count, char **words) {
    if (count > 1 && asks_for_help(1, words + 1)) {
        struct sink out = sink_to(STDOUT_FILENO);
        for (size_t i = 0; i < SUBCOMMANDS; i++)
            if (begins(&subcommands[i], words[0])) put_usage_line(&out, &subcommands[i]);
        return end_output(&out, DONE);
    }
    if (count > 1)
        tell(NULL, 0, "there is no command %s %s; `pachallu %s --help` lists those that there are", words[0],
             quoted(words[1], strlen(words[1])), words[0]);
    else
        tell(NULL, 0, "%s: a second word is wanted; `pachallu %s --help` lists them", words[0], words[0]);
    return FAILED;
}

static enum status act_by_name(int count, char **words) {
    bool half = false;
    for (size_t i = 0; i < SUBCOMMANDS; i++) {
        int taken = words_of(&subcommands[i], count, words);
        if (taken > 0) return act(&subcommands[i], count - taken, words + taken);
        half = half || begins(&subcommands[i], words[0]);
    }
    if (half) return half_a_name(count, words);
    tell(NULL, 0, "there is no command %s; `pachallu --help` lists them", quoted(words[0], strlen(words[0])));
    return FAILED;
}

int main(int count, char **words) {
    ready_streams();
    if (count < 2) {
        struct sink out = sink_to(STDERR_FILENO);
        put_usage(&out);
        sink_flush(&out);
        sink_free(&out);
        return FAILED;
    }
    if (strcmp(words[1], "--help") == 0 || strcmp(words[1], "-h") == 0) return (int)help(NULL);
    if (strcmp(words[1], "--version") == 0) return (int)version();
    return (int)act_by_name(count - 1, words + 1);
}
