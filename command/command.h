/* command.h: the subcommands. Each is a line in the table of main.c and a function; those of one file belong together. */
#ifndef COMMAND_H
#define COMMAND_H

#include "rule.h"

/* What stands after a subcommand. */
struct arguments {
    const char *file[2]; /* the files that are no rule to be looked at, in order */
    size_t files;
    struct source rule; /* RULE, or --book and what goes with it; of book add the number, of book find all but a file */
    const char *state, *code; /* of why, as they are written */
    const char *output;       /* -o; NULL: not given */
    bool tell_each;           /* -t */
    bool no_names;            /* --no-names */
};

enum status command_draw(const struct arguments *arguments);
enum status command_check(const struct arguments *arguments);
enum status command_table(const struct arguments *arguments);
enum status command_picture(const struct arguments *arguments);
enum status command_text(const struct arguments *arguments);
enum status command_make(const struct arguments *arguments);
enum status command_run(const struct arguments *arguments);
enum status command_why(const struct arguments *arguments);
enum status command_book_new(const struct arguments *arguments);
enum status command_book_add(const struct arguments *arguments);
enum status command_book_list(const struct arguments *arguments);
enum status command_book_find(const struct arguments *arguments);

#endif
