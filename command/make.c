/* make.c: pachallu make: the monitor sheet of a rule file. */
#include "command.h"

enum status command_make(const struct arguments *arguments) {
    static struct loaded loaded;
    const char *files[3];
    enum status status = load_accepted(&arguments->rule, &loaded);
    source_files(&arguments->rule, files);
    return status == DONE ? write_file(arguments->output, files, loaded.sheet, loaded.made.written) : status;
}
