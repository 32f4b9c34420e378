/* complaints.h: what is wrong with a drawing, line by line. */
#ifndef COMPLAINTS_H
#define COMPLAINTS_H

#include "streams.h"

/* What is wrong at a line; line 0 is the drawing as a whole. */
struct complaint {
    size_t line, order;
    char *words;
};

struct complaints {
    struct complaint *list;
    size_t count;
};

void complain(struct complaints *all, size_t line, const char *format, ...) PRINTF_LIKE(3, 4);
/* In the order of the lines. */
void complaints_sort(struct complaints *all);
void complaints_free(struct complaints *all);

#endif
