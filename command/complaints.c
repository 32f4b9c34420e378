/* complaints.c: what is wrong with a drawing, line by line. */
#include "complaints.h"

#include <stdarg.h>
#include <stdio.h>
#include <stdlib.h>
#include <string.h>

void complain(struct complaints *all, size_t line, const char *format, ...) {
    char words[1024];
    va_list list;
    va_start(list, format);
    vsnprintf(words, sizeof words, format, list);
    va_end(list);
    size_t order = all->count++, len = strlen(words) + 1;
    if ((order & (order + 1)) == 0) /* 0, 1, 3, 7 ..: the room is doubled */
        all->list = room_for(all->list, 2 * (order + 1) * sizeof *all->list);
    all->list[order] = (struct complaint){line, order, room_for(NULL, len)};
    memcpy(all->list[order].words, words, len);
}

static int by_line(const void *left, const void *right) {
    const struct complaint *a = left, *b = right;
    if (a->line != b->line) return a->line < b->line ? -1 : 1;
    return a->order < b->order ? -1 : a->order > b->order;
}

void complaints_sort(struct complaints *all) {
    if (all->count > 0) qsort(all->list, all->count, sizeof *all->list, by_line);
}

void complaints_free(struct complaints *all) {
    for (size_t i = 0; i < all->count; i++) free(all->list[i].words);
    free(all->list);
    *all = (struct complaints){NULL, 0};
}
