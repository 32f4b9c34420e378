/* drawing.h: a rule drawn in text (docs/FORMATS.md), read, with everything told that is wrong with it. */
#ifndef DRAWING_H
#define DRAWING_H

#include "complaints.h"
#include "rule.h"

/* The longest drawing. The text of every rule file is shorter. */
enum { DRAWING_MOST = 1 << 20 };

struct drawing {
    struct rule rule;
    /* where things are drawn; 0: nowhere */
    size_t class_line, mode_line, start_line, row_line[PACHALLU_STATES_MAX], pair_line[PACHALLU_PAIRS_MAX];
    struct complaints complaints;
};

/* Reads a drawing. It is a rule where there are no complaints; they are in the order of the lines, and are to be freed. */
void drawing_read(const uint8_t *text, size_t len, struct drawing *drawing);

#endif
