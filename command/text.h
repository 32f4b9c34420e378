/* text.h: a rule written as a drawing in text. */
#ifndef TEXT_H
#define TEXT_H

#include "rule.h"

/* Writes the drawing of an accepted rule. Read again, it is the same rule with the same note. */
void put_drawing(struct sink *out, const struct rule *rule);

#endif
