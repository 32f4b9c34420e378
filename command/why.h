/* why.h: what a held code waits for and why a code is halted: the library's reasons, in words. */
#ifndef WHY_H
#define WHY_H

#include "rule.h"

/* What the library says of a code. All of it is judged at the state to which the code leads. */
struct reason {
    pachallu_reason told;
    uint8_t way[PACHALLU_WAY_MAX];
    size_t at; /* that state */
};

/* The reasons of an accepted rule, each state asked for once. */
struct reasons {
    const struct loaded *loaded;
    bool asked[PACHALLU_STATES_MAX];
    struct reason reason[PACHALLU_STATES_MAX];
};

/* The reason at a state to which some code leads, as at every state that a run comes to. */
const struct reason *reason_at(struct reasons *reasons, size_t state);

/* At a state where a code is held: the codes that would release it, for all pairs together. False where there are none. */
bool release_at(const struct loaded *loaded, size_t state, struct reason *release);

/* The whole sentence of `pachallu why`, with no new line. */
void put_reason(struct sink *out, const struct rule *rule, const struct reason *reason);
/* Of a store: " foresight", the codes that are waited for, at most so many of them. */
void put_wait(struct sink *out, const struct rule *rule, const struct reason *reason, size_t most);
/* Of a halt: "pair 0, which wants one of: between"; or all pairs together. */
void put_lost(struct sink *out, const struct rule *rule, const struct reason *reason);

#endif
