/*
 * Random lists of calls on a live ledger, the same for the same seed on every machine. A list makes one, now and then
 * again, adds good, damaged and equal blocks, withdraws at good and bad positions, and asks.
 */
#ifndef RANDOM_LIVE_H
#define RANDOM_LIVE_H

#include "random_parts.h"

/* What the calls of a list have in common. */
struct random_list {
    unsigned n, calls;
    bool fills;       /* adds until no more go in */
    bool twins;       /* once a grant is held, adds only blocks of those held */
    struct days days; /* at which grants begin or end, and of which one is mostly the live ledger's day */
};

struct random_list random_list(struct source *source);

/* The next call of a list, on what the calls before made; null if none was made yet. A question has also the written
 * ledger, the label and the day, so that it can be put to that ledger. */
void random_live_call(struct source *source, const struct random_list *list, const struct live *live,
                      struct call *call);

#endif
