/*
 * Random calls, the same for the same seed on every machine: good, damaged and hostile ledgers, labels, days,
 * terms, texts, buffers, derivations and coalitions, of all n and all refusals.
 */
#ifndef RANDOM_CALLS_H
#define RANDOM_CALLS_H

#include "calls.h"

struct source {
    uint64_t state;
};

/* A random number below `end`, which is at least 1. */
unsigned below(struct source *source, unsigned end);

/* A random call of this operation. */
void random_call(struct source *source, enum operation operation, struct call *call);

#endif
