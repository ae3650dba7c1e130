/*
 * How often each operation gave each kind of answer and each refusal of documents 01 and 02, and an answer that is no
 * refusal on a quorum, or by a grant that is spoken by the gap alone.
 */
#ifndef COVERAGE_H
#define COVERAGE_H

#include "calls.h"

#include <stdio.h>

struct coverage {
    unsigned long yes[EVERY_OPERATION]; /* of quoting: a part; of adding days: a date; of a test: sound */
    /* by side; of quoting the first: an empty part; of a test: broken by the first grant tested, or by a later one */
    unsigned long no[EVERY_OPERATION][2];
    unsigned long refused[EVERY_OPERATION][256];
    unsigned long with_quorum[EVERY_OPERATION]; /* not refused; of quoting: a part */
    /* the same, of few names: a grant counts whose p lacks a part of q, and whose label doesn't speak for all of q */
    unsigned long by_gap[EVERY_OPERATION];
};

/* Is this the number of a refusal, of any operation that C calls? */
bool is_refusal(unsigned number);

/* Of a good grant's block: doesn't its label speak for all of q, as it had to before K6? Where that is too long to ask
 * it is taken to do so. */
bool lacks_voice(unsigned n, const uint8_t *block);

/* Counts the answer that a call gave, any but quoting. */
void count_answer(struct coverage *coverage, const struct call *call, uint32_t number);

void count_quote(struct coverage *coverage, const struct call *call, size_t length);

/* Prints a line for each of these operations, and gives how many answers that the documents have for them were
 * never met; these are named. */
unsigned print_coverage(const struct coverage *coverage, const enum operation *operations, unsigned count, FILE *to);

#endif
