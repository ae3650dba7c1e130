/*
 * What the files of the reference share: a term, its reader and where it is held, the range of a quorum, real dates,
 * grants and which of them count, blocks, and the numbers of answers.
 */
#ifndef SHARED_H
#define SHARED_H

#include "numbers.h"

#include <stdbool.h>
#include <stddef.h>
#include <stdint.h>

/* ---- Terms ---- */

struct term {
    const uint8_t *codes;
    size_t length;
};

struct term term_at(const uint8_t *codes, size_t length);

/* Why codes are no term of a job of n names: 1 to 4, or these counted from a base; 0 if they are one. */
unsigned read_term(unsigned n, struct term term);
unsigned read_from(unsigned base, unsigned n, struct term term);

/* May a quorum be k of m? */
bool quorate(unsigned k, unsigned m);

/* Is the term held at the coalition, on the side? */
bool held(struct term term, enum side side, unsigned coalition);

/* How many coalitions n names have. */
unsigned coalitions(unsigned n);

/* ---- Dates ---- */

/* Is the number a date of the Gregorian calendar, of the years 1900 to 2199? 0 is not. */
bool real_date(uint32_t number);

/* ---- Grants ---- */

struct grant {
    struct term p, q, label;
    uint32_t first, last; /* its days; 0 where there is no edge on that end */
};

/* What a call is asked under and on. */
struct under {
    struct term label;
    uint32_t day;
};

/* Does the grant count? Does the coalition hold its p on the side, and not its q? */
bool counts(unsigned n, const struct grant *grant, const struct under *under);
bool breaks(const struct grant *grant, enum side side, unsigned coalition);

/* ---- Blocks ---- */

/* Why a block is no grant of a job of n names: 10, 11, 13, 14, 84 or 85; 0 if it is one. Its terms are parts of the
 * block. */
unsigned read_block(unsigned n, const uint8_t *block, size_t length, struct grant *grant);

/* What the check of a block must be. */
unsigned check_of(const uint8_t *block);

/* Writes a number at a place of a buffer, and gives the place behind it. */
size_t put_two_bytes(uint8_t *buffer, size_t at, unsigned value);

/* ---- Answers ---- */

/* The numbers of two answers. */
uint32_t written(size_t length);
uint32_t refused(unsigned refusal);

#endif
