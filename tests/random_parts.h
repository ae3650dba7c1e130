/*
 * Random parts of calls, good and damaged, from which random_calls.c and random_live.c make whole ones.
 */
#ifndef RANDOM_PARTS_H
#define RANDOM_PARTS_H

#include "random_calls.h"

/* ---- Numbers ---- */

bool one_in(struct source *source, unsigned k);

/* Both ends inside. */
unsigned between(struct source *source, unsigned low, unsigned high);

uint8_t any_byte(struct source *source);
uint8_t nonzero_byte(struct source *source);

/* Mostly few names, since the work grows as 2^n. */
unsigned random_names(struct source *source);

/* ---- Dates ---- */

/* A day and the next one. */
struct days {
    uint32_t day, next;
};

/* Mostly where a month ends, or a year, or the dates. */
struct days random_days(struct source *source);

uint32_t one_of(struct source *source, const struct days *days);

/* Mostly not real. */
uint32_t doubtful_date(struct source *source);

/* ---- Grants ---- */

void add_random_grant(struct source *source, struct ledger *ledger, unsigned n);

/* Days in their order, for a grant's block, many beginning or ending at one of these two. */
void put_random_days(struct source *source, uint8_t *block, const struct days *days);

/* Another kind, length, filler, term or day, with the check made right; may leave the block good. */
void damage_grant(struct source *source, uint8_t *block, unsigned n);

/* The same check once more, where it fits: a number that is right only modulo 65,521. */
void damage_check(uint8_t *block);

/* ---- Calls ---- */

/* No terms, no bytes, no day and no number. */
void clear_call(struct call *call);

struct term random_label(struct source *source, const struct ledger *ledger, unsigned n);

/* p and q of a call, on the grants of its ledger. */
void random_question(struct source *source, struct call *call, unsigned n);

/* Now and then no term, or another number of names. */
void maybe_damage_term(struct source *source, struct term *term, unsigned n);
void maybe_spoil_names(struct source *source, struct call *call);

#endif
