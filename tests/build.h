/*
 * Terms, ledgers and derivations of document 01, put together piece by piece, and texts of document 02, which stand
 * where a term does, a character for a code. There is room for more than a call accepts, since tests need that too.
 */
#ifndef BUILD_H
#define BUILD_H

#include "numbers.h"

#include <stddef.h>
#include <stdint.h>

enum {
    TERM_ROOM = 400,
    LEDGER_ROOM = 67 * BLOCK,
    DERIVATION_ROOM = 66 * STEP
};

struct term {
    size_t length;
    uint8_t codes[TERM_ROOM];
};

struct ledger {
    size_t length;
    uint8_t bytes[LEDGER_ROOM];
};

struct derivation {
    size_t length;
    uint8_t bytes[DERIVATION_ROOM];
};

/* One more code; the same code so many times; one more term; a quorum's code, k and m. A term that is full stays as it
 * is. */
void put_code(struct term *term, unsigned code);
void put_codes(struct term *term, unsigned code, unsigned times);
void put_term(struct term *term, const struct term *part);
void put_quorum(struct term *term, unsigned k, unsigned m);

/* A term of these codes; of one code; a code and then one term; a code and then two. */
struct term term_of(const uint8_t *codes, size_t length);
struct term one_code(unsigned code);
struct term prefixed(unsigned code, const struct term *part);
struct term joined(unsigned code, const struct term *a, const struct term *b);

/* Puts a good term as it is held on one side, SEE_OF or CHANGE_OF, without projections. */
void put_one_side(struct term *term, const struct term *part, unsigned side);

/* A label that is held on the see side always, and on the change side where the good term is held on both. */
struct term speaking_for(const struct term *term);

/* A text in brackets. */
struct term in_brackets(const struct term *text);

/* Block 0 of a ledger without grants; then one more grant without days, its terms of at most 64 codes. The checks and
 * the count are always right. */
void start_ledger(struct ledger *ledger, unsigned n);
void add_grant(struct ledger *ledger, const struct term *p, const struct term *q, const struct term *label);

size_t grant_count(const struct ledger *ledger);
uint8_t *block_of(struct ledger *ledger, size_t block);

/* The first and last day of a grant's block, with the check made right. */
void put_days(uint8_t *block, uint32_t first, uint32_t last);

/* Makes the check of a block right. */
void seal(uint8_t *block);

/* Term 0, 1 or 2 (p, q, the label) of a grant's block; of a grant. */
struct term term_of_block(const uint8_t *block, unsigned which);
struct term term_of_grant(const struct ledger *ledger, size_t grant, unsigned which);

/* One more step, its terms of at most 64 codes. */
void add_step(struct derivation *derivation, unsigned rule, unsigned first, unsigned second, unsigned grant,
              const struct term *p, const struct term *q);

size_t step_count(const struct derivation *derivation);
uint8_t *step_of(struct derivation *derivation, size_t step);

/* p and q of a step. */
struct term left_of(const struct derivation *derivation, size_t step);
struct term right_of(const struct derivation *derivation, size_t step);

#endif
