#include "build.h"

#include <string.h>

void put_code(struct term *term, unsigned code)
{
    if (term->length < TERM_ROOM)
        term->codes[term->length++] = (uint8_t)code;
}

void put_codes(struct term *term, unsigned code, unsigned times)
{
    while (times-- > 0)
        put_code(term, code);
}

void put_term(struct term *term, const struct term *part)
{
    for (size_t i = 0; i < part->length; i++)
        put_code(term, part->codes[i]);
}

void put_quorum(struct term *term, unsigned k, unsigned m)
{
    put_code(term, QUORUM);
    put_code(term, k);
    put_code(term, m);
}

struct term term_of(const uint8_t *codes, size_t length)
{
    struct term term = {0};
    for (size_t i = 0; i < length; i++)
        put_code(&term, codes[i]);
    return term;
}

struct term one_code(unsigned code)
{
    struct term term = {0};
    put_code(&term, code);
    return term;
}

struct term prefixed(unsigned code, const struct term *part)
{
    struct term term = one_code(code);
    put_term(&term, part);
    return term;
}

struct term joined(unsigned code, const struct term *a, const struct term *b)
{
    struct term term = prefixed(code, a);
    put_term(&term, b);
    return term;
}

static size_t put_part(struct term *to, const struct term *term, size_t at, unsigned side);

/* Leaves the part at a place out; gives the place behind it. */
static size_t skip_part(const struct term *term, size_t at)
{
    struct term dropped = {0};
    return put_part(&dropped, term, at, SEE_OF);
}

static size_t put_parts(struct term *to, const struct term *term, size_t at, unsigned side, unsigned parts)
{
    for (; parts > 0; parts--)
        at = put_part(to, term, at, side);
    return at;
}

/* Puts the part at a place as it is held on one side; gives the place behind it. */
static size_t put_part(struct term *to, const struct term *term, size_t at, unsigned side)
{
    uint8_t code = term->codes[at++];
    if (code == BOTH || code == EITHER) {
        put_code(to, code);
        return put_parts(to, term, at, side, 2);
    }
    if (code == QUORUM) {
        unsigned k = term->codes[at], m = term->codes[at + 1];
        put_quorum(to, k, m);
        return put_parts(to, term, at + 2, side, m);
    }
    if (code == side)
        return put_part(to, term, at, side);
    if (code == SEE_OF || code == CHANGE_OF) {
        put_code(to, WEAKEST);
        return skip_part(term, at);
    }
    put_code(to, code);
    return at;
}

void put_one_side(struct term *term, const struct term *part, unsigned side)
{
    put_part(term, part, 0, side);
}

struct term speaking_for(const struct term *term)
{
    struct term label = one_code(CHANGE_OF);
    put_code(&label, BOTH);
    put_one_side(&label, term, SEE_OF);
    put_one_side(&label, term, CHANGE_OF);
    return label;
}

struct term in_brackets(const struct term *text)
{
    struct term longer = prefixed('(', text);
    put_code(&longer, ')');
    return longer;
}

static void put_two_bytes(uint8_t *bytes, unsigned value)
{
    bytes[0] = (uint8_t)(value >> 8);
    bytes[1] = (uint8_t)value;
}

void seal(uint8_t *block)
{
    uint32_t sum = 0;
    for (uint32_t i = 0; i < 510; i++)
        sum += (i + 1) * block[i];
    put_two_bytes(block + 510, sum % 65521);
}

void start_ledger(struct ledger *ledger, unsigned n)
{
    ledger->length = BLOCK;
    memset(ledger->bytes, 0, BLOCK);
    ledger->bytes[0] = 1;
    ledger->bytes[1] = (uint8_t)n;
    seal(ledger->bytes);
}

size_t grant_count(const struct ledger *ledger)
{
    return ledger->length / BLOCK - 1;
}

uint8_t *block_of(struct ledger *ledger, size_t block)
{
    return ledger->bytes + BLOCK * block;
}

void add_grant(struct ledger *ledger, const struct term *p, const struct term *q, const struct term *label)
{
    uint8_t *block = ledger->bytes + ledger->length;
    memset(block, 0, BLOCK);
    block[0] = 2;
    block[1] = (uint8_t)p->length;
    block[2] = (uint8_t)q->length;
    block[3] = (uint8_t)label->length;
    memcpy(block + 16, p->codes, p->length);
    memcpy(block + 80, q->codes, q->length);
    memcpy(block + 144, label->codes, label->length);
    seal(block);
    ledger->length += BLOCK;
    put_two_bytes(ledger->bytes + 2, (unsigned)grant_count(ledger));
    seal(ledger->bytes);
}

static void put_four_bytes(uint8_t *bytes, uint32_t value)
{
    put_two_bytes(bytes, value >> 16);
    put_two_bytes(bytes + 2, value);
}

void put_days(uint8_t *block, uint32_t first, uint32_t last)
{
    put_four_bytes(block + 208, first);
    put_four_bytes(block + 212, last);
    seal(block);
}

struct term term_of_block(const uint8_t *block, unsigned which)
{
    return term_of(block + 16 + 64 * which, block[1 + which]);
}

struct term term_of_grant(const struct ledger *ledger, size_t grant, unsigned which)
{
    return term_of_block(ledger->bytes + BLOCK * (grant + 1), which);
}

void add_step(struct derivation *derivation, unsigned rule, unsigned first, unsigned second, unsigned grant,
              const struct term *p, const struct term *q)
{
    uint8_t *step = derivation->bytes + derivation->length;
    memset(step, 0, STEP);
    step[0] = (uint8_t)rule;
    step[1] = (uint8_t)first;
    step[2] = (uint8_t)second;
    step[3] = (uint8_t)grant;
    step[4] = (uint8_t)p->length;
    step[5] = (uint8_t)q->length;
    memcpy(step + 8, p->codes, p->length);
    memcpy(step + 72, q->codes, q->length);
    derivation->length += STEP;
}

size_t step_count(const struct derivation *derivation)
{
    return derivation->length / STEP;
}

uint8_t *step_of(struct derivation *derivation, size_t step)
{
    return derivation->bytes + STEP * step;
}

struct term left_of(const struct derivation *derivation, size_t step)
{
    const uint8_t *bytes = derivation->bytes + STEP * step;
    return term_of(bytes + 8, bytes[4]);
}

struct term right_of(const struct derivation *derivation, size_t step)
{
    const uint8_t *bytes = derivation->bytes + STEP * step;
    return term_of(bytes + 72, bytes[5]);
}
