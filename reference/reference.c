/*
 * Document 01 in plain C, section by section, one coalition at a time, with the days of document 02, K2, the test of a
 * coalition of K3, the quorums of K4 and the gap of K6. Meant to be seen to be right, not to be fast. A refusal is its
 * number; 0 says that there is none.
 */
#include "reference.h"

#include "numbers.h"
#include "shared.h"

#include <stdbool.h>
#include <string.h>

/* ---- Terms ---- */

struct term term_at(const uint8_t *codes, size_t length)
{
    struct term term = {codes, length};
    return term;
}

bool quorate(unsigned k, unsigned m)
{
    return 1 <= k && k <= m && m <= PARTS;
}

static unsigned read_part(unsigned n, struct term term, size_t *at);

/* Reads the rest of a quorum: k, m and m terms. That k is out of range is said where m stands. */
static unsigned read_quorum(unsigned n, struct term term, size_t *at)
{
    if (term.length - *at < 2)
        return 3;
    uint8_t k = term.codes[(*at)++];
    uint8_t m = term.codes[(*at)++];
    if (!quorate(k, m))
        return 2;
    unsigned refusal = 0;
    for (unsigned part = 0; part < m && !refusal; part++)
        refusal = read_part(n, term, at);
    return refusal;
}

/* Reads one term from place *at on, and moves *at behind it. */
static unsigned read_part(unsigned n, struct term term, size_t *at)
{
    if (*at == term.length)
        return 3;
    uint8_t code = term.codes[(*at)++];
    unsigned refusal;
    switch (code) {
    case STRONGEST:
    case WEAKEST:
        return 0;
    case BOTH:
    case EITHER:
        refusal = read_part(n, term, at);
        return refusal ? refusal : read_part(n, term, at);
    case QUORUM:
        return read_quorum(n, term, at);
    case SEE_OF:
    case CHANGE_OF:
        return read_part(n, term, at);
    default: /* a name, since n is at most NAMES, or no code */
        return code < n ? 0 : 2;
    }
}

static bool term_length(size_t length)
{
    return length >= 1 && length <= CODES;
}

unsigned read_term(unsigned n, struct term term)
{
    if (!term_length(term.length))
        return 1;
    size_t at = 0;
    unsigned refusal = read_part(n, term, &at);
    if (refusal)
        return refusal;
    return at < term.length ? 4 : 0;
}

static bool part_held(const uint8_t **next, enum side side, unsigned coalition);

/* Are at least k of the m parts held? Reads k, m and the parts from *next on, as part_held does. */
static bool quorum_held(const uint8_t **next, enum side side, unsigned coalition)
{
    unsigned k = *(*next)++, m = *(*next)++, count = 0;
    for (unsigned part = 0; part < m; part++)
        if (part_held(next, side, coalition))
            count++;
    return count >= k;
}

/* Is the term that starts at *next held? Moves *next behind it. */
static bool part_held(const uint8_t **next, enum side side, unsigned coalition)
{
    uint8_t code = *(*next)++;
    bool first, second;
    switch (code) {
    case STRONGEST:
        return false;
    case WEAKEST:
        return true;
    case BOTH:
        first = part_held(next, side, coalition);
        second = part_held(next, side, coalition);
        return first && second;
    case EITHER:
        first = part_held(next, side, coalition);
        second = part_held(next, side, coalition);
        return first || second;
    case QUORUM:
        return quorum_held(next, side, coalition);
    case SEE_OF:
        first = part_held(next, side, coalition);
        return side == SEE ? first : true;
    case CHANGE_OF:
        first = part_held(next, side, coalition);
        return side == CHANGE ? first : true;
    default:
        return coalition >> code & 1;
    }
}

bool held(struct term term, enum side side, unsigned coalition)
{
    const uint8_t *next = term.codes;
    return part_held(&next, side, coalition);
}

unsigned coalitions(unsigned n)
{
    return 1u << n;
}

static bool acts_for_statically(unsigned n, struct term p, struct term q)
{
    for (enum side side = SEE; side <= CHANGE; side++)
        for (unsigned c = 0; c < coalitions(n); c++)
            if (held(p, side, c) && !held(q, side, c))
                return false;
    return true;
}

/* ---- Grants that count ---- */

struct grants {
    unsigned n;
    size_t count;
    struct grant grant[GRANTS];
};

static bool visible(unsigned n, struct term d, struct term label)
{
    for (unsigned c = 0; c < coalitions(n); c++) {
        if (held(label, SEE, c) && !held(d, SEE, c))
            return false;
        if (held(d, CHANGE, c) && !held(label, CHANGE, c))
            return false;
    }
    return true;
}

/* Is a coalition marked that has the members of c and one more? */
static bool one_more_marked(unsigned n, const bool *marks, unsigned c)
{
    for (unsigned name = 0; name < n; name++)
        if (!(c >> name & 1) && marks[c | 1u << name])
            return true;
    return false;
}

/* Marks who doesn't hold the gap of p and q on the side: some coalition that contains it, perhaps itself, holds p there
 * and not q. Those with one more have higher numbers and are marked before. */
static void mark_lacking_gap(unsigned n, const struct grant *grant, enum side side, bool *lacks)
{
    for (unsigned c = coalitions(n); c-- > 0;)
        lacks[c] = one_more_marked(n, lacks, c) || breaks(grant, side, c);
}

/* Does every coalition that holds the label on the change side hold the gap on both? */
static bool spoken(unsigned n, const struct grant *grant)
{
    bool lacks[2][1 << NAMES];
    mark_lacking_gap(n, grant, SEE, lacks[SEE]);
    mark_lacking_gap(n, grant, CHANGE, lacks[CHANGE]);
    for (unsigned c = 0; c < coalitions(n); c++)
        if (held(grant->label, CHANGE, c) && (lacks[SEE][c] || lacks[CHANGE][c]))
            return false;
    return true;
}

static bool in_its_days(const struct grant *grant, uint32_t day)
{
    return (grant->first == 0 || grant->first <= day) && (grant->last == 0 || day <= grant->last);
}

bool counts(unsigned n, const struct grant *grant, const struct under *under)
{
    return in_its_days(grant, under->day) && visible(n, grant->label, under->label) && spoken(n, grant);
}

/* Leaves only the grants that count. */
static void keep_counting(struct grants *grants, const struct under *under)
{
    size_t kept = 0;
    for (size_t i = 0; i < grants->count; i++)
        if (counts(grants->n, &grants->grant[i], under))
            grants->grant[kept++] = grants->grant[i];
    grants->count = kept;
}

bool breaks(const struct grant *grant, enum side side, unsigned coalition)
{
    return held(grant->p, side, coalition) && !held(grant->q, side, coalition);
}

static bool sound(const struct grants *counting, enum side side, unsigned coalition)
{
    for (size_t i = 0; i < counting->count; i++)
        if (breaks(&counting->grant[i], side, coalition))
            return false;
    return true;
}

/* ---- The ledger ---- */

static unsigned two_bytes(const uint8_t *bytes)
{
    return bytes[0] * 256u + bytes[1];
}

static uint32_t four_bytes(const uint8_t *bytes)
{
    return (uint32_t)two_bytes(bytes) * 65536 + two_bytes(bytes + 2);
}

/* Are bytes `from` to `end` - 1 all 00? */
static bool zeros(const uint8_t *bytes, size_t from, size_t end)
{
    for (size_t i = from; i < end; i++)
        if (bytes[i] != 0)
            return false;
    return true;
}

unsigned check_of(const uint8_t *block)
{
    uint32_t sum = 0; /* at most 510 x 511 / 2 x 255 */
    for (uint32_t i = 0; i < 510; i++)
        sum += (i + 1) * block[i];
    return sum % 65521;
}

static bool check_holds(const uint8_t *block)
{
    return two_bytes(block + 510) == check_of(block);
}

static bool header_formed(const uint8_t *block, size_t grants)
{
    return block[0] == 1 && block[1] >= 1 && block[1] <= NAMES && two_bytes(block + 2) == grants
        && zeros(block, 4, 510);
}

static bool grant_formed(const uint8_t *block)
{
    return block[0] == 2 && term_length(block[1]) && term_length(block[2]) && term_length(block[3])
        && zeros(block, 4, 16) && zeros(block, 16u + block[1], 80) && zeros(block, 80u + block[2], 144)
        && zeros(block, 144u + block[3], 208) && zeros(block, 216, 510);
}

static bool edge_formed(uint32_t edge)
{
    return edge == 0 || real_date(edge);
}

static unsigned read_grant(unsigned n, const uint8_t *block, struct grant *grant)
{
    if (!grant_formed(block))
        return 13;
    grant->p = term_at(block + 16, block[1]);
    grant->q = term_at(block + 80, block[2]);
    grant->label = term_at(block + 144, block[3]);
    if (read_term(n, grant->p) || read_term(n, grant->q) || read_term(n, grant->label))
        return 14;
    grant->first = four_bytes(block + 208);
    grant->last = four_bytes(block + 212);
    if (!edge_formed(grant->first) || !edge_formed(grant->last))
        return 84;
    if (grant->first != 0 && grant->last != 0 && grant->first > grant->last)
        return 85;
    return 0;
}

unsigned read_block(unsigned n, const uint8_t *block, size_t length, struct grant *grant)
{
    if (length != BLOCK)
        return 10;
    return check_holds(block) ? read_grant(n, block, grant) : 11;
}

static unsigned read_ledger(const uint8_t *ledger, size_t length, struct grants *grants)
{
    if (length % BLOCK != 0 || length < BLOCK || length > LEDGER_MOST)
        return 10;
    for (size_t at = 0; at < length; at += BLOCK)
        if (!check_holds(ledger + at))
            return 11;
    size_t count = length / BLOCK - 1;
    if (!header_formed(ledger, count))
        return 12;
    grants->n = ledger[1];
    grants->count = count;
    for (size_t i = 0; i < count; i++) {
        unsigned refusal = read_grant(grants->n, ledger + BLOCK * (i + 1), &grants->grant[i]);
        if (refusal)
            return refusal;
    }
    return 0;
}

/* ---- Numbers for C ---- */

uint32_t written(size_t length)
{
    return YES * PER_KIND + (uint32_t)length;
}

static uint32_t yes(void)
{
    return written(0);
}

static uint32_t no(enum side side, unsigned coalition)
{
    return NO * PER_KIND + (uint32_t)side * PER_SIDE + coalition;
}

static uint32_t refused_at(size_t step, unsigned refusal)
{
    return REFUSED * PER_KIND + (uint32_t)step * PER_STEP + refusal;
}

uint32_t refused(unsigned refusal)
{
    return refused_at(0, refusal);
}

/* ---- Questions ---- */

static unsigned read_day(uint32_t day)
{
    return real_date(day) ? 0 : 86;
}

unsigned read_from(unsigned base, unsigned n, struct term term)
{
    unsigned refusal = read_term(n, term);
    return refusal ? base + refusal : 0;
}

static unsigned read_question(const uint8_t *ledger, size_t ledger_len, struct term p, struct term q,
                              const struct under *under, struct grants *grants)
{
    unsigned refusal = read_day(under->day);
    if (!refusal)
        refusal = read_ledger(ledger, ledger_len, grants);
    if (!refusal)
        refusal = read_from(20, grants->n, p);
    if (!refusal)
        refusal = read_from(30, grants->n, q);
    if (!refusal)
        refusal = read_from(40, grants->n, under->label);
    return refusal;
}

/* The same without p and q, for other calls. */
static unsigned read_under(const uint8_t *ledger, size_t ledger_len, const struct under *under, struct grants *grants)
{
    unsigned refusal = read_day(under->day);
    if (!refusal)
        refusal = read_ledger(ledger, ledger_len, grants);
    if (!refusal)
        refusal = read_from(40, grants->n, under->label);
    return refusal;
}

/* On each side, does every sound coalition that holds that side's `from` hold its `to`? Soundness is asked
 * last, being the most work. */
static uint32_t judge(const struct grants *counting, const struct term from[2], const struct term to[2])
{
    for (enum side side = SEE; side <= CHANGE; side++)
        for (unsigned c = 0; c < coalitions(counting->n); c++)
            if (held(from[side], side, c) && !held(to[side], side, c) && sound(counting, side, c))
                return no(side, c);
    return yes();
}

/* Acts-for, or flows-to, which asks the other way round on the see side. */
static uint32_t ask(bool flows, const uint8_t *ledger, size_t ledger_len, struct term p, struct term q,
                    struct under under)
{
    struct grants grants;
    unsigned refusal = read_question(ledger, ledger_len, p, q, &under, &grants);
    if (refusal)
        return refused(refusal);
    keep_counting(&grants, &under);
    const struct term from[2] = {flows ? q : p, p}, to[2] = {flows ? p : q, q};
    return judge(&grants, from, to);
}

uint32_t reference_acts_for(const uint8_t *ledger, size_t ledger_len, const uint8_t *p, size_t p_len,
                            const uint8_t *q, size_t q_len, const uint8_t *label, size_t label_len,
                            uint32_t day)
{
    struct under under = {term_at(label, label_len), day};
    return ask(false, ledger, ledger_len, term_at(p, p_len), term_at(q, q_len), under);
}

uint32_t reference_flows_to(const uint8_t *ledger, size_t ledger_len, const uint8_t *p, size_t p_len,
                            const uint8_t *q, size_t q_len, const uint8_t *label, size_t label_len,
                            uint32_t day)
{
    struct under under = {term_at(label, label_len), day};
    return ask(true, ledger, ledger_len, term_at(p, p_len), term_at(q, q_len), under);
}

/* ---- Extract ---- */

static void write_extract(const struct grants *counting, uint8_t *buffer)
{
    memset(buffer, 0, EXTRACT_SIZE);
    for (enum side side = SEE; side <= CHANGE; side++)
        for (unsigned c = 0; c < coalitions(counting->n); c++)
            if (sound(counting, side, c))
                buffer[512 * (unsigned)side + c / 8] |= (uint8_t)(1u << c % 8);
}

uint32_t reference_extract(const uint8_t *ledger, size_t ledger_len, const uint8_t *label, size_t label_len,
                           uint32_t day, uint8_t *buffer, size_t buffer_len)
{
    struct grants grants;
    struct under under = {term_at(label, label_len), day};
    unsigned refusal = read_day(day);
    if (!refusal && buffer_len != EXTRACT_SIZE)
        refusal = 51;
    if (!refusal)
        refusal = read_ledger(ledger, ledger_len, &grants);
    if (!refusal)
        refusal = read_from(40, grants.n, under.label);
    if (refusal)
        return refused(refusal);
    keep_counting(&grants, &under);
    write_extract(&grants, buffer);
    return yes();
}

/* ---- Test of a coalition ---- */

/* As `sound`, with the number of grants tested: up to and with the first that the coalition breaks, or all. */
static uint32_t test(const struct grants *counting, enum side side, unsigned coalition)
{
    for (uint32_t i = 0; i < counting->count; i++)
        if (breaks(&counting->grant[i], side, coalition))
            return NO * PER_KIND + i + 1;
    return YES * PER_KIND + (uint32_t)counting->count;
}

uint32_t reference_test_coalition(const uint8_t *ledger, size_t ledger_len, const uint8_t *label, size_t label_len,
                                  uint32_t day, uint32_t side, uint32_t coalition)
{
    struct grants grants;
    struct under under = {term_at(label, label_len), day};
    unsigned refusal = read_under(ledger, ledger_len, &under, &grants);
    if (refusal)
        return refused(refusal);
    keep_counting(&grants, &under);
    return test(&grants, side == 0 ? SEE : CHANGE, coalition);
}

/* ---- Short form ---- */

/* Does some proper subset of c hold the term? b runs through the subsets of c, downwards. */
static bool proper_subset_holds(const bool *holds, unsigned c)
{
    for (unsigned b = c; b != 0;) {
        b = (b - 1) & c;
        if (holds[b])
            return true;
    }
    return false;
}

size_t put_two_bytes(uint8_t *buffer, size_t at, unsigned value)
{
    buffer[at] = (uint8_t)(value / 256);
    buffer[at + 1] = (uint8_t)(value % 256);
    return at + 2;
}

/* Writes one side's count and minimal coalitions from place `at` on, and gives the place behind them. */
static size_t write_minimal(unsigned n, struct term term, enum side side, uint8_t *buffer, size_t at)
{
    bool holds[1 << NAMES];
    unsigned count = 0;
    size_t end = at + 2;
    for (unsigned c = 0; c < coalitions(n); c++)
        holds[c] = held(term, side, c);
    for (unsigned c = 0; c < coalitions(n); c++)
        if (holds[c] && !proper_subset_holds(holds, c)) {
            end = put_two_bytes(buffer, end, c);
            count++;
        }
    put_two_bytes(buffer, at, count);
    return end;
}

uint32_t reference_short_form(uint64_t n, const uint8_t *term, size_t term_len, uint8_t *buffer, size_t buffer_len)
{
    if (n < 1 || n > NAMES)
        return refused(7);
    if (buffer_len < SHORT_FORM_LEAST)
        return refused(8);
    unsigned names = (unsigned)n;
    struct term t = term_at(term, term_len);
    unsigned refusal = read_term(names, t);
    if (refusal)
        return refused(refusal);
    size_t end = write_minimal(names, t, SEE, buffer, 0);
    return written(write_minimal(names, t, CHANGE, buffer, end));
}

/* ---- Derivations ---- */

static const uint8_t *step_at(const uint8_t *derivation, size_t step)
{
    return derivation + STEP * step;
}

static struct term left_of(const uint8_t *step)
{
    return term_at(step + 8, step[4]);
}

static struct term right_of(const uint8_t *step)
{
    return term_at(step + 72, step[5]);
}

static bool uses_first_premise(unsigned rule)
{
    return rule >= 3 && rule <= 7;
}

static bool uses_second_premise(unsigned rule)
{
    return rule >= 3 && rule <= 5;
}

static bool uses_grant(unsigned rule)
{
    return rule == 2;
}

static bool step_formed(const uint8_t *step)
{
    unsigned rule = step[0];
    return rule >= 1 && rule <= 7
        && (uses_first_premise(rule) || step[1] == 0)
        && (uses_second_premise(rule) || step[2] == 0)
        && (uses_grant(rule) || step[3] == 0)
        && zeros(step, 6, 8) && zeros(step, 8u + step[4], 72) && zeros(step, 72u + step[5], STEP);
}

static bool same(struct term a, struct term b)
{
    return a.length == b.length && memcmp(a.codes, b.codes, a.length) == 0;
}

/* Is the term `code`, then the term a? */
static bool is_prefixed(struct term term, uint8_t code, struct term a)
{
    return term.length == 1 + a.length && term.codes[0] == code && same(term_at(term.codes + 1, a.length), a);
}

/* Is the term `code`, then the terms a and b? */
static bool is_joined(struct term term, uint8_t code, struct term a, struct term b)
{
    return term.length == 1 + a.length + b.length && term.codes[0] == code
        && same(term_at(term.codes + 1, a.length), a)
        && same(term_at(term.codes + 1 + a.length, b.length), b);
}

/* The premises are earlier steps, so that their terms are in order. */
static bool meets_rule(const uint8_t *derivation, const uint8_t *step, const struct grants *grants)
{
    struct term p = left_of(step), q = right_of(step);
    const uint8_t *a = step_at(derivation, step[1]), *b = step_at(derivation, step[2]);
    switch (step[0]) {
    case 1:
        return acts_for_statically(grants->n, p, q);
    case 2:
        return same(p, grants->grant[step[3]].p) && same(q, grants->grant[step[3]].q);
    case 3:
        return same(left_of(a), p) && same(right_of(a), left_of(b)) && same(right_of(b), q);
    case 4:
        return is_joined(q, BOTH, right_of(a), right_of(b)) && same(left_of(a), p) && same(left_of(b), p);
    case 5:
        return is_joined(p, EITHER, left_of(a), left_of(b)) && same(right_of(a), q) && same(right_of(b), q);
    case 6:
        return is_prefixed(p, SEE_OF, left_of(a)) && is_prefixed(q, SEE_OF, right_of(a));
    default:
        return is_prefixed(p, CHANGE_OF, left_of(a)) && is_prefixed(q, CHANGE_OF, right_of(a));
    }
}

static unsigned check_step(const uint8_t *derivation, size_t number, const struct grants *grants,
                           const struct under *under)
{
    const uint8_t *step = step_at(derivation, number);
    if (!step_formed(step))
        return 61;
    if (read_term(grants->n, left_of(step)))
        return 62;
    if (read_term(grants->n, right_of(step)))
        return 63;
    if (uses_first_premise(step[0]) && step[1] >= number)
        return 64;
    if (uses_second_premise(step[0]) && step[2] >= number)
        return 64;
    if (uses_grant(step[0]) && step[3] >= grants->count)
        return 65;
    if (uses_grant(step[0]) && !counts(grants->n, &grants->grant[step[3]], under))
        return 66;
    if (!meets_rule(derivation, step, grants))
        return 67;
    return 0;
}

uint32_t reference_check_derivation(const uint8_t *derivation, size_t derivation_len,
                                    const uint8_t *ledger, size_t ledger_len,
                                    const uint8_t *label, size_t label_len, uint32_t day)
{
    struct grants grants;
    struct under under = {term_at(label, label_len), day};
    unsigned refusal = read_under(ledger, ledger_len, &under, &grants);
    if (!refusal && (derivation_len % STEP != 0 || derivation_len < STEP || derivation_len > DERIVATION_MOST))
        refusal = 60;
    if (refusal)
        return refused(refusal);
    for (size_t k = 0; k < derivation_len / STEP; k++) {
        refusal = check_step(derivation, k, &grants, &under);
        if (refusal)
            return refused_at(k, refusal);
    }
    return yes();
}

struct reference_part reference_quote(const uint8_t *derivation, size_t derivation_len,
                                      const uint8_t *ledger, size_t ledger_len,
                                      const uint8_t *label, size_t label_len, uint32_t day, uint64_t step)
{
    struct reference_part part = {0, 0};
    if (reference_check_derivation(derivation, derivation_len, ledger, ledger_len, label, label_len, day) != yes())
        return part;
    if (step >= derivation_len / STEP)
        return part;
    const uint8_t *named = step_at(derivation, (size_t)step);
    if (named[0] != 2)
        return part;
    part.offset = BLOCK * ((size_t)named[3] + 1);
    part.length = BLOCK;
    return part;
}
