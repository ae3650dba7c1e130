#include "coverage.h"

#include "reference.h"

#include <string.h>

/* The refusals of each operation, as the documents list them; 0 ends a list. */
static const uint8_t refusals[EVERY_OPERATION][24] = {
    [ACTS_FOR] = {86, 10, 11, 12, 13, 14, 84, 85, 21, 22, 23, 24, 31, 32, 33, 34, 41, 42, 43, 44},
    [FLOWS_TO] = {86, 10, 11, 12, 13, 14, 84, 85, 21, 22, 23, 24, 31, 32, 33, 34, 41, 42, 43, 44},
    [EXTRACT] = {86, 51, 10, 11, 12, 13, 14, 84, 85, 41, 42, 43, 44},
    [SHORT_FORM] = {7, 8, 1, 2, 3, 4},
    [DERIVATION] = {86, 10, 11, 12, 13, 14, 84, 85, 41, 42, 43, 44, 60, 61, 62, 63, 64, 65, 66, 67},
    [READ_TEXT] = {7, 81, 82, 83},
    [WRITE_TERM] = {7, 81, 1, 2, 3, 4},
    [ADD_DAYS] = {86},
    [TEST_COALITION] = {86, 10, 11, 12, 13, 14, 84, 85, 41, 42, 43, 44},
    [LIVE_MAKE] = {86, 7, 41, 42, 43, 44},
    [LIVE_ADD] = {10, 11, 13, 14, 84, 85, 87},
    [LIVE_WITHDRAW] = {88},
    [LIVE_ACTS_FOR] = {21, 22, 23, 24, 31, 32, 33, 34},
    [LIVE_FLOWS_TO] = {21, 22, 23, 24, 31, 32, 33, 34},
};

/* What a yes is called. */
static const char *const yes_names[EVERY_OPERATION] = {
    [ACTS_FOR] = "yes",
    [FLOWS_TO] = "yes",
    [EXTRACT] = "written",
    [SHORT_FORM] = "written",
    [DERIVATION] = "accepted",
    [QUOTE] = "a part",
    [READ_TEXT] = "written",
    [WRITE_TERM] = "written",
    [ADD_DAYS] = "a date",
    [TEST_COALITION] = "sound",
    [LIVE_MAKE] = "made",
    [LIVE_ADD] = "added",
    [LIVE_WITHDRAW] = "withdrawn",
    [LIVE_ACTS_FOR] = "yes",
    [LIVE_FLOWS_TO] = "yes",
};

/* What the noes are called; null where there is none. */
static const char *const no_names[EVERY_OPERATION][2] = {
    [ACTS_FOR] = {"no, see", "no, change"},
    [FLOWS_TO] = {"no, see", "no, change"},
    [QUOTE] = {"an empty part"},
    [TEST_COALITION] = {"broken by the first", "broken by a later one"},
    [LIVE_ACTS_FOR] = {"no, see", "no, change"},
    [LIVE_FLOWS_TO] = {"no, see", "no, change"},
};

bool is_refusal(unsigned number)
{
    for (unsigned operation = 0; operation < C_OPERATIONS; operation++)
        for (const uint8_t *r = refusals[operation]; *r != 0; r++)
            if (*r == number)
                return true;
    return false;
}

/* ---- Grants that count by the gap alone ---- */

/* Asked of jobs of few names alone, since each grant takes calls of its own. */
enum { FEW_NAMES = 5 };

/* Operations whose calls have a ledger, a label and a day. */
static const bool on_ledger[EVERY_OPERATION] = {
    [ACTS_FOR] = true, [FLOWS_TO] = true,       [EXTRACT] = true,       [DERIVATION] = true,
    [QUOTE] = true,    [TEST_COALITION] = true, [LIVE_ACTS_FOR] = true, [LIVE_FLOWS_TO] = true,
};

/* Is it a no that p acts for q without any grant? */
static bool denied(unsigned n, const struct term *p, const struct term *q)
{
    static struct ledger plain;
    struct term anyone = one_code(WEAKEST);
    start_ledger(&plain, n);
    return kind_of(reference_acts_for(plain.bytes, plain.length, p->codes, p->length, q->codes, q->length, anyone.codes,
                                      anyone.length, 20240131)) == NO;
}

/* Does p lack something of q? */
static bool lacks_part(unsigned n, const uint8_t *block)
{
    struct term p = term_of_block(block, 0), q = term_of_block(block, 1);
    return denied(n, &p, &q);
}

bool lacks_voice(unsigned n, const uint8_t *block)
{
    struct term q = term_of_block(block, 1), label = term_of_block(block, 2), voice = speaking_for(&q);
    return denied(n, &label, &voice);
}

/* Does the grant of a block count under the label on the day of a call? It stands alone in a ledger, and a step names
 * it. */
static bool counts_alone(unsigned n, const uint8_t *block, const struct call *call)
{
    static struct ledger alone;
    static struct derivation step;
    struct term p = term_of_block(block, 0), q = term_of_block(block, 1), label = term_of_block(block, 2);
    start_ledger(&alone, n);
    add_grant(&alone, &p, &q, &label);
    memcpy(block_of(&alone, 1), block, BLOCK);
    step.length = 0;
    add_step(&step, 2, 0, 0, 0, &p, &q);
    return kind_of(reference_check_derivation(step.bytes, step.length, alone.bytes, alone.length, call->label.codes,
                                              call->label.length, call->day)) == YES;
}

static bool counts_by_gap(unsigned n, const uint8_t *block, const struct call *call)
{
    return lacks_part(n, block) && lacks_voice(n, block) && counts_alone(n, block, call);
}

/* Of a call that is not refused. */
static bool has_gap_grant(const struct call *call)
{
    unsigned n = call->ledger.bytes[1];
    if (!on_ledger[call->operation] || n > FEW_NAMES)
        return false;
    for (size_t at = BLOCK; at < call->ledger.length; at += BLOCK)
        if (counts_by_gap(n, call->ledger.bytes + at, call))
            return true;
    return false;
}

/* ---- Counting ---- */

/* Which of an operation's noes this is. */
static unsigned no_of(enum operation operation, uint32_t number)
{
    return operation == TEST_COALITION ? number % PER_KIND > 1 : number / PER_SIDE % 2;
}

void count_answer(struct coverage *coverage, const struct call *call, uint32_t number)
{
    enum operation operation = call->operation;
    if (kind_of(number) == YES)
        coverage->yes[operation]++;
    else if (kind_of(number) == NO)
        coverage->no[operation][no_of(operation, number)]++;
    else
        coverage->refused[operation][number % PER_STEP]++;
    if (kind_of(number) == REFUSED)
        return;
    coverage->with_quorum[operation] += has_quorum(call);
    coverage->by_gap[operation] += has_gap_grant(call);
}

void count_quote(struct coverage *coverage, const struct call *call, size_t length)
{
    if (length > 0) {
        coverage->yes[QUOTE]++;
        coverage->with_quorum[QUOTE] += has_quorum(call);
        coverage->by_gap[QUOTE] += has_gap_grant(call);
    } else {
        coverage->no[QUOTE][0]++;
    }
}

/* Prints a count, and gives 1 if it is 0. */
static unsigned print_count(const char *what, unsigned long count, FILE *to)
{
    fprintf(to, "  %s %lu%s", what, count, count == 0 ? " (NEVER MET)" : "");
    return count == 0;
}

static unsigned print_refusals(const struct coverage *coverage, unsigned operation, FILE *to)
{
    unsigned missing = 0;
    if (*refusals[operation] != 0)
        fprintf(to, "\n             refused:");
    for (const uint8_t *r = refusals[operation]; *r != 0; r++) {
        char what[8];
        snprintf(what, sizeof what, "%u:", *r);
        missing += print_count(what, coverage->refused[operation][*r], to);
    }
    return missing;
}

static unsigned print_operation(const struct coverage *coverage, unsigned operation, FILE *to)
{
    unsigned missing;
    fprintf(to, "%-11s", operation_names[operation]);
    missing = print_count(yes_names[operation], coverage->yes[operation], to);
    for (unsigned i = 0; i < 2; i++)
        if (no_names[operation][i] != NULL)
            missing += print_count(no_names[operation][i], coverage->no[operation][i], to);
    if (operation != ADD_DAYS && operation != LIVE_WITHDRAW)
        missing += print_count("with a quorum", coverage->with_quorum[operation], to);
    if (on_ledger[operation])
        missing += print_count("by the gap alone", coverage->by_gap[operation], to);
    missing += print_refusals(coverage, operation, to);
    fputc('\n', to);
    return missing;
}

unsigned print_coverage(const struct coverage *coverage, const enum operation *operations, unsigned count, FILE *to)
{
    unsigned missing = 0;
    for (unsigned i = 0; i < count; i++)
        missing += print_operation(coverage, operations[i], to);
    return missing;
}
