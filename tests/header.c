/*
 * rights.h against what the reference and the tests have for themselves: the numbers, an answer's parts, the
 * list of refusals. And its version against that of rights.pc, which the compiler is given as PC_VERSION.
 */
#include "coverage.h"
#include "rights.h"

#include <string.h>

#define SAME(a, b) _Static_assert((int)(a) == (int)(b), #a " is " #b)
#define MORE(a, b) _Static_assert((int)(a) > (int)(b), #a " is more than " #b)

SAME(RIGHTS_VERSION, PC_VERSION);

/* ---- Sizes ---- */

enum { COALITIONS = 1 << RIGHTS_NAMES_MAX };

/* as many coalitions of twelve names have six members, twelve over six; no more can lie none inside another */
enum { LARGEST_LAYER = 12 * 11 * 10 * 9 * 8 * 7 / (6 * 5 * 4 * 3 * 2) };

SAME(RIGHTS_NAMES_MAX, NAMES);
SAME(RIGHTS_TERM_MAX, CODES);
SAME(RIGHTS_PARTS_MAX, PARTS);
SAME(RIGHTS_BLOCK_SIZE, BLOCK);
SAME(RIGHTS_GRANTS_MAX, GRANTS);
SAME(RIGHTS_LEDGER_MAX, LEDGER_MOST);
SAME(RIGHTS_EXTRACT_SIZE, EXTRACT_SIZE);
SAME(RIGHTS_SHORT_FORM_MIN, SHORT_FORM_LEAST);
SAME(RIGHTS_STEP_SIZE, STEP);
SAME(RIGHTS_STEPS_MAX, STEPS);
SAME(RIGHTS_DERIVATION_MAX, DERIVATION_MOST);

/* a header block and a block for each grant; six bytes, two of filler and two terms; steps */
SAME(RIGHTS_LEDGER_MAX, RIGHTS_BLOCK_SIZE * (1 + RIGHTS_GRANTS_MAX));
SAME(RIGHTS_STEP_SIZE, 6 + 2 + 2 * RIGHTS_TERM_MAX);
SAME(RIGHTS_DERIVATION_MAX, RIGHTS_STEP_SIZE * RIGHTS_STEPS_MAX);
/* on each side a bit for each coalition; on each side two bytes for the count and for each of a largest layer */
SAME(RIGHTS_EXTRACT_SIZE, 2 * COALITIONS / 8);
SAME(RIGHTS_SHORT_FORM_MIN, 2 * (2 + 2 * LARGEST_LAYER));
/* of a live ledger: on each side seven digits for each coalition, a bit each */
SAME(NUMBER_WORDS, 2 * 7 * COALITIONS / 64);

/* the tests have room for what is refused as too long; that of a term is also a text's */
MORE(TERM_ROOM, RIGHTS_TERM_MAX);
MORE(TERM_ROOM, TEXT_MOST);
MORE(LEDGER_ROOM, RIGHTS_LEDGER_MAX);
MORE(DERIVATION_ROOM, RIGHTS_DERIVATION_MAX);
MORE(BUFFER_ROOM, RIGHTS_SHORT_FORM_MIN);

/* ---- Codes, sides, kinds ---- */

SAME(RIGHTS_STRONGEST, STRONGEST);
SAME(RIGHTS_WEAKEST, WEAKEST);
SAME(RIGHTS_BOTH, BOTH);
SAME(RIGHTS_EITHER, EITHER);
SAME(RIGHTS_QUORUM, QUORUM);
SAME(RIGHTS_SEE_OF, SEE_OF);
SAME(RIGHTS_CHANGE_OF, CHANGE_OF);

SAME(RIGHTS_SEE, SEE);
SAME(RIGHTS_CHANGE, CHANGE);

SAME(RIGHTS_YES, YES);
SAME(RIGHTS_NO, NO);
SAME(RIGHTS_REFUSED, REFUSED);

/* ---- Refusals: those of p, q and the label are 20, 30 or 40 plus the term's ---- */

#define FROM(base, name) \
    SAME(RIGHTS_##name##_LENGTH, base + RIGHTS_TERM_LENGTH); \
    SAME(RIGHTS_##name##_CODE, base + RIGHTS_TERM_CODE); \
    SAME(RIGHTS_##name##_ENDS, base + RIGHTS_TERM_ENDS); \
    SAME(RIGHTS_##name##_LEFT_OVER, base + RIGHTS_TERM_LEFT_OVER)

FROM(20, P);
FROM(30, Q);
FROM(40, LABEL);

/* ---- What only a run can tell ---- */

static unsigned failures;

static void expect(const char *what, unsigned long number, bool right)
{
    if (right)
        return;
    printf("rights.h: %s %lu\n", what, number);
    failures++;
}

static void parts_of_a_yes(void)
{
    for (uint32_t length = 0; length <= SHORT_FORM_LEAST; length++) {
        uint32_t answer = YES * PER_KIND + length;
        expect("wrong parts of", answer, rights_kind_of(answer) == YES && rights_length_of(answer) == length);
    }
}

static void parts_of_a_no(void)
{
    for (uint32_t side = SEE; side <= CHANGE; side++)
        for (uint32_t coalition = 0; coalition < COALITIONS; coalition++) {
            uint32_t answer = NO * PER_KIND + side * PER_SIDE + coalition;
            expect("wrong parts of", answer, rights_kind_of(answer) == NO && rights_side_of(answer) == side
                                                 && rights_coalition_of(answer) == coalition);
        }
}

static void parts_of_a_refusal(void)
{
    for (uint32_t step = 0; step < STEPS; step++)
        for (uint32_t refusal = 0; refusal < 256; refusal++) {
            uint32_t answer = REFUSED * PER_KIND + step * PER_STEP + refusal;
            expect("wrong parts of", answer, rights_kind_of(answer) == REFUSED && rights_step_of(answer) == step
                                                 && rights_refusal_of(answer) == refusal);
        }
}

static bool same_text(unsigned a, unsigned b)
{
    return strcmp(rights_refusal_text(a), rights_refusal_text(b)) == 0;
}

/* A refusal shares its text with no lower number; any other number has the text of 0, which is no refusal. */
static void texts_of_refusals(void)
{
    for (unsigned number = 0; number < 256; number++)
        if (is_refusal(number))
            for (unsigned lower = 0; lower < number; lower++)
                expect("not a text of its own for refusal", number, !same_text(number, lower));
        else
            expect("a text for a number that is no refusal,", number, same_text(number, 0));
}

int main(void)
{
    parts_of_a_yes();
    parts_of_a_no();
    parts_of_a_refusal();
    texts_of_refusals();
    if (failures)
        return 1;
    puts("rights.h: numbers, parts of answers and refusals as the tests have them");
    return 0;
}
