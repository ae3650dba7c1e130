/*
 * The live ledger of document 02, K5. No number is kept up: after each change all of them are worked out afresh from
 * the grants held, and a question is put to the written ledger.
 */
#include "reference.h"

#include "shared.h"

#include <string.h>

/* The words of the head. */
enum { NAMES_OF, DAY_OF, HELD_OF, CODES_OF };

enum { COALITIONS = 1 << NAMES, DIGITS = 7 };

/* The length of the written ledger: its first block, and one for each grant held. */
static size_t ledger_length(const uint64_t *head)
{
    return BLOCK * (1 + (size_t)head[HELD_OF]);
}

/* ---- Numbers ---- */

static void count_broken(unsigned n, const struct grant *grant, uint8_t numbers[2][COALITIONS])
{
    for (enum side side = SEE; side <= CHANGE; side++)
        for (unsigned c = 0; c < coalitions(n); c++)
            numbers[side][c] += breaks(grant, side, c);
}

/* For each side and coalition, how many of the grants held that count it breaks. */
static void work_out(const uint64_t *head, const uint8_t *text, const uint8_t *ledger, uint8_t numbers[2][COALITIONS])
{
    unsigned n = (unsigned)head[NAMES_OF];
    struct under under = {term_at(text, (size_t)head[CODES_OF]), (uint32_t)head[DAY_OF]};
    memset(numbers, 0, 2 * COALITIONS);
    for (size_t at = BLOCK; at < ledger_length(head); at += BLOCK) {
        struct grant grant;
        if (read_block(n, ledger + at, BLOCK, &grant) == 0 && counts(n, &grant, &under))
            count_broken(n, &grant, numbers);
    }
}

/* The word in which a number's digit stands, its bit being the coalition's last six. */
static size_t word_of(enum side side, unsigned coalition, unsigned digit)
{
    size_t row = 16 * (size_t)side + coalition / 256;
    return 28 * row + 4 * digit + coalition / 64 % 4;
}

static void store_numbers(unsigned n, uint8_t numbers[2][COALITIONS], uint64_t *words)
{
    memset(words, 0, NUMBER_WORDS * sizeof *words);
    for (enum side side = SEE; side <= CHANGE; side++)
        for (unsigned c = 0; c < coalitions(n); c++)
            for (unsigned digit = 0; digit < DIGITS; digit++)
                if (numbers[side][c] >> digit & 1)
                    words[word_of(side, c, digit)] |= (uint64_t)1 << c % 64;
}

/* ---- Calls ---- */

static void write_header(const uint64_t *head, uint8_t *block)
{
    memset(block, 0, BLOCK);
    block[0] = 1;
    block[1] = (uint8_t)head[NAMES_OF];
    put_two_bytes(block, 2, (unsigned)head[HELD_OF]);
    put_two_bytes(block, 510, check_of(block));
}

/* The first block and the numbers, when the head, the label and the grants are as they shall be. */
static uint32_t write_rest(const uint64_t *head, const uint8_t *text, uint8_t *ledger, uint64_t *words)
{
    uint8_t numbers[2][COALITIONS];
    write_header(head, ledger);
    work_out(head, text, ledger, numbers);
    store_numbers((unsigned)head[NAMES_OF], numbers, words);
    return written(0);
}

uint32_t reference_live_make(uint64_t n, const uint8_t *label, size_t label_len, uint32_t day,
                             uint64_t head[HEAD_WORDS], uint8_t text[CODES], uint8_t ledger[LEDGER_MOST],
                             uint64_t numbers[NUMBER_WORDS])
{
    if (!real_date(day))
        return refused(86);
    if (n < 1 || n > NAMES)
        return refused(7);
    unsigned refusal = read_from(40, (unsigned)n, term_at(label, label_len));
    if (refusal)
        return refused(refusal);
    head[NAMES_OF] = n;
    head[DAY_OF] = day;
    head[HELD_OF] = 0;
    head[CODES_OF] = label_len;
    memcpy(text, label, label_len);
    return write_rest(head, text, ledger, numbers);
}

uint32_t reference_live_add(uint64_t head[HEAD_WORDS], uint8_t text[CODES], uint8_t ledger[LEDGER_MOST],
                            uint64_t numbers[NUMBER_WORDS], const uint8_t *block, size_t block_len)
{
    struct grant grant;
    unsigned refusal = read_block((unsigned)head[NAMES_OF], block, block_len, &grant);
    if (!refusal && head[HELD_OF] == GRANTS)
        refusal = 87;
    if (refusal)
        return refused(refusal);
    memcpy(ledger + ledger_length(head), block, BLOCK);
    head[HELD_OF]++;
    return write_rest(head, text, ledger, numbers);
}

uint32_t reference_live_withdraw(uint64_t head[HEAD_WORDS], uint8_t text[CODES], uint8_t ledger[LEDGER_MOST],
                                 uint64_t numbers[NUMBER_WORDS], uint64_t k)
{
    if (k >= head[HELD_OF])
        return refused(88);
    size_t end = ledger_length(head);
    for (size_t at = BLOCK * (2 + (size_t)k); at < end; at += BLOCK)
        memcpy(ledger + at - BLOCK, ledger + at, BLOCK);
    head[HELD_OF]--;
    return write_rest(head, text, ledger, numbers);
}

uint32_t reference_live_acts_for(const uint64_t head[HEAD_WORDS], const uint8_t text[CODES],
                                 const uint8_t ledger[LEDGER_MOST], const uint64_t numbers[NUMBER_WORDS],
                                 const uint8_t *p, size_t p_len, const uint8_t *q, size_t q_len)
{
    (void)numbers;
    return reference_acts_for(ledger, ledger_length(head), p, p_len, q, q_len, text, (size_t)head[CODES_OF],
                              (uint32_t)head[DAY_OF]);
}

uint32_t reference_live_flows_to(const uint64_t head[HEAD_WORDS], const uint8_t text[CODES],
                                 const uint8_t ledger[LEDGER_MOST], const uint64_t numbers[NUMBER_WORDS],
                                 const uint8_t *p, size_t p_len, const uint8_t *q, size_t q_len)
{
    (void)numbers;
    return reference_flows_to(ledger, ledger_length(head), p, p_len, q, q_len, text, (size_t)head[CODES_OF],
                              (uint32_t)head[DAY_OF]);
}
