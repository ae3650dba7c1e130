/*
 * The live ledger by hand: plain C meant to be fast, 64 coalitions a word, for the benchmark to compare with. The calls
 * take and give what those of tests/trials.h do, whole: a block is read with its check, form, terms and days, and what
 * is refused alters nothing.
 */
#ifndef HAND_LIVE_H
#define HAND_LIVE_H

#include "numbers.h"

#include <stddef.h>
#include <stdint.h>

uint32_t hand_live_make(uint64_t n, const uint8_t *label, size_t label_len, uint32_t day, uint64_t head[HEAD_WORDS],
                        uint8_t text[CODES], uint8_t ledger[LEDGER_MOST], uint64_t numbers[NUMBER_WORDS]);

uint32_t hand_live_add(uint64_t head[HEAD_WORDS], uint8_t text[CODES], uint8_t ledger[LEDGER_MOST],
                       uint64_t numbers[NUMBER_WORDS], const uint8_t *block, size_t block_len);

uint32_t hand_live_withdraw(uint64_t head[HEAD_WORDS], uint8_t text[CODES], uint8_t ledger[LEDGER_MOST],
                            uint64_t numbers[NUMBER_WORDS], uint64_t k);

uint32_t hand_live_acts_for(const uint64_t head[HEAD_WORDS], const uint8_t text[CODES],
                            const uint64_t numbers[NUMBER_WORDS], const uint8_t *p, size_t p_len, const uint8_t *q,
                            size_t q_len);

uint32_t hand_live_flows_to(const uint64_t head[HEAD_WORDS], const uint8_t text[CODES],
                            const uint64_t numbers[NUMBER_WORDS], const uint8_t *p, size_t p_len, const uint8_t *q,
                            size_t q_len);

#endif
