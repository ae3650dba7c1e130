/*
 * The answers of documents 01 and 02 by a second, plain implementation, for tests and the benchmark. The calls take
 * and give what the calls of rights.h and of tests/trials.h do.
 */
#ifndef REFERENCE_H
#define REFERENCE_H

#include "numbers.h"

#include <stddef.h>
#include <stdint.h>

uint32_t reference_acts_for(const uint8_t *ledger, size_t ledger_len, const uint8_t *p, size_t p_len,
                            const uint8_t *q, size_t q_len, const uint8_t *label, size_t label_len,
                            uint32_t day);

uint32_t reference_flows_to(const uint8_t *ledger, size_t ledger_len, const uint8_t *p, size_t p_len,
                            const uint8_t *q, size_t q_len, const uint8_t *label, size_t label_len,
                            uint32_t day);

uint32_t reference_extract(const uint8_t *ledger, size_t ledger_len, const uint8_t *label, size_t label_len,
                           uint32_t day, uint8_t *buffer, size_t buffer_len);

uint32_t reference_short_form(uint64_t n, const uint8_t *term, size_t term_len, uint8_t *buffer, size_t buffer_len);

uint32_t reference_check_derivation(const uint8_t *derivation, size_t derivation_len,
                                    const uint8_t *ledger, size_t ledger_len,
                                    const uint8_t *label, size_t label_len, uint32_t day);

uint32_t reference_read_text(uint64_t n, const uint8_t *text, size_t text_len, uint8_t *codes, size_t codes_len);

uint32_t reference_write_term(uint64_t n, const uint8_t *term, size_t term_len, uint8_t *text, size_t text_len);

uint32_t reference_add_days(uint32_t date, uint32_t count);

uint32_t reference_test_coalition(const uint8_t *ledger, size_t ledger_len, const uint8_t *label, size_t label_len,
                                  uint32_t day, uint32_t side, uint32_t coalition);

/* The live ledger, as tests/trials.h says, but that questions take all of it. Each call that alters it works out all
 * its numbers afresh. Questions are put to its ledger, and not to its numbers. */
uint32_t reference_live_make(uint64_t n, const uint8_t *label, size_t label_len, uint32_t day,
                             uint64_t head[HEAD_WORDS], uint8_t text[CODES], uint8_t ledger[LEDGER_MOST],
                             uint64_t numbers[NUMBER_WORDS]);

uint32_t reference_live_add(uint64_t head[HEAD_WORDS], uint8_t text[CODES], uint8_t ledger[LEDGER_MOST],
                            uint64_t numbers[NUMBER_WORDS], const uint8_t *block, size_t block_len);

uint32_t reference_live_withdraw(uint64_t head[HEAD_WORDS], uint8_t text[CODES], uint8_t ledger[LEDGER_MOST],
                                 uint64_t numbers[NUMBER_WORDS], uint64_t k);

uint32_t reference_live_acts_for(const uint64_t head[HEAD_WORDS], const uint8_t text[CODES],
                                 const uint8_t ledger[LEDGER_MOST], const uint64_t numbers[NUMBER_WORDS],
                                 const uint8_t *p, size_t p_len, const uint8_t *q, size_t q_len);

uint32_t reference_live_flows_to(const uint64_t head[HEAD_WORDS], const uint8_t text[CODES],
                                 const uint8_t ledger[LEDGER_MOST], const uint64_t numbers[NUMBER_WORDS],
                                 const uint8_t *p, size_t p_len, const uint8_t *q, size_t q_len);

/* A part of the ledger; an empty one is offset 0, length 0. */
struct reference_part {
    size_t offset;
    size_t length;
};

/* Quoting: the block of the grant that the step names. */
struct reference_part reference_quote(const uint8_t *derivation, size_t derivation_len,
                                      const uint8_t *ledger, size_t ledger_len,
                                      const uint8_t *label, size_t label_len, uint32_t day, uint64_t step);

#endif
