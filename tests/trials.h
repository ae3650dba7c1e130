/*
 * Calls of document 02 that the C program does not get. The crate `trials` exports them for tests alone: they are in
 * build/libtrials.a, not in librights.a and not in rights.h.
 *
 * Slices are as in rights.h, and so are answers: written (kind 0, the length) or refused (kind 2, the reason); of a
 * test also sound and broken, of a question to a live ledger yes and no. A date is too large for the figure of an
 * answer, so it is the number itself.
 *
 * A live ledger is four pieces that the caller keeps and lends:
 *
 *     head     n, the day, how many grants are held, how many codes the label has
 *     text     the label's codes, then any bytes
 *     ledger   starts with the written ledger of the grants held, 512 x (held + 1) bytes
 *     numbers  for each side and coalition the number of counting grants that it breaks there, 0 to 64, from 2^n up 0:
 *              of coalition c on side s (0 see, 1 change) digit j, 0 to 6, is bit c % 64 of the word
 *              28 x (16 s + c / 256) + 4 j + c / 64 % 4
 *
 * A new one may have any bytes before it is made. The other calls take one that these calls made. A refused call leaves
 * all four as they were, and the bytes behind the written ledger keep what they were in every call.
 */
#ifndef TRIALS_H
#define TRIALS_H

#include <stddef.h>
#include <stdint.h>

/* Reads a text of a job of n names to codes, in a buffer of 64 bytes. Refused: 7, 81, 82, 83. */
uint32_t trials_read_text(uint64_t n, const uint8_t *text, size_t text_len, uint8_t *codes, size_t codes_len);

/* Writes a term of a job of n names as a text, in a buffer of 256 bytes. Refused: 7, 81, 1 to 4. */
uint32_t trials_write_term(uint64_t n, const uint8_t *term, size_t term_len, uint8_t *text, size_t text_len);

/* The date so many days after a date, 0 to 366. Refused: 86, also where it would be after 21991231. */
uint32_t trials_add_days(uint32_t date, uint32_t count);

/* Tests a coalition on a side, 0 see or any other number change, against the grants that count under the label on the
 * day, in the ledger's order, up to and with the first that it breaks there. Sound (kind 0) or broken (kind 1); the
 * figure is how many counting grants were tested: 3 is sound after three, 65,536 + 1 is broken by the first. Bit i of
 * the coalition is name i; bits from n up mean nothing. Document 02 has this test and no call for it on bytes, so what
 * is refused is the reading alone: 86, 10 to 14, 84, 85, 41 to 44. */
uint32_t trials_test_coalition(const uint8_t *ledger, size_t ledger_len, const uint8_t *label, size_t label_len,
                               uint32_t day, uint32_t side, uint32_t coalition);

/* Makes a live ledger of n names, asked under the label on the day; it has no grants. Refused: 86, 7, 41 to 44. */
uint32_t trials_live_make(uint64_t n, const uint8_t *label, size_t label_len, uint32_t day, uint64_t head[4],
                          uint8_t text[64], uint8_t ledger[33280], uint64_t numbers[896]);

/* Adds the grant of a block, last. Refused: 10 (not 512 bytes), 11, 13, 14, 84, 85, 87 (64 grants are held). */
uint32_t trials_live_add(uint64_t head[4], uint8_t text[64], uint8_t ledger[33280], uint64_t numbers[896],
                         const uint8_t *block, size_t block_len);

/* Takes the grant at position k, from 0, out; the later ones move down. Refused: 88 (there is none). */
uint32_t trials_live_withdraw(uint64_t head[4], uint8_t text[64], uint8_t ledger[33280], uint64_t numbers[896],
                              uint64_t k);

/* The answers of rights_acts_for and rights_flows_to on the written ledger, under the label on the day. Refused: 21 to
 * 24, 31 to 34. */
uint32_t trials_live_acts_for(const uint64_t head[4], const uint8_t text[64], const uint64_t numbers[896],
                              const uint8_t *p, size_t p_len, const uint8_t *q, size_t q_len);
uint32_t trials_live_flows_to(const uint64_t head[4], const uint8_t text[64], const uint64_t numbers[896],
                              const uint8_t *p, size_t p_len, const uint8_t *q, size_t q_len);

#endif
