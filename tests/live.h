/*
 * A live ledger as the calls of trials.h take it, in four lent pieces, and the calls of an engine on it.
 */
#ifndef LIVE_H
#define LIVE_H

#include "numbers.h"

#include <stdbool.h>
#include <stddef.h>
#include <stdint.h>

/* The words of the head: n, the day, how many grants are held, how many codes the label has. */
enum head { LIVE_NAMES, LIVE_DAY, LIVE_HELD, LIVE_CODES };

struct live {
    uint64_t head[HEAD_WORDS];
    uint8_t label[CODES];
    uint8_t ledger[LEDGER_MOST];
    uint64_t numbers[NUMBER_WORDS];
};

/* The pieces, wherever they stand. */
struct pieces {
    uint64_t *head;
    uint8_t *label, *ledger;
    uint64_t *numbers;
};

struct pieces pieces_of(struct live *live);

/* The length of the written ledger that the ledger starts with. */
size_t live_length(const uint64_t *head);

/* The stored number of a side and coalition. */
unsigned number_at(const uint64_t *numbers, enum side side, unsigned coalition);

/* Is what two engines keep the same after a call, of which one has the pieces? Says what is not. Behind the codes of
 * the label any bytes may stand after a call that was not refused: those are taken over. */
bool same_live(struct live *ours, const struct pieces *theirs, bool refused);

typedef uint32_t live_make_call(uint64_t, const uint8_t *, size_t, uint32_t, uint64_t *, uint8_t *, uint8_t *,
                                uint64_t *);
typedef uint32_t live_add_call(uint64_t *, uint8_t *, uint8_t *, uint64_t *, const uint8_t *, size_t);
typedef uint32_t live_withdraw_call(uint64_t *, uint8_t *, uint8_t *, uint64_t *, uint64_t);
/* takes all pieces, since an engine may answer by the ledger or by the numbers */
typedef uint32_t live_question_call(const uint64_t *, const uint8_t *, const uint8_t *, const uint64_t *,
                                    const uint8_t *, size_t, const uint8_t *, size_t);

struct live_calls {
    live_make_call *make;
    live_add_call *add;
    live_withdraw_call *withdraw;
    live_question_call *acts_for, *flows_to;
};

#endif
