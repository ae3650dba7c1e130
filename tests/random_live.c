#include "random_live.h"

#include <string.h>

/* As in random_calls.c, no expression has two draws whose order C leaves open. */

enum { LONG_LIST = 120, FEW_NAMES = 5, MANY_NAMES = 8 };

/* Few calls where there are many names. */
struct random_list random_list(struct source *s)
{
    struct random_list list = {.n = random_names(s), .days = random_days(s)};
    list.fills = list.n <= FEW_NAMES && one_in(s, 12);
    list.twins = list.fills && one_in(s, 2);
    list.calls = list.fills ? LONG_LIST : list.n > MANY_NAMES ? between(s, 4, 14) : between(s, 10, 60);
    return list;
}

/* ---- Making ---- */

static void random_make(struct source *s, const struct random_list *list, struct call *call)
{
    call->operation = LIVE_MAKE;
    call->number = list->n;
    call->day = one_in(s, 8) ? doubtful_date(s) : one_of(s, &list->days);
    start_ledger(&call->ledger, list->n);
    call->label = random_label(s, &call->ledger, list->n);
    call->ledger.length = 0;
    maybe_damage_term(s, &call->label, list->n);
    maybe_spoil_names(s, call);
}

/* ---- Adding ---- */

static void spoil_block_length(struct source *s, struct call *call)
{
    static const uint16_t lengths[] = {0, 1, 510, 511, 513, 1023, 1024, 33280};
    call->ledger.length = lengths[below(s, sizeof lengths / sizeof *lengths)];
    if (call->ledger.length > BLOCK)
        memset(call->ledger.bytes + BLOCK, 0, call->ledger.length - BLOCK);
}

static void damage_block(struct source *s, struct call *call, unsigned n)
{
    uint8_t *block = call->ledger.bytes;
    unsigned place;
    switch (below(s, 8)) {
    case 0:
        spoil_block_length(s, call);
        break;
    case 1: /* of a block of zeros the check is 0 */
        if (one_in(s, 2))
            memset(block, 0, BLOCK);
        damage_check(block);
        break;
    case 2: /* any byte, without a new check */
        place = below(s, BLOCK);
        block[place] ^= nonzero_byte(s);
        break;
    default:
        damage_grant(s, block, n);
    }
}

/* A block of a random grant, or of one that is held. */
static void random_block(struct source *s, const struct random_list *list, const struct live *live, struct call *call)
{
    unsigned held = (unsigned)live->head[LIVE_HELD];
    if (held > 0 && (list->twins || one_in(s, 4))) {
        memcpy(call->ledger.bytes, live->ledger + BLOCK * (1 + below(s, held)), BLOCK);
    } else {
        start_ledger(&call->ledger, list->n);
        add_random_grant(s, &call->ledger, list->n);
        memcpy(call->ledger.bytes, block_of(&call->ledger, 1), BLOCK);
        if (one_in(s, 2))
            put_random_days(s, call->ledger.bytes, &list->days);
    }
    call->ledger.length = BLOCK;
}

/* Now and then damaged, or twice: which refusal comes first? */
static void random_add(struct source *s, const struct random_list *list, const struct live *live, struct call *call)
{
    call->operation = LIVE_ADD;
    random_block(s, list, live, call);
    for (unsigned damages = one_in(s, 5) ? between(s, 1, 2) : 0; damages > 0; damages--)
        damage_block(s, call, list->n);
}

/* ---- Withdrawing ---- */

static uint64_t some_position(struct source *s, uint64_t held)
{
    return held > 0 ? below(s, (unsigned)held) : 0;
}

/* No position of so many grants; some are good if only their low bits are looked at. */
static uint64_t bad_position(struct source *s, uint64_t held)
{
    static const uint64_t more[] = {64, 128, 256, 65536, 0x100000000, 0x8000000000000000};
    unsigned draw = below(s, 10);
    if (draw < 3)
        return held + draw / 2;
    return draw == 3 ? UINT64_MAX : some_position(s, held) + more[draw - 4];
}

static void random_withdrawal(struct source *s, const struct live *live, struct call *call)
{
    uint64_t held = live->head[LIVE_HELD];
    unsigned draw = below(s, 6);
    call->operation = LIVE_WITHDRAW;
    if (held == 0 || draw == 0)
        call->number = bad_position(s, held);
    else if (draw == 1)
        call->number = 0;
    else
        call->number = draw == 2 ? held - 1 : some_position(s, held);
}

/* ---- Asking ---- */

static void random_live_question(struct source *s, const struct random_list *list, const struct live *live,
                                 struct call *call)
{
    call->operation = one_in(s, 2) ? LIVE_ACTS_FOR : LIVE_FLOWS_TO;
    call->ledger.length = live_length(live->head);
    memcpy(call->ledger.bytes, live->ledger, call->ledger.length);
    call->label = term_of(live->label, (size_t)live->head[LIVE_CODES]);
    call->day = (uint32_t)live->head[LIVE_DAY];
    random_question(s, call, list->n);
    maybe_damage_term(s, &call->p, list->n);
    maybe_damage_term(s, &call->q, list->n);
}

/* ---- Calls ---- */

void random_live_call(struct source *s, const struct random_list *list, const struct live *live, struct call *call)
{
    unsigned draw = below(s, 64);
    clear_call(call);
    if (live == NULL || (draw == 0 && !list->fills))
        random_make(s, list, call);
    else if (draw < (list->fills ? 52 : 28))
        random_add(s, list, live, call);
    else if (draw < (list->fills ? 55 : 40))
        random_withdrawal(s, live, call);
    else
        random_live_question(s, list, live, call);
}
