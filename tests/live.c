#include "live.h"

#include <stdio.h>
#include <string.h>

struct pieces pieces_of(struct live *live)
{
    return (struct pieces){live->head, live->label, live->ledger, live->numbers};
}

size_t live_length(const uint64_t *head)
{
    return BLOCK * (1 + (size_t)head[LIVE_HELD]);
}

unsigned number_at(const uint64_t *numbers, enum side side, unsigned coalition)
{
    const uint64_t *words = numbers + 28 * (16 * (size_t)side + coalition / 256) + coalition / 64 % 4;
    unsigned number = 0;
    for (unsigned digit = 0; digit < 7; digit++)
        number |= (words[4 * digit] >> coalition % 64 & 1) << digit;
    return number;
}

static bool same_piece(const char *name, const void *ours, const void *theirs, size_t length)
{
    bool same = memcmp(ours, theirs, length) == 0;
    if (!same)
        printf("other bytes in the %s\n", name);
    return same;
}

bool same_live(struct live *ours, const struct pieces *theirs, bool refused)
{
    if (!same_piece("head", ours->head, theirs->head, sizeof ours->head))
        return false;
    size_t codes = refused ? CODES : (size_t)ours->head[LIVE_CODES];
    bool same = same_piece("label", ours->label, theirs->label, codes);
    memcpy(ours->label + codes, theirs->label + codes, CODES - codes);
    same &= same_piece("ledger", ours->ledger, theirs->ledger, sizeof ours->ledger);
    same &= same_piece("numbers", ours->numbers, theirs->numbers, sizeof ours->numbers);
    return same;
}
