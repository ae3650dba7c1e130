#define _DEFAULT_SOURCE /* MAP_ANONYMOUS */
#include "fences.h"

#include <stdio.h>
#include <stdlib.h>
#include <string.h>
#include <sys/mman.h>

enum { PAGE = 4096 };

uint8_t *map(size_t length, int protection)
{
    void *at = mmap(NULL, length, protection, MAP_PRIVATE | MAP_ANONYMOUS | MAP_NORESERVE, -1, 0);
    if (at == MAP_FAILED) {
        perror("mmap");
        exit(2);
    }
    return at;
}

struct fence make_fence(size_t room)
{
    size_t inside = (room + PAGE - 1) / PAGE * PAGE;
    uint8_t *outside = map(inside + 2 * PAGE, PROT_NONE);
    struct fence fence = {outside + PAGE, inside};
    if (mprotect(fence.start, inside, PROT_READ | PROT_WRITE) != 0) {
        perror("mprotect");
        exit(2);
    }
    return fence;
}

uint8_t *place_in(const struct fence *fence, size_t length, bool at_end)
{
    if (length == 0 && at_end)
        return NULL;
    return at_end ? fence->start + fence->room - length : fence->start;
}

static struct slice fenced(const struct fence *fence, struct slice slice, bool at_end)
{
    struct slice copy = {place_in(fence, slice.length, at_end), slice.length};
    if (slice.length > 0)
        memcpy((uint8_t *)copy.bytes, slice.bytes, slice.length);
    return copy;
}

struct fences make_fences(void)
{
    struct fences fences = {
        .ledger = make_fence(LEDGER_ROOM),
        .p = make_fence(TERM_ROOM),
        .q = make_fence(TERM_ROOM),
        .label = make_fence(TERM_ROOM),
        .derivation = make_fence(DERIVATION_ROOM),
        .buffer = make_fence(BUFFER_ROOM),
    };
    return fences;
}

struct request fenced_request(const struct fences *fences, const struct request *r, bool at_end)
{
    struct request copy = *r;
    copy.ledger = fenced(&fences->ledger, r->ledger, at_end);
    copy.p = fenced(&fences->p, r->p, at_end);
    copy.q = fenced(&fences->q, r->q, at_end);
    copy.label = fenced(&fences->label, r->label, at_end);
    copy.derivation = fenced(&fences->derivation, r->derivation, at_end);
    copy.buffer = place_in(&fences->buffer, r->buffer_length, at_end);
    if (r->buffer_length > 0)
        memcpy(copy.buffer, r->buffer, r->buffer_length);
    return copy;
}

bool same_bytes(const uint8_t *a, const uint8_t *b, size_t length)
{
    return length == 0 || memcmp(a, b, length) == 0;
}

static bool same_slice(struct slice a, struct slice b)
{
    return a.length == b.length && same_bytes(a.bytes, b.bytes, a.length);
}

bool same_inputs(const struct request *a, const struct request *b)
{
    return same_slice(a->ledger, b->ledger) && same_slice(a->p, b->p) && same_slice(a->q, b->q)
        && same_slice(a->label, b->label) && same_slice(a->derivation, b->derivation);
}
