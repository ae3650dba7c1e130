/*
 * Slices between pages that can't be touched: a byte read or written outside of one ends the program. A slice ends at
 * such a page, or starts behind one.
 */
#ifndef FENCES_H
#define FENCES_H

#include "calls.h"

struct fence {
    uint8_t *start;
    size_t room;
};

struct fences {
    struct fence ledger, p, q, label, derivation, buffer;
};

/* New memory with this protection (sys/mman.h); the program ends where there is none. */
uint8_t *map(size_t length, int protection);

struct fence make_fence(size_t room);
struct fences make_fences(void);

/* Where a slice of this length stands: at the end of the fence, null if it is empty, or at its start. */
uint8_t *place_in(const struct fence *fence, size_t length, bool at_end);

/* The same request in fenced slices; a live ledger stays where it is. */
struct request fenced_request(const struct fences *fences, const struct request *request, bool at_end);

bool same_bytes(const uint8_t *a, const uint8_t *b, size_t length);

/* Are the bytes that the two requests don't lend for writing the same? */
bool same_inputs(const struct request *a, const struct request *b);

#endif
