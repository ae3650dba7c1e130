/*
 * The rows of the benchmark on live ledgers: questions beside those to the written ledger, and adding and withdrawing
 * beside the same by hand.
 */
#ifndef LIVE_ROWS_H
#define LIVE_ROWS_H

#include "calls.h"

void print_live_rows(void);

/* Makes the JOBS calls of a row by an engine. */
typedef void make_once(const struct engine *engine, const struct request *requests);

/* Each row once by the library, as bench.c does its own for scripts/instructions. */
void run_live_rows_once(make_once *once);

#endif
