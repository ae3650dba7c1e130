/*
 * Processor time, measured in turns: several contestants do the same work, each in rows of as many passes as it takes
 * to be measured, of which the quickest counts.
 */
#ifndef MEASURE_H
#define MEASURE_H

#include <time.h>

/* Makes so many passes of the work; gives microseconds, of all of it or of the part that is measured. */
typedef double time_passes(void *work, unsigned passes);

struct contestant {
    time_passes *time;
    void *work;
};

/* Microseconds of a pass in the quickest row of each contestant. */
void measure(const struct contestant *contestants, unsigned count, double *best);

double microseconds_since(clock_t start);

#endif
