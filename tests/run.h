/*
 * A run of a comparison: how much is wanted, of which seed and within how many seconds, and how far it came.
 */
#ifndef RUN_H
#define RUN_H

#include <stdbool.h>

struct run {
    unsigned long wanted, seed, seconds;
    unsigned long done, differences;
    double start;
};

/* By a program's arguments: how much, otherwise as said here; the seed; the seconds. */
struct run start_run(int count, char **arguments, unsigned long wanted);

double seconds_since(const struct run *run);

/* Is more wanted, in time, and were there few differences so far? */
bool goes_on(const struct run *run);

#endif
