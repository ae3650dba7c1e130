#include "run.h"

#include <stdlib.h>
#include <time.h>

enum { DIFFERENCES_SHOWN = 10 };

static double seconds_now(void)
{
    struct timespec now;
    timespec_get(&now, TIME_UTC);
    return (double)now.tv_sec + (double)now.tv_nsec / 1e9;
}

static unsigned long argument(int count, char **arguments, int place, unsigned long otherwise)
{
    return count > place ? strtoul(arguments[place], NULL, 10) : otherwise;
}

struct run start_run(int count, char **arguments, unsigned long wanted)
{
    struct run run = {
        .wanted = argument(count, arguments, 1, wanted),
        .seed = argument(count, arguments, 2, 1),
        .seconds = argument(count, arguments, 3, 110),
        .start = seconds_now(),
    };
    return run;
}

double seconds_since(const struct run *run)
{
    return seconds_now() - run->start;
}

bool goes_on(const struct run *run)
{
    return run->done < run->wanted && run->differences < DIFFERENCES_SHOWN
        && seconds_since(run) < (double)run->seconds;
}
