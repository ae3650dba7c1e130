#include "measure.h"

enum {
    ROWS = 5,          /* of which the quickest is taken */
    ROW_LEAST = 20000, /* microseconds of a row */
    ENOUGH = 1000000   /* microseconds of all rows together: then no more are begun */
};

enum { CONTESTANTS = 8 };

/* What one contestant takes. */
struct measured {
    unsigned passes;    /* of a row */
    double spent, best; /* microseconds: of all rows; of a pass in the quickest row */
};

double microseconds_since(clock_t start)
{
    return (double)(clock() - start) * 1e6 / CLOCKS_PER_SEC;
}

/* The first row, of as many passes as it takes. */
static struct measured first_row(const struct contestant *c)
{
    unsigned passes = 1;
    double row = c->time(c->work, passes), spent = row;
    while (row < ROW_LEAST) {
        passes *= 2;
        row = c->time(c->work, passes);
        spent += row;
    }
    return (struct measured){passes, spent, row / passes};
}

static void next_row(const struct contestant *c, struct measured *m)
{
    double row = c->time(c->work, m->passes), pass = row / m->passes;
    m->spent += row;
    if (pass < m->best)
        m->best = pass;
}

void measure(const struct contestant *contestants, unsigned count, double *best)
{
    struct measured measured[CONTESTANTS];
    for (unsigned i = 0; i < count; i++)
        measured[i] = first_row(&contestants[i]);
    for (unsigned row = 1; row < ROWS; row++)
        for (unsigned i = 0; i < count; i++)
            if (measured[i].spent < ENOUGH)
                next_row(&contestants[i], &measured[i]);
    for (unsigned i = 0; i < count; i++)
        best[i] = measured[i].best;
}
