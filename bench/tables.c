#include "tables.h"
#include <stdio.h>
#include <time.h>

const struct range empty_range = {1e30, 0};

double now(void)
{
    struct timespec t;
    clock_gettime(CLOCK_THREAD_CPUTIME_ID, &t);
    return 1e6 * (double)t.tv_sec + 1e-3 * (double)t.tv_nsec;
}

void widen(struct range *r, double value)
{
    r->low = value < r->low ? value : r->low;
    r->high = value > r->high ? value : r->high;
}

void print_range(double mean, struct range r, int digits)
{
    printf(" %.*f", digits, mean);
    if (r.low < r.high)
        printf(" (%.*f to %.*f)", digits, r.low, digits, r.high);
    printf(" |");
}
