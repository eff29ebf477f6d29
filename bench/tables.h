// What the benchmarks share: the clock, and the figures of their tables.
#ifndef TABLES_H
#define TABLES_H

// The penalty that is timed, P / Q.
enum { P = 200000, Q = 3 };

struct range {
    double low, high;
};

// The range of no values.
extern const struct range empty_range;

// The CPU time of this thread, in microseconds.
double now(void);

void widen(struct range *r, double value);

// Prints a mean and, where it is wider than one value, the range: one cell of a row.
void print_range(double mean, struct range r, int digits);
#endif
