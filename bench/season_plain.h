// The table of a growing signal in plain C, to compare the library's with.
#ifndef SEASON_PLAIN_H
#define SEASON_PLAIN_H
#include "loss.h"

enum { TABLE_ROWS = 16 };

// The least losses of the samples so far. least[k - 1][j - 1] is that of k segments over the first j samples, and all ones where there
// are more segments than samples: the library's table, on a machine that keeps the low byte first.
struct plain_table {
    size_t n;
    struct sums sums;
    _Alignas(64) uint64_t least[TABLE_ROWS][MAX_SAMPLES];
};

// Begins a table with no samples.
void plain_begin(struct plain_table *t);

// One more sample, where there are fewer than 512: fills its column.
void plain_extend(struct plain_table *t, int16_t sample);

// The bits of all values of the first n columns together: the least that a look at each of them costs.
uint64_t plain_look(const struct plain_table *t, size_t n);
#endif
