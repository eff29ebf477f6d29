// The loss of a segment by prefix sums and one 64-bit division, as both plain implementations take it.
#ifndef LOSS_H
#define LOSS_H
#include "signals.h"

// Prefix sums: of the first j samples, and of their squares.
struct sums {
    int64_t sum[MAX_SAMPLES + 1];
    int64_t square[MAX_SAMPLES + 1];
};

static inline void begin_sums(struct sums *s)
{
    s->sum[0] = 0;
    s->square[0] = 0;
}

// One more sample, after i others.
static inline void add_sample(struct sums *s, size_t i, int16_t sample)
{
    int64_t x = sample;
    s->sum[i + 1] = s->sum[i] + x;
    s->square[i + 1] = s->square[i] + x * x;
}

// The whole number nearest sum / len; of two equally near, the lower.
static inline int64_t level_of(int64_t sum, int64_t len)
{
    int64_t floor = sum / len;
    int64_t rest = sum % len;
    if (rest < 0) {
        floor--;
        rest += len;
    }
    return 2 * rest > len ? floor + 1 : floor;
}

// The loss of samples from + 1 to to as one segment.
static inline int64_t segment_loss(const struct sums *s, size_t from, size_t to)
{
    int64_t len = (int64_t)(to - from);
    int64_t sum = s->sum[to] - s->sum[from];
    int64_t level = level_of(sum, len);
    return s->square[to] - s->square[from] - 2 * level * sum + len * level * level;
}
#endif
