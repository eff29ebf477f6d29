// The same dynamic programme with more memory and an early stop, as an engineer would write it for speed: the least losses of every
// number of segments over every number of samples stand in one table by columns, a column for each number of samples. So the loss
// of a last segment is had once, by one 32-bit division, and serves all numbers of segments, whose sums stand side by side. From
// the latest start down, the search of a number of segments ends where the last segment's own loss exceeds its best sum so far.
#include "split.h"

// The tables take 131,328 and 32,832 bytes, and the sums 6,156.
struct tables {
    int64_t least[MAX_SAMPLES + 1][MAX_SEGMENTS];    // least[j][k]: of k + 1 segments over the first j samples
    uint16_t before[MAX_SAMPLES + 1][MAX_SEGMENTS];  // the number of samples before the last of them
    int64_t square[MAX_SAMPLES + 1];                 // prefix sums of samples and of squares
    int32_t sum[MAX_SAMPLES + 1];
};

static void add_up(struct tables *t, const int16_t *samples, size_t n)
{
    t->sum[0] = 0;
    t->square[0] = 0;
    for (size_t i = 0; i < n; i++) {
        int32_t x = samples[i];
        t->sum[i + 1] = t->sum[i] + x;
        t->square[i + 1] = t->square[i] + (int64_t)x * x;
    }
}

// The whole number nearest sum / len; of two equally near, the lower. Raised by 2^15, a level is not negative.
static inline int32_t level_of(int32_t sum, int32_t len)
{
    uint32_t raised = (uint32_t)(sum + 32768 * len);
    return (int32_t)((2 * raised + (uint32_t)len - 1) / (2 * (uint32_t)len)) - 32768;
}

// The loss of samples from + 1 to to as one segment.
static inline int64_t segment_loss(const struct tables *t, size_t from, size_t to)
{
    int32_t len = (int32_t)(to - from);
    int32_t sum = t->sum[to] - t->sum[from];
    int64_t level = level_of(sum, len);
    return t->square[to] - t->square[from] + level * (level * len - 2 * (int64_t)sum);
}

// Fills column j: the least losses of 1 to count segments over the first j samples.
static void fill_column(struct tables *t, size_t j, size_t count)
{
    int64_t least[MAX_SEGMENTS];
    uint16_t before[MAX_SEGMENTS];
    size_t open = count < j ? count : j; // the numbers of segments whose search goes on are 2 to open
    for (size_t k = 0; k < open; k++) {
        least[k] = INT64_MAX;
        before[k] = 0;
    }
    size_t filled = open;
    for (size_t i = j - 1; i >= 1; i--) {
        int64_t own = segment_loss(t, i, j);
        if (open > i + 1)
            open = i + 1;
        while (open > 1 && own > least[open - 1])
            open--;
        if (open < 2)
            break;
        const int64_t *column = t->least[i];
        for (size_t k = 1; k < open; k++) {
            int64_t loss = column[k - 1] + own;
            before[k] = loss <= least[k] ? (uint16_t)i : before[k];
            least[k] = loss <= least[k] ? loss : least[k];
        }
    }
    least[0] = segment_loss(t, 0, j);
    for (size_t k = 0; k < filled; k++) {
        t->least[j][k] = least[k];
        t->before[j][k] = before[k];
    }
}

struct split_answer full_split(const int16_t *samples, size_t n, size_t max_segments, int64_t p, int64_t q, uint16_t *starts,
                               int16_t *levels)
{
    struct tables t;
    size_t count = max_segments < n ? max_segments : n;
    add_up(&t, samples, n);
    for (size_t j = 1; j <= n; j++)
        fill_column(&t, j, count);

    // The cheapest number of segments, the smallest of these.
    const int64_t *losses = t.least[n];
    size_t segments = 1;
    for (size_t k = 2; k <= count; k++)
        if (q * losses[k - 1] + p * (int64_t)k < q * losses[segments - 1] + p * (int64_t)segments)
            segments = k;

    for (size_t k = segments, j = n; k >= 1; k--) {
        size_t i = t.before[j][k - 1];
        starts[k - 1] = (uint16_t)(i + 1);
        levels[k - 1] = (int16_t)level_of(t.sum[j] - t.sum[i], (int32_t)(j - i));
        j = i;
    }
    return (struct split_answer){segments, losses[segments - 1]};
}
