// Segmentation of a signal by the textbook dynamic programme, as an engineer would write it in C: 64-bit integers, prefix sums, a full
// table of least losses and one of starts, every start of a last segment tried that leaves all segments min_segment_len samples (with
// 1 max_segments * n * n / 2 of them).
#include "loss.h"
#include "split.h"

struct split_answer plain_split(const int16_t *samples, size_t n, size_t max_segments, size_t min_segment_len, int64_t p, int64_t q,
                                uint16_t *starts, int16_t *levels)
{
    struct sums s;
    int64_t least[MAX_SEGMENTS + 1][MAX_SAMPLES + 1];     // least[k][j]: of k segments over the first j samples
    uint16_t before[MAX_SEGMENTS + 1][MAX_SAMPLES + 1];   // the number of samples before the last of them
    size_t most = n / min_segment_len, count = max_segments < most ? max_segments : most;

    begin_sums(&s);
    for (size_t i = 0; i < n; i++)
        add_sample(&s, i, samples[i]);
    for (size_t j = 1; j <= n; j++)
        least[1][j] = segment_loss(&s, 0, j);
    for (size_t k = 2; k <= count; k++)
        for (size_t j = k * min_segment_len; j <= n; j++) {
            int64_t best = INT64_MAX;
            size_t start = 0;
            for (size_t i = (k - 1) * min_segment_len; i + min_segment_len <= j; i++) {
                int64_t loss = least[k - 1][i] + segment_loss(&s, i, j);
                if (loss < best) {
                    best = loss;
                    start = i;
                }
            }
            least[k][j] = best;
            before[k][j] = (uint16_t)start;
        }

    // The cheapest number of segments, the smallest of these.
    size_t segments = 1;
    for (size_t k = 2; k <= count; k++)
        if (q * least[k][n] + p * (int64_t)k < q * least[segments][n] + p * (int64_t)segments)
            segments = k;

    for (size_t k = segments, j = n; k >= 1; k--) {
        size_t i = k == 1 ? 0 : before[k][j];
        starts[k - 1] = (uint16_t)(i + 1);
        levels[k - 1] = (int16_t)level_of(s.sum[j] - s.sum[i], (int64_t)(j - i));
        j = i;
    }
    return (struct split_answer){segments, least[segments][n]};
}
