// A growing table of least losses by the textbook, as an engineer would write it in C: 64-bit integers, prefix sums, and for each new
// sample all 16 sizes with every start of the last segment tried, a division for each, no early stop. It has it easier than the
// library, which is lent samples and table anew in each call: it keeps its prefix sums from sample to sample and tests nothing that it
// is given. Nor does it make the path, of at most 16 models for each sample; it is not needed, as the paths are compared without it.
#include "season_plain.h"

void plain_begin(struct plain_table *t)
{
    t->n = 0;
    begin_sums(&t->sums);
}

void plain_extend(struct plain_table *t, int16_t sample)
{
    add_sample(&t->sums, t->n, sample);
    size_t j = ++t->n;
    t->least[0][j - 1] = (uint64_t)segment_loss(&t->sums, 0, j);
    for (size_t k = 2; k <= TABLE_ROWS; k++) {
        uint64_t best = UINT64_MAX;     // stays where there are more segments than samples
        for (size_t i = k - 1; i < j; i++) {
            uint64_t loss = t->least[k - 2][i - 1] + (uint64_t)segment_loss(&t->sums, i, j);
            if (loss < best)
                best = loss;
        }
        t->least[k - 1][j - 1] = best;
    }
}

// Four rows at a time, and in turns from the first ones on or from the last: what was read last is then at hand. The fastest of the ways
// that were tried with these flags of the compiler.
uint64_t plain_look(const struct plain_table *t, size_t n)
{
    uint64_t bits = 0;
    for (size_t i = 0; i < TABLE_ROWS; i += 4) {
        size_t k = n % 2 == 0 ? i : TABLE_ROWS - 4 - i;
        for (size_t j = 0; j < n; j++)
            bits |= t->least[k][j] | t->least[k + 1][j] | t->least[k + 2][j] | t->least[k + 3][j];
    }
    return bits;
}
