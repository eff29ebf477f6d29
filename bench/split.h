// The two implementations in C that the benchmark compares with: the same answers as the library's segmentation call on accepted
// input.
#ifndef SPLIT_H
#define SPLIT_H
#include "signals.h"

enum { MAX_SEGMENTS = 32 };

// A segmentation: the number of segments and their loss. Starts and levels are written to the caller's arrays.
struct split_answer {
    size_t segments;
    int64_t loss;
};

// The best segmentation of 1 to 512 samples into at most max_segments segments (1 to 32) at the penalty p / q: by the textbook
// (plain.c), with segments of min_segment_len samples or more, and with a full table of least losses by columns and an early stop
// (full.c), with segments of any length.
struct split_answer plain_split(const int16_t *samples, size_t n, size_t max_segments, size_t min_segment_len, int64_t p, int64_t q,
                                uint16_t *starts, int16_t *levels);
struct split_answer full_split(const int16_t *samples, size_t n, size_t max_segments, int64_t p, int64_t q, uint16_t *starts,
                               int16_t *levels);
#endif
