// Buffers that are lent to a call and looked at afterwards, and the comparison of each call with the reference.
//
// A test fills buffers 0, 1 and so on, in the order of the call's byte strings, and then compares the call. The library gets
// each buffer between pages that can't be read or written, often flush against one of them, with guard bytes in what is left of
// its own pages; now and then what it only reads can't be written. The reference gets a copy. Then every byte of all buffers, the
// guard bytes, and the answers are compared.
#ifndef LENT_H
#define LENT_H

#include "reference.h"
#include "span.h"

enum { BUFFERS = 8, MOST_BYTES = 3 << 15 };

// The nine calls, as the tallies number them.
enum call { APPEND, BUILD, BUILD_QUADRATIC, SELECT, BREAKPOINTS, SIGNAL_PATH, SPLIT, EXTEND, SPLIT_FROM, CALLS };

// Maps the buffers. A test has to do this once.
void map_buffers(void);

// Gives a buffer so many bytes, all random, and answers the copy that is to be filled.
struct bytes fresh(int buffer, size_t len);

// The buffer as it is, for instance as the latest call left it.
struct bytes buffer(int buffer);

// A buffer and the two behind it, which hold sizes, losses and weights.
struct lists lists(int first);

// Makes a buffer longer by some bytes, which are random.
void lengthen(int which, size_t by);

// Lengthens one of the first so many buffers by a byte; the number of buffers itself stands for none of them.
void make_odd(int which, int buffers);

// How the samples of a signal are drawn: a few values, all values, the two extremes, steps, a drift.
enum drawing { FEW, ALL, EXTREMES, STEPS, DRIFT, DRAWINGS };

// Gives a buffer n samples.
void draw_samples(int which, size_t n, enum drawing drawing);

// Each makes one call with the buffers and compares it. The builds are two calls on the same bytes, a build and a quadratic one,
// which are compared with each other besides; the answer is that of the build.
struct foldwig_path_result compare_append(uint64_t entries, struct model m);
struct foldwig_path_result compare_builds(void);
struct foldwig_select_result compare_select(uint64_t entries, uint64_t p, uint64_t q);
struct foldwig_breakpoints_result compare_breakpoints(uint64_t entries);
struct foldwig_signal_path_result compare_signal_path(uint64_t max_segments, uint64_t min_segment_len);
struct foldwig_split_result compare_split(uint64_t max_segments, uint64_t min_segment_len, uint64_t p, uint64_t q);
struct foldwig_extend_result compare_extend(int16_t sample, uint64_t max_segments);
struct foldwig_split_from_result compare_split_from(uint64_t max_segments, uint64_t p, uint64_t q);

// Counts a mismatch if something that must be so is not so. After ten mismatches the test ends.
void expect(int so, const char *what);

// Prints what was compared, and answers the status of the program: 0 if nothing differed and if every refusal, every pair of
// causes that can meet, null for every byte string and models that are passed over were seen.
int summary(void);

#endif
