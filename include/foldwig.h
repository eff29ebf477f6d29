/*
 * Foldwig: segmentation of a signal at a penalty on the number of segments, and the path of the sizes that can be the cheapest.
 *
 * This header is for C99 and for C++, on x86-64 with the usual calling convention of Linux. docs/RULES.md states all that the
 * calls do; R1 to R59, R94 to R96 and R98 to R106 are its rules for them.
 *
 * Numbers in memory. Lists stand in byte strings, low byte first, without any demand on alignment:
 *
 *   samples, levels                       two bytes, two's complement
 *   starts, sizes, weights, denominators  two bytes, no sign
 *   losses, numerators, table values      eight bytes, no sign
 *   scratch                               bytes
 *
 * A byte string is lent as a pointer followed by its length in bytes. The number of its items is the length divided by the width
 * of an item. Of buffers that hold one thing together, the shortest one counts. A null pointer may come with the length 0.
 *
 * Weights. Every model, and so every entry of a path, has a weight beside its size and its loss: the penalty is paid on it. At the
 * penalty p / q a model costs q * loss + p * weight. Along a path sizes and weights rise and losses fall, all of them strictly.
 * Where weights equal the sizes, the penalty is one on the size. The calls on a signal are given a list of weights: an empty one,
 * and then the weight of a size is the size itself, or one weight for each size from 1 to max_segments, also where there are fewer
 * samples. With a table every weight is the size.
 *
 * Entries. The calls on a path stand once more with _entries at the end of their names, for a path and for models that lie in one
 * array of struct foldwig_entry, aligned as C aligns it. Such an array is lent as a pointer followed by the number of its elements,
 * and so are the two arrays of numbers that foldwig_breakpoints_entries writes. What these calls do to the sizes, the losses and the
 * weights is what the others do to three lists of numbers, and their refusals are the same, in the same order, without 11.
 *
 * Tables. A signal that still grows is kept with a table, in which foldwig_extend notes what it found for each sample, so that the
 * next sample takes little time. A table is FOLDWIG_TABLE_LEN bytes: 16 rows of 512 values, row after row. The value for size k
 * and position j, k from 1 to 16 and j from 1 to 512, stands at byte 8 * (512 * (k - 1) + (j - 1)). It is the least loss that k
 * segments of the first j samples can have, and all ones, the mark, where k is more than j. So each sample has a column of 16
 * values. A new table needs no preparation: of n samples the first n columns are looked at, and what the others hold is neither
 * looked at nor altered, except that the column of a new sample is filled. Of a table that is lent longer, the bytes past
 * FOLDWIG_TABLE_LEN are not touched. Only bytes are lent: the caller keeps the table and the samples, and may copy them, store them
 * or go on with them in another process. A copy of both goes on as the original does.
 * A table is as the calls left it if each of the samples was given to foldwig_extend in turn, from no samples on, under whatever
 * limits, and nothing else has written to their columns since. With such a table the path and the segments are those that
 * foldwig_signal_path and foldwig_split give for the samples with min_segment_len 1 and no weights. With any other table that is
 * not refused the calls work on the values as they stand.
 *
 * Refusals. No call has a precondition on values: each answers a struct by value, and its first field is 0 if the call was
 * accepted and else a number of enum foldwig_refusal. Several causes may hold at once; the first one in the order given with the
 * call decides. A refused call answers 0 in all other fields and alters no byte that was lent to it.
 *
 * Memory. A buffer that a call writes must not overlap anything else that is lent to the same call. The library takes no memory
 * but the stack, of which a call takes at most as much as is said with it.
 *
 * Threads. Calls share no state and keep none, so any thread may call at any time, also while another one is in a call, as long
 * as no buffer that one of them writes is used by the other.
 */
#ifndef FOLDWIG_H
#define FOLDWIG_H

#include <stddef.h>
#include <stdint.h>

#ifdef __cplusplus
extern "C" {
#endif

/* Limits. Each is the largest number that is accepted. */
#define FOLDWIG_MAX_SAMPLES 512                         /* samples of a signal, from 1 on */
#define FOLDWIG_MAX_SEGMENTS 32                         /* the limit max_segments, from 1 on */
#define FOLDWIG_MAX_STREAM_SEGMENTS 16                  /* the same for the calls with a table */
#define FOLDWIG_MAX_MODELS 4096                         /* models of a build, from 1 on */
#define FOLDWIG_MAX_ENTRIES 4096                        /* entries of a path */
#define FOLDWIG_MAX_SIZE 65535                          /* a size, from 1 on */
#define FOLDWIG_MAX_LOSS UINT64_C(17592186044416)       /* a loss: 2^44 */
#define FOLDWIG_MAX_WEIGHT 65535                        /* a weight, from 1 on */
#define FOLDWIG_MAX_P UINT64_C(17592186044416)          /* the penalty's numerator: 2^44 */
#define FOLDWIG_MAX_Q 65535                             /* the penalty's denominator, from 1 on */

/* The least length of the scratch in bytes. */
#define FOLDWIG_SCRATCH_LEN 31744

/* The least length of a table in bytes. */
#define FOLDWIG_TABLE_LEN 65536

/* The most stack that each call takes, in bytes, as measured by c/stack.c and rounded up. */
#define FOLDWIG_APPEND_STACK 600
#define FOLDWIG_BUILD_STACK 99000
#define FOLDWIG_BUILD_QUADRATIC_STACK 99000
#define FOLDWIG_SELECT_STACK 600
#define FOLDWIG_BREAKPOINTS_STACK 600
#define FOLDWIG_APPEND_ENTRIES_STACK 600
#define FOLDWIG_BUILD_ENTRIES_STACK 99000
#define FOLDWIG_BUILD_QUADRATIC_ENTRIES_STACK 99000
#define FOLDWIG_SELECT_ENTRIES_STACK 600
#define FOLDWIG_BREAKPOINTS_ENTRIES_STACK 600
#define FOLDWIG_SIGNAL_PATH_STACK 26000
#define FOLDWIG_SPLIT_STACK 26000
#define FOLDWIG_EXTEND_STACK 7000
#define FOLDWIG_SPLIT_FROM_STACK 6000

/* The widths of items in bytes. */
#define FOLDWIG_SAMPLE_LEN 2
#define FOLDWIG_LEVEL_LEN 2
#define FOLDWIG_START_LEN 2
#define FOLDWIG_SIZE_LEN 2
#define FOLDWIG_LOSS_LEN 8
#define FOLDWIG_WEIGHT_LEN 2
#define FOLDWIG_NUMERATOR_LEN 8
#define FOLDWIG_DENOMINATOR_LEN 2

/* What the first field of an answer says. */
enum foldwig_refusal {
    FOLDWIG_ACCEPTED = 0,             /* The call was accepted. */
    FOLDWIG_NOTHING_GIVEN = 1,        /* The signal has no samples, or the build has no models. */
    FOLDWIG_TOO_MANY = 2,             /* The signal has more than 512 samples, or the build more than 4,096 models. */
    FOLDWIG_BAD_LIMIT = 3,            /* max_segments is 0 or more than 32, or, with a table, more than 16. */
    FOLDWIG_BAD_PENALTY = 4,          /* p is more than 2^44, or q is 0 or more than 65,535. */
    FOLDWIG_BAD_MODEL = 5,            /* A new model, or a weight lent with a signal, is out of range, or a new model's size, loss or
                                         weight is lacking. */
    FOLDWIG_SIZE_NOT_LARGER = 6,      /* A new size is not larger than the last entry's. */
    FOLDWIG_LOSS_LARGER = 7,          /* A new loss is larger than the last entry's. */
    FOLDWIG_BAD_PATH = 8,             /* The path lent is out of range or out of order, or shorter than its number of entries. */
    FOLDWIG_NO_ROOM = 9,              /* A buffer is too short. */
    FOLDWIG_EMPTY_PATH = 10,          /* There is no entry to select. */
    FOLDWIG_BAD_LENGTH = 11,          /* A byte string ends inside an item: its length is not divisible by the width. */
    FOLDWIG_TABLE_DAMAGED = 12,       /* In a sample's column a mark is missing, or a value is more than 2^44. */
    FOLDWIG_BAD_MIN_SEGMENT_LEN = 13, /* min_segment_len is 0 or more than the number of samples. */
    FOLDWIG_BAD_WEIGHTS = 14          /* A new weight is not larger than the last entry's, or the weights lent with a signal are not
                                         each above the one before, or not as many as max_segments. */
};

/* The number of refusals with 0, and a short text for each: the initialiser of an array of so many strings. */
#define FOLDWIG_REFUSALS 15
#define FOLDWIG_REFUSAL_TEXTS                                                                                                    \
    {                                                                                                                            \
        "accepted", "no samples or no models", "too many samples or models", "limit out of range", "penalty out of range",       \
            "model or weight out of range or lacking", "new size not larger than the last", "new loss larger than the last",     \
            "path out of range, out of order or too long", "buffer too short", "path without entries",                           \
            "length not a whole number of items", "table damaged", "least length out of range",                                  \
            "weights not rising or not as many as the limit"                                                                     \
    }

/* A model, or an entry of a path. */
struct foldwig_entry {
    uint64_t size;
    uint64_t loss;
    uint64_t weight;
};

/* The answer of an append and of a build. A build by the older method makes no tests and answers 0 for them. */
struct foldwig_path_result {
    uint64_t refusal;
    uint64_t entries;   /* how many entries the path has now */
    uint64_t tests;     /* how many tests were made */
};

/* The answer of a selection. */
struct foldwig_select_result {
    uint64_t refusal;
    uint64_t index;     /* the entry's place, counted from 0 */
    uint64_t size;
    uint64_t loss;
    uint64_t weight;
};

/* The answer of a listing of breakpoints. */
struct foldwig_breakpoints_result {
    uint64_t refusal;
    uint64_t count;     /* how many breakpoints there are */
};

/* The answer of a call for the path of a signal. */
struct foldwig_signal_path_result {
    uint64_t refusal;
    uint64_t entries;   /* how many entries the path has */
};

/* The answer of a split. */
struct foldwig_split_result {
    uint64_t refusal;
    uint64_t segments;  /* how many segments there are */
    uint64_t loss;      /* the loss of all segments together */
    uint64_t entries;   /* how many entries the path has */
};

/* The answer of an extension. */
struct foldwig_extend_result {
    uint64_t refusal;
    uint64_t entries;   /* how many entries the path has */
};

/* The answer of a split from a table. */
struct foldwig_split_from_result {
    uint64_t refusal;
    uint64_t segments;  /* how many segments there are */
    uint64_t loss;      /* the loss of all segments together */
};

/*
 * Appends a model, size with loss and weight, to the path of so many entries in sizes, losses and weights (R10 to R16). It drops
 * the entries that can no longer be the cheapest, puts the model behind those that stay, and zeros the places from the new end to
 * the old one. All other places stay. 0 entries mean an empty path, whatever the buffers hold. A model with a larger size and a
 * larger weight than the last entry's and the same loss is passed over: it is accepted with 0 tests, even if there is no place
 * left, no byte changes, and its size and its weight are forgotten.
 * Refusals, in order: 11, 8, 5, 6, 14, 7, 9. The buffers need places for the path as it is afterwards, without dropped entries.
 * Stack: 600 bytes.
 */
struct foldwig_path_result foldwig_append(uint8_t *sizes, size_t sizes_len, uint8_t *losses, size_t losses_len, uint8_t *weights,
                                          size_t weights_len, uint64_t entries, uint64_t size, uint64_t loss, uint64_t weight);

/*
 * Builds the path of a list of models, as appending them one by one to an empty path would (R10, R17). sizes, losses and weights
 * hold the models; the longest list tells how many there are, and a model without its size, its loss or its weight is a bad one.
 * The path is written to the front of path_sizes, path_losses and path_weights, with zeros behind it as far as the number of
 * models. All other places stay. A model with a larger size and a larger weight than the last entry so far and the same loss is
 * passed over: it gets no test, and the path goes on without it.
 * Refusals, in order: 11, 1, 2, then at the first bad model 5, 6, 14 or 7, then 9. The buffers need a place for each model, passed
 * over or not.
 * Stack: 99,000 bytes.
 */
struct foldwig_path_result foldwig_build(const uint8_t *sizes, size_t sizes_len, const uint8_t *losses, size_t losses_len,
                                         const uint8_t *weights, size_t weights_len, uint8_t *path_sizes, size_t path_sizes_len,
                                         uint8_t *path_losses, size_t path_losses_len, uint8_t *path_weights,
                                         size_t path_weights_len);

/*
 * Builds the path of a list of models as foldwig_build does, by an older method (R94 to R96). The last entry is the largest of the
 * models that are not passed over. Before each entry stands the one of all smaller models whose breakpoint to it is least, and of
 * several such the smallest, back to the smallest model. How the models are given, how the path is written and what is refused is
 * as foldwig_build has it, and on every list the outcome is the same but for the tests: this method makes none, and they are 0. It
 * is there as a yardstick. Its time grows with the number of models times the number of entries, where that of foldwig_build grows
 * with the number of models.
 * Refusals, in order: 11, 1, 2, then at the first bad model 5, 6, 14 or 7, then 9. The buffers need a place for each model, passed
 * over or not.
 * Stack: 99,000 bytes.
 */
struct foldwig_path_result foldwig_build_quadratic(const uint8_t *sizes, size_t sizes_len, const uint8_t *losses,
                                                   size_t losses_len, const uint8_t *weights, size_t weights_len,
                                                   uint8_t *path_sizes, size_t path_sizes_len, uint8_t *path_losses,
                                                   size_t path_losses_len, uint8_t *path_weights, size_t path_weights_len);

/*
 * Selects an entry of the path of so many entries at the penalty p / q (R20 to R23): from the first entry on it moves to the next
 * one as long as that costs less, where a model costs q * loss + p * weight. On a path that the library made this is the cheapest
 * of all its models, and the one with the smallest size of several. It writes nothing.
 * Refusals, in order: 11, 8, 10, 4.
 * Stack: 600 bytes.
 */
struct foldwig_select_result foldwig_select(const uint8_t *sizes, size_t sizes_len, const uint8_t *losses, size_t losses_len,
                                            const uint8_t *weights, size_t weights_len, uint64_t entries, uint64_t p, uint64_t q);

/*
 * Lists the breakpoints of the path of so many entries (R11, R24). Each is the difference of two losses over that of the weights,
 * not reduced, and stands at the front of numerators and denominators in the order of the entries. All other places stay.
 * A path of one entry or of none has no breakpoint, and the count is then 0.
 * Refusals, in order: 11, 8, 9. The buffers need a place for each breakpoint.
 * Stack: 600 bytes.
 */
struct foldwig_breakpoints_result foldwig_breakpoints(const uint8_t *sizes, size_t sizes_len, const uint8_t *losses,
                                                      size_t losses_len, const uint8_t *weights, size_t weights_len,
                                                      uint64_t entries, uint8_t *numerators, size_t numerators_len,
                                                      uint8_t *denominators, size_t denominators_len);

/*
 * Appends a model to the path of n entries at the front of an array, as foldwig_append does.
 * Refusals, in order: 8, 5, 6, 14, 7, 9.
 * Stack: 600 bytes.
 */
struct foldwig_path_result foldwig_append_entries(struct foldwig_entry *entries, size_t entries_len, uint64_t n, uint64_t size,
                                                  uint64_t loss, uint64_t weight);

/*
 * Builds the path of an array of models at the front of an array of entries, as foldwig_build does.
 * Refusals, in order: 1, 2, then at the first bad model 5, 6, 14 or 7, then 9.
 * Stack: 99,000 bytes.
 */
struct foldwig_path_result foldwig_build_entries(const struct foldwig_entry *models, size_t models_len,
                                                 struct foldwig_entry *entries, size_t entries_len);

/*
 * Builds the path of an array of models at the front of an array of entries by the older method, as foldwig_build_quadratic does
 * (R94 to R96). The tests are 0, and all else is as foldwig_build_entries has it. It is a yardstick as well: its time grows with the
 * number of models times the number of entries.
 * Refusals, in order: 1, 2, then at the first bad model 5, 6, 14 or 7, then 9.
 * Stack: 99,000 bytes.
 */
struct foldwig_path_result foldwig_build_quadratic_entries(const struct foldwig_entry *models, size_t models_len,
                                                           struct foldwig_entry *entries, size_t entries_len);

/*
 * Selects an entry of the path of n entries at the front of an array at the penalty p / q, as foldwig_select does.
 * Refusals, in order: 8, 10, 4.
 * Stack: 600 bytes.
 */
struct foldwig_select_result foldwig_select_entries(const struct foldwig_entry *entries, size_t entries_len, uint64_t n,
                                                    uint64_t p, uint64_t q);

/*
 * Lists the breakpoints of the path of n entries at the front of an array, as foldwig_breakpoints does.
 * Refusals, in order: 8, 9.
 * Stack: 600 bytes.
 */
struct foldwig_breakpoints_result foldwig_breakpoints_entries(const struct foldwig_entry *entries, size_t entries_len, uint64_t n,
                                                              uint64_t *numerators, size_t numerators_len,
                                                              uint64_t *denominators, size_t denominators_len);

/*
 * Gives the path of a signal (R25 to R31) cut into segments of min_segment_len samples or more (R98): the sizes from 1 to
 * max_segments, as far as there are samples enough for so many segments, that can be the cheapest at some penalty, each with the
 * least loss that so many of them can have and with its weight. With min_segment_len 1 every segment counts. weights holds the
 * weights of the sizes from 1 to max_segments, or nothing, and then each size is its own weight (R103). The path is written to the
 * front of path_sizes, path_losses and path_weights, with zeros behind it as far as the smaller of max_segments and the number
 * of samples. All other places stay. The scratch may hold anything before, and every byte of it is zero afterwards.
 * Refusals, in order: 11, 1, 2, 3, 13, 5, 14, 9. For 5 every weight lent is looked at, wherever it stands, before 14 looks at any;
 * 14 is for weights that are not each above the one before, or that are some, but not max_segments of them (R104). The path's
 * buffers need as many places as the smaller of max_segments and the number of samples, and the scratch FOLDWIG_SCRATCH_LEN bytes.
 * Stack: 26,000 bytes.
 */
struct foldwig_signal_path_result foldwig_signal_path(const uint8_t *samples, size_t samples_len, uint64_t max_segments,
                                                      uint64_t min_segment_len, const uint8_t *weights, size_t weights_len,
                                                      uint8_t *path_sizes, size_t path_sizes_len, uint8_t *path_losses,
                                                      size_t path_losses_len, uint8_t *path_weights, size_t path_weights_len,
                                                      uint8_t *scratch, size_t scratch_len);

/*
 * Splits a signal at the penalty p / q into 1 to max_segments segments of min_segment_len samples or more, so that
 * q * loss + p * weight is least, where the weight is that of the number of segments, with as few segments as that allows (R25 to
 * R35, R98, R103). The weights are as foldwig_signal_path has them. Of the best segmentations of this size it gives the one whose
 * last segment starts earliest, then the one before it, and so on. The starts, counted from 1, and the levels go to the front of
 * two buffers, and the rest of both stays. The path of the signal and the scratch are as foldwig_signal_path leaves them.
 * Refusals, in order: 11, 1, 2, 3, 13, 5, 14, 4, 9, where 5 and 14 are those of foldwig_signal_path. The starts, the levels and
 * the path's buffers need as many places as the smaller of max_segments and the number of samples, even if fewer segments come
 * out, and the scratch FOLDWIG_SCRATCH_LEN bytes.
 * Stack: 26,000 bytes.
 */
struct foldwig_split_result foldwig_split(const uint8_t *samples, size_t samples_len, uint64_t max_segments,
                                          uint64_t min_segment_len, const uint8_t *weights, size_t weights_len, uint64_t p,
                                          uint64_t q, uint8_t *starts, size_t starts_len, uint8_t *levels, size_t levels_len,
                                          uint8_t *path_sizes, size_t path_sizes_len, uint8_t *path_losses,
                                          size_t path_losses_len, uint8_t *path_weights, size_t path_weights_len,
                                          uint8_t *scratch, size_t scratch_len);

/*
 * Extends a table by one more sample, and gives the path of all samples with it. samples holds those so far, perhaps none. The
 * column of the new sample is filled, all 16 values under any limit: for one segment its loss, and for a larger size the least
 * sum, over the places where its last segment can start, of the value for one segment fewer before that and of the last segment's
 * loss. The path is made of the new column's values for the sizes from 1 to max_segments, at most the number of samples with the
 * new one; a size whose value is not below the last entry's loss is skipped. It is written to the front of path_sizes, path_losses
 * and path_weights, where each weight is the size, with zeros behind it as far as the largest of these sizes. All other places and
 * all other bytes of the table stay. The call does not append the sample to samples: the caller does so before the next call.
 * Refusals, in order: 11, 2 if the samples with the new one are more than 512, 3, 9 for a table that is too short, 12, 9. For 12
 * all 16 rows of the columns of the samples so far are looked at, under any limit. The path's buffers need as many places as the
 * smaller of max_segments and the number of samples with the new one.
 * Stack: 7,000 bytes.
 */
struct foldwig_extend_result foldwig_extend(const uint8_t *samples, size_t samples_len, int16_t sample, uint64_t max_segments,
                                            uint8_t *table, size_t table_len, uint8_t *path_sizes, size_t path_sizes_len,
                                            uint8_t *path_losses, size_t path_losses_len, uint8_t *path_weights,
                                            size_t path_weights_len);

/*
 * Splits the samples at the penalty p / q with the table that foldwig_extend has filled for all of them. It selects the number of
 * segments from the path that the last sample's column gives under max_segments. The last segment starts at the place that makes
 * the sum of foldwig_extend least, at the earliest of several; so does the one before it among the samples that are left, and so
 * on. The starts, counted from 1, and the levels go to the front of two buffers, and the rest of both stays. The loss is the sum
 * of the segments' own losses, whatever the table says. The table is only read.
 * Refusals, in order: 11, 1, 2, 3, 9 for a table that is too short, 12, 4, 9. For 12 all 16 rows of the columns of all samples are
 * looked at, under any limit. starts and levels need as many places as the smaller of max_segments and the number of samples, even
 * if fewer segments come out.
 * Stack: 6,000 bytes.
 */
struct foldwig_split_from_result foldwig_split_from(const uint8_t *samples, size_t samples_len, uint64_t max_segments, uint64_t p,
                                                    uint64_t q, const uint8_t *table, size_t table_len, uint8_t *starts,
                                                    size_t starts_len, uint8_t *levels, size_t levels_len);

#ifdef __cplusplus
}
#endif

#endif
