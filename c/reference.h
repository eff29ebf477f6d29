// A reference for the nine calls, in plain C, written from docs/RULES.md. It finds a path by asking of each model whether it can
// be the cheapest, the path of a quadratic build by the slopes between each two models, a short signal's segmentations and the
// cheapest of them by trying all of them, and a long one's by a plain dynamic programme. On a table it tries every start of a last
// segment and adds up the squares of each segment anew.
//
// The macro FAULT plants one fault in the reference, which a test must then notice:
//
//    1  an entry whose breakpoint equals the one before it stays on a path
//    2  at a breakpoint the larger size is selected
//    3  the mean of a negative sum is cut towards zero
//    4  a level halfway between two whole numbers is the higher one
//    5  of equally good segmentations the one with the latest starts is given
//    6  the zeros behind a path end one place early
//    7  items have their high byte first
//    8  a build needs room for its path only
//    9  a bad penalty is found before an empty path, and a short buffer before a bad penalty
//   10  a signal's largest size is on its path even with the loss of the size before it
//   11  a length that is no whole number of items is found last
//   12  the test at the first entry is not counted
//   13  the scratch is zeroed up to its least length only
//   14  an append needs room for the entries that it drops
//   15  breakpoints are reduced
//   16  of the bad models of a build the lowest number is answered, and not the first one's
//   17  the shorter list of a build tells the number of its models
//   18  a loss of 2^44 is out of range
//   19  a signal of 512 samples is too long
//   20  segments are cut greedily, the best next cut first
//   21  an append finds a bad model before a bad path
//   22  a split needs room for the starts and levels that it writes only
//   23  a selection gives the cheapest entry of any list
//   24  a loss that equals the last entry's gets 7
//   25  a build compares a size with that of a model that was passed over
//   26  a test is counted for a model that is passed over
//   27  an append needs room for a model that is passed over
//   28  N in the count of tests, 2 N - 1 - M, counts models that were passed over
//   29  a model with the last entry's loss is passed over whatever its size
//   30  a build needs no room for models that are passed over
//   31  the zeros behind a build's path go no further than the number of models that were not passed over
//   32  an append puts a model that is to be passed over behind the path
//   33  an extension fills its column as far as the limit only
//   34  an extension writes 0 where a mark is due
//   35  a table is looked at one column past the samples
//   36  of a table 15 rows are looked at
//   37  of equally good starts in a table the latest is given
//   38  a split from a table answers the table's loss
//   39  an extension finds 511 samples so far too many
//   40  with a table the limit 17 is accepted
//   41  with a table the limit 16 is refused
//   42  a table one item short is accepted
//   43  a damaged table is found before a short one
//   44  a bad penalty is found before a damaged table
//   45  a table's value of 2^44 is damage
//   46  the zeros behind an extension's path end one place early
//   47  an extension zeros the bytes past a table's least length
//   48  a new value is at most that of the size below
//   49  short buffers are found before a damaged table
//   50  a mark that is missing is no damage
//   51  of a table the last sample's column is not looked at
//   52  an extension needs a place less for its path
//   53  a split from a table needs room for the starts and levels that it writes only
//   54  an extension's largest size does not count the new sample
//   55  of a table only as many rows as the limit says are looked at
//   56  no new segment consists of the new sample alone, if the size allows it
//   57  a quadratic build takes the largest size at a tie of breakpoints
//   58  a quadratic build takes the largest breakpoint in place of the smallest
//   59  a quadratic build begins at the second-largest size
//   60  a quadratic build takes in models that were passed over
//   61  a quadratic build ends before the smallest size
//   62  a quadratic build answers the tests of a build
//   63  the zeros behind a quadratic build's path go one place too far
//   64  a quadratic build leaves the places behind its path as they are
//   65  a quadratic build finds a short buffer before a bad model
//   66  a quadratic build finds too many models after a bad one
//   67  a quadratic build needs room for its path only
//   68  segments of any length count
//   69  a least length that is that of the signal gets 13
//   70  a bad penalty is found before a bad least length
//   71  the zeros behind a path go no further than the sizes that occur
//   72  a bad least length is found before a bad limit
//   73  a segment may have one sample less than the least length
//   74  room is asked for the sizes that occur only
//   75  the breakpoints that are listed have differences of sizes below
//   76  which models can win goes by their sizes
//   77  the tests of an append go by sizes
//   78  the slopes of a quadratic build go by sizes
//   79  a selection takes q * loss + p * size for the cost
//   80  a split takes q * loss + p * size for the cost
//   81  a weight that is not larger is found after a loss that is larger
//   82  a weight that is not larger is found before a size that is not
//   83  a weight that equals the last entry's is taken
//   84  a weight of 65,535 is out of range
//   85  a weight of 0 is in range
//   86  a model with the last entry's loss is passed over whatever its weight
//   87  a build compares a weight with that of a model that was passed over
//   88  the list of weights does not count the models of a build
//   89  where a build lacks a weight, the size stands in for it
//   90  the weights of a lent path need not rise
//   91  a lent path and a build have room whatever the buffer of weights is
//   92  behind a path the weights stay as they are
//   93  a byte string of weights lent with a signal may have an odd length
//   94  with a signal, weights out of order are found before those out of range
//   95  with a signal, only as many weights as the limit says are looked at for their range
//   96  with a signal, as many weights are due as sizes can occur, and not as the limit says
//   97  with a signal, only the weights of sizes that can occur have to rise
//   98  with a signal, weights that stay the same are taken
//   99  with a signal, bad weights are found before a bad least length
//  100  with a signal, a bad penalty is found before bad weights
//  101  with a signal, no weights get 14
//  102  with a signal, more weights than the limit are taken
//  103  a signal's path has the sizes for weights
//  104  an extension leaves the weights of its path as they are
//  105  the path of a signal has room whatever its buffer of weights is
//  106  the path of an extension has room whatever its buffer of weights is
//  107  a byte string of a path's weights may have an odd length
#ifndef REFERENCE_H
#define REFERENCE_H

#include "../include/foldwig.h"

#ifndef FAULT
#define FAULT 0
#endif

// A byte string with its length.
struct bytes {
    uint8_t *at;
    size_t len;
};

struct model {
    uint64_t size;
    uint64_t loss;
    uint64_t weight;
};

// Models, or a path, in three byte strings.
struct lists {
    struct bytes sizes, losses, weights;
};

// The number that stands for a short table among causes. Its refusal is 9, as for other buffers, but comes before 12.
enum { SHORT_TABLE = FOLDWIG_REFUSALS, CAUSES };

// Signals of up to this many samples are segmented by trying all segmentations, at most 12.
extern size_t reference_tries_up_to;

// How many calls on signals had least losses that rise with the size and fall again below all before. They do so only with a least
// length above 1.
extern unsigned long reference_uneven;

// Item i of a byte string whose items have so many bytes, and the same with a sign, for two bytes.
uint64_t get_item(struct bytes b, size_t width, size_t i);
int64_t get_signed(struct bytes b, size_t i);
void put_item(struct bytes b, size_t width, size_t i, uint64_t value);

// Whether model j of n models in any order is, at some penalty, strictly cheaper than each other one.
int can_win(const struct model *models, size_t n, size_t j);

// The place of the smallest of the cheapest models at the penalty p / q.
size_t cheapest(const struct model *models, size_t n, uint64_t p, uint64_t q);

// How many of n accepted models, in the order in which they came, were not passed over.
size_t not_passed_over(const struct model *models, size_t n);

// Makes the path of n models, those passed over included, that a build accepts, and answers its number of entries. It is found by
// neither method of a build: of the models that are not passed over those are entries from which every slope to a larger model is
// less than every slope to them from a smaller one.
size_t path_by_slopes(const struct model *given, size_t n, struct model *made);

// Each of these does what the call of the same name does. Bit n of *causes is set if the cause of refusal n holds, whether or not
// it is the first one.
struct foldwig_path_result reference_append(struct lists to, uint64_t entries, struct model m, unsigned *causes);
struct foldwig_path_result reference_build(struct lists given, struct lists to, unsigned *causes);
struct foldwig_path_result reference_build_quadratic(struct lists given, struct lists to, unsigned *causes);
struct foldwig_select_result reference_select(struct lists from, uint64_t entries, uint64_t p, uint64_t q, unsigned *causes);
struct foldwig_breakpoints_result reference_breakpoints(struct lists from, uint64_t entries, struct bytes numerators,
                                                        struct bytes denominators, unsigned *causes);
struct foldwig_signal_path_result reference_signal_path(struct bytes samples, uint64_t max_segments, uint64_t min_segment_len,
                                                        struct bytes weights, struct lists to, struct bytes scratch,
                                                        unsigned *causes);
struct foldwig_split_result reference_split(struct bytes samples, uint64_t max_segments, uint64_t min_segment_len,
                                            struct bytes weights, uint64_t p, uint64_t q, struct bytes starts, struct bytes levels,
                                            struct lists to, struct bytes scratch, unsigned *causes);
struct foldwig_extend_result reference_extend(struct bytes samples, int16_t sample, uint64_t max_segments, struct bytes table,
                                              struct lists to, unsigned *causes);
struct foldwig_split_from_result reference_split_from(struct bytes samples, uint64_t max_segments, uint64_t p, uint64_t q,
                                                      struct bytes table, struct bytes starts, struct bytes levels,
                                                      unsigned *causes);

#endif
