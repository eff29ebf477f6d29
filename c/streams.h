// The tests of the calls with a table.
#ifndef STREAMS_H
#define STREAMS_H

#include <stddef.h>

// Worked figures, and each limit with one less or one more.
void stream_figures(void);

// Refusals: the causes of both calls are brought together in all ways.
void meet_streams(void);

// Signals that grow from no samples to so many. At every step the path and splits are compared with what fresh calls on the same
// samples give; at the end bytes of the table are altered, where the calls look at them and where they do not.
void growing_signals(int turns, size_t longest);

// Tables that no call has left.
void other_tables(int turns);

// The largest calls, for a thread with a small stack.
void stream_at_limit(void);

#endif
