// The kinds of signals that the benchmark runs on, and the random numbers they are drawn from: the same each time.
#ifndef SIGNALS_H
#define SIGNALS_H
#include <stdbool.h>
#include <stddef.h>
#include <stdint.h>

// The most samples of a signal, and the draws of a kind whose signals differ from draw to draw.
enum { MAX_SAMPLES = 512, DRAWS = 6 };

enum kind {
    RANDOM,
    STEPS,
    RAMP,
    CONSTANT,
    SAWTOOTH,
    FLOW_5,
    FLOW_15,
    FLOW_30,
    DRIFT,
    ALTERNATING,
    SPIKES,
    BUSY_THEN_QUIET,
    KINDS
};

extern const char *const kind_names[KINDS];

enum { MAX_SIGNALS = DRAWS * KINDS };

struct signal {
    enum kind kind;
    unsigned draw;      // from 0 on
    size_t n;
    int16_t samples[MAX_SAMPLES];
};

// How many draws a kind has: 1 where its signals have nothing of chance.
unsigned draws_of(enum kind kind);

// All signals of n samples, 2 to 512: the kinds in order, and of each its draws. What a signal has of chance depends on the kind, the
// draw and n alone. Answers how many they are.
int make_signals(struct signal *signals, size_t n);

// A random number from low to high.
int random_in(int low, int high);
#endif
