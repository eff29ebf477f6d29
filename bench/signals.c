#include "signals.h"

const char *const kind_names[KINDS] = {
    "random",          "steps",           "ramp",  "constant",    "sawtooth", "flow, 5 levels",
    "flow, 15 levels", "flow, 30 levels", "drift", "alternating", "spikes",   "busy, then quiet",
};

static uint64_t state = 88172645463325252u;

static uint64_t random64(void)
{
    state ^= state << 13;
    state ^= state >> 7;
    state ^= state << 17;
    return state;
}

int random_in(int low, int high)
{
    return low + (int)(random64() % (uint64_t)(high - low + 1));
}

// Noise around 0, bell-shaped, of about this deviation.
static int noise(int deviation)
{
    int sum = 0;
    for (int i = 0; i < 12; i++)
        sum += random_in(-1000, 1000);
    return sum * deviation / 2000;
}

static int16_t clip(int value)
{
    return (int16_t)(value < INT16_MIN ? INT16_MIN : value > INT16_MAX ? INT16_MAX : value);
}

unsigned draws_of(enum kind kind)
{
    return kind != RAMP && kind != CONSTANT && kind != SAWTOOTH && kind != ALTERNATING ? DRAWS : 1;
}

// A flow that holds up to so many levels, each from a random sample on, with noise that grows with the level.
static void make_flow(int levels, int n, int16_t *samples)
{
    bool changes[MAX_SAMPLES] = {true};
    int level = 0;
    for (int i = 1; i < levels; i++)
        changes[random_in(1, n - 1)] = true;
    for (int i = 0; i < n; i++) {
        if (changes[i])
            level = random_in(500, 6000);
        samples[i] = clip(level + noise(40 + level / 50));
    }
}

// Sample i of n. The number at `carried` is kept from sample to sample.
static int16_t sample_of(enum kind kind, int i, int n, int *carried)
{
    enum { EQUAL_STEPS = 12, TOOTH = 37 };
    switch (kind) {
    case RANDOM:
        return (int16_t)random_in(INT16_MIN, INT16_MAX);
    case STEPS:
        if (i == 0 || i * EQUAL_STEPS / n != (i - 1) * EQUAL_STEPS / n)
            *carried = random_in(-2000, 2000);
        return (int16_t)(*carried + random_in(-20, 20));
    case RAMP:
        return (int16_t)(100 * (i - n / 2));
    case SAWTOOTH:
        return (int16_t)(200 * (i % TOOTH) - 3000);
    case DRIFT:
        *carried += noise(30);
        return clip(*carried + noise(60));
    case ALTERNATING:
        return i % 2 == 0 ? -1000 : 1000;
    case SPIKES:
        return (int16_t)(random_in(0, 11) == 0 ? random_in(1000, 20000) : 0);
    case BUSY_THEN_QUIET:
        if (i >= n / 4)
            return (int16_t)(1000 + noise(3));
        return (int16_t)(i / 4 % 2 == 0 ? random_in(0, 500) : random_in(2000, 9000));
    default:
        return 1234;
    }
}

static void make_signal(enum kind kind, unsigned draw, size_t n, int16_t *samples)
{
    int carried = 0;
    state = 88172645463325252u ^ (1 + (uint64_t)draw) * 0x9e3779b97f4a7c15u;
    for (int i = 0; i < 20; i++)
        random64();
    if (kind == FLOW_5 || kind == FLOW_15 || kind == FLOW_30)
        make_flow(kind == FLOW_5 ? 5 : kind == FLOW_15 ? 15 : 30, (int)n, samples);
    else
        for (int i = 0; i < (int)n; i++)
            samples[i] = sample_of(kind, i, (int)n, &carried);
}

int make_signals(struct signal *signals, size_t n)
{
    int count = 0;
    for (enum kind kind = 0; kind < KINDS; kind++)
        for (unsigned draw = 0; draw < draws_of(kind); draw++) {
            signals[count].kind = kind;
            signals[count].draw = draw;
            signals[count].n = n;
            make_signal(kind, draw, n, signals[count].samples);
            count++;
        }
    return count;
}
