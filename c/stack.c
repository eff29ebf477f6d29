// Measures the stack of each call: paints the unused part of a thread's stack, makes the call, and looks how far down the paint
// is gone. It does so for several inputs and prints the most bytes between the caller's frame and the lowest byte written. It ends
// with status 1 if they are more than the header says.
#define _DEFAULT_SOURCE
#include "../include/foldwig.h"
#include <pthread.h>
#include <stdio.h>
#include <stdlib.h>
#include <string.h>
#include <sys/mman.h>

enum { STACK = 1 << 20, MARGIN = 512, PAINT = 0x5d, MODELS = 4096, CALLS = 14 };

// The inputs, all of the largest lengths: models that all stay on the path and a signal that goes up and down; models on a line,
// which drop each other, and a signal of one level; a path with a bad last entry and a limit that is refused. Each column of the
// table has values that stay or drop in the same way.
enum { STAYING, DROPPING, REFUSED, INPUTS };

static uint64_t limit;
static uint8_t sizes[2 * MODELS], losses[8 * MODELS], weights[2 * MODELS];
static uint8_t path_sizes[2 * MODELS], path_losses[8 * MODELS], path_weights[2 * MODELS];
static struct foldwig_entry models[MODELS], entries[MODELS];
static uint64_t numerators[MODELS], denominators[MODELS];
static uint8_t samples[2 * FOLDWIG_MAX_SAMPLES], starts[64], levels[64], scratch[FOLDWIG_SCRATCH_LEN];
static uint8_t table[FOLDWIG_TABLE_LEN];
static uint8_t *stack;

static void put(uint8_t *at, size_t width, uint64_t value)
{
    for (size_t j = 0; j < width; j++)
        at[j] = (uint8_t)(value >> (8 * j));
}

static void fill_table(int input)
{
    for (uint64_t i = 0; i < FOLDWIG_MAX_STREAM_SEGMENTS * FOLDWIG_MAX_SAMPLES; i++) {
        uint64_t size = i / FOLDWIG_MAX_SAMPLES + 1, position = i % FOLDWIG_MAX_SAMPLES + 1;
        uint64_t left = FOLDWIG_MAX_STREAM_SEGMENTS - size;
        put(table + 8 * i, 8, size > position ? UINT64_MAX : input == DROPPING ? left : left * left);
    }
}

static void fill(int input)
{
    fill_table(input);
    for (uint64_t i = 0; i < MODELS; i++) {
        uint64_t left = MODELS - i;
        put(sizes + 2 * i, 2, input == REFUSED && left <= 2 ? 0 : i + 1);
        put(losses + 8 * i, 8, (input == DROPPING ? left : left * left) + 1);
        put(weights + 2 * i, 2, i + 2);
        models[i].size = input == REFUSED && left <= 2 ? 0 : i + 1;
        models[i].loss = (input == DROPPING ? left : left * left) + 1;
        models[i].weight = i + 2;
    }
    for (uint64_t i = 0; i < FOLDWIG_MAX_SAMPLES; i++)
        put(samples + 2 * i, 2, input == DROPPING ? 7 : i * i * 7919);
    limit = input == REFUSED ? 33 : 32;
}

// A byte string as a pointer and a length; the models or the path in three of them; the path's buffers for so many entries.
#define WHOLE(bytes) bytes, sizeof bytes
#define MODEL_LISTS WHOLE(sizes), WHOLE(losses), WHOLE(weights)
#define PATH_LISTS(n) path_sizes, 2 * (n), path_losses, 8 * (n), path_weights, 2 * (n)

static uint64_t call_append(void)
{
    return foldwig_append(MODEL_LISTS, MODELS - 1, MODELS, 0, MODELS + 1).refusal;
}

static uint64_t call_build(void)
{
    return foldwig_build(MODEL_LISTS, PATH_LISTS(MODELS)).refusal;
}

static uint64_t call_build_quadratic(void)
{
    return foldwig_build_quadratic(MODEL_LISTS, PATH_LISTS(MODELS)).refusal;
}

static uint64_t call_select(void)
{
    return foldwig_select(MODEL_LISTS, MODELS, 0, 1).refusal;
}

static uint64_t call_breakpoints(void)
{
    return foldwig_breakpoints(MODEL_LISTS, MODELS, WHOLE(path_losses), WHOLE(path_sizes)).refusal;
}

static uint64_t call_append_entries(void)
{
    return foldwig_append_entries(models, MODELS, MODELS - 1, MODELS, 0, MODELS + 1).refusal;
}

static uint64_t call_build_entries(void)
{
    return foldwig_build_entries(models, MODELS, entries, MODELS).refusal;
}

static uint64_t call_build_quadratic_entries(void)
{
    return foldwig_build_quadratic_entries(models, MODELS, entries, MODELS).refusal;
}

static uint64_t call_select_entries(void)
{
    return foldwig_select_entries(models, MODELS, MODELS, 0, 1).refusal;
}

static uint64_t call_breakpoints_entries(void)
{
    return foldwig_breakpoints_entries(models, MODELS, MODELS, numerators, MODELS, denominators, MODELS).refusal;
}

// With a signal as many weights are lent as the limit says.
static uint64_t call_signal_path(void)
{
    return foldwig_signal_path(WHOLE(samples), limit, 1, weights, 2 * limit, PATH_LISTS(32), WHOLE(scratch)).refusal;
}

static uint64_t call_split(void)
{
    return foldwig_split(WHOLE(samples), limit, 1, weights, 2 * limit, 1, 1, WHOLE(starts), WHOLE(levels), PATH_LISTS(32),
                         WHOLE(scratch))
        .refusal;
}

static uint64_t call_extend(void)
{
    return foldwig_extend(samples, sizeof samples - FOLDWIG_SAMPLE_LEN, 7, limit - 16, WHOLE(table), PATH_LISTS(16)).refusal;
}

static uint64_t call_split_from(void)
{
    return foldwig_split_from(WHOLE(samples), limit - 16, 0, 1, WHOLE(table), WHOLE(starts), WHOLE(levels)).refusal;
}

static const struct {
    const char *name;
    uint64_t (*call)(void);
    size_t said;
} measured[CALLS] = {
    {"foldwig_append", call_append, FOLDWIG_APPEND_STACK},
    {"foldwig_build", call_build, FOLDWIG_BUILD_STACK},
    {"foldwig_build_quadratic", call_build_quadratic, FOLDWIG_BUILD_QUADRATIC_STACK},
    {"foldwig_select", call_select, FOLDWIG_SELECT_STACK},
    {"foldwig_breakpoints", call_breakpoints, FOLDWIG_BREAKPOINTS_STACK},
    {"foldwig_append_entries", call_append_entries, FOLDWIG_APPEND_ENTRIES_STACK},
    {"foldwig_build_entries", call_build_entries, FOLDWIG_BUILD_ENTRIES_STACK},
    {"foldwig_build_quadratic_entries", call_build_quadratic_entries, FOLDWIG_BUILD_QUADRATIC_ENTRIES_STACK},
    {"foldwig_select_entries", call_select_entries, FOLDWIG_SELECT_ENTRIES_STACK},
    {"foldwig_breakpoints_entries", call_breakpoints_entries, FOLDWIG_BREAKPOINTS_ENTRIES_STACK},
    {"foldwig_signal_path", call_signal_path, FOLDWIG_SIGNAL_PATH_STACK},
    {"foldwig_split", call_split, FOLDWIG_SPLIT_STACK},
    {"foldwig_extend", call_extend, FOLDWIG_EXTEND_STACK},
    {"foldwig_split_from", call_split_from, FOLDWIG_SPLIT_FROM_STACK},
};

// A call to measure, its refusal and the bytes of stack that it took.
struct measurement {
    uint64_t (*call)(void);
    uint64_t refusal;
    size_t bytes;
};

// Paints the stack from its low end to a margin below this frame, makes the call, and finds the lowest byte without paint.
static void *measure(void *argument)
{
    struct measurement *m = argument;
    volatile uint8_t mark = 0;
    volatile uint8_t *painted = stack;
    size_t here = (size_t)((uintptr_t)&mark - (uintptr_t)stack), low = 0;
    for (size_t i = 0; i < here - MARGIN; i++)
        painted[i] = PAINT;
    m->refusal = m->call();
    while (low < here - MARGIN && painted[low] == PAINT)
        low++;
    m->bytes = here - low;
    return NULL;
}

static void measure_in_thread(struct measurement *m)
{
    pthread_attr_t attributes;
    pthread_t thread;
    if (pthread_attr_init(&attributes) != 0 || pthread_attr_setstack(&attributes, stack, STACK) != 0 ||
        pthread_create(&thread, &attributes, measure, m) != 0) {
        fprintf(stderr, "no thread can be started\n");
        exit(2);
    }
    pthread_join(thread, NULL);
    pthread_attr_destroy(&attributes);
}

// The most stack of a call over all inputs. It counts the inputs that are refused though they should not be, or the reverse.
static size_t most_stack(uint64_t (*call)(void), int *wrong)
{
    size_t most = 0;
    for (int input = 0; input < INPUTS; input++) {
        struct measurement m = {call, 0, 0};
        fill(input);
        call();         // a first call, so that what the linker does at first use is not measured
        fill(input);
        measure_in_thread(&m);
        most = m.bytes > most ? m.bytes : most;
        *wrong += (m.refusal != 0) != (input == REFUSED);
    }
    return most;
}

int main(void)
{
    int wrong = 0;
    stack = mmap(NULL, STACK, PROT_READ | PROT_WRITE, MAP_PRIVATE | MAP_ANONYMOUS, -1, 0);
    if (stack == MAP_FAILED)
        return 2;
    for (int i = 0; i < CALLS; i++) {
        size_t bytes = most_stack(measured[i].call, &wrong);
        printf("%-31s %7zu bytes of stack%s, the header says %zu\n", measured[i].name, bytes, bytes <= MARGIN ? " at most" : "",
               measured[i].said);
        wrong += bytes > measured[i].said;
    }
    return wrong > 0;
}
