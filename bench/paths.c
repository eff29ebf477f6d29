// Times builds and appends in C, at several numbers of models and with short and long buffers, and prints a table. A time is the
// least CPU time of one call over all turns.
// Usage: paths [TURNS]
#include "tables.h"
#include <foldwig.h>
#include <stdbool.h>
#include <stdio.h>
#include <stdlib.h>
#include <string.h>

enum { MODELS = FOLDWIG_MAX_MODELS, PLACES = 4 * FOLDWIG_MAX_MODELS };

// Models as byte strings: sizes from 1 on, weights equal to them, and losses that fall so that all of them stay on the path.
static uint8_t sizes[MODELS * FOLDWIG_SIZE_LEN], losses[MODELS * FOLDWIG_LOSS_LEN], weights[MODELS * FOLDWIG_WEIGHT_LEN];
static uint8_t path_sizes[PLACES * FOLDWIG_SIZE_LEN], path_losses[PLACES * FOLDWIG_LOSS_LEN];
static uint8_t path_weights[PLACES * FOLDWIG_WEIGHT_LEN];

static void put(uint8_t *bytes, size_t width, size_t i, uint64_t value)
{
    for (size_t j = 0; j < width; j++)
        bytes[i * width + j] = (uint8_t)(value >> 8 * j & 255);
}

static void make_models(size_t n)
{
    for (size_t i = 0; i < n; i++) {
        put(sizes, FOLDWIG_SIZE_LEN, i, i + 1);
        put(losses, FOLDWIG_LOSS_LEN, i, (n - i) * (n - i));
        put(weights, FOLDWIG_WEIGHT_LEN, i, i + 1);
    }
}

static struct foldwig_path_result build(size_t n, size_t places)
{
    return foldwig_build(sizes, n * FOLDWIG_SIZE_LEN, losses, n * FOLDWIG_LOSS_LEN, weights, n * FOLDWIG_WEIGHT_LEN, path_sizes,
                         places * FOLDWIG_SIZE_LEN, path_losses, places * FOLDWIG_LOSS_LEN, path_weights,
                         places * FOLDWIG_WEIGHT_LEN);
}

static struct foldwig_path_result append(size_t n, size_t places)
{
    return foldwig_append(path_sizes, places * FOLDWIG_SIZE_LEN, path_losses, places * FOLDWIG_LOSS_LEN, path_weights,
                          places * FOLDWIG_WEIGHT_LEN, n, n + 1, 0, n + 1);
}

// Times a call with n models, or on n entries, and says whether it was accepted with all of them on the path.
static bool time_call(const char *name, bool appends, size_t n, size_t places, int turns)
{
    struct foldwig_path_result r = {0, 0, 0};
    double least = 1e30;
    make_models(n);
    for (int i = 0; i < turns; i++) {
        if (appends)
            build(n, places);
        double before = now();
        r = appends ? append(n, places) : build(n, places);
        double after = now();
        if (after - before < least)
            least = after - before;
    }
    printf("| `%s` | %zu | %zu | %.1f |\n", name, n, places, least);
    return r.refusal == 0 && r.entries == (appends ? n + 1 : n);
}

int main(int argc, char **argv)
{
    static const size_t counts[][2] = {{8, 9}, {8, PLACES}, {1024, 1025}, {2048, 2049}, {4095, 4096}};
    int turns = argc > 1 ? atoi(argv[1]) : 200;
    bool right = true;
    printf("| call | models or entries | places lent | microseconds |\n|---|---|---|---|\n");
    for (size_t i = 0; i < sizeof counts / sizeof counts[0]; i++)
        right = time_call("foldwig_build", false, counts[i][0], counts[i][1], turns) && right;
    for (size_t i = 0; i < sizeof counts / sizeof counts[0]; i++)
        right = time_call("foldwig_append", true, counts[i][0], counts[i][1], turns) && right;
    printf("\n%s\n", right ? "all calls as expected" : "NOT all calls as expected");
    return right ? 0 : 1;
}
