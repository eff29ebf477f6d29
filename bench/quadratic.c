// Times a build beside a quadratic one, which finds the same path by an older method, both beside the same in plain C (path_plain.c),
// and prints a table. The lists are of three kinds: models that all stay on the path, on which the older method takes the most steps;
// models of which all but two are dropped, on which it takes the fewest; and models whose losses fall by random numbers. All calls are
// made in one process and take turns, so that they meet the same load of the machine; a time is the least CPU time of one call over
// all turns. Before that each is called once, and all have to leave the same bytes in the path's buffers and to answer the same but
// for the tests, of which a quadratic build has 0. Ends with status 1 where they do not. Like all of bench/, this is not part of CI.
// Usage: quadratic [TURNS]
#include "path_plain.h"
#include "tables.h"
#include <stdbool.h>
#include <stdio.h>
#include <stdlib.h>
#include <string.h>

enum { MODELS = FOLDWIG_MAX_MODELS };

typedef struct foldwig_path_result call(const uint8_t *, size_t, const uint8_t *, size_t, const uint8_t *, size_t, uint8_t *, size_t,
                                        uint8_t *, size_t, uint8_t *, size_t);

enum method { LINEAR, PLAIN_LINEAR, QUADRATIC, PLAIN_QUADRATIC, METHODS };
enum list { STAYING, DROPPED, RANDOM, LISTS };

static call *const calls[METHODS] = {foldwig_build, plain_build, foldwig_build_quadratic, plain_build_quadratic};

static const char *const list_names[LISTS] = {"all on the path", "all but two dropped", "random"};

static uint8_t sizes[MODELS * FOLDWIG_SIZE_LEN], losses[MODELS * FOLDWIG_LOSS_LEN], weights[MODELS * FOLDWIG_WEIGHT_LEN];

// The buffers of a path, with a place more than there are models.
struct path {
    uint8_t sizes[(MODELS + 1) * FOLDWIG_SIZE_LEN];
    uint8_t losses[(MODELS + 1) * FOLDWIG_LOSS_LEN];
    uint8_t weights[(MODELS + 1) * FOLDWIG_WEIGHT_LEN];
};

static void put(uint8_t *bytes, size_t width, size_t i, uint64_t value)
{
    for (size_t j = 0; j < width; j++)
        bytes[i * width + j] = (uint8_t)(value >> 8 * j & 255);
}

// A random number from 1 to 2^31.
static uint64_t random_step(uint64_t *state)
{
    *state = *state * UINT64_C(6364136223846793005) + UINT64_C(1442695040888963407);
    return (*state >> 33) + 1;
}

// Makes n models of the sizes from 1 on, with weights equal to them, from the last one back. The breakpoints of two neighbours fall by
// 2 along a list that stays, and rise by 2 along one that is dropped. A random loss is the sum of the steps up to it, so that all are
// within 2^44.
static void make_models(enum list list, size_t n)
{
    uint64_t state = 20221110, sum = 0;
    for (size_t i = n; i-- > 0;) {
        put(sizes, FOLDWIG_SIZE_LEN, i, i + 1);
        put(weights, FOLDWIG_WEIGHT_LEN, i, i + 1);
        put(losses, FOLDWIG_LOSS_LEN, i, list == STAYING ? (n - i) * (n - i) : list == DROPPED ? n * n - i * i : sum);
        sum += random_step(&state);
    }
}

static struct foldwig_path_result build(enum method method, size_t n, struct path *path)
{
    return calls[method](sizes, n * FOLDWIG_SIZE_LEN, losses, n * FOLDWIG_LOSS_LEN, weights, n * FOLDWIG_WEIGHT_LEN, path->sizes,
                         sizeof path->sizes, path->losses, sizeof path->losses, path->weights, sizeof path->weights);
}

// Whether all calls leave the same bytes and answer the same number of entries, with 2 N - 1 - M tests or none by their method, and as
// many entries as the list should have.
static bool same_paths(enum list list, size_t n, uint64_t *entries)
{
    static struct path paths[METHODS];
    bool same = true;
    memset(paths, 0xa5, sizeof paths);
    for (enum method m = 0; m < METHODS; m++) {
        struct foldwig_path_result r = build(m, n, &paths[m]);
        if (m == LINEAR)
            *entries = r.entries;
        same = same && r.refusal == 0 && r.entries == *entries && memcmp(&paths[m], &paths[LINEAR], sizeof paths[m]) == 0 &&
               r.tests == (m < QUADRATIC ? 2 * n - 1 - *entries : 0);
    }
    return same && (list == STAYING ? *entries == n : list == DROPPED ? *entries == 2 : *entries > 2 && *entries < n);
}

// Times all calls on a list, and prints a row. Says whether they give the same path.
static bool time_list(enum list list, size_t n, int turns)
{
    static struct path path;
    double least[METHODS] = {1e30, 1e30, 1e30, 1e30};
    uint64_t entries;
    make_models(list, n);
    bool same = same_paths(list, n, &entries);
    for (int i = 0; i < turns; i++)
        for (enum method m = 0; m < METHODS; m++) {
            double before = now();
            build(m, n, &path);
            double time = now() - before;
            least[m] = time < least[m] ? time : least[m];
        }
    printf("| %s | %zu | %llu |", list_names[list], n, (unsigned long long)entries);
    for (enum method m = 0; m < METHODS; m++)
        printf(" %.1f |", least[m]);
    printf(" %.1f |\n", least[QUADRATIC] / least[LINEAR]);
    fflush(stdout);
    return same;
}

int main(int argc, char **argv)
{
    static const size_t counts[] = {1024, MODELS};
    int turns = argc > 1 ? atoi(argv[1]) : 100;
    bool same = true;
    printf("Microseconds a call, least of %d turns.\n\n", turns);
    puts("| list | models | entries | `foldwig_build` | in plain C | `foldwig_build_quadratic` | in plain C | quadratic / linear |\n"
         "|---|---|---|---|---|---|---|---|");
    for (enum list list = 0; list < LISTS; list++)
        for (size_t i = 0; i < sizeof counts / sizeof counts[0]; i++)
            same = time_list(list, counts[i], turns) && same;
    printf("\n%s\n", same ? "all builds give the same paths" : "the builds do NOT give the same paths");
    return same ? 0 : 1;
}
