// The two builds as one would write them in C: the models are read and judged in one loop, each method works on an array of structs,
// and the path is written with zeros behind it.
#include "path_plain.h"
#include <string.h>

struct models {
    size_t given, count;    // all of them, and those that are not passed over, which follow
    struct foldwig_entry at[FOLDWIG_MAX_MODELS];
};

static uint64_t get(const uint8_t *bytes, size_t width, size_t i)
{
    uint64_t value = 0;
    memcpy(&value, bytes + i * width, width);
    return value;
}

static size_t least(size_t a, size_t b)
{
    return a < b ? a : b;
}

static size_t most(size_t a, size_t b)
{
    return a < b ? b : a;
}

// Reads the models, and gives the refusal of the lists: 11, 1, 2, 5, 6, 14, 7 or 0.
static uint64_t read_models(const uint8_t *sizes, size_t sizes_len, const uint8_t *losses, size_t losses_len,
                            const uint8_t *weights, size_t weights_len, struct models *models)
{
    size_t whole = least(least(sizes_len / 2, losses_len / 8), weights_len / 2);
    if (sizes_len % 2 != 0 || losses_len % 8 != 0 || weights_len % 2 != 0)
        return 11;
    models->given = most(most(sizes_len / 2, losses_len / 8), weights_len / 2);
    models->count = 0;
    if (models->given == 0)
        return 1;
    if (models->given > FOLDWIG_MAX_MODELS)
        return 2;
    for (size_t i = 0; i < whole; i++) {
        struct foldwig_entry m = {get(sizes, 2, i), get(losses, 8, i), get(weights, 2, i)};
        if (m.size == 0 || m.loss > FOLDWIG_MAX_LOSS || m.weight == 0)
            return 5;
        if (models->count > 0) {
            struct foldwig_entry last = models->at[models->count - 1];
            if (m.size <= last.size)
                return 6;
            if (m.weight <= last.weight)
                return 14;
            if (m.loss > last.loss)
                return 7;
            if (m.loss == last.loss)
                continue;
        }
        models->at[models->count++] = m;
    }
    return whole < models->given ? 5 : 0;
}

// Whether the breakpoint of a and b is below that of c and d, where the second of each two is the larger model.
static int below(const struct foldwig_entry *a, const struct foldwig_entry *b, const struct foldwig_entry *c,
                 const struct foldwig_entry *d)
{
    return (a->loss - b->loss) * (d->weight - c->weight) < (c->loss - d->loss) * (b->weight - a->weight);
}

// The update rules. The path takes the place of the models; answers the tests.
static uint64_t linear(struct models *models)
{
    struct foldwig_entry *path = models->at;
    size_t entries = 0;
    uint64_t tests = 0;
    for (size_t i = 0; i < models->count; i++) {
        struct foldwig_entry m = models->at[i];
        tests += entries > 0;
        while (entries > 1 && !below(&path[entries - 1], &m, &path[entries - 2], &path[entries - 1])) {
            entries--;
            tests++;
        }
        path[entries++] = m;
    }
    models->count = entries;
    return tests;
}

// The older method. The path takes the place of the models.
static uint64_t quadratic(struct models *models)
{
    struct foldwig_entry *path = models->at;
    size_t at = models->count - 1, first = at;
    while (at > 0) {
        struct foldwig_entry m = path[at];
        size_t next = 0;
        for (size_t i = 1; i < at; i++)
            if (below(&path[i], &m, &path[next], &m))
                next = i;
        path[--first] = path[next];
        at = next;
    }
    models->count -= first;
    memmove(path, path + first, models->count * sizeof *path);
    return 0;
}

// Builds by one of the two.
static struct foldwig_path_result build(uint64_t (*method)(struct models *), const uint8_t *sizes, size_t sizes_len,
                                        const uint8_t *losses, size_t losses_len, const uint8_t *weights, size_t weights_len,
                                        uint8_t *path_sizes, size_t path_sizes_len, uint8_t *path_losses, size_t path_losses_len,
                                        uint8_t *path_weights, size_t path_weights_len)
{
    struct models models;
    struct foldwig_path_result result = {11, 0, 0};
    if (path_sizes_len % 2 != 0 || path_losses_len % 8 != 0 || path_weights_len % 2 != 0)
        return result;
    result.refusal = read_models(sizes, sizes_len, losses, losses_len, weights, weights_len, &models);
    if (result.refusal == 0 && least(least(path_sizes_len / 2, path_losses_len / 8), path_weights_len / 2) < models.given)
        result.refusal = 9;
    if (result.refusal != 0)
        return result;
    result.tests = method(&models);
    result.entries = models.count;
    memset(path_sizes, 0, 2 * models.given);
    memset(path_losses, 0, 8 * models.given);
    memset(path_weights, 0, 2 * models.given);
    for (size_t i = 0; i < models.count; i++) {
        memcpy(path_sizes + 2 * i, &models.at[i].size, 2);
        memcpy(path_losses + 8 * i, &models.at[i].loss, 8);
        memcpy(path_weights + 2 * i, &models.at[i].weight, 2);
    }
    return result;
}

struct foldwig_path_result plain_build(const uint8_t *sizes, size_t sizes_len, const uint8_t *losses, size_t losses_len,
                                       const uint8_t *weights, size_t weights_len, uint8_t *path_sizes, size_t path_sizes_len,
                                       uint8_t *path_losses, size_t path_losses_len, uint8_t *path_weights,
                                       size_t path_weights_len)
{
    return build(linear, sizes, sizes_len, losses, losses_len, weights, weights_len, path_sizes, path_sizes_len, path_losses,
                 path_losses_len, path_weights, path_weights_len);
}

struct foldwig_path_result plain_build_quadratic(const uint8_t *sizes, size_t sizes_len, const uint8_t *losses, size_t losses_len,
                                                 const uint8_t *weights, size_t weights_len, uint8_t *path_sizes,
                                                 size_t path_sizes_len, uint8_t *path_losses, size_t path_losses_len,
                                                 uint8_t *path_weights, size_t path_weights_len)
{
    return build(quadratic, sizes, sizes_len, losses, losses_len, weights, weights_len, path_sizes, path_sizes_len, path_losses,
                 path_losses_len, path_weights, path_weights_len);
}
