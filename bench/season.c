// Times a season, 512 samples that foldwig_extend is given one by one on one table, beside fresh calls of foldwig_signal_path on all of
// them and beside the same table in plain C (season_plain.c), and one foldwig_split_from on the table beside a fresh foldwig_split. Also
// times the reading of the columns so far alone, in plain C, which no extend can do without. All of it runs in one process and in turns,
// and each turn goes through all signals; a time is the least CPU time of a season, or of a call, over all turns. Before that it
// compares tables, paths and segmentations, and ends with status 1 where they differ.
// Usage: season time [TURNS]     prints the times, a line for each signal
//        season tables FILE...   prints tables of such times. With several files, as of programs with the calls at different places
//                                in memory, a time is the mean over them.
#include "season_plain.h"
#include "signals.h"
#include "tables.h"
#include <foldwig.h>
#include <stdbool.h>
#include <stdio.h>
#include <stdlib.h>
#include <string.h>

enum { LIMIT = FOLDWIG_MAX_STREAM_SEGMENTS };

_Static_assert(sizeof(((struct plain_table *)0)->least) == FOLDWIG_TABLE_LEN, "the plain table is as long as the library's");

// A season is compared with so many fresh calls. Where it is slower is listed.
enum { FRESH_CALLS = 3 };

enum job { PLAIN_SEASON, PLAIN_LOOK, SEASON, FRESH_PATH, SPLIT_FROM, FRESH_SPLIT, JOBS };

// A path, and a segmentation: what a call answered and what it left in the buffers lent to it. The numbers are those of this machine,
// which keeps the low byte first.
struct path {
    uint64_t refusal, entries;
    uint16_t sizes[LIMIT];
    uint64_t losses[LIMIT];
    uint16_t weights[LIMIT];
};

struct segmentation {
    uint64_t refusal, segments, loss;
    uint16_t starts[LIMIT];
    int16_t levels[LIMIT];
};

// What the jobs leave, each in its own place; the path of a fresh split is not looked at.
struct left {
    struct plain_table plain;
    uint64_t looked_at;
    uint8_t table[FOLDWIG_TABLE_LEN];
    struct path season, fresh_path, of_split;
    struct segmentation split_from, fresh_split;
    uint8_t scratch[FOLDWIG_SCRATCH_LEN];
};

static void run_plain_season(const struct signal *s, struct plain_table *plain)
{
    plain_begin(plain);
    for (size_t n = 0; n < s->n; n++)
        plain_extend(plain, s->samples[n]);
}

// Reads the columns so far once for each sample of a season. Leaves the bits of all values read.
static void run_plain_look(const struct signal *s, const struct plain_table *plain, uint64_t *bits)
{
    *bits = 0;
    for (size_t n = 0; n < s->n; n++)
        *bits |= plain_look(plain, n);
}

// Leaves the path of the last call. Ends early with a call that is refused.
static void run_season(const struct signal *s, uint8_t *table, struct path *path)
{
    for (size_t n = 0; n < s->n; n++) {
        struct foldwig_extend_result r = foldwig_extend(
            (const uint8_t *)s->samples, n * sizeof *s->samples, s->samples[n], LIMIT, table, FOLDWIG_TABLE_LEN,
            (uint8_t *)path->sizes, sizeof path->sizes, (uint8_t *)path->losses, sizeof path->losses, (uint8_t *)path->weights,
            sizeof path->weights);
        path->refusal = r.refusal;
        path->entries = r.entries;
        if (r.refusal != 0)
            return;
    }
}

static void run_fresh_path(const struct signal *s, uint8_t *scratch, struct path *path)
{
    struct foldwig_signal_path_result r = foldwig_signal_path(
        (const uint8_t *)s->samples, s->n * sizeof *s->samples, LIMIT, 1, NULL, 0, (uint8_t *)path->sizes, sizeof path->sizes,
        (uint8_t *)path->losses, sizeof path->losses, (uint8_t *)path->weights, sizeof path->weights, scratch,
        FOLDWIG_SCRATCH_LEN);
    path->refusal = r.refusal;
    path->entries = r.entries;
}

static void run_split_from(const struct signal *s, const uint8_t *table, struct segmentation *to)
{
    struct foldwig_split_from_result r = foldwig_split_from(
        (const uint8_t *)s->samples, s->n * sizeof *s->samples, LIMIT, P, Q, table, FOLDWIG_TABLE_LEN, (uint8_t *)to->starts,
        sizeof to->starts, (uint8_t *)to->levels, sizeof to->levels);
    to->refusal = r.refusal;
    to->segments = r.segments;
    to->loss = r.loss;
}

static void run_fresh_split(const struct signal *s, uint8_t *scratch, struct path *path, struct segmentation *to)
{
    struct foldwig_split_result r = foldwig_split(
        (const uint8_t *)s->samples, s->n * sizeof *s->samples, LIMIT, 1, NULL, 0, P, Q, (uint8_t *)to->starts, sizeof to->starts,
        (uint8_t *)to->levels, sizeof to->levels, (uint8_t *)path->sizes, sizeof path->sizes, (uint8_t *)path->losses,
        sizeof path->losses, (uint8_t *)path->weights, sizeof path->weights, scratch, FOLDWIG_SCRATCH_LEN);
    to->refusal = r.refusal;
    to->segments = r.segments;
    to->loss = r.loss;
}

// Does a job on a signal. A look, and a split from the table, need the table of a season on the same signal before them.
static void run(enum job job, const struct signal *s, struct left *left)
{
    if (job == PLAIN_SEASON)
        run_plain_season(s, &left->plain);
    else if (job == PLAIN_LOOK)
        run_plain_look(s, &left->plain, &left->looked_at);
    else if (job == SEASON)
        run_season(s, left->table, &left->season);
    else if (job == FRESH_PATH)
        run_fresh_path(s, left->scratch, &left->fresh_path);
    else if (job == SPLIT_FROM)
        run_split_from(s, left->table, &left->split_from);
    else
        run_fresh_split(s, left->scratch, &left->of_split, &left->fresh_split);
}

// What differs after all jobs on a signal, or is refused, or NULL. All was filled with one byte before, so that places that a call
// leaves alone are equal too.
static const char *difference(const struct signal *s)
{
    static struct left left;
    memset(&left, 0xa5, sizeof left);
    for (enum job job = 0; job < JOBS; job++)
        run(job, s, &left);
    if (left.season.refusal != 0 || left.fresh_path.refusal != 0 || left.split_from.refusal != 0 || left.fresh_split.refusal != 0)
        return "a call is refused";
    if (left.looked_at != UINT64_MAX)
        return "no mark was looked at";
    if (memcmp(left.table, left.plain.least, sizeof left.table) != 0)
        return "the tables differ";
    if (memcmp(&left.season, &left.fresh_path, sizeof left.season) != 0)
        return "the paths differ";
    if (memcmp(&left.split_from, &left.fresh_split, sizeof left.split_from) != 0)
        return "the segmentations differ";
    return NULL;
}

static bool all_same(const struct signal *signals, int count)
{
    for (int i = 0; i < count; i++) {
        const char *what = difference(&signals[i]);
        if (what != NULL) {
            printf("%s: %s, draw %u\n", what, kind_names[signals[i].kind], signals[i].draw + 1);
            return false;
        }
    }
    return true;
}

// One turn through all signals: lowers the least times.
static void take_turn(const struct signal *signals, int count, double least[][JOBS])
{
    static struct left left;
    for (int i = 0; i < count; i++)
        for (enum job job = 0; job < JOBS; job++) {
            double before = now();
            run(job, &signals[i], &left);
            double time = now() - before;
            least[i][job] = time < least[i][job] ? time : least[i][job];
        }
}

// Prints the time of so many runs of a job: the mean of the draws of a kind and the range over them.
static void print_times(double draws[][JOBS], unsigned count, enum job job, int runs, int digits)
{
    struct range times = empty_range;
    double sum = 0;
    for (unsigned i = 0; i < count; i++) {
        widen(&times, runs * draws[i][job]);
        sum += runs * draws[i][job];
    }
    print_range(sum / count, times, digits);
}

// Prints the ratio of a job to so many runs of another.
static void print_ratio(double draws[][JOBS], unsigned count, enum job job, enum job other, int runs)
{
    struct range ratios = empty_range;
    double sum = 0, of_other = 0;
    for (unsigned i = 0; i < count; i++) {
        widen(&ratios, draws[i][job] / (runs * draws[i][other]));
        sum += draws[i][job];
        of_other += runs * draws[i][other];
    }
    print_range(sum / of_other, ratios, 2);
}

static void print_seasons(double least[][JOBS])
{
    puts("| signal | plain C season | season of extensions | three fresh calls | season / three fresh calls |\n|---|---|---|---|---|");
    for (enum kind kind = 0; kind < KINDS; least += draws_of(kind), kind++) {
        printf("| %s |", kind_names[kind]);
        print_times(least, draws_of(kind), PLAIN_SEASON, 1, 0);
        print_times(least, draws_of(kind), SEASON, 1, 0);
        print_times(least, draws_of(kind), FRESH_PATH, FRESH_CALLS, 0);
        print_ratio(least, draws_of(kind), SEASON, FRESH_PATH, FRESH_CALLS);
        puts("");
    }
}

// Prints what the reading of the columns so far takes, which is the same for all signals.
static void print_look(double least[][JOBS], int count)
{
    printf("\n| read in plain C, and nothing else done | a season |\n|---|---|\n| the columns so far, before each sample |");
    print_times(least, (unsigned)count, PLAIN_LOOK, 1, 0);
    puts("");
}

static void print_splits(double least[][JOBS])
{
    puts("| signal | split from the table | fresh split | split from the table / fresh split |\n|---|---|---|---|");
    for (enum kind kind = 0; kind < KINDS; least += draws_of(kind), kind++) {
        printf("| %s |", kind_names[kind]);
        print_times(least, draws_of(kind), SPLIT_FROM, 1, 1);
        print_times(least, draws_of(kind), FRESH_SPLIT, 1, 1);
        print_ratio(least, draws_of(kind), SPLIT_FROM, FRESH_SPLIT, 1);
        puts("");
    }
}

// Names a kind and those of its draws where a season is slower than three fresh calls, if there are any. Answers how many.
static int list_slower(enum kind kind, double draws[][JOBS])
{
    int slower = 0;
    for (unsigned i = 0; i < draws_of(kind); i++)
        if (draws[i][SEASON] > FRESH_CALLS * draws[i][FRESH_PATH]) {
            if (slower++ == 0)
                printf("- %s: draw", kind_names[kind]);
            printf(" %u", i + 1);
        }
    if (slower > 0)
        printf(" of %u\n", draws_of(kind));
    return slower;
}

// Lists the kinds and draws where a season is slower than three fresh calls.
static void print_slower(double least[][JOBS])
{
    int all = 0;
    puts("\nA season is slower than three fresh calls on:\n");
    for (enum kind kind = 0; kind < KINDS; least += draws_of(kind), kind++)
        all += list_slower(kind, least);
    if (all == 0)
        puts("- none");
}

// Least times before the first turn.
static void forget(double least[MAX_SIGNALS][JOBS])
{
    for (int i = 0; i < MAX_SIGNALS; i++)
        for (enum job job = 0; job < JOBS; job++)
            least[i][job] = 1e30;
}

// Compares what the jobs leave, then times them and prints the least times.
static int print_least(const struct signal *signals, int count, int turns)
{
    static double least[MAX_SIGNALS][JOBS];
    if (!all_same(signals, count))
        return 1;
    forget(least);
    for (int t = 0; t < turns; t++)
        take_turn(signals, count, least);
    for (int i = 0; i < count; i++)
        for (enum job job = 0; job < JOBS; job++)
            printf("%.3f%c", least[i][job], job + 1 < JOBS ? ' ' : '\n');
    return 0;
}

// Adds 1 / parts of the times in a file. Says whether there were as many as are due.
static bool add_times(const char *file, int count, int parts, double times[][JOBS])
{
    FILE *in = fopen(file, "r");
    bool whole = in != NULL;
    for (int i = 0; i < count && whole; i++)
        for (enum job job = 0; job < JOBS && whole; job++) {
            double time = 0;
            whole = fscanf(in, "%lf", &time) == 1 && time > 0;
            times[i][job] += time / parts;
        }
    if (in != NULL)
        fclose(in);
    return whole;
}

static int print_tables(char **files, int parts, int count)
{
    static double times[MAX_SIGNALS][JOBS];
    for (int i = 0; i < parts; i++)
        if (!add_times(files[i], count, parts, times)) {
            printf("%s has not the times of all signals\n", files[i]);
            return 1;
        }
    printf("Tables, paths and segmentations are equal. %d samples, limit %d, microseconds, mean over %d places of the calls in memory:\n\n",
           MAX_SAMPLES, LIMIT, parts);
    print_seasons(times);
    print_look(times, count);
    printf("\nOne split at the penalty %d / %d:\n\n", P, Q);
    print_splits(times);
    print_slower(times);
    return 0;
}

int main(int argc, char **argv)
{
    static struct signal signals[MAX_SIGNALS];
    int count = make_signals(signals, MAX_SAMPLES);
    if (argc > 1 && strcmp(argv[1], "time") == 0)
        return print_least(signals, count, argc > 2 ? atoi(argv[2]) : 15);
    if (argc > 2 && strcmp(argv[1], "tables") == 0)
        return print_tables(argv + 2, argc - 2, count);
    fputs("usage: season time [TURNS] | season tables FILE...\n", stderr);
    return 2;
}
