// Times the library's segmentation call beside two implementations in C on the same signals, in one process, and prints tables. The
// three take turns, so that all meet the same load of the machine, and each turn goes through all signals; a time is the least CPU
// time of one call over all turns. The answers of all three are compared first, on these signals at several penalties and on many
// short random ones, those of the library and of the plain implementation with several least lengths too. Ends with status 1 where an
// answer differs, or the library is slower than wanted.
// Usage: main [TURNS]          the tables
//        main curve [TURNS]    the library's time alone, over the number of samples and the limit
#include "signals.h"
#include "split.h"
#include "tables.h"
#include <foldwig.h>
#include <stdbool.h>
#include <stdio.h>
#include <stdlib.h>
#include <string.h>

enum { PENALTIES = 5, SHORT_SIGNALS = 20000, LENGTHS = 4 };

// The least lengths that are timed.
static const size_t lengths[LENGTHS] = {1, 2, 8, 32};

// What is wanted at 512 samples and limit 32, of every draw: so many times as fast as the plain implementation on every kind but the
// alternating one, behind the full table on no more than so many kinds, and nowhere above so many times its time. With a least length
// above 1 so many times the time with 1 at most, by the mean of each kind.
#define WANTED_TIMES_PLAIN 5.0
#define WANTED_MOST_OF_FULL 1.2
#define WANTED_MOST_OF_ONE 1.8
enum { WANTED_MOST_BEHIND = 2 };

// Number of samples and limit.
struct shape {
    size_t n, limit;
};

enum implementation { PLAIN, FULL, OURS, IMPLEMENTATIONS };

// What a call is lent, and what it left there. The numbers are those of this machine, which keeps the low byte first.
struct lent {
    uint16_t starts[MAX_SEGMENTS];
    int16_t levels[MAX_SEGMENTS];
    uint16_t path_sizes[MAX_SEGMENTS];
    uint64_t path_losses[MAX_SEGMENTS];
    uint16_t path_weights[MAX_SEGMENTS];
    uint8_t scratch[FOLDWIG_SCRATCH_LEN];
};

// Any of the three, the full table with segments of any length alone. The library is lent no weights, so that a size is its weight. Its
// answer is taken as one of the others, and a refusal as 0 segments.
static struct split_answer split(enum implementation which, const struct signal *s, size_t limit, size_t length, int64_t p, int64_t q,
                                 struct lent *lent)
{
    if (which == PLAIN)
        return plain_split(s->samples, s->n, limit, length, p, q, lent->starts, lent->levels);
    if (which == FULL)
        return full_split(s->samples, s->n, limit, p, q, lent->starts, lent->levels);
    struct foldwig_split_result r = foldwig_split(
        (const uint8_t *)s->samples, s->n * sizeof *s->samples, limit, length, NULL, 0, (uint64_t)p, (uint64_t)q,
        (uint8_t *)lent->starts, sizeof lent->starts, (uint8_t *)lent->levels, sizeof lent->levels, (uint8_t *)lent->path_sizes,
        sizeof lent->path_sizes, (uint8_t *)lent->path_losses, sizeof lent->path_losses, (uint8_t *)lent->path_weights,
        sizeof lent->path_weights, lent->scratch, sizeof lent->scratch);
    return (struct split_answer){r.segments, (int64_t)r.loss};
}

// Whether all implementations give the same segments, loss, starts and levels, and the library's leaves the scratch zero.
static bool same_answers(const struct signal *s, size_t limit, size_t length, int64_t p, int64_t q)
{
    static struct lent lent[IMPLEMENTATIONS];
    static const uint8_t zeros[FOLDWIG_SCRATCH_LEN];
    struct split_answer answers[IMPLEMENTATIONS];
    memset(lent, 0xa5, sizeof lent);
    for (enum implementation i = 0; i < IMPLEMENTATIONS; i++) {
        if (i == FULL && length > 1)
            continue;
        answers[i] = split(i, s, limit, length, p, q, &lent[i]);
        if (answers[i].segments != answers[0].segments || answers[i].loss != answers[0].loss ||
            memcmp(lent[i].starts, lent[0].starts, sizeof lent[0].starts) != 0 ||
            memcmp(lent[i].levels, lent[0].levels, sizeof lent[0].levels) != 0)
            return false;
    }
    return memcmp(lent[OURS].scratch, zeros, sizeof zeros) == 0;
}

static bool all_same(const struct signal *signals, int count, size_t limit, size_t length)
{
    static const int64_t penalties[PENALTIES][2] = {{0, 1}, {1, 2}, {P, Q}, {1000000000, 1}, {17592186044416, 1}};
    for (int i = 0; i < count; i++)
        for (int j = 0; j < PENALTIES; j++)
            if (!same_answers(&signals[i], limit, length, penalties[j][0], penalties[j][1])) {
                printf("the answers differ: %s, %zu samples, limit %zu, least length %zu, at the penalty %lld / %lld\n",
                       kind_names[signals[i].kind], signals[i].n, limit, length, (long long)penalties[j][0],
                       (long long)penalties[j][1]);
                return false;
            }
    return true;
}

static bool all_same_short(void)
{
    for (int i = 0; i < SHORT_SIGNALS; i++) {
        struct signal s = {.kind = RANDOM, .n = (size_t)random_in(1, 40)};
        int range = 1 << random_in(0, 15);
        for (size_t k = 0; k < s.n; k++)
            s.samples[k] = (int16_t)random_in(-range, range - 1);
        size_t length = (size_t)(i % 2 == 0 ? 1 : random_in(1, (int)s.n));
        if (!same_answers(&s, (size_t)random_in(1, MAX_SEGMENTS), length, random_in(0, 2 * range), random_in(1, 9))) {
            printf("the answers differ: short signal %d\n", i);
            return false;
        }
    }
    return true;
}

// The time of a call. Short ones are called several times between two looks at the clock.
static double time_call(enum implementation which, const struct signal *s, size_t limit, size_t length)
{
    static struct lent lent;
    int calls = s->n < 128 ? (int)(1024 / s->n) : 1;
    double before = now();
    for (int i = 0; i < calls; i++)
        split(which, s, limit, length, P, Q, &lent);
    return (now() - before) / calls;
}

// One turn through all signals, with each implementation from the given one on to the library: lowers the least times of a call.
static void take_turn(const struct signal *signals, int count, size_t limit, enum implementation from,
                      double least[][IMPLEMENTATIONS])
{
    for (int i = 0; i < count; i++)
        for (enum implementation which = from; which < IMPLEMENTATIONS; which++) {
            double time = time_call(which, &signals[i], limit, 1);
            least[i][which] = time < least[i][which] ? time : least[i][which];
        }
}

// Least times before the first turn.
static void forget(double least[MAX_SIGNALS][IMPLEMENTATIONS])
{
    for (int i = 0; i < MAX_SIGNALS; i++)
        for (enum implementation which = 0; which < IMPLEMENTATIONS; which++)
            least[i][which] = 1e30;
}

// Prints the rows of a table, one for each kind: the mean times of its draws and their ratios, each with the range over the draws. Says
// whether what is wanted is reached on every draw.
static bool print_rows(const struct signal *signals, int count, double least[][IMPLEMENTATIONS], int digits)
{
    bool reached = true;
    int behind = 0;
    for (int i = 0; i < count;) {
        const struct range none = empty_range;
        enum kind kind = signals[i].kind;
        struct range times[IMPLEMENTATIONS] = {none, none, none}, of_plain = none, of_full = none;
        double sums[IMPLEMENTATIONS] = {0, 0, 0};
        int draws = 0;
        for (; i < count && signals[i].kind == kind; i++, draws++) {
            for (enum implementation which = 0; which < IMPLEMENTATIONS; which++) {
                widen(&times[which], least[i][which]);
                sums[which] += least[i][which];
            }
            widen(&of_plain, least[i][PLAIN] / least[i][OURS]);
            widen(&of_full, least[i][FULL] / least[i][OURS]);
        }
        printf("| %s |", kind_names[kind]);
        for (enum implementation which = 0; which < IMPLEMENTATIONS; which++)
            print_range(sums[which] / draws, times[which], digits);
        print_range(sums[PLAIN] / sums[OURS], of_plain, 1);
        print_range(sums[FULL] / sums[OURS], of_full, 2);
        puts("");
        behind += of_full.low < 1;
        reached = reached && (kind == ALTERNATING || of_plain.low >= WANTED_TIMES_PLAIN) && of_full.low * WANTED_MOST_OF_FULL >= 1;
    }
    return reached && behind <= WANTED_MOST_BEHIND;
}

// Prints the rows of the table by least length, one for each kind: the library's mean times of its draws, what they are of the time with
// the length 1, and how many times as fast as the plain implementation it is. Says whether what is wanted is reached.
static bool print_length_rows(const struct signal *signals, int count, double least[][LENGTHS][IMPLEMENTATIONS])
{
    bool reached = true;
    for (int i = 0; i < count;) {
        enum kind kind = signals[i].kind;
        double sums[LENGTHS][IMPLEMENTATIONS] = {{0}};
        int draws = 0;
        for (; i < count && signals[i].kind == kind; i++, draws++)
            for (int l = 0; l < LENGTHS; l++)
                for (enum implementation which = 0; which < IMPLEMENTATIONS; which++)
                    sums[l][which] += least[i][l][which];
        printf("| %s |", kind_names[kind]);
        for (int l = 0; l < LENGTHS; l++)
            printf(" %.0f |", sums[l][OURS] / draws);
        for (int l = 1; l < LENGTHS; l++) {
            printf(" %.2f |", sums[l][OURS] / sums[0][OURS]);
            reached = reached && sums[l][OURS] <= WANTED_MOST_OF_ONE * sums[0][OURS];
        }
        for (int l = 0; l < LENGTHS; l++)
            printf(" %.1f |", sums[l][PLAIN] / sums[l][OURS]);
        puts("");
    }
    return reached;
}

// Times the library and the plain implementation with each least length, at 512 samples and limit 32.
static bool print_lengths(const struct signal *signals, int count, int turns)
{
    static double least[MAX_SIGNALS][LENGTHS][IMPLEMENTATIONS];
    for (int i = 0; i < count; i++)
        for (int l = 0; l < LENGTHS; l++)
            least[i][l][PLAIN] = least[i][l][OURS] = 1e30;
    for (int t = 0; t < turns; t++)
        for (int i = 0; i < count; i++)
            for (int l = 0; l < LENGTHS; l++)
                for (enum implementation which = PLAIN; which <= OURS; which += OURS - PLAIN) {
                    double time = time_call(which, &signals[i], MAX_SEGMENTS, lengths[l]);
                    least[i][l][which] = time < least[i][l][which] ? time : least[i][l][which];
                }
    printf("\n%d samples, limit %d, by least length:\n\n", MAX_SAMPLES, MAX_SEGMENTS);
    puts("| signal | library, 1 | 2 | 8 | 32 | 2 / 1 | 8 / 1 | 32 / 1 | plain / library, 1 | 2 | 8 | 32 |\n"
         "|---|---|---|---|---|---|---|---|---|---|---|---|");
    return print_length_rows(signals, count, least);
}

// Compares and times at each shape. What is wanted holds for the first.
static int print_tables(int turns)
{
    static const struct shape shapes[] = {{512, 32}, {512, 16}, {512, 8}, {128, 32}, {32, 8}, {8, 4}};
    static struct signal signals[MAX_SIGNALS];
    static double least[MAX_SIGNALS][IMPLEMENTATIONS];
    bool reached = true;
    for (size_t i = 0; i < sizeof shapes / sizeof shapes[0]; i++)
        for (int l = 0; l < LENGTHS && lengths[l] <= shapes[i].n; l++)
            if (!all_same(signals, make_signals(signals, shapes[i].n), shapes[i].limit, lengths[l]))
                return 1;
    if (!all_same_short())
        return 1;
    printf("The answers of all three are equal. Microseconds a call, least of %d turns.\n", turns);
    for (size_t i = 0; i < sizeof shapes / sizeof shapes[0]; i++) {
        int count = make_signals(signals, shapes[i].n);
        forget(least);
        for (int t = 0; t < turns; t++)
            take_turn(signals, count, shapes[i].limit, PLAIN, least);
        printf("\n%zu samples, limit %zu:\n\n", shapes[i].n, shapes[i].limit);
        puts("| signal | plain C | full-table C | library | plain / library | full-table / library |\n|---|---|---|---|---|---|");
        bool enough = print_rows(signals, count, least, shapes[i].n < 128 ? 2 : 0);
        reached = reached && (i > 0 || enough);
        fflush(stdout);
    }
    reached = print_lengths(signals, make_signals(signals, MAX_SAMPLES), turns) && reached;
    printf("\n%s\n", reached ? "All that is wanted is reached." : "NOT all that is wanted is reached.");
    return reached ? 0 : 1;
}

// The library's time at each number of samples and limit: the mean of the draws of a flow of 15 levels, and the least and the greatest
// of all signals. A turn goes through all of them, so that no point of the curve meets another load than its neighbours.
static int print_curve(int turns)
{
    enum { POINTS = 16 };
    static struct signal signals[MAX_SIGNALS];
    static double least[POINTS][MAX_SIGNALS][IMPLEMENTATIONS];
    struct shape shapes[POINTS];
    for (int i = 0; i < POINTS; i++) {
        shapes[i] = (struct shape){(size_t)64 << i / 4, (size_t)4 << i % 4};
        forget(least[i]);
    }
    for (int t = 0; t < turns; t++)
        for (int i = 0; i < POINTS; i++)
            take_turn(signals, make_signals(signals, shapes[i].n), shapes[i].limit, OURS, least[i]);
    puts("| samples | limit | flow, 15 levels | least of all | greatest of all | on |\n|---|---|---|---|---|---|");
    for (int i = 0; i < POINTS; i++) {
        struct range all = empty_range;
        double sum = 0;
        int count = make_signals(signals, shapes[i].n), dearest = 0;
        for (int j = 0; j < count; j++) {
            widen(&all, least[i][j][OURS]);
            dearest = least[i][j][OURS] == all.high ? j : dearest;
            sum += signals[j].kind == FLOW_15 ? least[i][j][OURS] : 0;
        }
        printf("| %zu | %zu | %.1f | %.1f | %.1f | %s |\n", shapes[i].n, shapes[i].limit, sum / DRAWS, all.low, all.high,
               kind_names[signals[dearest].kind]);
    }
    return 0;
}

int main(int argc, char **argv)
{
    bool curve = argc > 1 && strcmp(argv[1], "curve") == 0;
    int given = curve ? 2 : 1;
    int turns = argc > given ? atoi(argv[given]) : 40;
    return curve ? print_curve(turns) : print_tables(turns);
}
