// Compares the calls on arrays of entries with the calls on byte strings, which test.c compares with the reference. Both sides get
// the same numbers. Afterwards every field of the answers is compared, every element of every array with the items that the byte
// strings then hold, and the guards beside the arrays. A size or a weight of 65,536 or more has no place in two bytes and stands as
// 0 in the byte strings, which is out of range as well; where no call writes it has to stay. The refusals are compared besides with
// those that R36 to R41 of docs/RULES.md give, on the numbers themselves. Each build is made once more as a quadratic one, whose
// outcome is compared besides with that of the build and with the path that the reference finds by slopes. Flat stretches, which
// are models with equal losses, have figures of their own.
// Usage: entries [SEED]
// A seed leads to the same calls again if the same compiler is used.
//
// The macro FAULT plants one fault in this comparison, which it must then notice:
//
//    1  the size and the loss of the first entry are exchanged when they are decoded
//    2  the last place that a call writes is decoded as zeros
//    3  a call is expected to make one test more
//    4  a bit behind the places that a call writes is expected to change
//    5  a size of more than two bytes is cut to two for the byte strings
//    6  the byte strings for the path of a build are lent with one place less
//    7  the index of a selection is counted from 1
//    8  the numerators and the denominators of breakpoints are exchanged
//    9  the byte side is told of one entry less
//   10  a size of more than two bytes is expected to be cut to two where no call writes
//   11  losses and numerators are decoded from their first four bytes
//   12  the rules have 65,536 in the range of sizes
//   13  a byte beside an array is changed
//   14  a byte of an array is changed by a refused call
//   15  the rules have 7 at a loss that equals the last entry's
//   16  the rules compare a size with that of a model that was passed over
//   17  the rules ask an append for room for a model that is passed over
//   18  a test is expected for a model that an append passes over
//   19  N in the count of tests, 2 N - 1 - M, counts models that were passed over
//   20  a byte of an array is changed by an append that passes a model over
//   21  a quadratic build is expected to answer the tests of a build
//   22  the path by slopes is asked for without the last model
//   23  the rules look at the room of a quadratic build before its models
//   24  a bit behind the places that a quadratic build writes is changed
//   25  the sizes behind the path of a quadratic build are expected to be 1
//   26  the rules have too many models of a quadratic build behind a bad one
//   27  the size and the weight of the first entry are exchanged when they are decoded
//   28  a weight of more than two bytes is cut to two for the byte strings
//   29  the rules have 65,536 in the range of weights
//   30  the rules have 14 after 7
//   31  the rules have 14 before 6
//   32  the rules have no 14 at a weight that equals the last entry's
//   33  the rules have no 14 at a loss that equals the last entry's
//   34  the rules compare a weight with that of a model that was passed over
//   35  the rules have paths on which the weights need not rise
//   36  the rules ask for room by tests that go by sizes
//   37  the weight of a selection is expected to be its size
//   38  the path by slopes is asked for with the sizes as weights
#define _DEFAULT_SOURCE
#include "../include/foldwig.h"
#include "reference.h"
#include "span.h"
#include <stdio.h>
#include <stdlib.h>
#include <string.h>
#include <sys/mman.h>

#ifndef FAULT
#define FAULT 0
#endif

// After so many mismatches the test ends. c/check says 1 for the runs with a planted fault.
#ifndef MOST_MISMATCHES
#define MOST_MISMATCHES 10
#endif

enum { MOST = 4104, FIELDS = 3, PAGES = 1 << 17 };

// A list is long if it has more models than this. One in so many of these is built by the quadratic method too.
enum { LONG = 1000, RARE = 4 };

static const uint64_t TOP = (uint64_t)1 << 44;

// The five calls, as the tallies number them, and the refusals of each in their order, ended by 0.
enum call { APPEND, BUILD, BUILD_QUADRATIC, SELECT, BREAKPOINTS, CALLS };

static const char *const names[CALLS] = {"append", "build", "build_quadratic", "select", "breakpoints"};
static const int orders[CALLS][8] = {
    {8, 5, 6, 14, 7, 9, 0}, {1, 2, 5, 6, 14, 7, 9, 0}, {1, 2, 5, 6, 14, 7, 9, 0}, {8, 10, 4, 0}, {8, 9, 0}};

// The arrays: the path or the models that a call reads, the path that a build makes, and the breakpoints. Each has one or three
// numbers in an element, and for each of these an own byte string with items of a width.
enum array { PATH, MADE, NUMERATORS, DENOMINATORS, ARRAYS };

static const size_t columns[ARRAYS] = {FIELDS, FIELDS, 1, 1};
static const size_t widths[ARRAYS][FIELDS] = {{2, 8, 2}, {2, 8, 2}, {8, 0, 0}, {2, 0, 0}};
static const int lent_to[CALLS][ARRAYS] = {{1, 0, 0, 0}, {1, 1, 0, 0}, {1, 1, 0, 0}, {1, 0, 0, 0}, {1, 0, 1, 1}};
static const int writes[CALLS][ARRAYS] = {{1, 0, 0, 0}, {0, 1, 0, 0}, {0, 1, 0, 0}, {0, 0, 0, 0}, {0, 0, 1, 1}};

// What an array holds before a call, element by element. After a call it is what the call left.
static struct {
    size_t len;
    uint64_t at[FIELDS * MOST];
} held[ARRAYS];

// The arrays as they are lent, and then a byte string for each field of each of them.
static struct span spans[(1 + FIELDS) * ARRAYS];

static unsigned long calls[CALLS], mismatches;
static unsigned long refusals[CALLS][FOLDWIG_REFUSALS];     // how often a call answered a number
static unsigned long nulls[CALLS][ARRAYS];                  // how often an array was lent as null
static unsigned long passed_over[CALLS];                    // how many models were passed over

// ---- Mismatches

static int summary(void);

static void count_mismatch(void)
{
    if (++mismatches >= MOST_MISMATCHES) {
        printf("stopped after so many mismatches\n");
        exit(summary());
    }
}

static void expect(int so, const char *what)
{
    if (so)
        return;
    printf("mismatch: %s\n", what);
    count_mismatch();
}

// ---- Lending

static void map_spans(void)
{
    for (int i = 0; i < (1 + FIELDS) * ARRAYS; i++)
        map_span(&spans[i], PAGES);
}

// Places so many bytes: flush against the page behind them, flush against the one before them, or between guards. Arrays are
// aligned to eight bytes and no more.
static void place(struct span *s, size_t len, size_t alignment)
{
    uint64_t how = below(4);
    place_span(s, how == 0 ? PAGES - len : how == 1 ? 0 : GUARD + alignment * below(16), len);
}

static struct span *byte_string(int array, size_t column)
{
    return &spans[ARRAYS + FIELDS * array + (int)column];
}

static int fits(uint64_t value, size_t width)
{
    return width == 8 || value >> (8 * width) == 0;
}

// Writes a column of an array to its byte string. A number that does not fit becomes 0.
static void encode(int array, size_t column)
{
    size_t width = widths[array][column];
    struct span *s = byte_string(array, column);
    place(s, held[array].len * width, 1);
    for (size_t i = 0; i < held[array].len; i++) {
        uint64_t value = held[array].at[columns[array] * i + column];
        if (!(FAULT == 5 && column == 0) && !(FAULT == 28 && column == 2) && !fits(value, width))
            value = 0;
        for (size_t j = 0; j < width; j++)
            s->at[i * width + j] = (uint8_t)(value >> (8 * j));
    }
}

static uint64_t decode(int array, size_t column, size_t i)
{
    size_t width = widths[array][column];
    const struct span *s = byte_string(array, column);
    uint64_t value = 0;
    for (size_t j = 0; j < width && (FAULT != 11 || j < 4); j++)
        value += (uint64_t)s->at[i * width + j] << (8 * j);
    return value;
}

static int is_protected;

// Lends all arrays of a call, and their byte strings. Now and then what a call only reads can't be written.
static void lend(enum call call)
{
    for (int a = 0; a < ARRAYS; a++) {
        if (!lent_to[call][a])
            continue;
        place(&spans[a], held[a].len * columns[a] * sizeof held[a].at[0], sizeof held[a].at[0]);
        memcpy(spans[a].at, held[a].at, spans[a].len);
        nulls[call][a] += spans[a].given == NULL;
        for (size_t c = 0; c < columns[a]; c++)
            encode(a, c);
    }
    is_protected = call != APPEND && one_in(16);
    if (is_protected)
        protect_span(&spans[PATH], PROT_READ);
}

// An array as the library gets it, a pointer and the number of its elements, and a byte string.
#define ARRAY(a) spans[a].given, spans[a].len / (columns[a] * sizeof held[a].at[0])
#define BYTES(a, c) byte_string(a, c)->given, byte_string(a, c)->len
#define LISTS(a) BYTES(a, 0), BYTES(a, 1), BYTES(a, 2)

// ---- Comparing

// What a call was given beside its arrays, and what it and the call on byte strings answered.
struct answers {
    int numbers, fields;
    uint64_t given[4], got[5], wanted[5];
};

static void print_numbers(const char *what, const uint64_t *numbers, int count)
{
    printf("%s", what);
    for (int i = 0; i < count; i++)
        printf(" %llu", (unsigned long long)numbers[i]);
}

static void print_answers(enum call call, const struct answers *a, const char *what)
{
    printf("mismatch: %s", names[call]);
    print_numbers(" answers", a->got, a->fields);
    printf(", %s", what);
    print_numbers(" answers", a->wanted, a->fields);
    print_numbers("; given", a->given, a->numbers);
    printf(" and lengths");
    for (int i = 0; i < ARRAYS; i++)
        if (lent_to[call][i])
            printf(" %zu", held[i].len);
    printf("\n");
}

// The number that an array should hold after a call which writes the places before an end.
static uint64_t wanted_number(int array, size_t column, size_t i, size_t end)
{
    uint64_t before = held[array].at[columns[array] * i + column], now;
    if (FAULT == 1 && i == 0 && columns[array] == FIELDS && column < 2)
        return decode(array, 1 - column, i);
    if (FAULT == 27 && i == 0 && columns[array] == FIELDS && column != 1)
        return decode(array, 2 - column, i);
    if (FAULT == 2 && i + 1 == end)
        return 0;
    if (FAULT == 8 && array >= NUMERATORS && i < end)
        return decode(array == NUMERATORS ? DENOMINATORS : NUMERATORS, 0, i);
    now = decode(array, column, i);
    if (!fits(before, widths[array][column]) && i >= end)
        now = FAULT == 10 ? before & 65535 : before;
    return FAULT == 4 && i == end && end > 0 ? now ^ 1 : now;
}

// Compares every number of an array, and takes over what the call left, which wrote the places before an end.
static void check_array(enum call call, int a, size_t end)
{
    int differs = 0;
    for (size_t i = 0; i < held[a].len; i++)
        for (size_t c = 0; c < columns[a]; c++) {
            uint64_t got, wanted = wanted_number(a, c, i, end);
            memcpy(&got, spans[a].at + (columns[a] * i + c) * sizeof got, sizeof got);
            if (got != wanted && !differs++)
                printf("mismatch: %s, array %d, place %zu of %zu, number %zu: %llu, expected %llu\n", names[call], a, i,
                       held[a].len, c, (unsigned long long)got, (unsigned long long)wanted);
        }
    if (differs > 0)
        count_mismatch();
    if (end == 0 && memcmp(spans[a].at, held[a].at, spans[a].len) != 0) {
        printf("mismatch: %s altered array %d, of %zu places\n", names[call], a, held[a].len);
        count_mismatch();
    }
    if (!guards_stand(&spans[a])) {
        printf("mismatch: %s wrote beside array %d, of %zu places\n", names[call], a, held[a].len);
        count_mismatch();
    }
    for (size_t c = 0; c < columns[a]; c++)
        expect(guards_stand(byte_string(a, c)), "a call on byte strings wrote beside one of them");
    memcpy(held[a].at, spans[a].at, spans[a].len);
}

static void plant_in_memory(enum call call, int refused, int passed, size_t end)
{
    struct span *s = &spans[PATH];
    size_t behind = FIELDS * end * sizeof held[MADE].at[0];
    if (FAULT == 24 && call == BUILD_QUADRATIC && !refused && spans[MADE].len > behind)
        spans[MADE].at[behind] ^= 1;
    if (FAULT == 13 && guard_behind(s) > 9)
        s->at[s->len + 9] ^= 1;
    if (((FAULT == 14 && refused) || (FAULT == 20 && passed)) && s->len > 0)
        s->at[s->len - 1] ^= 1;
}

// Compares the answers, the refusal with that by the rules, and the arrays. A refused call answers zeros beside its number. An
// accepted one writes the places before an end, which is 0 for an append that passes its model over.
static void check(enum call call, const struct answers *a, uint64_t rule, size_t end)
{
    int refused = a->got[0] != 0;
    if (is_protected)
        protect_span(&spans[PATH], PROT_READ | PROT_WRITE);
    plant_in_memory(call, refused, call == APPEND && !refused && end == 0, end);
    calls[call]++;
    if (memcmp(a->got, a->wanted, (size_t)a->fields * sizeof a->got[0]) != 0) {
        print_answers(call, a, "the call on byte strings");
        count_mismatch();
    }
    if (a->got[0] != rule) {
        print_answers(call, a, "which the rules refuse otherwise; the call on byte strings");
        count_mismatch();
    }
    if (refused && (a->got[1] | a->got[2] | a->got[3] | a->got[4]) != 0) {
        print_answers(call, a, "refused, but not with zeros; the call on byte strings");
        count_mismatch();
    }
    for (int i = 0; i < ARRAYS; i++)
        if (lent_to[call][i])
            check_array(call, i, refused || !writes[call][i] ? 0 : end);
    if (a->got[0] < FOLDWIG_REFUSALS)
        refusals[call][a->got[0]]++;
}

// ---- The refusals by the rules

static struct foldwig_entry weighted(uint64_t size, uint64_t loss, uint64_t weight)
{
    struct foldwig_entry e = {size, loss, weight};
    return e;
}

// The model whose weight is its size.
static struct foldwig_entry entry(uint64_t size, uint64_t loss)
{
    return weighted(size, loss, size);
}

static struct foldwig_entry entry_at(int array, size_t i)
{
    const uint64_t *at = held[array].at + FIELDS * i;
    return weighted(at[0], at[1], at[2]);
}

static int out_of_range(struct foldwig_entry m)
{
    return m.size == 0 || m.size > (FAULT == 12 ? 65536 : 65535) || m.loss > TOP || m.weight == 0 ||
           m.weight > (FAULT == 29 ? 65536 : 65535);
}

// Whether a weight does not rise above the last entry's.
static int weight_stays(struct foldwig_entry m, struct foldwig_entry last)
{
    if ((FAULT == 32 && m.weight == last.weight) || (FAULT == 33 && m.loss == last.loss))
        return 0;
    return m.weight <= last.weight;
}

// What a model is refused with behind a last entry, which is null if there is none: 5, 6, 14, 7, or 0 if it is not.
static uint64_t model_refusal(struct foldwig_entry m, const struct foldwig_entry *last)
{
    if (out_of_range(m))
        return 5;
    if (!last)
        return 0;
    if (FAULT == 31 && weight_stays(m, *last))
        return 14;
    if (m.size <= last->size)
        return 6;
    if (FAULT == 30 && m.loss > last->loss)
        return 7;
    if (weight_stays(m, *last))
        return 14;
    return m.loss > last->loss || (FAULT == 15 && m.loss == last->loss) ? 7 : 0;
}

// What the first bad one of n models is refused with. Each is behind the last one before it that was not passed over.
static uint64_t models_refusal(size_t n)
{
    struct foldwig_entry last = {0, 0, 0};
    for (size_t i = 0; i < n; i++) {
        struct foldwig_entry m = entry_at(PATH, i);
        uint64_t refusal = model_refusal(m, i > 0 ? &last : NULL);
        if (refusal != 0)
            return refusal;
        if (i == 0 || m.loss < last.loss || FAULT == 16)
            last = m;
        else if (FAULT == 34)
            last.weight = m.weight;
    }
    return 0;
}

static int bad_path(uint64_t n)
{
    if (n > held[PATH].len || n > 4096)
        return 1;
    for (size_t i = 0; i < n; i++) {
        struct foldwig_entry e = entry_at(PATH, i), before = entry_at(PATH, i > 0 ? i - 1 : 0);
        if (out_of_range(e) || (i > 0 && (e.size <= before.size || e.loss >= before.loss)))
            return 1;
        if (i > 0 && e.weight <= before.weight && FAULT != 35)
            return 1;
    }
    return 0;
}

// Whether an append that is not refused passes its model over.
static int passes_over(uint64_t n, struct foldwig_entry m)
{
    return n > 0 && m.loss == entry_at(PATH, (size_t)n - 1).loss;
}

// Whether the test of a new model holds at an entry (R13).
static int test_holds(size_t i, struct foldwig_entry m)
{
    struct foldwig_entry e = entry_at(PATH, i), before;
    if (i == 0)
        return 1;
    before = entry_at(PATH, i - 1);
    if (FAULT == 36)
        return (e.loss - m.loss) * (e.size - before.size) < (before.loss - e.loss) * (m.size - e.size);
    return (e.loss - m.loss) * (e.weight - before.weight) < (before.loss - e.loss) * (m.weight - e.weight);
}

static uint64_t append_rule(uint64_t n, struct foldwig_entry m)
{
    struct foldwig_entry last = {0, 0, 0};
    uint64_t refusal;
    size_t stay = (size_t)n, room = held[PATH].len < 4096 ? held[PATH].len : 4096;
    if (bad_path(n))
        return 8;
    if (n > 0)
        last = entry_at(PATH, (size_t)n - 1);
    refusal = model_refusal(m, n > 0 ? &last : NULL);
    if (refusal != 0 || (passes_over(n, m) && FAULT != 17))
        return refusal;
    while (stay > 0 && !test_holds(stay - 1, m))
        stay--;
    return stay >= room ? 9 : 0;
}

static uint64_t build_rule(void)
{
    size_t n = held[PATH].len;
    uint64_t refusal;
    if (n == 0 || n > 4096)
        return n == 0 ? 1 : 2;
    refusal = models_refusal(n);
    return refusal != 0 ? refusal : held[MADE].len < n ? 9 : 0;
}

// The same for a quadratic build, but where a fault is planted.
static uint64_t build_quadratic_rule(void)
{
    size_t n = held[PATH].len;
    if (FAULT == 23 && n > 0 && n <= 4096 && held[MADE].len < n)
        return 9;
    if (FAULT == 26 && n > 4096 && models_refusal(n) != 0)
        return models_refusal(n);
    return build_rule();
}

static uint64_t select_rule(uint64_t n, uint64_t p, uint64_t q)
{
    if (bad_path(n))
        return 8;
    return n == 0 ? 10 : p > TOP || q == 0 || q > 65535 ? 4 : 0;
}

static uint64_t breakpoints_rule(uint64_t n)
{
    uint64_t count = n == 0 ? 0 : n - 1;
    if (bad_path(n))
        return 8;
    return held[NUMERATORS].len < count || held[DENOMINATORS].len < count ? 9 : 0;
}

// ---- The calls. Each makes one call on the arrays and the same on byte strings, compares them, and answers what the arrays gave.

// The number of entries that the byte side is told.
static uint64_t told(uint64_t n)
{
    return FAULT == 9 && n > 0 ? n - 1 : n;
}

static struct foldwig_path_result compare_append(uint64_t n, struct foldwig_entry m)
{
    struct foldwig_path_result got, wanted;
    uint64_t rule = append_rule(n, m);
    int passed = rule == 0 && passes_over(n, m);
    lend(APPEND);
    got = foldwig_append_entries(ARRAY(PATH), n, m.size, m.loss, m.weight);
    wanted = foldwig_append(LISTS(PATH), told(n), m.size, m.loss, m.weight);
    struct answers a = {4,
                        3,
                        {n, m.size, m.loss, m.weight},
                        {got.refusal, got.entries, got.tests},
                        {wanted.refusal, wanted.entries, wanted.tests + (FAULT == 3 && wanted.tests > 0)}};
    check(APPEND, &a, rule, passed ? 0 : (size_t)(got.entries > n ? got.entries : n));
    passed_over[APPEND] += (unsigned long)passed;
    expect(!passed || (got.entries == n && got.tests == (FAULT == 18)), "a model that an append passes over");
    return got;
}

static struct foldwig_path_result compare_build(void)
{
    struct foldwig_path_result got, wanted;
    uint64_t rule = build_rule();
    size_t less = FAULT == 6 && held[MADE].len > 0;
    lend(BUILD);
    got = foldwig_build_entries(ARRAY(PATH), ARRAY(MADE));
    wanted = foldwig_build(LISTS(PATH), BYTES(MADE, 0) - 2 * less, BYTES(MADE, 1) - 8 * less, BYTES(MADE, 2) - 2 * less);
    struct answers a = {0,
                        3,
                        {0},
                        {got.refusal, got.entries, got.tests},
                        {wanted.refusal, wanted.entries, wanted.tests + (FAULT == 3 && wanted.tests > 0)}};
    check(BUILD, &a, rule, held[PATH].len);
    if (got.refusal == 0)
        passed_over[BUILD] += held[PATH].len - (got.tests + 1 + got.entries) / 2;
    return got;
}

// The entries that a quadratic build has left are those that the reference finds by slopes, and zeros are behind them.
static void check_slopes(uint64_t entries)
{
    static struct model given[MOST], path[MOST];
    size_t n = held[PATH].len, wanted, same = 0;
    for (size_t i = 0; i < n; i++) {
        struct foldwig_entry e = entry_at(PATH, i);
        given[i].size = e.size;
        given[i].loss = e.loss;
        given[i].weight = FAULT == 38 ? e.size : e.weight;
    }
    wanted = path_by_slopes(given, FAULT == 22 && n > 1 ? n - 1 : n, path);
    for (size_t i = wanted; i < n; i++) {
        struct model behind = {FAULT == 25, 0, 0};
        path[i] = behind;
    }
    while (same < n && held[MADE].at[FIELDS * same] == path[same].size && held[MADE].at[FIELDS * same + 1] == path[same].loss &&
           held[MADE].at[FIELDS * same + 2] == path[same].weight)
        same++;
    expect(entries == wanted && same == n, "the path of a quadratic build is not that by slopes");
}

static struct foldwig_path_result compare_build_quadratic(void)
{
    struct foldwig_path_result got, wanted;
    uint64_t rule = build_quadratic_rule();
    lend(BUILD_QUADRATIC);
    got = foldwig_build_quadratic_entries(ARRAY(PATH), ARRAY(MADE));
    wanted = foldwig_build_quadratic(LISTS(PATH), LISTS(MADE));
    struct answers a = {0,
                        3,
                        {0},
                        {got.refusal, got.entries, got.tests},
                        {wanted.refusal, wanted.entries, wanted.tests}};
    check(BUILD_QUADRATIC, &a, rule, held[PATH].len);
    if (got.refusal == 0 && rule == 0)
        check_slopes(got.entries);
    return got;
}

// Makes a build and then a quadratic one with the array of the path as the build got it. The second one has to leave there what
// the first one left, and to answer what that answered, but 0 for the tests.
static struct foldwig_path_result compare_both_builds(void)
{
    static uint64_t before[FIELDS * MOST], after[FIELDS * MOST];
    struct foldwig_path_result linear, quadratic;
    size_t len = held[MADE].len * FIELDS * sizeof before[0];
    memcpy(before, held[MADE].at, len);
    linear = compare_build();
    memcpy(after, held[MADE].at, len);
    memcpy(held[MADE].at, before, len);
    quadratic = compare_build_quadratic();
    expect(quadratic.refusal == linear.refusal && quadratic.entries == linear.entries,
           "a quadratic build does not answer what a build answers");
    expect(quadratic.tests == (FAULT == 21 ? linear.tests : 0), "a quadratic build answers tests");
    expect(memcmp(held[MADE].at, after, len) == 0, "a quadratic build leaves another path than a build");
    if (linear.refusal == 0)
        passed_over[BUILD_QUADRATIC] += held[PATH].len - (linear.tests + 1 + linear.entries) / 2;
    return linear;
}

// The same, but most of the long lists that are accepted are left to the build alone: the other one may take millions of steps.
static struct foldwig_path_result compare_builds(void)
{
    int alone = held[PATH].len > LONG && build_rule() == 0 && !one_in(RARE);
    return alone ? compare_build() : compare_both_builds();
}

static struct foldwig_select_result compare_select(uint64_t n, uint64_t p, uint64_t q)
{
    struct foldwig_select_result got, wanted;
    uint64_t rule = select_rule(n, p, q);
    lend(SELECT);
    got = foldwig_select_entries(ARRAY(PATH), n, p, q);
    wanted = foldwig_select(LISTS(PATH), told(n), p, q);
    if (FAULT == 7 && wanted.refusal == 0)
        wanted.index++;
    if (FAULT == 37)
        wanted.weight = wanted.size;
    struct answers a = {3,
                        5,
                        {n, p, q},
                        {got.refusal, got.index, got.size, got.loss, got.weight},
                        {wanted.refusal, wanted.index, wanted.size, wanted.loss, wanted.weight}};
    check(SELECT, &a, rule, 0);
    return got;
}

static struct foldwig_breakpoints_result compare_breakpoints(uint64_t n)
{
    struct foldwig_breakpoints_result got, wanted;
    uint64_t rule = breakpoints_rule(n);
    lend(BREAKPOINTS);
    got = foldwig_breakpoints_entries(ARRAY(PATH), n, ARRAY(NUMERATORS), ARRAY(DENOMINATORS));
    wanted = foldwig_breakpoints(LISTS(PATH), told(n), BYTES(NUMERATORS, 0), BYTES(DENOMINATORS, 0));
    struct answers a = {1, 2, {n}, {got.refusal, got.count}, {wanted.refusal, wanted.count}};
    check(BREAKPOINTS, &a, rule, (size_t)got.count);
    return got;
}

// ---- Making models

static struct foldwig_entry list[MOST];     // the models that a test works with

// How a list of models is made: anything in order; breakpoints that fall; breakpoints that fall or stay; large numbers.
enum shape { ANY, FALLING, TIED, LARGE, SHAPES };

static enum shape some_shape(void)
{
    return (enum shape)below(SHAPES);
}

// Gives n models in order weights that rise: their sizes, or others by small or by large steps.
static void draw_weights(size_t n)
{
    uint64_t way = below(3), step = way == 1 ? 4 : 65000 / (n + 1), weight = 1 + below(way == 1 ? 4 : 500);
    for (size_t i = 0; i < n; i++) {
        list[i].weight = way == 0 ? list[i].size : weight;
        weight += 1 + below(step);
    }
}

// Makes n models in order, the losses from the last one back.
static void make_models(size_t n, enum shape shape)
{
    uint64_t step = n > 500 ? 2 : shape == LARGE ? 65000 / (n + 1) : 3;
    uint64_t size = 1 + below(3), loss = one_in(3) ? 0 : below(20), slope = below(3);
    for (size_t i = 0; i < n; i++) {
        list[i].size = size;
        size += 1 + (shape == TIED && one_in(2) ? 0 : below(step));
    }
    draw_weights(n);
    for (size_t i = n; i-- > 0;) {
        list[i].loss = loss;
        if (i == 0)
            break;
        slope += shape == FALLING ? 1 + below(3) : below(2);
        if (shape == ANY)
            loss += 1 + below(12);
        else if (shape == LARGE)
            loss += 1 + below(TOP / (n + 1) - 20);
        else
            loss += (slope == 0 ? 1 : slope) * (list[i].weight - list[i - 1].weight);
    }
}

// Makes flat stretches in n models in order: gives some, or all but the first, the loss of the last one that keeps its own. Now
// and then such a model gets another size or another weight above that one's, which may be above later ones too.
static void flatten(size_t n)
{
    struct foldwig_entry last = list[0];
    uint64_t many = 1 + below(4);
    for (size_t i = 1; i < n; i++) {
        if (!one_in(many)) {
            last = list[i];
            continue;
        }
        list[i].loss = last.loss;
        if (one_in(3))
            list[i].size = last.size + 1 + below(one_in(2) ? 6 : 65535 - last.size);
        if (one_in(3))
            list[i].weight = last.weight + 1 + below(one_in(2) ? 6 : 65535 - last.weight);
    }
}

// A size or a weight that two bytes can't hold. In most cases its low bits are those of a good one.
static uint64_t wide(uint64_t good)
{
    switch (below(6)) {
    case 0: return 65536;
    case 1: return UINT64_MAX - below(3);
    case 2: return good | (uint64_t)1 << 32;
    case 3: return good | (uint64_t)1 << 63;
    case 4: return good + 65536 * (1 + below(9));
    default: return good + 65536;
    }
}

// The ways to spoil the model at a place: a size or a weight of 0 or of more than two bytes, a loss over the top, a size, a loss or
// a weight that does not follow the last one, and several of these together.
enum { DAMAGES = 15 };

static void spoil(size_t i, int how)
{
    const struct foldwig_entry *last = &list[i > 0 ? i - 1 : 0];
    uint64_t size = list[i].size, loss = list[i].loss, weight = list[i].weight;
    struct foldwig_entry spoilt[DAMAGES] = {
        list[i],
        {0, loss, weight},
        {size, TOP + 1, weight},
        {size, loss, 0},
        {0, UINT64_MAX, 0},
        {wide(size), loss, weight},
        {size, loss, wide(weight)},
        {last->size, loss, weight},
        {last->size - 1, loss, weight},
        {size, last->loss, weight},
        {size, last->loss + 1, weight},
        {size, loss, last->weight},
        {size, loss, last->weight - 1},
        {size, last->loss, last->weight},
        {last->size, last->loss + 1, last->weight},
    };
    list[i] = spoilt[how];
}

// Those of them that spoil a model with none before it.
static int spoils_first(int how)
{
    return how < 7;
}

// Gives an array so many places, filled with numbers that have nothing to do with a call, now and then wide ones.
static void fresh(int array, size_t len)
{
    if (len > MOST) {
        fprintf(stderr, "an array of %zu places is asked for\n", len);
        exit(2);
    }
    held[array].len = len;
    for (size_t i = 0; i < columns[array] * len; i++) {
        size_t width = widths[array][i % columns[array]];
        uint64_t r = random64();
        held[array].at[i] = width == 2 && !one_in(4) ? r & 65535 : r;
    }
}

// Puts n models to the front of the array that calls read, which has so many places, or fewer than n.
static void put_models(size_t n, size_t places)
{
    fresh(PATH, places);
    for (size_t i = 0; i < n && i < places; i++) {
        held[PATH].at[FIELDS * i] = list[i].size;
        held[PATH].at[FIELDS * i + 1] = list[i].loss;
        held[PATH].at[FIELDS * i + 2] = list[i].weight;
    }
}

static void fresh_breakpoints(size_t numerators, size_t denominators)
{
    fresh(NUMERATORS, numerators);
    fresh(DENOMINATORS, denominators);
}

// A number of models: 0 to 40, and now and then about the limit.
static size_t some_length(void)
{
    return one_in(300) ? 4095 + below(3) : below(one_in(2) ? 8 : 41);
}

// The number of entries that is said for n entries in an array of some length.
static uint64_t some_count(size_t n, size_t len)
{
    switch (below(24)) {
    case 0: return len;
    case 1: return len + 1;
    case 2: return n + 1;
    case 3: return below(n + 1);
    case 4: return 0;
    case 5: return 4096 + below(2);
    case 6: return one_in(2) ? random64() : n | (uint64_t)1 << (32 + below(32));
    default: return n;
    }
}

// ---- Builds and paths

static void random_builds(int turns)
{
    for (int turn = 0; turn < turns; turn++) {
        size_t n = some_length();
        make_models(n, some_shape());
        if (one_in(2))
            flatten(n);
        for (int damage = 0; damage < 3 && n > 0 && one_in(3); damage++)
            spoil(below(n), (int)below(DAMAGES));
        put_models(n, n);
        fresh(MADE, about(n));
        compare_builds();
    }
}

// Compares selections from the path of n models, at random penalties and at those where two of its entries cost the same.
static void compare_selections(uint64_t said, size_t n)
{
    for (int turn = 0; turn < 3; turn++) {
        uint64_t p = some_number(TOP), q = some_number(65535);
        if (n > 1 && one_in(2)) {
            size_t i = below(n - 1), j = i + 1 + below(one_in(2) ? 1 : n - 1 - i);
            p = list[i].loss - list[j].loss;
            q = list[j].weight - list[i].weight;
        }
        compare_select(said, p, q);
    }
}

// Lists in order, most of which no call has left, and damaged ones, said to have any number of entries.
static void random_paths(int turns)
{
    for (int turn = 0; turn < turns; turn++) {
        size_t n = some_length(), len = about(n), count = n > 0 ? n - 1 : 0;
        uint64_t said = some_count(n, len);
        struct foldwig_entry last, new_model;
        make_models(n, some_shape());
        last = n > 0 ? list[n - 1] : entry(0, TOP);
        new_model = weighted(last.size + 1 + below(4), last.loss, last.weight + 1 + below(one_in(3) ? 400 : 4));
        if (last.loss > 0 && !one_in(4))
            new_model.loss -= 1 + below(last.loss < 9 ? last.loss : 9);
        if (n > 0 && one_in(4))
            spoil(below(n), (int)below(DAMAGES));
        put_models(n, len);
        compare_selections(said, n);
        fresh_breakpoints(about(count), about(count));
        compare_breakpoints(said);
        if (one_in(6))
            new_model.size = one_in(2) ? wide(new_model.size) : some_number(65535);
        if (one_in(6))
            new_model.loss = some_number(TOP);
        if (one_in(6))
            new_model.weight = one_in(2) ? wide(new_model.weight) : one_in(2) ? last.weight : some_number(65535);
        compare_append(said, new_model);
    }
}

// ---- Histories

// Perhaps begins a history with a build, whose array then is that of the appends. It answers the number of entries, and keeps the
// accepted models, those passed over included, in the list.
static uint64_t begin_history(size_t places, size_t *accepted, uint64_t *tests)
{
    struct foldwig_path_result r = {0, 0, 0};
    size_t n = below(places + 1);
    fresh(MADE, places);
    if (one_in(2)) {
        make_models(n, some_shape());
        if (one_in(2))
            flatten(n);
        if (n > 0 && one_in(6))
            spoil(below(n), (int)below(DAMAGES));
        put_models(n, n);
        r = compare_builds();
    }
    held[PATH] = held[MADE];
    *accepted = r.refusal == 0 && r.entries > 0 ? n : 0;
    *tests = r.tests;
    return r.entries;
}

// Appends one model, mostly one in order or with the loss of the last entry.
static struct foldwig_path_result go_on(uint64_t entries, struct foldwig_entry *m)
{
    struct foldwig_entry last = entries > 0 ? entry_at(PATH, (size_t)entries - 1) : entry(0, 80 + below(300));
    *m = weighted(last.size + 1 + (one_in(3) ? below(3) : 0), last.loss, last.weight + 1 + below(one_in(8) ? 90 : 3));
    if (m->loss > 0 && !one_in(3))
        m->loss -= 1 + below(m->loss < 6 ? m->loss : 6);
    if (one_in(10))
        m->size = one_in(2) ? last.size : one_in(2) ? wide(m->size) : some_number(65535);
    if (one_in(10))
        m->loss = one_in(2) ? last.loss : some_number(TOP);
    if (one_in(10))
        m->weight = one_in(2) ? last.weight : one_in(2) ? wide(m->weight) : some_number(65535);
    return compare_append(entries, *m);
}

// How many of the accepted models in the list were tried and not passed over: those with a smaller loss than the model before.
static size_t tried(size_t accepted)
{
    size_t count = 0;
    for (size_t i = 0; i < accepted; i++)
        count += i == 0 || list[i].loss < list[i - 1].loss || FAULT == 19;
    return count;
}

// A build of the accepted models gives the path of the history, and as many tests.
static void check_history(uint64_t entries, size_t accepted, uint64_t tests)
{
    static uint64_t path[FIELDS * MOST];
    struct foldwig_path_result r;
    memcpy(path, held[PATH].at, sizeof path);
    put_models(accepted, accepted);
    fresh(MADE, accepted);
    r = compare_builds();
    expect(r.refusal == (accepted == 0), "a build of the models that a history accepted is refused");
    expect(r.entries == entries && r.tests == tests, "a build of the models of a history answers something else");
    expect(memcmp(held[MADE].at, path, (size_t)entries * FIELDS * sizeof path[0]) == 0,
           "a build makes another path than a history");
    expect(accepted == 0 || tests == 2 * tried(accepted) - 1 - entries, "the tests of a history are not 2N - 1 - M");
    memcpy(held[PATH].at, path, sizeof path);
    held[PATH].len = (size_t)entries;
}

static void random_histories(int turns)
{
    for (int turn = 0; turn < turns; turn++) {
        size_t accepted;
        uint64_t tests, entries = begin_history(1 + below(one_in(3) ? 4 : 40), &accepted, &tests);
        for (size_t left = below(40); left > 0; left--) {
            struct foldwig_entry m;
            struct foldwig_path_result r = go_on(entries, &m);
            if (r.refusal != 0)
                continue;
            list[accepted++] = m;
            tests += r.tests;
            entries = r.entries;
        }
        check_history(entries, accepted, tests);
        fresh_breakpoints(about((size_t)entries), about((size_t)entries));
        compare_breakpoints(entries);
        compare_selections(entries, accepted);
    }
}

// ---- Refusals: the causes of each call are brought together in all ways

// The number of entries that is said for a path of n entries with so many places.
static uint64_t said_entries(int how, size_t n, size_t places)
{
    uint64_t said[] = {n, places + 1, 4096, 4097, UINT64_MAX, n + ((uint64_t)1 << 32)};
    return said[how];
}

enum { SAYINGS = 6 };

// A path of n entries whose last but one or last is perhaps spoilt.
static void small_path(size_t n, int damage)
{
    static const struct foldwig_entry path[] = {{10, 400, 3}, {20, 300, 50}, {30, 250, 90}, {40, 220, 200}};
    memcpy(list, path, sizeof path);
    if (n > 1)
        spoil(n - 2 + !spoils_first(damage), damage);
    else if (n == 1 && spoils_first(damage))
        spoil(0, damage);
}

static void meet_append(size_t n, int damage, int saying, size_t room)
{
    struct foldwig_entry last;
    small_path(n, damage);
    last = n > 0 ? list[n - 1] : entry(10, 400);
    for (int i = saying == 0 && damage == 0 ? 0 : (int)below(8); i < 8 * 7 * 8; i += saying == 0 && damage == 0 ? 1 : 8) {
        uint64_t sizes[] = {last.size + 9, last.size, last.size - 1, 0, 65536, UINT64_MAX, 65535, last.size + 65545};
        uint64_t losses[] = {last.loss - 1, last.loss, last.loss + 1, TOP + 1, UINT64_MAX, TOP, 0};
        uint64_t weights[] = {last.weight + 9, last.weight, last.weight - 1, 0, 65536, UINT64_MAX, 65535, last.weight + 65545};
        put_models(n, n + room);
        compare_append(said_entries(saying, n, n + room), weighted(sizes[(i / 8 + i) % 8], losses[i / 8 % 7], weights[i / 56]));
    }
}

static void meet_select(size_t n, int damage, int saying, size_t room)
{
    static const uint64_t ps[] = {7, TOP, TOP + 1, UINT64_MAX}, qs[] = {1, 0, 65535, 65536, UINT64_MAX, (uint64_t)1 << 32};
    small_path(n, damage);
    put_models(n, n + room);
    for (int i = 0; i < 24; i++)
        compare_select(said_entries(saying, n, n + room), ps[i / 6], qs[i % 6]);
}

static void meet_breakpoints(size_t n, int damage, int saying, size_t room)
{
    small_path(n, damage);
    put_models(n, n + room);
    for (size_t i = 0; i < 36; i++) {
        fresh_breakpoints(i / 6, i % 6);
        compare_breakpoints(said_entries(saying, n, n + room));
    }
}

static void meet_paths(void)
{
    for (int i = 0; i < 3 * DAMAGES * SAYINGS * 3; i++) {
        size_t n = i % 3 == 0 ? 0 : i % 3 == 1 ? 1 : 4, room = (size_t)(i / 3 % 3);
        int damage = i / 9 % DAMAGES, saying = i / 9 / DAMAGES;
        meet_append(n, damage, saying, room);
        meet_select(n, damage, saying, room);
        meet_breakpoints(n, damage, saying, room);
    }
}

// Builds of up to four models, of which two are spoilt, and of too many; with all rooms.
static void meet_builds(void)
{
    for (int i = 0; i < DAMAGES * DAMAGES * 6; i++) {
        small_path(0, 0);
        spoil(3, i / DAMAGES % DAMAGES);
        spoil(1, i % DAMAGES);
        for (size_t n = 0; n <= 4; n++) {
            put_models(n, n);
            fresh(MADE, (size_t)(i / DAMAGES / DAMAGES));
            compare_builds();
        }
    }
    for (int damage = 0; damage < DAMAGES; damage++)
        for (size_t room = 4095; room <= 4098; room++) {
            make_models(4097, ANY);
            spoil(2, damage);
            put_models(4097, 4097);
            fresh(MADE, room);
            expect(compare_builds().refusal == 2, "a build of 4,097 models");
        }
}

// ---- Sizes and weights of more than two bytes

// The number of a model that is made wide.
enum field { SIZE, WEIGHT };

static uint64_t *number(struct foldwig_entry *e, enum field field)
{
    return field == SIZE ? &e->size : &e->weight;
}

// A model with a wide number.
static struct foldwig_entry widened(struct foldwig_entry m, enum field field)
{
    *number(&m, field) = wide(*number(&m, field));
    return m;
}

// Such a number on a path gives 8, whatever else is wrong.
static void wide_on_path(size_t n, size_t at, enum field field)
{
    struct foldwig_entry m = weighted(some_number(65535), some_number(TOP), some_number(65535));
    list[at] = widened(list[at], field);
    put_models(n, n + below(3));
    expect(compare_select(n, some_number(TOP), some_number(65535)).refusal == 8, "a selection from a path with a wide number");
    fresh_breakpoints(about(n - 1), about(n - 1));
    expect(compare_breakpoints(n).refusal == 8, "breakpoints of a path with a wide number");
    expect(compare_append(n, m).refusal == 8, "an append to a path with a wide number");
    expect(compare_append(n, widened(m, field)).refusal == 8, "an append of a wide number to a path with one");
    expect(compare_append(n, widened(list[at], field)).refusal == 8, "an append of a wider number to a path with a wide one");
}

// Behind the entries that are said it plays no part.
static void wide_behind_path(size_t n, size_t at, enum field field)
{
    struct foldwig_entry m = list[at];
    list[at] = widened(list[at], field);
    put_models(n, n);
    expect(compare_select(at, 1, 1).refusal == (at == 0 ? 10 : 0), "a selection from a path with a wide number behind it");
    fresh_breakpoints(at, at);
    expect(compare_breakpoints(at).refusal == 0, "breakpoints of a path with a wide number behind it");
    expect(compare_append(at, m).refusal == 0, "an append in front of a wide number");
}

// In a new model it gives 5, before 6, 14, 7 and 9.
static void wide_new_model(size_t n, enum field field)
{
    struct foldwig_entry last = list[n - 1];
    uint64_t losses[] = {0, last.loss, last.loss + 1, TOP + 1};
    for (int i = 0; i < 4; i++) {
        put_models(n, n + below(2));
        expect(compare_append(n, widened(weighted(last.size + 1, losses[i], last.weight + 1), field)).refusal == 5,
               "an append of a wide number");
        expect(compare_append(n, widened(weighted(last.size, losses[i], last.weight), field)).refusal == 5,
               "an append of a wide number beside one that does not rise");
        expect(compare_append(0, widened(entry(1, losses[i]), field)).refusal == 5, "an append of a wide number to an empty path");
    }
    fresh(PATH, 0);
    expect(compare_append(0, widened(entry(1, 0), field)).refusal == 5, "an append of a wide number to no places");
}

// In a build it gives 5 at its place: before what is wrong with the models behind it and with the room, after what is wrong with
// those before it.
static void wide_in_build(size_t n, size_t at, enum field field)
{
    struct foldwig_entry kept, before;
    list[at] = widened(list[at], field);
    put_models(n, n);
    fresh(MADE, about(n));
    expect(compare_builds().refusal == 5, "a build with a wide number");
    if (at + 1 < n)
        list[at + 1] = one_in(2) ? weighted(0, 0, 0) : list[at];
    put_models(n, n);
    expect(compare_builds().refusal == 5, "a build with a wide number before another bad model");
    if (at < 2)
        return;
    kept = list[at - 1];
    before = list[at - 2];
    list[at - 1].size = before.size;
    put_models(n, n);
    expect(compare_builds().refusal == 6, "a build with a wide number behind a size that is not larger");
    list[at - 1] = weighted(kept.size, kept.loss, before.weight);
    put_models(n, n);
    expect(compare_builds().refusal == 14, "a build with a wide number behind a weight that is not larger");
    list[at - 1] = weighted(kept.size, before.loss, kept.weight);
    put_models(n, n);
    expect(compare_builds().refusal == 5, "a build with a wide number behind a model that is passed over");
    list[at - 1] = weighted(kept.size, before.loss + 1, kept.weight);
    put_models(n, n);
    expect(compare_builds().refusal == 7, "a build with a wide number behind a loss that is larger");
}

static void wide_numbers(int turns)
{
    for (int turn = 0; turn < turns; turn++) {
        size_t n = one_in(200) ? 4095 + below(2) : 1 + below(40), at = one_in(3) ? n - 1 : below(n);
        enum field field = turn % 2 == 0 ? SIZE : WEIGHT;
        make_models(n, some_shape());
        wide_new_model(n, field);
        wide_behind_path(n, at, field);
        make_models(n, some_shape());
        wide_on_path(n, at, field);
        make_models(n, some_shape());
        wide_in_build(n, at, field);
    }
}

// ---- Weights that do not rise

// Among n models one weight, at each place in turn, equals the one before or is below it: 14 in a build and in an append, 8 on a
// path.
static void every_neighbour(void)
{
    for (size_t n = 2; n <= 9; n++)
        for (size_t i = 1; i < n; i++)
            for (uint64_t less = 0; less < 3; less++) {
                make_models(n, some_shape());
                for (size_t j = 0; j < n; j++) {
                    list[j].loss += 9;
                    list[j].weight += 2;
                }
                list[i].weight = list[i - 1].weight - (less < 2 ? less : list[i - 1].weight - 1);
                put_models(i, n);
                expect(compare_append(i, list[i]).refusal == 14, "an append whose weight does not rise");
                expect(compare_append(i, weighted(list[i].size, list[i - 1].loss, list[i].weight)).refusal == 14,
                       "an append with the last loss whose weight does not rise");
                expect(compare_append(i, weighted(list[i].size, TOP, list[i].weight)).refusal == 14,
                       "an append with a larger loss whose weight does not rise");
                put_models(n, n);
                fresh(MADE, n);
                expect(compare_builds().refusal == 14, "a build with a weight that does not rise");
                for (size_t said = 1; said <= n; said++)
                    expect(compare_select(said, 1, 1).refusal == (said > i ? 8 : 0),
                           "a selection from a path with a weight that does not rise");
                fresh_breakpoints(n, n);
                expect(compare_breakpoints(n).refusal == 8, "breakpoints of a path with a weight that does not rise");
                expect(compare_append(n, entry(65535, 0)).refusal == 8, "an append to a path with a weight that does not rise");
            }
}

// ---- Limits

// Builds of about 4,096 models with about as many places, and listings and selections of their paths.
static void builds_at_limit(enum shape shape)
{
    for (size_t n = 4095; n <= 4097; n++)
        for (size_t room = n - 1; room <= n + 2; room++) {
            struct foldwig_path_result r;
            make_models(n, shape);
            if (one_in(2))
                flatten(n);
            put_models(n, n);
            fresh(MADE, room);
            r = compare_builds();
            expect(r.refusal == (n > 4096 ? 2 : room < n ? 9 : 0), "a build of about 4,096 models");
            held[PATH] = held[MADE];
            compare_select(r.entries, 0, 1);
            fresh_breakpoints((size_t)r.entries, (size_t)r.entries);
            compare_breakpoints(r.entries);
        }
}

// Paths of about 4,096 entries, said to have about as many.
static void paths_at_limit(enum shape shape)
{
    for (int i = 0; i < 4 * 4 * 4; i++) {
        size_t n = 4095 + (size_t)(i % 4), room = 4093 + (size_t)(i / 16);
        uint64_t said = 4095 + (uint64_t)(i / 4 % 4);
        struct foldwig_entry last;
        make_models(MOST, shape);
        for (size_t j = 0; j < MOST; j++)
            list[j].loss += 2;
        last = list[said - 1];
        put_models(n, n);
        compare_select(said, below(3), 1);
        fresh_breakpoints(room, one_in(2) ? room : 4096);
        compare_breakpoints(said);
        compare_append(said, weighted(last.size + 1, last.loss - 1, last.weight + 1));
        put_models(n, n);
        compare_append(said, weighted(last.size + 1, last.loss, last.weight + 1));
        compare_append(said, entry(65535, 0));
        put_models(MOST, MOST);
        compare_append(said, weighted(last.size + 1, last.loss > 900 ? last.loss - 900 : 0, last.weight + 1));
    }
}

// Appends from 4,094 entries up to a full path, one at a time, and then one that drops nothing and one that drops much.
static void fill_up(void)
{
    uint64_t n = 4094;
    for (size_t i = 0; i < MOST; i++)
        list[i] = entry(i + 1, 10000 + (MOST - i) * (MOST - i));
    put_models((size_t)n, MOST);
    for (; n < 4096; n++) {
        expect(compare_append(n, list[n]).entries == n + 1, "an append that drops nothing");
        expect(compare_append(n + 1, entry(65535, list[n].loss)).entries == n + 1, "an append that is passed over");
    }
    expect(compare_append(n, list[n]).refusal == 9, "an append to a full path");
    n = compare_append(n, entry(4097, 0)).entries;
    expect(n > 0 && n < 4096, "an append to a full path that drops entries");
    compare_append(n, entry(65535, 0));
}

// ---- Figures of flat stretches

// Whether an array holds so many entries, and zeros behind them up to an end.
static int holds_path(int array, const struct foldwig_entry *path, size_t entries, size_t end)
{
    for (size_t i = 0; i < end; i++) {
        struct foldwig_entry wanted = i < entries ? path[i] : entry(0, 0), e = entry_at(array, i);
        if (e.size != wanted.size || e.loss != wanted.loss || e.weight != wanted.weight)
            return 0;
    }
    return 1;
}

static int answers(struct foldwig_path_result r, uint64_t refusal, uint64_t entries, uint64_t tests)
{
    return r.refusal == refusal && r.entries == entries && r.tests == tests;
}

// Builds n models of the list into so many places.
static struct foldwig_path_result build_list(size_t n, size_t places)
{
    put_models(n, n);
    fresh(MADE, places);
    return compare_both_builds();
}

// Builds of models of which some are passed over, what they answer and the paths that they leave.
static const struct {
    const char *what;
    size_t n;
    struct foldwig_entry given[6];
    uint64_t refusal;
    size_t entries;
    struct foldwig_entry path[3];
    uint64_t tests;
} flat_builds[] = {
    {"the first model twice", 2, {{1, 5, 1}, {1, 5, 1}}, 6, 0, {{0, 0, 0}}, 0},
    {"the first loss twice", 2, {{1, 5, 1}, {2, 5, 2}}, 0, 1, {{1, 5, 1}}, 0},
    {"a passed-over model twice", 3, {{1, 5, 1}, {2, 5, 2}, {2, 5, 2}}, 0, 1, {{1, 5, 1}}, 0},
    {"a size below a passed-over one", 3, {{1, 5, 1}, {3, 5, 3}, {2, 4, 2}}, 0, 2, {{1, 5, 1}, {2, 4, 2}}, 1},
    {"a size that was passed over", 3, {{1, 5, 1}, {3, 5, 3}, {3, 4, 3}}, 0, 2, {{1, 5, 1}, {3, 4, 3}}, 1},
    {"the last entry's size and loss", 3, {{2, 5, 2}, {4, 5, 4}, {2, 5, 2}}, 6, 0, {{0, 0, 0}}, 0},
    {"the last entry's size, a smaller loss", 3, {{2, 5, 2}, {4, 5, 4}, {2, 4, 2}}, 6, 0, {{0, 0, 0}}, 0},
    {"a smaller size, the last entry's loss", 3, {{2, 5, 2}, {4, 5, 4}, {1, 5, 1}}, 6, 0, {{0, 0, 0}}, 0},
    {"a wide size, the last entry's loss", 3, {{2, 5, 2}, {4, 5, 4}, {65539, 5, 9}}, 5, 0, {{0, 0, 0}}, 0},
    {"a larger loss below a passed-over size", 3, {{1, 5, 1}, {3, 5, 3}, {2, 6, 2}}, 7, 0, {{0, 0, 0}}, 0},
    // The models 1, 2 and 3 with the losses 7, 4 and 0, each followed by one that is passed over: 1 test, then 2.
    {"a test that fails", 6, {{1, 7, 1}, {2, 7, 2}, {2, 4, 2}, {5, 4, 5}, {3, 0, 3}, {4, 0, 4}}, 0, 2, {{1, 7, 1}, {3, 0, 3}}, 3},
    // The losses 7, 4 and 2: 1 test, then 1.
    {"tests that hold", 6, {{1, 7, 1}, {9, 7, 9}, {2, 4, 2}, {8, 4, 8}, {7, 4, 7}, {3, 2, 3}}, 0, 3,
     {{1, 7, 1}, {2, 4, 2}, {3, 2, 3}}, 2},
    {"the first loss and weight twice", 2, {{1, 5, 4}, {2, 5, 4}}, 14, 0, {{0, 0, 0}}, 0},
    {"the first loss, a larger weight", 2, {{1, 5, 4}, {2, 5, 5}}, 0, 1, {{1, 5, 4}}, 0},
    {"the first weight, a larger loss", 2, {{1, 5, 4}, {2, 6, 4}}, 14, 0, {{0, 0, 0}}, 0},
    {"the first size and weight, a larger loss", 2, {{1, 5, 4}, {1, 6, 4}}, 6, 0, {{0, 0, 0}}, 0},
    {"a weight below a passed-over one", 3, {{1, 5, 2}, {2, 5, 9}, {3, 4, 3}}, 0, 2, {{1, 5, 2}, {3, 4, 3}}, 1},
    {"the last entry's weight", 3, {{1, 5, 2}, {2, 5, 9}, {3, 4, 2}}, 14, 0, {{0, 0, 0}}, 0},
    {"a wide weight, the last entry's loss", 3, {{1, 5, 2}, {2, 5, 9}, {3, 5, 65546}}, 5, 0, {{0, 0, 0}}, 0},
    // By the weights 2, 3 and 7 the breakpoints are 3/1 and 4/4.
    {"weights by which a test holds", 3, {{1, 7, 2}, {2, 4, 3}, {3, 0, 7}}, 0, 3, {{1, 7, 2}, {2, 4, 3}, {3, 0, 7}}, 2},
};

static void flat_build_figures(void)
{
    for (size_t i = 0; i < sizeof flat_builds / sizeof flat_builds[0]; i++) {
        size_t n = flat_builds[i].n;
        struct foldwig_path_result r;
        memcpy(list, flat_builds[i].given, n * sizeof list[0]);
        r = build_list(n, n + 1);
        expect(answers(r, flat_builds[i].refusal, flat_builds[i].entries, flat_builds[i].tests), flat_builds[i].what);
        if (flat_builds[i].refusal != 0)
            continue;
        expect(holds_path(MADE, flat_builds[i].path, flat_builds[i].entries, n), flat_builds[i].what);
        expect(answers(build_list(n, n - 1), 9, 0, 0), "a build without a place for a model that is passed over");
    }
}

// 48 models with falling losses, 4,000 with the last one's, and 48 with falling losses again, whose sizes go on from the first
// 48. The loss of size k is the square of 96 - k, so that all of the 96 stay, and each but the first takes 1 test.
static void long_flat_figures(void)
{
    static struct foldwig_entry path[96];
    for (uint64_t i = 0; i < 96; i++)
        path[i] = entry(i + 1, (95 - i) * (95 - i));
    memcpy(list, path, 48 * sizeof list[0]);
    for (uint64_t i = 0; i < 4000; i++)
        list[48 + i] = entry(49 + i, path[47].loss);
    memcpy(list + 4048, path + 48, 48 * sizeof list[0]);
    expect(answers(build_list(4096, 4098), 0, 96, 95), "4,000 equal losses between others");
    expect(holds_path(MADE, path, 96, 4096), "the path of 4,000 equal losses between others");
    for (uint64_t i = 0; i < 4097; i++)
        list[i] = entry(i + 1, 5);
    expect(answers(build_list(4000, 4000), 0, 1, 0) && holds_path(MADE, list, 1, 4000), "4,000 equal losses");
    expect(answers(build_list(4096, 4096), 0, 1, 0) && holds_path(MADE, list, 1, 4096), "4,096 equal losses");
    expect(answers(build_list(4096, 4095), 9, 0, 0), "4,096 equal losses without a place for each model");
    expect(answers(build_list(4097, 4097), 2, 0, 0), "4,097 equal losses");
}

// Models that a quadratic build goes through from the largest size down, and the path that it finds. The comments have the
// breakpoints to each present entry, from the smallest size on.
static const struct {
    const char *what;
    size_t n;
    struct foldwig_entry given[6];
    size_t entries;
    struct foldwig_entry path[4];
} quadratic_builds[] = {
    {"one model", 1, {{7, 9, 7}}, 1, {{7, 9, 7}}},
    // From size 5 only 7 / 3.
    {"two models", 2, {{2, 9, 2}, {5, 2, 5}}, 2, {{2, 9, 2}, {5, 2, 5}}},
    // From size 5: 4 / 4, 3 / 3, 2 / 2 and 1 / 1.
    {"all on one line", 5, {{1, 4, 1}, {2, 3, 2}, {3, 2, 3}, {4, 1, 4}, {5, 0, 5}}, 2, {{1, 4, 1}, {5, 0, 5}}},
    // From size 6: 14 / 5, 6 / 4, 4 / 3, 2 / 2 and 1 / 1. From size 4: 12 / 3, 4 / 2 and 2 / 1. From size 2: 8 / 1.
    {"two lines", 6, {{1, 14, 1}, {2, 6, 2}, {3, 4, 3}, {4, 2, 4}, {5, 1, 5}, {6, 0, 6}}, 4,
     {{1, 14, 1}, {2, 6, 2}, {4, 2, 4}, {6, 0, 6}}},
    // Size 4 with the loss 4 and size 9 are passed over. From size 5: 7 / 4, 4 / 3 and 2 / 1. From size 2: 3 / 1.
    {"the largest size passed over", 6, {{1, 7, 1}, {2, 4, 2}, {4, 4, 4}, {4, 2, 4}, {5, 0, 5}, {9, 0, 9}}, 3,
     {{1, 7, 1}, {2, 4, 2}, {5, 0, 5}}},
};

static void quadratic_figures(void)
{
    for (size_t i = 0; i < sizeof quadratic_builds / sizeof quadratic_builds[0]; i++) {
        size_t n = quadratic_builds[i].n, entries = quadratic_builds[i].entries;
        struct foldwig_path_result r;
        memcpy(list, quadratic_builds[i].given, n * sizeof list[0]);
        r = build_list(n, n + 1);
        expect(r.refusal == 0 && r.entries == entries, quadratic_builds[i].what);
        expect(holds_path(MADE, quadratic_builds[i].path, entries, n), quadratic_builds[i].what);
    }
}

// 4,096 models that a quadratic build goes through in the most steps, and in the fewest: if the loss of size k is the square of
// 4,097 - k it takes all of them, and if it is 4,097 - k they are on a line, and it goes from the last to the first at once.
static void long_quadratic_figures(void)
{
    for (int squares = 0; squares < 2; squares++) {
        struct foldwig_entry ends[2];
        for (uint64_t i = 0; i < 4097; i++)
            list[i] = entry(i + 1, squares ? (4096 - i) * (4096 - i) : 4096 - i);
        ends[0] = list[0];
        ends[1] = list[4095];
        expect(build_list(4096, 4097).entries == (squares ? 4096 : 2), "the entries of 4,096 models");
        expect(holds_path(MADE, squares ? list : ends, squares ? 4096 : 2, 4096), "the path of 4,096 models");
        expect(answers(build_list(4096, 4095), 9, 0, 0), "4,096 models without a place for each");
        expect(answers(build_list(4097, 4097), 2, 0, 0), "4,097 models");
    }
}

// Appends to a path that fills its array, and then to a full path of 4,096 entries whose breakpoints fall, from 8,191 down to 3.
static void full_append_figures(void)
{
    static const struct foldwig_entry two[] = {{1, 7, 1}, {2, 4, 2}};
    memcpy(list, two, sizeof two);
    put_models(2, 2);
    expect(answers(compare_append(2, entry(3, 4)), 0, 2, 0), "the last loss, to a full array");
    expect(answers(compare_append(2, entry(65535, 4)), 0, 2, 0), "the last loss with the largest size, to a full array");
    expect(answers(compare_append(2, weighted(65536, 4, 9)), 5, 0, 0), "the last loss with a wide size, to a full array");
    expect(answers(compare_append(2, entry(2, 4)), 6, 0, 0), "the last loss with the last size, to a full array");
    expect(answers(compare_append(2, weighted(3, 4, 65536)), 5, 0, 0), "the last loss with a wide weight, to a full array");
    expect(answers(compare_append(2, weighted(3, 4, 2)), 14, 0, 0), "the last loss with the last weight, to a full array");
    expect(answers(compare_append(2, weighted(3, 5, 2)), 14, 0, 0), "a larger loss with the last weight, to a full array");
    expect(answers(compare_append(2, entry(3, 5)), 7, 0, 0), "a larger loss, to a full array");
    expect(answers(compare_append(2, entry(3, 2)), 9, 0, 0), "a smaller loss that drops nothing, to a full array");
    expect(holds_path(PATH, two, 2, 2), "a full array after appends that leave it");
    for (uint64_t i = 0; i < 4096; i++)
        list[i] = entry(i + 1, 100 + (4096 - i) * (4096 - i));
    for (size_t places = 4096; places <= 4097; places++) {
        put_models(4096, places);
        expect(answers(compare_append(4096, entry(4097, 101)), 0, 4096, 0), "the last loss, to 4,096 entries");
        expect(answers(compare_append(4096, entry(65535, 101)), 0, 4096, 0), "the last loss, the largest size, to 4,096 entries");
        expect(answers(compare_append(4096, entry(4096, 101)), 6, 0, 0), "the last loss with the last size, to 4,096 entries");
        expect(answers(compare_append(4096, entry(4097, 102)), 7, 0, 0), "a larger loss, to 4,096 entries");
        expect(answers(compare_append(4096, entry(4097, 100)), 9, 0, 0), "a smaller loss that drops nothing, to 4,096 entries");
        expect(holds_path(PATH, list, 4096, 4096), "4,096 entries after appends that leave them");
        expect(answers(compare_append(4096, entry(4097, 98)), 0, 4096, 2), "a smaller loss that drops an entry of 4,096");
    }
}

// A history: an entry, one that is passed over, one of a smaller size than that, one that is passed over and one that drops.
static void flat_history_figure(void)
{
    static const struct foldwig_entry path[] = {{1, 5, 1}, {3, 0, 3}};
    fresh(PATH, 2);
    expect(answers(compare_append(0, entry(1, 5)), 0, 1, 0), "a first append");
    expect(answers(compare_append(1, entry(3, 5)), 0, 1, 0), "an append that is passed over");
    expect(answers(compare_append(1, entry(2, 4)), 0, 2, 1), "an append of a smaller size than the one passed over");
    expect(answers(compare_append(2, entry(65535, 4)), 0, 2, 0), "a second append that is passed over");
    expect(answers(compare_append(2, entry(3, 0)), 0, 2, 2) && holds_path(PATH, path, 2, 2), "an append that drops an entry");
}

static void flat_figures(void)
{
    flat_build_figures();
    long_flat_figures();
    quadratic_figures();
    full_append_figures();
    flat_history_figure();
}

// ---- Threads

static void append_at_limit(void)
{
    for (size_t i = 0; i < 4096; i++)
        list[i] = entry(i + 1, (4096 - i) * (4096 - i));
    put_models(4095, 4096);
    expect(compare_append(4095, entry(4096, 1)).entries == 4096, "an append to 4,095 entries on a small stack");
}

static void build_at_limit(void)
{
    make_models(4096, TIED);
    put_models(4096, 4096);
    fresh(MADE, 4096);
    expect(compare_both_builds().refusal == 0, "a build of 4,096 models on a small stack");
}

static void select_at_limit(void)
{
    make_models(4096, FALLING);
    put_models(4096, 4096);
    expect(compare_select(4096, 0, 1).index == 4095, "a selection from 4,096 entries on a small stack");
}

static void breakpoints_at_limit(void)
{
    make_models(4096, FALLING);
    put_models(4096, 4096);
    fresh_breakpoints(4096, 4096);
    expect(compare_breakpoints(4096).count == 4095, "4,095 breakpoints on a small stack");
}

// ---- Lengths over 32 bits

// Makes calls with arrays of more than 2^32 elements, of which only a little is looked at. The bytes are all 0 at first.
static void wide_lengths(void)
{
    size_t len = ((size_t)1 << 32) + 1;
    struct foldwig_entry two[2] = {{0, 0, 0}, {0, 0, 0}};
    uint64_t a[1] = {0}, b[1] = {0};
    struct foldwig_entry *e =
        mmap(NULL, len * sizeof *e, PROT_READ | PROT_WRITE, MAP_PRIVATE | MAP_ANONYMOUS | MAP_NORESERVE, -1, 0);
    if (e == MAP_FAILED) {
        printf("no address space for lengths over 32 bits: left out\n");
        return;
    }
    expect(foldwig_append_entries(e, len, 0, 513, 7, 258).entries == 1 && e[0].size == 513 && e[0].loss == 7 && e[0].weight == 258,
           "an append in 96 GB");
    expect(foldwig_append_entries(e, len, 1, 600, 3, 300).entries == 2 && e[1].size == 600 && e[1].loss == 3 && e[1].weight == 300,
           "a second one");
    expect(foldwig_select_entries(e, len, len, 1, 1).refusal == 8, "a path of 2^32 + 1 entries");
    expect(foldwig_select_entries(e, len, 2, 0, 1).index == 1, "a selection in 96 GB");
    expect(foldwig_breakpoints_entries(e, len, 2, a, 1, b, 1).count == 1 && a[0] == 4 && b[0] == 42, "a breakpoint in 96 GB");
    expect(foldwig_build_entries(e, len, two, 2).refusal == 2 && two[0].size == 0, "a build of 2^32 + 1 models");
    two[0] = entry(5, 9);
    expect(foldwig_build_entries(two, 1, e, len).entries == 1 && e[0].size == 5 && e[1].size == 600, "a build to 96 GB");
    expect(foldwig_build_quadratic_entries(e, len, two, 2).refusal == 2 && two[0].size == 5, "a quadratic build of as many");
    two[0] = entry(6, 9);
    expect(foldwig_build_quadratic_entries(two, 1, e, len).entries == 1 && e[0].size == 6 && e[1].size == 600,
           "a quadratic build to 96 GB");
    munmap(e, len * sizeof *e);
}

// ---- The summary

// Counts what of a call was never seen, and prints it.
static int unseen(enum call call)
{
    int count = 0;
    if (call <= BUILD_QUADRATIC && passed_over[call] == 0) {
        printf("not seen: %s that passes a model over\n", names[call]);
        count++;
    }
    for (int i = 0; i < ARRAYS; i++)
        if (lent_to[call][i] && nulls[call][i] == 0) {
            printf("not seen: %s with null as array %d\n", names[call], i);
            count++;
        }
    for (const int *number = orders[call]; *number != 0; number++)
        if (refusals[call][*number] == 0) {
            printf("not seen: %s with refusal %d\n", names[call], *number);
            count++;
        }
    return count;
}

// Prints what was compared, and answers the status of the program: 0 if nothing differed and if every refusal, null for every
// array and models that are passed over were seen.
static int summary(void)
{
    unsigned long all = 0;
    int missing = 0;
    for (int call = 0; call < CALLS; call++) {
        printf("%-15s %7lu calls, %7lu accepted\n", names[call], calls[call], refusals[call][0]);
        all += calls[call];
        if (mismatches == 0)
            missing += unseen((enum call)call);
    }
    printf("models passed over: %lu by appends, %lu by builds, %lu by quadratic builds\n", passed_over[APPEND],
           passed_over[BUILD], passed_over[BUILD_QUADRATIC]);
    printf("calls compared: %lu, mismatches: %lu\n", all, mismatches);
    return mismatches > 0 || missing > 0;
}

int main(int argc, char **argv)
{
    uint64_t seed = argc > 1 ? strtoull(argv[1], NULL, 10) : 20230417;
    setvbuf(stdout, NULL, _IOLBF, 0);
    printf("seed %llu\n", (unsigned long long)seed);
    seed_random(seed);
    map_spans();
    flat_figures();
    random_builds(40000);
    random_paths(30000);
    random_histories(5000);
    wide_numbers(4000);
    every_neighbour();
    meet_paths();
    meet_builds();
    for (int shape = 0; shape < SHAPES; shape++) {
        builds_at_limit((enum shape)shape);
        paths_at_limit((enum shape)shape);
    }
    long_quadratic_figures();
    fill_up();
    on_small_stack(append_at_limit);
    on_small_stack(build_at_limit);
    on_small_stack(select_at_limit);
    on_small_stack(breakpoints_at_limit);
    wide_lengths();
    return summary();
}
