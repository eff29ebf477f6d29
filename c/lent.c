#define _DEFAULT_SOURCE
#include "lent.h"
#include <stdio.h>
#include <stdlib.h>
#include <string.h>
#include <sys/mman.h>

// After so many mismatches the test ends. c/check compiles this file once more with 1, for the runs with a planted fault.
#ifndef MOST_MISMATCHES
#define MOST_MISMATCHES 10
#endif

// How many byte strings each call is lent, and how many of these, the first ones, it only reads.
static const int lent_to[CALLS] = {3, 6, 6, 3, 5, 6, 8, 5, 4};
static const int only_read[CALLS] = {0, 3, 3, 3, 3, 2, 2, 1, 2};

// A buffer, as the call gets it and as the reference does.
struct lent {
    struct span span;
    uint8_t copy[MOST_BYTES];
};

static struct lent lent[BUFFERS];
static unsigned long calls[CALLS], mismatches;
static unsigned long refusals[CALLS][FOLDWIG_REFUSALS];             // how often a call answered a number
static unsigned long met[CALLS][CAUSES][CAUSES];                    // how often two causes held at once
static unsigned long nulls[CALLS][BUFFERS];                         // how often a byte string was lent as null
static unsigned long passed_over[CALLS];                            // how many models were passed over
static const char *const names[CALLS] = {"append",      "build", "build_quadratic", "select",    "breakpoints",
                                         "signal_path", "split", "extend",          "split_from"};

// ---- Buffers

void map_buffers(void)
{
    for (int i = 0; i < BUFFERS; i++)
        map_span(&lent[i].span, MOST_BYTES);
}

struct bytes buffer(int i)
{
    struct bytes b = {lent[i].copy, lent[i].span.len};
    return b;
}

struct lists lists(int first)
{
    struct lists l = {buffer(first), buffer(first + 1), buffer(first + 2)};
    return l;
}

struct bytes fresh(int i, size_t len)
{
    if (len > MOST_BYTES) {
        fprintf(stderr, "a buffer of %zu bytes is asked for\n", len);
        exit(2);
    }
    lent[i].span.len = len;
    for (size_t j = 0; j < len; j += 8) {
        uint64_t r = random64();
        memcpy(lent[i].copy + j, &r, len - j < 8 ? len - j : 8);
    }
    return buffer(i);
}

void lengthen(int which, size_t by)
{
    static uint8_t kept[MOST_BYTES];
    size_t len = buffer(which).len;
    memcpy(kept, buffer(which).at, len);
    memcpy(fresh(which, len + by).at, kept, len);
}

void make_odd(int which, int buffers)
{
    if (which < buffers)
        lengthen(which, 1);
}

void draw_samples(int which, size_t n, enum drawing drawing)
{
    struct bytes samples = fresh(which, 2 * n);
    int64_t values = 2 + (int64_t)below(5), low = -(int64_t)below(5), level = 0;
    for (size_t i = 0; i < n; i++) {
        int64_t x = low + (int64_t)below((uint64_t)values);
        if (drawing == ALL)
            x = (int64_t)below(65536) - 32768;
        else if (drawing == EXTREMES)
            x = one_in(2) ? -32768 : 32767;
        else if (drawing == STEPS)
            x = level = i == 0 || one_in(6) ? (int64_t)below(41) - 20 : level;
        else if (drawing == DRIFT)
            x = level += (int64_t)below(7) - 3;
        put_item(samples, 2, i, (uint64_t)x);
    }
}

// Lends a buffer: flush against the page behind it, flush against the one before it, or somewhere between.
static void lend(struct lent *l)
{
    size_t free = MOST_BYTES - l->span.len;
    uint64_t place = below(4);
    place_span(&l->span, place < 2 ? free : place == 2 ? 0 : below(free < 200 ? free + 1 : 200), l->span.len);
    memcpy(l->span.at, l->copy, l->span.len);
}

// Lets the pages of what a call only reads be written, or not.
static void protect(enum call call, int protection)
{
    for (int i = 0; i < only_read[call]; i++)
        protect_span(&lent[i].span, protection);
}

static int is_protected;

// Lends all byte strings of a call. Now and then those that it only reads can't be written.
static void lend_all(enum call call)
{
    for (int i = 0; i < lent_to[call]; i++) {
        lend(&lent[i]);
        nulls[call][i] += lent[i].span.given == NULL;
    }
    is_protected = one_in(16);
    if (is_protected)
        protect(call, PROT_READ);
}

static void take_back(enum call call)
{
    if (is_protected)
        protect(call, PROT_READ | PROT_WRITE);
}

// ---- Mismatches

static void count_mismatch(void)
{
    if (++mismatches >= MOST_MISMATCHES) {
        printf("stopped at mismatches: %lu\n", mismatches);
        exit(1);
    }
}

void expect(int so, const char *what)
{
    if (so)
        return;
    printf("mismatch: %s\n", what);
    count_mismatch();
}

static void check_buffer(enum call call, int i)
{
    const struct span *s = &lent[i].span;
    const uint8_t *copy = lent[i].copy;
    size_t j = 0;
    if (!guards_stand(s)) {
        printf("mismatch: %s wrote beside its byte string %d\n", names[call], i + 1);
        count_mismatch();
    }
    if (memcmp(s->at, copy, s->len) == 0)
        return;
    while (s->at[j] == copy[j])
        j++;
    printf("mismatch: %s, byte %zu of byte string %d, of %zu bytes: %u, expected %u\n", names[call], j, i + 1, s->len, s->at[j],
           copy[j]);
    count_mismatch();
}

static void print_numbers(const char *what, const uint64_t *numbers, int count)
{
    printf("%s", what);
    for (int i = 0; i < count; i++)
        printf(" %llu", (unsigned long long)numbers[i]);
}

// What a call was given beside its byte strings, and what it and the reference answered.
struct answers {
    int numbers, fields;
    uint64_t given[4], got[5], wanted[5];
};

static void print_answers(enum call call, const struct answers *a)
{
    printf("mismatch: %s", names[call]);
    print_numbers(" answers", a->got, a->fields);
    print_numbers(", expected", a->wanted, a->fields);
    print_numbers("; given", a->given, a->numbers);
    printf(" and lengths");
    for (int i = 0; i < lent_to[call]; i++)
        printf(" %zu", lent[i].span.len);
    printf("\n");
}

// Compares the fields of two answers and the buffers, and counts the call and its causes.
static void check(enum call call, const struct answers *answers, unsigned causes)
{
    take_back(call);
    calls[call]++;
    if (memcmp(answers->got, answers->wanted, (size_t)answers->fields * sizeof answers->got[0]) != 0) {
        print_answers(call, answers);
        count_mismatch();
    }
    for (int i = 0; i < lent_to[call]; i++)
        check_buffer(call, i);
    if (answers->wanted[0] < FOLDWIG_REFUSALS)
        refusals[call][answers->wanted[0]]++;
    for (int a = 1; a < CAUSES; a++)
        for (int b = a + 1; b < CAUSES; b++)
            met[call][a][b] += causes >> a & causes >> b & 1;
}

// ---- The calls. LENT is a byte string as the library gets it, a pointer and a length; LENT3 is three of them.

#define LENT(i) lent[i].span.given, lent[i].span.len
#define LENT3(i) LENT(i), LENT(i + 1), LENT(i + 2)

struct foldwig_path_result compare_append(uint64_t entries, struct model m)
{
    struct foldwig_path_result got, wanted;
    unsigned causes;
    lend_all(APPEND);
    got = foldwig_append(LENT3(0), entries, m.size, m.loss, m.weight);
    wanted = reference_append(lists(0), entries, m, &causes);
    struct answers a = {4,
                        3,
                        {entries, m.size, m.loss, m.weight},
                        {got.refusal, got.entries, got.tests},
                        {wanted.refusal, wanted.entries, wanted.tests}};
    check(APPEND, &a, causes);
    passed_over[APPEND] += wanted.refusal == 0 && entries > 0 && wanted.tests == 0;
    return wanted;
}

// Makes a build, compares it, and answers what it gave itself.
static struct foldwig_path_result compare_build(struct foldwig_path_result *wanted)
{
    struct foldwig_path_result got;
    unsigned causes;
    lend_all(BUILD);
    got = foldwig_build(LENT3(0), LENT3(3));
    *wanted = reference_build(lists(0), lists(3), &causes);
    struct answers a = {0, 3, {0}, {got.refusal, got.entries, got.tests}, {wanted->refusal, wanted->entries, wanted->tests}};
    check(BUILD, &a, causes);
    return got;
}

static struct foldwig_path_result compare_build_quadratic(void)
{
    struct foldwig_path_result got, wanted;
    unsigned causes;
    lend_all(BUILD_QUADRATIC);
    got = foldwig_build_quadratic(LENT3(0), LENT3(3));
    wanted = reference_build_quadratic(lists(0), lists(3), &causes);
    struct answers a = {0, 3, {0}, {got.refusal, got.entries, got.tests}, {wanted.refusal, wanted.entries, wanted.tests}};
    check(BUILD_QUADRATIC, &a, causes);
    return got;
}

// The quadratic build gets the path's buffers as the build got them. It has to leave in them what the build left, and to answer
// what the build answered, but 0 for the tests.
struct foldwig_path_result compare_builds(void)
{
    static uint8_t before[3][MOST_BYTES], after[3][MOST_BYTES];
    struct foldwig_path_result wanted, linear, quadratic;
    for (int i = 0; i < 3; i++)
        memcpy(before[i], lent[3 + i].copy, lent[3 + i].span.len);
    linear = compare_build(&wanted);
    for (int i = 0; i < 3; i++) {
        memcpy(after[i], lent[3 + i].span.at, lent[3 + i].span.len);
        memcpy(lent[3 + i].copy, before[i], lent[3 + i].span.len);
    }
    quadratic = compare_build_quadratic();
    expect(quadratic.refusal == linear.refusal && quadratic.entries == linear.entries && quadratic.tests == 0,
           "a quadratic build does not answer what a build answers, with 0 for the tests");
    for (int i = 0; i < 3; i++)
        expect(memcmp(lent[3 + i].span.at, after[i], lent[3 + i].span.len) == 0,
               "a quadratic build leaves other bytes in the path's buffers than a build");
    if (wanted.refusal == 0) {
        unsigned long passed = lent[0].span.len / 2 - (wanted.tests + 1 + wanted.entries) / 2;
        passed_over[BUILD] += passed;
        passed_over[BUILD_QUADRATIC] += passed;
    }
    return wanted;
}

struct foldwig_select_result compare_select(uint64_t entries, uint64_t p, uint64_t q)
{
    struct foldwig_select_result got, wanted;
    unsigned causes;
    lend_all(SELECT);
    got = foldwig_select(LENT3(0), entries, p, q);
    wanted = reference_select(lists(0), entries, p, q, &causes);
    struct answers a = {3,
                        5,
                        {entries, p, q},
                        {got.refusal, got.index, got.size, got.loss, got.weight},
                        {wanted.refusal, wanted.index, wanted.size, wanted.loss, wanted.weight}};
    check(SELECT, &a, causes);
    return wanted;
}

struct foldwig_breakpoints_result compare_breakpoints(uint64_t entries)
{
    struct foldwig_breakpoints_result got, wanted;
    unsigned causes;
    lend_all(BREAKPOINTS);
    got = foldwig_breakpoints(LENT3(0), entries, LENT(3), LENT(4));
    wanted = reference_breakpoints(lists(0), entries, buffer(3), buffer(4), &causes);
    struct answers a = {1, 2, {entries}, {got.refusal, got.count}, {wanted.refusal, wanted.count}};
    check(BREAKPOINTS, &a, causes);
    return wanted;
}

struct foldwig_signal_path_result compare_signal_path(uint64_t max_segments, uint64_t min_segment_len)
{
    struct foldwig_signal_path_result got, wanted;
    unsigned causes;
    lend_all(SIGNAL_PATH);
    got = foldwig_signal_path(LENT(0), max_segments, min_segment_len, LENT(1), LENT3(2), LENT(5));
    wanted = reference_signal_path(buffer(0), max_segments, min_segment_len, buffer(1), lists(2), buffer(5), &causes);
    struct answers a = {2, 2, {max_segments, min_segment_len}, {got.refusal, got.entries}, {wanted.refusal, wanted.entries}};
    check(SIGNAL_PATH, &a, causes);
    return wanted;
}

struct foldwig_split_result compare_split(uint64_t max_segments, uint64_t min_segment_len, uint64_t p, uint64_t q)
{
    struct foldwig_split_result got, wanted;
    unsigned causes;
    lend_all(SPLIT);
    got = foldwig_split(LENT(0), max_segments, min_segment_len, LENT(1), p, q, LENT(2), LENT(3), LENT3(4), LENT(7));
    wanted = reference_split(buffer(0), max_segments, min_segment_len, buffer(1), p, q, buffer(2), buffer(3), lists(4), buffer(7),
                             &causes);
    struct answers a = {4,
                        4,
                        {max_segments, min_segment_len, p, q},
                        {got.refusal, got.segments, got.loss, got.entries},
                        {wanted.refusal, wanted.segments, wanted.loss, wanted.entries}};
    check(SPLIT, &a, causes);
    return wanted;
}

struct foldwig_extend_result compare_extend(int16_t sample, uint64_t max_segments)
{
    struct foldwig_extend_result got, wanted;
    unsigned causes;
    lend_all(EXTEND);
    got = foldwig_extend(LENT(0), sample, max_segments, LENT(1), LENT3(2));
    wanted = reference_extend(buffer(0), sample, max_segments, buffer(1), lists(2), &causes);
    struct answers a = {2, 2, {(uint16_t)sample, max_segments}, {got.refusal, got.entries}, {wanted.refusal, wanted.entries}};
    check(EXTEND, &a, causes);
    return wanted;
}

struct foldwig_split_from_result compare_split_from(uint64_t max_segments, uint64_t p, uint64_t q)
{
    struct foldwig_split_from_result got, wanted;
    unsigned causes;
    lend_all(SPLIT_FROM);
    got = foldwig_split_from(LENT(0), max_segments, p, q, LENT(1), LENT(2), LENT(3));
    wanted = reference_split_from(buffer(0), max_segments, p, q, buffer(1), buffer(2), buffer(3), &causes);
    struct answers a = {3,
                        3,
                        {max_segments, p, q},
                        {got.refusal, got.segments, got.loss},
                        {wanted.refusal, wanted.segments, wanted.loss}};
    check(SPLIT_FROM, &a, causes);
    return wanted;
}

// ---- The summary

// The causes of each call in their order, ended by 0.
static const int orders[CALLS][10] = {
    {11, 8, 5, 6, 14, 7, 9, 0},
    {11, 1, 2, 5, 6, 14, 7, 9, 0},
    {11, 1, 2, 5, 6, 14, 7, 9, 0},
    {11, 8, 10, 4, 0},
    {11, 8, 9, 0},
    {11, 1, 2, 3, 13, 5, 14, 9, 0},
    {11, 1, 2, 3, 13, 5, 14, 4, 9, 0},
    {11, 2, 3, SHORT_TABLE, 12, 9, 0},
    {11, 1, 2, 3, SHORT_TABLE, 12, 4, 9, 0},
};

// Whether two causes of a call can hold at once. A list can't be both empty and too long, an empty build has no model that is bad
// and needs no room, an empty path is never a bad one, and no samples need no room for segments and no column of a table.
static int can_meet(enum call call, int a, int b)
{
    if (a == 1 && b == 2)
        return 0;
    if ((call == BUILD || call == BUILD_QUADRATIC) && a == 1)
        return b == 11;
    if (call == SPLIT_FROM && a == 1)
        return b != 9 && b != 12;
    return !(a == 8 && b == 10);
}

// Counts what of a call was never seen, and prints it.
static int unseen(enum call call)
{
    int count = 0;
    if (call <= BUILD_QUADRATIC && passed_over[call] == 0) {
        printf("not seen: %s that passes a model over\n", names[call]);
        count++;
    }
    for (int i = 0; i < lent_to[call]; i++)
        if (nulls[call][i] == 0) {
            printf("not seen: %s with null as its byte string %d\n", names[call], i + 1);
            count++;
        }
    for (const int *a = orders[call]; *a != 0; a++) {
        if (*a != SHORT_TABLE && refusals[call][*a] == 0) {
            printf("not seen: %s with refusal %d\n", names[call], *a);
            count++;
        }
        for (const int *b = orders[call]; *b != 0; b++)
            if (*a < *b && can_meet(call, *a, *b) && met[call][*a][*b] == 0) {
                printf("not seen: %s with causes %d and %d at once\n", names[call], *a, *b);
                count++;
            }
    }
    return count;
}

static int pairs_met(enum call call)
{
    int count = 0;
    for (int a = 1; a < CAUSES; a++)
        for (int b = a + 1; b < CAUSES; b++)
            count += met[call][a][b] > 0;
    return count;
}

int summary(void)
{
    unsigned long all = 0;
    int missing = 0;
    for (int call = 0; call < CALLS; call++) {
        printf("%-15s %7lu calls, %7lu accepted, %2d pairs of causes\n", names[call], calls[call], refusals[call][0],
               pairs_met((enum call)call));
        all += calls[call];
        missing += unseen((enum call)call);
    }
    printf("models passed over: %lu by appends, %lu by builds, %lu by quadratic builds\n", passed_over[APPEND],
           passed_over[BUILD], passed_over[BUILD_QUADRATIC]);
    printf("calls on signals whose losses rise and fall again: %lu\n", reference_uneven);
    printf("calls compared: %lu, mismatches: %lu\n", all, mismatches);
    return mismatches > 0 || missing > 0;
}
