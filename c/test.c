// Compares the nine calls with the reference: on worked figures, on random and tied inputs, on flat stretches, which are models
// with equal losses, with weights that are the sizes and with others, at and past every limit, on damaged paths and tables, with
// lists of unequal and of odd length, and with every pair of refusal causes that can meet. The tests of the calls with a table are
// in streams.c.
// Usage: test [SEED]
// A seed leads to the same calls again if the same compiler is used.
#define _DEFAULT_SOURCE
#include "lent.h"
#include "streams.h"
#include <pthread.h>
#include <stdio.h>
#include <stdlib.h>
#include <string.h>
#include <sys/mman.h>

enum { MOST = 4100, TURNS = 200 };

static const uint64_t TOP = (uint64_t)1 << 44;

static struct model list[MOST];     // the models that a test works with

// ---- Making models

static struct model weighted(uint64_t size, uint64_t loss, uint64_t weight)
{
    struct model m = {size, loss, weight};
    return m;
}

// The model whose weight is its size.
static struct model model(uint64_t size, uint64_t loss)
{
    return weighted(size, loss, size);
}

// How a list of models is made: anything in order; breakpoints that fall; breakpoints that fall or stay; large numbers.
enum shape { ANY, FALLING, TIED, LARGE, SHAPES };

// Gives n models in order weights that rise: their sizes, or others by small or by large steps.
static void draw_weights(size_t n)
{
    uint64_t way = below(3), step = way == 1 ? 4 : 65000 / (n + 1), weight = 1 + below(way == 1 ? 4 : 500);
    for (size_t i = 0; i < n; i++) {
        list[i].weight = way == 0 ? list[i].size : weight;
        weight += 1 + below(step);
    }
}

// Makes n models in order, the losses from the last one back.
static void make_models(size_t n, enum shape shape)
{
    uint64_t step = n > 500 ? 2 : shape == LARGE ? 65000 / (n + 1) : 3;
    uint64_t size = n > 0 ? 1 + below(3) : 0, loss = one_in(3) ? 0 : below(20), slope = below(3);
    for (size_t i = 0; i < n; i++) {
        list[i].size = size;
        size += 1 + (shape == TIED && one_in(2) ? 0 : below(step));
    }
    draw_weights(n);
    for (size_t i = n; i-- > 0;) {
        list[i].loss = loss;
        if (i == 0)
            break;
        slope += shape == FALLING ? 1 + below(3) : below(2);
        if (shape == ANY)
            loss += 1 + below(12);
        else if (shape == LARGE)
            loss += 1 + below(TOP / (n + 1) - 20);
        else
            loss += (slope == 0 ? 1 : slope) * (list[i].weight - list[i - 1].weight);
    }
}

// Makes flat stretches in n models in order: gives some, or all but the first, the loss of the last one that keeps its own. Now
// and then such a model gets another size or another weight above that one's, which may be above later ones too.
static void flatten(size_t n)
{
    struct model last = list[0];
    uint64_t many = 1 + below(4);
    for (size_t i = 1; i < n; i++) {
        if (!one_in(many)) {
            last = list[i];
            continue;
        }
        list[i].loss = last.loss;
        if (one_in(3))
            list[i].size = last.size + 1 + below(one_in(2) ? 6 : 65535 - last.size);
        if (one_in(3))
            list[i].weight = last.weight + 1 + below(one_in(2) ? 6 : 65535 - last.weight);
    }
}

// The ways to spoil the model at a place: a size or a weight of 0, a loss over the top, a size, a loss or a weight that does not
// follow the last one, and two or three of these together.
enum { DAMAGES = 15 };

static void spoil(size_t i, int how)
{
    const struct model *last = &list[i > 0 ? i - 1 : 0];
    uint64_t size = list[i].size, loss = list[i].loss, weight = list[i].weight;
    struct model spoilt[DAMAGES] = {
        list[i],
        {0, loss, weight},
        {size, TOP + 1, weight},
        {size, loss, 0},
        {last->size, loss, weight},
        {last->size - 1, loss, weight},
        {size, last->loss, weight},
        {size, last->loss + 1, weight},
        {size, loss, last->weight},
        {size, loss, last->weight - 1},
        {size, last->loss, last->weight},
        {size, last->loss + 1, last->weight},
        {last->size, loss, last->weight},
        {last->size, TOP + 1, last->weight},
        {0, UINT64_MAX, 0},
    };
    list[i] = spoilt[how];
}

// Those of them that spoil a model with none before it.
static int spoils_first(int how)
{
    return (how > 0 && how < 4) || how > 12;
}

// Gives three buffers so many places each.
static void fresh_lists(int buffer, size_t size_places, size_t loss_places, size_t weight_places)
{
    fresh(buffer, 2 * size_places);
    fresh(buffer + 1, 8 * loss_places);
    fresh(buffer + 2, 2 * weight_places);
}

// Puts n models to three buffers with room for so many items each, or for fewer than n.
static void put_lists(int first, size_t n, size_t size_places, size_t loss_places, size_t weight_places)
{
    fresh_lists(first, size_places, loss_places, weight_places);
    for (size_t i = 0; i < n && i < size_places; i++)
        put_item(buffer(first), 2, i, list[i].size);
    for (size_t i = 0; i < n && i < loss_places; i++)
        put_item(buffer(first + 1), 8, i, list[i].loss);
    for (size_t i = 0; i < n && i < weight_places; i++)
        put_item(buffer(first + 2), 2, i, list[i].weight);
}

// The same with as much room in each.
static void put_models(int first, size_t n, size_t places)
{
    put_lists(first, n, places, places, places);
}

static void move_buffer(int from, int to)
{
    struct bytes b = buffer(from);
    memcpy(fresh(to, b.len).at, b.at, b.len);
}

// ---- Paths

// Compares selections from the path in buffers 0 to 2, at random penalties and at those where two of its entries cost the same.
static void compare_selections(uint64_t entries, size_t n)
{
    for (int turn = 0; turn < 3; turn++) {
        uint64_t p = some_number(TOP), q = some_number(65535);
        if (n > 1 && one_in(2)) {
            size_t i = below(n - 1), j = i + 1 + below(n - 1 - i);
            p = list[i].loss - list[j].loss;
            q = list[j].weight - list[i].weight;
        }
        compare_select(entries, p, q);
    }
}

static void compare_listing(uint64_t entries)
{
    size_t count = entries == 0 || entries > 5000 ? 0 : entries - 1;
    fresh(3, 8 * about(count) + (one_in(30) ? 1 + below(7) : 0));
    fresh(4, 2 * about(count) + one_in(30));
    compare_breakpoints(entries);
}

static void random_builds(int turns)
{
    for (int turn = 0; turn < turns; turn++) {
        size_t n = one_in(60) ? below(300) : below(13);
        make_models(n, (enum shape)below(SHAPES));
        if (one_in(2))
            flatten(n);
        if (n > 0 && one_in(4))
            spoil(below(n), (int)below(DAMAGES));
        put_lists(0, n, one_in(18) ? about(n) : n, one_in(18) ? about(n) : n, one_in(18) ? about(n) : n);
        fresh_lists(3, about(n), about(n), about(n));
        if (one_in(20))
            lengthen((int)below(6), 1 + 2 * below(4));
        compare_builds();
    }
}

// Lists in order that no call has left, and damaged ones, said to have any number of entries.
static void random_lists(int turns)
{
    for (int turn = 0; turn < turns; turn++) {
        size_t n = one_in(60) ? below(300) : below(10), places = n + below(3);
        uint64_t entries = one_in(8) ? n + below(3) : one_in(8) ? below(n + 1) : one_in(50) ? random64() : n;
        struct model last, m;
        make_models(n, (enum shape)below(SHAPES));
        last = n > 0 ? list[n - 1] : weighted(0, 0, 0);
        m = weighted(last.size + 1 + below(4), last.loss, last.weight + 1 + below(one_in(3) ? 400 : 4));
        if (last.loss > 0 && !one_in(4))
            m.loss -= 1 + below(last.loss < 9 ? last.loss : 9);
        if (n > 0 && one_in(4))
            spoil(below(n), (int)below(DAMAGES));
        put_lists(0, n, places + below(2), places + below(2), places + below(2));
        if (one_in(20))
            lengthen((int)below(3), 1 + 2 * below(4));
        compare_selections(entries, n);
        compare_listing(entries);
        if (one_in(5))
            m.size = some_number(65535);
        if (one_in(5))
            m.loss = some_number(TOP);
        if (one_in(5))
            m.weight = one_in(3) ? last.weight : some_number(65535);
        compare_append(entries, m);
    }
}

// ---- Histories

static struct model accepted[MOST];     // the accepted models of a history, those passed over included
static size_t accepted_count;
static uint64_t tests_made;

static void accept_list(size_t n)
{
    memcpy(accepted, list, n * sizeof list[0]);
    accepted_count = n;
}

// Perhaps begins a history with a build into the buffers of the appends, and answers the number of entries.
static uint64_t begin_history(size_t places)
{
    struct foldwig_path_result r = {0, 0, 0};
    size_t n = below(places + 1);
    accepted_count = 0;
    tests_made = 0;
    fresh_lists(3, places, places, places);
    if (one_in(2)) {
        make_models(n, TIED);
        for (size_t i = 0; i < n; i++)
            list[i].loss += 60;
        if (one_in(2))
            flatten(n);
        if (n > 0 && one_in(6))
            spoil(below(n), (int)below(DAMAGES));
        put_models(0, n, n);
        r = compare_builds();
        if (r.refusal == 0)
            accept_list(n);
        tests_made = r.tests;
    }
    for (int i = 0; i < 3; i++)
        move_buffer(3 + i, i);
    return r.entries;
}

// Entry i of the path in three buffers.
static struct model entry(int first, size_t i)
{
    return weighted(get_item(buffer(first), 2, i), get_item(buffer(first + 1), 8, i), get_item(buffer(first + 2), 2, i));
}

static int same_model(struct model a, struct model b)
{
    return a.size == b.size && a.loss == b.loss && a.weight == b.weight;
}

// Appends one model, mostly one in order or with the loss of the last entry, and answers the number of entries afterwards.
static uint64_t go_on(uint64_t entries)
{
    struct model last = entries > 0 ? entry(0, entries - 1) : weighted(0, 80 + below(60), 0), m;
    struct foldwig_path_result r;
    m = weighted(last.size + 1 + (one_in(3) ? below(3) : 0), last.loss, last.weight + 1 + below(one_in(8) ? 90 : 3));
    if (m.loss > 0 && !one_in(3))
        m.loss -= 1 + below(m.loss < 6 ? m.loss : 6);
    if (one_in(10))
        m.size = one_in(2) ? last.size : some_number(65535);
    if (one_in(10))
        m.loss = one_in(2) ? last.loss : some_number(TOP);
    if (one_in(10))
        m.weight = one_in(2) ? last.weight : some_number(65535);
    r = compare_append(entries, m);
    tests_made += r.tests;
    if (r.refusal != 0)
        return entries;
    accepted[accepted_count++] = m;
    return r.entries;
}

// The path lists just the accepted models that can win.
static void check_winners(uint64_t entries)
{
    size_t at = 0;
    for (size_t j = 0; j < accepted_count; j++) {
        if (!can_win(accepted, accepted_count, j))
            continue;
        expect(at < entries && same_model(entry(0, at), accepted[j]), "a model that can win is not on the path after a history");
        at++;
    }
    expect(at == entries, "the path after a history has too many entries");
    if (accepted_count > 0)
        expect(tests_made == 2 * not_passed_over(accepted, accepted_count) - 1 - entries,
               "the tests of a history are not 2N - 1 - M");
}

// A selection from the path gives the smallest of the cheapest accepted models.
static void check_cheapest(uint64_t entries, uint64_t p, uint64_t q)
{
    struct foldwig_select_result r = compare_select(entries, p, q);
    size_t best = cheapest(accepted, accepted_count, p, q);
    expect(r.refusal == 0 && same_model(weighted(r.size, r.loss, r.weight), accepted[best]),
           "a selection after a history is not the smallest of the cheapest models");
}

// Breakpoints fall along the path, and at each of them a selection is right.
static void check_breakpoints(uint64_t entries)
{
    uint64_t p = 0, q = 0;
    fresh(3, 8 * (entries - 1));
    fresh(4, 2 * (entries - 1));
    compare_breakpoints(entries);
    for (size_t i = 0; i + 1 < entries; i++) {
        uint64_t next_p = get_item(buffer(3), 8, i), next_q = get_item(buffer(4), 2, i);
        expect(i == 0 || next_p * q < p * next_q, "breakpoints after a history do not fall");
        p = next_p;
        q = next_q;
        check_cheapest(entries, p, q);
    }
}

static void random_histories(int turns)
{
    for (int turn = 0; turn < turns; turn++) {
        uint64_t entries = begin_history(1 + below(one_in(4) ? 4 : 12));
        for (size_t left = below(24); left > 0; left--)
            entries = go_on(entries);
        check_winners(entries);
        if (entries == 0)
            continue;
        check_breakpoints(entries);
        check_cheapest(entries, 0, 1 + below(65535));
        check_cheapest(entries, below(30), 1 + below(6));
        check_cheapest(entries, TOP, 1);
    }
}

// ---- Signals

static size_t scratch_length(void)
{
    return one_in(40) ? FOLDWIG_SCRATCH_LEN - 1 - below(100) : FOLDWIG_SCRATCH_LEN + (one_in(3) ? below(200) : 0);
}

// A least length for n samples: mostly one that is taken, often 1.
static uint64_t some_min_segment_len(size_t n)
{
    if (one_in(30))
        return one_in(2) ? 0 : n + 1 + below(3);
    return one_in(3) ? 1 : 1 + below(one_in(2) ? (n + 3) / 4 : n);
}

// What is lent as weights with a signal: none, the sizes, some that rise by small or by large steps, the largest ones; or something
// wrong: one less or one more than the limit, 40 of which the last is 0, one that is 0, one that equals the one before or is below.
enum weighing { NONE, SIZES, SMALL_STEPS, LARGE_STEPS, LARGEST, ONE_LESS, ONE_MORE, FORTY, ZERO, EQUAL, BELOW, WEIGHINGS };
enum { RIGHT_WEIGHINGS = ONE_LESS };

static enum weighing some_weighing(void)
{
    return one_in(3) ? NONE : (enum weighing)below(one_in(12) ? WEIGHINGS : RIGHT_WEIGHINGS);
}

// Lends weights for a limit, at most 40 of them, in buffer 1. One that is wrong is anywhere among them.
static void lend_weights(uint64_t limit, enum weighing weighing)
{
    size_t due = limit > 40 ? 3 : (size_t)limit, count = due, wrong;
    uint64_t weight = 1 + below(3), step = weighing == LARGE_STEPS ? 65000 / (due + 1) : 1 + below(6);
    struct bytes weights;
    if (weighing == NONE)
        count = 0;
    else if (weighing == ONE_LESS || weighing == ONE_MORE)
        count = weighing == ONE_MORE ? due + 1 : due - (due > 0);
    else if (weighing == FORTY)
        count = 40;
    weights = fresh(1, 2 * count);
    for (size_t i = 0; i < count; i++) {
        put_item(weights, 2, i, weighing == SIZES ? i + 1 : weighing == LARGEST ? 65536 - count + i : weight);
        weight += 1 + below(step);
    }
    wrong = weighing == FORTY ? 39 : count > 0 ? below(count) : 0;
    if ((weighing == ZERO && count > 0) || weighing == FORTY)
        put_item(weights, 2, wrong, 0);
    if ((weighing == EQUAL || weighing == BELOW) && wrong > 0)
        put_item(weights, 2, wrong, get_item(weights, 2, wrong - 1) - (weighing == BELOW));
}

// Gives the buffers that a split writes so many places, or about as many, and a scratch.
static void fresh_split(size_t needed, int exact, size_t scratch)
{
    for (int i = 2; i < 7; i++)
        fresh(i, (i == 5 ? 8 : 2) * (exact ? needed : about(needed)));
    fresh(7, scratch);
}

// Splits the signal once more where two neighbours of the path in buffers 2 to 4 cost the same.
static void compare_at_breakpoint(uint64_t limit, uint64_t min_segment_len, uint64_t entries)
{
    size_t i = below(entries - 1);
    struct model a = entry(2, i), b = entry(2, i + 1);
    fresh_split(32, 1, FOLDWIG_SCRATCH_LEN);
    expect(compare_split(limit, min_segment_len, a.loss - b.loss, b.weight - a.weight).segments == a.size,
           "a split where two entries cost the same");
}

// Compares both calls on a signal that is drawn anew.
static void compare_signal(size_t n, enum drawing drawing, uint64_t limit, uint64_t min_segment_len, uint64_t p, uint64_t q)
{
    size_t needed = limit < n ? (size_t)limit : n;
    struct foldwig_signal_path_result r;
    draw_samples(0, n, drawing);
    lend_weights(limit, some_weighing());
    fresh_split(needed, 0, scratch_length());
    if (one_in(25))
        lengthen((int)below(7), 1 + 2 * below(4));
    compare_split(limit, min_segment_len, p, q);
    if (one_in(3))
        return;
    fresh_lists(2, about(needed), about(needed), about(needed));
    fresh(5, scratch_length());
    r = compare_signal_path(limit, min_segment_len);
    if (r.entries > 1 && n <= 40)
        compare_at_breakpoint(limit, min_segment_len, r.entries);
}

// Short signals: all their segmentations are tried in half of the turns.
static void short_signals(int turns)
{
    for (int turn = 0; turn < turns; turn++) {
        uint64_t p = one_in(4) ? some_number(TOP) : below(12), q = one_in(4) ? some_number(65535) : 1 + below(6);
        uint64_t limit = one_in(20) ? some_number(32) : 1 + below(10);
        reference_tries_up_to = turn % 2 == 0 ? 10 : 0;
        size_t n = 1 + below(one_in(4) ? 10 : 8);
        compare_signal(n, (enum drawing)below(DRAWINGS), limit, some_min_segment_len(n), p, q);
    }
}

// Short signals with every least length, up to two that are too large: all their segmentations are tried.
static void every_min_segment_len(int turns)
{
    reference_tries_up_to = 10;
    for (int turn = 0; turn < turns; turn++) {
        size_t n = 1 + (size_t)turn % 10;
        uint64_t p = below(6), q = 1 + below(6), limit = 1 + below(10);
        enum drawing drawing = (enum drawing)below(DRAWINGS);
        for (uint64_t len = 0; len <= n + 2; len++)
            compare_signal(n, drawing, limit, len, p, q);
    }
}

static void long_signals(int turns, size_t longest)
{
    for (int turn = 0; turn < turns; turn++) {
        size_t n = longest - below(one_in(2) ? 1 : longest / 2);
        uint64_t limit = one_in(2) ? 32 : 1 + below(32);
        uint64_t p = one_in(2) ? below(2000) : below(TOP), q = 1 + below(one_in(2) ? 9 : 65535);
        compare_signal(n, (enum drawing)below(DRAWINGS), limit, some_min_segment_len(n), p, q);
    }
}

// Signals of 45 to 510 samples, and the least length, with losses that rise with the size and fall again: three levels of which the
// middle one has shoulders, so that its cheapest segment is longer than the least length and leaves too little beside it for one more.
static void uneven_signals(int turns)
{
    static const int shape[15] = {19, 19, 19, 19, 19, 10, 0, 0, 0, 10, 19, 19, 19, 19, 19};
    for (int turn = 0; turn < turns; turn++) {
        size_t wide = 3 + (size_t)turn % 32, n = 15 * wide;
        int high = 10 + (int)below(900), noise = 1 + (int)below((uint64_t)high / 5);
        uint64_t limit = one_in(4) ? 1 + below(8) : 32, p = one_in(3) ? 0 : below(64 * (uint64_t)high), q = 1 + below(9);
        struct bytes samples = fresh(0, 2 * n);
        for (size_t i = 0; i < n; i++)
            put_item(samples, 2, i, (uint64_t)(int64_t)(high * shape[i / wide] + (int)below((uint64_t)noise)));
        lend_weights(limit, (enum weighing)below(LARGE_STEPS));
        fresh_split(32, 1, FOLDWIG_SCRATCH_LEN);
        compare_split(limit, 3 * wide, p, q);
    }
    expect(reference_uneven >= (unsigned long)turns / 2, "losses that rise with the size and fall again");
}

// Splits a signal with no weights and then, with the same bytes in all buffers, with the sizes as weights: both end alike.
static void sizes_as_weights(int turns)
{
    static uint8_t before[6][FOLDWIG_SCRATCH_LEN], after[6][FOLDWIG_SCRATCH_LEN];
    for (int turn = 0; turn < turns; turn++) {
        uint64_t limit = 1 + below(32), p = below(one_in(2) ? 12 : 20000), q = 1 + below(6);
        size_t n = 1 + below(one_in(50) ? 512 : 40);
        struct foldwig_split_result none, sizes;
        draw_samples(0, n, (enum drawing)below(DRAWINGS));
        lend_weights(limit, NONE);
        fresh_split(32, 1, FOLDWIG_SCRATCH_LEN);
        for (int i = 0; i < 6; i++)
            memcpy(before[i], buffer(2 + i).at, buffer(2 + i).len);
        none = compare_split(limit, 1, p, q);
        for (int i = 0; i < 6; i++) {
            memcpy(after[i], buffer(2 + i).at, buffer(2 + i).len);
            memcpy(buffer(2 + i).at, before[i], buffer(2 + i).len);
        }
        lend_weights(limit, SIZES);
        sizes = compare_split(limit, 1, p, q);
        expect(none.refusal == 0 && memcmp(&none, &sizes, sizeof none) == 0, "a split with the sizes as weights answers otherwise");
        for (int i = 0; i < 6; i++)
            expect(memcmp(buffer(2 + i).at, after[i], buffer(2 + i).len) == 0,
                   "a split with the sizes as weights leaves other bytes");
    }
}

// ---- Refusals: the causes of each call are brought together in all ways

// The number of entries that is said for a path of n entries with so many places.
static uint64_t said_entries(int how, size_t n, size_t places)
{
    uint64_t said[] = {n, places + 1, 4097, UINT64_MAX, (uint64_t)1 << 32};
    return said[how];
}

// A path of n entries whose last but one or last is perhaps spoilt.
static void small_path(size_t n, int damage)
{
    static const struct model path[] = {{10, 400, 3}, {20, 300, 50}, {30, 250, 90}, {40, 220, 200}};
    memcpy(list, path, sizeof path);
    if (n > 1)
        spoil(n - 2 + (damage > 3), damage);
    else if (n == 1 && spoils_first(damage))
        spoil(0, damage);
}

enum { NEW_SIZES = 7, NEW_LOSSES = 7, NEW_WEIGHTS = 7, NEW_MODELS = NEW_SIZES * NEW_LOSSES * NEW_WEIGHTS };

// Appends to the path in the buffers, each time as it was, so many new models that are spoilt in all ways, from one of them on.
static void meet_append_models(uint64_t entries, size_t n, int from, int step)
{
    struct model last = n > 0 ? list[n - 1] : model(10, 400);
    uint64_t sizes[NEW_SIZES] = {last.size + 9, last.size, last.size - 1, 0, 65536, UINT64_MAX, 65535};
    uint64_t losses[NEW_LOSSES] = {last.loss - 1, last.loss, last.loss + 1, TOP + 1, UINT64_MAX, TOP, 0};
    uint64_t weights[NEW_WEIGHTS] = {last.weight + 9, last.weight, last.weight - 1, 0, 65536, UINT64_MAX, 65535};
    static uint8_t kept[3][64];
    size_t lens[3];
    for (int i = 0; i < 3; i++) {
        lens[i] = buffer(i).len;
        memcpy(kept[i], buffer(i).at, lens[i]);
    }
    for (int i = from; i < NEW_MODELS; i += step) {
        compare_append(entries, weighted(sizes[i % 7], losses[i / 7 % 7], weights[i / 49]));
        for (int j = 0; j < 3; j++)
            memcpy(buffer(j).at, kept[j], lens[j]);
    }
}

// All new models to paths that are right, and one in six of them to the others.
static void meet_append(void)
{
    for (int i = 0; i < 3 * DAMAGES * 4 * 5 * 4; i++) {
        size_t n = i % 3 == 0 ? 0 : i % 3 == 1 ? 1 : 4, room;
        int damage = i / 3 % DAMAGES, odd = i / 3 / DAMAGES % 4, said = i / 12 / DAMAGES % 5, short_one = i / 60 / DAMAGES;
        small_path(n, damage);
        put_lists(0, n, n + (short_one != 1), n + (short_one != 2), n + (short_one != 3));
        room = short_one == 0 ? n + 1 : n;
        make_odd(odd, 3);
        if (damage == 0 && odd == 3 && said == 0)
            meet_append_models(n, n, 0, 1);
        else
            meet_append_models(said_entries(said, n, room), n, (int)below(6), 6);
    }
}

static void meet_select(void)
{
    static const uint64_t ps[] = {0, 70, (uint64_t)1 << 44, ((uint64_t)1 << 44) + 1, UINT64_MAX};
    static const uint64_t qs[] = {1, 0, 65535, 65536, UINT64_MAX};
    for (int i = 0; i < 3 * DAMAGES * 4 * 5 * 25; i++) {
        size_t n = i % 3 == 0 ? 0 : i % 3 == 1 ? 1 : 4;
        int damage = i / 3 % DAMAGES, odd = i / 3 / DAMAGES % 4, said = i / 12 / DAMAGES % 5, penalty = i / 60 / DAMAGES;
        small_path(n, damage);
        put_models(0, n, n);
        make_odd(odd, 3);
        compare_select(said_entries(said, n, n), ps[penalty / 5], qs[penalty % 5]);
    }
}

static void meet_breakpoints(void)
{
    for (int i = 0; i < 3 * DAMAGES * 6 * 5 * 4; i++) {
        size_t n = i % 3 == 0 ? 0 : i % 3 == 1 ? 1 : 4, count = n > 0 ? n - 1 : 0;
        int damage = i / 3 % DAMAGES, odd = i / 3 / DAMAGES % 6, said = i / 18 / DAMAGES % 5, room = i / 90 / DAMAGES;
        small_path(n, damage);
        put_models(0, n, n);
        fresh(3, 8 * (room == 1 ? 0 : count));
        fresh(4, 2 * (room == 2 && count > 0 ? count - 1 : room == 3 ? 0 : count));
        make_odd(odd, 5);
        compare_breakpoints(said_entries(said, n, n));
    }
}

// Builds from n models, of which two may be spoilt.
static void meet_build_of(size_t n, int damage, int other_damage, int odd, int lack, int room)
{
    make_models(n, FALLING);
    if (n > 2) {
        spoil(1, damage);
        spoil(2, other_damage);
    } else if (n > 0) {
        spoil(n - 1, damage);
    }
    put_lists(0, n, n - (lack == 1 && n > 0), n - (size_t)(lack == 2 && n > 1 ? 2 : 0), n - (lack == 3 && n > 0));
    fresh_lists(3, n - (room == 1 && n > 0), n - (room == 2 && n > 0), n - (room == 3 && n > 0));
    make_odd(odd, 6);
    compare_builds();
}

static void meet_build(void)
{
    static const size_t counts[] = {0, 1, 4};
    for (int i = 0; i < 3 * DAMAGES * DAMAGES * 7 * 4 * 4; i++)
        meet_build_of(counts[i % 3], i / 3 % DAMAGES, i / 3 / DAMAGES % DAMAGES, 6 - i / 48 / DAMAGES / DAMAGES,
                      i / 3 / DAMAGES / DAMAGES % 4, i / 12 / DAMAGES / DAMAGES % 4);
    for (int i = 0; i < DAMAGES * 7 * 4; i++)
        meet_build_of(i % 5 == 0 ? 4100 : 4097, i % DAMAGES, 0, 6 - i / DAMAGES % 7, i / DAMAGES / 7, (int)below(4));
    for (int i = 0; i < 5; i++)
        meet_build_of(4096, i == 0 ? 0 : 1, 0, 6, i % 4, i == 4);
}

// Both calls on a signal of n samples, with weights, short buffers and odd lengths.
static void meet_signal_of(size_t n, uint64_t limit, uint64_t min_segment_len, enum weighing weighing, int room, int odd,
                           int penalty)
{
    static const uint64_t ps[] = {1, 0, (uint64_t)1 << 44, ((uint64_t)1 << 44) + 1, 1, 1, UINT64_MAX};
    static const uint64_t qs[] = {1, 65535, 1, 1, 0, 65536, UINT64_MAX};
    size_t needed = limit < n ? (size_t)limit : n, lack = needed > 0;
    draw_samples(0, n, n > 100 ? FEW : STEPS);
    lend_weights(limit, weighing);
    for (int i = 2; i < 7; i++)
        fresh(i, (i == 5 ? 8 : 2) * (needed - (room == i - 1 ? lack : 0)));
    fresh(7, room == 6 ? FOLDWIG_SCRATCH_LEN - 1 : room == 7 ? 0 : room == 8 ? 40000 : FOLDWIG_SCRATCH_LEN);
    make_odd(odd, 7);
    compare_split(limit, min_segment_len, ps[penalty], qs[penalty]);
    if (penalty > 0)
        return;
    for (int i = 2; i < 6; i++)
        move_buffer(i + 2, i);
    compare_signal_path(limit, min_segment_len);
}

static void meet_signals(void)
{
    static const size_t counts[] = {0, 1, 3, 512, 513, 700};
    static const uint64_t limits[] = {0, 1, 3, 32, 33, UINT64_MAX, (uint64_t)1 << 32};
    for (int i = 0; i < 6 * 7 * 4 * 9 * 7 * 8; i++) {
        int count = i % 6, limit = i / 6 % 7, room = i / 168 % 9, penalty = i / 1512 % 7, odd = 7 - i / 10584;
        uint64_t lens[] = {1, 0, counts[count] + 1, counts[count]};
        meet_signal_of(counts[count], limits[limit], lens[i / 42 % 4], one_in(4) ? NONE : (enum weighing)below(WEIGHINGS), room,
                       odd, penalty);
    }
}

// ---- Three lists

// Both calls on a signal of 4 samples with the limit 3, with the path's buffers of three lengths and the least of these.
static void unequal_signal_lists(size_t a, size_t b, size_t c, size_t least)
{
    draw_samples(0, 4, STEPS);
    lend_weights(3, SMALL_STEPS);
    fresh_split(3, 1, FOLDWIG_SCRATCH_LEN);
    fresh_lists(4, a, b, c);
    expect(compare_split(3, 1, 1, 1).refusal == (least < 3 ? 9 : 0), "a split to lists of unequal length");
    fresh_lists(2, a, b, c);
    fresh(5, FOLDWIG_SCRATCH_LEN);
    expect(compare_signal_path(3, 1).refusal == (least < 3 ? 9 : 0), "a signal's path to lists of unequal length");
}

// Models, paths and buffers in three lists of every three lengths up to 5: the longest list of a build counts its models, and the
// shortest one of a path or of its buffers gives their length.
static void unequal_lists(void)
{
    for (int i = 0; i < 6 * 6 * 6; i++) {
        size_t a = (size_t)(i % 6), b = (size_t)(i / 6 % 6), c = (size_t)(i / 36), most = a > b ? a : b, least = a < b ? a : b;
        most = most > c ? most : c;
        least = least < c ? least : c;
        make_models(5, FALLING);
        list[4].loss += 3;
        for (size_t j = 0; j < 4; j++)
            list[j].loss += 3 + (4 - j) * 200;
        put_lists(0, 5, a, b, c);
        fresh_lists(3, 5, 5, 5);
        expect(compare_builds().refusal == (most == 0 ? 1 : least < most ? 5 : 0), "a build of lists of unequal length");
        put_models(0, 3, 3);
        fresh_lists(3, a, b, c);
        expect(compare_builds().refusal == (least < 3 ? 9 : 0), "a build to lists of unequal length");
        unequal_signal_lists(a, b, c, least);
        for (size_t n = 1; n <= 5; n++) {
            put_lists(0, 5, a, b, c);
            expect(compare_select(n, 0, 1).refusal == (n > least ? 8 : 0), "a selection from lists of unequal length");
            fresh(3, 8 * 5);
            fresh(4, 2 * 5);
            expect(compare_breakpoints(n).refusal == (n > least ? 8 : 0), "breakpoints of lists of unequal length");
            expect(compare_append(n, weighted(65535, list[n - 1].loss - 1, 65535)).refusal == (n > least ? 8 : n == least ? 9 : 0),
                   "an append to lists of unequal length");
        }
    }
}

// The same at the largest lengths: lists of no, of 4,096 or of 4,097 items, or of one.
static void unequal_long_lists(void)
{
    static const size_t lengths[] = {0, 1, 4096, 4097};
    for (int i = 0; i < 64; i++) {
        size_t a = lengths[i % 4], b = lengths[i / 4 % 4], c = lengths[i / 16], most = a > b ? a : b;
        most = most > c ? most : c;
        make_models(most, FALLING);
        put_lists(0, most, a, b, c);
        fresh_lists(3, most, most, most);
        expect(compare_builds().refusal == (most == 0 ? 1 : most > 4096 ? 2 : a < most || b < most || c < most ? 5 : 0),
               "a build of long lists of unequal length");
    }
}

// ---- Weights that do not rise

// Among n models one weight, at each place in turn, equals the one before or is below it: 14 in a build and in an append, 8 on a
// path.
static void every_neighbour(void)
{
    for (size_t n = 2; n <= 12; n++)
        for (size_t i = 1; i < n; i++)
            for (uint64_t less = 0; less < 3; less++) {
                uint64_t weight;
                make_models(n, (enum shape)below(SHAPES));
                for (size_t j = 0; j < n; j++) {
                    list[j].loss += 9;
                    list[j].weight += 2;
                }
                weight = list[i].weight;
                put_models(0, i, n);
                list[i].weight = list[i - 1].weight - (less < 2 ? less : list[i - 1].weight - 1);
                expect(compare_append(i, list[i]).refusal == 14, "an append whose weight does not rise");
                expect(compare_append(i, weighted(list[i].size, list[i - 1].loss, list[i].weight)).refusal == 14,
                       "an append with the last loss whose weight does not rise");
                expect(compare_append(i, weighted(list[i].size, TOP, list[i].weight)).refusal == 14,
                       "an append with a larger loss whose weight does not rise");
                expect(compare_append(i, weighted(list[i - 1].size, list[i].loss, list[i].weight)).refusal == 6,
                       "an append whose size and weight do not rise");
                put_models(0, n, n);
                fresh_lists(3, n, n, n);
                expect(compare_builds().refusal == 14, "a build with a weight that does not rise");
                for (size_t said = 0; said <= n; said++)
                    expect(compare_select(said, 1, 1).refusal == (said == 0 ? 10 : said > i ? 8 : 0),
                           "a selection from a path with a weight that does not rise");
                fresh(3, 8 * n);
                fresh(4, 2 * n);
                expect(compare_breakpoints(n).refusal == 8, "breakpoints of a path with a weight that does not rise");
                expect(compare_append(n, weighted(65535, 0, 65535)).refusal == 8,
                       "an append to a path with a weight that does not rise");
                list[i].weight = weight;
                put_models(0, n, n);
                fresh_lists(3, n, n, n);
                expect(compare_builds().refusal == 0, "a build with weights that rise");
            }
}

// Puts so many weights that rise by 2 from 3 on, of which the one at a place, if there is one, is another.
static void put_weights(size_t count, size_t at, uint64_t weight)
{
    struct bytes weights = fresh(1, 2 * count);
    for (size_t i = 0; i < count; i++)
        put_item(weights, 2, i, i == at ? weight : 2 * i + 3);
}

// What a signal of n samples gets from both calls, with the weights as they are.
static uint64_t refusal_with_weights(size_t n, uint64_t limit)
{
    uint64_t refusal;
    draw_samples(0, n, STEPS);
    fresh_split(32, 1, FOLDWIG_SCRATCH_LEN);
    refusal = compare_split(limit, 1, 1, 1).refusal;
    fresh_lists(2, 32, 32, 32);
    fresh(5, FOLDWIG_SCRATCH_LEN);
    expect(compare_signal_path(limit, 1).refusal == refusal, "both calls on a signal refuse the same weights");
    return refusal;
}

// The weights of a signal: each place in turn equal to the one before, below it, 1 and 0, also where there are fewer samples than
// weights; and every number of them from 0 to two more than the limit.
static void every_signal_weight(void)
{
    for (size_t limit = 1; limit <= 32; limit++) {
        size_t n = 1 + below(6);
        for (size_t i = 0; i < limit; i++) {
            put_weights(limit, i, 2 * i + 1);
            expect(refusal_with_weights(n, limit) == (i == 0 ? 0 : 14), "a weight that equals the one before");
            put_weights(limit, i, 2 * i + (i == 0));
            expect(refusal_with_weights(n, limit) == (i == 0 ? 0 : 14), "a weight below the one before");
            put_weights(limit, i, 0);
            expect(refusal_with_weights(n, limit) == 5, "a weight of 0");
            put_weights(limit, i, 65535);
            expect(refusal_with_weights(n, limit) == (i + 1 == limit ? 0 : 14), "a weight of 65,535");
        }
        for (size_t count = 0; count <= limit + 2; count++) {
            put_weights(count, count, 0);
            expect(refusal_with_weights(n, limit) == (count == 0 || count == limit ? 0 : 14), "a number of weights");
        }
        put_weights(1 + below(limit + 9), 0, 0);
        expect(refusal_with_weights(n, limit) == 5, "any number of weights of which the first is 0");
    }
}

// Weights far behind the limit: 5 looks at each of them.
static void many_weights(void)
{
    static const size_t counts[] = {31, 33, 34, 40, 65, 512, 4097, MOST_BYTES / 2};
    for (size_t i = 0; i < sizeof counts / sizeof counts[0]; i++)
        for (uint64_t limit = 1; limit <= 32; limit += 31) {
            put_weights(counts[i], counts[i] - 1, 0);
            expect(refusal_with_weights(40, limit) == 5, "many weights of which the last is 0");
            put_weights(counts[i], counts[i] / 2, 0);
            expect(refusal_with_weights(40, limit) == 5, "many weights of which one is 0");
            fresh(1, 2 * counts[i]);
            for (size_t j = 0; j < counts[i]; j++)
                put_item(buffer(1), 2, j, 65535 - j % 65535);
            expect(refusal_with_weights(40, limit) == 14, "many weights in range");
        }
}

// ---- Limits

// A path of 4,096 entries is full: a model that drops none gets 9, one that drops some is taken, and one with the last loss is
// passed over.
static void full_paths(void)
{
    make_models(4096, FALLING);
    for (size_t i = 0; i < 4096; i++)
        list[i].loss += 100;
    for (size_t places = 4095; places <= 4098; places++) {
        struct model last = list[4095];
        put_models(0, 4096, places);
        compare_append(4096, weighted(last.size + 200, last.loss - 1, last.weight + 200));
        put_models(0, 4096, places);
        compare_append(4096, weighted(last.size + 1, last.loss - 90, last.weight + 1));
        put_models(0, 4096, places);
        compare_append(4096, weighted(last.size + 1, last.loss, last.weight + 1));
        compare_append(4096, weighted(last.size, last.loss, last.weight + 1));
        compare_append(4096, weighted(last.size + 1, last.loss, last.weight));
        compare_append(4097, weighted(last.size + 1, last.loss, last.weight + 1));
        compare_append(4097, weighted(last.size + 1, last.loss - 1, last.weight + 1));
        compare_select(4096, 1, 65535);
        compare_select(4096, TOP, 1);
        compare_select(4097, 1, 1);
        compare_listing(4096);
        compare_listing(4097);
    }
}

// The largest numbers that are accepted, together.
static void largest_numbers(void)
{
    for (int way = 0; way < 3; way++) {
        list[0] = weighted(1, TOP, 1);
        list[1] = weighted(way == 1 ? 2 : 65534, 1, way == 2 ? 2 : 65534);
        list[2] = weighted(way == 1 ? 3 : 65535, 0, way == 2 ? 3 : 65535);
        put_models(0, 3, 3);
        fresh_lists(3, 3, 3, 3);
        expect(compare_builds().entries == 3, "a build of the largest numbers");
        compare_select(3, TOP, 65535);
        compare_select(3, TOP, 1);
        compare_select(3, 0, 65535);
        compare_listing(3);
    }
    list[0] = weighted(65535, TOP, 65535);
    put_models(0, 1, 1);
    expect(compare_select(1, TOP, 65535).refusal == 0, "a selection at the largest numbers");
    expect(compare_append(0, weighted(65535, TOP, 65535)).refusal == 0, "a loss of 2^44 is taken");
    expect(compare_append(0, weighted(65535, TOP + 1, 65535)).refusal == 5, "a loss of 2^44 + 1 gets 5");
    expect(compare_append(0, weighted(65535, TOP, 65536)).refusal == 5, "a weight of 65,536 gets 5");
    expect(compare_append(0, weighted(65535, TOP, 65536 + 7)).refusal == 5, "a weight whose low bytes are in range gets 5");
    expect(compare_append(0, weighted(65535, TOP, 0)).refusal == 5, "a weight of 0 gets 5");
    expect(compare_append(0, weighted(1, TOP, 1)).refusal == 0, "a weight of 1 is taken");
}

// ---- Worked figures

static void put_samples(const int *samples, size_t n)
{
    struct bytes b = fresh(0, 2 * n);
    for (size_t i = 0; i < n; i++)
        put_item(b, 2, i, (uint64_t)samples[i]);
    fresh(1, 0);
    fresh_split(32, 1, FOLDWIG_SCRATCH_LEN);
}

static int bytes_are(int which, const char *wanted, size_t len)
{
    return memcmp(buffer(which).at, wanted, len) == 0;
}

static void path_figures(void)
{
    static const uint64_t losses[4][5] = {{7, 4, 0}, {7, 4, 2}, {4, 3, 2, 1, 0}, {7, 4, 0}};
    static const uint64_t weights[4][5] = {{1, 2, 3}, {1, 2, 3}, {1, 2, 3, 4, 5}, {2, 3, 7}};
    static const size_t counts[] = {3, 3, 5, 3};
    static const uint64_t entries[] = {2, 3, 2, 3}, tests[] = {3, 2, 7, 2};
    for (int i = 0; i < 4; i++) {
        struct foldwig_path_result r;
        for (size_t j = 0; j < counts[i]; j++)
            list[j] = weighted(j + 1, losses[i][j], weights[i][j]);
        put_models(0, counts[i], counts[i]);
        fresh_lists(3, counts[i], counts[i], counts[i]);
        r = compare_builds();
        expect(r.refusal == 0 && r.entries == entries[i] && r.tests == tests[i], "a worked figure of a build");
        if (i == 0)
            expect(bytes_are(3, "\1\0\3\0\0", 6) && bytes_are(4, "\7\0\0\0\0\0\0\0\0", 10) && bytes_are(5, "\1\0\3\0\0", 6),
                   "the bytes of a build");
    }
    expect(bytes_are(3, "\1\0\2\0\3", 6) && bytes_are(5, "\2\0\3\0\7", 6), "the bytes of a build with weights");
}

static int selects(uint64_t entries, uint64_t p, uint64_t q, struct model wanted)
{
    struct foldwig_select_result r = compare_select(entries, p, q);
    return r.refusal == 0 && same_model(weighted(r.size, r.loss, r.weight), wanted);
}

// The losses 7, 4 and 0 with the weights 2, 3 and 7: the breakpoints are 3/1 and 4/4, and at both the smaller size is selected.
static void weight_figures(void)
{
    static const struct model three[] = {{1, 7, 2}, {2, 4, 3}, {3, 0, 7}};
    memcpy(list, three, sizeof three);
    put_models(0, 3, 3);
    fresh(3, 8 * 2);
    fresh(4, 2 * 2);
    expect(compare_breakpoints(3).count == 2 && bytes_are(3, "\3\0\0\0\0\0\0\0\4", 10) && bytes_are(4, "\1\0\4", 4),
           "the breakpoints of 7, 4, 0 with the weights 2, 3, 7");
    expect(selects(3, 3, 1, three[0]) && selects(3, 4, 4, three[1]) && selects(3, 1, 1, three[1]), "selections at breakpoints");
    expect(selects(3, 299, 100, three[1]) && selects(3, 99, 100, three[2]) && selects(3, 0, 1, three[2]),
           "selections below breakpoints");
    expect(compare_append(3, weighted(4, 0, 7)).refusal == 14, "the last loss and the last weight");
    expect(compare_append(3, weighted(4, 1, 7)).refusal == 14, "a larger loss with the last weight");
    expect(compare_append(3, weighted(3, 1, 7)).refusal == 6, "a larger loss with the last size and the last weight");
    expect(compare_append(3, weighted(4, 1, 8)).refusal == 7, "a larger loss with a larger weight");
    expect(compare_append(3, weighted(4, 0, 8)).refusal == 0, "the last loss with a larger weight");
    put_models(0, 3, 4);
    expect(compare_append(2, weighted(3, 0, 4)).entries == 2 && get_item(buffer(2), 2, 1) == 4, "the third model, lighter");
}

static void split_figures(void)
{
    static const int a[] = {0, 1, 0}, b[] = {0, 2, 4}, c[] = {-3, -2}, d[] = {0, 1, 4, 0, 4}, e[] = {0, 0, 0, 1, 1, 1};
    static const int f[] = {19, 19, 19, 19, 19, 10, 0, 0, 0, 10, 19, 19, 19, 19, 19};
    static int half[513];
    struct foldwig_split_result r;
    put_samples(a, 3);
    r = compare_split(3, 1, 1, 4);
    expect(r.segments == 3 && r.loss == 0 && bytes_are(2, "\1\0\2\0\3\0", 6) && bytes_are(3, "\0\0\1\0\0", 6), "0 1 0 at 1/4");
    put_samples(a, 3);
    r = compare_split(2, 1, 0, 1);
    expect(r.segments == 1 && r.loss == 1 && r.entries == 1, "0 1 0 with the limit 2");
    put_samples(b, 3);
    r = compare_split(3, 1, 3, 1);
    expect(r.segments == 2 && r.loss == 2 && bytes_are(2, "\1\0\2\0", 4) && bytes_are(3, "\0\0\3\0", 4), "0 2 4 at 3");
    put_samples(c, 2);
    r = compare_split(1, 1, 0, 1);
    expect(r.loss == 1 && bytes_are(3, "\375\377", 2), "-3 -2 with the limit 1");
    put_samples(d, 5);
    r = compare_split(3, 1, 1, 1);
    expect(r.segments == 3 && r.loss == 9 && bytes_are(2, "\1\0\3\0\4\0", 6), "0 1 4 0 4 with the limit 3");
    for (size_t i = 0; i < 513; i++)
        half[i] = i < 256 ? -32768 : 32767;
    put_samples(half, 512);
    r = compare_split(1, 1, 1, 1);
    expect(r.segments == 1 && r.loss == UINT64_C(549739036928) && bytes_are(3, "\377\377", 2), "512 extremes as one segment");
    put_samples(half, 513);
    expect(compare_split(1, 1, 1, 1).refusal == 2, "513 samples");
    put_samples(e, 6);
    r = compare_split(3, 2, 0, 1);
    expect(r.segments == 2 && r.loss == 0 && r.entries == 2, "0 0 0 1 1 1 with the least length 2");
    put_samples(e, 6);
    r = compare_split(6, 4, 0, 1);
    expect(r.segments == 1 && r.loss == 3 && r.entries == 1, "0 0 0 1 1 1 with the least length 4");
    put_samples(e, 6);
    expect(compare_split(3, 7, 0, 0).refusal == 13, "0 0 0 1 1 1 with the least length 7");
    for (int last = 0; last < 2; last++) {
        put_samples(f, 15);
        r = compare_split(5, 3, last == 0 ? 0 : 6, 1);
        expect(r.entries == 3 && bytes_are(4, "\1\0\3\0\5\0\0\0", 8), "the sizes where losses are 870, 685, 120, 123, 108");
        expect(last == 0 ? r.segments == 5 && r.loss == 108 : r.segments == 3 && r.loss == 120, "a split there");
    }
}

// Gives a signal weights.
static void give_weights(const uint64_t *weights, size_t count)
{
    struct bytes b = fresh(1, 2 * count);
    for (size_t i = 0; i < count; i++)
        put_item(b, 2, i, weights[i]);
}

// The samples 0 1 0, whose losses are 1, 1 and 0, with weights. The breakpoint with the weights 2, 3 and 7 is 1/5.
static void weight_split_figures(void)
{
    static const int a[] = {0, 1, 0};
    static const uint64_t weights[] = {2, 3, 7, 9}, zero[] = {0}, falling[] = {2, 7, 3}, equal[] = {2, 3, 3}, to_zero[] = {2, 3, 0};
    static const struct {
        const char *what;
        const uint64_t *weights;
        size_t count;
        uint64_t limit, len, p, q, refusal, segments;
    } figures[] = {
        {"0 1 0 with weights at 1/5", weights, 3, 3, 1, 1, 5, 0, 1},
        {"0 1 0 with weights at 1/6", weights, 3, 3, 1, 1, 6, 0, 3},
        {"0 1 0 with weights at 1/4", weights, 3, 3, 1, 1, 4, 0, 1},
        {"0 1 0 without weights at 1/4", weights, 0, 3, 1, 1, 4, 0, 3},
        {"four weights at the limit 4", weights, 4, 4, 1, 1, 6, 0, 3},
        {"three weights at the limit 4", weights, 3, 4, 1, 1, 6, 14, 0},
        {"four weights at the limit 3", weights, 4, 3, 1, 1, 6, 14, 0},
        {"a weight of 0 at the limit 3", zero, 1, 3, 1, 1, 6, 5, 0},
        {"one weight in range at the limit 3", weights, 1, 3, 1, 1, 6, 14, 0},
        {"weights that fall", falling, 3, 3, 1, 1, 6, 14, 0},
        {"weights that stay", equal, 3, 3, 1, 1, 6, 14, 0},
        {"weights that fall to 0", to_zero, 3, 3, 1, 1, 6, 5, 0},
        {"weights that fall, a bad penalty", falling, 3, 3, 1, 1, 0, 14, 0},
        {"weights that fall to 0, a bad penalty", to_zero, 3, 3, 1, 1, 0, 5, 0},
        {"weights that fall to 0, a bad least length", to_zero, 3, 3, 4, 1, 0, 13, 0},
    };
    for (size_t i = 0; i < sizeof figures / sizeof figures[0]; i++) {
        struct foldwig_split_result r;
        put_samples(a, 3);
        give_weights(figures[i].weights, figures[i].count);
        r = compare_split(figures[i].limit, figures[i].len, figures[i].p, figures[i].q);
        expect(r.refusal == figures[i].refusal && r.segments == figures[i].segments, figures[i].what);
    }
    put_samples(a, 3);
    give_weights(weights, 3);
    compare_split(3, 1, 1, 6);
    expect(bytes_are(4, "\1\0\3\0\0", 6) && bytes_are(6, "\2\0\7\0\0", 6), "the path of 0 1 0 with weights");
    put_samples(a, 3);
    fresh(1, 7);
    expect(compare_split(3, 1, 1, 6).refusal == 11, "an odd number of bytes of weights");
}

// One segment for each mean from a whole number to the next, by steps of so many parts of its length. A half has the lower level.
static void level_steps(size_t n, size_t step)
{
    static const int lower[] = {-32768, -3, -1, 0, 2, 32766};
    static int samples[512];
    for (size_t i = 0; i < sizeof lower / sizeof lower[0]; i++)
        for (size_t above = 0; above <= n; above += step) {
            int level = lower[i] + (2 * above > n);
            char wanted[2] = {(char)(level & 0xff), (char)(level >> 8 & 0xff)};
            for (size_t j = 0; j < n; j++)
                samples[j] = lower[i] + (j < above);
            put_samples(samples, n);
            expect(compare_split(1, 1, 0, 1).segments == 1 && bytes_are(3, wanted, 2), "the level of one segment");
        }
}

static void level_figures(void)
{
    for (size_t n = 1; n <= 40; n++)
        level_steps(n, 1);
    level_steps(511, 73);
    level_steps(512, 64);
}

// ---- Figures of flat stretches

// Whether three buffers from one on hold so many entries, and zeros behind them up to an end.
static int holds_path(int first, const struct model *path, size_t entries, size_t end)
{
    for (size_t i = 0; i < end; i++)
        if (!same_model(entry(first, i), i < entries ? path[i] : weighted(0, 0, 0)))
            return 0;
    return 1;
}

static int answers(struct foldwig_path_result r, uint64_t refusal, uint64_t entries, uint64_t tests)
{
    return r.refusal == refusal && r.entries == entries && r.tests == tests;
}

// Builds of models of which some are passed over, what they answer and the paths that they leave.
static const struct {
    const char *what;
    size_t n;
    struct model given[6];
    uint64_t refusal;
    size_t entries;
    struct model path[3];
    uint64_t tests;
} flat_builds[] = {
    {"the first model twice", 2, {{1, 5, 1}, {1, 5, 1}}, 6, 0, {{0, 0, 0}}, 0},
    {"the first loss twice", 2, {{1, 5, 1}, {2, 5, 2}}, 0, 1, {{1, 5, 1}}, 0},
    {"a loss of 0 twice", 2, {{1, 0, 1}, {2, 0, 2}}, 0, 1, {{1, 0, 1}}, 0},
    {"the largest numbers", 2, {{1, 17592186044416, 1}, {65535, 17592186044416, 65535}}, 0, 1, {{1, 17592186044416, 1}}, 0},
    {"a passed-over model twice", 3, {{1, 5, 1}, {2, 5, 2}, {2, 5, 2}}, 0, 1, {{1, 5, 1}}, 0},
    {"passed-over sizes that fall", 4, {{1, 5, 1}, {4, 5, 4}, {3, 5, 3}, {2, 5, 2}}, 0, 1, {{1, 5, 1}}, 0},
    {"a size below a passed-over one", 3, {{1, 5, 1}, {3, 5, 3}, {2, 4, 2}}, 0, 2, {{1, 5, 1}, {2, 4, 2}}, 1},
    {"a size that was passed over", 3, {{1, 5, 1}, {3, 5, 3}, {3, 4, 3}}, 0, 2, {{1, 5, 1}, {3, 4, 3}}, 1},
    {"a size above a passed-over one", 3, {{1, 5, 1}, {3, 5, 3}, {4, 4, 4}}, 0, 2, {{1, 5, 1}, {4, 4, 4}}, 1},
    {"the last entry's size and loss", 3, {{2, 5, 2}, {4, 5, 4}, {2, 5, 2}}, 6, 0, {{0, 0, 0}}, 0},
    {"the last entry's size, a smaller loss", 3, {{2, 5, 2}, {4, 5, 4}, {2, 4, 2}}, 6, 0, {{0, 0, 0}}, 0},
    {"a smaller size, the last entry's loss", 3, {{2, 5, 2}, {4, 5, 4}, {1, 5, 1}}, 6, 0, {{0, 0, 0}}, 0},
    {"a size of 0, the last entry's loss", 2, {{2, 5, 2}, {0, 5, 3}}, 5, 0, {{0, 0, 0}}, 0},
    {"a larger loss after a passed-over model", 3, {{1, 5, 1}, {3, 5, 3}, {4, 6, 4}}, 7, 0, {{0, 0, 0}}, 0},
    {"a larger loss below a passed-over size", 3, {{1, 5, 1}, {3, 5, 3}, {2, 6, 2}}, 7, 0, {{0, 0, 0}}, 0},
    {"a larger loss at the last entry's size", 3, {{1, 5, 1}, {3, 5, 3}, {1, 6, 1}}, 6, 0, {{0, 0, 0}}, 0},
    {"the size of the second entry again", 5, {{3, 9, 3}, {7, 9, 7}, {5, 9, 5}, {4, 6, 4}, {4, 6, 4}}, 6, 0, {{0, 0, 0}}, 0},
    // The models 1, 2 and 3 with the losses 7, 4 and 0, each followed by one that is passed over: 1 test, then 2.
    {"a test that fails", 6, {{1, 7, 1}, {2, 7, 2}, {2, 4, 2}, {5, 4, 5}, {3, 0, 3}, {4, 0, 4}}, 0, 2, {{1, 7, 1}, {3, 0, 3}}, 3},
    // The losses 7, 4 and 2: 1 test, then 1.
    {"tests that hold", 6, {{1, 7, 1}, {9, 7, 9}, {2, 4, 2}, {8, 4, 8}, {7, 4, 7}, {3, 2, 3}}, 0, 3,
     {{1, 7, 1}, {2, 4, 2}, {3, 2, 3}}, 2},
    // The losses 5, 4 and 3, so that the breakpoints are equal: 1 test, then 2.
    {"a tie", 4, {{1, 5, 1}, {2, 4, 2}, {9, 4, 9}, {3, 3, 3}}, 0, 2, {{1, 5, 1}, {3, 3, 3}}, 3},
    {"the first loss and weight twice", 2, {{1, 5, 4}, {2, 5, 4}}, 14, 0, {{0, 0, 0}}, 0},
    {"the first loss, a smaller weight", 2, {{1, 5, 4}, {2, 5, 3}}, 14, 0, {{0, 0, 0}}, 0},
    {"the first loss, a larger weight", 2, {{1, 5, 4}, {2, 5, 5}}, 0, 1, {{1, 5, 4}}, 0},
    {"the first weight, a smaller loss", 2, {{1, 5, 4}, {2, 4, 4}}, 14, 0, {{0, 0, 0}}, 0},
    {"the first weight, a larger loss", 2, {{1, 5, 4}, {2, 6, 4}}, 14, 0, {{0, 0, 0}}, 0},
    {"the first size and weight, a larger loss", 2, {{1, 5, 4}, {1, 6, 4}}, 6, 0, {{0, 0, 0}}, 0},
    {"the first weight, too large a loss", 2, {{1, 5, 4}, {2, 17592186044417, 4}}, 5, 0, {{0, 0, 0}}, 0},
    {"passed-over weights that fall", 4, {{1, 5, 2}, {2, 5, 9}, {3, 5, 8}, {4, 5, 3}}, 0, 1, {{1, 5, 2}}, 0},
    {"a weight below a passed-over one", 3, {{1, 5, 2}, {2, 5, 9}, {3, 4, 3}}, 0, 2, {{1, 5, 2}, {3, 4, 3}}, 1},
    {"a weight that was passed over", 3, {{1, 5, 2}, {2, 5, 9}, {3, 4, 9}}, 0, 2, {{1, 5, 2}, {3, 4, 9}}, 1},
    {"the last entry's weight", 3, {{1, 5, 2}, {2, 5, 9}, {3, 4, 2}}, 14, 0, {{0, 0, 0}}, 0},
    {"a first bad weight before a bad size", 3, {{1, 5, 2}, {2, 4, 2}, {2, 3, 9}}, 14, 0, {{0, 0, 0}}, 0},
    {"a first bad size before a bad weight", 3, {{1, 5, 2}, {1, 4, 3}, {2, 3, 3}}, 6, 0, {{0, 0, 0}}, 0},
    {"a first bad loss before a bad weight", 3, {{1, 5, 2}, {2, 6, 3}, {3, 3, 3}}, 7, 0, {{0, 0, 0}}, 0},
    // The losses 7, 4 and 0 as above: by the weights 2, 3 and 7 the breakpoints fall, 3/1 and 4/4, and with 2, 3 and 4 they do not.
    {"weights by which a test holds", 3, {{1, 7, 2}, {2, 4, 3}, {3, 0, 7}}, 0, 3, {{1, 7, 2}, {2, 4, 3}, {3, 0, 7}}, 2},
    {"weights by which it does not", 3, {{1, 7, 2}, {2, 4, 3}, {3, 0, 4}}, 0, 2, {{1, 7, 2}, {3, 0, 4}}, 3},
    // By the sizes 3/1 and 2/1; by the weights 3/3 and 2/2, which are equal.
    {"a tie by weights", 3, {{1, 7, 1}, {2, 4, 4}, {3, 2, 6}}, 0, 2, {{1, 7, 1}, {3, 2, 6}}, 3},
};

static void flat_build_figures(void)
{
    for (size_t i = 0; i < sizeof flat_builds / sizeof flat_builds[0]; i++) {
        size_t n = flat_builds[i].n, entries = flat_builds[i].entries;
        struct foldwig_path_result r;
        memcpy(list, flat_builds[i].given, n * sizeof list[0]);
        put_models(0, n, n);
        fresh_lists(3, n + 1, n + 1, n + 1);
        r = compare_builds();
        expect(answers(r, flat_builds[i].refusal, entries, flat_builds[i].tests), flat_builds[i].what);
        if (r.refusal != 0)
            continue;
        expect(holds_path(3, flat_builds[i].path, entries, n), flat_builds[i].what);
        for (size_t lacks = 0; lacks < 3; lacks++) {
            fresh_lists(3, n - (lacks == 0), n - (lacks == 1), n - (lacks == 2));
            expect(answers(compare_builds(), 9, 0, 0), "a build without a place for a model that is passed over");
        }
    }
}

// Builds n models of the list into as many places, or into one place less if its room is to be too short.
static struct foldwig_path_result build_list(size_t n, size_t less)
{
    put_models(0, n, n);
    fresh_lists(3, n - less, n - less, n - less);
    return compare_builds();
}

// 48 models with falling losses, 4,000 with the last one's, and 48 with falling losses again, whose sizes go on from the first
// 48. Without the 4,000 they are 96 models of the sizes 1 to 96. If the loss of size k is the square of 96 - k, the breakpoints
// fall: all models stay, and each but the first takes 1 test. If the loss of size k is 96 - k, the models are on a line: the
// first and the last one stay, the second takes 1 test and each of the 94 behind it takes 2.
static void long_flat_figures(void)
{
    static struct model path[96];
    static const struct model line[] = {{1, 95, 1}, {96, 0, 96}}, two[] = {{1, 5, 1}, {2, 4, 2}};
    for (int squares = 0; squares < 2; squares++) {
        for (uint64_t i = 0; i < 96; i++)
            path[i] = model(i + 1, squares ? (95 - i) * (95 - i) : 95 - i);
        memcpy(list, path, 48 * sizeof list[0]);
        for (uint64_t i = 0; i < 4000; i++)
            list[48 + i] = model(49 + i, path[47].loss);
        memcpy(list + 4048, path + 48, 48 * sizeof list[0]);
        expect(answers(build_list(4096, 0), 0, squares ? 96 : 2, squares ? 95 : 189), "4,000 equal losses between others");
        expect(holds_path(3, squares ? path : line, squares ? 96 : 2, 4096), "the path of 4,000 equal losses between others");
    }
    for (uint64_t i = 0; i < 4097; i++)
        list[i] = model(i + 1, 5);
    expect(answers(build_list(4000, 0), 0, 1, 0) && holds_path(3, list, 1, 4000), "4,000 equal losses");
    expect(answers(build_list(4096, 0), 0, 1, 0) && holds_path(3, list, 1, 4096), "4,096 equal losses");
    expect(answers(build_list(4096, 1), 9, 0, 0), "4,096 equal losses without a place for each model");
    expect(answers(build_list(4097, 0), 2, 0, 0), "4,097 equal losses");
    list[4095] = model(1, 5);
    expect(answers(build_list(4096, 0), 6, 0, 0), "4,095 equal losses, and the first model again");
    list[4095] = model(2, 4);
    expect(answers(build_list(4096, 0), 0, 2, 1) && holds_path(3, two, 2, 4096), "4,095 equal losses, and size 2 with less");
}

// Models that a quadratic build goes through from the largest size down, and the path that it finds. The comments have the
// breakpoints to each present entry, from the smallest size on.
static const struct {
    const char *what;
    size_t n;
    struct model given[6];
    size_t entries;
    struct model path[4];
} quadratic_builds[] = {
    {"one model", 1, {{7, 9, 7}}, 1, {{7, 9, 7}}},
    {"one model of the largest numbers", 1, {{65535, 17592186044416, 65535}}, 1, {{65535, 17592186044416, 65535}}},
    // From size 5 only 7 / 3.
    {"two models", 2, {{2, 9, 2}, {5, 2, 5}}, 2, {{2, 9, 2}, {5, 2, 5}}},
    // From size 3: 7 / 2 and 4 / 1.
    {"a size that is left out", 3, {{1, 7, 1}, {2, 4, 2}, {3, 0, 3}}, 2, {{1, 7, 1}, {3, 0, 3}}},
    // From size 3: 5 / 2 and 2 / 1. From size 2: 3 / 1.
    {"a size that is taken", 3, {{1, 7, 1}, {2, 4, 2}, {3, 2, 3}}, 3, {{1, 7, 1}, {2, 4, 2}, {3, 2, 3}}},
    // From size 5: 4 / 4, 3 / 3, 2 / 2 and 1 / 1.
    {"all on one line", 5, {{1, 4, 1}, {2, 3, 2}, {3, 2, 3}, {4, 1, 4}, {5, 0, 5}}, 2, {{1, 4, 1}, {5, 0, 5}}},
    // From size 6: 14 / 5, 6 / 4, 4 / 3, 2 / 2 and 1 / 1. From size 4: 12 / 3, 4 / 2 and 2 / 1. From size 2: 8 / 1.
    {"two lines", 6, {{1, 14, 1}, {2, 6, 2}, {3, 4, 3}, {4, 2, 4}, {5, 1, 5}, {6, 0, 6}}, 4,
     {{1, 14, 1}, {2, 6, 2}, {4, 2, 4}, {6, 0, 6}}},
    // Size 4 with the loss 4 and size 9 are passed over. From size 5: 7 / 4, 4 / 3 and 2 / 1. From size 2: 3 / 1.
    {"the largest size passed over", 6, {{1, 7, 1}, {2, 4, 2}, {4, 4, 4}, {4, 2, 4}, {5, 0, 5}, {9, 0, 9}}, 3,
     {{1, 7, 1}, {2, 4, 2}, {5, 0, 5}}},
    // From size 65,535: 2^44 / 65,534 and (2^44 - 1) / 65,533, with products just below 2^60.
    {"the largest products", 3, {{1, 17592186044416, 1}, {2, 17592186044415, 2}, {65535, 0, 65535}}, 2,
     {{1, 17592186044416, 1}, {65535, 0, 65535}}},
    // From size 3: 7 / 5 and 4 / 4, where the sizes alone would give 7 / 2 and 4 / 1. From size 2: 3 / 1.
    {"a size that is taken by its weight", 3, {{1, 7, 2}, {2, 4, 3}, {3, 0, 7}}, 3, {{1, 7, 2}, {2, 4, 3}, {3, 0, 7}}},
    // From size 3: 5 / 5 and 2 / 2, where the sizes alone would give 5 / 2 and 2 / 1.
    {"a size that ties by its weight", 3, {{1, 7, 1}, {2, 4, 4}, {3, 2, 6}}, 2, {{1, 7, 1}, {3, 2, 6}}},
    // From size 3: 2^44 / 65,534 and (2^44 - 1) / 65,533 once more, by weights.
    {"the largest products by weights", 3, {{1, 17592186044416, 1}, {2, 17592186044415, 2}, {3, 0, 65535}}, 2,
     {{1, 17592186044416, 1}, {3, 0, 65535}}},
};

static void quadratic_figures(void)
{
    for (size_t i = 0; i < sizeof quadratic_builds / sizeof quadratic_builds[0]; i++) {
        size_t n = quadratic_builds[i].n, entries = quadratic_builds[i].entries;
        struct foldwig_path_result r;
        memcpy(list, quadratic_builds[i].given, n * sizeof list[0]);
        r = build_list(n, 0);
        expect(r.refusal == 0 && r.entries == entries, quadratic_builds[i].what);
        expect(holds_path(3, quadratic_builds[i].path, entries, n), quadratic_builds[i].what);
    }
}

// 4,096 models that a quadratic build goes through in the most steps, and in the fewest. If the loss of size k is the square of
// 4,097 - k, it takes all of them, one after the other. If the loss is 4,097 - k they are on a line, and if it is what the square
// of k lacks to that of 4,097 they are above one: it goes from the last model to the first at once.
static void long_quadratic_figures(void)
{
    for (int shape = 0; shape < 3; shape++) {
        static struct model path[4097];
        struct model ends[2];
        for (uint64_t i = 0; i < 4097; i++) {
            uint64_t k = i + 1, left = 4097 - k;
            path[i] = model(k, shape == 0 ? left * left : shape == 1 ? left : 4097 * 4097 - k * k);
        }
        ends[0] = path[0];
        ends[1] = path[4095];
        memcpy(list, path, sizeof path);
        expect(build_list(4096, 0).entries == (shape == 0 ? 4096 : 2), "the entries of 4,096 models");
        expect(holds_path(3, shape == 0 ? path : ends, shape == 0 ? 4096 : 2, 4096), "the path of 4,096 models");
        expect(answers(build_list(4096, 1), 9, 0, 0), "4,096 models without a place for each");
        expect(answers(build_list(4097, 0), 2, 0, 0), "4,097 models");
    }
}

// Appends to paths that fill their buffers, what they answer and the paths that they leave.
static const struct {
    const char *what;
    size_t n;
    struct model given[2], model;
    uint64_t refusal;
    size_t entries;
    struct model path[2];
    uint64_t tests;
} full_appends[] = {
    {"the only loss again", 1, {{1, 5, 1}}, {2, 5, 2}, 0, 1, {{1, 5, 1}}, 0},
    {"the only model again", 1, {{1, 5, 1}}, {1, 5, 1}, 6, 0, {{1, 5, 1}}, 0},
    {"a second entry", 1, {{1, 5, 1}}, {2, 4, 2}, 9, 0, {{1, 5, 1}}, 0},
    {"a loss above the only one", 1, {{1, 5, 1}}, {2, 6, 2}, 7, 0, {{1, 5, 1}}, 0},
    {"the last loss", 2, {{1, 7, 1}, {2, 4, 2}}, {3, 4, 3}, 0, 2, {{1, 7, 1}, {2, 4, 2}}, 0},
    {"the last loss, the largest size", 2, {{1, 7, 1}, {2, 4, 2}}, {65535, 4, 65535}, 0, 2, {{1, 7, 1}, {2, 4, 2}}, 0},
    {"the last loss, too large a size", 2, {{1, 7, 1}, {2, 4, 2}}, {65536, 4, 9}, 5, 0, {{1, 7, 1}, {2, 4, 2}}, 0},
    {"the last loss, a size of 0", 2, {{1, 7, 1}, {2, 4, 2}}, {0, 4, 3}, 5, 0, {{1, 7, 1}, {2, 4, 2}}, 0},
    {"the last loss, the last size", 2, {{1, 7, 1}, {2, 4, 2}}, {2, 4, 2}, 6, 0, {{1, 7, 1}, {2, 4, 2}}, 0},
    {"the last loss, the first size", 2, {{1, 7, 1}, {2, 4, 2}}, {1, 4, 1}, 6, 0, {{1, 7, 1}, {2, 4, 2}}, 0},
    {"the first loss", 2, {{1, 7, 1}, {2, 4, 2}}, {3, 7, 3}, 7, 0, {{1, 7, 1}, {2, 4, 2}}, 0},
    {"a model that drops nothing", 2, {{1, 7, 1}, {2, 4, 2}}, {3, 2, 3}, 9, 0, {{1, 7, 1}, {2, 4, 2}}, 0},
    {"a model that drops an entry", 2, {{1, 7, 1}, {2, 4, 2}}, {3, 0, 3}, 0, 2, {{1, 7, 1}, {3, 0, 3}}, 2},
    {"the largest loss again", 1, {{1, 17592186044416, 1}}, {2, 17592186044416, 2}, 0, 1, {{1, 17592186044416, 1}}, 0},
    {"the last loss on a flat path", 2, {{1, 4, 1}, {2, 4, 2}}, {3, 4, 3}, 8, 0, {{1, 4, 1}, {2, 4, 2}}, 0},
    {"the last loss and weight", 2, {{1, 7, 1}, {2, 4, 2}}, {3, 4, 2}, 14, 0, {{1, 7, 1}, {2, 4, 2}}, 0},
    {"the last loss, the largest weight", 2, {{1, 7, 1}, {2, 4, 2}}, {3, 4, 65535}, 0, 2, {{1, 7, 1}, {2, 4, 2}}, 0},
    {"the last loss, too large a weight", 2, {{1, 7, 1}, {2, 4, 2}}, {3, 4, 65536}, 5, 0, {{1, 7, 1}, {2, 4, 2}}, 0},
    {"a larger loss, the first weight", 2, {{1, 7, 1}, {2, 4, 2}}, {3, 5, 1}, 14, 0, {{1, 7, 1}, {2, 4, 2}}, 0},
    {"a model that drops nothing, the last weight", 2, {{1, 7, 1}, {2, 4, 2}}, {3, 2, 2}, 14, 0, {{1, 7, 1}, {2, 4, 2}}, 0},
    {"a model that drops nothing by its weight", 2, {{1, 7, 2}, {2, 4, 3}}, {3, 0, 7}, 9, 0, {{1, 7, 2}, {2, 4, 3}}, 0},
    {"a model that drops an entry by its weight", 2, {{1, 7, 1}, {2, 4, 4}}, {3, 2, 6}, 0, 2, {{1, 7, 1}, {3, 2, 6}}, 2},
    {"weights that stay on the path", 2, {{1, 7, 3}, {2, 4, 3}}, {3, 2, 6}, 8, 0, {{1, 7, 3}, {2, 4, 3}}, 0},
    {"weights that fall on the path", 2, {{1, 7, 3}, {2, 4, 2}}, {3, 2, 6}, 8, 0, {{1, 7, 3}, {2, 4, 2}}, 0},
};

static void full_append_figures(void)
{
    for (size_t i = 0; i < sizeof full_appends / sizeof full_appends[0]; i++) {
        size_t n = full_appends[i].n;
        struct foldwig_path_result r;
        memcpy(list, full_appends[i].given, n * sizeof list[0]);
        put_lists(0, n, n + one_in(2), n, n + one_in(2));
        r = compare_append(n, full_appends[i].model);
        expect(answers(r, full_appends[i].refusal, full_appends[i].entries, full_appends[i].tests), full_appends[i].what);
        expect(holds_path(0, full_appends[i].path, n, n), full_appends[i].what);
    }
}

// A history: an entry, one that is passed over, one of a smaller size and a smaller weight than that, one that is passed over and
// one that drops.
static void flat_history_figure(void)
{
    static const struct model path[] = {{1, 5, 4}, {3, 0, 6}};
    fresh_lists(0, 2, 2, 2);
    expect(answers(compare_append(0, weighted(1, 5, 4)), 0, 1, 0), "a first append");
    expect(answers(compare_append(1, weighted(3, 5, 9)), 0, 1, 0), "an append that is passed over");
    expect(answers(compare_append(1, weighted(2, 4, 5)), 0, 2, 1), "an append of a smaller size than the one passed over");
    expect(answers(compare_append(2, weighted(65535, 4, 65535)), 0, 2, 0), "a second append that is passed over");
    expect(answers(compare_append(2, weighted(3, 0, 6)), 0, 2, 2) && holds_path(0, path, 2, 2), "an append that drops an entry");
}

// Appends to a path of 4,096 entries whose breakpoints fall, from 8,191 down to 3.
static void full_path_figures(void)
{
    static struct model path[4096];
    for (uint64_t i = 0; i < 4096; i++)
        path[i] = model(i + 1, 100 + (4096 - i) * (4096 - i));
    memcpy(list, path, sizeof path);
    for (size_t places = 4096; places <= 4097; places++) {
        put_models(0, 4096, places);
        expect(answers(compare_append(4096, model(4097, 101)), 0, 4096, 0), "the last loss, to 4,096 entries");
        expect(answers(compare_append(4096, model(65535, 101)), 0, 4096, 0), "the last loss, the largest size, to 4,096 entries");
        expect(answers(compare_append(4096, model(4096, 101)), 6, 0, 0), "the last loss with the last size, to 4,096 entries");
        expect(answers(compare_append(4096, weighted(4097, 101, 4096)), 14, 0, 0), "the last loss and weight, to 4,096 entries");
        expect(answers(compare_append(4096, model(4097, 102)), 7, 0, 0), "a larger loss, to 4,096 entries");
        expect(answers(compare_append(4096, model(4097, 100)), 9, 0, 0), "a smaller loss that drops nothing, to 4,096 entries");
        expect(holds_path(0, path, 4096, 4096), "4,096 entries after appends that leave them");
        expect(answers(compare_append(4096, model(4097, 98)), 0, 4096, 2), "a smaller loss that drops an entry of 4,096");
    }
}

static void flat_figures(void)
{
    flat_build_figures();
    long_flat_figures();
    quadratic_figures();
    full_append_figures();
    flat_history_figure();
    full_path_figures();
}

// ---- Threads

static void build_at_limit(void)
{
    for (int flat = 0; flat < 2; flat++) {
        make_models(4096, TIED);
        if (flat)
            flatten(4096);
        put_models(0, 4096, 4096);
        fresh_lists(3, 4096, 4096, 4096);
        expect(compare_builds().refusal == 0, "a build of 4,096 models on a small stack");
    }
}

static void append_at_limit(void)
{
    make_models(4095, FALLING);
    list[4094].loss += 1;
    for (size_t i = 0; i < 4094; i++)
        list[i].loss += 2 + (4094 - i);
    put_models(0, 4095, 4096);
    expect(compare_append(4095, model(65535, 0)).refusal == 0, "an append to 4,095 entries on a small stack");
}

static void select_at_limit(void)
{
    make_models(4096, FALLING);
    put_models(0, 4096, 4096);
    expect(compare_select(4096, 0, 1).refusal == 0, "a selection from 4,096 entries on a small stack");
}

static void breakpoints_at_limit(void)
{
    make_models(4096, FALLING);
    put_models(0, 4096, 4096);
    fresh(3, 8 * 4096);
    fresh(4, 2 * 4096);
    expect(compare_breakpoints(4096).count == 4095, "4,095 breakpoints on a small stack");
}

static void signal_at_limit(void)
{
    meet_signal_of(512, 32, 1, LARGE_STEPS, 0, 7, 0);
    meet_signal_of(512, 32, 1, SMALL_STEPS, 8, 7, 1);
    meet_signal_of(512, 32, 16, NONE, 0, 7, 0);
    meet_signal_of(512, 32, 512, LARGEST, 0, 7, 0);
}

static void small_stacks(void)
{
    on_small_stack(build_at_limit);
    on_small_stack(append_at_limit);
    on_small_stack(select_at_limit);
    on_small_stack(breakpoints_at_limit);
    on_small_stack(signal_at_limit);
    on_small_stack(stream_at_limit);
}

// What one of two threads works on, and the answer and the bytes that its first call left.
struct worker {
    uint8_t samples[200], weights[64], starts[64], levels[64], scratch[FOLDWIG_SCRATCH_LEN];
    uint8_t path_sizes[64], path_losses[256], path_weights[64];
    uint64_t loss, p;
    uint8_t first_starts[64];
    int same;
};

static struct foldwig_split_result split_of(struct worker *w)
{
    return foldwig_split(w->samples, sizeof w->samples, 32, 1, w->weights, sizeof w->weights, w->p, 1, w->starts, sizeof w->starts,
                         w->levels, sizeof w->levels, w->path_sizes, sizeof w->path_sizes, w->path_losses,
                         sizeof w->path_losses, w->path_weights, sizeof w->path_weights, w->scratch, sizeof w->scratch);
}

static void *work(void *worker)
{
    struct worker *w = worker;
    for (int turn = 0; turn < TURNS; turn++) {
        struct foldwig_split_result r = split_of(w);
        w->same = w->same && r.refusal == 0 && r.loss == w->loss && memcmp(w->starts, w->first_starts, sizeof w->starts) == 0;
    }
    return NULL;
}

// Two threads call at the same time, each with buffers of its own, and get what one alone gets.
static void two_at_once(void)
{
    static struct worker workers[2];
    pthread_t threads[2];
    for (int i = 0; i < 2; i++) {
        struct worker *w = &workers[i];
        draw_samples(0, sizeof w->samples / 2, DRIFT);
        memcpy(w->samples, buffer(0).at, sizeof w->samples);
        lend_weights(32, SMALL_STEPS);
        memcpy(w->weights, buffer(1).at, sizeof w->weights);
        w->p = (uint64_t)(5 + 20 * i);
        w->loss = split_of(w).loss;
        memcpy(w->first_starts, w->starts, sizeof w->starts);
        w->same = 1;
    }
    for (int i = 0; i < 2; i++)
        if (pthread_create(&threads[i], NULL, work, &workers[i]) != 0)
            exit(2);
    for (int i = 0; i < 2; i++) {
        pthread_join(threads[i], NULL);
        expect(workers[i].same, "a split differs while another thread splits");
    }
}

// ---- Lengths over 32 bits

// Makes calls with byte strings of 8 GB and more, of which only a little is looked at. The bytes are all 0 at first.
static void wide_lengths(void)
{
    size_t len = ((size_t)1 << 33) + 16;
    uint8_t small[64] = {0}, scratch[FOLDWIG_SCRATCH_LEN], *a, *b, *c, *all;
    all = mmap(NULL, 3 * len, PROT_READ | PROT_WRITE, MAP_PRIVATE | MAP_ANONYMOUS | MAP_NORESERVE, -1, 0);
    if (all == MAP_FAILED) {
        printf("no address space for lengths over 32 bits: left out\n");
        return;
    }
    b = all;        // at the beginning of a page
    a = all + len;
    c = all + 2 * len;
#define PATH small, 16, small + 16, 16, small + 32, 16
    expect(foldwig_build(a, len, b, len, c, len, PATH).refusal == 2, "a build of 8 GB");
    expect(foldwig_build(NULL, 0, b, len, NULL, 0, PATH).refusal == 2, "a build of 8 GB without sizes and weights");
    expect(foldwig_build(NULL, 0, NULL, 0, c, len, PATH).refusal == 2, "a build of 8 GB of weights");
    expect(foldwig_build(a, len, b, len, c, len - 1, PATH).refusal == 11, "a build of 8 GB without a byte");
    expect(foldwig_build_quadratic(a, len, b, len, c, len, PATH).refusal == 2, "a quadratic build of 8 GB");
    expect(foldwig_build_quadratic(NULL, 0, b, len, NULL, 0, PATH).refusal == 2,
           "a quadratic build of 8 GB without sizes and weights");
    expect(foldwig_build_quadratic(NULL, 0, NULL, 0, c, len, PATH).refusal == 2, "a quadratic build of 8 GB of weights");
    expect(foldwig_build_quadratic(a, len, b, len, c, len - 1, PATH).refusal == 11, "a quadratic build of 8 GB without a byte");
    expect(foldwig_signal_path(a, len, 4, 1, NULL, 0, PATH, scratch, sizeof scratch).refusal == 2, "a signal of 8 GB");
    expect(foldwig_signal_path(small, 2, 4, 1, c, len, PATH, scratch, sizeof scratch).refusal == 5, "weights of 8 GB");
    expect(foldwig_select(a, len, b, len, c, len, ((uint64_t)1 << 32) + 1, 1, 1).refusal == 8, "a path of 2^32 + 1 entries");
    expect(foldwig_select(a, len, b, len, c, len, 0, 1, 1).refusal == 10, "an empty path in 8 GB");
    expect(foldwig_append(a, len, b, len, c, len, 0, 513, 7, 258).entries == 1 && a[0] == 1 && a[1] == 2 && b[0] == 7 &&
               c[0] == 2 && c[1] == 1,
           "an append in 8 GB");
    expect(foldwig_append(a, len, b, len, c, len, 1, 600, 3, 300).entries == 2 && a[2] == 88 && b[8] == 3 && c[2] == 44,
           "a second append in 8 GB");
    expect(foldwig_breakpoints(a, len, b, len, c, len, 2, small, 8, small + 8, 2).count == 1 && small[0] == 4 && small[8] == 42,
           "the breakpoint of a path in 8 GB");
    mprotect(b + FOLDWIG_TABLE_LEN, ((size_t)1 << 33) - FOLDWIG_TABLE_LEN, PROT_NONE);      // as a table it is not touched there
    expect(foldwig_extend(a, len, 7, 1, b, len, PATH).refusal == 2, "an extension of 8 GB of samples");
    expect(foldwig_extend(a, 0, 7, 1, b, len, PATH).entries == 1 && b[0] == 0 && b[4096] == 255, "an extension of a table in 8 GB");
    expect(foldwig_split_from(a, len, 1, 1, 1, b, len, small, 2, small + 16, 2).refusal == 2, "a split of 8 GB of samples");
    expect(foldwig_split_from(a, 2, 1, 1, 1, b, len, small, 2, small + 16, 2).segments == 1, "a split from a table in 8 GB");
#undef PATH
    munmap(all, 3 * len);
}

int main(int argc, char **argv)
{
    uint64_t seed = argc > 1 ? strtoull(argv[1], NULL, 10) : 20221110;
    setvbuf(stdout, NULL, _IOLBF, 0);
    printf("seed %llu\n", (unsigned long long)seed);
    seed_random(seed);
    map_buffers();
    path_figures();
    weight_figures();
    split_figures();
    weight_split_figures();
    level_figures();
    flat_figures();
    largest_numbers();
    stream_figures();
    unequal_lists();
    every_neighbour();
    every_signal_weight();
    many_weights();
    meet_append();
    meet_build();
    meet_select();
    meet_breakpoints();
    meet_streams();
    meet_signals();
    random_builds(60000);
    random_lists(30000);
    random_histories(6000);
    short_signals(80000);
    every_min_segment_len(4000);
    long_signals(3000, 40);
    long_signals(150, 512);
    uneven_signals(160);
    sizes_as_weights(3000);
    full_paths();
    unequal_long_lists();
    long_quadratic_figures();
    growing_signals(250, 40);
    growing_signals(5, 512);
    other_tables(20000);
    small_stacks();
    two_at_once();
    wide_lengths();
    return summary();
}
