// The reference. Its tables are static, so that it needs little stack; one thread at a time may use it.
#include "reference.h"
#include <string.h>

enum { MAX_SAMPLES = 512, MAX_SEGMENTS = 32, MAX_MODELS = 4096, MAX_TRIED = 12, ROWS = 16, TABLE_BYTES = 65536 };

static const uint64_t TWO_44 = (uint64_t)1 << 44;

size_t reference_tries_up_to = 9;
unsigned long reference_uneven = 0;

// ---- Items of byte strings

static size_t byte_place(size_t width, size_t i, size_t j)
{
    return FAULT == 7 ? i * width + (width - 1 - j) : i * width + j;
}

uint64_t get_item(struct bytes b, size_t width, size_t i)
{
    uint64_t value = 0;
    for (size_t j = 0; j < width; j++)
        value += (uint64_t)b.at[byte_place(width, i, j)] << (8 * j);
    return value;
}

int64_t get_signed(struct bytes b, size_t i)
{
    int64_t value = (int64_t)get_item(b, 2, i);
    return value < 32768 ? value : value - 65536;
}

void put_item(struct bytes b, size_t width, size_t i, uint64_t value)
{
    for (size_t j = 0; j < width; j++)
        b.at[byte_place(width, i, j)] = (uint8_t)(value >> (8 * j));
}

static size_t smaller(size_t a, size_t b)
{
    return a < b ? a : b;
}

static size_t larger(size_t a, size_t b)
{
    return a < b ? b : a;
}

// How many items each of three lists has. A planted fault leaves the weights out.
static size_t places(struct lists l, int fault)
{
    size_t both = smaller(l.sizes.len / 2, l.losses.len / 8);
    return FAULT == fault ? both : smaller(both, l.weights.len / 2);
}

// ---- Causes

static unsigned cause_if(int number, int holds)
{
    return holds ? 1u << number : 0;
}

static int holds(unsigned causes, int number)
{
    return (causes >> number & 1) != 0;
}

// The first number of an order whose cause holds, or 0. An order ends with 0.
static uint64_t first_of(unsigned causes, const int *order)
{
    if (FAULT != 11 && holds(causes, 11))
        return 11;
    for (; *order != 0; order++)
        if (holds(causes, *order))
            return (uint64_t)*order;
    return FAULT == 11 && holds(causes, 11) ? 11 : 0;
}

static int odd_length(struct bytes b, size_t width)
{
    return b.len % width != 0;
}

static int odd_lists(struct lists l)
{
    return odd_length(l.sizes, 2) || odd_length(l.losses, 8) || (odd_length(l.weights, 2) && FAULT != 107);
}

static int bad_penalty(uint64_t p, uint64_t q)
{
    return p > TWO_44 || q == 0 || q > 65535;
}

static int bad_weight(uint64_t weight)
{
    return (weight == 0 && FAULT != 85) || weight > (FAULT == 84 ? 65534 : 65535);
}

static int bad_model(struct model m)
{
    return m.size == 0 || m.size > 65535 || m.loss > TWO_44 || (FAULT == 18 && m.loss == TWO_44) || bad_weight(m.weight);
}

// ---- Penalties

struct fraction {
    uint64_t numerator;
    uint64_t denominator;
};

static int less(struct fraction a, struct fraction b)
{
    return a.numerator * b.denominator < b.numerator * a.denominator;
}

// The penalty at which two models cost the same; the second one has the larger weight and no larger loss.
static struct fraction between(struct model a, struct model b)
{
    struct fraction f = {a.loss - b.loss, b.weight - a.weight};
    return f;
}

// The planted faults that go by sizes: the model with its size for its weight.
static struct model by_size(struct model m)
{
    m.weight = m.size;
    return m;
}

// Model j is strictly cheaper than a lighter one with a larger loss below the breakpoint of the two, and than a heavier one with
// no larger loss above it. Than any other with a larger loss it is always cheaper, and than the rest never. So it can win if
// there is no such rest and the least breakpoint with a lighter model is above the greatest with a heavier one.
int can_win(const struct model *models, size_t n, size_t j)
{
    struct fraction high = {1, 0};
    struct fraction low = {0, 1};
    struct model m = FAULT == 76 ? by_size(models[j]) : models[j];
    for (size_t i = 0; i < n; i++) {
        struct model other = FAULT == 76 ? by_size(models[i]) : models[i];
        if (i == j || (other.weight >= m.weight && other.loss > m.loss))
            continue;
        if (other.weight > m.weight) {
            struct fraction f = between(m, other);
            low = less(low, f) ? f : low;
        } else if (other.loss > m.loss) {
            struct fraction f = between(other, m);
            high = less(f, high) ? f : high;
        } else {
            return 0;
        }
    }
    return FAULT == 1 ? !less(high, low) : less(low, high);
}

static uint64_t cost(struct model m, uint64_t p, uint64_t q)
{
    return q * m.loss + p * m.weight;
}

// Whether a model is to be taken instead of another: it costs less, or as much at a smaller size.
static int better(struct model a, struct model b, uint64_t p, uint64_t q)
{
    if (cost(a, p, q) != cost(b, p, q))
        return cost(a, p, q) < cost(b, p, q);
    return FAULT == 2 ? a.size > b.size : a.size < b.size;
}

size_t cheapest(const struct model *models, size_t n, uint64_t p, uint64_t q)
{
    size_t best = 0;
    for (size_t i = 1; i < n; i++)
        if (better(models[i], models[best], p, q))
            best = i;
    return best;
}

// A model is passed over if its loss is that of the one before it, which is the last entry or was passed over itself.
size_t not_passed_over(const struct model *models, size_t n)
{
    size_t count = 0;
    for (size_t i = 0; i < n; i++)
        count += i == 0 || models[i].loss < models[i - 1].loss || FAULT == 28;
    return count;
}

// ---- Paths

static struct model models[MAX_MODELS + 1];     // the models of a build, or the entries of a path
static struct model path[MAX_MODELS + 1];       // the path that a call makes

static struct model model_at(struct lists l, size_t i)
{
    struct model m = {get_item(l.sizes, 2, i), get_item(l.losses, 8, i), get_item(l.weights, 2, i)};
    return m;
}

// Puts the path's entries to the front of three buffers, and zeros from their end to another.
static void put_path(struct lists to, size_t entries, size_t end)
{
    if (FAULT == 6 && end > 0)
        end--;
    for (size_t i = 0; i < larger(entries, end); i++) {
        struct model zero = {0, 0, 0}, m = i < entries ? path[i] : zero;
        put_item(to.sizes, 2, i, m.size);
        put_item(to.losses, 8, i, m.loss);
        if (i < entries || FAULT != 92)
            put_item(to.weights, 2, i, m.weight);
    }
}

// Makes the path of n models, those passed over included, from those that can win, and answers its number of entries.
static size_t winners(size_t n)
{
    size_t entries = 0;
    for (size_t j = 0; j < n; j++)
        if (can_win(models, n, j))
            path[entries++] = models[j];
    return entries;
}

// Reads a lent path into models; the cause of 8 holds if this can't be done.
static int bad_path(struct lists l, uint64_t entries)
{
    if (entries > places(l, 91) || entries > MAX_MODELS)
        return 1;
    for (size_t i = 0; i < entries; i++) {
        models[i] = model_at(l, i);
        if (bad_model(models[i]))
            return 1;
        if (i > 0 && (models[i].size <= models[i - 1].size || models[i].loss >= models[i - 1].loss))
            return 1;
        if (i > 0 && models[i].weight <= models[i - 1].weight && FAULT != 90)
            return 1;
    }
    return 0;
}

// Whether the test of a new model holds at an entry.
static int test_holds(size_t entry, struct model new_model)
{
    struct fraction candidate, before;
    if (entry == 0)
        return 1;
    candidate = between(models[entry], new_model);
    before = between(models[entry - 1], models[entry]);
    if (FAULT == 77) {
        candidate = between(by_size(models[entry]), by_size(new_model));
        before = between(by_size(models[entry - 1]), by_size(models[entry]));
    }
    return FAULT == 1 ? !less(before, candidate) : less(candidate, before);
}

// How many of so many entries stay when a model is appended: those up to the last one at which the test holds.
static size_t staying(size_t entries, struct model new_model)
{
    size_t stay = 0;
    for (size_t i = 0; i < entries; i++)
        if (test_holds(i, new_model))
            stay = i + 1;
    return stay;
}

// Whether a new weight is not above the last entry's.
static int weight_stays(struct model m, struct model last)
{
    if (FAULT == 83)
        return m.weight < last.weight;
    return m.weight <= last.weight && !(FAULT == 86 && m.loss == last.loss);
}

// The causes that a new model has beside the last entry, which is null if there is none.
static unsigned model_causes(struct model m, const struct model *last)
{
    int equal = last && m.loss == last->loss;
    unsigned causes = cause_if(5, bad_model(m)) | cause_if(6, last && m.size <= last->size && !(FAULT == 29 && equal));
    causes |= cause_if(14, last && weight_stays(m, *last));
    return causes | cause_if(7, last && (m.loss > last->loss || (FAULT == 24 && equal)));
}

// Whether an append of a model that is not refused with 8, 5, 6, 14 or 7 passes it over. The entries are in models.
static int passed_over(uint64_t entries, struct model m)
{
    return FAULT != 32 && entries > 0 && m.loss == models[entries - 1].loss;
}

// The causes of an append. After a bad path or with a bad model no entry counts as dropped.
static unsigned append_causes(struct lists to, uint64_t entries, struct model m)
{
    size_t room = smaller(places(to, 91), MAX_MODELS);
    unsigned causes = cause_if(8, bad_path(to, entries));
    int full = entries >= room;
    if (entries > 0 && entries <= places(to, 91)) {
        struct model last = model_at(to, entries - 1);
        causes |= model_causes(m, &last);
    } else {
        causes |= model_causes(m, NULL);
    }
    if (causes == 0 && passed_over(entries, m))
        full = FAULT == 27 && full;
    else if (causes == 0 && FAULT != 14)
        full = staying(entries, m) >= room;
    return causes | cause_if(9, full) | cause_if(11, odd_lists(to));
}

struct foldwig_path_result reference_append(struct lists to, uint64_t entries, struct model m, unsigned *causes)
{
    static const int right[] = {8, 5, 6, 14, 7, 9, 0};
    static const int model_first[] = {5, 8, 6, 14, 7, 9, 0};
    static const int weight_last[] = {8, 5, 6, 7, 14, 9, 0}, weight_first[] = {8, 5, 14, 6, 7, 9, 0};
    struct foldwig_path_result r = {0, 0, 0};
    size_t stay;
    *causes = append_causes(to, entries, m);
    r.refusal = first_of(*causes, FAULT == 21   ? model_first
                                  : FAULT == 81 ? weight_last
                                  : FAULT == 82 ? weight_first
                                                : right);
    if (r.refusal != 0)
        return r;
    if (passed_over(entries, m)) {
        r.entries = entries;
        r.tests = FAULT == 26;
        return r;
    }
    stay = staying(entries, m);
    memcpy(path, models, stay * sizeof path[0]);
    path[stay] = m;
    put_path(to, stay + 1, entries);
    r.entries = stay + 1;
    r.tests = entries == 0 ? 0 : entries - stay + 1;
    if (FAULT == 12 && stay == 1)
        r.tests--;
    return r;
}

// The number of models of a build: that of its longest list.
static size_t model_count(struct lists given)
{
    size_t longer = larger(given.sizes.len / 2, given.losses.len / 8);
    return FAULT == 17 ? places(given, 91) : FAULT == 88 ? longer : larger(longer, given.weights.len / 2);
}

// Whether a model of a build lacks its size, its loss or its weight.
static int lacking(struct lists given, size_t i)
{
    return i >= given.sizes.len / 2 || i >= given.losses.len / 8 || (i >= given.weights.len / 2 && FAULT != 89);
}

// A model of a build that lacks nothing.
static struct model given_model(struct lists given, size_t i)
{
    struct model m = {get_item(given.sizes, 2, i), get_item(given.losses, 8, i), 0};
    m.weight = i < given.weights.len / 2 ? get_item(given.weights, 2, i) : m.size;
    return m;
}

// The causes of one of the models of a build. Of those before it the last one that was not passed over is handed over and, if the
// model itself is not passed over, replaced by it.
static unsigned build_model_causes(struct lists given, size_t i, struct model *last)
{
    struct model m;
    unsigned causes;
    if (lacking(given, i))
        return 1u << 5;
    m = given_model(given, i);
    causes = model_causes(m, i == 0 ? NULL : last);
    if (i == 0 || m.loss != last->loss || FAULT == 25)
        *last = m;
    else if (FAULT == 87)
        last->weight = m.weight;
    return causes;
}

// The causes of the first bad one of n models.
static unsigned first_bad_causes(struct lists given, size_t n)
{
    struct model last = {0, 0, 0};
    unsigned all = 0;
    for (size_t i = 0; i < n; i++) {
        unsigned causes = build_model_causes(given, i, &last);
        if (causes != 0 && FAULT != 16)
            return causes;
        all |= causes;
    }
    return all;
}

// The causes of a build of n models other than that of 9.
static unsigned build_causes(struct lists given, size_t n, struct lists to)
{
    unsigned causes = cause_if(11, odd_lists(given) || odd_lists(to));
    return causes | cause_if(1, n == 0) | cause_if(2, n > MAX_MODELS) | first_bad_causes(given, n);
}

// Reads the models of a build.
static void read_models(struct lists given, size_t n)
{
    for (size_t i = 0; i < n; i++)
        models[i] = given_model(given, i);
}

struct foldwig_path_result reference_build(struct lists given, struct lists to, unsigned *causes)
{
    static const int right[] = {1, 2, 5, 6, 14, 7, 9, 0};
    static const int weight_last[] = {1, 2, 5, 6, 7, 14, 9, 0}, weight_first[] = {1, 2, 5, 14, 6, 7, 9, 0};
    struct foldwig_path_result r = {0, 0, 0};
    size_t n = model_count(given), room = places(to, 91), tried;
    *causes = build_causes(given, n, to) | cause_if(9, FAULT != 8 && FAULT != 30 && room < n);
    r.refusal = first_of(*causes, FAULT == 81 ? weight_last : FAULT == 82 ? weight_first : right);
    if (r.refusal != 0)
        return r;
    read_models(given, n);
    r.entries = winners(n);
    tried = not_passed_over(models, n);
    if ((FAULT == 8 && room < r.entries) || (FAULT == 30 && room < tried)) {
        r.refusal = 9;
        r.entries = 0;
        return r;
    }
    r.tests = 2 * tried - 1 - r.entries;
    if (FAULT == 12 && tried > 1)
        r.tests--;
    if (FAULT == 26)
        r.tests += n - tried;
    put_path(to, r.entries, smaller(FAULT == 31 ? tried : n, room));
    return r;
}

// ---- The quadratic build

static struct model kept[MAX_MODELS];               // the models that are not passed over: sizes and weights rise, losses fall
static struct fraction to_larger[MAX_MODELS];       // the greatest slope from each of them to a larger one
static struct fraction from_smaller[MAX_MODELS];    // the least slope to each of them from a smaller one

// Keeps those of n models that are not passed over, and answers their number.
static size_t keep(const struct model *given, size_t n)
{
    size_t count = 0;
    for (size_t i = 0; i < n; i++)
        if (count == 0 || given[i].loss < kept[count - 1].loss || FAULT == 60)
            kept[count++] = given[i];
    return count;
}

// Takes the slope between each two of n kept models once, for both of them. A slope is the difference of the losses over that of
// the weights. With no larger model the greatest slope is 0, and with no smaller one the least slope is above every number.
static void take_slopes(size_t n)
{
    for (size_t i = 0; i < n; i++) {
        struct fraction zero = {0, 1}, above_all = {1, 0};
        to_larger[i] = zero;
        from_smaller[i] = above_all;
    }
    for (size_t small = 0; small < n; small++)
        for (size_t large = small + 1; large < n; large++) {
            struct fraction slope = between(kept[small], kept[large]);
            if (FAULT == 78)
                slope = between(by_size(kept[small]), by_size(kept[large]));
            if (less(to_larger[small], slope))
                to_larger[small] = slope;
            if (less(slope, from_smaller[large]))
                from_smaller[large] = slope;
        }
}

// The entry below the present one in a walk with a planted fault: a smaller size, by the breakpoint of the two.
static size_t next_wrongly(size_t present)
{
    struct fraction best = {0, 1};
    size_t next = present;
    for (size_t i = 0; i < present; i++) {
        struct fraction f = between(kept[i], kept[present]);
        if (kept[i].size >= kept[present].size)
            continue;
        if (next == present || (FAULT == 58 ? less(best, f) : FAULT == 57 ? !less(best, f) : less(f, best))) {
            best = f;
            next = i;
        }
    }
    return next;
}

// The planted faults 57 to 61: the older method, from the largest of n kept sizes down to the smallest, with one thing wrong.
static size_t walk_wrongly(size_t n, struct model *made)
{
    static size_t walked[MAX_MODELS];
    size_t entries = 0, present = FAULT == 59 && n > 1 ? n - 2 : n - 1;
    for (; present > 0; present = next_wrongly(present))
        walked[entries++] = present;
    if (FAULT != 61 || entries == 0)
        walked[entries++] = 0;
    for (size_t i = 0; i < entries; i++)
        made[i] = kept[walked[entries - 1 - i]];
    return entries;
}

size_t path_by_slopes(const struct model *given, size_t n, struct model *made)
{
    size_t count = keep(given, n), entries = 0;
    if (FAULT >= 57 && FAULT <= 61)
        return walk_wrongly(count, made);
    take_slopes(count);
    for (size_t i = 0; i < count; i++)
        if (less(to_larger[i], from_smaller[i]))
            made[entries++] = kept[i];
    return entries;
}

struct foldwig_path_result reference_build_quadratic(struct lists given, struct lists to, unsigned *causes)
{
    static const int right[] = {1, 2, 5, 6, 14, 7, 9, 0};
    static const int room_first[] = {1, 2, 9, 5, 6, 14, 7, 0}, models_first[] = {1, 5, 6, 14, 7, 2, 9, 0};
    static const int weight_last[] = {1, 2, 5, 6, 7, 14, 9, 0}, weight_first[] = {1, 2, 5, 14, 6, 7, 9, 0};
    struct foldwig_path_result r = {0, 0, 0};
    size_t n = model_count(given), room = places(to, 91), end = n;
    *causes = build_causes(given, n, to) | cause_if(9, FAULT != 67 && room < n);
    r.refusal = first_of(*causes, FAULT == 65   ? room_first
                                  : FAULT == 66 ? models_first
                                  : FAULT == 81 ? weight_last
                                  : FAULT == 82 ? weight_first
                                                : right);
    if (r.refusal != 0)
        return r;
    read_models(given, n);
    r.entries = path_by_slopes(models, n, path);
    if (FAULT == 67 && room < r.entries) {
        r.refusal = 9;
        r.entries = 0;
        return r;
    }
    if (FAULT == 62)
        r.tests = 2 * not_passed_over(models, n) - 1 - r.entries;
    if (FAULT == 63 || FAULT == 64)
        end = FAULT == 63 ? n + 1 : r.entries;
    put_path(to, r.entries, smaller(end, room));
    return r;
}

// ---- Selecting

struct foldwig_select_result reference_select(struct lists from, uint64_t entries, uint64_t p, uint64_t q, unsigned *causes)
{
    static const int right[] = {8, 10, 4, 0};
    static const int wrong[] = {8, 4, 10, 0};
    struct foldwig_select_result r = {0, 0, 0, 0, 0};
    *causes = cause_if(11, odd_lists(from)) | cause_if(8, bad_path(from, entries));
    *causes |= cause_if(10, entries == 0) | cause_if(4, bad_penalty(p, q));
    r.refusal = first_of(*causes, FAULT == 9 ? wrong : right);
    if (r.refusal != 0)
        return r;
    for (size_t i = 0; i < entries && FAULT == 79; i++)
        models[i] = by_size(models[i]);
    while (r.index + 1 < entries && better(models[r.index + 1], models[r.index], p, q))
        r.index++;
    if (FAULT == 23)
        r.index = cheapest(models, entries, p, q);
    r.size = models[r.index].size;
    r.loss = models[r.index].loss;
    r.weight = get_item(from.weights, 2, r.index);
    return r;
}

static uint64_t common_divisor(uint64_t a, uint64_t b)
{
    return b == 0 ? a : common_divisor(b, a % b);
}

struct foldwig_breakpoints_result reference_breakpoints(struct lists from, uint64_t entries, struct bytes numerators,
                                                        struct bytes denominators, unsigned *causes)
{
    static const int order[] = {8, 9, 0};
    struct foldwig_breakpoints_result r = {0, 0};
    uint64_t count = entries == 0 ? 0 : entries - 1;
    *causes = cause_if(11, odd_lists(from) || odd_length(numerators, 8) || odd_length(denominators, 2));
    *causes |= cause_if(8, bad_path(from, entries));
    *causes |= cause_if(9, smaller(numerators.len / 8, denominators.len / 2) < count);
    r.refusal = first_of(*causes, order);
    if (r.refusal != 0)
        return r;
    for (size_t i = 0; i < count; i++) {
        struct fraction f = between(models[i], models[i + 1]);
        if (FAULT == 75)
            f = between(by_size(models[i]), by_size(models[i + 1]));
        uint64_t by = FAULT == 15 ? common_divisor(f.numerator, f.denominator) : 1;
        put_item(numerators, 8, i, f.numerator / by);
        put_item(denominators, 2, i, f.denominator / by);
    }
    r.count = count;
    return r;
}

// ---- Segments

static int64_t samples_of[MAX_SAMPLES];         // the signal, from place 0 on

// The whole number nearest to a mean, the lower one of two.
static int64_t nearest(int64_t sum, int64_t n)
{
    int64_t best = sum / n - 1;
    if (FAULT == 3 && sum < 0)
        return sum / n + (2 * (sum % n) > n);
    for (int64_t level = best + 1; level <= sum / n + 1; level++) {
        int64_t far = n * level > sum ? n * level - sum : sum - n * level;
        int64_t best_far = n * best > sum ? n * best - sum : sum - n * best;
        if (far < best_far || (FAULT == 4 && far == best_far))
            best = level;
    }
    return best;
}

static int64_t level_of(size_t first, size_t last)
{
    int64_t sum = 0;
    for (size_t i = first; i <= last; i++)
        sum += samples_of[i];
    return nearest(sum, (int64_t)(last - first + 1));
}

// The loss of a segment at a level.
static int64_t loss_at(size_t first, size_t last, int64_t level)
{
    int64_t loss = 0;
    for (size_t i = first; i <= last; i++)
        loss += (samples_of[i] - level) * (samples_of[i] - level);
    return loss;
}

// The least loss of a segment of a short signal. If its samples are near each other, every level between them is tried.
static int64_t tried_loss(size_t first, size_t last)
{
    int64_t low = samples_of[first], high = low, least;
    for (size_t i = first; i <= last; i++) {
        low = samples_of[i] < low ? samples_of[i] : low;
        high = samples_of[i] > high ? samples_of[i] : high;
    }
    least = loss_at(first, last, level_of(first, last));
    if (high - low > 100 || FAULT == 3)
        return least;
    least = loss_at(first, last, low);
    for (int64_t level = low + 1; level <= high; level++)
        if (loss_at(first, last, level) < least)
            least = loss_at(first, last, level);
    return least;
}

// ---- Segmentations. Place k of these two holds the one into k segments.

static int64_t least_loss[MAX_SEGMENTS + 1];
static uint16_t given_starts[MAX_SEGMENTS + 1][MAX_SEGMENTS];

// The places at which the segments of a cutting start, from 0 on. Bit i of the mask cuts before place i + 1.
static size_t starts_of_mask(unsigned mask, size_t n, uint16_t *starts)
{
    size_t count = 0;
    starts[count++] = 0;
    for (size_t i = 1; i < n; i++)
        if (mask >> (i - 1) & 1)
            starts[count++] = (uint16_t)i;
    return count;
}

// Whether, from the last start back, the first difference of two lists of starts has the earlier start in the first list.
static int earlier(const uint16_t *a, const uint16_t *b, size_t count)
{
    while (count > 0) {
        count--;
        if (a[count] != b[count])
            return FAULT == 5 ? a[count] > b[count] : a[count] < b[count];
    }
    return 0;
}

// Whether every segment of a cutting has so many samples.
static int long_enough(const uint16_t *starts, size_t count, size_t n, size_t min_segment_len)
{
    for (size_t s = 0; s < count; s++)
        if ((s + 1 < count ? starts[s + 1] : n) - starts[s] < min_segment_len)
            return 0;
    return 1;
}

// The loss and the number of segments of each segmentation that was tried and counts, and how many they are.
static struct {
    int64_t loss;
    size_t count;
} cuttings[1 << (MAX_TRIED - 1)];
static size_t cutting_count;

// Tries all segmentations of a short signal into up to so many segments of so many samples or more.
static void try_all(size_t n, size_t largest, size_t min_segment_len)
{
    static int64_t loss[MAX_TRIED][MAX_TRIED];
    cutting_count = 0;
    for (size_t i = 0; i < n; i++)
        for (size_t j = i; j < n; j++)
            loss[i][j] = tried_loss(i, j);
    for (size_t k = 1; k <= largest; k++)
        least_loss[k] = INT64_MAX;
    for (unsigned mask = 0; mask < 1u << (n - 1); mask++) {
        uint16_t starts[MAX_TRIED];
        size_t count = starts_of_mask(mask, n, starts);
        int64_t sum = 0;
        for (size_t s = 0; s < count; s++)
            sum += loss[starts[s]][s + 1 < count ? (size_t)starts[s + 1] - 1 : n - 1];
        if (count > largest || !long_enough(starts, count, n, min_segment_len))
            continue;
        cuttings[cutting_count].loss = sum;
        cuttings[cutting_count++].count = count;
        if (sum < least_loss[count] || (sum == least_loss[count] && earlier(starts, given_starts[count], count))) {
            least_loss[count] = sum;
            memcpy(given_starts[count], starts, count * sizeof starts[0]);
        }
    }
}

static int64_t segment_loss[MAX_SAMPLES][MAX_SAMPLES];              // of the segment from one place to another
static int64_t least_to[MAX_SEGMENTS + 1][MAX_SAMPLES];             // of so many segments that end at a place
static uint16_t last_start[MAX_SEGMENTS + 1][MAX_SAMPLES];          // of so many segments that end at a place

static void fill_segment_losses(size_t n)
{
    for (size_t i = 0; i < n; i++) {
        int64_t sum = 0, squares = 0;
        for (size_t j = i; j < n; j++) {
            int64_t count = (int64_t)(j - i + 1), level;
            sum += samples_of[j];
            squares += samples_of[j] * samples_of[j];
            level = nearest(sum, count);
            segment_loss[i][j] = squares - 2 * level * sum + count * level * level;
        }
    }
}

// Finds the start of the last of k segments of so many samples or more that end at a place, the earliest of the best ones.
static void fill_place(size_t k, size_t end, size_t min_segment_len)
{
    least_to[k][end] = INT64_MAX;
    for (size_t start = (k - 1) * min_segment_len; start + min_segment_len <= end + 1; start++) {
        int64_t sum = least_to[k - 1][start - 1] + segment_loss[start][end];
        if (sum < least_to[k][end] || (FAULT == 5 && sum == least_to[k][end])) {
            least_to[k][end] = sum;
            last_start[k][end] = (uint16_t)start;
        }
    }
}

// Finds the least losses and the starts of a signal of any length by dynamic programming.
static void programme(size_t n, size_t largest, size_t min_segment_len)
{
    fill_segment_losses(n);
    for (size_t end = 0; end < n; end++) {
        least_to[1][end] = segment_loss[0][end];
        last_start[1][end] = 0;
    }
    for (size_t k = 2; k <= largest; k++)
        for (size_t end = k * min_segment_len - 1; end < n; end++)
            fill_place(k, end, min_segment_len);
    for (size_t k = 1; k <= largest; k++) {
        size_t end = n - 1;
        least_loss[k] = least_to[k][n - 1];
        for (size_t s = k; s > 0; s--) {
            given_starts[k][s - 1] = last_start[s][end];
            end = (size_t)last_start[s][end] - 1;
        }
    }
}

static int64_t loss_of(size_t first, size_t last)
{
    return loss_at(first, last, level_of(first, last));
}

// The loss of k segments over n samples with the starts given.
static int64_t loss_of_starts(size_t k, size_t n)
{
    int64_t sum = 0;
    for (size_t s = 0; s < k; s++) {
        size_t last = s + 1 < k ? (size_t)given_starts[k][s + 1] - 1 : n - 1;
        sum += loss_of(given_starts[k][s], last);
    }
    return sum;
}

// Puts a start among those of the size below, in order.
static void add_start(size_t k, size_t start)
{
    size_t at = k - 1;
    memcpy(given_starts[k], given_starts[k - 1], (k - 1) * sizeof given_starts[k][0]);
    while (at > 0 && given_starts[k][at - 1] > start) {
        given_starts[k][at] = given_starts[k][at - 1];
        at--;
    }
    given_starts[k][at] = (uint16_t)start;
}

static int is_start(size_t k, size_t start)
{
    for (size_t s = 0; s < k; s++)
        if (given_starts[k][s] == start)
            return 1;
    return 0;
}

// The planted fault 20: each size adds the best cut to those of the size below.
static void cut_greedily(size_t n, size_t largest)
{
    given_starts[1][0] = 0;
    least_loss[1] = loss_of_starts(1, n);
    for (size_t k = 2; k <= largest; k++) {
        size_t best = 0;
        least_loss[k] = INT64_MAX;
        for (size_t start = 1; start < n; start++) {
            if (is_start(k - 1, start))
                continue;
            add_start(k, start);
            if (loss_of_starts(k, n) < least_loss[k]) {
                least_loss[k] = loss_of_starts(k, n);
                best = start;
            }
        }
        add_start(k, best);
    }
}

// ---- Calls on signals

// Whether a weight lent with a signal is out of range.
static int weight_out_of_range(struct bytes weights, uint64_t max_segments)
{
    for (size_t i = 0; i < weights.len / 2 && (i < max_segments || FAULT != 95); i++)
        if (bad_weight(get_item(weights, 2, i)))
            return 1;
    return 0;
}

// Whether the weights lent with a signal of n samples do not rise, or are not as many as are due.
static int weights_do_not_fit(struct bytes weights, uint64_t max_segments, size_t n)
{
    size_t count = weights.len / 2;
    if (count == 0)
        return FAULT == 101;
    if (FAULT == 96 && max_segments > n)
        max_segments = n;
    if (FAULT == 102 ? count < max_segments : count != max_segments)
        return 1;
    for (size_t i = 1; i < count && (i < n || FAULT != 97); i++) {
        uint64_t before = get_item(weights, 2, i - 1), weight = get_item(weights, 2, i);
        if (weight < before || (weight == before && FAULT != 98))
            return 1;
    }
    return 0;
}

// The causes that both calls on signals have.
static unsigned signal_causes(struct bytes samples, uint64_t max_segments, uint64_t min_segment_len, struct bytes weights,
                              struct lists to, struct bytes scratch)
{
    size_t n = samples.len / 2;
    uint64_t largest = max_segments < n ? max_segments : n;
    size_t most = FAULT == 19 ? MAX_SAMPLES - 1 : MAX_SAMPLES;
    unsigned causes = cause_if(11, odd_length(samples, 2) || (odd_length(weights, 2) && FAULT != 93) || odd_lists(to));
    causes |= cause_if(1, n == 0) | cause_if(2, n > most) | cause_if(3, max_segments == 0 || max_segments > 32);
    causes |= cause_if(13, min_segment_len == 0 || min_segment_len > (FAULT == 69 && n > 1 ? n - 1 : n));
    causes |= cause_if(5, weight_out_of_range(weights, max_segments)) | cause_if(14, weights_do_not_fit(weights, max_segments, n));
    if (FAULT == 74 && min_segment_len > 1)
        largest = smaller(n / (size_t)min_segment_len, (size_t)largest);
    return causes | cause_if(9, places(to, 105) < largest || scratch.len < 31744);
}

static void read_samples(struct bytes samples)
{
    for (size_t i = 0; i < samples.len / 2; i++)
        samples_of[i] = get_signed(samples, i);
}

// Whether a loss is above that of the size before, and a later one below all before it.
static int uneven(size_t largest)
{
    int risen = 0;
    int64_t least = INT64_MAX;
    for (size_t k = 1; k <= largest; k++) {
        risen |= k > 1 && least_loss[k] > least_loss[k - 1];
        if (risen && least_loss[k] < least)
            return 1;
        if (least_loss[k] < least)
            least = least_loss[k];
    }
    return 0;
}

// The weight of a size.
static uint64_t weight_of(struct bytes weights, size_t size)
{
    return weights.len == 0 ? size : get_item(weights, 2, size - 1);
}

// Segments a signal and makes its models, of which it answers the number.
static size_t make_models(struct bytes samples, uint64_t max_segments, uint64_t min_segment_len, struct bytes weights)
{
    size_t n = samples.len / 2, largest;
    if (FAULT == 68)
        min_segment_len = 1;
    if (FAULT == 73 && min_segment_len > 1)
        min_segment_len--;
    largest = smaller(n / (size_t)min_segment_len, (size_t)max_segments);
    read_samples(samples);
    if (FAULT == 20)
        cut_greedily(n, largest);
    else if (n <= reference_tries_up_to)
        try_all(n, largest, (size_t)min_segment_len);
    else
        programme(n, largest, (size_t)min_segment_len);
    for (size_t k = 1; k <= largest; k++) {
        models[k - 1].size = k;
        models[k - 1].loss = (uint64_t)least_loss[k];
        models[k - 1].weight = weight_of(weights, k);
    }
    reference_uneven += uneven(largest);
    return largest;
}

// Makes the path of a signal from its models, and answers its number of entries.
static size_t signal_winners(size_t largest)
{
    size_t entries = winners(largest);
    if (FAULT == 10 && largest > 1 && models[largest - 1].loss == models[largest - 2].loss)
        path[entries++] = models[largest - 1];
    for (size_t i = 0; i < entries && FAULT == 103; i++)
        path[i] = by_size(path[i]);
    return entries;
}

static void clear_scratch(struct bytes scratch)
{
    memset(scratch.at, 0, FAULT == 13 ? 31744 : scratch.len);
}

// The first of the causes of a call on a signal. Without a penalty 4 does not hold.
static uint64_t signal_refusal(unsigned causes)
{
    static const int right[] = {1, 2, 3, 13, 5, 14, 4, 9, 0};
    static const int room_early[] = {1, 2, 3, 13, 5, 14, 9, 4, 0}, penalty_early[] = {1, 2, 3, 4, 13, 5, 14, 9, 0};
    static const int length_first[] = {1, 2, 13, 3, 5, 14, 4, 9, 0}, order_first[] = {1, 2, 3, 13, 14, 5, 4, 9, 0};
    static const int weights_first[] = {1, 2, 3, 5, 14, 13, 4, 9, 0}, penalty_first[] = {1, 2, 3, 13, 4, 5, 14, 9, 0};
    switch (FAULT) {
    case 9: return first_of(causes, room_early);
    case 70: return first_of(causes, penalty_early);
    case 72: return first_of(causes, length_first);
    case 94: return first_of(causes, order_first);
    case 99: return first_of(causes, weights_first);
    case 100: return first_of(causes, penalty_first);
    default: return first_of(causes, right);
    }
}

struct foldwig_signal_path_result reference_signal_path(struct bytes samples, uint64_t max_segments, uint64_t min_segment_len,
                                                        struct bytes weights, struct lists to, struct bytes scratch,
                                                        unsigned *causes)
{
    struct foldwig_signal_path_result r = {0, 0};
    size_t largest;
    *causes = signal_causes(samples, max_segments, min_segment_len, weights, to, scratch);
    r.refusal = signal_refusal(*causes);
    if (r.refusal != 0)
        return r;
    largest = make_models(samples, max_segments, min_segment_len, weights);
    r.entries = signal_winners(largest);
    put_path(to, r.entries, FAULT == 71 ? largest : smaller(samples.len / 2, (size_t)max_segments));
    clear_scratch(scratch);
    return r;
}

// Puts the starts and levels of the segmentation into so many segments.
static void put_segments(struct bytes starts, struct bytes levels, size_t segments, size_t n)
{
    for (size_t s = 0; s < segments; s++) {
        size_t first = given_starts[segments][s];
        size_t last = s + 1 < segments ? (size_t)given_starts[segments][s + 1] - 1 : n - 1;
        put_item(starts, 2, s, first + 1);
        put_item(levels, 2, s, (uint64_t)level_of(first, last));
    }
}

// The number of segments of the cheapest of all segmentations that were tried, the fewest if several are the cheapest.
static size_t cheapest_tried(struct bytes weights, uint64_t p, uint64_t q)
{
    struct model best = {0, 0, 0};
    for (size_t i = 0; i < cutting_count; i++) {
        struct model m = {cuttings[i].count, (uint64_t)cuttings[i].loss, weight_of(weights, cuttings[i].count)};
        if (FAULT == 80)
            m = by_size(m);
        if (i == 0 || better(m, best, p, q))
            best = m;
    }
    return best.size;
}

// The number of segments at the penalty p / q: of a short signal's segmentations themselves, or by its models.
static size_t cheapest_size(size_t n, size_t largest, struct bytes weights, uint64_t p, uint64_t q)
{
    if (FAULT != 20 && n <= reference_tries_up_to)
        return cheapest_tried(weights, p, q);
    for (size_t i = 0; i < largest && FAULT == 80; i++)
        models[i] = by_size(models[i]);
    return models[cheapest(models, largest, p, q)].size;
}

struct foldwig_split_result reference_split(struct bytes samples, uint64_t max_segments, uint64_t min_segment_len,
                                            struct bytes weights, uint64_t p, uint64_t q, struct bytes starts, struct bytes levels,
                                            struct lists to, struct bytes scratch, unsigned *causes)
{
    struct foldwig_split_result r = {0, 0, 0, 0};
    size_t n = samples.len / 2, largest;
    uint64_t needed = max_segments < n ? max_segments : n;
    *causes = signal_causes(samples, max_segments, min_segment_len, weights, to, scratch);
    *causes |= cause_if(11, odd_length(starts, 2) || odd_length(levels, 2)) | cause_if(4, bad_penalty(p, q));
    *causes |= cause_if(9, FAULT != 22 && smaller(starts.len / 2, levels.len / 2) < needed);
    r.refusal = signal_refusal(*causes);
    if (r.refusal != 0)
        return r;
    largest = make_models(samples, max_segments, min_segment_len, weights);
    r.entries = signal_winners(largest);
    r.segments = cheapest_size(n, largest, weights, p, q);
    if (FAULT == 22 && smaller(starts.len / 2, levels.len / 2) < r.segments) {
        struct foldwig_split_result no_room = {9, 0, 0, 0};
        return no_room;
    }
    r.loss = (uint64_t)loss_of_starts(r.segments, n);
    put_path(to, r.entries, (size_t)needed);
    put_segments(starts, levels, r.segments, n);
    clear_scratch(scratch);
    return r;
}

// ---- Tables. Positions count from 1.

static size_t table_place(size_t size, size_t position)
{
    return MAX_SAMPLES * (size - 1) + (position - 1);
}

static uint64_t table_value(struct bytes table, size_t size, size_t position)
{
    return get_item(table, 8, table_place(size, position));
}

// Whether a value is out of order: not all ones where there are fewer samples than segments, and else more than 2^44.
static int bad_value(uint64_t value, size_t size, size_t position)
{
    if (size > position)
        return value != UINT64_MAX && FAULT != 50;
    return value > TWO_44 || (FAULT == 45 && value == TWO_44);
}

// Whether a value of n samples is out of order. Values that a short table lacks are in order.
static int damaged(struct bytes table, size_t n, uint64_t max_segments)
{
    size_t columns = smaller(FAULT == 35 ? n + 1 : n, MAX_SAMPLES), rows = FAULT == 36 ? ROWS - 1 : ROWS;
    if (FAULT == 51 && n > 0)
        columns = smaller(n - 1, MAX_SAMPLES);
    if (FAULT == 55 && max_segments < ROWS)
        rows = (size_t)max_segments;
    for (size_t size = 1; size <= rows; size++)
        for (size_t position = 1; position <= columns; position++)
            if (table_place(size, position) < table.len / 8 &&
                bad_value(table_value(table, size, position), size, position))
                return 1;
    return 0;
}

// The causes that both calls with a table have.
static unsigned table_causes(struct bytes samples, uint64_t max_segments, struct bytes table)
{
    uint64_t most = FAULT == 40 ? 17 : FAULT == 41 ? 15 : 16;
    unsigned causes = cause_if(11, odd_length(samples, 2) || odd_length(table, 8));
    causes |= cause_if(3, max_segments == 0 || max_segments > most);
    causes |= cause_if(SHORT_TABLE, table.len < (FAULT == 42 ? TABLE_BYTES - 8 : TABLE_BYTES));
    return causes | cause_if(12, damaged(table, samples.len / 2, max_segments));
}

static uint64_t refusal_of(unsigned causes, const int *order)
{
    uint64_t first = first_of(causes, order);
    return first == SHORT_TABLE ? 9 : first;
}

// The least value of so many segments that end at a position, over all starts of the last one.
static uint64_t least_value(struct bytes table, size_t size, size_t position, const uint64_t *last_losses)
{
    uint64_t least = UINT64_MAX;
    if (size == 1)
        return last_losses[0];
    for (size_t before = size - 1; before < position; before++) {
        uint64_t sum = table_value(table, size - 1, before) + last_losses[before];
        if (FAULT == 56 && before + 1 == position && size < position)
            continue;
        if (sum < least)
            least = sum;
    }
    return least;
}

// Fills the column of a position, as many rows of it as are asked for.
static void fill_column(struct bytes table, size_t position, size_t rows)
{
    static uint64_t last_losses[MAX_SAMPLES];       // of the segment behind so many samples
    for (size_t before = 0; before < position; before++)
        last_losses[before] = (uint64_t)loss_of(before, position - 1);
    for (size_t size = 1; size <= rows; size++) {
        uint64_t value = FAULT == 34 ? 0 : UINT64_MAX;
        if (size <= position)
            value = least_value(table, size, position, last_losses);
        if (FAULT == 48 && size > 1 && size <= position && value > table_value(table, size - 1, position))
            value = table_value(table, size - 1, position);
        put_item(table, 8, table_place(size, position), value);
    }
}

// Makes models of the column of a position, and answers their number.
static size_t column_models(struct bytes table, size_t position, uint64_t max_segments)
{
    size_t largest = smaller(smaller(position, (size_t)max_segments), ROWS);
    for (size_t size = 1; size <= largest; size++) {
        models[size - 1].size = size;
        models[size - 1].loss = table_value(table, size, position);
        models[size - 1].weight = size;
    }
    return largest;
}

struct foldwig_extend_result reference_extend(struct bytes samples, int16_t sample, uint64_t max_segments, struct bytes table,
                                              struct lists to, unsigned *causes)
{
    static const int right[] = {2, 3, SHORT_TABLE, 12, 9, 0};
    static const int damage_first[] = {2, 3, 12, SHORT_TABLE, 9, 0}, room_first[] = {2, 3, SHORT_TABLE, 9, 12, 0};
    struct foldwig_extend_result r = {0, 0};
    size_t n = samples.len / 2, room = places(to, 106), largest;
    uint64_t needed = max_segments < n + 1 ? max_segments : n + 1;
    *causes = table_causes(samples, max_segments, table) | cause_if(2, n + 1 > (FAULT == 39 ? MAX_SAMPLES - 1 : MAX_SAMPLES));
    *causes |= cause_if(11, odd_lists(to)) | cause_if(9, room + (FAULT == 52) < needed);
    r.refusal = refusal_of(*causes, FAULT == 43 ? damage_first : FAULT == 49 ? room_first : right);
    if (r.refusal != 0)
        return r;
    read_samples(samples);
    samples_of[n] = sample;
    fill_column(table, n + 1, FAULT == 33 ? smaller((size_t)max_segments, ROWS) : ROWS);
    if (FAULT == 47)
        memset(table.at + TABLE_BYTES, 0, table.len - TABLE_BYTES);
    largest = column_models(table, n + 1, FAULT == 54 && n > 0 && max_segments > n ? n : max_segments);
    r.entries = winners(largest);
    for (size_t i = 0; i < r.entries && FAULT == 104; i++)
        path[i].weight = get_item(to.weights, 2, i);
    put_path(to, r.entries, smaller(FAULT == 46 ? largest - 1 : largest, room));
    return r;
}

// How many samples are before the last of so many segments that end at a position, the fewest if several are best.
static size_t samples_before(struct bytes table, size_t size, size_t position)
{
    uint64_t least = UINT64_MAX;
    size_t best = 0;
    if (size == 1)
        return 0;
    for (size_t before = size - 1; before < position; before++) {
        uint64_t sum = table_value(table, size - 1, before) + (uint64_t)loss_of(before, position - 1);
        if (sum < least || (FAULT == 37 && sum == least)) {
            least = sum;
            best = before;
        }
    }
    return best;
}

// Finds the starts of so many segments of n samples, from the last one back.
static void find_starts(struct bytes table, size_t segments, size_t n)
{
    size_t end = n;
    for (size_t size = segments; size > 0; size--) {
        end = samples_before(table, size, end);
        given_starts[segments][size - 1] = (uint16_t)end;
    }
}

struct foldwig_split_from_result reference_split_from(struct bytes samples, uint64_t max_segments, uint64_t p, uint64_t q,
                                                      struct bytes table, struct bytes starts, struct bytes levels,
                                                      unsigned *causes)
{
    static const int right[] = {1, 2, 3, SHORT_TABLE, 12, 4, 9, 0};
    static const int damage_first[] = {1, 2, 3, 12, SHORT_TABLE, 4, 9, 0}, penalty_first[] = {1, 2, 3, SHORT_TABLE, 4, 12, 9, 0};
    static const int room_first[] = {1, 2, 3, SHORT_TABLE, 9, 12, 4, 0};
    struct foldwig_split_from_result r = {0, 0, 0};
    size_t n = samples.len / 2, room = smaller(starts.len / 2, levels.len / 2), largest;
    uint64_t needed = max_segments < n ? max_segments : n;
    *causes = table_causes(samples, max_segments, table) | cause_if(1, n == 0) | cause_if(2, n > MAX_SAMPLES);
    *causes |= cause_if(11, odd_length(starts, 2) || odd_length(levels, 2)) | cause_if(4, bad_penalty(p, q));
    *causes |= cause_if(9, FAULT != 53 && room < needed);
    r.refusal = refusal_of(*causes, FAULT == 43   ? damage_first
                                    : FAULT == 44 ? penalty_first
                                    : FAULT == 49 ? room_first
                                                  : right);
    if (r.refusal != 0)
        return r;
    read_samples(samples);
    largest = column_models(table, n, max_segments);
    r.segments = models[cheapest(models, largest, p, q)].size;
    if (FAULT == 53 && room < r.segments) {
        r.refusal = 9;
        r.segments = 0;
        return r;
    }
    find_starts(table, r.segments, n);
    r.loss = FAULT == 38 ? table_value(table, r.segments, n) : (uint64_t)loss_of_starts(r.segments, n);
    put_segments(starts, levels, r.segments, n);
    return r;
}
