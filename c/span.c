#define _DEFAULT_SOURCE
#include "span.h"
#include <pthread.h>
#include <stdio.h>
#include <stdlib.h>
#include <string.h>
#include <sys/mman.h>

enum { GUARD_BYTE = 0xa7 };

static uint64_t state;

// ---- Random numbers

void seed_random(uint64_t seed)
{
    state = seed;
}

uint64_t random64(void)
{
    uint64_t z = state += UINT64_C(0x9e3779b97f4a7c15);
    z = (z ^ z >> 30) * UINT64_C(0xbf58476d1ce4e5b9);
    z = (z ^ z >> 27) * UINT64_C(0x94d049bb133111eb);
    return z ^ z >> 31;
}

uint64_t below(uint64_t bound)
{
    return random64() % bound;
}

int one_in(uint64_t many)
{
    return below(many) == 0;
}

size_t about(size_t n)
{
    uint64_t r = below(12);
    return r == 0 && n > 0 ? n - 1 : r == 1 && n > 1 ? n - 2 : r < 6 ? n : n + below(4);
}

uint64_t some_number(uint64_t limit)
{
    switch (below(10)) {
    case 0: return limit;
    case 1: return limit + 1;
    case 2: return limit - 1;
    case 3: return one_in(8) ? random64() : below(limit);
    default: return below(25);
    }
}

// ---- Spans

void map_span(struct span *s, size_t most)
{
    size_t edge = 1 << 14;
    uint8_t *all = mmap(NULL, most + 2 * edge, PROT_NONE, MAP_PRIVATE | MAP_ANONYMOUS, -1, 0);
    if (all == MAP_FAILED || mprotect(all + edge, most, PROT_READ | PROT_WRITE) != 0) {
        perror("mapping the pages");
        exit(2);
    }
    s->pages = all + edge;
    s->most = most;
}

static size_t guard_before(const struct span *s)
{
    size_t free = (size_t)(s->at - s->pages);
    return free < GUARD ? free : GUARD;
}

size_t guard_behind(const struct span *s)
{
    size_t free = s->most - (size_t)(s->at - s->pages) - s->len;
    return free < GUARD ? free : GUARD;
}

void place_span(struct span *s, size_t offset, size_t len)
{
    s->at = s->pages + offset;
    s->len = len;
    s->given = len == 0 && one_in(2) ? NULL : s->at;
    memset(s->at - guard_before(s), GUARD_BYTE, guard_before(s));
    memset(s->at + len, GUARD_BYTE, guard_behind(s));
}

static int are_guards(const uint8_t *at, size_t count)
{
    for (size_t i = 0; i < count; i++)
        if (at[i] != GUARD_BYTE)
            return 0;
    return 1;
}

int guards_stand(const struct span *s)
{
    return are_guards(s->at - guard_before(s), guard_before(s)) && are_guards(s->at + s->len, guard_behind(s));
}

void protect_span(const struct span *s, int protection)
{
    if (mprotect(s->pages, s->most, protection) != 0) {
        perror("protecting the pages");
        exit(2);
    }
}

static void *run_in_thread(void *function)
{
    (*(void (**)(void))function)();
    return NULL;
}

void on_small_stack(void (*function)(void))
{
    pthread_attr_t attributes;
    pthread_t thread;
    if (pthread_attr_init(&attributes) != 0 || pthread_attr_setstacksize(&attributes, SMALL_STACK) != 0 ||
        pthread_create(&thread, &attributes, run_in_thread, &function) != 0) {
        fprintf(stderr, "no thread can be started\n");
        exit(2);
    }
    pthread_join(thread, NULL);
    pthread_attr_destroy(&attributes);
}
