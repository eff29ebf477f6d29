// What the comparisons share: random numbers, memory that is lent to a call between pages that can't be touched, with guard bytes
// beside it, and a thread with a small stack.
#ifndef SPAN_H
#define SPAN_H

#include <stddef.h>
#include <stdint.h>

enum { GUARD = 64, SMALL_STACK = 256 * 1024 };

// Random numbers: 64 bits; 0 to below - 1; 1 in so many.
void seed_random(uint64_t seed);
uint64_t random64(void);
uint64_t below(uint64_t bound);
int one_in(uint64_t many);

// Room for n items, mostly, and else for one or two fewer or more.
size_t about(size_t n);

// A number that is mostly small, and else somewhere near a limit or anywhere.
uint64_t some_number(uint64_t limit);

// Memory as it is lent: pages that can be written between two that can't be touched, their bytes, where it stands in them, its
// bytes, and the address that the call gets, which may be null if there are none.
struct span {
    uint8_t *pages;
    size_t most;
    uint8_t *at;
    size_t len;
    void *given;
};

// Maps the pages of a span.
void map_span(struct span *s, size_t most);

// Places so many bytes from an offset of the pages on, between guard bytes as far as there is room for them.
void place_span(struct span *s, size_t offset, size_t len);

// How many guard bytes stand behind a span, and whether all of them, before and behind it, are as they were.
size_t guard_behind(const struct span *s);
int guards_stand(const struct span *s);

// Lets the pages of a span be written, or not.
void protect_span(const struct span *s, int protection);

// Runs a function in a thread of its own with a small stack.
void on_small_stack(void (*function)(void));

#endif
