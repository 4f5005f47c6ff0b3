/*
 * random.h - the tests' own random numbers (splitmix64), so that a seed gives
 * the same list of steps on every machine.
 */
#ifndef TEST_RANDOM_H
#define TEST_RANDOM_H

#include <stdbool.h>
#include <stddef.h>
#include <stdint.h>

struct random { uint64_t state; };

static inline uint64_t mix64(uint64_t z)
{
    z = (z ^ z >> 30) * 0xBF58476D1CE4E5B9u;
    z = (z ^ z >> 27) * 0x94D049BB133111EBu;
    return z ^ z >> 31;
}

static inline uint64_t random64(struct random *r)
{
    r->state += 0x9E3779B97F4A7C15u;
    return mix64(r->state);
}

/* 0 to limit - 1; the slight bias does not matter here. */
static inline uint64_t below(struct random *r, uint64_t limit)
{
    return random64(r) % limit;
}

/* low to high, both included. */
static inline uint64_t between(struct random *r, uint64_t low, uint64_t high)
{
    return low + below(r, high - low + 1);
}

/* True once in `in` times. */
static inline bool once_in(struct random *r, unsigned in)
{
    return below(r, in) == 0;
}

static inline void random_bytes(struct random *r, uint8_t *at, size_t count)
{
    uint64_t word = 0;

    for (size_t i = 0; i < count; i++) {
        if (i % 8 == 0)
            word = random64(r);
        at[i] = (uint8_t)(word >> 8 * (i % 8));
    }
}

/* Each list of a seed has its own stream. */
static inline struct random random_for(uint64_t seed, uint64_t index)
{
    struct random r = { mix64(seed ^ 0x5C7D15C0u) ^ mix64(index + 0x0123456789ABCDEFu) };
    return r;
}

#define PICK(random, array) ((array)[below((random), sizeof(array) / sizeof((array)[0]))])

#endif
