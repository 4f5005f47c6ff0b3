/*
 * arena.h - buffers with guards.
 *
 * An arena is a run of pages with a page before and after it that nobody may
 * touch. It is reserved, and takes memory only where it is written, so it can be
 * as long as the largest disk. A buffer is in one of three places in it: in the
 * middle at any alignment, at the very end (one byte too far faults), or at the
 * very start. The bytes around a buffer are guard bytes, and are checked.
 */
#ifndef ARENA_H
#define ARENA_H

#include <stdbool.h>
#include <stddef.h>
#include <stdint.h>

enum { PAGE_BYTES = 4096, GUARD_BYTES = 64 };

enum placement { LOOSE, AT_END, AT_START, PLACEMENTS };

extern const char *const placement_name[PLACEMENTS];

struct arena {
    uint8_t *base;
    size_t   capacity;      /* whole pages */
    uint8_t *buffer;
    size_t   length;
};

/* Room for a buffer of up to `largest` bytes, all zeros. Ends the program if there is none. */
void arena_make(struct arena *arena, size_t largest);

/* A buffer of `length` bytes; `shift` (0 to 15) is the alignment of a loose one. */
uint8_t *arena_place(struct arena *arena, size_t length, enum placement placement, unsigned shift);

/* The guard bytes around the buffer are as they were when it was placed. */
bool arena_guards_hold(const struct arena *arena);

/* Gives the memory back: all is zeros again, guard bytes too, until a buffer is placed. */
void arena_clear(struct arena *arena);

#endif
