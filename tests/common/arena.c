#define _DEFAULT_SOURCE     /* MAP_ANONYMOUS, madvise */
#include "arena.h"

#include <stdio.h>
#include <stdlib.h>
#include <sys/mman.h>

enum { GUARD = 0xA7, SHIFTS = 16 };

const char *const placement_name[PLACEMENTS] = { "anywhere", "at the end of a page", "at the start of a page" };

static void need_memory(bool there)
{
    if (there)
        return;
    perror("no memory for the buffers");
    exit(2);
}

void arena_make(struct arena *arena, size_t largest)
{
    size_t capacity = (largest + 2 * GUARD_BYTES + SHIFTS + PAGE_BYTES - 1) / PAGE_BYTES * PAGE_BYTES;
    uint8_t *map = mmap(NULL, capacity + 2 * PAGE_BYTES, PROT_READ | PROT_WRITE,
                        MAP_PRIVATE | MAP_ANONYMOUS | MAP_NORESERVE, -1, 0);

    need_memory(map != MAP_FAILED &&
                mprotect(map, PAGE_BYTES, PROT_NONE) == 0 &&
                mprotect(map + PAGE_BYTES + capacity, PAGE_BYTES, PROT_NONE) == 0);
    (void)madvise(map + PAGE_BYTES, capacity, MADV_NOHUGEPAGE); /* a byte takes 4 KiB, not 2 MiB; it need not be heeded */
    arena->base = map + PAGE_BYTES;
    arena->capacity = capacity;
    arena->buffer = arena->base;
    arena->length = 0;
}

static size_t before(const struct arena *arena)
{
    size_t room = (size_t)(arena->buffer - arena->base);

    return room < GUARD_BYTES ? room : GUARD_BYTES;
}

static size_t after(const struct arena *arena)
{
    size_t room = arena->capacity - (size_t)(arena->buffer - arena->base) - arena->length;

    return room < GUARD_BYTES ? room : GUARD_BYTES;
}

uint8_t *arena_place(struct arena *arena, size_t length, enum placement placement, unsigned shift)
{
    size_t offset = placement == AT_START ? 0
                  : placement == AT_END ? arena->capacity - length
                  : GUARD_BYTES + shift % SHIFTS;

    arena->buffer = arena->base + offset;
    arena->length = length;
    for (size_t i = 0; i < before(arena); i++)
        arena->buffer[-1 - (ptrdiff_t)i] = GUARD;
    for (size_t i = 0; i < after(arena); i++)
        arena->buffer[length + i] = GUARD;
    return arena->buffer;
}

bool arena_guards_hold(const struct arena *arena)
{
    for (size_t i = 0; i < before(arena); i++)
        if (arena->buffer[-1 - (ptrdiff_t)i] != GUARD)
            return false;
    for (size_t i = 0; i < after(arena); i++)
        if (arena->buffer[arena->length + i] != GUARD)
            return false;
    return true;
}

void arena_clear(struct arena *arena)
{
    need_memory(madvise(arena->base, arena->capacity, MADV_DONTNEED) == 0);
}
