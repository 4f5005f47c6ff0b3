#define _POSIX_C_SOURCE 200809L
#include "pages.h"

#include <fcntl.h>
#include <unistd.h>

#include "arena.h"

/* Linux: /proc/self/pagemap has 8 bytes for each page; bit 63 says that it is in memory, bit 62 that it is swapped out. */
#define TOUCHED ((uint64_t)3 << 62)

enum { AT_ONCE = 8192 };

static int pagemap = -1;

static bool read_pagemap(uint64_t *entries, const uint8_t *at, size_t pages)
{
    size_t bytes = pages * sizeof *entries;
    off_t place = (off_t)((uintptr_t)at / PAGE_BYTES * sizeof *entries);

    return pagemap >= 0 && pread(pagemap, entries, bytes, place) == (ssize_t)bytes;
}

/* A page that was written must be shown as touched: where /proc is another's, it may tell nothing. */
bool pages_known(void)
{
    struct arena trial;
    uint64_t entry = 0;

    pagemap = open("/proc/self/pagemap", O_RDONLY);
    arena_make(&trial, PAGE_BYTES);
    *arena_place(&trial, PAGE_BYTES, AT_START, 0) = 1;
    if (read_pagemap(&entry, trial.base, 1) && (entry & TOUCHED) != 0)
        return true;
    pagemap = -1;
    return false;
}

uint64_t each_touched(const uint8_t *a, const uint8_t *b, size_t pages, void (*look)(size_t page))
{
    static uint64_t in_a[AT_ONCE], in_b[AT_ONCE];
    uint64_t count = 0;

    for (size_t from = 0; from < pages; from += AT_ONCE) {
        size_t some = pages - from < AT_ONCE ? pages - from : AT_ONCE;
        bool known = read_pagemap(in_a, a + from * PAGE_BYTES, some) && read_pagemap(in_b, b + from * PAGE_BYTES, some);

        for (size_t i = 0; i < some; i++) {
            if (known && ((in_a[i] | in_b[i]) & TOUCHED) == 0)
                continue;
            look(from + i);
            count++;
        }
    }
    return count;
}
