/*
 * pages.h - which pages of reserved memory were touched, so that a disk of 8 GiB
 * can be compared over every byte: a page that nobody has touched is zeros.
 */
#ifndef PAGES_H
#define PAGES_H

#include <stdbool.h>
#include <stddef.h>
#include <stdint.h>

/* Whether the kernel tells. To be called once, before the other. */
bool pages_known(void);

/*
 * Looks at each page, by its number, that was touched in either of two runs of
 * pages, or at every page if the kernel does not tell. Returns how many.
 */
uint64_t each_touched(const uint8_t *a, const uint8_t *b, size_t pages, void (*look)(size_t page));

#endif
