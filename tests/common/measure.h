/* measure.h - times, for the bench and for large disks, and memcpy to compare with. */
#ifndef TEST_MEASURE_H
#define TEST_MEASURE_H

#include <stddef.h>

double nanoseconds_now(void);

/* The C library's memcpy; a compiler would put code of its own in the place of a call by its name. */
extern void *(*const volatile copy_bytes)(void *to, const void *from, size_t count);

/* Sorts the values. */
double median(double *values, unsigned count);

#endif
