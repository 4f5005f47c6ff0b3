/* large.h - the parts of the test of large disks (large.c). Each ends the program at the first difference. */
#ifndef LARGE_H
#define LARGE_H

/* Sequences whose outcomes are written down as numbers: sectors, sizes and images; fills. */
void run_sectors(void);
void run_fills(void);

/* Random exchanges. */
void run_random(void);

/* A fill of 1 GiB, and its time; the time of calls on a small disk and on the largest. */
void run_gigabyte(void);
void run_times(void);

#endif
