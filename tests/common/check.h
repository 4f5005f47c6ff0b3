/*
 * check.h - the check bytes of W-202, for tests that make disks of their own. The
 * reference has the request's words as a loop over the bits; this goes by bytes.
 */
#ifndef TEST_CHECK_H
#define TEST_CHECK_H

#include <stdint.h>

/* The check of a sector of 512 bytes. */
uint16_t sector_check(const uint8_t *sector);

/* Gives each of the sectors its check bytes. */
void make_checks(uint8_t *check_area, const uint8_t *disk, uint64_t sectors);

#endif
