/* ask.h - requests to both sides of twin.h, with the reply that they must have. */
#ifndef ASK_H
#define ASK_H

#include <stdint.h>

#include "layout.h"

/* The largest disk by W-207, as a number of the tests' own. */
enum { MOST_SECTORS = 16777216 };

/* A step that must be done. */
void start(void);               /* power-on, from no image */
void show(uint64_t visible);    /* sets V */
void expect_work(uint32_t n, uint32_t sectors);
void expect_repair(uint64_t lba, uint32_t report);

/* The record by its names. */
const struct record_fields *fields(void);

/* 34h and 24h: this Error; a good read has this sector. */
void expect_write(uint64_t lba, const uint8_t *sector, uint8_t error);
void expect_read(uint64_t lba, const uint8_t *sector, uint8_t error);

/*
 * A key for a Long transfer (function 1 reads, 2 writes) or a fill (1 by this
 * pattern, 2 by a sector): code 0, or this code and word.
 */
enum { FILL_PATTERN = 0x5AC30F1E };

void expect_long_key(uint16_t function, uint64_t lba, uint16_t code, uint8_t word);
void expect_fill_key(uint16_t function, uint64_t first, uint64_t count, uint16_t code, uint8_t word);

/* What a fill by that pattern writes. */
void pattern_sector(uint8_t *sector);

/* Write Long and Read Long, key and transfer. */
void write_long(uint64_t lba, const uint8_t *sector, uint16_t check);
void expect_read_long(uint64_t lba, const uint8_t *sector, uint16_t check);

/* The E1h of a fill by a sector. */
void send_fill_sector(const uint8_t *sector);

/* A status read: state and code, the next LBA, the flag. */
void expect_status(uint8_t state, uint16_t code, uint64_t next, uint8_t flag);

#endif
