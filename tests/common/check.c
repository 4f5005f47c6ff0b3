#include "check.h"

#include <stdbool.h>

#include "bytes.h"
#include "sct_disk.h"

/* The check of one byte in the place of byte 0. */
static uint16_t byte_check(unsigned byte)
{
    unsigned check = 0;

    for (unsigned bit = 0; bit < 8; bit++)
        if (byte >> bit & 1)
            check ^= 1u << 12 | bit;
    return (uint16_t)check;
}

/*
 * The positions of byte i are 8 i more than those of byte 0, which counts once
 * if the byte has an odd number of one bits.
 */
uint16_t sector_check(const uint8_t *sector)
{
    static uint16_t of_byte[256];
    static bool made;
    unsigned check = 0;

    for (unsigned byte = 0; !made && byte < 256; byte++)
        of_byte[byte] = byte_check(byte);
    made = true;
    for (unsigned i = 0; i < SCT_SECTOR_BYTES; i++) {
        unsigned of = of_byte[sector[i]];

        check ^= of ^ (of >> 12) * 8 * i;
    }
    return (uint16_t)check;
}

void make_checks(uint8_t *check_area, const uint8_t *disk, uint64_t sectors)
{
    for (uint64_t i = 0; i < sectors; i++)
        put16(check_area + i * SCT_CHECK_BYTES, sector_check(disk + i * SCT_SECTOR_BYTES));
}
