/*
 * The desk program of document 01 over the reference: what `desk` must write for the same input.
 */
#include <stdint.h>
#include <stdio.h>
#include <string.h>

#include "reference.h"

enum { SECTORS = 64, INPUT = 1 + SCT_MAILBOX_BYTES, CODE = 20, STATUS = 12, ERROR = 13 };

/* "a fresh 64-sector disk": zeros, whose check is zero too. */
static uint8_t device[SCT_RECORD_BYTES], area[SCT_PRIVATE_BYTES];
static uint8_t disk[SECTORS * SCT_SECTOR_BYTES], check_area[SECTORS * SCT_CHECK_BYTES];

/* One record of input: taken, served, given, then worked, and its line. */
static void turn(unsigned long number, uint8_t *input)
{
    uint8_t *mailbox = input + 1;

    ref_take(device, sizeof device, 0, mailbox, SCT_MAILBOX_BYTES, area, sizeof area);
    ref_serve(device, sizeof device, 0, area, sizeof area, disk, sizeof disk, check_area, sizeof check_area);
    ref_give(device, sizeof device, 0, mailbox, SCT_MAILBOX_BYTES, area, sizeof area);
    uint64_t result = ref_work(device, sizeof device, area, sizeof area, disk, sizeof disk,
                               check_area, sizeof check_area, input[0]);

    unsigned code = device[CODE] + 256u * device[CODE + 1];
    printf("%lu %02X %02X %04X %lu\n", number, mailbox[STATUS], mailbox[ERROR], code,
           (unsigned long)(result & 0xFFFFFFFFu));
}

int main(void)
{
    uint8_t input[INPUT];
    unsigned long number = 0;
    size_t count;

    puts("n status error code written");
    ref_power_on(device, sizeof device, area, sizeof area, disk, sizeof disk, check_area, sizeof check_area, NULL, 0, 0);
    while ((count = fread(input, 1, INPUT, stdin)) == INPUT)
        turn(++number, input);
    if (count > 0)
        puts("cut");
    return 0;
}
