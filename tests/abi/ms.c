/*
 * ms.c - the twelve entries, called from a file with another calling convention.
 *
 * It is compiled with -mabi=ms, as firmware of the UEFI kind is. The header's
 * SCT_CALL must make every call one of the System V convention; main carries
 * it as well, since the C library calls it. Ends with 0, or with the number of
 * the first check that fails.
 *
 * No function of the C library is called and no buffer is cleared by a loop,
 * from which the compiler might make a memset of this file's convention.
 */
#include "sct_disk.h"

/* Does not compile where this file has the same convention, as then nothing would be tried. */
typedef char other_convention[__builtin_types_compatible_p(int (void), int SCT_CALL (void)) ? -1 : 1];

enum { NATIVE = 8, VISIBLE = 6, PORT = 2, COUNT = 2, COMMAND = 11, STATUS = 12, ERROR = 13, LOCKED = 16, NOW = 40 };
enum { FORM = 25 };         /* in an entry; its timers follow */

static uint8_t device[SCT_RECORD_BYTES];
static uint8_t area[SCT_PRIVATE_BYTES];
static uint8_t disk[NATIVE * SCT_SECTOR_BYTES];
static uint8_t check_area[NATIVE * SCT_CHECK_BYTES];
static uint8_t mailbox[SCT_MAILBOX_BYTES];
static uint8_t image[SCT_ENTRY_BYTES];

#define CHECK(number, condition)    \
    do {                            \
        if (!(condition))           \
            return (number);        \
    } while (0)

static int check_owner_steps(void)
{
    area[0] = area[sizeof area - 1] = 0xA5;
    CHECK(1, sct_power_on(device, sizeof device, area, sizeof area, disk, sizeof disk,
                          check_area, sizeof check_area, image, sizeof image, 0) == SCT_DONE);
    CHECK(2, device[0] == NATIVE && area[0] == 0 && area[sizeof area - 1] == 0);
    CHECK(3, sct_lock(device, sizeof device) == SCT_DONE && device[LOCKED] == 1);
    CHECK(4, sct_unlock(device, sizeof device) == SCT_DONE && device[LOCKED] == 0);
    CHECK(5, sct_set_visible(device, sizeof device, NATIVE + 1) == SCT_BAD_VALUE);
    CHECK(6, sct_set_visible(device, sizeof device, VISIBLE) == SCT_DONE && device[8] == VISIBLE);
    CHECK(7, sct_sample(device, sizeof device, 0x23) == SCT_DONE && device[NOW] == 0x23);
    CHECK(8, sct_save(device, sizeof device, image, sizeof image, 0) == SCT_DONE && image[8] == VISIBLE);
    CHECK(9, sct_save(device, sizeof device, image, sizeof image, sizeof image) == SCT_IMAGE_FULL);
    return 0;
}

static uint32_t serve(void)
{
    return sct_serve(device, sizeof device, PORT, area, sizeof area, disk, sizeof disk, check_area, sizeof check_area);
}

/* A sector read, without and with the check bytes of its data; then work without a fill. */
static int check_request(void)
{
    uint64_t result;

    mailbox[COMMAND] = 0x24;
    mailbox[COUNT] = 1;
    disk[0] = 0x07;                 /* bits 0, 1 and 2: the check is 1003h */
    CHECK(10, sct_take(device, sizeof device, PORT, mailbox, sizeof mailbox, area, sizeof area) == SCT_DONE);
    CHECK(11, serve() == SCT_DONE);
    CHECK(12, sct_give(device, sizeof device, PORT, mailbox, sizeof mailbox, area, sizeof area) == SCT_DONE);
    CHECK(13, mailbox[STATUS] == 0x51 && mailbox[ERROR] == 0x40 && mailbox[SCT_REGISTER_BYTES] == 0);
    mailbox[COMMAND] = 0x24;
    mailbox[COUNT] = 1;
    check_area[0] = 0x03;
    check_area[1] = 0x10;
    CHECK(14, sct_take(device, sizeof device, PORT, mailbox, sizeof mailbox, area, sizeof area) == SCT_DONE);
    CHECK(15, serve() == SCT_DONE);
    CHECK(16, sct_give(device, sizeof device, PORT, mailbox, sizeof mailbox, area, sizeof area) == SCT_DONE);
    CHECK(17, mailbox[STATUS] == 0x50 && mailbox[SCT_REGISTER_BYTES] == 0x07);
    result = sct_work(device, sizeof device, area, sizeof area, disk, sizeof disk, check_area, sizeof check_area, 3);
    CHECK(18, sct_work_answer(result) == SCT_DONE && sct_work_sectors(result) == 0);
    result = sct_work(device, sizeof device, area, sizeof area, disk, sizeof disk, check_area, sizeof check_area - 1, 3);
    CHECK(19, sct_work_answer(result) == SCT_BAD_LENGTH && sct_work_sectors(result) == 0);
    return 0;
}

static uint64_t repair(uint64_t lba)
{
    return sct_repair(device, sizeof device, disk, sizeof disk, check_area, sizeof check_area, lba);
}

/* The sector that was read is right; then a bit of it flips. */
static int check_repair(void)
{
    uint64_t result = repair(0);

    CHECK(20, sct_repair_answer(result) == SCT_DONE && sct_repair_report(result) == 0);
    disk[1] = 0x04;
    result = repair(0);
    CHECK(21, sct_repair_answer(result) == SCT_DONE && sct_repair_report(result) == 1 && disk[1] == 0);
    result = repair((uint64_t)1 << 32);
    CHECK(22, sct_repair_answer(result) == SCT_BAD_VALUE && sct_repair_report(result) == 0);
    return 0;
}

/* The image that was saved is of form 2, with the timers 70 and 70. */
static int check_convert(void)
{
    CHECK(23, image[FORM] == 2 && image[FORM + 1] == 70 && image[FORM + 3] == 70);
    CHECK(24, sct_convert(image, sizeof image, sizeof image, (uint32_t)1 << 31 | SCT_FORM_1) == SCT_BAD_VALUE);
    CHECK(25, sct_convert(image, sizeof image, (uint64_t)1 << 32, SCT_FORM_1) == SCT_BAD_LENGTH);
    CHECK(26, sct_convert(image, sizeof image, sizeof image, SCT_FORM_1) == SCT_DONE && image[FORM] == 0);
    CHECK(27, sct_convert(image, sizeof image, sizeof image, SCT_FORM_2) == SCT_DONE && image[FORM] == 2);
    image[FORM + 3] = 71;
    CHECK(28, sct_convert(image, sizeof image, sizeof image, SCT_FORM_1) == SCT_OTHER_TIMERS);
    return 0;
}

int SCT_CALL main(void)
{
    int failed = check_owner_steps();

    if (failed == 0)
        failed = check_request();
    if (failed == 0)
        failed = check_repair();
    return failed != 0 ? failed : check_convert();
}
