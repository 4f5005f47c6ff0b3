/*
 * sequence.c - the interface at work, from power-on to power-on.
 *
 * The owner makes the check bytes of a disk, and hides its end. A setup tool
 * switches a recovery timer off. One core starts a fill, the handler advances it
 * in pieces, and another core polls it. The device is saved and started again
 * from what was saved, with its timers. The image is converted for an older
 * handler, and back. A bit of a sector flips, and is repaired. A test bench
 * damages a sector by Long Sector Access, and looks at it. Whatever is printed
 * has been compared; the first difference ends the program with 1.
 * docs/interface.md describes the same in words.
 */
#include <stdio.h>
#include <stdlib.h>
#include <string.h>

#include "sct_disk.h"

/* ---- What the handler owns ----------------------------------------------- */

enum { NATIVE = 64, VISIBLE = 48 };   /* sectors; those from 48 on are hidden */

static uint8_t  device[SCT_RECORD_BYTES];
static uint8_t  area[SCT_PRIVATE_BYTES];          /* no core sees it */
static uint8_t  disk[NATIVE * SCT_SECTOR_BYTES];
static uint8_t  check_area[NATIVE * SCT_CHECK_BYTES];
static uint8_t  mailbox[SCT_PORTS][SCT_MAILBOX_BYTES];    /* common memory */
static uint8_t  image[2 * SCT_ENTRY_BYTES];
static uint64_t used;

static void expect(int holds, int line, const char *what)
{
    if (holds)
        return;
    printf("line %d, not so: %s\n", line, what);
    exit(1);
}

#define EXPECT(condition) expect((condition), __LINE__, #condition)

/* ---- What the handler does ----------------------------------------------- */

/* The check of a sector, bit by bit. */
static uint16_t check_of(const uint8_t *sector)
{
    unsigned check = 0;

    for (unsigned position = 0; position < 8 * SCT_SECTOR_BYTES; position++)
        if (sector[position / 8] >> position % 8 & 1)
            check ^= 0x1000 | position;
    return (uint16_t)check;
}

/* Where nobody has made them: the check bytes of the whole disk. */
static void make_check_bytes(void)
{
    for (size_t i = 0; i < NATIVE; i++) {
        uint16_t check = check_of(disk + i * SCT_SECTOR_BYTES);

        check_area[SCT_CHECK_BYTES * i] = (uint8_t)check;
        check_area[SCT_CHECK_BYTES * i + 1] = (uint8_t)(check >> 8);
    }
}

static uint32_t power_on(void)
{
    return sct_power_on(device, sizeof device, area, sizeof area,
                        disk, sizeof disk, check_area, sizeof check_area,
                        image, sizeof image, used);
}

static uint32_t take(uint32_t port)
{
    return sct_take(device, sizeof device, port, mailbox[port], sizeof mailbox[port],
                    area, sizeof area);
}

static uint32_t serve(uint32_t port)
{
    return sct_serve(device, sizeof device, port, area, sizeof area,
                     disk, sizeof disk, check_area, sizeof check_area);
}

static uint32_t give(uint32_t port)
{
    return sct_give(device, sizeof device, port, mailbox[port], sizeof mailbox[port],
                    area, sizeof area);
}

/* A core has rung. */
static void handle(uint32_t port)
{
    EXPECT(take(port) == SCT_DONE);
    EXPECT(serve(port) == SCT_DONE);
    EXPECT(give(port) == SCT_DONE);
}

/* The handler has time for n sectors. */
static uint32_t work(uint32_t n)
{
    uint64_t result = sct_work(device, sizeof device, area, sizeof area,
                               disk, sizeof disk, check_area, sizeof check_area, n);

    EXPECT(sct_work_answer(result) == SCT_DONE);
    return sct_work_sectors(result);
}

/* The used length is the handler's. */
static void save(void)
{
    EXPECT(sct_save(device, sizeof device, image, sizeof image, used) == SCT_DONE);
    used += SCT_ENTRY_BYTES;
}

static uint32_t convert(uint32_t form)
{
    return sct_convert(image, sizeof image, used, form);
}

/* ---- What the cores ask, and what they expect ---------------------------- */

enum { COUNT = 2, LBA_LOW = 4, LBA_MID = 6, COMMAND = 11, STATUS = 12, ERROR = 13, SECTOR = 16, CHECK = 16 + 512 };

static void put(uint8_t *at, int bytes, uint64_t value)
{
    for (int i = 0; i < bytes; i++)
        at[i] = (uint8_t)(value >> 8 * i);
}

/* SMART (B0h), read log (D5h) or write log (D6h), log E0h, one sector. */
static void ask_log(uint32_t port, uint8_t feature)
{
    static const uint8_t registers[SCT_REGISTER_BYTES] =
        { 0, 0, 1, 0, 0xE0, 0, 0x4F, 0, 0xC2, 0, 0, 0xB0 };

    memset(mailbox[port], 0, sizeof mailbox[port]);
    memcpy(mailbox[port], registers, sizeof registers);
    mailbox[port][0] = feature;
}

/* The key of a pattern fill: action 2, function 1; Start 0 and Count 0 mean all. */
static void ask_fill(uint32_t port, const char *pattern)
{
    uint8_t *key = mailbox[port] + SECTOR;

    ask_log(port, 0xD6);
    put(key, 2, 2);
    put(key + 2, 2, 1);
    memcpy(key + 20, pattern, 4);
}

/* The key of a recovery timer (action 3): function 1 sets it, 2 returns it; timer 1 is for reads, 2 for writes. */
static void ask_timer(uint32_t port, uint8_t function, uint8_t timer, uint16_t value)
{
    uint8_t *key = mailbox[port] + SECTOR;

    ask_log(port, 0xD6);
    put(key, 2, 3);
    put(key + 2, 2, function);
    put(key + 4, 2, timer);
    put(key + 6, 2, value);
}

static void ask_sector(uint32_t port, uint8_t lba)
{
    memset(mailbox[port], 0, sizeof mailbox[port]);
    mailbox[port][COMMAND] = 0x24;
    mailbox[port][COUNT] = 1;
    mailbox[port][LBA_LOW] = lba;
}

/* The key of Read Long (action 1, function 1) or Write Long (function 2). */
static void ask_long(uint32_t port, uint8_t function, uint64_t lba)
{
    uint8_t *key = mailbox[port] + SECTOR;

    ask_log(port, 0xD6);
    put(key, 2, 1);
    put(key + 2, 2, function);
    put(key + 4, 8, lba);
}

/* E1h, two sectors: a sector, its check bytes, and 510 bytes that don't matter. */
static void ask_long_data(uint32_t port, uint8_t feature, const uint8_t *sector, uint16_t check)
{
    ask_log(port, feature);
    mailbox[port][COUNT] = 2;
    mailbox[port][LBA_LOW] = 0xE1;
    if (sector != NULL)
        memcpy(mailbox[port] + SECTOR, sector, SCT_SECTOR_BYTES);
    put(mailbox[port] + CHECK, 2, check);
}

/* The reply has this Status and Error, this data (NULL: zeros), and 0 elsewhere. */
static int replied_with(uint32_t port, uint8_t status, uint8_t error, const uint8_t *data, size_t bytes)
{
    uint8_t reply[SCT_MAILBOX_BYTES] = { 0 };

    reply[STATUS] = status;
    reply[ERROR] = error;
    if (data != NULL)
        memcpy(reply + SECTOR, data, bytes);
    return memcmp(mailbox[port], reply, sizeof reply) == 0;
}

static int replied(uint32_t port, uint8_t status, uint8_t error, const uint8_t *sector)
{
    return replied_with(port, status, error, sector, SCT_SECTOR_BYTES);
}

/* The reply to an accepted key: this value, and so many sectors to follow. */
static int replied_key(uint32_t port, uint16_t value, uint8_t sectors)
{
    uint8_t reply[SCT_MAILBOX_BYTES] = { 0 };

    reply[STATUS] = 0x50;
    reply[COUNT] = (uint8_t)value;
    reply[LBA_LOW] = (uint8_t)(value >> 8);
    reply[LBA_MID] = sectors;
    return memcmp(mailbox[port], reply, sizeof reply) == 0;
}

struct status {
    unsigned flag, state, code, action, function, next;
    uint8_t now, cycle, life;   /* temperatures; 80h is missing */
};

/* A status read through this port brings this, byte for byte. */
static void poll(uint32_t port, struct status s)
{
    uint8_t sector[SCT_SECTOR_BYTES] = { 2, 0, 1, 0, 1 };

    put(sector + 6, 1, s.flag);
    put(sector + 10, 1, s.state);
    put(sector + 14, 2, s.code);
    put(sector + 16, 2, s.action);
    put(sector + 18, 2, s.function);
    put(sector + 40, 8, s.next);
    sector[200] = s.now;
    sector[202] = s.cycle;
    sector[204] = s.life;
    ask_log(port, 0xD5);
    handle(port);
    EXPECT(replied(port, 0x50, 0x00, sector));
    printf("port %u: code %04Xh, state %u, next %u, flag %u, life %02Xh\n",
           (unsigned)port, s.code, s.state, s.next, s.flag, s.life);
}

/* The first sectors are filled, the other visible ones zeros, the hidden ones as they were; all checks are right. */
static int disk_is(unsigned filled)
{
    for (size_t i = 0; i < sizeof disk; i++) {
        size_t sector = i / SCT_SECTOR_BYTES;
        size_t place = i % SCT_SECTOR_BYTES;
        int byte = sector < filled ? "DEMO"[place % 4] : sector < VISIBLE ? 0 : (int)(place % 251);

        if (disk[i] != byte)
            return 0;
    }
    for (size_t i = 0; i < NATIVE; i++)
        if ((check_area[2 * i] | check_area[2 * i + 1] << 8) != check_of(disk + i * SCT_SECTOR_BYTES))
            return 0;
    return 1;
}

/* ---- The sequence -------------------------------------------------------- */

/* A new disk shows all its sectors: hide some before the first take. Power-on makes no check bytes. */
static void start(void)
{
    for (size_t i = VISIBLE * SCT_SECTOR_BYTES; i < sizeof disk; i++)
        disk[i] = (uint8_t)(i % SCT_SECTOR_BYTES % 251);
    make_check_bytes();
    EXPECT(power_on() == SCT_DONE);
    EXPECT(sct_set_visible(device, sizeof device, VISIBLE) == SCT_DONE);
    printf("power-on of a new disk: %d sectors, %d visible\n", NATIVE, VISIBLE);
}

/* Both recovery timers are 70, 7 seconds, at power-on. A setup tool that wants no limit sets 0. */
static void switch_timer_off(void)
{
    ask_timer(3, 2, 2, 0);
    handle(3);
    EXPECT(replied_key(3, 0x0046, 0));
    ask_timer(3, 1, 2, 0);
    handle(3);
    EXPECT(replied_key(3, 0, 0));
    ask_timer(3, 2, 2, 0);
    handle(3);
    EXPECT(replied_key(3, 0, 0));
    printf("port 3: write timer 0046h, set to 0\n");
}

/* Core 0 asks for a fill. What it writes after the take comes too late. */
static void fill_from_core_0(void)
{
    ask_fill(0, "DEMO");
    EXPECT(take(0) == SCT_DONE);
    memset(mailbox[0], 0xFF, sizeof mailbox[0]);
    EXPECT(serve(0) == SCT_DONE);
    EXPECT(give(0) == SCT_DONE);
    EXPECT(replied(0, 0x50, 0x00, NULL));
    EXPECT(disk_is(0));
    printf("port 0: fill accepted\n");
}

/* The handler advances the fill in its idle time; core 1 polls, which does not stop it. */
static void advance_fill(void)
{
    EXPECT(work(10) == 10);
    EXPECT(disk_is(10));
    printf("work 10: 10\n");
    poll(1, (struct status){ 0, 5, 0xFFFF, 2, 1, 10, 0x80, 0x80, 0x80 });

    EXPECT(work(30) == 30);
    EXPECT(work(30) == 8);
    EXPECT(work(30) == 0);
    EXPECT(disk_is(VISIBLE));
    printf("work 30, three times: 30, 8, 0\n");
    poll(1, (struct status){ 1, 0, 0x0000, 2, 1, 0, 0x80, 0x80, 0x80 });
}

/* The first entry's form byte and timers. */
static int entry_is(uint8_t form, uint8_t read_timer, uint8_t write_timer)
{
    return image[25] == form && image[26] == read_timer && image[27] == 0 &&
           image[28] == write_timer && image[29] == 0;
}

/* An empty image starts with an entry of form 2, which has the timers. */
static void sample_and_save(void)
{
    EXPECT(sct_sample(device, sizeof device, 0x23) == SCT_DONE);
    save();
    EXPECT(image[0] == NATIVE && image[8] == VISIBLE && image[17] == 0x23);
    EXPECT(entry_is(2, 70, 0));
    EXPECT(memcmp(image + used - 4, "SCTE", 4) == 0);
    for (uint64_t i = used; i < sizeof image; i++)
        EXPECT(image[i] == 0);
    printf("sample 23h, save: used %u\n", (unsigned)used);
}

/* Record and private area are lost with the power; disk, image and used length are not. */
static void start_again(void)
{
    memset(device, 0xA5, sizeof device);
    memset(area, 0xA5, sizeof area);
    EXPECT(power_on() == SCT_DONE);
    printf("power-on from the image\n");
    poll(1, (struct status){ 1, 0, 0x0000, 0, 0, 0, 0x80, 0x80, 0x23 });
    ask_timer(3, 2, 2, 0);
    handle(3);
    EXPECT(replied_key(3, 0, 0));
    printf("port 3: write timer 0, as saved\n");
}

/*
 * An older handler knows form 1 alone, which has no timers and means 70 and 70.
 * An image goes there only if every entry has these.
 */
static void convert_for_older_handler(void)
{
    uint8_t before[sizeof image];

    EXPECT(convert(SCT_FORM_1) == SCT_OTHER_TIMERS);
    ask_timer(3, 1, 2, 70);
    handle(3);
    EXPECT(replied_key(3, 0, 0));
    save();
    EXPECT(convert(SCT_FORM_1) == SCT_OTHER_TIMERS);
    EXPECT(entry_is(2, 70, 0));
    printf("convert to form 1: %d; after a save with the write timer 0046h: %d\n", SCT_OTHER_TIMERS, SCT_OTHER_TIMERS);

    used = 0;       /* a new image */
    save();
    EXPECT(entry_is(2, 70, 70));
    memcpy(before, image, sizeof image);
    EXPECT(convert(SCT_FORM_1) == SCT_DONE);
    EXPECT(entry_is(0, 0, 0));
    EXPECT(power_on() == SCT_DONE);
    ask_timer(3, 2, 2, 0);
    handle(3);
    EXPECT(replied_key(3, 0x0046, 0));
    EXPECT(convert(SCT_FORM_2) == SCT_DONE);
    EXPECT(memcmp(before, image, sizeof image) == 0);
    printf("a new image, to form 1 and back: the same bytes\n");
}

/* A refused request has Status 51h. A refused step has a nonzero answer, and changes nothing. */
static void refuse(void)
{
    uint8_t before[SCT_RECORD_BYTES];

    ask_sector(2, VISIBLE - 1);
    handle(2);
    EXPECT(replied(2, 0x50, 0x00, disk + (VISIBLE - 1) * SCT_SECTOR_BYTES));
    ask_sector(2, VISIBLE);
    handle(2);
    EXPECT(replied(2, 0x51, 0x10, NULL));
    printf("port 2: sector %d read, sector %d refused\n", VISIBLE - 1, VISIBLE);

    memcpy(before, device, sizeof device);
    EXPECT(give(3) == SCT_BAD_STAGE);
    EXPECT(sct_set_visible(device, sizeof device, NATIVE + 1) == SCT_BAD_VALUE);
    EXPECT(sct_lock(device, sizeof device - 1) == SCT_BAD_RECORD);
    EXPECT(memcmp(before, device, sizeof device) == 0);
    EXPECT(disk_is(VISIBLE));
    printf("answers %d, %d, %d\n", SCT_BAD_STAGE, SCT_BAD_VALUE, SCT_BAD_RECORD);
}

static uint32_t repair(uint64_t lba)
{
    uint64_t result = sct_repair(device, sizeof device, disk, sizeof disk, check_area, sizeof check_area, lba);

    EXPECT(sct_repair_answer(result) == SCT_DONE);
    return sct_repair_report(result);
}

/* A bit flips: the sector can't be read until the owner repairs it. Two flipped bits are seen and stay. */
static void flip(void)
{
    uint8_t *byte = disk + 5 * SCT_SECTOR_BYTES + 100;

    *byte ^= 0x08;
    ask_sector(2, 5);
    handle(2);
    EXPECT(replied(2, 0x51, 0x40, NULL));
    printf("port 2: a bit of sector 5 has flipped, refused\n");

    EXPECT(repair(5) == 1);
    EXPECT(repair(5) == 0);
    EXPECT(disk_is(VISIBLE));
    ask_sector(2, 5);
    handle(2);
    EXPECT(replied(2, 0x50, 0x00, disk + 5 * SCT_SECTOR_BYTES));
    printf("repair of sector 5, twice: 1, 0\n");
    printf("port 2: sector 5 read\n");
    poll(1, (struct status){ 0, 0, 0x0000, 3, 2, 0, 0x80, 0x80, 0x23 });

    *byte ^= 0x18;
    EXPECT(repair(5) == 2);
    *byte ^= 0x18;
    EXPECT(disk_is(VISIBLE));
    printf("repair of sector 5 with two flipped bits: 2\n");
}

/* A sector with one wrong bit, and the check bytes of the right one, are sent by Write Long and read back. */
static void damage(void)
{
    uint8_t sector[SCT_SECTOR_BYTES + SCT_CHECK_BYTES];
    uint16_t check = check_of(disk + 7 * SCT_SECTOR_BYTES);

    memcpy(sector, disk + 7 * SCT_SECTOR_BYTES, SCT_SECTOR_BYTES);
    put(sector + SCT_SECTOR_BYTES, 2, check);
    sector[511] ^= 0x80;

    ask_long(3, 2, 7);
    handle(3);
    EXPECT(replied_key(3, 2, 2));
    ask_long_data(3, 0xD6, sector, check);
    handle(3);
    EXPECT(replied(3, 0x50, 0x00, NULL));
    printf("port 3: sector 7 written by Write Long, with a wrong bit\n");

    ask_sector(3, 7);
    handle(3);
    EXPECT(replied(3, 0x51, 0x40, NULL));
    ask_long(3, 1, 7);
    handle(3);
    EXPECT(replied_key(3, 2, 2));
    ask_long_data(3, 0xD5, NULL, 0);
    handle(3);
    EXPECT(replied_with(3, 0x50, 0x00, sector, sizeof sector));
    printf("port 3: sector 7 refused, and sent by Read Long\n");

    EXPECT(repair(7) == 1);
    EXPECT(disk_is(VISIBLE));
    printf("repair of sector 7: 1\n");
}

int main(void)
{
    start();
    switch_timer_off();
    fill_from_core_0();
    advance_fill();
    sample_and_save();
    start_again();
    convert_for_older_handler();
    refuse();
    flip();
    damage();
    return 0;
}
