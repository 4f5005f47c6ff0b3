/* sectors.c - single sectors, visible sizes, lengths and images of large disks, with their outcomes as numbers. */
#include <string.h>

#include "ask.h"
#include "bytes.h"
#include "check.h"
#include "large.h"
#include "twin.h"

/* ---- Places -------------------------------------------------------------------- */

/*
 * Sectors at which a number that is too narrow goes wrong, at 32 MiB and at 2, 4,
 * 6 and 8 GiB, with the places of their bytes on the disk and in the check area.
 */
static const struct { uint64_t lba, byte, check; } places[] = {
    { 0, 0, 0 },
    { 65535, 33553920, 131070 },
    { 65536, 33554432, 131072 },
    { 4194303, 2147483136, 8388606 },
    { 4194304, 2147483648, 8388608 },
    { 8388607, 4294966784, 16777214 },
    { 8388608, 4294967296, 16777216 },
    { 12582911, 6442450432, 25165822 },
    { 12582912, 6442450944, 25165824 },
    { 16777214, 8589933568, 33554428 },
    { 16777215, 8589934080, 33554430 }
};

enum { PLACES = sizeof places / sizeof places[0] };

/* Numbers that no sector of the largest disk has, most of them right in their low bits. */
static const uint64_t outside[] = {
    16777216, 16777217, 16777216 + 65536, 33554432, 0x80000000, 0x100000000, 0x100000000 + 16777215, 0xFFFFFFFFFFFF
};

enum { OUTSIDE = sizeof outside / sizeof outside[0] };

/* ---- Reads and writes ------------------------------------------------------------ */

static void reads_and_writes(void)
{
    uint8_t sector[SCT_SECTOR_BYTES];

    begin("reads and writes", MOST_SECTORS);
    start();
    for (unsigned i = 0; i < PLACES; i++) {
        sector_for(sector, places[i].lba);
        expect_write(places[i].lba, sector, 0);
        expect_at(places[i].byte, sector, places[i].check, sector_check(sector));
        must_hold(places[i].lba, 1, sector, sector_check(sector));
    }
    for (unsigned i = 0; i < PLACES; i++) {
        sector_for(sector, places[i].lba);
        expect_read(places[i].lba, sector, 0);
    }
    for (unsigned i = 0; i < OUTSIDE; i++) {
        expect_write(outside[i], sector, 0x10);
        expect_read(outside[i], sector, 0x10);
    }
    disks_hold();
}

/* ---- Long transfers and repair ------------------------------------------------------ */

/* A sector with a wrong check, which neither a read nor a repair gets over; then with one flipped bit. */
static void long_at(unsigned i)
{
    uint64_t lba = places[i].lba;
    uint8_t sector[SCT_SECTOR_BYTES];
    uint16_t check;

    sector_for(sector, lba + 1);
    check = sector_check(sector);
    write_long(lba, sector, check ^ 0x8001);
    expect_at(places[i].byte, sector, places[i].check, check ^ 0x8001);
    expect_read(lba, sector, 0x40);
    expect_read_long(lba, sector, check ^ 0x8001);
    expect_repair(lba, 2);
    write_long(lba, sector, check);
    expect_repair(lba, 0);
    flip(lba, 4095 - i);
    expect_read(lba, sector, 0x40);
    expect_repair(lba, 1);
    expect_at(places[i].byte, sector, places[i].check, check);
    expect_read(lba, sector, 0);
    must_hold(lba, 1, sector, check);
}

static void longs_and_repairs(void)
{
    begin("Long transfers and repairs", MOST_SECTORS);
    start();
    for (unsigned i = 0; i < PLACES; i++)
        long_at(i);
    for (unsigned i = 0; i < OUTSIDE; i++) {
        expect_long_key(1, outside[i], 0x0002, 2);
        expect_long_key(2, outside[i], 0x0002, 2);
        expect("answer of repair", BOTH(repair, outside[i]) >> 32, SCT_BAD_VALUE);
    }
    disks_hold();
}

/* ---- Visible sizes ----------------------------------------------------------------- */

/* Sets V; the three sectors from it on, if there are so many, get known bytes. */
static void hide_from(uint64_t visible)
{
    uint8_t sector[SCT_SECTOR_BYTES];
    uint64_t count = MOST_SECTORS - visible < 3 ? MOST_SECTORS - visible : 3;

    sector_for(sector, visible + 2);
    put_sectors(visible, count, sector, 0xABCD);
    must_hold(visible, count, sector, 0xABCD);
    show(visible);
    expect("V in the record", fields()->visible, visible);
}

/* The last visible sector is written and read; from V on there is none. */
static void last_sector(uint64_t visible)
{
    uint8_t sector[SCT_SECTOR_BYTES];
    uint64_t last = visible - 1;

    sector_for(sector, last);
    expect_write(last, sector, 0);
    expect_read(last, sector, 0);
    expect_read_long(last, sector, sector_check(sector));
    expect_repair(last, 0);
    must_hold(last, 1, sector, sector_check(sector));
    for (uint64_t lba = visible; lba < visible + 3; lba++) {
        expect_write(lba, sector, 0x10);
        expect_read(lba, sector, 0x10);
        expect_long_key(2, lba, 0x0002, 2);
        expect("answer of repair", BOTH(repair, lba) >> 32, SCT_BAD_VALUE);
    }
}

/* Of the fill that runs, or of the pending one. */
static uint64_t end_of_fill(void)
{
    return fields()->filling ? fields()->end : fields()->slot[0].end;
}

/* W-201's rule at this V: Start + Count may be V. The accepted keys start a fill that no work follows. */
static void sums(uint64_t visible)
{
    for (uint16_t function = 1; function <= 2; function++) {
        expect_fill_key(function, 0, visible, 0, 0);
        expect("end", end_of_fill(), visible);
        expect_fill_key(function, 0, visible + 1, 0x0002, 6);
        expect_fill_key(function, visible - 1, 1, 0, 0);
        expect("end", end_of_fill(), visible);
        expect_fill_key(function, visible - 1, 0, 0, 0);
        expect("end", end_of_fill(), visible);
        expect_fill_key(function, visible - 1, 2, 0x0002, 6);
        expect_fill_key(function, visible, 0, 0x0002, 2);
        expect_fill_key(function, visible, 1, 0x0002, 2);
    }
}

static void visible_sizes(void)
{
    static const uint64_t sizes[] = {
        16777216, 16777215, 12582912, 8388609, 8388608, 8388607, 4194304, 65537, 65536, 65535, 1
    };
    static const uint64_t wrong[] = { 0, 16777217, 33554432, 0x100000000, 0x100000001, UINT64_MAX };

    begin("visible sizes", MOST_SECTORS);
    start();
    expect("N in the record", fields()->native, MOST_SECTORS);
    for (unsigned i = 0; i < sizeof sizes / sizeof sizes[0]; i++) {
        hide_from(sizes[i]);
        last_sector(sizes[i]);
        sums(sizes[i]);
        for (unsigned k = 0; k < sizeof wrong / sizeof wrong[0]; k++)
            expect("answer of set V", BOTH(set_visible, wrong[k]) >> 32, SCT_BAD_VALUE);
        expect("V in the record", fields()->visible, sizes[i]);
    }
    disks_hold();
}

/* ---- Lengths ------------------------------------------------------------------------ */

/* "the disk isn't N sectors (power-on: not 1 to 65,536 whole sectors)", W-207: 16,777,216. */
static void lengths_at_power_on(void)
{
    static const struct { uint64_t disk, check; uint32_t answer; } lengths[] = {
        { 512, 2, SCT_DONE }, { 33553920, 131070, SCT_DONE }, { 33554432, 131072, SCT_DONE },
        { 33554944, 131074, SCT_DONE },
        { 4294967295, 16777216, SCT_BAD_LENGTH }, { 4294967296, 16777216, SCT_DONE },
        { 4294967296, 0, SCT_BAD_LENGTH }, { 4294967297, 16777216, SCT_BAD_LENGTH },
        { 4294967808, 16777218, SCT_DONE }, { 4294967808, 2, SCT_BAD_LENGTH }, { 512, 16777218, SCT_BAD_LENGTH },
        { 8589934080, 33554430, SCT_DONE }, { 8589934080, 33554432, SCT_BAD_LENGTH },
        { 8589934591, 33554432, SCT_BAD_LENGTH }, { 8589934592, 33554432, SCT_DONE },
        { 8589934592, 33554430, SCT_BAD_LENGTH }, { 8589934592, 33554431, SCT_BAD_LENGTH },
        { 8589934592, 33554433, SCT_BAD_LENGTH }, { 8589934592, 33554434, SCT_BAD_LENGTH },
        { 8589934592, 0, SCT_BAD_LENGTH }, { 8589934593, 33554432, SCT_BAD_LENGTH },
        { 8589935104, 33554434, SCT_BAD_LENGTH }, { 8589935104, 33554432, SCT_BAD_LENGTH }
    };

    begin("lengths at power-on", MOST_SECTORS + 1);
    for (unsigned i = 0; i < sizeof lengths / sizeof lengths[0]; i++) {
        pass_lengths((size_t)lengths[i].disk, (size_t)lengths[i].check);
        expect("answer of power-on", BOTH(power_on, 0) >> 32, lengths[i].answer);
        if (lengths[i].answer == SCT_DONE)
            expect("N in the record", fields()->native, lengths[i].disk / 512);
    }
    disks_hold();
}

/* The record is of a disk of so many sectors: these lengths are not its own. */
static void expect_bad_lengths(uint64_t sectors, uint64_t disk, uint64_t check)
{
    pass_lengths((size_t)sectors * SCT_SECTOR_BYTES, (size_t)sectors * SCT_CHECK_BYTES);
    start();
    pass_lengths((size_t)disk, (size_t)check);
    expect("answer of serve", BOTH(serve, 0) >> 32, SCT_BAD_LENGTH);
    expect("answer of work", BOTH(work, 1) >> 32, SCT_BAD_LENGTH);
    expect("answer of repair", BOTH(repair, 0) >> 32, SCT_BAD_LENGTH);
}

static void lengths_of_other_disks(void)
{
    begin("lengths of other disks", MOST_SECTORS + 1);
    expect_bad_lengths(1, 4294967808, 2);
    expect_bad_lengths(8388609, 512, 16777218);
    expect_bad_lengths(8388608, 0, 16777216);
    expect_bad_lengths(16777216, 0, 33554432);
    expect_bad_lengths(16777216, 4294967296, 33554432);
    expect_bad_lengths(16777216, 8589934592, 0);
    expect_bad_lengths(16777216, 8589934592, 16777216);
    expect_bad_lengths(16777216, 8589934080, 33554430);
    expect_bad_lengths(16777216, 8589935104, 33554434);
    expect_bad_lengths(16777215, 8589934592, 33554432);
    disks_hold();
}

/* ---- Images ------------------------------------------------------------------------- */

/* Both sides' image: its N and V, in each of the two entries. */
static void put_sizes(uint64_t native, uint64_t visible)
{
    for (int s = 0; s < 2; s++) {
        for (unsigned entry = 0; entry < 2; entry++) {
            put64(twin.side[s].image + SCT_ENTRY_BYTES * entry, native);
            put64(twin.side[s].image + SCT_ENTRY_BYTES * entry + 8, visible);
        }
    }
}

/* An image of a disk of 16,777,216 sectors, with V = 8,388,608 in its first entry; and what power-on makes of it. */
static void saved_and_restored(void)
{
    static const uint8_t first_sizes[16] = { 0, 0, 0, 1, 0, 0, 0, 0, 0, 0, 0x80 };
    static const uint8_t second_sizes[16] = { 0, 0, 0, 1, 0, 0, 0, 0, 0, 0, 0, 1 };
    const uint8_t *image = twin.side[0].image;

    start();
    show(8388608);
    expect("answer of save", BOTH(save, 0), SCT_DONE);
    show(16777216);
    expect("answer of save", BOTH(save, 560), SCT_DONE);
    expect("sizes in the first entry", memcmp(image, first_sizes, 16) != 0, 0);
    expect("sizes in the second", memcmp(image + 560, second_sizes, 16) != 0, 0);
    expect("answer of power-on", BOTH(power_on, 560), SCT_DONE);
    expect("V", fields()->visible, 8388608);
    expect("answer of power-on", BOTH(power_on, 1120), SCT_DONE);
    expect("V", fields()->visible, 16777216);
}

static void images(void)
{
    static const struct { uint64_t native, visible; uint32_t answer; } sizes[] = {
        { 65536, 65536, SCT_OTHER_DISK }, { 65537, 65537, SCT_OTHER_DISK }, { 65537, 1, SCT_OTHER_DISK },
        { 16777215, 16777215, SCT_OTHER_DISK }, { 16777215, 16777216, SCT_BAD_IMAGE },
        { 16777216, 0, SCT_BAD_IMAGE }, { 16777216, 16777215, SCT_DONE }, { 16777216, 16777217, SCT_BAD_IMAGE },
        { 16777217, 1, SCT_BAD_IMAGE }, { 16777217, 16777217, SCT_BAD_IMAGE }, { 0x100000001, 1, SCT_BAD_IMAGE },
        { 0x10001000000, 1, SCT_BAD_IMAGE }
    };

    begin("images", MOST_SECTORS);
    saved_and_restored();
    for (unsigned i = 0; i < sizeof sizes / sizeof sizes[0]; i++) {
        put_sizes(sizes[i].native, sizes[i].visible);
        expect("answer of power-on", BOTH(power_on, 1120) >> 32, sizes[i].answer);
        expect("answer of save", BOTH(save, 1120) >> 32, sizes[i].answer);
    }
    put_sizes(16777216, 16777216);
    for (int s = 0; s < 2; s++)
        put64(twin.side[s].image, 65536);       /* "all entries have the same N" */
    expect("answer of power-on, two N", BOTH(power_on, 1120) >> 32, SCT_BAD_IMAGE);
    put_sizes(16777216, 16777216);
    pass_lengths(8589934080, 33554430);
    expect("answer of power-on, one sector less", BOTH(power_on, 1120) >> 32, SCT_OTHER_DISK);
    pass_lengths(33554432, 131072);
    expect("answer of power-on, 65,536 sectors", BOTH(power_on, 1120) >> 32, SCT_OTHER_DISK);
    disks_hold();
}

void run_sectors(void)
{
    expect("the header's limit", SCT_NATIVE_LIMIT, MOST_SECTORS);
    reads_and_writes();
    longs_and_repairs();
    visible_sizes();
    lengths_at_power_on();
    lengths_of_other_disks();
    images();
}
