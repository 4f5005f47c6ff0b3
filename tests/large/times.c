/*
 * times.c - a fill of 1 GiB, and times: that of the fill beside memcpy of the
 * same sectors, and that of calls on a disk of 64 sectors beside the largest.
 * What is compared is measured in turn within each round; the medians of the
 * rounds are printed.
 */
#include <stdio.h>
#include <string.h>

#include "ask.h"
#include "check.h"
#include "large.h"
#include "measure.h"
#include "request.h"
#include "twin.h"

/* ---- A fill of 1 GiB --------------------------------------------------------------- */

/* The last 2,097,152 sectors. */
enum { GIGABYTE_FIRST = 14680064, GIGABYTE_SECTORS = 2097152, AT_ONCE = 65536, GIGABYTE_ROUNDS = 9 };

/* Worked in four calls, the first and the last of them short; every byte is compared with what it must be. */
static void fill_gigabyte(void)
{
    uint8_t sector[SCT_SECTOR_BYTES];

    pattern_sector(sector);
    begin("a fill of 1 GiB", MOST_SECTORS);
    start();
    expect_fill_key(1, GIGABYTE_FIRST, 0, 0, 0);
    expect_work(1000, 1000);
    expect_work(1000000, 1000000);
    expect_status(5, 0xFFFF, 15681064, 0);
    expect_work(1096151, 1096151);
    expect_status(5, 0xFFFF, 16777215, 0);
    expect_work(0xFFFFFFFF, 1);
    expect_status(0, 0x0000, 0, 0);
    must_hold(GIGABYTE_FIRST, GIGABYTE_SECTORS, sector, sector_check(sector));
    disks_hold();
}

/* An exchange of one side alone. */
static void side_exchange(struct side *side, const uint8_t *request)
{
    memcpy(side->mail, request, SCT_MAILBOX_BYTES);
    expect("answers of an exchange", do_take(side, 0) | do_serve(side, 0) | do_give(side, 0), SCT_DONE);
    expect("its Status", side->mail[R_STATUS], 0x50);
}

/* Nanoseconds for a sector by the archive's work; the key is not counted. */
static double time_of_work(struct side *side)
{
    uint8_t request[SCT_MAILBOX_BYTES];
    double from;

    build_fill(request, SMART, 1, GIGABYTE_FIRST, 0, FILL_PATTERN);
    side_exchange(side, request);
    from = nanoseconds_now();
    for (unsigned i = 0; i < GIGABYTE_SECTORS / AT_ONCE; i++)
        expect("result of work", do_work(side, AT_ONCE), AT_ONCE);
    return (nanoseconds_now() - from) / GIGABYTE_SECTORS;
}

/* The same by memcpy, without check bytes. */
static double time_of_copies(struct side *side)
{
    uint8_t sector[SCT_SECTOR_BYTES];
    double from;

    pattern_sector(sector);
    from = nanoseconds_now();
    for (uint64_t lba = GIGABYTE_FIRST; lba < MOST_SECTORS; lba++)
        copy_bytes(side->disk.buffer + lba * SCT_SECTOR_BYTES, sector, SCT_SECTOR_BYTES);
    return (nanoseconds_now() - from) / GIGABYTE_SECTORS;
}

void run_gigabyte(void)
{
    static double works[GIGABYTE_ROUNDS], copies[GIGABYTE_ROUNDS];
    struct side *side = &twin.side[0];
    double work, copy;

    fill_gigabyte();        /* has touched all pages */
    for (unsigned i = 0; i < GIGABYTE_ROUNDS; i++) {
        if (i % 2 == 0)
            works[i] = time_of_work(side);
        copies[i] = time_of_copies(side);
        if (i % 2 != 0)
            works[i] = time_of_work(side);
    }
    work = median(works, GIGABYTE_ROUNDS);
    copy = median(copies, GIGABYTE_ROUNDS);
    printf("fill of 1 GiB to the last sector of 8 GiB, nanoseconds for a sector, median of %d rounds\n", GIGABYTE_ROUNDS);
    printf("%-36s %10s %10s %8s\n", "", "archive", "memcpy", "ratio");
    printf("%-36s %10.1f %10.1f %8.2f\n", "work, a sector, 65536 in a call", work, copy, work / copy);
}

/* ---- Calls on a small disk and on the largest ----------------------------------------- */

enum { SMALL_SECTORS = 64, TIMES = 2000, ROUNDS = 31 };

static uint8_t request[SCT_MAILBOX_BYTES];

static uint64_t last_lba(const struct side *side)
{
    return side->disk_length / SCT_SECTOR_BYTES - 1;
}

static void side_start(struct side *side)
{
    expect("answer of power-on", do_power_on(side, 0), SCT_DONE);
}

/* Nanoseconds for one call of a step that must be done, with this number. */
static double time_of_step(struct side *side, step *call, uint64_t number)
{
    double from;

    side_start(side);
    from = nanoseconds_now();
    for (unsigned i = 0; i < TIMES; i++)
        expect("result of a step that is measured", call(side, number), SCT_DONE);
    return (nanoseconds_now() - from) / TIMES;
}

/* For one exchange of the request. */
static double time_of_exchange(struct side *side)
{
    double from;

    side_start(side);
    from = nanoseconds_now();
    for (unsigned i = 0; i < TIMES; i++)
        side_exchange(side, request);
    return (nanoseconds_now() - from) / TIMES;
}

static double power_on_time(struct side *side)
{
    return time_of_step(side, do_power_on, 0);
}

static double status_time(struct side *side)
{
    build_status(request, SMART);
    return time_of_exchange(side);
}

static double key_time(struct side *side)
{
    build_key(request, SMART, 3, 1, 1, 70, 0);
    return time_of_exchange(side);
}

static double read_time(struct side *side)
{
    build_sector(request, false, last_lba(side), 1);
    return time_of_exchange(side);
}

/* The last 64 sectors, in one call; the key is not counted. */
static double work_time(struct side *side)
{
    double spent = 0;

    side_start(side);
    build_fill(request, SMART, 1, last_lba(side) - (SMALL_SECTORS - 1), 0, FILL_PATTERN);
    for (unsigned i = 0; i < TIMES; i++) {
        double from;

        side_exchange(side, request);
        from = nanoseconds_now();
        expect("result of work", do_work(side, SMALL_SECTORS), SMALL_SECTORS);
        spent += nanoseconds_now() - from;
    }
    return spent / TIMES;
}

static double set_visible_time(struct side *side)
{
    return time_of_step(side, do_set_visible, last_lba(side));
}

static double lock_time(struct side *side)
{
    return time_of_step(side, do_lock, 0);
}

static double sample_time(struct side *side)
{
    return time_of_step(side, do_sample, 30);
}

static double save_time(struct side *side)
{
    return time_of_step(side, do_save, 0);
}

static double repair_time(struct side *side)
{
    return time_of_step(side, do_repair, last_lba(side));
}

static const struct { const char *name; double (*run)(struct side *); } rows[] = {
    { "power-on, no entry", power_on_time },
    { "exchange: status read", status_time },
    { "exchange: key, timer set", key_time },
    { "exchange: sector read, the last", read_time },
    { "work, the last 64 sectors", work_time },
    { "set V", set_visible_time },
    { "lock", lock_time },
    { "sample", sample_time },
    { "save, first entry", save_time },
    { "repair, check equal, the last", repair_time }
};

enum { ROWS = sizeof rows / sizeof rows[0] };

/* The row over this disk, and over the same other buffers whichever it is, as times depend on their places. */
static double time_over(const struct side *disk, unsigned row)
{
    static struct side side;

    side = *disk;
    return rows[row].run(&side);
}

void run_times(void)
{
    static struct side small;
    static double results[ROWS][2][ROUNDS];
    const struct side *disks[2] = { &small, &twin.side[0] };

    begin("times", MOST_SECTORS);
    side_make(&small, &archive, SMALL_SECTORS);
    side_place(&small, SMALL_SECTORS);
    for (unsigned i = 0; i < 2 * ROWS; i++)         /* touches the pages */
        time_over(disks[i % 2], i / 2);
    for (unsigned round = 0; round < ROUNDS; round++)
        for (unsigned i = 0; i < 2 * ROWS; i++) {
            unsigned d = (i + round) % 2;           /* the two take turns in coming first */

            results[i / 2][d][round] = time_over(disks[d], i / 2);
        }
    printf("archive, disks of 64 and of 16,777,216 sectors: nanoseconds, median of %d rounds\n", ROUNDS);
    printf("%-36s %10s %10s %8s\n", "", "64", "16777216", "ratio");
    for (unsigned row = 0; row < ROWS; row++) {
        double few = median(results[row][0], ROUNDS), many = median(results[row][1], ROUNDS);

        printf("%-36s %10.1f %10.1f %8.2f\n", rows[row].name, few, many, many / few);
    }
}
