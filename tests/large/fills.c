/* fills.c - fills of large disks, with their outcomes as numbers. */
#include "ask.h"
#include "check.h"
#include "large.h"
#include "twin.h"

/* What the sectors of a fill hold: by pattern, or a sector of our choice. */
static void fill_content(uint16_t function, uint64_t first, uint8_t *sector)
{
    if (function == 1)
        pattern_sector(sector);
    else
        sector_for(sector, first);
}

/* The fill of these sectors is asked for, by pattern or by sector, and has begun; it has this content. */
static void ask_fill(uint16_t function, uint64_t first, uint64_t count, uint64_t end, uint8_t *sector)
{
    fill_content(function, first, sector);
    expect_fill_key(function, first, count, 0, 0);
    if (function == 2) {
        expect("first sector of the pending fill", fields()->slot[0].first, first);
        expect("its end", fields()->slot[0].end, end);
        send_fill_sector(sector);
    }
    expect("first sector of the fill", fields()->first, first);
    expect("its end", fields()->end, end);
    expect_status(5, 0xFFFF, first, 0);
}

/* A fill to `end` is over: all its sectors hold its content. */
static void fill_over(uint64_t first, uint64_t end, const uint8_t *sector, uint8_t flag)
{
    expect_status(0, 0x0000, 0, flag);
    expect("the fill's numbers in the record", fields()->first | fields()->next | fields()->end, 0);
    must_hold(first, end - first, sector, sector_check(sector));
    expect_work(0xFFFFFFFF, 0);
}

/* ---- Fills across the places where a narrow number goes wrong ----------------------- */

/* Worked in four calls: 3 sectors, none, up to `line`, and far more than are left. */
static void fill_across(uint16_t function, uint64_t first, uint64_t count, uint64_t line, uint64_t end)
{
    uint8_t sector[SCT_SECTOR_BYTES];

    ask_fill(function, first, count, end, sector);
    expect_work(3, 3);
    expect_status(5, 0xFFFF, first + 3, 0);
    expect_work(0, 0);
    expect_work((uint32_t)(line - first - 3), (uint32_t)(line - first - 3));
    expect_status(5, 0xFFFF, line, 0);
    expect("next sector in the record", fields()->next, line);
    expect_work(0xFFFFFFFF, (uint32_t)(end - line));
    fill_over(first, end, sector, 0);
}

static void short_fills(void)
{
    begin("short fills", MOST_SECTORS);
    start();
    for (uint16_t function = 1; function <= 2; function++) {
        fill_across(function, 65530, 12, 65536, 65542);
        fill_across(function, 4194299, 9, 4194304, 4194308);
        fill_across(function, 8388600, 20, 8388608, 8388620);
        fill_across(function, 12582900, 13, 12582912, 12582913);
        fill_across(function, 16777180, 20, 16777199, 16777200);
        fill_across(function, 16777200, 0, 16777215, 16777216);
        fill_across(function, 16777190, 26, 16777200, 16777216);
    }
    disks_hold();
}

/* n is exactly what is left, one less, and the last sector alone. */
static void exact_fills(void)
{
    uint8_t sector[SCT_SECTOR_BYTES];

    begin("fills by exact numbers", MOST_SECTORS);
    start();
    ask_fill(1, 8388606, 4, 8388610, sector);
    expect_work(4, 4);
    fill_over(8388606, 8388610, sector, 0);
    ask_fill(2, 16777211, 5, 16777216, sector);
    expect_work(4, 4);
    expect_status(5, 0xFFFF, 16777215, 0);
    expect_work(1, 1);
    fill_over(16777211, 16777216, sector, 0);
    ask_fill(1, 16777215, 0, 16777216, sector);
    expect_work(2, 1);
    fill_over(16777215, 16777216, sector, 0);
    disks_hold();
}

/* A fill stops where V is set, at 4 GiB; what is hidden then stays. */
static void stopped_fill(void)
{
    uint8_t sector[SCT_SECTOR_BYTES];

    begin("a stopped fill", MOST_SECTORS);
    start();
    ask_fill(1, 8388600, 0, 16777216, sector);
    expect_work(7, 7);
    show(8388608);
    expect_status(0, 0x0008, 0, 0);
    expect_work(0xFFFFFFFF, 0);
    must_hold(8388600, 7, sector, sector_check(sector));
    ask_fill(2, 8388605, 0, 8388608, sector);
    expect_work(0xFFFFFFFF, 3);
    fill_over(8388605, 8388608, sector, 0);
    disks_hold();
}

/* ---- Fills of 65,536 sectors and more ------------------------------------------------ */

/*
 * One call writes them all. A fill from 0 that does not end at V sets no flag,
 * though end and V have the same low 16 bits.
 */
static void fill_of_65536(void)
{
    uint8_t sector[SCT_SECTOR_BYTES];

    begin("a fill of 65,536 sectors", MOST_SECTORS);
    start();
    ask_fill(1, 0, 65536, 65536, sector);
    expect_work(0xFFFFFFFF, 65536);
    fill_over(0, 65536, sector, 0);
    expect_at(33553920, sector, 131070, sector_check(sector));
    disks_hold();
}

static void fill_of_70000(void)
{
    uint8_t sector[SCT_SECTOR_BYTES];

    begin("a fill of 70,000 sectors in one call", MOST_SECTORS);
    start();
    ask_fill(2, 8353608, 70000, 8423608, sector);
    expect_work(0xFFFFFFFF, 70000);
    fill_over(8353608, 8423608, sector, 0);
    expect_at(4312886784, sector, 16847214, sector_check(sector));
    disks_hold();
}

static void fill_to_last(void)
{
    uint8_t sector[SCT_SECTOR_BYTES];

    begin("a fill of 65,540 sectors to the last one", MOST_SECTORS);
    start();
    ask_fill(1, 16711676, 65540, 16777216, sector);
    expect_work(65536, 65536);
    expect_status(5, 0xFFFF, 16777212, 0);
    expect_work(65536, 4);
    fill_over(16711676, 16777216, sector, 0);
    expect_at(8589934080, sector, 33554430, sector_check(sector));
    disks_hold();
}

/* The whole visible disk: the flag is set at its end, and cleared by a write, as before. */
static void whole_disk(uint64_t native, uint64_t visible, uint64_t count)
{
    uint8_t sector[SCT_SECTOR_BYTES];

    begin("a fill of the whole visible disk", native);
    start();
    show(visible);
    ask_fill(1, 0, count, visible, sector);
    expect_work((uint32_t)(visible - 1), (uint32_t)(visible - 1));
    expect_status(5, 0xFFFF, visible - 1, 0);
    expect_work(0xFFFFFFFF, 1);
    fill_over(0, visible, sector, 1);
    sector_for(sector, visible - 1);
    expect_write(visible - 1, sector, 0);
    must_hold(visible - 1, 1, sector, sector_check(sector));
    expect_status(0, 0x0000, 0, 0);
    disks_hold();
}

/* A fill of all 16,777,216 sectors, of which the record says that all but five are written: its end sets the flag. */
static void end_of_whole_disk(void)
{
    uint8_t sector[SCT_SECTOR_BYTES];
    struct record_fields f;

    begin("the end of a fill of 16,777,216 sectors", MOST_SECTORS);
    start();
    ask_fill(1, 0, 16777216, 16777216, sector);
    f = *fields();
    f.next = 16777211;
    for (int s = 0; s < 2; s++)
        encode_record(twin.side[s].record, &f);
    expect_work(4, 4);
    expect_status(5, 0xFFFF, 16777215, 0);
    expect_work(0xFFFFFFFF, 1);
    fill_over(16777211, 16777216, sector, 1);
    disks_hold();
}

/* ---- Disks of other sizes ------------------------------------------------------------ */

/* The last sectors of a disk of so many: written, filled, read; there is none behind them. */
static void last_of(const char *name, uint64_t sectors)
{
    uint8_t sector[SCT_SECTOR_BYTES];

    begin(name, sectors);
    start();
    expect("N", fields()->native, sectors);
    expect("V", fields()->visible, sectors);
    sector_for(sector, sectors - 1);
    write_long(sectors - 1, sector, sector_check(sector));
    expect_at((sectors - 1) * 512, sector, (sectors - 1) * 2, sector_check(sector));
    expect_read(sectors - 1, sector, 0);
    expect_read(sectors, sector, 0x10);
    expect_write(sectors, sector, 0x10);
    expect("answer of set V", BOTH(set_visible, sectors + 1) >> 32, SCT_BAD_VALUE);
    must_hold(sectors - 1, 1, sector, sector_check(sector));
    expect_fill_key(1, sectors - 9, 10, 0x0002, 6);
    fill_across(2, sectors - 9, 0, sectors - 1, sectors);
    expect_repair(sectors - 1, 0);
    disks_hold();
}

void run_fills(void)
{
    short_fills();
    exact_fills();
    stopped_fill();
    fill_of_65536();
    fill_of_70000();
    fill_to_last();
    whole_disk(16777216, 65537, 0);
    whole_disk(65537, 65537, 65537);
    end_of_whole_disk();
    last_of("a disk of 65,537 sectors", 65537);
    last_of("a disk of 8,388,609 sectors", 8388609);
    last_of("a disk of 16,777,215 sectors", 16777215);
}
