/*
 * exchanges.c - random steps on large disks, with sector numbers about V, N and
 * the places where a narrow number goes wrong.
 *
 * From V on a few sectors get known bytes whenever V changes; they must keep
 * them while they are hidden.
 */
#include "ask.h"
#include "bytes.h"
#include "check.h"
#include "large.h"
#include "random.h"
#include "request.h"
#include "twin.h"

enum { ACTIONS = 5000, COMPARE_EVERY = 1000, HIDDEN = 4, MOST_FILLED = 48, WINDOW = 16 };

static struct random random_state;
static struct random *const r = &random_state;
static uint64_t native, visible, used;
static uint8_t  mail[SCT_MAILBOX_BYTES];

/* ---- Numbers, drawn one to a statement: a seed must give the same everywhere ------- */

/* Where a narrow number goes wrong. */
static const uint64_t places[] = { 0, 65536, 4194304, 8388608, 12582912, 16777216 };

/* Within 4 of such a place, of V or of N, or a short fill before V; below 0 it is near 2^64. */
static uint64_t near_place(void)
{
    const uint64_t limits[] = { native, visible, visible, visible - MOST_FILLED };
    uint64_t place = once_in(r, 2) ? PICK(r, places) : PICK(r, limits);

    return place + below(r, 9) - 4;
}

/* Now and then right in its low bits only. */
static uint64_t any_lba(void)
{
    uint64_t lba = near_place();

    return once_in(r, 12) ? lba | (uint64_t)1 << between(r, 24, 63) : lba;
}

static uint64_t any_visible_lba(void)
{
    uint64_t lba = near_place();

    return lba < visible ? lba : visible - 1;
}

/* ---- What is compared after each action ---------------------------------------------- */

/* The sectors about the places, and about V. */
static void windows_agree(void)
{
    for (size_t i = 0; i < sizeof places / sizeof places[0]; i++)
        sectors_agree(places[i] < WINDOW ? 0 : places[i] - WINDOW, 2 * WINDOW);
    sectors_agree(visible < WINDOW ? 0 : visible - WINDOW, 2 * WINDOW);
}

static uint64_t hidden_count(void)
{
    return native - visible < HIDDEN ? native - visible : HIDDEN;
}

/* Takes V from the record, and gives the sectors from it on known bytes. */
static void hide(void)
{
    uint8_t sector[SCT_SECTOR_BYTES];

    visible = fields()->visible;
    for (uint64_t lba = visible; lba < visible + hidden_count(); lba++) {
        sector_for(sector, lba);
        put_sectors(lba, 1, sector, (uint16_t)~sector_check(sector));
    }
}

static void hidden_stays(void)
{
    uint8_t sector[SCT_SECTOR_BYTES];

    for (uint64_t lba = visible; lba < visible + hidden_count(); lba++) {
        sector_for(sector, lba);
        expect_at(lba * SCT_SECTOR_BYTES, sector, lba * SCT_CHECK_BYTES, (uint16_t)~sector_check(sector));
    }
}

/* ---- Actions ------------------------------------------------------------------------ */

static uint32_t any_port(void)
{
    return (uint32_t)below(r, SCT_PORTS);
}

static void read_or_write(void)
{
    bool write = once_in(r, 2);
    uint64_t lba = any_lba();

    build_sector(mail, write, lba, once_in(r, 20) ? 2 : 1);
    random_bytes(r, mail + R_SECTOR, SCT_SECTOR_BYTES);
    exchange(any_port(), mail);
}

/* The key, and mostly the transfer, with a right check or a wrong one. */
static void long_transfer(void)
{
    uint32_t port = any_port();
    bool write = once_in(r, 2);
    uint64_t lba = any_lba();

    build_long(mail, SMART, write ? 2 : 1, lba);
    exchange(port, mail);
    if (once_in(r, 8))
        return;
    build_log(mail, LOG_EXT, write, 0xE1, 2);
    random_bytes(r, mail + R_SECTOR, SCT_DATA_BYTES);
    if (once_in(r, 2))
        put16(mail + R_CHECK, sector_check(mail + R_SECTOR));
    exchange(port, mail);
}

static void read_status(void)
{
    build_status(mail, SMART);
    random_bytes(r, mail + R_SECTOR, SCT_DATA_BYTES);
    exchange(any_port(), mail);
}

/* The sectors that are left of the fill, by the record. */
static uint64_t left(void)
{
    return fields()->end - fields()->next;
}

/* A call of work; no more than a few sectors of a long fill are written. */
static void work(void)
{
    const uint64_t numbers[] = { 0, 1, 2, 7, left() - 1, left(), left() + 1, 0x10000, 0x1000000, 0xFFFFFFFF };
    uint64_t n = PICK(r, numbers);

    if (left() > MOST_FILLED && n > MOST_FILLED)
        n = between(r, 1, MOST_FILLED);
    BOTH(work, n);
}

static uint64_t any_count(uint64_t start)
{
    switch (below(r, 6)) {
    case 0:  return 0;
    case 1:  return visible - start + below(r, 3) - 1;      /* the sum is about V */
    case 2:  return 0 - start + below(r, 3);                /* about 2^64 */
    default: return between(r, 1, MOST_FILLED);
    }
}

static void fill(void)
{
    uint32_t port = any_port();
    uint16_t function = (uint16_t)between(r, 1, 2);
    uint64_t start = any_lba();
    uint64_t count = any_count(start);

    build_fill(mail, LOG_EXT, function, start, count, (uint32_t)random64(r));
    exchange(port, mail);
    if (function == 2) {
        build_data_write(mail, SMART);
        random_bytes(r, mail + R_SECTOR, SCT_SECTOR_BYTES);
        exchange(port, mail);
    }
    for (uint64_t i = below(r, 4); i > 0; i--) {
        work();
        read_status();
    }
}

/* One or two bits of a sector flip, perhaps; then it is repaired and read. */
static void repair(void)
{
    uint64_t lba = any_visible_lba();

    for (uint64_t flips = below(r, 3); flips > 0; flips--)
        flip(lba, (unsigned)below(r, 8 * SCT_SECTOR_BYTES));
    BOTH(repair, once_in(r, 8) ? any_lba() : lba);
    build_sector(mail, false, lba, 1);
    exchange(any_port(), mail);
}

static void set_visible(void)
{
    BOTH(set_visible, once_in(r, 4) ? between(r, 1, native) : near_place());
    hide();
}

static void lock_for_a_while(void)
{
    BOTH(lock, 0);
    read_or_write();
    long_transfer();
    BOTH(unlock, 0);
}

/* The settings are saved, and sometimes power is lost. */
static void save(void)
{
    BOTH(sample, random64(r) % 256);
    if (used == ENTRIES_ROOM * SCT_ENTRY_BYTES)
        used = 0;
    BOTH(save, used);
    used += SCT_ENTRY_BYTES;
    if (once_in(r, 2))
        return;
    BOTH(power_on, once_in(r, 3) ? 0 : used);
    hide();
}

static void any_action(void)
{
    switch (below(r, 20)) {
    case 0:
    case 1:
    case 2:
    case 3:
    case 4:
    case 5:  read_or_write(); break;
    case 6:
    case 7:
    case 8:  long_transfer(); break;
    case 9:
    case 10:
    case 11:
    case 12: fill(); break;
    case 13: work(); break;
    case 14: read_status(); break;
    case 15:
    case 16: repair(); break;
    case 17: set_visible(); break;
    case 18: lock_for_a_while(); break;
    default: save(); break;
    }
}

static void run_list(const char *name, uint64_t sectors)
{
    *r = random_for(207, sectors);
    native = sectors;
    used = 0;
    begin(name, sectors);
    expect("answer of power-on", BOTH(power_on, 0), SCT_DONE);
    hide();
    for (unsigned i = 0; i < ACTIONS; i++) {
        any_action();
        windows_agree();
        hidden_stays();
        if (i % COMPARE_EVERY == 0)
            disks_agree();
    }
    disks_agree();
}

void run_random(void)
{
    run_list("random steps, 16,777,216 sectors", 16777216);
    run_list("random steps, 16,777,215 sectors", 16777215);
    run_list("random steps, 8,388,609 sectors", 8388609);
    run_list("random steps, 65,537 sectors", 65537);
}
