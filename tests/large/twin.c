#define _POSIX_C_SOURCE 200809L
#include "twin.h"

#include <stdio.h>
#include <stdlib.h>
#include <string.h>
#include <unistd.h>

#include "bytes.h"
#include "layout.h"
#include "pages.h"
#include "random.h"

enum { TIME_LIMIT = 120, JUNK = 0xEE };    /* seconds, of a sequence */

struct twin twin;

/* ---- Failing ---------------------------------------------------------------- */

void differ(const char *what)
{
    printf("DIFFERENT: %s\n  in the sequence '%s', after step %llu (%s %llu)\n", what, twin.sequence,
           (unsigned long long)twin.steps, twin.step, (unsigned long long)twin.number);
    exit(1);
}

void expect(const char *what, uint64_t got, uint64_t wanted)
{
    if (got == wanted)
        return;
    printf("  got %llu, wanted %llu\n", (unsigned long long)got, (unsigned long long)wanted);
    differ(what);
}

/* ---- Making and placing ------------------------------------------------------ */

static size_t disk_bytes(uint64_t sectors)
{
    return (size_t)sectors * SCT_SECTOR_BYTES;
}

static size_t check_bytes(uint64_t sectors)
{
    return (size_t)sectors * SCT_CHECK_BYTES;
}

void side_make(struct side *side, const struct implementation *code, uint64_t sectors)
{
    side->code = code;
    arena_make(&side->disk, disk_bytes(sectors));
    arena_make(&side->check_area, check_bytes(sectors));
}

void side_place(struct side *side, uint64_t sectors)
{
    side->disk_length = disk_bytes(sectors);
    side->check_length = check_bytes(sectors);
    arena_clear(&side->disk);
    arena_clear(&side->check_area);
    arena_place(&side->disk, side->disk_length, AT_END, 0);
    arena_place(&side->check_area, side->check_length, AT_END, 0);
}

void twin_make(void)
{
    side_make(&twin.side[0], &archive, SCT_NATIVE_LIMIT + 1);
    side_make(&twin.side[1], &reference, SCT_NATIVE_LIMIT + 1);
}

void pass_lengths(size_t disk_length, size_t check_length)
{
    expect("lengths within the buffers", disk_length <= twin.side[0].disk.length &&
                                         check_length <= twin.side[0].check_area.length, true);
    for (int s = 0; s < 2; s++) {
        twin.side[s].disk_length = disk_length;
        twin.side[s].check_length = check_length;
    }
}

/* ---- Steps ------------------------------------------------------------------- */

uint64_t do_power_on(struct side *s, uint64_t used)
{
    return (uint64_t)s->code->power_on(s->record, sizeof s->record, s->area, sizeof s->area,
                                       s->disk.buffer, s->disk_length, s->check_area.buffer, s->check_length,
                                       s->image, sizeof s->image, used) << 32;
}

uint64_t do_take(struct side *s, uint64_t port)
{
    uint32_t answer = s->code->take(s->record, sizeof s->record, (uint32_t)port, s->mail, sizeof s->mail,
                                    s->area, sizeof s->area);

    memset(s->mail, JUNK, sizeof s->mail);
    return (uint64_t)answer << 32;
}

uint64_t do_serve(struct side *s, uint64_t port)
{
    return (uint64_t)s->code->serve(s->record, sizeof s->record, (uint32_t)port, s->area, sizeof s->area,
                                    s->disk.buffer, s->disk_length, s->check_area.buffer, s->check_length) << 32;
}

uint64_t do_give(struct side *s, uint64_t port)
{
    return (uint64_t)s->code->give(s->record, sizeof s->record, (uint32_t)port, s->mail, sizeof s->mail,
                                   s->area, sizeof s->area) << 32;
}

uint64_t do_work(struct side *s, uint64_t n)
{
    return s->code->work(s->record, sizeof s->record, s->area, sizeof s->area,
                         s->disk.buffer, s->disk_length, s->check_area.buffer, s->check_length, (uint32_t)n);
}

uint64_t do_lock(struct side *s, uint64_t unused)
{
    (void)unused;
    return (uint64_t)s->code->lock(s->record, sizeof s->record) << 32;
}

uint64_t do_unlock(struct side *s, uint64_t unused)
{
    (void)unused;
    return (uint64_t)s->code->unlock(s->record, sizeof s->record) << 32;
}

uint64_t do_set_visible(struct side *s, uint64_t visible)
{
    return (uint64_t)s->code->set_visible(s->record, sizeof s->record, visible) << 32;
}

uint64_t do_sample(struct side *s, uint64_t reading)
{
    return (uint64_t)s->code->sample(s->record, sizeof s->record, (uint8_t)reading) << 32;
}

uint64_t do_repair(struct side *s, uint64_t lba)
{
    return s->code->repair(s->record, sizeof s->record, s->disk.buffer, s->disk_length,
                           s->check_area.buffer, s->check_length, lba);
}

uint64_t do_save(struct side *s, uint64_t used)
{
    return (uint64_t)s->code->save(s->record, sizeof s->record, s->image, sizeof s->image, used) << 32;
}

static void results_agree(const uint64_t result[2])
{
    if (result[0] == result[1])
        return;
    for (int s = 0; s < 2; s++)
        printf("  %s: answer %u, report %u\n", twin.side[s].code->name, sct_work_answer(result[s]),
               sct_work_sectors(result[s]));
    differ("the results");
}

/* All but the disks. */
static void buffers_agree(void)
{
    const struct side *a = &twin.side[0], *b = &twin.side[1];

    if (memcmp(a->record, b->record, sizeof a->record) != 0) {
        print_record_difference(stdout, a->code->name, a->record, b->code->name, b->record);
        differ("the records");
    }
    if (memcmp(a->area, b->area, sizeof a->area) != 0)
        differ("the private areas");
    if (memcmp(a->mail, b->mail, sizeof a->mail) != 0)
        differ("the mailboxes");
    if (memcmp(a->image, b->image, sizeof a->image) != 0)
        differ("the images");
}

uint64_t both(const char *name, step *call, uint64_t number)
{
    uint64_t result[2];

    twin.step = name;
    twin.number = number;
    twin.steps++;
    for (int s = 0; s < 2; s++)
        result[s] = call(&twin.side[s], number);
    results_agree(result);
    buffers_agree();
    return result[0];
}

void exchange(uint32_t port, uint8_t *mail)
{
    for (int s = 0; s < 2; s++)
        memcpy(twin.side[s].mail, mail, SCT_MAILBOX_BYTES);
    expect("answer of take", BOTH(take, port), SCT_DONE);
    expect("answer of serve", BOTH(serve, port), SCT_DONE);
    expect("answer of give", BOTH(give, port), SCT_DONE);
    memcpy(mail, twin.side[0].mail, SCT_MAILBOX_BYTES);
    twin.exchanges++;
}

/* ---- What the harness writes ------------------------------------------------- */

void sector_for(uint8_t *sector, uint64_t lba)
{
    struct random r = random_for(207, lba);

    random_bytes(&r, sector, SCT_SECTOR_BYTES);
    put64(sector, lba);
}

void put_sectors(uint64_t first, uint64_t count, const uint8_t *sector, uint16_t check)
{
    for (int s = 0; s < 2; s++) {
        for (uint64_t lba = first; lba < first + count; lba++) {
            memcpy(twin.side[s].disk.buffer + disk_bytes(lba), sector, SCT_SECTOR_BYTES);
            put16(twin.side[s].check_area.buffer + check_bytes(lba), check);
        }
    }
}

void flip(uint64_t lba, unsigned bit)
{
    for (int s = 0; s < 2; s++)
        twin.side[s].disk.buffer[disk_bytes(lba) + bit / 8] ^= (uint8_t)(1u << bit % 8);
}

/* ---- Comparing disks ---------------------------------------------------------- */

void expect_at(uint64_t disk_place, const uint8_t *sector, uint64_t check_place, uint16_t check)
{
    for (int s = 0; s < 2; s++) {
        if (memcmp(twin.side[s].disk.buffer + disk_place, sector, SCT_SECTOR_BYTES) != 0) {
            printf("  %s, from byte %llu of the disk on\n", twin.side[s].code->name, (unsigned long long)disk_place);
            differ("not the sector that must be there");
        }
        expect("check bytes", get16(twin.side[s].check_area.buffer + check_place), check);
    }
}

/* Prints the first byte in which two runs differ, as one of a buffer that begins at `buffer`. */
static void print_byte(const char *name, const uint8_t *buffer, const uint8_t *at, const uint8_t *wanted, size_t bytes)
{
    size_t i = 0;

    while (i < bytes && at[i] == wanted[i])
        i++;
    printf("  byte %lld of the %s: %02Xh, not %02Xh\n", (long long)(at + i - buffer), name, at[i], wanted[i]);
}

/* The same bytes of both sides. */
static void bytes_agree(const char *name, const struct arena *a, const uint8_t *at, const uint8_t *wanted, size_t bytes)
{
    if (memcmp(at, wanted, bytes) == 0)
        return;
    print_byte(name, a->buffer, at, wanted, bytes);
    differ("archive and reference");
}

static void disk_page_agrees(size_t page)
{
    const struct arena *a = &twin.side[0].disk, *b = &twin.side[1].disk;

    bytes_agree("disk", a, a->base + page * PAGE_BYTES, b->base + page * PAGE_BYTES, PAGE_BYTES);
}

static void check_page_agrees(size_t page)
{
    const struct arena *a = &twin.side[0].check_area, *b = &twin.side[1].check_area;

    bytes_agree("check area", a, a->base + page * PAGE_BYTES, b->base + page * PAGE_BYTES, PAGE_BYTES);
}

void sectors_agree(uint64_t first, uint64_t count)
{
    const struct side *a = &twin.side[0], *b = &twin.side[1];

    if (first >= twin.sectors)
        return;
    if (count > twin.sectors - first)
        count = twin.sectors - first;
    bytes_agree("disk", &a->disk, a->disk.buffer + disk_bytes(first), b->disk.buffer + disk_bytes(first),
                disk_bytes(count));
    bytes_agree("check area", &a->check_area, a->check_area.buffer + check_bytes(first),
                b->check_area.buffer + check_bytes(first), check_bytes(count));
}

/* Looks at all pages that either side has touched. */
static void look_at_all(void (*at_disk)(size_t), void (*at_check_area)(size_t))
{
    const struct side *a = &twin.side[0], *b = &twin.side[1];

    twin.pages += each_touched(a->disk.base, b->disk.base, a->disk.capacity / PAGE_BYTES, at_disk);
    twin.pages += each_touched(a->check_area.base, b->check_area.base, a->check_area.capacity / PAGE_BYTES,
                               at_check_area);
    for (int s = 0; s < 2; s++)
        if (!arena_guards_hold(&twin.side[s].disk) || !arena_guards_hold(&twin.side[s].check_area))
            differ("written outside the disk or the check area");
}

void disks_agree(void)
{
    look_at_all(disk_page_agrees, check_page_agrees);
}

/* ---- What a sequence says that the disk must hold ------------------------------ */

enum { MOST_RUNS = 200 };

static struct run {
    uint64_t first, end;
    uint8_t  sector[SCT_SECTOR_BYTES];
    uint16_t check;
} runs[MOST_RUNS];

static unsigned run_count;

void must_hold(uint64_t first, uint64_t count, const uint8_t *sector, uint16_t check)
{
    struct run *run = &runs[run_count];

    expect("room for what must hold", run_count < MOST_RUNS, true);
    run_count++;
    run->first = first;
    run->end = first + count;
    memcpy(run->sector, sector, SCT_SECTOR_BYTES);
    run->check = check;
}

/* The latest run that has this sector; zeros, whose check is 0, if there is none. */
static const struct run *run_of(uint64_t lba)
{
    static const struct run zeros;

    for (unsigned i = run_count; i > 0; i--)
        if (runs[i - 1].first <= lba && lba < runs[i - 1].end)
            return &runs[i - 1];
    return &zeros;
}

/* What these bytes must hold, so many for each sector: zeros before the buffer, which nobody may write. */
static const struct run *run_at(const struct arena *arena, const uint8_t *at, size_t bytes)
{
    return run_of(at < arena->buffer ? UINT64_MAX : (uint64_t)(at - arena->buffer) / bytes);
}

/* These bytes are, or have, some of the guard bytes before the buffer. */
static bool is_guard(const struct arena *arena, const uint8_t *at, size_t bytes)
{
    return at < arena->buffer && at + bytes > arena->buffer - GUARD_BYTES;
}

/* A page has whole sectors, as the disk ends at one's end. */
static void disk_page_holds(size_t page)
{
    const struct arena *disk = &twin.side[0].disk;
    const uint8_t *from = disk->base + page * PAGE_BYTES;

    disk_page_agrees(page);
    for (const uint8_t *at = from; at < from + PAGE_BYTES; at += SCT_SECTOR_BYTES) {
        const uint8_t *wanted;

        if (is_guard(disk, at, SCT_SECTOR_BYTES))
            continue;
        wanted = run_at(disk, at, SCT_SECTOR_BYTES)->sector;
        if (memcmp(at, wanted, SCT_SECTOR_BYTES) != 0) {
            print_byte("disk", disk->buffer, at, wanted, SCT_SECTOR_BYTES);
            differ("not what the disk must hold");
        }
    }
}

static void check_page_holds(size_t page)
{
    const struct arena *area = &twin.side[0].check_area;
    const uint8_t *from = area->base + page * PAGE_BYTES;

    check_page_agrees(page);
    for (const uint8_t *at = from; at < from + PAGE_BYTES; at += SCT_CHECK_BYTES) {
        uint8_t wanted[SCT_CHECK_BYTES];

        if (is_guard(area, at, SCT_CHECK_BYTES))
            continue;
        put16(wanted, run_at(area, at, SCT_CHECK_BYTES)->check);
        if (memcmp(at, wanted, SCT_CHECK_BYTES) != 0) {
            print_byte("check area", area->buffer, at, wanted, SCT_CHECK_BYTES);
            differ("not what the check area must hold");
        }
    }
}

void disks_hold(void)
{
    look_at_all(disk_page_holds, check_page_holds);
}

/* ---- Sequences ----------------------------------------------------------------- */

void begin(const char *name, uint64_t sectors)
{
    alarm(TIME_LIMIT);
    twin.sequence = name;
    twin.step = "none";
    twin.number = twin.steps = 0;
    twin.sectors = sectors;
    run_count = 0;
    for (int s = 0; s < 2; s++) {
        struct side *side = &twin.side[s];

        side_place(side, sectors);
        memset(side->record, JUNK, sizeof side->record);
        memset(side->area, JUNK, sizeof side->area);
        memset(side->mail, JUNK, sizeof side->mail);
        memset(side->image, JUNK, sizeof side->image);
    }
}
