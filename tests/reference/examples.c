/*
 * examples.c - the paper's marked examples, those of the change requests, and
 * the sentences that are easily read wrongly, with the outcome written down by
 * hand. Run on the reference and on the archive: this ties both to the papers
 * and not just to each other.
 */
#include <stdbool.h>
#include <stdio.h>
#include <string.h>

#include "arena.h"
#include "bytes.h"
#include "check.h"
#include "implementation.h"
#include "layout.h"
#include "random.h"
#include "request.h"

enum { SECTORS = 64 };

static const struct implementation *code;
static uint8_t device[SCT_RECORD_BYTES];
static uint8_t area[SCT_PRIVATE_BYTES];
static uint8_t disk[SECTORS * SCT_SECTOR_BYTES];
static uint8_t check_area[SECTORS * SCT_CHECK_BYTES];
static uint8_t image[3 * SCT_ENTRY_BYTES];
static uint8_t mail[SCT_MAILBOX_BYTES];
static unsigned wrong, tried;

static void expect(const char *what, uint64_t got, uint64_t wanted)
{
    tried++;
    if (got == wanted)
        return;
    wrong++;
    printf("%s: %s: got %llXh, wanted %llXh\n", code->name, what, (unsigned long long)got,
           (unsigned long long)wanted);
}

/* ---- Steps over the one disk ------------------------------------------------- */

static void power_on(uint64_t used)
{
    expect("power-on", code->power_on(device, sizeof device, area, sizeof area, disk, sizeof disk,
                                      check_area, sizeof check_area, image, sizeof image, used), SCT_DONE);
}

/* Zeros, whose check is zero too. */
static void clear_disk(void)
{
    memset(disk, 0, sizeof disk);
    memset(check_area, 0, sizeof check_area);
}

static void send(uint32_t port)
{
    expect("take", code->take(device, sizeof device, port, mail, sizeof mail, area, sizeof area), SCT_DONE);
    expect("serve", code->serve(device, sizeof device, port, area, sizeof area, disk, sizeof disk,
                                check_area, sizeof check_area), SCT_DONE);
    expect("give", code->give(device, sizeof device, port, mail, sizeof mail, area, sizeof area), SCT_DONE);
}

static uint32_t work(uint32_t n)
{
    uint64_t result = code->work(device, sizeof device, area, sizeof area, disk, sizeof disk,
                                 check_area, sizeof check_area, n);

    expect("work", sct_work_answer(result), SCT_DONE);
    return sct_work_sectors(result);
}

static void sample(uint8_t reading)
{
    expect("sample", code->sample(device, sizeof device, reading), SCT_DONE);
}

static void set_visible(uint64_t visible)
{
    expect("set V", code->set_visible(device, sizeof device, visible), SCT_DONE);
}

static void save(uint64_t used)
{
    expect("save", code->save(device, sizeof device, image, sizeof image, used), SCT_DONE);
}

static uint32_t repair(uint64_t lba)
{
    uint64_t result = code->repair(device, sizeof device, disk, sizeof disk, check_area, sizeof check_area, lba);

    expect("repair", sct_repair_answer(result), SCT_DONE);
    return sct_repair_report(result);
}

/* The status sector, read on port 3 (which stops nothing). */
static const uint8_t *status(void)
{
    build_status(mail, SMART);
    send(3);
    return mail + R_SECTOR;
}

static uint16_t stored_code(void)
{
    return get16(status() + 14);
}

/* The extended code of a key's reply, 0 if it is accepted. */
static void expect_key(const char *what, uint16_t wanted)
{
    send(0);
    expect(what, mail[R_ERROR] == 0 ? 0 : reply_value(mail), wanted);
    expect(what, mail[R_STATUS], wanted == 0 ? 0x50 : 0x51);
}

/* ---- The marked examples -------------------------------------------------------- */

static void fill_example_at(uint64_t visible, uint64_t start, uint64_t count, uint16_t wanted)
{
    char what[96];

    snprintf(what, sizeof what, "V %llu, fill, Start %llu, Count %llu", (unsigned long long)visible,
             (unsigned long long)start, (unsigned long long)count);
    power_on(0);
    set_visible(visible);
    build_fill(mail, SMART, 1, start, count, 0x5A5A5A5A);
    expect_key(what, wanted);
}

static void fill_example(uint64_t start, uint64_t count, uint16_t wanted)
{
    fill_example_at(SECTORS, start, count, wanted);
}

/* An accepted fill is worked to its end: Count sectors, no other, and the flag that there is then. */
static void fill_ends(uint64_t visible, uint64_t start, uint64_t count, uint8_t flag)
{
    unsigned right = 0;

    clear_disk();
    fill_example_at(visible, start, count, 0);
    expect("code of a fill that runs", stored_code(), 0xFFFF);
    expect("flag before its end", status()[6], 0);
    expect("work to its end", work(0xFFFFFFFF), count);
    expect("code at its end", stored_code(), 0);
    expect("flag at its end", status()[6], flag);
    for (uint64_t i = 0; i < SECTORS; i++)
        right += disk[i * SCT_SECTOR_BYTES] == (i >= start && i - start < count ? 0x5A : 0);
    expect("sectors that are as they must be", right, SECTORS);
}

static void key_example(const char *what, uint16_t action, uint16_t function, uint16_t word2, uint16_t word3,
                        uint16_t word4, uint16_t wanted)
{
    power_on(0);
    build_key(mail, LOG_EXT, action, function, word2, word3, word4);
    expect_key(what, wanted);
    expect(what, stored_code(), wanted);
}

static void key_examples(void)
{
    fill_example(63, 0, 0);
    fill_example(64, 0, 0x0002);
    fill_example(0, 63, 0);
    fill_example(1, UINT64_MAX, 0x0002);
    key_example("action 0", 0, 1, 0, 0, 0, 0x0010);
    key_example("action 6", 6, 1, 0, 0, 0, 0x0010);     /* W-202: "its example takes action 6" */
    key_example("action 0101h", 0x0101, 1, 0, 0, 0, 0x0010);
    key_example("read timer 9", 3, 1, 1, 9, 0, 0x0006);
    key_example("read timer 10", 3, 1, 1, 10, 0, 0);
    key_example("read timer 0", 3, 1, 1, 0, 0, 0);
    key_example("write timer 9", 3, 1, 2, 9, 0, 0x0007);
    key_example("feature 3, state 0, option 2", 4, 1, 3, 0, 2, 0x000E);
}

/*
 * W-201: "Start 0 with Count 64 at V = 64 is now accepted and sets the flag at
 * its end; Count 65 is 0002h."
 */
static void fill_by_count(void)
{
    fill_ends(64, 0, 64, 1);
    fill_ends(64, 0, 63, 0);
    fill_example(0, 65, 0x0002);
    fill_ends(64, 63, 1, 0);
    fill_example(63, 2, 0x0002);
    fill_ends(64, 1, 63, 0);
    fill_example(1, 64, 0x0002);
    fill_example(64, 1, 0x0002);
    fill_example(0, UINT64_MAX, 0x0002);
    fill_example(63, UINT64_MAX - 62, 0x0002);      /* the sum is 2^64 */
    fill_example(63, UINT64_MAX, 0x0002);           /* and 2^64 + 62 */
    fill_ends(1, 0, 1, 1);
    fill_example_at(1, 0, 2, 0x0002);
    fill_example_at(1, 1, 0, 0x0002);
    fill_ends(32, 0, 32, 1);                        /* V, not N */
    fill_example_at(32, 0, 33, 0x0002);
}

/* The same of a fill by a sector. */
static void sector_fill_by_count(void)
{
    power_on(0);
    build_fill(mail, LOG_EXT, 2, 0, SECTORS + 1, 0);
    expect_key("sector fill, Count 65", 0x0002);
    expect("LBA Mid, the sum is at fault", mail[R_MID], 6);
    build_fill(mail, LOG_EXT, 2, 0, SECTORS, 0);
    expect_key("sector fill, Count 64", 0);
    expect("LBA Mid, one sector is to follow", mail[R_MID], 1);
    build_data_write(mail, LOG_EXT);
    send(0);
    expect("E1h", mail[R_STATUS], 0x50);
    expect("work", work(0xFFFFFFFF), SECTORS);
    expect("flag", status()[6], 1);
}

static void temperature_example(void)
{
    power_on(0);
    sample(0xF6);
    expect("maximum after F6h", status()[202], 0xF6);
    sample(0x05);
    expect("maximum F6h, sample 05h", status()[202], 0x05);
    sample(0x80);
    expect("now, missing", status()[200], 0x80);
    expect("maximum after a missing sample", status()[204], 0x05);
}

static void work_example(void)
{
    power_on(0);
    build_fill(mail, SMART, 1, 60, 3, 0x01020304);
    expect_key("fill of 3", 0);
    expect("work 10 with 3 left", work(10), 3);
    expect("code at the end", stored_code(), 0);
}

/* The desk program's example: a stopped fill is seen in the stored code. */
static void stopped_fill(void)
{
    power_on(0);
    build_fill(mail, SMART, 1, 0, 0, 0);
    expect_key("fill of all", 0);
    expect("work 10", work(10), 10);
    expect("code while it runs", stored_code(), 0xFFFF);
    build_command(mail, 0xEC);
    send(1);
    expect("ECh, status", mail[R_STATUS], 0x51);
    expect("ECh, error", mail[R_ERROR], 0x04);
    expect("ECh, no extended code", reply_value(mail), 0);
    expect("code of a stopped fill", stored_code(), 0x0008);
    expect("work after it", work(10), 0);
}

/* ---- "Slips to rule out" ---------------------------------------------------------- */

static void ask_sector_fill(void)
{
    power_on(0);
    build_fill(mail, SMART, 2, 5, 2, 0);
    expect_key("sector fill", 0);
    expect("LBA Mid, one sector is to follow", mail[R_MID], 1);
}

static void another_port(void)
{
    ask_sector_fill();
    build_data_write(mail, LOG_EXT);
    send(1);
    expect("E1h of another port", reply_value(mail), 0x000B);
    build_data_write(mail, LOG_EXT);
    send(0);
    expect("a refused E1h drops the transfer", reply_value(mail), 0x000B);
}

static void right_port(void)
{
    ask_sector_fill();
    build_data_write(mail, LOG_EXT);
    memset(mail + R_SECTOR, 0x5A, SCT_SECTOR_BYTES);
    send(0);
    expect("E1h of this port", mail[R_STATUS], 0x50);
    expect("work", work(9), 2);
    expect("the sector arrived", disk[7 * SCT_SECTOR_BYTES - 1], 0x5A);
    expect("and no further", disk[7 * SCT_SECTOR_BYTES], 0);
}

static void shrunk_disk(void)
{
    power_on(0);
    build_fill(mail, SMART, 1, 0, 0, 0x11111111);
    expect_key("fill of all", 0);
    expect("work", work(4), 4);
    set_visible(32);
    expect("work after V shrank", work(100), 0);
    expect("code", stored_code(), 0x0008);
    build_sector(mail, true, 32, 1);
    send(0);
    expect("write at V", mail[R_ERROR], 0x10);
}

static void locked_disk(void)
{
    power_on(0);
    expect("lock", code->lock(device, sizeof device), SCT_DONE);
    build_key(mail, SMART, 9, 9, 0, 0, 0);
    expect_key("key under the lock", 0x0012);
    build_sector(mail, false, 1000, 2);
    send(0);
    expect("24h under the lock", mail[R_ERROR], 0x04);
    expect("24h under the lock has no code", reply_value(mail), 0);
    expect("unlock", code->unlock(device, sizeof device), SCT_DONE);
    expect("action is recorded under the lock too", get16(status() + 16), 9);
}

static void flag_and_image(void)
{
    power_on(0);
    build_fill(mail, SMART, 1, 0, 0, 0);
    expect_key("fill of all", 0);
    expect("work", work(0xFFFFFFFF), SECTORS);
    expect("flag", status()[6], 1);
    build_key(mail, SMART, 4, 1, 3, 2, 1);
    expect_key("interval 2, kept", 0);
    sample(20);
    sample(21);
    save(0);
    save(560);
    expect("place of the first trailer", get_bytes(image + 560 + 548, 4), 544);
    power_on(1120);
    expect("flag believed as saved", status()[6], 1);
    expect("life maximum", status()[204], 21);
    build_key(mail, SMART, 5, 1, 2, 0, 0);
    expect_key("table", 0);
    build_data_read(mail, SMART);
    send(0);
    expect("interval in the table", get16(mail + R_SECTOR + 4), 2);
    expect("index", get16(mail + R_SECTOR + 32), 0);
    expect("the reading at the interval is logged", mail[R_SECTOR + 34], 21);
}

/* ---- W-202: the check area ------------------------------------------------------ */

static uint8_t *sector_at(unsigned lba)
{
    return disk + lba * SCT_SECTOR_BYTES;
}

static uint16_t stored_check(unsigned lba)
{
    return get16(check_area + lba * SCT_CHECK_BYTES);
}

/* 34h with these bytes of a sector, the rest zeros. */
static void write_bytes(unsigned lba, const uint8_t *bytes, size_t count)
{
    build_sector(mail, true, lba, 1);
    memcpy(mail + R_SECTOR, bytes, count);
    send(0);
    expect("34h", mail[R_STATUS], 0x50);
}

/* 24h: the sector, or this Error and zeros. */
static void expect_read(const char *what, unsigned lba, uint8_t error)
{
    static const uint8_t zeros[SCT_SECTOR_BYTES];

    build_sector(mail, false, lba, 1);
    send(0);
    expect(what, mail[R_ERROR], error);
    expect(what, mail[R_STATUS], error == 0 ? 0x50 : 0x51);
    expect(what, reply_value(mail), 0);
    expect("data of the reply", memcmp(mail + R_SECTOR, error == 0 ? sector_at(lba) : zeros, SCT_SECTOR_BYTES) != 0, 0);
}

/*
 * "bits 0 to 11 are the exclusive or of the positions (8 times byte plus bit)
 * of all one bits, bit 12 is their parity, the rest 0." By hand.
 */
static void check_values(void)
{
    uint8_t bytes[SCT_SECTOR_BYTES] = { 0 };

    clear_disk();
    power_on(0);
    write_bytes(1, bytes, sizeof bytes);
    expect("check of zeros", stored_check(1), 0x0000);
    bytes[0] = 0x01;
    write_bytes(1, bytes, sizeof bytes);
    expect("position 0 alone", stored_check(1), 0x1000);
    bytes[0] = 0x08;
    write_bytes(1, bytes, sizeof bytes);
    expect("position 3 alone", stored_check(1), 0x1003);
    expect("low byte first", check_area[2], 0x03);
    bytes[1] = 0x20;
    write_bytes(1, bytes, sizeof bytes);
    expect("positions 3 and 13", stored_check(1), 0x000E);
    bytes[511] = 0x80;
    write_bytes(1, bytes, sizeof bytes);
    expect("positions 3, 13 and 4095", stored_check(1), 0x1FF1);
    bytes[0] = bytes[1] = 0;
    write_bytes(1, bytes, sizeof bytes);
    expect("position 4095 alone", stored_check(1), 0x1FFF);
    memset(bytes, 0xFF, sizeof bytes);
    write_bytes(1, bytes, sizeof bytes);
    expect("check of all ones", stored_check(1), 0x0000);
    expect("other check bytes", stored_check(0) | stored_check(2), 0x0000);
}

/* "Every ordinary write sets them": each sector of a fill too. */
static void check_of_fill(void)
{
    uint8_t sector[SCT_SECTOR_BYTES] = { 0 };
    unsigned right = 0;

    clear_disk();
    memset(check_area, 0xA5, sizeof check_area);
    power_on(0);
    set_visible(40);
    build_fill(mail, SMART, 2, 5, 30, 0);
    expect_key("sector fill", 0);
    sector[2] = 0x04;       /* position 18 */
    build_data_write(mail, SMART);
    memcpy(mail + R_SECTOR, sector, sizeof sector);
    send(0);
    expect("E1h", mail[R_STATUS], 0x50);
    expect("no check is set before the sector is written", stored_check(5), 0xA5A5);
    expect("work", work(10), 10);
    expect("work", work(100), 20);
    for (unsigned i = 0; i < SECTORS; i++)
        right += stored_check(i) == (i >= 5 && i < 35 ? 0x1012 : 0xA5A5);
    expect("check bytes that are as they must be", right, SECTORS);
    expect_read("a sector of the fill", 34, 0);
    expect_read("a sector after it", 35, 0x40);
    build_fill(mail, SMART, 1, 35, 1, 0x00000003);
    expect_key("pattern fill", 0);
    expect("work", work(1), 1);
    expect("check of a pattern", stored_check(35), 0);
    expect_read("the sector of the pattern", 35, 0);
}

/*
 * "a read of a sector whose check differs has Error 40h, after the range
 * check". All 16 bits count; nothing is stored, and a fill is stopped.
 */
static void check_differs(void)
{
    static const uint8_t bytes[] = { 0x12, 0x34, 0x56 };

    clear_disk();
    power_on(0);
    write_bytes(7, bytes, sizeof bytes);
    expect("check", stored_check(7), sector_check(sector_at(7)));
    for (unsigned bit = 0; bit < 16; bit++) {
        check_area[7 * SCT_CHECK_BYTES + bit / 8] ^= (uint8_t)(1u << bit % 8);
        expect_read("a bit of the check has flipped", 7, 0x40);
        check_area[7 * SCT_CHECK_BYTES + bit / 8] ^= (uint8_t)(1u << bit % 8);
    }
    expect_read("the check is right", 7, 0);
    sector_at(7)[400] ^= 0x10;
    expect_read("a bit of the data has flipped", 7, 0x40);
    build_sector(mail, false, 7, 2);
    send(0);
    expect("count 2", mail[R_ERROR], 0x04);
    set_visible(7);
    expect_read("the sector is hidden", 7, 0x10);
    set_visible(8);
    build_fill(mail, SMART, 1, 0, 1, 0);
    expect_key("fill", 0);
    expect_read("the sector is shown again", 7, 0x40);
    expect("the read has stopped the fill", stored_code(), 0x0008);
    build_key(mail, SMART, 6, 1, 0, 0, 0);
    expect_key("a refused key", 0x0010);
    expect_read("and again", 7, 0x40);
    expect("Error 40h stores nothing", stored_code(), 0x0010);
    expect("lock", code->lock(device, sizeof device), SCT_DONE);
    expect_read("the disk is locked", 7, 0x04);
    expect("unlock", code->unlock(device, sizeof device), SCT_DONE);
    write_bytes(7, bytes, sizeof bytes);
    expect_read("the sector was written again", 7, 0);
}

/* "a check area of wrong length is answer 2"; power-on does not look at the bytes. */
static void check_area_length(void)
{
    clear_disk();
    memset(check_area, 0xFF, sizeof check_area);
    power_on(0);
    expect_read("check bytes that nobody has made", 0, 0x40);
    for (size_t length = 0; length <= sizeof check_area; length++) {
        uint32_t wanted = length == sizeof check_area ? SCT_DONE : SCT_BAD_LENGTH;

        expect("power-on", code->power_on(device, sizeof device, area, sizeof area, disk, sizeof disk,
                                          check_area, length, image, sizeof image, 0), wanted);
        expect("work", code->work(device, sizeof device, area, sizeof area, disk, sizeof disk,
                                  check_area, length, 1) >> 32, wanted);
        expect("serve, slot not held", code->serve(device, sizeof device, 0, area, sizeof area, disk, sizeof disk,
                                                   check_area, length),
               wanted == SCT_DONE ? SCT_BAD_STAGE : SCT_BAD_LENGTH);
        expect("repair at V", code->repair(device, sizeof device, disk, sizeof disk, check_area, length, SECTORS),
               (uint64_t)(wanted == SCT_DONE ? SCT_BAD_VALUE : SCT_BAD_LENGTH) << 32);
    }
}

/* ---- W-202: repair --------------------------------------------------------------- */

enum { DAMAGED = 9 };

/* A disk of zeros but for a sector with ones at the positions 3, 13 and 4095, whose check is 1FF1h. */
static void start_repairs(void)
{
    uint8_t bytes[SCT_SECTOR_BYTES] = { 0x08, 0x20 };

    bytes[511] = 0x80;
    clear_disk();
    power_on(0);
    write_bytes(DAMAGED, bytes, sizeof bytes);
    expect("check", stored_check(DAMAGED), 0x1FF1);
}

static void flip_data(unsigned position)
{
    sector_at(DAMAGED)[position / 8] ^= (uint8_t)(1u << position % 8);
}

static void flip_check(unsigned bit)
{
    check_area[DAMAGED * SCT_CHECK_BYTES + bit / 8] ^= (uint8_t)(1u << bit % 8);
}

/* This report; of the whole disk these bytes, and the check area as it was. */
static void expect_repair(const char *what, uint32_t report, const uint8_t *wanted)
{
    uint8_t checks[sizeof check_area];

    memcpy(checks, check_area, sizeof checks);
    expect(what, repair(DAMAGED), report);
    expect("sectors after it", memcmp(disk, wanted, sizeof disk) != 0, 0);
    expect("check area after it", memcmp(check_area, checks, sizeof checks) != 0, 0);
}

/* "With sound check bytes one flipped data bit is mended and two give 2." */
static void repair_reports(void)
{
    static const unsigned positions[] = { 0, 1, 7, 8, 13, 1234, 2048, 4094, 4095 };
    enum { POSITIONS = sizeof positions / sizeof positions[0] };
    uint8_t right[sizeof disk], flipped[sizeof disk];

    start_repairs();
    memcpy(right, disk, sizeof disk);
    expect_repair("check equal", 0, right);
    for (unsigned i = 0; i < POSITIONS; i++) {
        flip_data(positions[i]);
        expect_read("one bit has flipped", DAMAGED, 0x40);
        expect_repair("one bit has flipped", 1, right);
        expect_repair("and is right again", 0, right);
        expect_read("it can be read", DAMAGED, 0);
        flip_data(positions[i]);
        flip_data(positions[(i + 1) % POSITIONS]);
        memcpy(flipped, disk, sizeof disk);
        expect_repair("two bits have flipped", 2, flipped);
        expect_repair("and stay so", 2, flipped);
        memcpy(disk, right, sizeof disk);
    }
}

/* The check bytes themselves are damaged: they are never written. */
static void repair_with_wrong_check(void)
{
    uint8_t right[sizeof disk], flipped[sizeof disk];

    start_repairs();
    memcpy(right, disk, sizeof disk);
    for (unsigned bit = 0; bit < 16; bit++) {
        if (bit == 12)
            continue;
        flip_check(bit);
        expect_repair("a bit of the check has flipped, but not bit 12", 2, right);
        flip_check(bit);
    }
    for (unsigned bit = 13; bit < 16; bit++) {
        flip_check(bit);
        flip_data(100);
        memcpy(flipped, disk, sizeof disk);
        expect_repair("a bit of the data, and one of 13 to 15", 2, flipped);
        flip_data(100);
        flip_check(bit);
    }
    flip_check(12);         /* looks like a flipped bit at position 0 */
    memcpy(flipped, right, sizeof disk);
    flipped[DAMAGED * SCT_SECTOR_BYTES] ^= 0x01;
    expect_repair("bit 12 alone has flipped", 1, flipped);
    expect_repair("and the check is equal", 0, flipped);
    memcpy(disk, right, sizeof disk);
    flip_check(5);          /* and this like one at position 32 */
    memcpy(flipped, right, sizeof disk);
    flipped[DAMAGED * SCT_SECTOR_BYTES + 4] ^= 0x01;
    expect_repair("bits 12 and 5 have flipped", 1, flipped);
    expect_repair("and the check is equal", 0, flipped);
}

/* "only 1 alters a sector, and it clears the flag." */
static void repair_and_flag(void)
{
    start_repairs();
    build_fill(mail, SMART, 1, 0, 0, 0);
    expect_key("fill of all", 0);
    expect("work", work(0xFFFFFFFF), SECTORS);
    expect("report", repair(DAMAGED), 0);
    expect("flag after report 0", status()[6], 1);
    flip_check(3);
    expect("report", repair(DAMAGED), 2);
    expect("flag after report 2", status()[6], 1);
    flip_check(3);
    flip_data(4000);
    expect("report", repair(DAMAGED), 1);
    expect("flag after report 1", status()[6], 0);
}

/* "The step first stops a fill and drops an owed transfer, as setting V does." */
static void repair_stops(void)
{
    for (uint32_t report = 0; report < 3; report++) {
        start_repairs();
        build_fill(mail, SMART, 1, 20, 20, 0);
        expect_key("fill", 0);
        expect("work", work(5), 5);
        for (uint32_t i = 0; i < report; i++)
            flip_data(i);
        expect("report", repair(DAMAGED), report);
        expect("code of a stopped fill", stored_code(), 0x0008);
        expect("work after it", work(5), 0);

        start_repairs();
        build_fill(mail, SMART, 2, 20, 20, 0);
        expect_key("sector fill", 0);
        for (uint32_t i = 0; i < report; i++)
            flip_data(i);
        expect("report", repair(DAMAGED), report);
        build_data_write(mail, SMART);
        send(0);
        expect("E1h after a repair", reply_value(mail), 0x000B);
    }
}

/* A repair that answers this, reports 0 and changes no byte. */
static void expect_refused_repair(const char *what, uint64_t lba, uint32_t wanted)
{
    uint8_t old_device[sizeof device], old_disk[sizeof disk], old_checks[sizeof check_area];

    memcpy(old_device, device, sizeof device);
    memcpy(old_disk, disk, sizeof disk);
    memcpy(old_checks, check_area, sizeof check_area);
    expect(what, code->repair(device, sizeof device, disk, sizeof disk, check_area, sizeof check_area, lba),
           (uint64_t)wanted << 32);
    expect(what, memcmp(device, old_device, sizeof device) != 0 || memcmp(disk, old_disk, sizeof disk) != 0 ||
                 memcmp(check_area, old_checks, sizeof check_area) != 0, 0);
}

/* "mending at or above V is answer 5, and a refused mending reports 0". The lock does not matter to the owner. */
static void repair_refused(void)
{
    start_repairs();
    flip_data(77);
    set_visible(DAMAGED);
    build_fill(mail, SMART, 1, 0, 0, 0);
    expect_key("fill", 0);
    expect_refused_repair("repair at V", DAMAGED, SCT_BAD_VALUE);
    expect_refused_repair("repair above V", DAMAGED + 1, SCT_BAD_VALUE);
    expect_refused_repair("repair at N", SECTORS, SCT_BAD_VALUE);
    expect_refused_repair("repair at 2^32", (uint64_t)1 << 32, SCT_BAD_VALUE);
    expect_refused_repair("repair at 2^64 - 1", UINT64_MAX, SCT_BAD_VALUE);
    expect("code, the fill runs on", stored_code(), 0xFFFF);
    expect("work", work(100), DAMAGED);
    set_visible(DAMAGED + 1);
    expect("lock", code->lock(device, sizeof device), SCT_DONE);
    expect("report on a locked disk", repair(DAMAGED), 1);
    expect("unlock", code->unlock(device, sizeof device), SCT_DONE);
    expect_read("it can be read", DAMAGED, 0);
    device[19] = 1;         /* a spare byte */
    expect_refused_repair("repair with an unsound record, at V", DAMAGED + 1, SCT_BAD_RECORD);
}

/* ---- W-202: Long Sector Access ---------------------------------------------------- */

enum { LONG_LBA = 21 };

/* Bytes of a sector, then two check bytes that are not its own, then bytes that don't matter. */
static uint8_t sent[SCT_DATA_BYTES];

static void choose_sent(uint16_t check)
{
    for (size_t i = 0; i < sizeof sent; i++)
        sent[i] = (uint8_t)(7 * i + i / 256 + 1);
    put16(sent + SCT_SECTOR_BYTES, check);
}

/* The reply has Status 50h and this data, then zeros, and no other byte. */
static void expect_reply(const char *what, const uint8_t *data, size_t bytes)
{
    uint8_t wanted[SCT_MAILBOX_BYTES] = { 0 };

    wanted[R_STATUS] = 0x50;
    if (bytes != 0)
        memcpy(wanted + R_SECTOR, data, bytes);
    expect(what, memcmp(mail, wanted, sizeof mail) != 0, 0);
}

/* "either key's reply has 2 in Sector Count and LBA Mid." */
static void ask_long(uint16_t function, uint64_t lba)
{
    uint8_t wanted[SCT_MAILBOX_BYTES] = { 0 };

    wanted[R_STATUS] = 0x50;
    wanted[R_COUNT] = wanted[R_MID] = 2;
    build_long(mail, SMART, function, lba);
    memset(mail + R_SECTOR + 12, 0xC3, SCT_DATA_BYTES - 12);
    send(0);
    expect("reply to a Long key", memcmp(mail, wanted, sizeof mail) != 0, 0);
}

static void write_long(uint64_t lba)
{
    ask_long(2, lba);
    build_long_write(mail, SMART);
    memcpy(mail + R_SECTOR, sent, sizeof sent);
    send(0);
    expect_reply("Write Long", NULL, 0);
}

/* The sector and its check bytes as they are, "zeros behind". */
static void expect_read_long(unsigned lba)
{
    uint8_t wanted[SCT_SECTOR_BYTES + SCT_CHECK_BYTES];

    memcpy(wanted, sector_at(lba), SCT_SECTOR_BYTES);
    put16(wanted + SCT_SECTOR_BYTES, stored_check(lba));
    ask_long(1, lba);
    build_long_read(mail, LOG_EXT);
    memset(mail + R_SECTOR, 0xC3, SCT_DATA_BYTES);
    send(0);
    expect_reply("Read Long", wanted, sizeof wanted);
}

static void long_key_example(uint64_t visible, uint16_t function, uint64_t lba, uint16_t wanted)
{
    char what[96];

    snprintf(what, sizeof what, "V %llu, Long, function %u, LBA %llXh", (unsigned long long)visible, function,
             (unsigned long long)lba);
    power_on(0);
    set_visible(visible);
    build_long(mail, LOG_EXT, function, lba);
    expect_key(what, wanted);
    expect(what, mail[R_MID], wanted == 0x000A ? 1 : 2);    /* word 1; else 2, the LBA's word or the sectors that follow */
    expect(what, stored_code(), wanted);
    expect(what, get16(status() + 16), 1);
    expect(what, get16(status() + 18), function);
}

/* "functions 1 (read) and 2 (write), LBA in words 2 to 5"; "function 000Ah, LBA 0002h after it". */
static void long_keys(void)
{
    for (uint16_t function = 1; function <= 2; function++) {
        long_key_example(64, function, 0, 0);
        long_key_example(64, function, 63, 0);
        long_key_example(64, function, 64, 0x0002);
        long_key_example(32, function, 31, 0);
        long_key_example(32, function, 32, 0x0002);
        for (unsigned bit = 6; bit < 64; bit++)
            long_key_example(64, function, (uint64_t)1 << bit, 0x0002);
        long_key_example(64, function, UINT64_MAX, 0x0002);
    }
    long_key_example(64, 0, 0, 0x000A);
    long_key_example(64, 3, 0, 0x000A);
    long_key_example(64, 0x0101, 0, 0x000A);
    long_key_example(64, 3, 64, 0x000A);
    power_on(0);
    expect("lock", code->lock(device, sizeof device), SCT_DONE);
    build_long(mail, SMART, 3, 64);
    expect_key("Long key under the lock", 0x0012);
}

/* An E1h after a key gets this code; after any refusal the transfer is gone. */
static void transfer_example(const char *what, enum form form, bool write, uint16_t count, uint16_t wanted)
{
    build_log(mail, form, write, 0xE1, count);
    expect_key(what, wanted);
    expect(what, stored_code(), wanted);
    build_log(mail, form, write, 0xE1, count);
    expect_key("nothing is pending any more", 0x000B);
}

/* "E1h wants count 2 for it and 1 for the others." */
static void long_counts(void)
{
    static const uint16_t wrong_counts[] = { 0, 1, 3, 255, 0x0102, 0x0201, 0xFFFF };

    clear_disk();
    power_on(0);
    for (uint16_t function = 1; function <= 2; function++) {
        bool write = function == 2;

        for (size_t i = 0; i < sizeof wrong_counts / sizeof wrong_counts[0]; i++) {
            ask_long(function, LONG_LBA);
            transfer_example("Long transfer, a wrong count", LOG_EXT, write, wrong_counts[i], 0x0003);
        }
        ask_long(function, LONG_LBA);
        transfer_example("Long transfer, count 2", LOG_EXT, write, 2, 0);
        ask_long(function, LONG_LBA);
        transfer_example("B0h, whose previous bytes are ignored", SMART, write, 0x0102, 0);
        ask_long(function, LONG_LBA);
        transfer_example("the other direction", SMART, !write, 2, 0x000B);
        ask_long(function, LONG_LBA);
        transfer_example("the other direction, count 1", SMART, !write, 1, 0x000B);
    }
    build_fill(mail, SMART, 2, 5, 2, 0);
    expect_key("sector fill", 0);
    transfer_example("sector fill, count 2", SMART, true, 2, 0x0003);
    build_key(mail, SMART, 5, 1, 2, 0, 0);
    expect_key("table", 0);
    transfer_example("table, count 2", SMART, false, 2, 0x0003);
}

/* "Write Long stores what it is sent, without judging it"; "Read Long sends the two check bytes as stored". */
static void long_there_and_back(void)
{
    static const uint16_t checks[] = { 0x0000, 0x1234, 0xFFFF, 0xE000, 0x8000 };
    uint8_t wanted[sizeof disk], wanted_checks[sizeof check_area];

    clear_disk();
    power_on(0);
    for (size_t i = 0; i < sizeof checks / sizeof checks[0]; i++) {
        memset(wanted, 0, sizeof wanted);
        memset(wanted_checks, 0, sizeof wanted_checks);
        choose_sent(checks[i]);
        memcpy(wanted + LONG_LBA * SCT_SECTOR_BYTES, sent, SCT_SECTOR_BYTES);
        put16(wanted_checks + LONG_LBA * SCT_CHECK_BYTES, checks[i]);
        write_long(LONG_LBA);
        expect("disk after Write Long", memcmp(disk, wanted, sizeof disk) != 0, 0);
        expect("check area after Write Long", memcmp(check_area, wanted_checks, sizeof check_area) != 0, 0);
        expect("code", stored_code(), 0);
        expect_read_long(LONG_LBA);
        expect("code", stored_code(), 0);
        expect_read("24h", LONG_LBA, 0x40);
    }
    choose_sent(sector_check(sent));
    write_long(LONG_LBA);
    expect_read_long(LONG_LBA);
    expect_read("24h, with the check of the data", LONG_LBA, 0);
    write_long(0);
    write_long(SECTORS - 1);
    expect_read_long(SECTORS - 1);
}

/* "We check our scrubbing by damaging sectors." */
static void long_and_repair(void)
{
    uint16_t right;

    clear_disk();
    power_on(0);
    choose_sent(0);
    right = sector_check(sent);
    choose_sent(right);
    sent[300] ^= 0x40;          /* one bit, position 2406 */
    write_long(LONG_LBA);
    expect_read("one bit is wrong", LONG_LBA, 0x40);
    expect("report", repair(LONG_LBA), 1);
    sent[300] ^= 0x40;
    expect("the bit is right", memcmp(sector_at(LONG_LBA), sent, SCT_SECTOR_BYTES) != 0, 0);
    expect_read("it can be read", LONG_LBA, 0);
    choose_sent(right ^ 0x2000);
    write_long(LONG_LBA);
    expect("bit 13 of the check is wrong", repair(LONG_LBA), 2);
    choose_sent(right ^ 0x1966);
    write_long(LONG_LBA);
    expect("the check is that of the data with bit 2406 flipped", repair(LONG_LBA), 1);
    sent[300] ^= 0x40;
    expect("so it was flipped", memcmp(sector_at(LONG_LBA), sent, SCT_SECTOR_BYTES) != 0, 0);
    expect_read_long(LONG_LBA);
}

/* "The Segment Initialized flag is cleared by any sector written": by Write Long too, by Read Long not. */
static void long_and_flag(void)
{
    clear_disk();
    power_on(0);
    build_fill(mail, SMART, 1, 0, 0, 0);
    expect_key("fill of all", 0);
    expect("work", work(0xFFFFFFFF), SECTORS);
    expect_read_long(LONG_LBA);
    expect("flag after Read Long", status()[6], 1);
    memset(sent, 0, sizeof sent);
    ask_long(2, LONG_LBA);
    expect("flag after the key of Write Long", status()[6], 1);
    write_long(LONG_LBA);
    expect("flag after Write Long, though the bytes are the old ones", status()[6], 0);
}

/* What keeps a pending Long transfer, and what drops it. */
static void long_pending(void)
{
    clear_disk();
    power_on(0);
    ask_long(1, LONG_LBA);
    expect("code while it is pending", stored_code(), 0);
    sample(25);
    disk[LONG_LBA * SCT_SECTOR_BYTES] = 0x77;       /* as it stands at the E1h */
    build_long_read(mail, SMART);
    send(0);
    expect("it was pending after a status read and a sample", mail[R_SECTOR], 0x77);
    ask_long(1, LONG_LBA);
    build_long_read(mail, SMART);
    send(1);
    expect("E1h of another port", reply_value(mail), 0x000B);
    ask_long(1, LONG_LBA);
    expect("report", repair(0), 0);
    transfer_example("after a repair", SMART, false, 2, 0x000B);
    ask_long(1, LONG_LBA);
    set_visible(SECTORS);
    transfer_example("after setting V", SMART, false, 2, 0x000B);
    ask_long(2, LONG_LBA);
    build_sector(mail, false, 0, 1);
    send(3);
    transfer_example("after a read of another port", SMART, true, 2, 0x000B);
    build_fill(mail, SMART, 1, 0, 0, 0);
    expect_key("fill of all", 0);
    ask_long(1, LONG_LBA);
    expect("work, the key has stopped the fill", work(9), 0);
}

/* Only a Long transfer uses the second sector. */
static void second_sector(void)
{
    uint8_t junk[SCT_DATA_BYTES];

    clear_disk();
    power_on(0);
    memset(junk, 0x99, sizeof junk);
    build_sector(mail, true, 3, 1);
    memcpy(mail + R_SECTOR, junk, sizeof junk);
    send(0);
    expect_reply("34h", NULL, 0);
    expect("sector after it", disk[4 * SCT_SECTOR_BYTES], 0);
    build_sector(mail, false, 3, 1);
    memcpy(mail + R_SECTOR, junk, sizeof junk);
    send(0);
    expect_reply("24h", junk, SCT_SECTOR_BYTES);
    build_fill(mail, SMART, 2, 5, 1, 0);
    memset(mail + R_SECTOR + SCT_SECTOR_BYTES, 0x99, SCT_SECTOR_BYTES);
    expect_key("sector fill", 0);
    expect("second sector of the reply", mail[R_CHECK], 0);
    build_data_write(mail, SMART);
    memcpy(mail + R_SECTOR, junk, sizeof junk);
    send(0);
    expect_reply("E1h", NULL, 0);
    build_command(mail, 0xEC);
    memcpy(mail + R_SECTOR, junk, sizeof junk);
    send(0);
    expect("second sector of a refusal", get64(mail + R_CHECK), 0);
}

/* "In a sound record an owed Long transfer has its LBA below V." Port 0: kind at 73, LBA at 80, end at 88. */
static void long_records(void)
{
    static const struct { uint8_t kind; uint64_t lba, end; uint32_t answer; } records[] = {
        { 3, 0, 0, SCT_DONE }, { 3, 31, 0, SCT_DONE }, { 3, 32, 0, SCT_BAD_RECORD }, { 3, 33, 0, SCT_BAD_RECORD },
        { 3, 63, 0, SCT_BAD_RECORD }, { 3, UINT64_MAX, 0, SCT_BAD_RECORD }, { 3, 31, 32, SCT_BAD_RECORD },
        { 4, 0, 0, SCT_DONE }, { 4, 31, 0, SCT_DONE }, { 4, 32, 0, SCT_BAD_RECORD },
        { 4, (uint64_t)1 << 32, 0, SCT_BAD_RECORD }, { 4, 31, 1, SCT_BAD_RECORD },
        { 5, 0, 0, SCT_BAD_RECORD }, { 5, 31, 0, SCT_BAD_RECORD }, { 1, 31, 0, SCT_BAD_RECORD },
        { 0, 31, 0, SCT_BAD_RECORD }
    };

    for (size_t i = 0; i < sizeof records / sizeof records[0]; i++) {
        power_on(0);
        set_visible(32);
        device[73] = records[i].kind;
        put64(device + 80, records[i].lba);
        put64(device + 88, records[i].end);
        expect("record with a pending transfer", code->sample(device, sizeof device, 20), records[i].answer);
    }
}

/* ---- W-203: recovery timers ------------------------------------------------------- */

enum { FOR_READS = 1, FOR_WRITES = 2 };

static void set_timer(uint16_t timer, uint16_t value)
{
    build_key(mail, SMART, 3, 1, timer, value, 0);
    expect_key("a timer set", 0);
}

/* Function 2: the value in Sector Count (low) and LBA Low (high), Status 50h, and 0 elsewhere. */
static void expect_timer(const char *what, uint16_t timer, uint16_t value)
{
    uint8_t wanted[SCT_MAILBOX_BYTES] = { 0 };

    wanted[R_STATUS] = 0x50;
    wanted[R_COUNT] = (uint8_t)value;
    wanted[R_LOW] = (uint8_t)(value >> 8);
    build_key(mail, SMART, 3, 2, timer, 0, 0);
    send(0);
    expect(what, reply_value(mail), value);
    expect(what, memcmp(mail, wanted, sizeof mail) != 0, 0);
}

/* "Both error recovery timers shall be 70 (7 seconds) at power-on": each is asked for straight after one. */
static void timers_at_power_on(const char *what, uint64_t used)
{
    power_on(used);
    expect_timer(what, FOR_READS, 0x0046);
    power_on(used);
    expect_timer(what, FOR_WRITES, 0x0046);
}

static const uint16_t timer_values[] = { 0, 10, 69, 70, 71, 0x4600, 65535 };

enum { TIMER_VALUES = sizeof timer_values / sizeof timer_values[0] };

/* From an empty image, and from one whose entries have no timers, whatever the timers were. */
static void timers_on(void)
{
    for (unsigned i = 0; i < TIMER_VALUES; i++) {
        timers_at_power_on("timer of a new disk", 0);
        set_timer(FOR_READS, timer_values[i]);
        expect_timer("read timer as set", FOR_READS, timer_values[i]);
        expect_timer("write timer as at power-on", FOR_WRITES, 0x0046);
        set_timer(FOR_WRITES, timer_values[i]);
        expect_timer("write timer as set", FOR_WRITES, timer_values[i]);
        save(0);
        put_form(image, SCT_FORM_1, 0, 0);
        save(560);
        timers_at_power_on("timer after power-on from an entry of form 1", 560);
        timers_at_power_on("timer after power-on from two entries of form 1", 1120);
    }
}

/* "Setup tools that relied on 0 must set 0 themselves." */
static void timers_off(void)
{
    power_on(0);
    set_timer(FOR_READS, 0);
    set_timer(FOR_WRITES, 0);
    expect_timer("read timer, off", FOR_READS, 0);
    expect_timer("write timer, off", FOR_WRITES, 0);
    set_timer(FOR_READS, 70);
    expect_timer("read timer, on again", FOR_READS, 70);
    expect_timer("write timer, still off", FOR_WRITES, 0);
}

/* "each timer is 0 or at least 10", as before. The read timer is at 26, the write timer at 28. */
static void timer_records(void)
{
    static const struct { uint16_t timer; uint32_t answer; } records[] = {
        { 0, SCT_DONE }, { 1, SCT_BAD_RECORD }, { 9, SCT_BAD_RECORD }, { 10, SCT_DONE }, { 70, SCT_DONE },
        { 65535, SCT_DONE }
    };

    for (size_t i = 0; i < sizeof records / sizeof records[0]; i++)
        for (unsigned at = 26; at <= 28; at += 2) {
            power_on(0);
            put16(device + at, records[i].timer);
            expect("record with a timer", code->sample(device, sizeof device, 20), records[i].answer);
        }
}

/* ---- W-204: settings that remember the timers -------------------------------------- */

static uint8_t *entry_at(unsigned number)
{
    return image + SCT_ENTRY_BYTES * (number - 1);
}

/* "byte 25 is 2 and bytes 26 to 29 hold the read and write timers": these seven bytes from 25 on. */
static void expect_form(const char *what, unsigned number, uint8_t form, uint16_t read_timer, uint16_t write_timer)
{
    const uint8_t wanted[7] = {
        form, (uint8_t)read_timer, (uint8_t)(read_timer >> 8), (uint8_t)write_timer, (uint8_t)(write_timer >> 8), 0, 0
    };

    expect(what, memcmp(entry_at(number) + 25, wanted, sizeof wanted) != 0, 0);
}

/*
 * "a save keeps the form of the chain it extends (form 1 leaves the timers out),
 * and an empty image starts with form 2."
 */
static void saved_forms(void)
{
    power_on(0);
    memset(image, 0xEE, sizeof image);
    save(0);
    expect_form("first entry", 1, 2, 70, 70);
    set_timer(FOR_READS, 10);
    set_timer(FOR_WRITES, 0xABCD);
    save(0);
    expect_form("first entry, timers set", 1, 2, 10, 0xABCD);
    set_timer(FOR_WRITES, 0);
    save(560);
    expect_form("second entry, a timer off", 2, 2, 10, 0);
    expect_form("first entry, as it was", 1, 2, 10, 0xABCD);
    put_form(entry_at(1), SCT_FORM_1, 0, 0);
    save(560);
    expect_form("second entry behind form 1", 2, 0, 0, 0);
    save(1120);
    expect_form("third entry", 3, 0, 0, 0);
    expect_timer("the device's own timer stays", FOR_READS, 10);
}

/* "which power-on then restores": those of the newest entry. "Form 1 has byte 25 = 0 and means 70 and 70." */
static void restored_timers(void)
{
    for (unsigned i = 0; i < TIMER_VALUES; i++) {
        uint16_t one = timer_values[i], other = timer_values[(i + 1) % TIMER_VALUES];

        power_on(0);
        set_timer(FOR_READS, one);
        set_timer(FOR_WRITES, other);
        save(0);
        set_timer(FOR_READS, other);
        set_timer(FOR_WRITES, one);
        save(560);
        power_on(560);
        expect_timer("read timer from an entry", FOR_READS, one);
        expect_timer("write timer from an entry", FOR_WRITES, other);
        power_on(1120);
        expect_timer("read timer from the newer entry", FOR_READS, other);
        expect_timer("write timer from the newer entry", FOR_WRITES, one);
        power_on(0);
        expect_timer("read timer of a new disk", FOR_READS, 70);
        expect_timer("write timer of a new disk", FOR_WRITES, 70);
    }
}

static uint32_t convert(uint64_t used, uint32_t form)
{
    return code->convert(image, sizeof image, used, form);
}

enum { TWO_ENTRIES = 2 * SCT_ENTRY_BYTES };

/* Two entries of this form with the timers 70 and 70, and junk behind them. */
static void make_image(uint32_t form)
{
    power_on(0);
    memset(image, 0xEE, sizeof image);
    sample(33);
    save(0);
    put_form(entry_at(1), form, 70, 70);
    sample(44);
    save(560);
}

/* The two entries as they are: what power-on, save and convert to form 2 answer, and convert to form 1. */
static void expect_answers(const char *what, uint32_t wanted, uint32_t back)
{
    uint8_t before[sizeof image];

    memcpy(before, image, sizeof image);
    expect(what, code->power_on(device, sizeof device, area, sizeof area, disk, sizeof disk,
                                check_area, sizeof check_area, image, sizeof image, TWO_ENTRIES), wanted);
    expect(what, code->save(device, sizeof device, image, sizeof image, TWO_ENTRIES), wanted);
    memcpy(image, before, sizeof image);
    expect(what, convert(TWO_ENTRIES, SCT_FORM_2), wanted);
    memcpy(image, before, sizeof image);
    expect(what, convert(TWO_ENTRIES, SCT_FORM_1), back);
    if (back != SCT_DONE)
        expect("a refused convert changes nothing", memcmp(image, before, sizeof image) != 0, 0);
    memcpy(image, before, sizeof image);
}

/* "A saved timer of 1 to 9 is out of range"; "going back from timers other than 70 and 70 is answer 9", in any entry. */
static void saved_timers(void)
{
    static const struct { uint16_t timer; uint32_t answer, back; } timers[] = {
        { 0, SCT_DONE, SCT_OTHER_TIMERS }, { 1, SCT_BAD_IMAGE, SCT_BAD_IMAGE }, { 9, SCT_BAD_IMAGE, SCT_BAD_IMAGE },
        { 10, SCT_DONE, SCT_OTHER_TIMERS }, { 69, SCT_DONE, SCT_OTHER_TIMERS }, { 70, SCT_DONE, SCT_DONE },
        { 71, SCT_DONE, SCT_OTHER_TIMERS }, { 0x4600, SCT_DONE, SCT_OTHER_TIMERS },
        { 65535, SCT_DONE, SCT_OTHER_TIMERS }
    };

    for (unsigned number = 1; number <= 2; number++) {
        for (size_t i = 0; i < sizeof timers / sizeof timers[0]; i++) {
            make_image(SCT_FORM_2);
            put_form(entry_at(number), SCT_FORM_2, timers[i].timer, 70);
            expect_answers("an entry's read timer", timers[i].answer, timers[i].back);
            put_form(entry_at(number), SCT_FORM_2, 70, timers[i].timer);
            expect_answers("an entry's write timer", timers[i].answer, timers[i].back);
        }
    }
}

/* Bytes 25 to 31: a form byte other than 0 and 2, and "zeros zero", is answer 6 in every entry. */
static void form_bytes(void)
{
    static const uint8_t wrong_forms[] = { 1, 3, 4, 0x82, 255 };

    for (unsigned number = 1; number <= 2; number++) {
        for (uint32_t form = SCT_FORM_1; form <= SCT_FORM_2; form++) {
            make_image(form);
            expect_answers("as it was made", SCT_DONE, SCT_DONE);
            for (size_t i = 0; i < sizeof wrong_forms; i++) {
                entry_at(number)[25] = wrong_forms[i];
                expect_answers("byte 25 is of no form", SCT_BAD_IMAGE, SCT_BAD_IMAGE);
            }
            for (unsigned at = form == SCT_FORM_1 ? 26 : 30; at < 32; at++) {
                make_image(form);
                entry_at(number)[at] = 70;
                expect_answers("a byte that must be zero", SCT_BAD_IMAGE, SCT_BAD_IMAGE);
            }
        }
    }
}

/* "A chain may not mix forms", whatever the timers are. */
static void mixed_chains(void)
{
    for (unsigned number = 1; number <= 2; number++) {
        make_image(SCT_FORM_1);
        put_form(entry_at(number), SCT_FORM_2, 70, 70);
        expect_answers("one entry of form 2", SCT_BAD_IMAGE, SCT_BAD_IMAGE);
        put_form(entry_at(number), SCT_FORM_2, 0, 10);
        expect_answers("one entry of form 2, other timers", SCT_BAD_IMAGE, SCT_BAD_IMAGE);
        make_image(SCT_FORM_2);
        put_form(entry_at(number), SCT_FORM_1, 0, 0);
        expect_answers("one entry of form 1", SCT_BAD_IMAGE, SCT_BAD_IMAGE);
    }
}

/* "going there and back gives the same bytes. An image already of the form asked for stays." */
static void there_and_back(void)
{
    uint8_t first[sizeof image], second[sizeof image];

    make_image(SCT_FORM_1);
    memcpy(first, image, sizeof image);
    expect("to form 1, already so", convert(TWO_ENTRIES, SCT_FORM_1), SCT_DONE);
    expect("it stays", memcmp(image, first, sizeof image) != 0, 0);
    expect("to form 2", convert(TWO_ENTRIES, SCT_FORM_2), SCT_DONE);
    memcpy(second, first, sizeof image);
    for (unsigned number = 1; number <= 2; number++) {
        expect_form("each entry", number, 2, 70, 70);
        put_form(second + SCT_ENTRY_BYTES * (number - 1), SCT_FORM_2, 70, 70);
    }
    expect("and no other byte", memcmp(image, second, sizeof image) != 0, 0);
    expect("to form 2, already so", convert(TWO_ENTRIES, SCT_FORM_2), SCT_DONE);
    expect("it stays", memcmp(image, second, sizeof image) != 0, 0);
    expect("back", convert(TWO_ENTRIES, SCT_FORM_1), SCT_DONE);
    expect("the same bytes", memcmp(image, first, sizeof image) != 0, 0);
    expect("and there again", convert(TWO_ENTRIES, SCT_FORM_2), SCT_DONE);
    expect("the same bytes", memcmp(image, second, sizeof image) != 0, 0);
    put_form(entry_at(1), SCT_FORM_2, 0, 65535);
    memcpy(second, image, sizeof image);
    expect("other timers, already form 2", convert(TWO_ENTRIES, SCT_FORM_2), SCT_DONE);
    expect("they stay", memcmp(image, second, sizeof image) != 0, 0);
    power_on(TWO_ENTRIES);
    expect("life maximum", status()[204], 44);
}

/* Of several answers the first of 2, 5, 6, 9: each is put right in turn. */
static void convert_order(void)
{
    static const uint32_t wrong_forms[] = { 0, 3, 0x101, 0x102, 0x10002, 0x80000001, 0xFFFFFFFF };

    make_image(SCT_FORM_2);
    put_form(entry_at(1), SCT_FORM_2, 71, 70);
    entry_at(2)[30] = 1;
    for (size_t i = 0; i < sizeof wrong_forms / sizeof wrong_forms[0]; i++) {
        expect("used exceeds the image", convert(sizeof image + 1, wrong_forms[i]), SCT_BAD_LENGTH);
        expect("used is 2^64 - 1", convert(UINT64_MAX, wrong_forms[i]), SCT_BAD_LENGTH);
        expect("form", convert(TWO_ENTRIES, wrong_forms[i]), SCT_BAD_VALUE);
        expect("form, used is no multiple", convert(TWO_ENTRIES + 1, wrong_forms[i]), SCT_BAD_VALUE);
    }
    expect("image", convert(TWO_ENTRIES, SCT_FORM_1), SCT_BAD_IMAGE);
    entry_at(2)[30] = 0;
    expect("timers", convert(TWO_ENTRIES, SCT_FORM_1), SCT_OTHER_TIMERS);
    expect("used is no multiple", convert(TWO_ENTRIES + 1, SCT_FORM_1), SCT_BAD_IMAGE);
    put_form(entry_at(1), SCT_FORM_2, 70, 70);
    expect("a buffer without room", code->convert(image, TWO_ENTRIES, TWO_ENTRIES, SCT_FORM_1), SCT_DONE);
    expect_form("first entry", 1, 0, 0, 0);
    expect_form("second entry", 2, 0, 0, 0);
}

/* An empty image has no form; it "starts with form 2" whichever was asked for. */
static void convert_nothing(void)
{
    uint8_t before[sizeof image];

    power_on(0);
    for (uint32_t form = SCT_FORM_1; form <= SCT_FORM_2; form++) {
        memset(image, 0xEE, sizeof image);
        memcpy(before, image, sizeof image);
        expect("an empty image", convert(0, form), SCT_DONE);
        expect("it stays", memcmp(image, before, sizeof image) != 0, 0);
        expect("no image", code->convert(NULL, 0, 0, form), SCT_DONE);
        save(0);
        expect_form("its first entry", 1, 2, 70, 70);
    }
    expect("no such form", convert(0, 3), SCT_BAD_VALUE);
    expect("no such form, no image", code->convert(NULL, 0, 0, 0), SCT_BAD_VALUE);
}

/* Entries as they were before W-204 are readable, and mean 70 and 70. In a record V is at 8, the timers at 26 and 28. */
static void old_images(void)
{
    struct random r = random_for(204, 1);

    for (unsigned i = 0; i < 200; i++) {
        for (uint32_t k = 1; k <= 2; k++)
            random_entry(&r, image, k, SECTORS, SCT_FORM_1);
        expect_answers("an old image", SCT_DONE, SCT_DONE);
        power_on(TWO_ENTRIES);
        expect("its V", get64(device + 8), get64(entry_at(2) + 8));
        expect("its read timer", get16(device + 26), 70);
        expect("its write timer", get16(device + 28), 70);
    }
}

/* ---- W-205: the status reply ------------------------------------------------------- */

/* The status sector of a disk with a fill of sectors 5 to 13 at sector 8, at 30 degrees. */
static void choose_status(uint8_t *sector)
{
    memset(sector, 0, SCT_SECTOR_BYTES);
    put16(sector, 2);
    put16(sector + 2, 1);
    put16(sector + 4, 1);
    sector[10] = 5;
    put16(sector + 14, 0xFFFF);
    put16(sector + 16, 2);
    put16(sector + 18, 1);
    put64(sector + 40, 8);
    sector[200] = sector[202] = sector[204] = 30;
}

/* "The reply is the same whatever the slot's sector bytes held before." */
static void status_over_anything(void)
{
    static const uint8_t held[] = { 0x00, 0xFF, 0xA5, 0x01 };
    uint8_t sector[SCT_SECTOR_BYTES];

    choose_status(sector);
    power_on(0);
    sample(30);
    build_fill(mail, SMART, 1, 5, 9, 0x01020304);
    expect_key("fill", 0);
    expect("sectors written", work(3), 3);
    for (size_t i = 0; i < 2 * sizeof held; i++) {
        build_status(mail, i % 2 ? LOG_EXT : SMART);
        memset(mail + R_SECTOR, held[i / 2], SCT_DATA_BYTES);
        send((uint32_t)i % SCT_PORTS);
        expect_reply("status", sector, sizeof sector);
    }
    expect("lock", code->lock(device, sizeof device), SCT_DONE);
    build_status(mail, SMART);
    memset(mail + R_SECTOR, 0xFF, SCT_DATA_BYTES);
    send(0);
    expect("status, locked", reply_value(mail), 0x0012);
    for (size_t at = R_SECTOR; at < SCT_MAILBOX_BYTES; at++)
        expect("its sectors", mail[at], 0);
}

/* ---- W-206: the word at fault ------------------------------------------------------ */

/* Start and LBA are words 2 to 5, Count is words 6 to 9. */
enum { KEY_WORDS = 10 };

static void build_words(enum form form, const uint16_t *words)
{
    build_log(mail, form, true, 0xE0, 1);
    for (unsigned i = 0; i < KEY_WORDS; i++)
        put16(mail + R_SECTOR + 2 * i, words[i]);
}

static void describe_words(char *what, size_t size, const uint16_t *words)
{
    size_t used = (size_t)snprintf(what, size, "key");

    for (unsigned i = 0; i < KEY_WORDS; i++)
        used += (size_t)snprintf(what + used, size - used, " %Xh", words[i]);
}

/* The reply has Status 51h, this Error, code and LBA Mid, and 0 in every other byte. */
static void expect_refused(const char *what, uint8_t error, uint16_t refusal, uint8_t mid)
{
    uint8_t wanted[SCT_MAILBOX_BYTES] = { 0 };

    wanted[R_STATUS] = 0x51;
    wanted[R_ERROR] = error;
    wanted[R_COUNT] = (uint8_t)refusal;
    wanted[R_LOW] = (uint8_t)(refusal >> 8);
    wanted[R_MID] = mid;
    expect(what, reply_value(mail), refusal);
    expect(what, mail[R_MID], mid);
    expect(what, memcmp(mail, wanted, sizeof mail) != 0, 0);
}

/* A key of these words is refused, in both forms; the code alone is stored. */
static void expect_refused_key(const uint16_t *words, uint16_t refusal, uint8_t word)
{
    char what[96];

    describe_words(what, sizeof what, words);
    for (enum form form = SMART; form <= LOG_EXT; form++) {
        power_on(0);
        build_words(form, words);
        send(0);
        expect_refused(what, 0x04, refusal, word);
        expect("stored code", stored_code(), refusal);
        expect("action", get16(status() + 16), words[0]);
        expect("function", get16(status() + 18), words[1]);
    }
}

/*
 * "the word that caused it: 0 action, 1 function, 2 to 4 those words, 2 for
 * Start or a Long LBA, 6 where the sum alone is at fault, 255 for the lock."
 *
 * Each row of the key table fails alone: with `right` in the word that is named
 * the key is accepted.
 */
static const struct { uint16_t words[KEY_WORDS]; uint16_t refusal; uint8_t word; uint16_t right; } key_rows[] = {
    /* action */
    { { 0, 1, 2 }, 0x0010, 0, 5 },
    { { 6, 1, 2 }, 0x0010, 0, 5 },
    { { 0x0105, 1, 2 }, 0x0010, 0, 5 },
    { { 0xFFFF, 1, 2 }, 0x0010, 0, 5 },
    /* Long: function, LBA */
    { { 1, 0, 63 }, 0x000A, 1, 1 },
    { { 1, 3, 63 }, 0x000A, 1, 2 },
    { { 1, 0x0101, 63 }, 0x000A, 1, 1 },
    { { 1, 1, 64 }, 0x0002, 2, 63 },
    { { 1, 2, 0xFFFF }, 0x0002, 2, 0 },
    /* fill: function, Start, the sum */
    { { 2, 0, 63 }, 0x0001, 1, 1 },
    { { 2, 3, 63 }, 0x0001, 1, 2 },
    { { 2, 0x0201, 63 }, 0x0001, 1, 1 },
    { { 2, 1, 64 }, 0x0002, 2, 63 },
    { { 2, 2, 0x0100 }, 0x0002, 2, 0 },
    { { 2, 1, 0, 0, 0, 0, 65 }, 0x0002, 6, 64 },
    { { 2, 1, 63, 0, 0, 0, 2 }, 0x0002, 6, 1 },
    { { 2, 2, 60, 0, 0, 0, 5 }, 0x0002, 6, 0 },
    /* timers: function, timer, value */
    { { 3, 0, 1, 10 }, 0x0004, 1, 1 },
    { { 3, 3, 2, 10 }, 0x0004, 1, 2 },
    { { 3, 1, 0, 10 }, 0x0005, 2, 1 },
    { { 3, 1, 3, 10 }, 0x0005, 2, 2 },
    { { 3, 2, 0x0101, 0 }, 0x0005, 2, 1 },
    { { 3, 1, 1, 1 }, 0x0006, 3, 0 },
    { { 3, 1, 1, 9 }, 0x0006, 3, 10 },
    { { 3, 1, 2, 1 }, 0x0007, 3, 0 },
    { { 3, 1, 2, 9 }, 0x0007, 3, 10 },
    /* feature: function, feature, state, option */
    { { 4, 0, 1, 1, 0 }, 0x000C, 1, 1 },
    { { 4, 4, 3, 1, 1 }, 0x000C, 1, 3 },
    { { 4, 1, 0, 1, 0 }, 0x000D, 2, 1 },
    { { 4, 2, 4, 0, 0 }, 0x000D, 2, 3 },
    { { 4, 3, 0x0102, 0, 0 }, 0x000D, 2, 2 },
    { { 4, 1, 1, 0, 1 }, 0x000E, 3, 1 },
    { { 4, 1, 1, 4, 0 }, 0x000E, 3, 3 },
    { { 4, 1, 2, 3, 0 }, 0x000E, 3, 2 },
    { { 4, 1, 3, 0, 1 }, 0x000E, 3, 65535 },
    { { 4, 1, 1, 3, 2 }, 0x000F, 4, 1 },
    { { 4, 1, 2, 1, 0x0100 }, 0x000F, 4, 0 },
    { { 4, 1, 3, 65535, 65535 }, 0x000F, 4, 1 },
    /* table: function, table */
    { { 5, 0, 2 }, 0x0001, 1, 1 },
    { { 5, 2, 2 }, 0x0001, 1, 1 },
    { { 5, 1, 1 }, 0x0011, 2, 2 },
    { { 5, 1, 3 }, 0x0011, 2, 2 },
    { { 5, 1, 0x0202 }, 0x0011, 2, 2 }
};

enum { KEY_ROWS = sizeof key_rows / sizeof key_rows[0] };

static void key_table(void)
{
    for (unsigned i = 0; i < KEY_ROWS; i++) {
        expect_refused_key(key_rows[i].words, key_rows[i].refusal, key_rows[i].word);
        build_words(SMART, key_rows[i].words);
        put16(mail + R_SECTOR + 2 * key_rows[i].word, key_rows[i].right);
        expect_key("the word named is put right", 0);
    }
}

/* "any, locked: 0012h", before all else: keys of every row, and the same put right. */
static void key_table_locked(void)
{
    power_on(0);
    expect("lock", code->lock(device, sizeof device), SCT_DONE);
    for (unsigned i = 0; i < KEY_ROWS; i++) {
        build_words(SMART, key_rows[i].words);
        send(0);
        expect_refused("key under the lock", 0x04, 0x0012, 255);
        build_words(LOG_EXT, key_rows[i].words);
        put16(mail + R_SECTOR + 2 * key_rows[i].word, key_rows[i].right);
        send(0);
        expect_refused("right key under the lock", 0x04, 0x0012, 255);
    }
    expect("unlock", code->unlock(device, sizeof device), SCT_DONE);
    expect("stored code", stored_code(), 0x0012);
}

/* Of several faults the first in the table's order is named, with its word. */
static void several_faults(void)
{
    static const struct { uint16_t words[KEY_WORDS]; uint16_t refusal; uint8_t word; } keys[] = {
        { { 6, 9, 9, 9, 9 }, 0x0010, 0 },
        { { 1, 3, 64 }, 0x000A, 1 },
        { { 2, 3, 64 }, 0x0001, 1 },                                    /* function and Start */
        { { 2, 0, 0, 0, 0, 0, 65 }, 0x0001, 1 },                        /* function and sum */
        { { 2, 1, 64, 0, 0, 0, 1 }, 0x0002, 2 },                        /* Start and sum */
        { { 2, 2, 65, 0, 0, 0, 64 }, 0x0002, 2 },
        { { 2, 1, 64, 0, 0, 0, 0xFFFF, 0xFFFF, 0xFFFF, 0xFFFF }, 0x0002, 2 },
        { { 2, 1, 0xFFFF, 0xFFFF, 0xFFFF, 0xFFFF, 1 }, 0x0002, 2 },     /* the sum is 2^64 */
        { { 2, 1, 0xFFFF, 0xFFFF, 0xFFFF, 0xFFFF, 2 }, 0x0002, 2 },     /* and 2^64 + 1 */
        { { 3, 3, 3, 9 }, 0x0004, 1 },
        { { 3, 1, 3, 9 }, 0x0005, 2 },
        { { 4, 4, 4, 0, 2 }, 0x000C, 1 },
        { { 4, 1, 4, 0, 2 }, 0x000D, 2 },
        { { 4, 1, 3, 0, 2 }, 0x000E, 3 },                               /* state and option */
        { { 5, 2, 3 }, 0x0001, 1 }
    };

    for (size_t i = 0; i < sizeof keys / sizeof keys[0]; i++)
        expect_refused_key(keys[i].words, keys[i].refusal, keys[i].word);
}

/* A number of four words has one name, whichever of its words is too large; a sum "never wraps". */
static void wide_numbers(void)
{
    static const struct { uint16_t words[KEY_WORDS]; uint8_t word; } keys[] = {
        { { 1, 1, 63, 1 }, 2 }, { { 1, 1, 0, 0, 1 }, 2 }, { { 1, 2, 0, 0, 0, 0x8000 }, 2 },
        { { 2, 1, 63, 1 }, 2 }, { { 2, 1, 0, 0, 1 }, 2 }, { { 2, 2, 0, 0, 0, 0x8000 }, 2 },
        { { 2, 1, 0, 0, 0, 0, 64, 1 }, 6 }, { { 2, 1, 0, 0, 0, 0, 0, 0, 1 }, 6 },
        { { 2, 2, 0, 0, 0, 0, 0, 0, 0, 0x8000 }, 6 },
        { { 2, 1, 1, 0, 0, 0, 0xFFFF, 0xFFFF, 0xFFFF, 0xFFFF }, 6 },    /* the sum is 2^64 */
        { { 2, 1, 63, 0, 0, 0, 0xFFC1, 0xFFFF, 0xFFFF, 0xFFFF }, 6 },   /* and here */
        { { 2, 2, 63, 0, 0, 0, 0xFFFF, 0xFFFF, 0xFFFF, 0xFFFF }, 6 },   /* 2^64 + 62 */
        { { 2, 1, 0, 0, 0, 0, 0xFFFF, 0xFFFF, 0xFFFF, 0xFFFF }, 6 }     /* 2^64 - 1 */
    };

    for (size_t i = 0; i < sizeof keys / sizeof keys[0]; i++)
        expect_refused_key(keys[i].words, 0x0002, keys[i].word);
}

/* The reply to an accepted key names no word: "LBA Mid is 1 if a sector is owed", 2 for a Long key, "else 0". */
static void accepted_keys(void)
{
    static const struct { uint16_t words[KEY_WORDS]; uint16_t value; uint8_t mid; } keys[] = {
        { { 1, 1, 63 }, 2, 2 }, { { 1, 2, 63 }, 2, 2 },
        { { 2, 1, 63 }, 0, 0 }, { { 2, 2, 63 }, 0, 1 }, { { 2, 2, 0, 0, 0, 0, 64 }, 0, 1 },
        { { 3, 1, 1, 10 }, 0, 0 }, { { 3, 2, 1, 9 }, 70, 0 },
        { { 4, 1, 3, 65535, 1 }, 0, 0 }, { { 4, 2, 1, 0, 2 }, 1, 0 }, { { 4, 3, 1, 0, 2 }, 0, 0 },
        { { 5, 1, 2 }, 0, 1 }
    };

    for (size_t i = 0; i < sizeof keys / sizeof keys[0]; i++) {
        uint8_t wanted[SCT_MAILBOX_BYTES] = { 0 };

        wanted[R_STATUS] = 0x50;
        wanted[R_COUNT] = (uint8_t)keys[i].value;
        wanted[R_MID] = keys[i].mid;
        power_on(0);
        build_words(SMART, keys[i].words);
        send(0);
        expect("accepted key, LBA Mid", mail[R_MID], keys[i].mid);
        expect("accepted key", memcmp(mail, wanted, sizeof mail) != 0, 0);
    }
}

static void build_wrong_option(enum form form)
{
    build_key(mail, form, 4, 1, 1, 1, 2);
}

/* A key that is refused with word 4, so that a word which is kept would be seen. */
static void refuse_option(void)
{
    build_wrong_option(SMART);
    send(0);
    expect_refused("option", 0x04, 0x000F, 4);
}

/* The request in the mailbox is refused with 0 in LBA Mid. */
static void expect_no_word(const char *what, uint8_t error, uint16_t refusal)
{
    send(0);
    expect_refused(what, error, refusal, 0);
}

/* "E1h replies keep 0", and so does all that is no key. */
static void other_requests(void)
{
    clear_disk();
    power_on(0);
    refuse_option();
    build_data_read(mail, SMART);
    expect_no_word("E1h, nothing is pending", 0x04, 0x000B);
    build_data_write(mail, LOG_EXT);
    expect_no_word("E1h, nothing is pending", 0x04, 0x000B);
    build_key(mail, SMART, 5, 1, 2, 0, 0);
    expect_key("table", 0);
    build_log(mail, SMART, false, 0xE1, 2);
    expect_no_word("E1h, count 2", 0x04, 0x0003);
    build_long(mail, SMART, 2, 0);
    expect_key("Write Long", 0);
    build_data_write(mail, SMART);
    expect_no_word("E1h, count 1", 0x04, 0x0003);
    refuse_option();
    build_wrong_option(SMART);
    mail[R_COUNT] = 2;
    expect_no_word("E0h write, count 2", 0x04, 0);
    build_wrong_option(LOG_EXT);
    put16(mail + R_COUNT, 0x0101);
    expect_no_word("E0h write, count 0101h", 0x04, 0);
    build_log(mail, SMART, false, 0xE0, 2);
    expect_no_word("E0h read, count 2", 0x04, 0);
    build_wrong_option(SMART);
    mail[R_LOW] = 0xE2;
    expect_no_word("log E2h", 0x04, 0);
    build_sector(mail, false, 0xFF00, 2);
    expect_no_word("24h, count 2", 0x04, 0);
    build_sector(mail, true, 0xFF00, 1);
    expect_no_word("34h above V", 0x10, 0);
    disk[0] = 1;
    build_sector(mail, false, 0, 1);
    expect_no_word("24h, the check differs", 0x40, 0);
    build_command(mail, 0xEC);
    expect_no_word("ECh", 0x04, 0);
    expect("the stored code is the last key's", stored_code(), 0x000F);
}

static void other_requests_locked(void)
{
    power_on(0);
    expect("lock", code->lock(device, sizeof device), SCT_DONE);
    for (enum form form = SMART; form <= LOG_EXT; form++) {
        build_status(mail, form);
        expect_no_word("status read under the lock", 0x04, 0x0012);
        build_data_read(mail, form);
        expect_no_word("E1h read under the lock", 0x04, 0x0012);
        build_long_write(mail, form);
        expect_no_word("E1h write under the lock", 0x04, 0x0012);
    }
    build_log(mail, SMART, true, 0xE0, 2);
    expect_no_word("E0h write under the lock, count 2", 0x04, 0);
    build_sector(mail, false, 0xFF00, 1);
    expect_no_word("24h under the lock", 0x04, 0);
}

/* Keys with the same code, action and function and other words leave the same record. */
static void word_is_not_kept(void)
{
    uint8_t before[sizeof device];

    power_on(0);
    build_fill(mail, SMART, 1, SECTORS, 0, 0);
    send(0);
    expect_refused("Start", 0x04, 0x0002, 2);
    memcpy(before, device, sizeof device);
    build_fill(mail, SMART, 1, 0, SECTORS + 1, 0);
    send(0);
    expect_refused("sum", 0x04, 0x0002, 6);
    expect("record", memcmp(device, before, sizeof device) != 0, 0);
    power_on(0);
    build_fill(mail, SMART, 1, 0, SECTORS + 1, 0);
    send(0);
    expect("record after the sum alone", memcmp(device, before, sizeof device) != 0, 0);
    expect("stored code", stored_code(), 0x0002);
}

/* ---- W-207: larger disks ----------------------------------------------------------- */

/* Memory that is reserved, for a disk of one sector more than there may be and for its check area. */
static struct arena large_disk, large_check_area;

static void make_large(void)
{
    arena_make(&large_disk, (size_t)16777217 * SCT_SECTOR_BYTES);
    arena_make(&large_check_area, (size_t)16777217 * SCT_CHECK_BYTES);
}

/* The answer of a power-on with a disk of so many sectors, and a check area that is right for it. */
static uint32_t power_on_of(uint64_t sectors, uint64_t used)
{
    size_t disk_length = (size_t)sectors * SCT_SECTOR_BYTES;
    size_t check_length = (size_t)sectors * SCT_CHECK_BYTES;

    return code->power_on(device, sizeof device, area, sizeof area,
                          arena_place(&large_disk, disk_length, AT_END, 0), disk_length,
                          arena_place(&large_check_area, check_length, AT_END, 0), check_length,
                          image, sizeof image, used);
}

/* "Raise the native limit to 16,777,216 sectors." N is at 0 of the record, V at 8. */
static void large_disks(void)
{
    static const struct { uint64_t sectors; uint32_t answer; } disks[] = {
        { 0, SCT_BAD_LENGTH }, { 1, SCT_DONE }, { 65535, SCT_DONE }, { 65536, SCT_DONE }, { 65537, SCT_DONE },
        { 8388608, SCT_DONE }, { 8388609, SCT_DONE }, { 16777215, SCT_DONE }, { 16777216, SCT_DONE },
        { 16777217, SCT_BAD_LENGTH }
    };
    uint8_t before[sizeof device];

    for (size_t i = 0; i < sizeof disks / sizeof disks[0]; i++) {
        memset(device, 0xEE, sizeof device);
        memcpy(before, device, sizeof device);
        expect("power-on of a disk", power_on_of(disks[i].sectors, 0), disks[i].answer);
        if (disks[i].answer == SCT_DONE) {
            expect("its N", get64(device), disks[i].sectors);
            expect("its V", get64(device + 8), disks[i].sectors);
        } else {
            expect("record", memcmp(device, before, sizeof device) != 0, 0);
        }
    }
}

/* An image of one entry with this N and V. */
static void save_sizes(uint64_t native, uint64_t visible)
{
    power_on(0);
    save(0);
    put64(image, native);
    put64(image + 8, visible);
}

/*
 * "a handler of the old limit answers 6 to an entry above 65,536": now such an
 * entry is of another disk, or of this one.
 */
static void large_entries(void)
{
    static const struct { uint64_t native, visible; uint32_t here, there; } entries[] = {
        { 65536, 65536, SCT_OTHER_DISK, SCT_DONE }, { 65537, 65537, SCT_OTHER_DISK, SCT_DONE },
        { 65537, 1, SCT_OTHER_DISK, SCT_DONE }, { 16777216, 65536, SCT_OTHER_DISK, SCT_DONE },
        { 16777216, 16777216, SCT_OTHER_DISK, SCT_DONE }, { 16777216, 16777217, SCT_BAD_IMAGE, SCT_BAD_IMAGE },
        { 16777217, 1, SCT_BAD_IMAGE, SCT_BAD_LENGTH }, { 16777217, 16777217, SCT_BAD_IMAGE, SCT_BAD_LENGTH }
    };

    for (size_t i = 0; i < sizeof entries / sizeof entries[0]; i++) {
        save_sizes(entries[i].native, entries[i].visible);
        expect("an entry, power-on of 64 sectors", power_on_of(SECTORS, 560), entries[i].here);
        expect("an entry, save of 64 sectors", code->save(device, sizeof device, image, sizeof image, 560),
               entries[i].here);
        expect("an entry, convert", convert(560, SCT_FORM_1),
               entries[i].here == SCT_OTHER_DISK ? SCT_DONE : SCT_BAD_IMAGE);
        expect("an entry, power-on of its own disk", power_on_of(entries[i].native, 560), entries[i].there);
        if (entries[i].there == SCT_DONE)
            expect("its V", get64(device + 8), entries[i].visible);
    }
    save_sizes(16777217, 16777217);
    expect("an entry of 16,777,217, power-on of 16,777,216", power_on_of(16777216, 560), SCT_BAD_IMAGE);
}

/* "an entry at or below it is the same bytes in both": the first of a disk of 65,536 sectors, all its 560 bytes. */
static void same_entry(void)
{
    static const uint8_t head[42] = {
        0, 0, 1, 0, 0, 0, 0, 0, 0, 0, 1, 0, 0, 0, 0, 0,     /* N and V */
        0, 0x80, 1, 0, 1, 0, 1, 0, 0,                       /* flag, life maximum, features, kept marks */
        2, 70, 0, 70, 0, 0, 0,                              /* form 2, timers */
        2, 0, 1, 0, 1, 0, 0x3C, 0x46, 0x05, 0xF6            /* table */
    };
    static const uint8_t trailer[16] = { 0x20, 2, 0, 0, 0xFF, 0xFF, 0xFF, 0xFF, 1, 0, 0, 0, 'S', 'C', 'T', 'E' };
    uint8_t wanted[SCT_ENTRY_BYTES] = { 0 };

    memcpy(wanted, head, sizeof head);
    put16(wanted + 62, 478);
    put16(wanted + 64, 477);
    memset(wanted + 66, 0x80, 478);
    memcpy(wanted + 544, trailer, sizeof trailer);
    expect("power-on of 65,536 sectors", power_on_of(65536, 0), SCT_DONE);
    save(0);
    expect("its entry", memcmp(image, wanted, sizeof wanted) != 0, 0);
    expect("power-on from it", power_on_of(65536, 560), SCT_DONE);
}

/* "Sound records [..] take the new limit". */
static void large_records(void)
{
    static const struct { uint64_t native, visible; uint32_t answer; } records[] = {
        { 65536, 65536, SCT_DONE }, { 65537, 65537, SCT_DONE }, { 65537, 1, SCT_DONE },
        { 16777215, 16777215, SCT_DONE }, { 16777215, 16777216, SCT_BAD_RECORD },
        { 16777216, 16777216, SCT_DONE }, { 16777216, 1, SCT_DONE }, { 16777216, 0, SCT_BAD_RECORD },
        { 16777217, 16777217, SCT_BAD_RECORD }, { 16777217, 1, SCT_BAD_RECORD },
        { 0x100000001, 1, SCT_BAD_RECORD }, { UINT64_MAX, 1, SCT_BAD_RECORD }
    };

    for (size_t i = 0; i < sizeof records / sizeof records[0]; i++) {
        power_on(0);
        put64(device, records[i].native);
        put64(device + 8, records[i].visible);
        expect("record of a large disk", code->sample(device, sizeof device, 20), records[i].answer);
        expect("V set to its N", code->set_visible(device, sizeof device, records[i].native), records[i].answer);
    }
}

static void run(const struct implementation *implementation)
{
    code = implementation;
    clear_disk();
    key_examples();
    fill_by_count();
    sector_fill_by_count();
    temperature_example();
    work_example();
    clear_disk();
    stopped_fill();
    another_port();
    clear_disk();
    right_port();
    shrunk_disk();
    locked_disk();
    flag_and_image();
    check_values();
    check_of_fill();
    check_differs();
    check_area_length();
    repair_reports();
    repair_with_wrong_check();
    repair_and_flag();
    repair_stops();
    repair_refused();
    long_keys();
    long_counts();
    long_there_and_back();
    long_and_repair();
    long_and_flag();
    long_pending();
    second_sector();
    long_records();
    timers_on();
    timers_off();
    timer_records();
    saved_forms();
    restored_timers();
    saved_timers();
    form_bytes();
    mixed_chains();
    there_and_back();
    convert_order();
    convert_nothing();
    old_images();
    status_over_anything();
    key_table();
    key_table_locked();
    several_faults();
    wide_numbers();
    accepted_keys();
    other_requests();
    other_requests_locked();
    word_is_not_kept();
    large_disks();
    large_entries();
    same_entry();
    large_records();
}

int main(void)
{
    make_large();
    run(&reference);
    run(&archive);
    printf("examples: %u checks, %u wrong\n", tried, wrong);
    return wrong == 0 ? 0 : 1;
}
