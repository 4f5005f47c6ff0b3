/*
 * bench.c - what the entries cost, compared with the reference built by the C
 * compiler. Both are measured in turn within each round, so that a change of
 * the machine's speed affects both; the median of the rounds is printed.
 *
 *   bench [rounds]      31 rounds if none are given
 *
 * "Exchange" is take, serve and give in a row; "convert, there and back" is two
 * calls. The reference is a plain C program that opens the record into a struct,
 * decides, and writes it back. In one row the reference's column has memcpy, in
 * another a plain C loop over the bits of a sector, which makes its check.
 */
#include <stdio.h>
#include <stdlib.h>
#include <string.h>

#include "bytes.h"
#include "implementation.h"
#include "layout.h"
#include "measure.h"
#include "random.h"
#include "request.h"

enum { SECTORS = 4096, MOST_ROUNDS = 101 };

static uint8_t  device[SCT_RECORD_BYTES];
static uint8_t  area[SCT_PRIVATE_BYTES];
static uint8_t  disk[(size_t)SECTORS * SCT_SECTOR_BYTES];
static uint8_t  check_area[(size_t)SECTORS * SCT_CHECK_BYTES];
static uint8_t  request[SCT_MAILBOX_BYTES], second[SCT_MAILBOX_BYTES], reply[SCT_MAILBOX_BYTES];
static uint8_t  image[SCT_IMAGE_LIMIT];
static uint64_t image_used;

static void expect_done(uint32_t answer)
{
    if (answer == SCT_DONE)
        return;
    fprintf(stderr, "a step that is measured answers %u\n", answer);
    exit(1);
}

/* ---- The calls --------------------------------------------------------------------- */

static void power_on(const struct implementation *code)
{
    expect_done(code->power_on(device, sizeof device, area, sizeof area, disk, sizeof disk,
                               check_area, sizeof check_area, image, sizeof image, image_used));
}

static void make_image(unsigned entries)
{
    struct random r = random_for(5, 5);

    for (uint32_t k = 1; k <= entries; k++)
        random_entry(&r, image, k, SECTORS, SCT_FORM_1);
    image_used = (uint64_t)SCT_ENTRY_BYTES * entries;
}

static void start(const struct implementation *code)
{
    make_image(0);
    power_on(code);
}

static void take(const struct implementation *code, uint32_t port, const uint8_t *mail)
{
    expect_done(code->take(device, sizeof device, port, mail, SCT_MAILBOX_BYTES, area, sizeof area));
}

static void serve(const struct implementation *code, uint32_t port)
{
    expect_done(code->serve(device, sizeof device, port, area, sizeof area, disk, sizeof disk,
                            check_area, sizeof check_area));
}

static void give(const struct implementation *code, uint32_t port)
{
    expect_done(code->give(device, sizeof device, port, reply, sizeof reply, area, sizeof area));
}

static void exchange(const struct implementation *code, const uint8_t *mail)
{
    take(code, 1, mail);
    serve(code, 1);
    give(code, 1);
}

static void save(const struct implementation *code)
{
    expect_done(code->save(device, sizeof device, image, sizeof image, image_used));
}

/* To form 2 and back to form 1, which the image of make_image has. */
static void convert(const struct implementation *code)
{
    for (uint32_t form = SCT_FORM_2; form >= SCT_FORM_1; form--)
        expect_done(code->convert(image, sizeof image, image_used, form));
}

/* One sector with random bits, as the check costs may depend on them. */
enum { LBA = 77 };

static void build_random_write(uint8_t *mail)
{
    struct random r = random_for(6, 6);

    build_sector(mail, true, LBA, 1);
    random_bytes(&r, mail + R_SECTOR, SCT_SECTOR_BYTES);
}

static void write_random(const struct implementation *code)
{
    build_random_write(second);
    exchange(code, second);
}

static void repair(const struct implementation *code)
{
    uint64_t result = code->repair(device, sizeof device, disk, sizeof disk, check_area, sizeof check_area, LBA);

    expect_done(sct_repair_answer(result));
}

/* ---- What is measured: each run_ function gives nanoseconds for one of `times` ------ */

/* A run of one statement, in which i counts, after a statement that is not measured. */
#define MEASURE(name, prepare, statement)                                               \
    static double run_##name(const struct implementation *code, unsigned times)         \
    {                                                                                   \
        double from;                                                                    \
                                                                                        \
        prepare;                                                                        \
        from = nanoseconds_now();                                                       \
        for (unsigned i = 0; i < times; i++)                                            \
            statement;                                                                  \
        return (nanoseconds_now() - from) / times;                                      \
    }

#define MEASURE_EXCHANGE(name, build) MEASURE(name, (start(code), build), exchange(code, request))

MEASURE_EXCHANGE(status, build_status(request, SMART))
MEASURE_EXCHANGE(key, build_key(request, SMART, 3, 1, 1, 70, 0))
MEASURE_EXCHANGE(fill_key, build_fill(request, SMART, 1, 0, 0, 0x12345678))
MEASURE_EXCHANGE(refused_key, build_fill(request, SMART, 1, 1, UINT64_MAX, 0))
MEASURE_EXCHANGE(read, (write_random(code), build_sector(request, false, LBA, 1)))
MEASURE_EXCHANGE(write, build_random_write(request))

/* The key and the transfer, two exchanges. */
MEASURE(table, (start(code), build_key(request, SMART, 5, 1, 2, 0, 0), build_data_read(second, SMART)),
        (exchange(code, request), exchange(code, second)))

MEASURE(long_read, (start(code), build_long(request, SMART, 1, LBA), build_long_read(second, SMART)),
        (exchange(code, request), exchange(code, second)))
MEASURE(long_write, (start(code), build_long(request, SMART, 2, LBA), build_long_write(second, SMART)),
        (exchange(code, request), exchange(code, second)))

MEASURE(lock, start(code), expect_done(code->lock(device, sizeof device)))
MEASURE(set_visible, start(code), expect_done(code->set_visible(device, sizeof device, SECTORS - i % 2)))
MEASURE(sample, start(code), expect_done(code->sample(device, sizeof device, (uint8_t)i)))
MEASURE(repair, (start(code), write_random(code)), repair(code))
MEASURE(save_first, start(code), save(code))
MEASURE(save_last, (start(code), make_image(116)), save(code))
MEASURE(power_on_0, make_image(0), power_on(code))
MEASURE(power_on_1, make_image(1), power_on(code))
MEASURE(power_on_117, make_image(117), power_on(code))
MEASURE(convert_117, make_image(117), convert(code))

/*
 * Serve alone, for all ports in a row: takes and gives are not counted. Before
 * the reply to a read has its data, the sector's check is made and compared.
 */
static double run_serve_read(const struct implementation *code, unsigned times)
{
    double spent = 0;

    start(code);
    write_random(code);
    build_sector(request, false, LBA, 1);
    for (unsigned i = 0; i < times; i++) {
        double from;

        for (uint32_t port = 0; port < SCT_PORTS; port++)
            take(code, port, request);
        from = nanoseconds_now();
        for (uint32_t port = 0; port < SCT_PORTS; port++)
            serve(code, port);
        spent += nanoseconds_now() - from;
        for (uint32_t port = 0; port < SCT_PORTS; port++)
            give(code, port);
    }
    if (reply[R_STATUS] != 0x50) {
        fprintf(stderr, "a read that is measured is refused\n");
        exit(1);
    }
    return spent / times / SCT_PORTS;
}

/* The check as W-202 words it, one position after the other. */
static unsigned check_by_bits(const uint8_t *sector)
{
    unsigned check = 0;

    for (unsigned position = 0; position < 8 * SCT_SECTOR_BYTES; position++)
        if (sector[position / 8] >> position % 8 & 1)
            check ^= 1u << 12 | position;
    return check;
}

static double run_check_by_bits(unsigned times)
{
    static volatile unsigned check;     /* the loop must not be optimized away */
    double from;

    build_random_write(second);
    from = nanoseconds_now();
    for (unsigned i = 0; i < times; i++)
        check = check_by_bits(second + R_SECTOR);
    (void)check;
    return (nanoseconds_now() - from) / times;
}

/* The archive's serve of a read compared with the bit loop alone, in the reference's place. */
static double run_serve_read_or_bits(const struct implementation *code, unsigned times)
{
    return code == &archive ? run_serve_read(code, times) : run_check_by_bits(times);
}

/* All sectors in calls of n; the key that starts the fill is not counted. */
static double fill_in_pieces(const struct implementation *code, unsigned times, uint32_t n)
{
    double spent = 0;

    start(code);
    build_fill(request, SMART, 1, 0, 0, 0x12345678);
    for (unsigned i = 0; i < times; i++) {
        double from;

        exchange(code, request);
        from = nanoseconds_now();
        for (uint32_t written = 0; written < SECTORS; ) {
            uint64_t result = code->work(device, sizeof device, area, sizeof area, disk, sizeof disk,
                                         check_area, sizeof check_area, n);

            expect_done(sct_work_answer(result));
            written += sct_work_sectors(result);
        }
        spent += nanoseconds_now() - from;
    }
    return spent / times / SECTORS;
}

static double run_work_all(const struct implementation *code, unsigned times)
{
    return fill_in_pieces(code, times, SECTORS);
}

static double run_work_one(const struct implementation *code, unsigned times)
{
    return fill_in_pieces(code, times, 1);
}

/* No entry at all: what the copies alone cost. */
static double run_copies(unsigned times)
{
    static uint8_t sector[SCT_SECTOR_BYTES];
    double from = nanoseconds_now();

    for (unsigned i = 0; i < times; i++) {
        for (size_t k = 0; k < SECTORS; k++)
            copy_bytes(disk + k * SCT_SECTOR_BYTES, sector, SCT_SECTOR_BYTES);
    }
    return (nanoseconds_now() - from) / times / SECTORS;
}

/* The archive's work compared with memcpy of 512 bytes, in the reference's place. */
static double run_work_or_copies(const struct implementation *code, unsigned times)
{
    return code == &archive ? run_work_all(code, times) : run_copies(times);
}

/* ---- The table ------------------------------------------------------------------ */

static const struct {
    const char *name;
    double    (*run)(const struct implementation *, unsigned);
    unsigned    times;
} measures[] = {
    { "exchange: status read",                run_status,       4000 },
    { "exchange: key, timer set",             run_key,          4000 },
    { "exchange: key, pattern fill",          run_fill_key,     4000 },
    { "exchange: key, fill refused",          run_refused_key,  4000 },
    { "two exchanges: table",                 run_table,        2000 },
    { "two exchanges: Read Long",             run_long_read,    2000 },
    { "two exchanges: Write Long",            run_long_write,   2000 },
    { "exchange: sector read",                run_read,         4000 },
    { "exchange: sector write",               run_write,        4000 },
    { "serve alone: sector read",             run_serve_read,   1000 },
    { "serve: sector read, beside bit loop",  run_serve_read_or_bits, 1000 },
    { "work, a sector, 4096 in a call",       run_work_all,        2 },
    { "work, a sector, one in a call",        run_work_one,        1 },
    { "work, a sector, beside memcpy",        run_work_or_copies,  2 },
    { "lock",                                 run_lock,         8000 },
    { "set V",                                run_set_visible,  8000 },
    { "sample",                               run_sample,       8000 },
    { "repair, check equal",                  run_repair,       4000 },
    { "save, first entry",                    run_save_first,   8000 },
    { "save, 117th entry",                    run_save_last,     300 },
    { "power-on, no entry",                   run_power_on_0,   8000 },
    { "power-on, 1 entry",                    run_power_on_1,   8000 },
    { "power-on, 117 entries",                run_power_on_117,  300 },
    { "convert, 117 entries, there and back", run_convert_117,   300 },
};

enum { MEASURES = sizeof measures / sizeof measures[0] };

static double results[MEASURES][2][MOST_ROUNDS];

static void run_rounds(unsigned rounds)
{
    for (unsigned m = 0; m < MEASURES; m++)     /* warms the caches */
        measures[m].run(m % 2 ? &archive : &reference, 1);
    for (unsigned r = 0; r < rounds; r++) {
        for (unsigned m = 0; m < MEASURES; m++) {
            unsigned first = r % 2;             /* the two take turns in coming first */

            for (unsigned i = 0; i < 2; i++) {
                unsigned side = i ^ first;

                results[m][side][r] = measures[m].run(side == 0 ? &archive : &reference, measures[m].times);
            }
        }
    }
}

int main(int count, char **words)
{
    unsigned rounds = count > 1 ? (unsigned)strtoul(words[1], NULL, 0) : 31;

    if (rounds < 1 || rounds > MOST_ROUNDS) {
        fprintf(stderr, "usage: %s [rounds, 1 to %d]\n", words[0], MOST_ROUNDS);
        return 2;
    }
    run_rounds(rounds);
    printf("nanoseconds, median of %u rounds\n", rounds);
    printf("%-36s %10s %10s %8s\n", "", "archive", "reference", "ratio");
    for (unsigned m = 0; m < MEASURES; m++) {
        double a = median(results[m][0], rounds);
        double b = median(results[m][1], rounds);

        printf("%-36s %10.1f %10.1f %8.2f\n", measures[m].name, a, b, a / b);
    }
    return 0;
}
