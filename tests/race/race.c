/*
 * race.c - other cores rewrite the mailbox while the handler is at work.
 *
 * Two threads write requests into one mailbox as fast as they can. Meanwhile
 * the main thread takes, serves, works and gives. The request is whatever the
 * private area's slot holds after the take, torn or not: the reference serves
 * a copy of those bytes, and everything must come out the same. No sector at
 * or above V may ever change, and no check bytes of one.
 *
 *   race [seconds]      5 seconds if none are given
 */
#define _POSIX_C_SOURCE 200809L

#include <pthread.h>
#include <sched.h>
#include <stdbool.h>
#include <stdio.h>
#include <stdlib.h>
#include <string.h>
#include <time.h>

#include "bytes.h"
#include "check.h"
#include "implementation.h"
#include "random.h"
#include "request.h"

enum { SECTORS = 64, VISIBLE = 32, WRITERS = 2, REQUESTS = 17, MAILBOX_WORDS = SCT_MAILBOX_BYTES / 8 };

/* ---- The common memory, and the threads that write it --------------------------- */

/* Written by every thread without any order: that is the point. */
static volatile uint64_t mailbox[MAILBOX_WORDS];
static volatile uint64_t written[WRITERS];     /* requests written by each thread */
static volatile unsigned theme;
static volatile bool over;

static uint64_t requests[REQUESTS][MAILBOX_WORDS];

/*
 * The requests of a theme differ in a few fields, and some of them are refused:
 * if a field were fetched again after it was judged, a fill or a write would go
 * too far. For a while both threads keep to one theme, so that a torn request
 * is still one that can be carried out.
 */
static const struct { unsigned first, count; } themes[] = { { 0, 5 }, { 5, 3 }, { 8, 4 }, { 12, 5 }, { 0, REQUESTS } };

enum { THEMES = sizeof themes / sizeof themes[0], EXCHANGES_PER_THEME = 64 };

static void build_requests(void)
{
    uint8_t mail[SCT_MAILBOX_BYTES];

    for (unsigned i = 0; i < REQUESTS; i++) {
        switch (i) {
        case 0:  build_fill(mail, SMART, 1, 0, 4, 0xAAAAAAAA); break;
        case 1:  build_fill(mail, SMART, 1, 0, VISIBLE + 8, 0xBBBBBBBB); break;
        case 2:  build_fill(mail, SMART, 1, VISIBLE - 2, 0, 0xCCCCCCCC); break;
        case 3:  build_fill(mail, SMART, 1, VISIBLE + 2, 0, 0xDDDDDDDD); break;
        case 4:  build_fill(mail, SMART, 1, 1, UINT64_MAX, 0xEEEEEEEE); break;
        case 5:  build_sector(mail, true, VISIBLE - 1, 1); break;
        case 6:  build_sector(mail, true, VISIBLE, 1); break;
        case 7:  build_sector(mail, true, SECTORS - 1, 1); break;
        case 8:  build_fill(mail, SMART, 2, 3, 5, 0); break;
        case 9:  build_data_write(mail, SMART); break;
        case 10: build_status(mail, SMART); break;
        case 11: build_sector(mail, false, 7, 1); break;
        case 12: build_long(mail, SMART, 2, 9); break;
        case 13: build_long(mail, SMART, 2, VISIBLE); break;
        case 14: build_long(mail, SMART, 1, SECTORS - 1); break;
        case 15: build_long_read(mail, SMART); break;
        default: build_long_write(mail, SMART); break;
        }
        memset(mail + 64, 0x10 + (int)i, SCT_MAILBOX_BYTES - 64);
        memcpy(requests[i], mail, sizeof mail);
    }
}

static void *write_mailbox(void *argument)
{
    size_t me = (size_t)argument;
    struct random r = random_for(99, me);

    while (!over) {
        uint64_t dice = random64(&r);
        unsigned now = theme;       /* fetched once: it changes too */
        const uint64_t *request = requests[themes[now].first + dice % themes[now].count];
        unsigned from = (dice >> 32) % 4 == 0 ? (unsigned)(dice >> 40) % 4 : 0;

        for (unsigned i = from; i < MAILBOX_WORDS; i++)
            mailbox[i] = request[i];
        written[me]++;
    }
    return NULL;
}

/* ---- The device under test, and the reference ------------------------------------- */

struct device {
    uint8_t record[SCT_RECORD_BYTES];
    uint8_t area[SCT_PRIVATE_BYTES];
    uint8_t disk[SECTORS * SCT_SECTOR_BYTES];
    uint8_t check_area[SECTORS * SCT_CHECK_BYTES];
};

static struct device tested, beside;
static uint8_t hidden[(SECTORS - VISIBLE) * SCT_SECTOR_BYTES];
static uint8_t hidden_checks[(SECTORS - VISIBLE) * SCT_CHECK_BYTES];
static uint64_t exchanges, torn, good, sectors;

static void stop(const char *what)
{
    printf("after %llu exchanges: %s\n", (unsigned long long)exchanges, what);
    exit(1);
}

static void expect(bool holds, const char *what)
{
    if (!holds)
        stop(what);
}

static void expect_same(const char *step)
{
    if (memcmp(tested.record, beside.record, sizeof tested.record) != 0 ||
        memcmp(tested.area, beside.area, sizeof tested.area) != 0 ||
        memcmp(tested.disk, beside.disk, sizeof tested.disk) != 0 ||
        memcmp(tested.check_area, beside.check_area, sizeof tested.check_area) != 0)
        stop(step);
    expect(memcmp(tested.disk + VISIBLE * SCT_SECTOR_BYTES, hidden, sizeof hidden) == 0,
           "a sector at or above V was written");
    expect(memcmp(tested.check_area + VISIBLE * SCT_CHECK_BYTES, hidden_checks, sizeof hidden_checks) == 0,
           "check bytes of a sector at or above V were written");
}

static void start_device(const struct implementation *code, struct device *d)
{
    for (size_t i = 0; i < sizeof d->disk; i++)
        d->disk[i] = (uint8_t)(i / SCT_SECTOR_BYTES * (i % SCT_SECTOR_BYTES));
    make_checks(d->check_area, d->disk, SECTORS);
    expect(code->power_on(d->record, sizeof d->record, d->area, sizeof d->area, d->disk, sizeof d->disk,
                          d->check_area, sizeof d->check_area, NULL, 0, 0) == SCT_DONE, "power-on is refused");
    expect(code->set_visible(d->record, sizeof d->record, VISIBLE) == SCT_DONE, "setting V is refused");
}

/* Not one of the requests: it was torn while it was copied. */
static bool is_torn(const uint8_t *slot)
{
    for (unsigned i = 0; i < REQUESTS; i++)
        if (memcmp(slot, requests[i], SCT_MAILBOX_BYTES) == 0)
            return false;
    return true;
}

/* The reference takes the bytes that the slot holds now. */
static void take(uint32_t port)
{
    uint8_t *slot = tested.area + SCT_MAILBOX_BYTES * port;
    uint8_t copy[SCT_MAILBOX_BYTES];

    expect(archive.take(tested.record, sizeof tested.record, port, (const uint8_t *)mailbox, SCT_MAILBOX_BYTES,
                        tested.area, sizeof tested.area) == SCT_DONE, "take is refused");
    memcpy(copy, slot, sizeof copy);
    torn += is_torn(copy);
    expect(reference.take(beside.record, sizeof beside.record, port, copy, sizeof copy,
                          beside.area, sizeof beside.area) == SCT_DONE, "take is refused by the reference");
    expect_same("take left other bytes");
}

static void serve(uint32_t port)
{
    expect(archive.serve(tested.record, sizeof tested.record, port, tested.area, sizeof tested.area,
                         tested.disk, sizeof tested.disk, tested.check_area, sizeof tested.check_area) == SCT_DONE,
           "serve is refused");
    expect(reference.serve(beside.record, sizeof beside.record, port, beside.area, sizeof beside.area,
                           beside.disk, sizeof beside.disk, beside.check_area, sizeof beside.check_area) == SCT_DONE,
           "serve is refused by the reference");
    good += tested.area[SCT_MAILBOX_BYTES * port + R_STATUS] == 0x50;
    expect_same("what was served is not what the slot held");
}

static void work(uint32_t n)
{
    uint64_t a = archive.work(tested.record, sizeof tested.record, tested.area, sizeof tested.area,
                              tested.disk, sizeof tested.disk, tested.check_area, sizeof tested.check_area, n);
    uint64_t b = reference.work(beside.record, sizeof beside.record, beside.area, sizeof beside.area,
                                beside.disk, sizeof beside.disk, beside.check_area, sizeof beside.check_area, n);

    expect(a == b, "work reports another number");
    sectors += sct_work_sectors(a);
    expect_same("work left other bytes");
}

static void give(uint32_t port)
{
    uint8_t copy[SCT_MAILBOX_BYTES];

    expect(archive.give(tested.record, sizeof tested.record, port, (uint8_t *)mailbox, SCT_MAILBOX_BYTES,
                        tested.area, sizeof tested.area) == SCT_DONE, "give is refused");
    expect(reference.give(beside.record, sizeof beside.record, port, copy, sizeof copy,
                          beside.area, sizeof beside.area) == SCT_DONE, "give is refused by the reference");
    expect_same("give left other bytes");
}

static double seconds_now(void)
{
    struct timespec t;

    clock_gettime(CLOCK_MONOTONIC, &t);
    return (double)t.tv_sec + (double)t.tv_nsec / 1e9;
}

/* Lets a thread write a request over what the mailbox holds. */
static void wait_for_request(void)
{
    static uint64_t seen[WRITERS];

    for (unsigned i = 0; written[i] == seen[i]; i = (i + 1) % WRITERS)
        if (i == 0)
            sched_yield();
    for (unsigned i = 0; i < WRITERS; i++)
        seen[i] = written[i];
}

static void run(double duration)
{
    struct random r = random_for(99, 99);
    double end = seconds_now() + duration;

    while (exchanges % 256 != 0 || seconds_now() < end) {
        uint32_t port = (uint32_t)below(&r, SCT_PORTS);

        wait_for_request();
        take(port);
        if (exchanges % 2 == 0)         /* another request, also where the threads share one processor */
            wait_for_request();
        serve(port);
        work((uint32_t)below(&r, 6));
        give(port);
        exchanges++;
        theme = (unsigned)(exchanges / EXCHANGES_PER_THEME % THEMES);
    }
}

int main(int count, char **words)
{
    pthread_t writer[WRITERS];

    build_requests();
    start_device(&archive, &tested);
    start_device(&reference, &beside);
    memcpy(hidden, tested.disk + VISIBLE * SCT_SECTOR_BYTES, sizeof hidden);
    memcpy(hidden_checks, tested.check_area + VISIBLE * SCT_CHECK_BYTES, sizeof hidden_checks);
    expect_same("power-on left other bytes");
    for (size_t i = 0; i < WRITERS; i++)
        if (pthread_create(&writer[i], NULL, write_mailbox, (void *)i) != 0)
            stop("no thread");
    run(count > 1 ? strtod(words[1], NULL) : 5);
    over = true;
    for (size_t i = 0; i < WRITERS; i++)
        pthread_join(writer[i], NULL);
    printf("exchanges %llu, torn requests %llu, good replies %llu, sectors filled %llu: no difference\n",
           (unsigned long long)exchanges, (unsigned long long)torn, (unsigned long long)good,
           (unsigned long long)sectors);
    return 0;
}
