/*
 * stack.c - how much stack each entry uses, beside the bound that
 * .ci/check-stack computes.
 *
 * A call is made on a separate stack, painted with one byte; the lowest byte
 * that has lost its paint shows the depth. The depth of the same call of an
 * entry that does nothing is subtracted, so that the numbers are the entry's,
 * with its return address. x86-64 only.
 *
 * Paint shows what is written, not what is merely reserved: a frame whose
 * lowest bytes are never written looks that much smaller. What memset itself
 * uses is measured too, and is not in the bound.
 *
 * Every call is made once before it is measured (an entry of a shared library
 * is bound at its first call) and then with two paints, so that a byte that
 * happens to equal the paint does not matter.
 *
 * Its argument is a file with the bounds, as check-stack --plain prints them.
 * Ends with 1 if an entry uses more than its bound, or a bound is not below
 * LIMIT; without an argument, if an entry uses LIMIT bytes or more.
 */
#include <stdbool.h>
#include <stdio.h>
#include <stdlib.h>
#include <string.h>

#include "bytes.h"
#include "implementation.h"
#include "layout.h"
#include "random.h"
#include "request.h"

#if !defined(__x86_64__)
#error "this test switches stacks with x86-64 instructions"
#endif

enum { LIMIT = 1024, STACK_BYTES = 32768, SECTORS = 64, DAMAGED = 20, RANDOM_TRIALS = 20000 };

enum entry { POWER_ON, TAKE, SERVE, GIVE, WORK, LOCK, UNLOCK, SET_VISIBLE, SAMPLE, REPAIR, SAVE, CONVERT, ENTRIES };

/* What is measured: the entries, and apart from its others one request of serve. */
enum { STATUS_READ = ENTRIES, ROWS };

static const char *const row_name[ROWS] = {
    "sct_power_on", "sct_take", "sct_serve", "sct_give", "sct_work", "sct_lock", "sct_unlock", "sct_set_visible",
    "sct_sample", "sct_repair", "sct_save", "sct_convert", "status read"
};

static void fail(const char *words)
{
    fprintf(stderr, "stack: %s\n", words);
    exit(1);
}

/* ---- The buffers, and one call ------------------------------------------------ */

static uint8_t  device[SCT_RECORD_BYTES];
static uint8_t  area[SCT_PRIVATE_BYTES];
static uint8_t  disk[SECTORS * SCT_SECTOR_BYTES];
static uint8_t  check_area[SECTORS * SCT_CHECK_BYTES];
static uint8_t  mail[SCT_MAILBOX_BYTES];
static uint8_t  image[SCT_IMAGE_LIMIT + SCT_ENTRY_BYTES];
static uint64_t used;

struct call {
    const struct implementation *code;
    enum entry entry;
    uint32_t   port, n;
    uint64_t   visible;
    uint8_t    reading;
    uint64_t   lba;
    uint32_t   form;
    uint32_t   answer;
};

static void make_call(void *argument)
{
    struct call *c = argument;
    const struct implementation *code = c->code;

    switch (c->entry) {
    case POWER_ON:
        c->answer = code->power_on(device, sizeof device, area, sizeof area, disk, sizeof disk,
                                   check_area, sizeof check_area, image, sizeof image, used);
        break;
    case TAKE:
        c->answer = code->take(device, sizeof device, c->port, mail, sizeof mail, area, sizeof area);
        break;
    case SERVE:
        c->answer = code->serve(device, sizeof device, c->port, area, sizeof area, disk, sizeof disk,
                                check_area, sizeof check_area);
        break;
    case GIVE:
        c->answer = code->give(device, sizeof device, c->port, mail, sizeof mail, area, sizeof area);
        break;
    case WORK:
        c->answer = sct_work_answer(code->work(device, sizeof device, area, sizeof area,
                                               disk, sizeof disk, check_area, sizeof check_area, c->n));
        break;
    case LOCK:
        c->answer = code->lock(device, sizeof device);
        break;
    case UNLOCK:
        c->answer = code->unlock(device, sizeof device);
        break;
    case SET_VISIBLE:
        c->answer = code->set_visible(device, sizeof device, c->visible);
        break;
    case SAMPLE:
        c->answer = code->sample(device, sizeof device, c->reading);
        break;
    case REPAIR:
        c->answer = sct_repair_answer(code->repair(device, sizeof device, disk, sizeof disk,
                                                   check_area, sizeof check_area, c->lba));
        break;
    case SAVE:
        c->answer = code->save(device, sizeof device, image, sizeof image, used);
        break;
    default:
        c->answer = code->convert(image, sizeof image, used, c->form);
        break;
    }
}

/* ---- Entries that do nothing ---------------------------------------------------- */

#define UNUSED(a) (void)(a)

static uint32_t no_power_on(uint8_t *a, size_t b, uint8_t *c, size_t d, const uint8_t *e, size_t f,
                            const uint8_t *g, size_t h, const uint8_t *i, size_t j, uint64_t k)
{
    UNUSED(a); UNUSED(b); UNUSED(c); UNUSED(d); UNUSED(e); UNUSED(f); UNUSED(g); UNUSED(h); UNUSED(i);
    UNUSED(j); UNUSED(k);
    return 0;
}

static uint32_t no_take(uint8_t *a, size_t b, uint32_t c, const uint8_t *d, size_t e, uint8_t *f, size_t g)
{
    UNUSED(a); UNUSED(b); UNUSED(c); UNUSED(d); UNUSED(e); UNUSED(f); UNUSED(g);
    return 0;
}

static uint32_t no_serve(uint8_t *a, size_t b, uint32_t c, uint8_t *d, size_t e, uint8_t *f, size_t g,
                         uint8_t *h, size_t i)
{
    UNUSED(a); UNUSED(b); UNUSED(c); UNUSED(d); UNUSED(e); UNUSED(f); UNUSED(g); UNUSED(h); UNUSED(i);
    return 0;
}

static uint32_t no_give(uint8_t *a, size_t b, uint32_t c, uint8_t *d, size_t e, const uint8_t *f, size_t g)
{
    UNUSED(a); UNUSED(b); UNUSED(c); UNUSED(d); UNUSED(e); UNUSED(f); UNUSED(g);
    return 0;
}

static uint64_t no_work(uint8_t *a, size_t b, const uint8_t *c, size_t d, uint8_t *e, size_t f,
                        uint8_t *g, size_t h, uint32_t i)
{
    UNUSED(a); UNUSED(b); UNUSED(c); UNUSED(d); UNUSED(e); UNUSED(f); UNUSED(g); UNUSED(h); UNUSED(i);
    return 0;
}

static uint32_t no_lock(uint8_t *a, size_t b)
{
    UNUSED(a); UNUSED(b);
    return 0;
}

static uint32_t no_set_visible(uint8_t *a, size_t b, uint64_t c)
{
    UNUSED(a); UNUSED(b); UNUSED(c);
    return 0;
}

static uint32_t no_sample(uint8_t *a, size_t b, uint8_t c)
{
    UNUSED(a); UNUSED(b); UNUSED(c);
    return 0;
}

static uint64_t no_repair(uint8_t *a, size_t b, uint8_t *c, size_t d, const uint8_t *e, size_t f, uint64_t g)
{
    UNUSED(a); UNUSED(b); UNUSED(c); UNUSED(d); UNUSED(e); UNUSED(f); UNUSED(g);
    return 0;
}

static uint32_t no_save(const uint8_t *a, size_t b, uint8_t *c, size_t d, uint64_t e)
{
    UNUSED(a); UNUSED(b); UNUSED(c); UNUSED(d); UNUSED(e);
    return 0;
}

static uint32_t no_convert(uint8_t *a, size_t b, uint64_t c, uint32_t d)
{
    UNUSED(a); UNUSED(b); UNUSED(c); UNUSED(d);
    return 0;
}

static const struct implementation nothing = {
    "nothing", no_power_on, no_take, no_serve, no_give, no_work,
    no_lock, no_lock, no_set_visible, no_sample, no_repair, no_save, no_convert
};

/* ---- Measuring -------------------------------------------------------------------- */

static uint8_t stack[STACK_BYTES] __attribute__((aligned(64)));

/* Calls f(argument) with the stack pointer at `top`. */
static void call_on(uint8_t *top, void (*f)(void *), void *argument)
{
    __asm__ volatile("movq %%rsp, %%rbx\n\t"
                     "movq %1, %%rsp\n\t"
                     "call *%2\n\t"
                     "movq %%rbx, %%rsp\n\t"
                     : "+D"(argument)
                     : "r"(top), "r"(f)
                     : "rax", "rbx", "rcx", "rdx", "rsi", "r8", "r9", "r10", "r11", "memory", "cc",
                       "xmm0", "xmm1", "xmm2", "xmm3", "xmm4", "xmm5", "xmm6", "xmm7",
                       "xmm8", "xmm9", "xmm10", "xmm11", "xmm12", "xmm13", "xmm14", "xmm15");
}

static size_t depth_with(struct call *call, uint8_t paint)
{
    size_t untouched = 0;

    memset(stack, paint, sizeof stack);
    call_on(stack + sizeof stack, make_call, call);
    while (untouched < sizeof stack && stack[untouched] == paint)
        untouched++;
    return sizeof stack - untouched;
}

/* The buffers of a call, to make it again from the same state. */
static struct {
    uint8_t device[SCT_RECORD_BYTES], area[SCT_PRIVATE_BYTES], mail[SCT_MAILBOX_BYTES];
    uint8_t disk[sizeof disk], check_area[sizeof check_area], image[sizeof image];
} kept;

static void keep_state(void)
{
    memcpy(kept.device, device, sizeof device);
    memcpy(kept.area, area, sizeof area);
    memcpy(kept.mail, mail, sizeof mail);
    memcpy(kept.disk, disk, sizeof disk);
    memcpy(kept.check_area, check_area, sizeof check_area);
    memcpy(kept.image, image, (size_t)used);
}

static void restore_state(void)
{
    memcpy(device, kept.device, sizeof device);
    memcpy(area, kept.area, sizeof area);
    memcpy(mail, kept.mail, sizeof mail);
    memcpy(disk, kept.disk, sizeof disk);
    memcpy(check_area, kept.check_area, sizeof check_area);
    memcpy(image, kept.image, (size_t)used);
}

static size_t depth_of(struct call *call)
{
    size_t one, two;

    keep_state();
    one = depth_with(call, 0xA5);
    restore_state();
    two = depth_with(call, 0x5A);
    return one > two ? one : two;
}

static size_t deepest[ROWS], empty_depth[ENTRIES];

/* Makes the call and notes its depth in a row. Returns the answer. */
static uint32_t measure_as(unsigned row, struct call *call)
{
    size_t depth;

    keep_state();
    make_call(call);
    restore_state();
    depth = depth_of(call) - empty_depth[call->entry] + 8;     /* 8: its return address */
    if (depth > deepest[row])
        deepest[row] = depth;
    return call->answer;
}

static uint32_t measure(struct call *call)
{
    return measure_as(call->entry, call);
}

static struct call call_of(enum entry entry)
{
    struct call c = { &archive, entry, 0, 3, SECTORS / 2, 30, DAMAGED, SCT_FORM_1, 0 };

    return c;
}

static uint32_t measure_entry(enum entry entry)
{
    struct call c = call_of(entry);

    return measure(&c);
}

/* The frame of make_call itself, with the arguments that it pushes. */
static void measure_nothing(void)
{
    for (enum entry e = 0; e < ENTRIES; e++) {
        struct call c = call_of(e);

        c.code = &nothing;
        make_call(&c);
        empty_depth[e] = depth_of(&c);
    }
}

/* ---- What is measured ---------------------------------------------------------------- */

static void exchange(void)
{
    measure_entry(TAKE);
    measure_entry(SERVE);
    measure_entry(GIVE);
}

enum { REQUESTS = 30 };

static void request(unsigned number)
{
    switch (number) {
    case 0:  build_status(mail, SMART); break;
    case 1:  build_status(mail, LOG_EXT); break;
    case 2:  build_fill(mail, SMART, 1, 0, 0, 0x01020304); break;
    case 3:  build_fill(mail, LOG_EXT, 1, 5, 9, 0x01020304); break;
    case 4:  build_fill(mail, SMART, 1, 1, UINT64_MAX, 0); break;
    case 5:  build_fill(mail, SMART, 2, 5, 9, 0); break;
    case 6:  build_data_write(mail, SMART); break;
    case 7:  build_key(mail, SMART, 5, 1, 2, 0, 0); break;
    case 8:  build_data_read(mail, LOG_EXT); break;
    case 9:  build_data_read(mail, LOG_EXT); break;
    case 10: build_key(mail, SMART, 3, 1, 1, 70, 0); break;
    case 11: build_key(mail, SMART, 3, 2, 1, 0, 0); break;
    case 12: build_key(mail, SMART, 3, 1, 2, 9, 0); break;
    case 13: build_key(mail, SMART, 4, 1, 3, 2, 1); break;
    case 14: build_key(mail, SMART, 4, 2, 1, 0, 0); break;
    case 15: build_key(mail, SMART, 4, 1, 1, 9, 9); break;
    case 16: build_key(mail, SMART, 6, 1, 1, 1, 1); break;
    case 17: build_sector(mail, false, 3, 1); break;
    case 18: build_sector(mail, true, 3, 1); break;
    case 19: build_sector(mail, true, 1u << 30, 1); break;
    case 20: build_sector(mail, true, 3, 2); break;
    case 21: build_sector(mail, false, DAMAGED, 1); break;
    case 22: build_long(mail, SMART, 1, DAMAGED); break;
    case 23: build_long_read(mail, SMART); break;
    case 24: build_long(mail, LOG_EXT, 2, 5); break;
    case 25: build_long_write(mail, LOG_EXT); break;
    case 26: build_long(mail, SMART, 3, 5); break;
    case 27: build_long(mail, SMART, 2, UINT64_MAX); break;
    case 28: build_long_write(mail, SMART); break;
    default: build_command(mail, 0xEC); break;
    }
}

static void all_requests(void)
{
    for (unsigned i = 0; i < REQUESTS; i++) {
        check_area[DAMAGED * SCT_CHECK_BYTES] = 1;     /* also after a fill */
        request(i);
        exchange();
        measure_entry(WORK);
    }
}

static void requests_in_every_state(void)
{
    measure_entry(POWER_ON);
    all_requests();
    measure_entry(LOCK);
    all_requests();
    measure_entry(UNLOCK);
    measure_entry(SET_VISIBLE);
    all_requests();
    for (int i = 0; i < 5; i++)
        measure_entry(SAMPLE);
}

/* In both command forms, locked and not, with a running fill and without. No step leaves a locked disk with a fill: the
   lock is put into the record. */
static void status_reads(void)
{
    for (unsigned n = 0; n < 8; n++) {
        bool filling = n & 1, locked = n & 2;
        struct call c = call_of(SERVE);
        struct record_fields f;

        measure_entry(POWER_ON);
        if (filling) {
            build_fill(mail, SMART, 1, 5, 9, 0x01020304);
            exchange();
        }
        decode_record(&f, device);
        f.locked = locked;
        encode_record(device, &f);
        build_status(mail, n & 4 ? LOG_EXT : SMART);
        measure_entry(TAKE);
        if (f.filling != filling || measure_as(STATUS_READ, &c) != SCT_DONE || area[R_STATUS] != (locked ? 0x51 : 0x50))
            fail("a status read is not served as it should be");
    }
}

/* The reports 2, 1 and 0, and a refusal. */
static void repairs(void)
{
    struct call c = call_of(REPAIR);

    measure_entry(POWER_ON);
    memset(disk + DAMAGED * SCT_SECTOR_BYTES, 0, SCT_SECTOR_BYTES);
    put16(check_area + DAMAGED * SCT_CHECK_BYTES, 0x0003);
    measure(&c);
    put16(check_area + DAMAGED * SCT_CHECK_BYTES, 0x1FFF);
    measure(&c);
    measure(&c);
    c.lba = SECTORS;
    measure(&c);
}

/* To form 1 and to form 2, which the image has afterwards; each form twice. */
static void converts(void)
{
    struct call c = call_of(CONVERT);

    for (c.form = SCT_FORM_1; c.form <= SCT_FORM_2; c.form++) {
        measure(&c);
        measure(&c);
    }
}

/* An image grows to 117 entries, with a power-on from each length. */
static void chains(void)
{
    for (used = 0; used <= SCT_IMAGE_LIMIT; used += SCT_ENTRY_BYTES) {
        measure_entry(POWER_ON);
        measure_entry(SAMPLE);
        measure_entry(SAVE);    /* the last is refused: full */
        converts();
    }
    used = SCT_IMAGE_LIMIT;
    put16(image + 26, 71);      /* the oldest entry's timers keep the image from going back */
    converts();
    put16(image + 26, 70);
    image[0] ^= 1;              /* the oldest entry does not hold */
    measure_entry(POWER_ON);
    measure_entry(SAVE);
    converts();
    image[0] ^= 1;
    used = 0;
}

/* Any sound record, any request; then a record of junk. */
static void random_states(void)
{
    struct random r = random_for(7, 7);

    for (int i = 0; i < RANDOM_TRIALS; i++) {
        struct call c = call_of((enum entry)below(&r, ENTRIES));

        random_record(&r, device, SECTORS);
        request((unsigned)below(&r, REQUESTS));
        c.port = (uint32_t)below(&r, 5);
        if (c.port < SCT_PORTS)
            memcpy(area + SCT_MAILBOX_BYTES * c.port, mail, SCT_MAILBOX_BYTES);
        c.n = (uint32_t)random64(&r);
        c.n >>= below(&r, 32);
        c.visible = below(&r, SECTORS + 2);
        c.reading = (uint8_t)random64(&r);
        c.lba = below(&r, SECTORS + 2);
        if (once_in(&r, 10))
            device[below(&r, SCT_RECORD_BYTES)] ^= (uint8_t)random64(&r);
        measure(&c);
    }
}

/* ---- The bounds ------------------------------------------------------------------------ */

struct bound {
    size_t frames, total;       /* total: with the red zone */
};

static void read_bounds(const char *path, struct bound *bounds)
{
    FILE *file = fopen(path, "r");
    char name[32];
    struct bound one;

    if (file == NULL)
        fail("the bounds cannot be read");
    while (fscanf(file, "%31s %zu %zu %*u", name, &one.frames, &one.total) == 3)
        for (enum entry e = 0; e < ENTRIES; e++)
            if (strcmp(name, row_name[e]) == 0)
                bounds[e] = one;
    fclose(file);
    for (enum entry e = 0; e < ENTRIES; e++)
        if (bounds[e].total == 0)
            fail("an entry has no bound");
}

static bool print_with_bounds(const struct bound *bounds)
{
    bool fits = true;

    printf("stack in bytes, return address included (limit %d)\n", LIMIT);
    printf("  %-16s %8s %7s %14s\n", "entry", "measured", "frames", "with red zone");
    for (unsigned row = 0; row < ROWS; row++) {
        const struct bound *bound = &bounds[row == STATUS_READ ? SERVE : row];
        bool right = deepest[row] <= bound->total && bound->total < LIMIT;

        printf("  %-16s %8zu %7zu %14zu%s\n", row_name[row], deepest[row], bound->frames, bound->total,
               right ? "" : "  TOO MUCH");
        fits = fits && right;
    }
    return fits;
}

static bool print_alone(void)
{
    bool fits = true;

    printf("stack in bytes, return address included (limit %d), measured without bounds\n", LIMIT);
    for (unsigned row = 0; row < ROWS; row++) {
        printf("  %-16s %8zu%s\n", row_name[row], deepest[row], deepest[row] < LIMIT ? "" : "  TOO MUCH");
        fits = fits && deepest[row] < LIMIT;
    }
    return fits;
}

int main(int count, char **words)
{
    struct bound bounds[ENTRIES] = { { 0, 0 } };

    if (count > 1)
        read_bounds(words[1], bounds);
    measure_nothing();
    requests_in_every_state();
    status_reads();
    repairs();
    chains();
    random_states();
    return (count > 1 ? print_with_bounds(bounds) : print_alone()) ? 0 : 1;
}
