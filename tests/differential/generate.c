#include "generate.h"

#include <string.h>

#include "bytes.h"
#include "check.h"
#include "layout.h"
#include "request.h"

const char *const style_name[STYLES] = {
    "mixed", "fills", "transfers", "heat", "images", "unruly", "lengths", "records"
};

/* ---- The queue of planned steps ------------------------------------------- */

/* Adds a step with right lengths and gives it to be completed. */
static struct step *add(struct list *l, enum entry entry)
{
    static struct step surplus;
    struct step *step = &surplus;   /* a plan that is too long loses its tail */

    if (l->count < QUEUE)
        step = &l->queue[(l->head + l->count++) % QUEUE];
    *step = plain_step(l->pair, entry);
    step->used_now = true;
    return step;
}

/* Gives the step a used length of its own instead of that of the moment. */
static void set_used(struct step *step, uint64_t used)
{
    step->used_now = false;
    step->used = used;
}

static void add_edit(struct list *l, enum entry entry, size_t offset, uint8_t value)
{
    struct step *step = add(l, entry);

    step->offset = offset;
    step->value = value;
}

static void fields_now(const struct list *l, struct record_fields *f)
{
    decode_record(f, l->pair->record);
    if (f->native < 1 || f->native > SCT_NATIVE_LIMIT)      /* junk */
        f->native = l->pair->sectors;
    if (f->visible < 1 || f->visible > f->native)
        f->visible = f->native;
}

/*
 * Random numbers are drawn one to a statement: C leaves the order open in which
 * arguments are evaluated, and a seed must give the same list everywhere.
 */

/* ---- Numbers --------------------------------------------------------------- */

/* Within 2 of a number where some rule changes; below 0 it is near 2^64. */
static uint64_t near_limit(struct random *r, const struct record_fields *f)
{
    const uint64_t limits[] = {
        0, f->visible, f->visible, f->native, f->next, f->end, 0x100, 0x10000, SCT_NATIVE_LIMIT, 0x100000000,
        (uint64_t)1 << 48, (uint64_t)1 << 63
    };

    uint64_t limit = PICK(r, limits);

    return limit + below(r, 5) - 2;
}

static uint16_t odd_word(struct random *r)
{
    static const uint16_t words[] = {
        0, 1, 2, 3, 4, 5, 6, 9, 10, 0x0100, 0x0101, 0x0102, 0x0200, 0x0201, 0x8000, 0xFF00, 0xFFFF
    };

    return once_in(r, 8) ? (uint16_t)random64(r) : PICK(r, words);
}

static uint8_t one_bit_off(struct random *r, uint8_t byte)
{
    return (uint8_t)(byte ^ (1u << below(r, 8)));
}

/* Mostly the word meant, now and then another. */
static uint16_t mostly(struct random *r, uint16_t word)
{
    return once_in(r, 9) ? odd_word(r) : word;
}

static enum form any_form(struct random *r)
{
    return once_in(r, 2) ? SMART : LOG_EXT;
}

static uint32_t any_port(struct random *r)
{
    static const uint32_t wrong[] = { 4, 5, 7, 8, 255, 256, 0x10000, 0x7FFFFFFF, 0x80000000, 0xFFFFFFFF };

    return once_in(r, 40) ? PICK(r, wrong) : (uint32_t)below(r, SCT_PORTS);
}

/* A port for a new request: an empty one, if the first choice is taken. */
static uint32_t free_port(struct list *l)
{
    uint32_t port = any_port(&l->random);
    struct record_fields f;

    fields_now(l, &f);
    for (int tries = 0; tries < 4 && port < SCT_PORTS && f.slot[port].stage != STAGE_EMPTY; tries++)
        port = (port + 1) % SCT_PORTS;
    return port;
}

/* ---- Requests --------------------------------------------------------------- */

static uint64_t any_start(struct random *r, const struct record_fields *f)
{
    if (once_in(r, 4))
        return 0;
    return once_in(r, 5) ? near_limit(r, f) : below(r, f->visible);
}

static uint64_t any_count(struct random *r, const struct record_fields *f, uint64_t start)
{
    uint64_t left = f->visible - start;     /* wraps where Start is too large: as good as any */

    switch (below(r, 8)) {
    case 0:
    case 1:  return 0;
    case 2:
    case 3:  return left - 1 + below(r, 4);         /* around the last count allowed */
    case 4:  return 0 - start + below(r, 3);        /* the sum is 2^64 and a little */
    case 5:  return near_limit(r, f);
    default: return between(r, 1, 4);
    }
}

static void any_fill(struct random *r, const struct record_fields *f, uint8_t *mailbox)
{
    enum form form = any_form(r);
    uint16_t function = mostly(r, once_in(r, 3) ? 2 : 1);
    uint64_t start = any_start(r, f);
    uint64_t count = any_count(r, f, start);

    build_fill(mailbox, form, function, start, count, (uint32_t)random64(r));
}

static void any_timer(struct random *r, uint8_t *mailbox)
{
    static const uint16_t values[] = { 0, 1, 5, 9, 10, 11, 70, 0x0100, 65535 };
    enum form form = any_form(r);
    uint16_t function = mostly(r, (uint16_t)between(r, 1, 2));
    uint16_t timer = mostly(r, (uint16_t)between(r, 1, 2));
    uint16_t value = PICK(r, values);

    build_key(mailbox, form, 3, function, timer, value, odd_word(r));
}

static void any_feature(struct random *r, uint8_t *mailbox)
{
    static const uint16_t states[] = { 0, 1, 1, 2, 2, 3, 3, 4, 5, 0x0101, 65535 };
    enum form form = any_form(r);
    uint16_t function = mostly(r, once_in(r, 2) ? 1 : (uint16_t)between(r, 1, 3));
    uint16_t feature = mostly(r, (uint16_t)between(r, 1, 3));
    uint16_t state = PICK(r, states);
    uint16_t option = mostly(r, (uint16_t)below(r, 2));

    build_key(mailbox, form, 4, function, feature, state, option);
}

static void any_table(struct random *r, uint8_t *mailbox)
{
    enum form form = any_form(r);
    uint16_t function = mostly(r, 1);
    uint16_t table = mostly(r, 2);

    build_key(mailbox, form, 5, function, table, odd_word(r), 0);
}

/* A visible sector mostly, or a number near a limit, or one that is right in its low bits only. */
static uint64_t any_lba_of_64_bits(struct random *r, const struct record_fields *f)
{
    uint64_t lba = once_in(r, 5) ? near_limit(r, f) : below(r, f->visible);

    return once_in(r, 8) ? lba | (uint64_t)1 << between(r, 16, 63) : lba;
}

static void any_long(struct random *r, const struct record_fields *f, uint8_t *mailbox)
{
    enum form form = any_form(r);
    uint16_t function = mostly(r, (uint16_t)between(r, 1, 2));

    build_long(mailbox, form, function, any_lba_of_64_bits(r, f));
}

static void other_key(struct random *r, uint8_t *mailbox)
{
    uint16_t words[5];
    enum form form = any_form(r);

    for (int i = 0; i < 5; i++)
        words[i] = odd_word(r);
    build_key(mailbox, form, words[0], words[1], words[2], words[3], words[4]);
}

static void any_key(struct random *r, const struct record_fields *f, uint8_t *mailbox)
{
    switch (below(r, 13)) {
    case 0:
    case 1:
    case 2:
    case 3:  any_fill(r, f, mailbox); break;
    case 4:
    case 5:  any_timer(r, mailbox); break;
    case 6:
    case 7:
    case 8:  any_feature(r, mailbox); break;
    case 9:  any_table(r, mailbox); break;
    case 10: other_key(r, mailbox); break;
    default: any_long(r, f, mailbox); break;
    }
}

/* Mostly the right one. */
static uint16_t any_transfer_count(struct random *r, uint16_t right)
{
    static const uint16_t counts[] = { 0, 1, 2, 3, 255, 256, 257, 258, 65535 };

    return once_in(r, 6) ? PICK(r, counts) : right;
}

static void any_transfer(struct random *r, bool write, uint16_t right, uint8_t *mailbox)
{
    enum form form = any_form(r);

    build_log(mailbox, form, write, 0xE1, any_transfer_count(r, right));
}

/* The count that the pending transfer wants. */
static uint16_t pending_count(const struct record_fields *f)
{
    int port = pending_port(f);

    return port >= 0 && f->slot[port].pending >= PENDING_LONG_READ ? 2 : 1;
}

/* A status read or a key whose count may be wrong. */
static void any_count_of_e0(struct random *r, uint8_t *mailbox)
{
    enum form form = any_form(r);
    bool write = once_in(r, 2);

    build_log(mailbox, form, write, 0xE0, any_transfer_count(r, 1));
}

static void any_sector(struct random *r, const struct record_fields *f, uint8_t *mailbox)
{
    uint64_t lba = once_in(r, 4) ? near_limit(r, f) : below(r, f->visible);
    bool write = once_in(r, 2);

    if (once_in(r, 6))      /* right in its low bits only */
        lba |= (uint64_t)1 << between(r, 16, 47);
    build_sector(mailbox, write, lba, any_transfer_count(r, 1));
}

static void any_command(struct random *r, uint8_t *mailbox)
{
    static const uint8_t commands[] = {
        0xEC, 0x20, 0x25, 0x35, 0xB0, 0x2F, 0x3F, 0x24, 0x34, 0x47, 0x57, 0xE7, 0xEF
    };

    enum form form = any_form(r);
    bool write = once_in(r, 2);
    uint8_t log = once_in(r, 2) ? 0xE0 : 0xE1;

    build_log(mailbox, form, write, log, any_transfer_count(r, 1));
    mailbox[R_COMMAND] = once_in(r, 3) ? (uint8_t)random64(r) : PICK(r, commands);
}

/* A write of E0h: B0h with Features D6h, or 3Fh. */
static bool is_key(const uint8_t *mailbox)
{
    uint8_t command = mailbox[R_COMMAND];

    return mailbox[R_LOW] == 0xE0 && (command == 0x3F || (command == 0xB0 && mailbox[R_FEATURES] == 0xD6));
}

/* Random bytes where no rule reads: they must not matter. W-205: the whole sector of a status read is such bytes. */
static void dress(struct random *r, uint8_t *mailbox)
{
    static const uint8_t ignored[3][7] = {
        { 1, 3, 5, 7, 9, R_DEVICE, R_STATUS },      /* B0h */
        { 0, 1, 5, 8, 9, R_DEVICE, R_ERROR },       /* 2Fh, 3Fh */
        { 0, 1, 14, 15, R_ERROR, R_DEVICE, R_STATUS }
    };
    uint8_t command = mailbox[R_COMMAND];
    int family = command == 0xB0 ? 0 : command == 0x2F || command == 0x3F ? 1 : 2;
    unsigned from = R_SECTOR + (is_key(mailbox) ? 24 : 0);

    if (once_in(r, 2))
        for (int i = 0; i < 7; i++)
            mailbox[ignored[family][i]] = (uint8_t)random64(r);
    if (!once_in(r, 4))
        random_bytes(r, mailbox + from, SCT_MAILBOX_BYTES - from);
}

/* One bit of the registers or of the key is wrong. */
static void spoil(struct random *r, uint8_t *mailbox)
{
    size_t at = (size_t)(once_in(r, 2) ? below(r, R_SECTOR) : R_SECTOR + below(r, 24));

    mailbox[at] = one_bit_off(r, mailbox[at]);
}

static void any_request(struct list *l, uint8_t *mailbox)
{
    struct random *r = &l->random;
    struct record_fields f;

    fields_now(l, &f);
    switch (below(r, 26)) {
    case 0:
    case 1:
    case 2:  build_status(mailbox, any_form(r)); break;
    case 3:  any_count_of_e0(r, mailbox); break;
    case 4:  any_transfer(r, false, pending_count(&f), mailbox); break;
    case 5:
    case 6:  any_transfer(r, true, pending_count(&f), mailbox); break;
    case 7:
    case 8:
    case 9:
    case 10: any_sector(r, &f, mailbox); break;
    case 11: any_command(r, mailbox); break;
    case 12: random_bytes(r, mailbox, SCT_MAILBOX_BYTES); break;
    default: any_key(r, &f, mailbox); break;
    }
    dress(r, mailbox);
    if (once_in(r, 12))
        spoil(r, mailbox);
}

/* ---- Plans: single things ---------------------------------------------------- */

static void plan_work(struct list *l);
static void plan_sample(struct list *l);
static void repair(struct list *l);

/* Something that another core or the owner does in between. */
static void maybe_between(struct list *l)
{
    if (!once_in(&l->random, 16))
        return;
    switch (below(&l->random, 3)) {
    case 0:  plan_work(l); break;
    case 1:  plan_sample(l); break;
    default: repair(l); break;
    }
}

static void exchange(struct list *l, uint32_t port, const uint8_t *mailbox)
{
    struct step *step = add(l, TAKE);

    step->port = port;
    memcpy(step->mailbox, mailbox, SCT_MAILBOX_BYTES);
    maybe_between(l);
    add(l, SERVE)->port = port;
    maybe_between(l);
    step = add(l, GIVE);
    step->port = port;
    random_bytes(&l->random, step->mailbox, SCT_MAILBOX_BYTES);
}

static void plan_exchange(struct list *l)
{
    uint8_t mailbox[SCT_MAILBOX_BYTES];

    any_request(l, mailbox);
    exchange(l, free_port(l), mailbox);
}

/* Empties the slots that were left held or answered. */
static void plan_settle(struct list *l)
{
    struct record_fields f;

    fields_now(l, &f);
    for (uint32_t port = 0; port < SCT_PORTS; port++) {
        if (f.slot[port].stage == STAGE_HELD)
            add(l, SERVE)->port = port;
        if (f.slot[port].stage != STAGE_EMPTY)
            add(l, GIVE)->port = port;
    }
    plan_work(l);
}

/* One of take, serve and give, in whatever stage the slot is. */
static void plan_loose(struct list *l)
{
    static const enum entry entries[] = { TAKE, TAKE, SERVE, SERVE, GIVE };
    struct step *step = add(l, PICK(&l->random, entries));

    step->port = any_port(&l->random);
    any_request(l, step->mailbox);
}

static void plan_work(struct list *l)
{
    static const uint32_t large[] = { 0x10000, 0x7FFFFFFF, 0x80000000, 0xFFFFFFFF };
    struct random *r = &l->random;
    struct record_fields f;
    uint64_t left;
    struct step *step = add(l, WORK);

    fields_now(l, &f);
    left = f.end - f.next;
    switch (below(r, 8)) {
    case 0:  step->n = 0; break;
    case 1:  step->n = PICK(r, large); break;
    case 2:  step->n = (uint32_t)(left + below(r, 3) - 1); break;
    default: step->n = (uint32_t)between(r, 1, 4); break;
    }
}

static void plan_lock(struct list *l)
{
    struct random *r = &l->random;

    if (once_in(r, 3)) {
        add(l, UNLOCK);
        return;
    }
    add(l, LOCK);
    for (uint64_t i = below(r, 4); i > 0; i--)
        plan_exchange(l);
    if (once_in(r, 4))
        repair(l);
    if (once_in(r, 4))
        add(l, LOCK);
    if (!once_in(r, 8))
        add(l, UNLOCK);
}

static void plan_visible(struct list *l)
{
    struct random *r = &l->random;
    struct record_fields f;
    struct step *step = add(l, SET_VISIBLE);

    fields_now(l, &f);
    switch (below(r, 6)) {
    case 0:  step->visible = near_limit(r, &f); break;
    case 1:  step->visible = f.visible; break;
    case 2:  step->visible = f.native; break;
    case 3:  step->visible = f.end == 0 ? f.visible : below(r, f.end) + 1; break;    /* into a fill */
    default: step->visible = between(r, 1, f.native); break;
    }
}

static void plan_sample(struct list *l)
{
    for (uint64_t i = once_in(&l->random, 4) ? below(&l->random, 12) : 1; i > 0; i--)
        add(l, SAMPLE)->reading = random_reading(&l->random);
}

/* ---- Plans: images ------------------------------------------------------------ */

static size_t room_for(struct random *r, uint64_t used)
{
    const uint64_t lengths[] = {
        used, used + 1, used + 559, used + 560, used + 561, 65519, 65520, 66080, IMAGE_ROOM
    };
    uint64_t length = once_in(r, 3) ? PICK(r, lengths) : SCT_IMAGE_LIMIT;

    return (size_t)(length <= IMAGE_ROOM ? length : IMAGE_ROOM);
}

/* One timer or both, accepted: what a save then has, if it is of form 2. */
static void set_timers(struct list *l)
{
    static const uint16_t values[] = { 0, 10, 70, 70, 71, 0x4600, 65535 };
    struct random *r = &l->random;
    uint8_t mailbox[SCT_MAILBOX_BYTES];

    for (uint64_t i = between(r, 1, 2); i > 0; i--) {
        uint16_t timer = (uint16_t)between(r, 1, 2);

        build_key(mailbox, SMART, 3, 1, timer, PICK(r, values), 0);
        exchange(l, free_port(l), mailbox);
    }
}

static void plan_save(struct list *l)
{
    if (once_in(&l->random, 3))
        set_timers(l);
    for (uint64_t i = between(&l->random, 1, 3); i > 0; i--)
        add(l, SAVE)->length[IMAGE] = room_for(&l->random, l->pair->used);
    if (l->pair->used > 6 * SCT_ENTRY_BYTES && l->style != IMAGES)
        add(l, USE_LENGTH)->used = 0;
}

static void plan_power_on(struct list *l)
{
    struct random *r = &l->random;
    struct step *step = add(l, POWER_ON);

    if (once_in(r, 3))
        set_used(step, 0);
    if (once_in(r, 3))
        step->length[IMAGE] = (size_t)l->pair->used;
    if (step->length[IMAGE] == 0)
        step->null_if_empty = once_in(r, 2);
}

/* Mostly one of the two forms; else a number that is none, though its low bits may be. */
static void convert(struct list *l)
{
    static const uint32_t wrong[] = {
        0, 3, 4, 0x100, 0x101, 0x102, 0x10001, 0x10002, 0x80000001, 0x80000002, 0xFFFFFFFF
    };
    struct random *r = &l->random;
    struct step *step = add(l, CONVERT);

    step->form = once_in(r, 8) ? PICK(r, wrong) : (uint32_t)between(r, SCT_FORM_1, SCT_FORM_2);
    step->length[IMAGE] = once_in(r, 3) ? (size_t)l->pair->used : room_for(r, l->pair->used);
    step->null_if_empty = once_in(r, 2);
}

/* The image is converted, perhaps read or longer by an entry, and converted again. */
static void plan_convert(struct list *l)
{
    struct random *r = &l->random;

    convert(l);
    if (once_in(r, 3))
        add(l, SAVE);
    if (once_in(r, 2))
        plan_power_on(l);
    if (once_in(r, 2))
        convert(l);
}

static uint64_t any_native(struct list *l)
{
    const uint64_t sizes[] = {
        1, 2, l->pair->sectors - 1, l->pair->sectors + 1, 65535, 65536, 65537,
        SCT_NATIVE_LIMIT - 1, SCT_NATIVE_LIMIT, SCT_NATIVE_LIMIT + 1
    };
    uint64_t native = once_in(&l->random, 6) ? PICK(&l->random, sizes) : l->pair->sectors;

    return native == 0 ? 1 : native;
}

static void plan_new_image(struct list *l)
{
    struct random *r = &l->random;
    struct step *step = add(l, NEW_IMAGE);

    step->seed = random64(r);
    step->native = any_native(l);
    step->chain = (uint32_t)(once_in(r, 12) ? between(r, 115, 117) : between(r, 0, 5));
    step->form = (uint32_t)between(r, SCT_FORM_1, SCT_FORM_2);
    if (step->chain > 1 && once_in(r, 6))
        step->foreign = (uint32_t)between(r, 1, step->chain);
    plan_power_on(l);
    plan_save(l);
    if (once_in(r, 2))
        plan_convert(l);
}

/* A byte of an entry, but not of the history, which may hold anything; often one of its form and timers. */
static uint64_t any_place(struct random *r)
{
    switch (below(r, 3)) {
    case 0:  return below(r, 66);
    case 1:  return between(r, 25, 31);
    default: return between(r, 540, 559);
    }
}

/* One byte of the image changes; then it is read, and sometimes put right. */
static void plan_damage(struct list *l)
{
    static const uint8_t values[] = { 0, 1, 2, 3, 8, 9, 10, 0x7F, 0x80, 0xFE, 0xFF };
    struct random *r = &l->random;
    uint64_t used = l->pair->used;
    size_t offset = (size_t)below(r, used == 0 ? SCT_ENTRY_BYTES : used);

    if (once_in(r, 2) && used != 0)
        offset = offset / SCT_ENTRY_BYTES * SCT_ENTRY_BYTES + any_place(r);
    add_edit(l, EDIT_IMAGE, offset, once_in(r, 2) ? PICK(r, values) : one_bit_off(r, l->pair->image[offset]));
    add(l, POWER_ON);
    add(l, SAVE);
    convert(l);
    if (once_in(r, 2))
        add_edit(l, EDIT_IMAGE, offset, l->pair->image[offset]);
}

static void plan_used(struct list *l)
{
    struct random *r = &l->random;
    uint64_t used = l->pair->used;
    const uint64_t lengths[] = {
        0, used - 560, used + 560, used - 1, used + 1, 559, 561, 65519, 65520, 65521, 66080, 69999, 70000, 70001,
        0x100000000 + used, 0 - (uint64_t)560, UINT64_MAX
    };
    static const enum entry entries[] = { SAVE, POWER_ON, CONVERT };
    struct step *step = add(l, PICK(r, entries));

    step->form = (uint32_t)between(r, 0, 3);
    set_used(step, PICK(r, lengths));
    step->length[IMAGE] = once_in(r, 2) ? IMAGE_ROOM : room_for(r, used);
    if (once_in(r, 3))
        add(l, USE_LENGTH)->used = once_in(r, 2) || used < 560 ? 0 : used - 560;
}

/* A disk of so many sectors, with a check area that is right for it. */
static void pass_disk_of(struct step *step, uint64_t sectors)
{
    step->length[DISK] = right_length(DISK, sectors);
    step->length[CHECK_AREA] = right_length(CHECK_AREA, sectors);
}

/* A power-on with a disk of another size, and the way back. */
static void plan_other_disk(struct list *l)
{
    struct random *r = &l->random;
    struct step *step = add(l, POWER_ON);

    pass_disk_of(step, any_native(l));
    if (once_in(r, 2))
        set_used(step, 0);
    plan_exchange(l);
    add(l, SAVE)->length[IMAGE] = room_for(r, l->pair->used);
    step = add(l, POWER_ON);
    if (!once_in(r, 2))
        set_used(step, 0);
}

/* ---- Plans: wrong bits ----------------------------------------------------------- */

static void flip_bits(struct list *l, uint64_t lba, uint64_t flips)
{
    for (; flips > 0; flips--) {
        struct step *step = add(l, FLIP_BIT);

        step->offset = (size_t)lba;
        step->bit = (uint16_t)random_bit(&l->random);
    }
}

/* A sector of the disk: mostly a visible one, else one at or after V, if there is one. */
static uint64_t any_lba(struct list *l)
{
    struct record_fields f;
    uint64_t lba;

    fields_now(l, &f);
    lba = once_in(&l->random, 5) ? f.visible + below(&l->random, 2) : below(&l->random, f.visible);
    return lba < l->pair->sectors ? lba : 0;
}

static void exchange_sector(struct list *l, bool write, uint64_t lba)
{
    uint8_t mailbox[SCT_MAILBOX_BYTES];

    build_sector(mailbox, write, lba, 1);
    dress(&l->random, mailbox);
    exchange(l, free_port(l), mailbox);
}

/* Bits of a sector flip; it is read, sometimes written and read again. */
static void plan_flips(struct list *l)
{
    uint64_t lba = any_lba(l);

    flip_bits(l, lba, below(&l->random, 4));
    exchange_sector(l, false, lba);
    if (once_in(&l->random, 2)) {
        exchange_sector(l, true, lba);
        exchange_sector(l, false, lba);
    }
}

static void repair_at(struct list *l, uint64_t lba)
{
    add(l, REPAIR)->lba = lba;
}

/* Any sector is repaired, or one that there is not. */
static void repair(struct list *l)
{
    struct record_fields f;

    fields_now(l, &f);
    repair_at(l, any_lba_of_64_bits(&l->random, &f));
}

/* Bits of a sector flip, then it is repaired, sometimes again, and read. */
static void plan_repair(struct list *l)
{
    struct random *r = &l->random;
    uint64_t lba = any_lba(l);

    flip_bits(l, lba, below(r, 4));
    repair_at(l, lba);
    if (once_in(r, 3))
        repair_at(l, lba);
    if (once_in(r, 2))
        exchange_sector(l, false, lba);
    if (once_in(r, 2))
        repair(l);
}

/* ---- Plans: records ------------------------------------------------------------ */

static struct step *new_record(struct list *l)
{
    struct step *step = add(l, NEW_RECORD);

    step->seed = random64(&l->random);
    step->native = once_in(&l->random, 20) ? any_native(l) : l->pair->sectors;
    return step;
}

static void plan_new_record(struct list *l)
{
    new_record(l);
}

/* Records that are sound but for one number, perhaps; then sound ones again. */
static void plan_spoilt(struct list *l)
{
    for (uint64_t i = between(&l->random, 1, 12); i > 0; i--) {
        new_record(l)->spoilt = true;
        plan_work(l);
    }
    new_record(l);
}

static void plan_edit_record(struct list *l)
{
    static const uint8_t values[] = { 0, 1, 2, 3, 4, 9, 10, 0x7F, 0x80, 0xFF };
    struct random *r = &l->random;
    size_t offset = (size_t)(once_in(r, 4) ? below(r, SCT_RECORD_BYTES)
                           : once_in(r, 4) ? between(r, 512, 550) : below(r, 170));

    add_edit(l, EDIT_RECORD, offset, once_in(r, 2) ? PICK(r, values) : one_bit_off(r, l->pair->record[offset]));
    for (int i = 0; i < 2; i++)
        plan_exchange(l);
    plan_work(l);
    if (once_in(r, 2))
        add_edit(l, EDIT_RECORD, offset, l->pair->record[offset]);
}

/* ---- Plans: scenarios ------------------------------------------------------------ */

static void status_by(struct list *l, uint32_t port)
{
    uint8_t mailbox[SCT_MAILBOX_BYTES];

    build_status(mailbox, any_form(&l->random));
    dress(&l->random, mailbox);
    exchange(l, port % SCT_PORTS, mailbox);
}

static void work_by(struct list *l, uint32_t n)
{
    add(l, WORK)->n = n;
}

/* What may happen to a fill or a pending transfer. */
static void plan_disturbance(struct list *l)
{
    switch (below(&l->random, 12)) {
    case 0:  plan_visible(l); break;
    case 1:  plan_lock(l); break;
    case 2:  add(l, UNLOCK); break;
    case 3:  plan_power_on(l); break;
    case 4:  plan_save(l); break;
    case 5:  plan_sample(l); break;
    case 6:  status_by(l, (uint32_t)below(&l->random, SCT_PORTS)); break;
    case 7:  repair(l); break;
    case 8:  plan_repair(l); break;
    default: plan_exchange(l); break;
    }
}

/* A key with one or two odd words among the first five; then the status, which has its code. */
static void plan_key(struct list *l)
{
    struct random *r = &l->random;
    uint8_t mailbox[SCT_MAILBOX_BYTES];
    struct record_fields f;
    uint32_t port = free_port(l);

    fields_now(l, &f);
    any_key(r, &f, mailbox);
    for (uint64_t i = between(r, 1, 2); i > 0; i--) {
        uint8_t *word = mailbox + R_SECTOR + 2 * below(r, 5);

        put16(word, odd_word(r));
    }
    dress(r, mailbox);
    exchange(l, port, mailbox);
    status_by(l, port + 1);
}

/* A fill by this function is asked for, on the port that is returned. */
static uint32_t ask_fill(struct list *l, uint16_t function)
{
    uint8_t mailbox[SCT_MAILBOX_BYTES];
    struct record_fields f;
    uint32_t port = free_port(l);

    fields_now(l, &f);
    any_fill(&l->random, &f, mailbox);
    put16(mailbox + R_SECTOR + 2, function);
    exchange(l, port, mailbox);
    return port;
}

/* A fill is started, worked on, disturbed, worked on, and looked at. */
static void plan_fill(struct list *l)
{
    struct random *r = &l->random;
    uint32_t port = ask_fill(l, 1);

    for (uint64_t i = below(r, 3); i > 0; i--)
        work_by(l, (uint32_t)between(r, 0, 3));
    status_by(l, port + 1);
    if (once_in(r, 2))
        plan_disturbance(l);
    work_by(l, (uint32_t)between(r, 0, 3));
    if (once_in(r, 2))
        work_by(l, 0xFFFFFFFF);
    status_by(l, port + 1);
}

/* The right check behind the sector, or one that is wrong in a few bits: what Write Long stores. */
static void put_check(struct random *r, uint8_t *mailbox)
{
    put16(mailbox + R_CHECK, sector_check(mailbox + R_SECTOR));
    for (uint64_t flips = below(r, 3); flips > 0; flips--)
        flip_bit(mailbox + R_SECTOR, mailbox + R_CHECK, 0, random_bit(r));
}

/* An E1h that collects a transfer: now and then by a wrong port, or the wrong way. */
static void collect_once(struct list *l, uint32_t port, bool write, uint16_t count)
{
    struct random *r = &l->random;
    uint8_t mailbox[SCT_MAILBOX_BYTES];

    if (once_in(r, 6))
        port = (port + 1) % SCT_PORTS;
    if (once_in(r, 8))
        write = !write;
    any_transfer(r, write, count, mailbox);
    dress(r, mailbox);
    if (once_in(r, 2))
        put_check(r, mailbox);
    exchange(l, port, mailbox);
}

/* A transfer is collected, and sometimes again, when nothing is pending any more. */
static void collect(struct list *l, uint32_t port, bool write, uint16_t count)
{
    collect_once(l, port, write, count);
    if (once_in(&l->random, 3))
        collect_once(l, port, write, count);
}

static void plan_sector_fill(struct list *l)
{
    struct random *r = &l->random;
    uint32_t port = ask_fill(l, 2);

    if (once_in(r, 2))
        plan_disturbance(l);
    collect(l, port, true, 1);
    work_by(l, (uint32_t)between(r, 0, 4));
    status_by(l, port);
    if (once_in(r, 2))
        work_by(l, 0xFFFFFFFF);
}

static void plan_table(struct list *l)
{
    struct random *r = &l->random;
    uint8_t mailbox[SCT_MAILBOX_BYTES];
    uint32_t port = free_port(l);

    build_key(mailbox, SMART, 5, 1, 2, odd_word(r), 0);
    exchange(l, port, mailbox);
    plan_sample(l);
    if (once_in(r, 3))
        plan_disturbance(l);
    collect(l, port, false, 1);
}

/*
 * A sector is read or written by a Long transfer. Between key and transfer its
 * bits may flip, which drops nothing. Then it is read, repaired, or asked for
 * again.
 */
static void plan_long(struct list *l)
{
    struct random *r = &l->random;
    uint8_t mailbox[SCT_MAILBOX_BYTES];
    uint64_t lba = any_lba(l);
    uint32_t port = free_port(l);
    bool write = once_in(r, 2);

    build_long(mailbox, any_form(r), write ? 2 : 1, lba);
    dress(r, mailbox);
    exchange(l, port, mailbox);
    flip_bits(l, lba, below(r, 3));
    if (once_in(r, 4))
        plan_disturbance(l);
    collect(l, port, write, 2);
    if (once_in(r, 2))
        exchange_sector(l, false, lba);
    if (once_in(r, 2))
        repair_at(l, lba);
    if (once_in(r, 3)) {
        build_long(mailbox, any_form(r), 1, lba);
        exchange(l, port, mailbox);
        collect(l, port, false, 2);
    }
}

/* The whole visible disk is filled, or all but its last sector; then something that may clear the flag. */
static void plan_whole_fill(struct list *l)
{
    struct random *r = &l->random;
    uint8_t mailbox[SCT_MAILBOX_BYTES];
    struct record_fields f;
    uint32_t port = free_port(l);
    uint64_t count;

    fields_now(l, &f);
    switch (below(r, 3)) {
    case 0:  count = f.visible - 1; break;
    case 1:  count = f.visible; break;
    default: count = 0; break;
    }
    build_fill(mailbox, SMART, 1, 0, count, (uint32_t)random64(r));
    exchange(l, port, mailbox);
    if (once_in(r, 3))
        work_by(l, (uint32_t)(f.visible - 1));
    work_by(l, 0xFFFFFFFF);
    status_by(l, port + 1);
    switch (below(r, 6)) {
    case 0:
        build_sector(mailbox, true, below(r, f.visible + 1), 1);
        dress(r, mailbox);
        exchange(l, port, mailbox);
        break;
    case 1:
        add(l, SET_VISIBLE)->visible = once_in(r, 2) ? f.visible : between(r, 1, f.native);
        break;
    case 2:
        add(l, SAVE);
        add(l, POWER_ON);
        break;
    case 3:
        plan_repair(l);
        break;
    case 4:
        plan_long(l);
        break;
    default:
        any_fill(r, &f, mailbox);
        exchange(l, port, mailbox);
        work_by(l, (uint32_t)below(r, 2));
        break;
    }
    status_by(l, port);
}

/* An interval is set, a history grows, is saved, and comes back or does not. */
static void plan_history(struct list *l)
{
    struct random *r = &l->random;
    uint8_t mailbox[SCT_MAILBOX_BYTES];
    uint16_t interval = (uint16_t)between(r, 1, 3);

    if (once_in(r, 2)) {
        build_key(mailbox, LOG_EXT, 4, 1, 3, interval, (uint16_t)below(r, 2));
        exchange(l, free_port(l), mailbox);
    }
    for (uint64_t i = between(r, 0, 40); i > 0; i--)
        add(l, SAMPLE)->reading = random_reading(r);
    if (once_in(r, 3)) {
        add(l, SAVE);
        add(l, POWER_ON);
    }
    plan_table(l);
}

/* ---- Choosing a plan -------------------------------------------------------------- */

static const struct {
    void (*make)(struct list *);
    uint8_t weight[STYLES];     /* mixed, fills, transfers, heat, images, unruly, lengths, records */
} plans[] = {
    { plan_exchange,    { 12,  8, 10,  3,  4,  2, 12, 16 } },
    { plan_settle,      {  2,  2,  2,  1,  1,  1,  2,  6 } },
    { plan_loose,       {  3,  2,  3,  1,  1, 30,  6,  6 } },
    { plan_work,        {  4,  8,  3,  1,  1,  5,  5,  6 } },
    { plan_lock,        {  1,  1,  2,  0,  1,  1,  1,  1 } },
    { plan_visible,     {  3,  5,  2,  0,  1,  2,  3,  3 } },
    { plan_sample,      {  2,  1,  1, 20,  2,  2,  3,  4 } },
    { plan_save,        {  1,  1,  1,  1, 12,  1,  3,  2 } },
    { plan_power_on,    {  1,  1,  1,  1,  6,  1,  3,  1 } },
    { plan_convert,     {  1,  0,  0,  0,  8,  0,  3,  0 } },
    { plan_new_image,   {  1,  0,  0,  0,  4,  0,  2,  0 } },
    { plan_damage,      {  1,  0,  0,  0, 10,  0,  2,  0 } },
    { plan_used,        {  1,  0,  0,  0,  4,  0,  4,  0 } },
    { plan_other_disk,  {  1,  0,  0,  0,  2,  0,  2,  0 } },
    { plan_flips,       {  4,  2,  4,  0,  0,  1,  2,  4 } },
    { plan_repair,      {  3,  3,  3,  0,  0,  2,  2,  4 } },
    { plan_long,        {  4,  2, 14,  0,  0,  2,  3,  5 } },
    { plan_new_record,  {  1,  0,  0,  1,  1,  1,  1, 12 } },
    { plan_edit_record, {  0,  0,  0,  0,  0,  0,  1,  6 } },
    { plan_spoilt,      {  0,  0,  0,  0,  0,  0,  0,  6 } },
    { plan_key,         {  3,  1,  2,  1,  1,  2,  3,  3 } },
    { plan_fill,        {  4, 16,  3,  0,  1,  1,  2,  3 } },
    { plan_whole_fill,  {  2, 10,  1,  0,  1,  1,  1,  1 } },
    { plan_sector_fill, {  3,  4, 20,  0,  0,  1,  2,  3 } },
    { plan_table,       {  2,  0, 10,  2,  0,  1,  2,  2 } },
    { plan_history,     {  1,  0,  1, 10,  2,  0,  1,  1 } },
};

#define PLAN_COUNT (sizeof plans / sizeof plans[0])

static void plan(struct list *l)
{
    unsigned total = 0;
    uint64_t ticket;

    for (size_t i = 0; i < PLAN_COUNT; i++)
        total += plans[i].weight[l->style];
    ticket = below(&l->random, total);
    for (size_t i = 0; i < PLAN_COUNT; i++) {
        if (ticket < plans[i].weight[l->style]) {
            plans[i].make(l);
            return;
        }
        ticket -= plans[i].weight[l->style];
    }
}

/* ---- Wrong lengths ------------------------------------------------------------------ */

static size_t wrong_length(struct random *r, size_t right, size_t most)
{
    const size_t lengths[] = {
        0, 0, 1, right - 1, right + 1, right / 2, 2 * right, right - SCT_SECTOR_BYTES, right + SCT_SECTOR_BYTES
    };
    size_t length = PICK(r, lengths);

    return length <= most ? length : 0;
}

/* About the native limit, or 4 GiB too long, which is the right length in 32 bits. */
static size_t large_length(struct random *r, size_t right, size_t most)
{
    const size_t lengths[] = {
        most - 2 * SCT_SECTOR_BYTES, most - SCT_SECTOR_BYTES, most, right + ((size_t)1 << 32)
    };
    size_t length = PICK(r, lengths);

    return length <= most ? length : most;
}

/* Half of the time the check area is right for the wrong disk. */
static void wrong_disk(struct list *l, struct step *step)
{
    const size_t most = right_length(DISK, SCT_NATIVE_LIMIT + 1);
    size_t right = step->length[DISK];

    step->length[DISK] = once_in(&l->random, 10) ? large_length(&l->random, right, most)
                       : wrong_length(&l->random, right, most);
    if (once_in(&l->random, 2))
        step->length[CHECK_AREA] = right_length(CHECK_AREA, step->length[DISK] / SCT_SECTOR_BYTES);
}

static void wrong_check_area(struct list *l, struct step *step)
{
    const size_t most = right_length(CHECK_AREA, SCT_NATIVE_LIMIT + 1);
    size_t right = step->length[CHECK_AREA];

    step->length[CHECK_AREA] = once_in(&l->random, 4) ? right + SCT_CHECK_BYTES
                             : wrong_length(&l->random, right, most);
    if (step->length[CHECK_AREA] > most)
        step->length[CHECK_AREA] = most;
}

/* Makes some of the passed lengths wrong, and some of the numbers. */
static void distort(struct list *l, struct step *step)
{
    struct random *r = &l->random;

    step->null_if_empty = once_in(r, 2);
    for (enum buffer b = 0; b < BUFFERS; b++) {
        if (!entry_has(step->entry, b) || once_in(r, 2))
            continue;
        if (b == DISK)
            wrong_disk(l, step);
        else if (b == CHECK_AREA)
            wrong_check_area(l, step);
        else if (b == IMAGE)
            step->length[b] = (size_t)below(r, once_in(r, 2) ? 2 : l->pair->used + 600) % IMAGE_ROOM;
        else
            step->length[b] = wrong_length(r, step->length[b], 2 * step->length[b]);
    }
    if (once_in(r, 4)) {
        step->port = (uint32_t)random64(r);
        step->port >>= below(r, 32);
    }
    if (once_in(r, 6)) {
        step->visible = 0;
        step->lba = l->pair->sectors;
        step->form = 0;
    }
}

/* ---- Lists -------------------------------------------------------------------------- */

enum { LARGE_EVERY = 800, LONG_EVERY = 400 };

/* The index also gives the style, so the large ones move through all of them. */
static bool is_large(uint64_t index)
{
    return (index + index / LARGE_EVERY) % LARGE_EVERY == 1;
}

static uint64_t any_size(struct random *r, uint64_t index)
{
    if (is_large(index))
        return once_in(r, 2) ? TEST_SECTORS : TEST_SECTORS - below(r, 3);
    switch (below(r, 8)) {
    case 0:  return 1;
    case 1:
    case 2:  return between(r, 2, 8);
    case 3:  return 64;
    case 4:  return between(r, 65, 300);
    default: return between(r, 9, 64);
    }
}

static uint64_t any_list_length(struct random *r, uint64_t index)
{
    if (is_large(index))
        return between(r, 40, 200);
    return index % LONG_EVERY == 2 ? between(r, 2000, 5000) : between(r, 20, 160);
}

/* A list starts with a power-on, mostly a good one, mostly from nothing. */
static void plan_start(struct list *l)
{
    struct random *r = &l->random;

    if (once_in(r, 10))
        plan_exchange(l);       /* over a record of junk */
    if (once_in(r, 4))
        plan_new_image(l);
    add(l, POWER_ON);
    if (once_in(r, 3))
        plan_visible(l);
}

void list_begin(struct list *list, struct pair *pair, uint64_t seed, uint64_t index)
{
    enum placement placement;
    uint64_t sectors;

    list->random = random_for(seed, index);
    list->pair = pair;
    list->style = (enum style)(index % STYLES);
    list->length = any_list_length(&list->random, index);
    list->last_answer = 0;
    list->head = list->count = 0;
    sectors = any_size(&list->random, index);
    placement = (enum placement)below(&list->random, PLACEMENTS);
    pair_reset(pair, &list->random, sectors, placement);
    plan_start(list);
}

void list_next(struct list *list, struct step *step)
{
    struct random *r = &list->random;

    if (list->last_answer == SCT_BAD_RECORD && list->style != RECORDS && once_in(r, 3)) {
        list->count = 0;        /* the record is unsound: start again */
        plan_power_on(list);
    }
    while (list->count == 0)
        plan(list);
    *step = list->queue[list->head];
    list->head = (list->head + 1) % QUEUE;
    list->count--;
    if (step->used_now && step->entry != USE_LENGTH)
        step->used = list->pair->used;
    if (step->entry < ENTRIES && once_in(r, list->style == LENGTHS ? 4 : 100))
        distort(list, step);
}
