#include "pair.h"

#include <stdlib.h>
#include <string.h>

#include "bytes.h"
#include "check.h"
#include "layout.h"

/* The longest that each buffer gets: right lengths, and wrong ones above them. */
static const size_t room[BUFFERS] = {
    2 * SCT_RECORD_BYTES, 2 * SCT_PRIVATE_BYTES, 2 * SCT_MAILBOX_BYTES, IMAGE_ROOM,
    TEST_SECTORS * SCT_SECTOR_BYTES, TEST_SECTORS * SCT_CHECK_BYTES
};

/* For disks and check areas of wrong lengths: the longest, and how much of a long one is looked at. */
static const size_t other_room[BUFFERS] = {
    [DISK]       = (SCT_NATIVE_LIMIT + 2) * SCT_SECTOR_BYTES,
    [CHECK_AREA] = 2 * SCT_NATIVE_LIMIT * SCT_CHECK_BYTES + SCT_SECTOR_BYTES
};

enum { OTHER_SEEN = 1 << 16 };

enum { LARGE_DISK = 4096, MOST_PUT_OFF = 64 };

enum { FILLER = 0xEE };     /* after the known bytes of a buffer that is too long */

/* What is passed in this step, to both sides alike. Disk and check area are in struct pair. */
static uint8_t before[DISK][IMAGE_ROOM];

/* ---- Making and resetting ------------------------------------------------ */

void pair_make(struct pair *pair, const struct implementation *a, const struct implementation *b)
{
    memset(pair, 0, sizeof *pair);
    pair->side[0].code = a;
    pair->side[1].code = b;
    for (int s = 0; s < 2; s++) {
        for (enum buffer b = 0; b < BUFFERS; b++)
            arena_make(&pair->side[s].arena[b], room[b]);
        for (enum buffer b = DISK; b < BUFFERS; b++)
            arena_make(&pair->side[s].other[b], other_room[b]);
    }
    for (enum buffer b = DISK; b < BUFFERS; b++) {
        pair->third[b] = malloc(room[b]);
        if (pair->third[b] == NULL) {
            perror("no memory for the disk");
            exit(2);
        }
    }
}

/* Large disks get one random word a sector, as random bytes take long. */
static void fill_disk(struct random *r, uint8_t *disk, uint64_t sectors)
{
    if (sectors <= 1024) {
        random_bytes(r, disk, (size_t)sectors * SCT_SECTOR_BYTES);
        return;
    }
    memset(disk, 0, (size_t)sectors * SCT_SECTOR_BYTES);
    for (uint64_t i = 0; i < sectors; i++)
        put64(disk + i * SCT_SECTOR_BYTES, random64(r));
}

void flip_bit(uint8_t *disk, uint8_t *check_area, uint64_t lba, unsigned bit)
{
    uint8_t *at = disk + lba * SCT_SECTOR_BYTES;

    if (bit >= SECTOR_BITS) {
        at = check_area + lba * SCT_CHECK_BYTES;
        bit -= SECTOR_BITS;
    }
    at[bit / 8] ^= (uint8_t)(1u << bit % 8);
}

unsigned random_bit(struct random *r)
{
    switch (below(r, 4)) {
    case 0:  return SECTOR_BITS + (unsigned)below(r, 13);
    case 1:  return SECTOR_BITS + (unsigned)between(r, 13, 15);
    case 2:  return (unsigned)below(r, 8);
    default: return (unsigned)below(r, SECTOR_BITS);
    }
}

/* A quarter of the sectors has one or two wrong bits. */
static void damage(struct random *r, uint8_t *disk, uint8_t *check_area, uint64_t sectors)
{
    for (uint64_t lba = 0; lba < sectors; lba++)
        for (uint64_t flips = once_in(r, 4) ? between(r, 1, 2) : 0; flips > 0; flips--)
            flip_bit(disk, check_area, lba, random_bit(r));
}

/* Mostly sound check bytes, sometimes damage, now and then bytes that nobody has made. */
static void fill_check_area(struct random *r, uint8_t *check_area, uint8_t *disk, uint64_t sectors)
{
    uint64_t choice = below(r, 16);

    if (choice == 0) {
        random_bytes(r, check_area, right_length(CHECK_AREA, sectors));
        return;
    }
    make_checks(check_area, disk, sectors);
    if (choice < 6)
        damage(r, disk, check_area, sectors);
}

void pair_reset(struct pair *pair, struct random *r, uint64_t sectors, enum placement placement)
{
    pair->sectors = sectors;
    pair->placement = placement;
    pair->shift = (unsigned)below(r, 16);
    pair->used = 0;
    pair->put_off = 0;
    fill_disk(r, pair->third[DISK], sectors);
    fill_check_area(r, pair->third[CHECK_AREA], pair->third[DISK], sectors);
    random_bytes(r, pair->record, sizeof pair->record);
    random_bytes(r, pair->area, sizeof pair->area);
    random_bytes(r, pair->image, sizeof pair->image);
    for (int s = 0; s < 2; s++) {
        for (enum buffer b = DISK; b < BUFFERS; b++) {
            size_t length = right_length(b, sectors);

            memcpy(arena_place(&pair->side[s].arena[b], length, placement, pair->shift), pair->third[b], length);
        }
    }
}

struct step plain_step(const struct pair *pair, enum entry entry)
{
    struct step step;

    memset(&step, 0, sizeof step);
    step.entry = entry;
    for (enum buffer b = 0; b < BUFFERS; b++)
        step.length[b] = right_length(b, pair->sectors);
    step.length[IMAGE] = SCT_IMAGE_LIMIT;
    step.used = pair->used;
    return step;
}

/* ---- What the harness does between steps --------------------------------- */

uint32_t other_form(uint32_t form)
{
    return form == SCT_FORM_1 ? SCT_FORM_2 : SCT_FORM_1;
}

static void edit(struct pair *pair, const struct step *step)
{
    struct random r = { step->seed };

    switch (step->entry) {
    case EDIT_IMAGE:
        pair->image[step->offset] = step->value;
        break;
    case EDIT_RECORD:
        pair->record[step->offset] = step->value;
        break;
    case NEW_RECORD:
        random_record(&r, pair->record, step->native);
        if (step->spoilt)
            spoil_record(&r, pair->record);
        break;
    case NEW_IMAGE:
        for (uint32_t k = 1; k <= step->chain; k++)
            random_entry(&r, pair->image, k, step->native, k == step->foreign ? other_form(step->form) : step->form);
        pair->used = (uint64_t)SCT_ENTRY_BYTES * step->chain;
        break;
    case FLIP_BIT:
        flip_bit(pair->third[DISK], pair->third[CHECK_AREA], step->offset, step->bit);
        for (int s = 0; s < 2; s++)
            flip_bit(pair->side[s].arena[DISK].buffer, pair->side[s].arena[CHECK_AREA].buffer,
                     step->offset, step->bit);
        break;
    default:
        pair->used = step->used;
        break;
    }
}

/* ---- Placing the buffers -------------------------------------------------- */

/* A disk or check area of another length than that of the list's. */
static bool is_other(const struct pair *pair, const struct step *step, enum buffer b)
{
    return b >= DISK && step->length[b] != right_length(b, pair->sectors);
}

/* The known bytes of a buffer, then filler up to the length that is passed. */
static void prepare(enum buffer buffer, const uint8_t *known, size_t known_length, size_t length)
{
    size_t copied = length < known_length ? length : known_length;

    memcpy(before[buffer], known, copied);
    memset(before[buffer] + copied, FILLER, length - copied);
}

static void prepare_all(const struct pair *pair, const struct step *step)
{
    prepare(RECORD, pair->record, sizeof pair->record, step->length[RECORD]);
    if (entry_has(step->entry, PRIVATE_AREA))
        prepare(PRIVATE_AREA, pair->area, sizeof pair->area, step->length[PRIVATE_AREA]);
    if (entry_has(step->entry, MAILBOX))
        prepare(MAILBOX, step->mailbox, sizeof step->mailbox, step->length[MAILBOX]);
    if (entry_has(step->entry, IMAGE))
        prepare(IMAGE, pair->image, sizeof pair->image, step->length[IMAGE]);
}

/* The part of another disk or check area that is looked at: all of a small one. */
static size_t other_seen(size_t length)
{
    return length < OTHER_SEEN ? length : OTHER_SEEN;
}

/* Disk or check area. */
static uint8_t *place_kept(const struct pair *pair, struct side *side, const struct step *step, enum buffer b)
{
    size_t length = step->length[b];
    uint8_t *at;

    if (!is_other(pair, step, b))
        return side->arena[b].buffer;
    at = arena_place(&side->other[b], length, pair->placement, pair->shift);
    memset(at, 0, other_seen(length));
    return at;
}

static void place_all(const struct pair *pair, struct side *side, const struct step *step)
{
    for (enum buffer b = 0; b < BUFFERS; b++) {
        size_t length = step->length[b];

        side->passed[b] = NULL;
        if (!entry_has(step->entry, b) || (length == 0 && step->null_if_empty))
            continue;
        if (b >= DISK) {
            side->passed[b] = place_kept(pair, side, step, b);
        } else {
            side->passed[b] = arena_place(&side->arena[b], length, pair->placement, pair->shift);
            memcpy(side->passed[b], before[b], length);
        }
    }
}

/* ---- Calling -------------------------------------------------------------- */

/* The answer in bits 32 to 63 for every entry, as work and repair have it. */
static uint64_t call(const struct side *side, const struct step *step)
{
    const struct implementation *code = side->code;
    uint8_t *const *at = side->passed;
    const size_t *length = step->length;

    switch (step->entry) {
    case POWER_ON:
        return (uint64_t)code->power_on(at[RECORD], length[RECORD], at[PRIVATE_AREA], length[PRIVATE_AREA],
                                        at[DISK], length[DISK], at[CHECK_AREA], length[CHECK_AREA],
                                        at[IMAGE], length[IMAGE], step->used) << 32;
    case TAKE:
        return (uint64_t)code->take(at[RECORD], length[RECORD], step->port, at[MAILBOX], length[MAILBOX],
                                    at[PRIVATE_AREA], length[PRIVATE_AREA]) << 32;
    case SERVE:
        return (uint64_t)code->serve(at[RECORD], length[RECORD], step->port,
                                     at[PRIVATE_AREA], length[PRIVATE_AREA], at[DISK], length[DISK],
                                     at[CHECK_AREA], length[CHECK_AREA]) << 32;
    case GIVE:
        return (uint64_t)code->give(at[RECORD], length[RECORD], step->port, at[MAILBOX], length[MAILBOX],
                                    at[PRIVATE_AREA], length[PRIVATE_AREA]) << 32;
    case WORK:
        return code->work(at[RECORD], length[RECORD], at[PRIVATE_AREA], length[PRIVATE_AREA],
                          at[DISK], length[DISK], at[CHECK_AREA], length[CHECK_AREA], step->n);
    case LOCK:
        return (uint64_t)code->lock(at[RECORD], length[RECORD]) << 32;
    case UNLOCK:
        return (uint64_t)code->unlock(at[RECORD], length[RECORD]) << 32;
    case SET_VISIBLE:
        return (uint64_t)code->set_visible(at[RECORD], length[RECORD], step->visible) << 32;
    case SAMPLE:
        return (uint64_t)code->sample(at[RECORD], length[RECORD], step->reading) << 32;
    case REPAIR:
        return code->repair(at[RECORD], length[RECORD], at[DISK], length[DISK],
                            at[CHECK_AREA], length[CHECK_AREA], step->lba);
    case SAVE:
        return (uint64_t)code->save(at[RECORD], length[RECORD], at[IMAGE], length[IMAGE], step->used) << 32;
    default:
        return (uint64_t)code->convert(at[IMAGE], length[IMAGE], step->used, step->form) << 32;
    }
}

/* ---- Comparing ------------------------------------------------------------ */

static size_t first_difference(const uint8_t *a, const uint8_t *b, size_t length)
{
    size_t i = 0;

    while (i < length && a[i] == b[i])
        i++;
    return i;
}

static void print_difference(enum buffer buffer, const char *name_a, const uint8_t *a,
                             const char *name_b, const uint8_t *b, size_t length)
{
    size_t at = first_difference(a, b, length);

    if (buffer == RECORD && length == SCT_RECORD_BYTES) {
        print_record_difference(stdout, name_a, a, name_b, b);
        return;
    }
    printf("  %s, byte %zu: %s %02Xh, %s %02Xh\n", buffer_name[buffer], at, name_a, a[at], name_b, b[at]);
}

static bool same(enum buffer buffer, const char *name_a, const uint8_t *a,
                 const char *name_b, const uint8_t *b, size_t length)
{
    if (length == 0 || memcmp(a, b, length) == 0)
        return true;
    print_difference(buffer, name_a, a, name_b, b, length);
    return false;
}

/* A buffer that may not change must hold what was passed. */
static bool buffer_agrees(const struct pair *pair, const struct step *step, enum buffer b, uint32_t answer)
{
    const struct side *one = &pair->side[0];
    const struct side *two = &pair->side[1];
    bool agrees = same(b, one->code->name, one->passed[b], two->code->name, two->passed[b], step->length[b]);

    if (answer != SCT_DONE || !entry_may_change(step->entry, b))
        agrees &= same(b, one->code->name, one->passed[b], "before", before[b], step->length[b]);
    return agrees;
}

/* The image from here to there is what was passed. */
static bool image_stays(const struct pair *pair, size_t from, size_t to)
{
    return same(IMAGE, "written where it may not be", pair->side[0].passed[IMAGE] + from,
                "before", before[IMAGE] + from, to - from);
}

/* An accepted convert changes bytes 25 to 29 of the entries below the used length, and no other byte. */
static bool forms_alone_change(const struct pair *pair, const struct step *step)
{
    size_t length = step->length[IMAGE];
    size_t end = step->used < length ? (size_t)step->used : length;
    size_t from = 0;
    bool stays = true;

    for (size_t entry = 0; entry + SCT_ENTRY_BYTES <= end; entry += SCT_ENTRY_BYTES) {
        stays &= image_stays(pair, from, entry + 25);
        from = entry + 30;
    }
    return (length == 0 || image_stays(pair, from, length)) && stays;
}

static bool other_agrees(const struct pair *pair, const struct step *step, enum buffer b)
{
    return same(b, pair->side[0].code->name, pair->side[0].passed[b],
                pair->side[1].code->name, pair->side[1].passed[b], other_seen(step->length[b]));
}

/*
 * Compares the disks or the check areas of both sides; then what belongs to the
 * sectors from `open` on, which may not have changed, with the third copy, into
 * which the rest is copied.
 */
static bool kept_agree(struct pair *pair, enum buffer b, uint64_t open)
{
    const struct side *one = &pair->side[0];
    const struct side *two = &pair->side[1];
    const uint8_t *bytes = one->arena[b].buffer;
    size_t all = right_length(b, pair->sectors);
    size_t from = right_length(b, open);
    bool agree;

    agree = same(b, one->code->name, bytes, two->code->name, two->arena[b].buffer, all);
    agree &= same(b, "written where it may not be", bytes + from, "before", pair->third[b] + from, all - from);
    if (from != 0 && memcmp(pair->third[b], bytes, from) != 0)
        memcpy(pair->third[b], bytes, from);
    return agree;
}

/* V, by the record as the last step left it. */
static uint64_t visible_sectors(const struct pair *pair)
{
    return get64(pair->record + 8);
}

static bool disks_agree(struct pair *pair, uint64_t open)
{
    pair->put_off = 0;
    return kept_agree(pair, DISK, open);
}

/* Only a repair that reports 1 alters a sector. */
static bool writes_sectors(const struct step *step, uint64_t result)
{
    return entry_may_change(step->entry, DISK) && (step->entry != REPAIR || sct_repair_report(result) == 1);
}

/*
 * Where nothing was to be written no sector of the list's disk may change, nor
 * its check bytes; else none of a hidden sector.
 */
static bool disk_agrees(struct pair *pair, const struct step *step, uint64_t result)
{
    bool passed = !is_other(pair, step, DISK) && !is_other(pair, step, CHECK_AREA);
    bool done = passed && sct_work_answer(result) == SCT_DONE;
    bool writes = done && writes_sectors(step, result);
    bool checks = done && entry_may_change(step->entry, CHECK_AREA);
    bool agree = kept_agree(pair, CHECK_AREA, checks ? visible_sectors(pair) : 0);

    if (pair->sectors <= LARGE_DISK)
        return disks_agree(pair, writes ? visible_sectors(pair) : 0) && agree;
    pair->put_off += writes;
    return (pair->put_off < MOST_PUT_OFF || disks_agree(pair, visible_sectors(pair))) && agree;
}

/* After these steps V may have changed. */
static bool must_compare_before(enum entry entry)
{
    return entry == POWER_ON || entry == SET_VISIBLE || entry == NEW_RECORD || entry == EDIT_RECORD;
}

bool pair_finish(struct pair *pair)
{
    if (pair->put_off == 0 || disks_agree(pair, visible_sectors(pair)))
        return true;
    printf("  in one of the last %d steps that may write\n", MOST_PUT_OFF);
    return false;
}

static bool guards_agree(const struct pair *pair, const struct side *side, const struct step *step)
{
    bool hold = true;

    for (enum buffer b = 0; b < BUFFERS; b++) {
        const struct arena *arena = is_other(pair, step, b) ? &side->other[b] : &side->arena[b];

        if (side->passed[b] == NULL || !entry_has(step->entry, b) || arena_guards_hold(arena))
            continue;
        printf("  %s wrote outside its %s\n", side->code->name, buffer_name[b]);
        hold = false;
    }
    return hold;
}

static bool results_agree(const struct pair *pair, const uint64_t result[2])
{
    if (result[0] == result[1])
        return true;
    for (int s = 0; s < 2; s++)
        printf("  %s: answer %u, report %u\n", pair->side[s].code->name,
               sct_work_answer(result[s]), sct_work_sectors(result[s]));
    return false;
}

static bool everything_agrees(struct pair *pair, const struct step *step, const uint64_t result[2])
{
    uint32_t answer = sct_work_answer(result[0]);
    bool agrees = results_agree(pair, result);

    for (enum buffer b = 0; b < DISK; b++)
        if (entry_has(step->entry, b))
            agrees &= buffer_agrees(pair, step, b, answer);
    for (enum buffer b = DISK; b < BUFFERS; b++)
        if (entry_has(step->entry, b) && is_other(pair, step, b))
            agrees &= other_agrees(pair, step, b);
    if (entry_has(step->entry, DISK))
        agrees &= disk_agrees(pair, step, result[0]);
    if (step->entry == CONVERT && answer == SCT_DONE)
        agrees &= forms_alone_change(pair, step);
    for (int s = 0; s < 2; s++)
        agrees &= guards_agree(pair, &pair->side[s], step);
    return agrees;
}

/* ---- Keeping what both sides left ------------------------------------------ */

static void keep(struct pair *pair, const struct step *step)
{
    const struct side *side = &pair->side[0];

    if (entry_may_change(step->entry, RECORD))
        memcpy(pair->record, side->passed[RECORD], SCT_RECORD_BYTES);
    if (entry_may_change(step->entry, PRIVATE_AREA))
        memcpy(pair->area, side->passed[PRIVATE_AREA], SCT_PRIVATE_BYTES);
    if (entry_may_change(step->entry, IMAGE) && step->length[IMAGE] != 0)
        memcpy(pair->image, side->passed[IMAGE], step->length[IMAGE]);
    if (step->entry == SAVE)
        pair->used = step->used + SCT_ENTRY_BYTES;
}

/* Another core writes the mailbox: a later look at it finds this. */
static void scramble_mailboxes(const struct pair *pair, const struct step *step)
{
    for (int s = 0; s < 2; s++)
        if (pair->side[s].passed[MAILBOX] != NULL)
            memset(pair->side[s].passed[MAILBOX], FILLER, step->length[MAILBOX]);
}

static void note_outcome(const struct pair *pair, const struct step *step, uint64_t result,
                         struct outcome *outcome)
{
    outcome->answer = sct_work_answer(result);
    outcome->report = sct_work_sectors(result);
    outcome->fills_after = pair->record[18] == 1;
    if (step->entry == SERVE && outcome->answer == SCT_DONE)
        memcpy(outcome->reply, pair->area + (size_t)SCT_MAILBOX_BYTES * step->port,
               SCT_REGISTER_BYTES);
}

bool pair_step(struct pair *pair, const struct step *step, struct outcome *outcome)
{
    uint64_t result[2];

    memset(outcome, 0, sizeof *outcome);
    if (must_compare_before(step->entry) && !pair_finish(pair))
        return false;
    if (step->entry >= ENTRIES) {
        edit(pair, step);
        return true;
    }
    outcome->filled_before = pair->record[18] == 1;
    if (step->entry == SERVE && step->port < SCT_PORTS)
        outcome->kind = kind_of_request(pair->area + (size_t)SCT_MAILBOX_BYTES * step->port);
    prepare_all(pair, step);
    for (int s = 0; s < 2; s++) {
        place_all(pair, &pair->side[s], step);
        result[s] = call(&pair->side[s], step);
    }
    if (!everything_agrees(pair, step, result))
        return false;
    if (sct_work_answer(result[0]) == SCT_DONE)
        keep(pair, step);
    if (step->entry == TAKE)
        scramble_mailboxes(pair, step);
    note_outcome(pair, step, result[0], outcome);
    return true;
}
