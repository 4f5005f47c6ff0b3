#include "sweep.h"

#include <string.h>

#include "bytes.h"
#include "check.h"
#include "layout.h"
#include "request.h"

enum { SECTORS = 8, VISIBLE = 6, HELD_PORT = 0, EMPTY_PORT = 1, ANSWERED_PORT = 2 };

static bool sweep_step(struct pair *pair, struct statistics *s, const struct step *step)
{
    struct outcome outcome;

    if (!pair_step(pair, step, &outcome)) {
        printf("  in the step: ");
        print_step(stdout, step, pair->sectors);
        printf("\n");
        return false;
    }
    s->sweep_steps++;
    statistics_add(s, step, &outcome);
    return true;
}

/* The step as another entry, with the same numbers and lengths. */
static bool sweep_as(struct pair *pair, struct statistics *s, struct step *step, enum entry entry)
{
    step->entry = entry;
    return sweep_step(pair, s, step);
}

/* ---- The state from which each trial starts ---------------------------------- */

struct start {
    uint8_t  record[SCT_RECORD_BYTES];
    uint8_t  area[SCT_PRIVATE_BYTES];
    uint8_t  disk[SECTORS * SCT_SECTOR_BYTES];
    uint8_t  check_area[SECTORS * SCT_CHECK_BYTES];
    uint8_t  image[3 * SCT_ENTRY_BYTES];
    uint64_t used;
};

static void keep_start(struct start *start, const struct pair *pair)
{
    memcpy(start->record, pair->record, sizeof start->record);
    memcpy(start->area, pair->area, sizeof start->area);
    memcpy(start->disk, pair->third[DISK], sizeof start->disk);
    memcpy(start->check_area, pair->third[CHECK_AREA], sizeof start->check_area);
    memcpy(start->image, pair->image, sizeof start->image);
    start->used = pair->used;
}

static void go_to_start(struct pair *pair, const struct start *start)
{
    memcpy(pair->record, start->record, sizeof start->record);
    memcpy(pair->area, start->area, sizeof start->area);
    memcpy(pair->third[DISK], start->disk, sizeof start->disk);
    memcpy(pair->third[CHECK_AREA], start->check_area, sizeof start->check_area);
    for (int i = 0; i < 2; i++) {
        memcpy(pair->side[i].arena[DISK].buffer, start->disk, sizeof start->disk);
        memcpy(pair->side[i].arena[CHECK_AREA].buffer, start->check_area, sizeof start->check_area);
    }
    memcpy(pair->image, start->image, sizeof start->image);
    pair->used = start->used;
}

/* Values for a byte: a few, the small ones too, or all. */
enum variety { FEW, SMALL_TOO, ALL };

static unsigned values_for(uint8_t *values, uint8_t now, struct random *r, enum variety variety)
{
    unsigned count = 0;

    if (variety == ALL) {
        for (unsigned v = 0; v < 256; v++)
            values[count++] = (uint8_t)v;
        return count;
    }
    values[count++] = (uint8_t)(now ^ 1);
    values[count++] = (uint8_t)(now + 2);
    values[count++] = (uint8_t)(once_in(r, 2) ? 0 : 0xFF);
    values[count++] = (uint8_t)random64(r);
    if (variety == SMALL_TOO)
        for (unsigned v = 0; v < 12; v++)
            values[count++] = (uint8_t)v;
    return count;
}

/* ---- Records ------------------------------------------------------------------ */

enum variation {
    IDLE, FILLING, AT_LAST_SECTOR, TABLE_PENDING, FILL_PENDING, LONG_READ_PENDING, LONG_WRITE_PENDING, LOCKED,
    ABOUT_TO_LOG, VARIATIONS
};

/* Port 0 held, port 2 answered, two thirds of the disk visible. */
static void base_record(struct random *r, uint8_t *record, enum variation variation)
{
    struct record_fields f;

    memset(&f, 0, sizeof f);
    f.native = SECTORS;
    f.visible = VISIBLE;
    f.flag = 1;
    f.code = 0x0004;
    f.action = 3;
    f.function = 2;
    f.write_timer = 70;
    f.feature1 = 2;
    f.feature2 = 1;
    f.kept1 = 1;
    f.interval = variation == ABOUT_TO_LOG ? 3 : 300;
    f.minutes = 2;
    f.now = 0xF6;
    f.cycle = 0xF6;
    f.life = 0x20;
    f.index = 477;
    f.slot[HELD_PORT].stage = STAGE_HELD;
    f.slot[ANSWERED_PORT].stage = STAGE_ANSWERED;
    f.locked = variation == LOCKED;
    random_bytes(r, f.history, sizeof f.history);
    if (variation == FILLING || variation == AT_LAST_SECTOR) {
        f.filling = 1;
        f.code = 0xFFFF;
        f.end = VISIBLE;
        f.next = variation == FILLING ? 2 : VISIBLE - 1;
    } else if (variation == TABLE_PENDING) {
        f.slot[HELD_PORT].pending = PENDING_TABLE;
    } else if (variation == FILL_PENDING) {
        f.slot[HELD_PORT].pending = PENDING_FILL;
        f.slot[HELD_PORT].first = 1;
        f.slot[HELD_PORT].end = 4;
    } else if (variation == LONG_READ_PENDING || variation == LONG_WRITE_PENDING) {
        f.slot[HELD_PORT].pending = variation == LONG_READ_PENDING ? PENDING_LONG_READ : PENDING_LONG_WRITE;
        f.slot[HELD_PORT].first = VISIBLE - 1;
    }
    encode_record(record, &f);
}

enum { HELD_REQUESTS = 9 };

static void held_request(uint8_t *mailbox, unsigned number)
{
    switch (number) {
    case 0:  build_status(mailbox, SMART); break;
    case 1:  build_fill(mailbox, LOG_EXT, 1, 1, 3, 0x04030201); break;
    case 2:  build_key(mailbox, SMART, 4, 1, 3, 2, 1); break;
    case 3:  build_data_read(mailbox, SMART); break;
    case 4:  build_data_write(mailbox, LOG_EXT); break;
    case 5:  build_long(mailbox, SMART, 2, VISIBLE - 2); break;
    case 6:  build_long_read(mailbox, LOG_EXT); break;
    case 7:  build_long_write(mailbox, SMART); break;
    default: build_sector(mailbox, true, VISIBLE - 1, 1); break;
    }
}

static struct step step_of(const struct pair *pair, enum entry entry)
{
    struct step step = plain_step(pair, entry);

    step.port = entry == TAKE ? EMPTY_PORT : entry == GIVE ? ANSWERED_PORT : HELD_PORT;
    step.n = 3;
    step.visible = VISIBLE - 2;
    step.reading = 0x21;
    step.lba = VISIBLE - 1;
    step.form = SCT_FORM_1;
    build_status(step.mailbox, SMART);
    return step;
}

/* Every entry that has a record, over the start's with one byte changed. */
static bool try_byte(struct pair *pair, struct statistics *s, struct start *start, size_t offset, uint8_t value)
{
    for (enum entry e = 0; e < ENTRIES; e++) {
        unsigned requests = e == SERVE ? HELD_REQUESTS : entry_has(e, RECORD);

        for (unsigned number = 0; number < requests; number++) {
            struct step step;

            go_to_start(pair, start);
            held_request(pair->area + SCT_MAILBOX_BYTES * HELD_PORT, number);
            pair->record[offset] = value;
            step = step_of(pair, e);
            if (!sweep_step(pair, s, &step)) {
                printf("  with byte %zu (%s) of the record at %02Xh, was %02Xh\n",
                       offset, field_at(offset), value, start->record[offset]);
                return false;
            }
        }
    }
    return true;
}

bool sweep_records(struct pair *pair, struct statistics *s, bool thorough)
{
    static struct start start;
    struct random r = random_for(1, 1);
    uint8_t values[256];

    for (enum variation v = 0; v < VARIATIONS; v++) {
        pair_reset(pair, &r, SECTORS, (enum placement)(v % PLACEMENTS));
        base_record(&r, pair->record, v);
        keep_start(&start, pair);
        if (!try_byte(pair, s, &start, 0, start.record[0]))
            return false;
        for (size_t offset = 0; offset < SCT_RECORD_BYTES; offset++) {
            bool plain = (offset >= 168 && offset < 512) || offset >= 560;      /* spare, or history */
            enum variety variety = plain ? FEW : thorough ? ALL : SMALL_TOO;
            unsigned count = values_for(values, start.record[offset], &r, variety);

            for (unsigned i = 0; i < count; i++)
                if (!try_byte(pair, s, &start, offset, values[i]))
                    return false;
        }
    }
    return true;
}

/* ---- Keys --------------------------------------------------------------------- */

/* The words that the key table judges, with right and wrong values. Start and LBA begin at word 2, Count at word 6. */
static const struct { unsigned word, count; uint16_t values[8]; } key_words[] = {
    { 0, 8, { 0, 1, 2, 3, 4, 5, 6, 0xFFFF } },
    { 1, 6, { 0, 1, 2, 3, 4, 0x0101 } },
    { 2, 8, { 0, 1, 2, 3, 4, VISIBLE - 1, VISIBLE, 0x0102 } },
    { 3, 8, { 0, 1, 2, 3, 4, 9, 10, 0xFFFF } },
    { 4, 4, { 0, 1, 2, 0x0101 } },
    { 6, 3, { 0, 1, VISIBLE + 1 } }
};

enum { KEY_WORDS = sizeof key_words / sizeof key_words[0] };

/* The mixture with this number: one value for each word. */
static void mix_key(uint8_t *mailbox, enum form form, unsigned number)
{
    build_log(mailbox, form, true, 0xE0, 1);
    for (unsigned i = 0; i < KEY_WORDS; i++) {
        put16(mailbox + R_SECTOR + 2 * key_words[i].word, key_words[i].values[number % key_words[i].count]);
        number /= key_words[i].count;
    }
}

static unsigned key_mixtures(void)
{
    unsigned count = 1;

    for (unsigned i = 0; i < KEY_WORDS; i++)
        count *= key_words[i].count;
    return count;
}

static bool try_key(struct pair *pair, struct statistics *s, const struct start *start, enum form form, unsigned number)
{
    struct step step = step_of(pair, SERVE);
    uint8_t *key = pair->area + SCT_MAILBOX_BYTES * HELD_PORT + R_SECTOR;

    go_to_start(pair, start);
    mix_key(key - R_SECTOR, form, number);
    if (sweep_step(pair, s, &step))
        return true;
    printf("  of a key with the words");
    for (unsigned word = 0; word < 7; word++)
        printf(" %Xh", get16(key + 2 * word));
    printf("\n");
    return false;
}

/* Every mixture of right and wrong words, on a free disk (by B0h) and on a locked one (by 3Fh). */
bool sweep_keys(struct pair *pair, struct statistics *s)
{
    static struct start start;
    struct random r = random_for(1, 8);

    for (int locked = 0; locked < 2; locked++) {
        pair_reset(pair, &r, SECTORS, AT_END);
        base_record(&r, pair->record, locked ? LOCKED : IDLE);
        keep_start(&start, pair);
        for (unsigned number = 0; number < key_mixtures(); number++)
            if (!try_key(pair, s, &start, locked ? LOG_EXT : SMART, number))
                return false;
    }
    return true;
}

/* ---- Images ------------------------------------------------------------------- */

/* What an entry that reads an image may change, to be put back after it. */
struct kept {
    uint8_t  record[SCT_RECORD_BYTES];
    uint8_t  image[SCT_IMAGE_LIMIT];
    uint64_t used;
};

static void keep_image(struct kept *kept, const struct pair *pair)
{
    memcpy(kept->record, pair->record, sizeof kept->record);
    memcpy(kept->image, pair->image, sizeof kept->image);
    kept->used = pair->used;
}

static void put_back(struct pair *pair, const struct kept *kept)
{
    memcpy(pair->record, kept->record, sizeof kept->record);
    memcpy(pair->image, kept->image, sizeof kept->image);
    pair->used = kept->used;
}

/* The entries that read an image; convert also with forms that are none. */
static const struct { enum entry entry; uint32_t form; } readers[] = {
    { SAVE, 0 }, { POWER_ON, 0 }, { CONVERT, SCT_FORM_1 }, { CONVERT, SCT_FORM_2 },
    { CONVERT, 0 }, { CONVERT, 3 }, { CONVERT, 0x102 }, { CONVERT, 0x80000001 }
};

enum { READERS = sizeof readers / sizeof readers[0], RIGHT_READERS = 4 };

/* The first so many of them, each with the step's used length and room, over the same image. */
static bool try_readers(struct pair *pair, struct statistics *s, struct step step, unsigned count)
{
    static struct kept kept;

    keep_image(&kept, pair);
    for (unsigned i = 0; i < count; i++) {
        step.form = readers[i].form;
        if (!sweep_as(pair, s, &step, readers[i].entry))
            return false;
        put_back(pair, &kept);
    }
    return true;
}

static bool read_image(struct pair *pair, struct statistics *s)
{
    return try_readers(pair, s, plain_step(pair, POWER_ON), RIGHT_READERS);
}

/* A chain of this form, from which an image can go back to form 1. */
static void make_chain(struct pair *pair, struct random *r, uint32_t entries, uint32_t form)
{
    pair_reset(pair, r, SECTORS, AT_END);
    base_record(r, pair->record, IDLE);
    for (uint32_t k = 1; k <= entries; k++) {
        random_entry(r, pair->image, k, SECTORS, form);
        put_form(pair->image + SCT_ENTRY_BYTES * (k - 1), form, 70, 70);
    }
    pair->used = (uint64_t)SCT_ENTRY_BYTES * entries;
}

static bool sweep_images_of(struct pair *pair, struct statistics *s, bool thorough, uint32_t form)
{
    static struct start start;
    struct random r = random_for(1, 2);
    uint8_t values[256];

    make_chain(pair, &r, 3, form);
    keep_start(&start, pair);
    for (size_t offset = 0; offset < sizeof start.image; offset++) {
        size_t place = offset % SCT_ENTRY_BYTES;
        bool plain = place >= 80 && place < 540;        /* history */
        unsigned count = values_for(values, start.image[offset], &r, thorough ? ALL : plain ? FEW : SMALL_TOO);

        for (unsigned i = 0; i < count; i++) {
            go_to_start(pair, &start);
            pair->image[offset] = values[i];
            if (!read_image(pair, s)) {
                printf("  with byte %zu of the image of form %u (%zu of its entry) at %02Xh, was %02Xh\n", offset,
                       form, offset % SCT_ENTRY_BYTES, values[i], start.image[offset]);
                return false;
            }
        }
    }
    return true;
}

bool sweep_images(struct pair *pair, struct statistics *s, bool thorough)
{
    return sweep_images_of(pair, s, thorough, SCT_FORM_1) && sweep_images_of(pair, s, thorough, SCT_FORM_2);
}

/* ---- Chains -------------------------------------------------------------------- */

/* Used lengths other than the right one, in a buffer that is just long enough for the right one, and in longer ones. */
static bool try_used_lengths(struct pair *pair, struct statistics *s)
{
    uint64_t right = pair->used;
    const uint64_t lengths[] = {
        right, right + 1, right - 1, right + 559, right + 560, right - 560, right / 2,
        65519, 65521, 66080, 66640, 69999, 70000, 70001, 70560, (uint64_t)1 << 32, UINT64_MAX - 559, UINT64_MAX
    };

    for (size_t i = 0; i < sizeof lengths / sizeof lengths[0]; i++) {
        struct step step = plain_step(pair, POWER_ON);

        step.used = lengths[i];
        for (size_t room = 0; room < 3; room++) {
            step.length[IMAGE] = room == 0 ? (size_t)right : room == 1 ? SCT_IMAGE_LIMIT : IMAGE_ROOM;
            if (!try_readers(pair, s, step, READERS))
                return false;
        }
    }
    return true;
}

/* Converts to this form and starts from the image: image and record are then what `wanted` has. */
static bool convert_to(struct pair *pair, struct statistics *s, uint32_t form, const struct kept *wanted)
{
    struct step step = plain_step(pair, POWER_ON);

    step.form = form;
    if (!sweep_as(pair, s, &step, CONVERT) || !sweep_as(pair, s, &step, POWER_ON))
        return false;
    if (memcmp(pair->image, wanted->image, sizeof wanted->image) == 0 &&
        memcmp(pair->record, wanted->record, sizeof wanted->record) == 0)
        return true;
    printf("  converted to form %u and back, the image or the record has changed\n", form);
    return false;
}

/*
 * The image goes to the other form and back, twice: its bytes are those that it
 * had in that form before, and the record after power-on is always the same. If
 * its timers keep it in form 2, both stay as well.
 */
static bool there_and_back(struct pair *pair, struct statistics *s, uint32_t form)
{
    static struct kept here, there;
    struct step step = plain_step(pair, POWER_ON);
    uint32_t other = other_form(form);

    if (!sweep_step(pair, s, &step))
        return false;
    keep_image(&here, pair);
    step.form = other;
    if (!sweep_as(pair, s, &step, CONVERT))
        return false;
    keep_image(&there, pair);
    return convert_to(pair, s, other, &there) && convert_to(pair, s, form, &here) &&
           convert_to(pair, s, other, &there) && convert_to(pair, s, form, &here);
}

/* The record of the next save: a random one, or one whose timers can go back to form 1. */
static void next_record(struct pair *pair, struct random *r, bool seventy)
{
    struct record_fields f;

    random_record(r, pair->record, SECTORS);
    if (!seventy)
        return;
    decode_record(&f, pair->record);
    f.read_timer = 70;
    f.write_timer = 70;
    encode_record(pair->record, &f);
}

/* Saves until the image is full, with a power-on from each length; behind an entry of form 1, or from nothing. */
static bool sweep_chain_of(struct pair *pair, struct statistics *s, uint32_t form, bool seventy)
{
    struct random r = random_for(1, 3);

    pair_reset(pair, &r, SECTORS, AT_START);
    next_record(pair, &r, seventy);
    if (form == SCT_FORM_1) {
        random_entry(&r, pair->image, 1, SECTORS, form);
        pair->used = SCT_ENTRY_BYTES;
    }
    for (unsigned k = 0; k < SCT_ENTRIES_LIMIT + 2; k++) {
        struct step step = plain_step(pair, SAMPLE);

        step.reading = random_reading(&r);
        step.length[IMAGE] = IMAGE_ROOM;
        if (!sweep_step(pair, s, &step) || !sweep_as(pair, s, &step, SAVE))
            return false;
        if (!there_and_back(pair, s, form))
            return false;
        if ((k % 13 == 0 || k >= SCT_ENTRIES_LIMIT - 2) && !try_used_lengths(pair, s))
            return false;
        next_record(pair, &r, seventy);
    }
    return true;
}

bool sweep_chain(struct pair *pair, struct statistics *s)
{
    return sweep_chain_of(pair, s, SCT_FORM_1, false) && sweep_chain_of(pair, s, SCT_FORM_2, false) &&
           sweep_chain_of(pair, s, SCT_FORM_2, true);
}

/* One entry, at this place, is of each form and has other timers. */
static bool try_place(struct pair *pair, struct statistics *s, uint32_t place)
{
    static const struct { uint32_t form; uint16_t read_timer, write_timer; } others[] = {
        { SCT_FORM_1, 0, 0 }, { SCT_FORM_2, 70, 70 }, { SCT_FORM_2, 71, 70 }, { SCT_FORM_2, 70, 0 },
        { SCT_FORM_2, 9, 70 }, { SCT_FORM_2, 70, 1 }, { SCT_FORM_2, 10, 65535 }
    };
    uint8_t *entry = pair->image + SCT_ENTRY_BYTES * (place - 1);
    uint8_t before[32];

    memcpy(before, entry, sizeof before);
    for (size_t i = 0; i < sizeof others / sizeof others[0]; i++) {
        put_form(entry, others[i].form, others[i].read_timer, others[i].write_timer);
        if (!read_image(pair, s)) {
            printf("  with entry %u of form %u, timers %u and %u\n", place, others[i].form,
                   others[i].read_timer, others[i].write_timer);
            return false;
        }
    }
    memcpy(entry, before, sizeof before);
    return true;
}

/* Chains in which one entry is another than the rest, at each place. */
bool sweep_forms(struct pair *pair, struct statistics *s)
{
    static const uint32_t lengths[] = { 1, 2, 3, 13, SCT_ENTRIES_LIMIT };
    struct random r = random_for(1, 7);

    for (size_t i = 0; i < sizeof lengths / sizeof lengths[0]; i++) {
        for (uint32_t form = SCT_FORM_1; form <= SCT_FORM_2; form++) {
            make_chain(pair, &r, lengths[i], form);
            if (!there_and_back(pair, s, form))
                return false;
            for (uint32_t place = 1; place <= lengths[i]; place++)
                if (!try_place(pair, s, place))
                    return false;
        }
    }
    return true;
}

/* ---- Addresses ------------------------------------------------------------------ */

enum { NUMBERS = 4 * 64 + 3 };

/* Every bit alone, all bits below it, and each with or without the last sector's. */
static unsigned interesting_numbers(uint64_t *numbers, uint64_t visible)
{
    unsigned count = 0;

    for (unsigned bit = 0; bit < 64; bit++) {
        uint64_t power = (uint64_t)1 << bit;

        numbers[count++] = power;
        numbers[count++] = power - 1;
        numbers[count++] = (visible - 1) ^ power;
        numbers[count++] = 0 - power;
    }
    numbers[count++] = visible - 1;
    numbers[count++] = visible;
    numbers[count++] = visible + 1;
    return count;
}

static bool sweep_exchange(struct pair *pair, struct statistics *s, const uint8_t *mailbox)
{
    struct step step = plain_step(pair, TAKE);

    memcpy(step.mailbox, mailbox, SCT_MAILBOX_BYTES);
    return sweep_step(pair, s, &step) && sweep_as(pair, s, &step, SERVE) && sweep_as(pair, s, &step, GIVE);
}

/* One sector is read and written at every address. */
static bool try_sectors(struct pair *pair, struct statistics *s, struct random *r, uint64_t visible)
{
    uint64_t numbers[NUMBERS];
    unsigned count = interesting_numbers(numbers, visible);

    for (unsigned i = 0; i < 2 * count; i++) {
        uint8_t mailbox[SCT_MAILBOX_BYTES];

        build_sector(mailbox, i % 2 != 0, numbers[i / 2], 1);
        random_bytes(r, mailbox + R_SECTOR, SCT_SECTOR_BYTES);
        if (!sweep_exchange(pair, s, mailbox))
            return false;
    }
    return true;
}

/* A fill is asked for with this Start and Count, and worked a little if it runs. */
static bool try_fill(struct pair *pair, struct statistics *s, uint64_t start, uint64_t count)
{
    uint8_t mailbox[SCT_MAILBOX_BYTES];
    struct step work = plain_step(pair, WORK);

    build_fill(mailbox, LOG_EXT, 1, start, count, (uint32_t)(start + 17 * count));
    if (!sweep_exchange(pair, s, mailbox))
        return false;
    work.n = 2;
    return sweep_step(pair, s, &work);
}

static bool try_fills(struct pair *pair, struct statistics *s, uint64_t visible)
{
    uint64_t numbers[NUMBERS];
    unsigned count = interesting_numbers(numbers, visible);

    for (unsigned i = 0; i < count; i++) {
        uint64_t a = numbers[i];
        uint64_t left = visible - a;    /* the last Count allowed, where this Start is */
        const struct { uint64_t start, count; } fills[] = {
            { a, 0 }, { a, left - 1 }, { a, left }, { a, left + 1 }, { a, 0 - a }, { a, 1 - a },
            { 0, a }, { 1, a }, { visible - 1, a }
        };

        for (size_t k = 0; k < sizeof fills / sizeof fills[0]; k++)
            if (!try_fill(pair, s, fills[k].start, fills[k].count))
                return false;
    }
    return true;
}

/* A bit of the sector flips, where there is that sector, and it is repaired twice. */
static bool try_repair(struct pair *pair, struct statistics *s, uint64_t lba, unsigned bit)
{
    struct step flip = plain_step(pair, FLIP_BIT);
    struct step repair = plain_step(pair, REPAIR);

    flip.offset = (size_t)lba;
    flip.bit = (uint16_t)bit;
    repair.lba = lba;
    if (lba < pair->sectors && !sweep_step(pair, s, &flip))
        return false;
    return sweep_step(pair, s, &repair) && sweep_step(pair, s, &repair);
}

/* A Long transfer of this function is asked for at this LBA, and made if it is pending. */
static bool try_long(struct pair *pair, struct statistics *s, struct random *r, uint16_t function, uint64_t lba)
{
    uint8_t mailbox[SCT_MAILBOX_BYTES];

    build_long(mailbox, LOG_EXT, function, lba);
    if (!sweep_exchange(pair, s, mailbox))
        return false;
    build_log(mailbox, SMART, function == 2, 0xE1, 2);
    random_bytes(r, mailbox + R_SECTOR, SCT_DATA_BYTES);
    return sweep_exchange(pair, s, mailbox);
}

static bool try_longs(struct pair *pair, struct statistics *s, struct random *r, uint64_t visible)
{
    uint64_t numbers[NUMBERS];
    unsigned count = interesting_numbers(numbers, visible);

    for (unsigned i = 0; i < count; i++)
        for (uint16_t function = 1; function <= 2; function++)
            if (!try_long(pair, s, r, function, numbers[i]))
                return false;
    return true;
}

static bool try_repairs(struct pair *pair, struct statistics *s, uint64_t visible)
{
    uint64_t numbers[NUMBERS];
    unsigned count = interesting_numbers(numbers, visible);

    for (unsigned i = 0; i < count; i++)
        if (!try_repair(pair, s, numbers[i], 17 * i % SECTOR_BITS))
            return false;
    return true;
}

bool sweep_addresses(struct pair *pair, struct statistics *s)
{
    static const uint64_t sizes[] = { TEST_SECTORS, TEST_SECTORS - 1, 40000, 32768, 1 };
    struct random r = random_for(1, 5);
    struct step step;

    pair_reset(pair, &r, TEST_SECTORS, AT_END);
    step = plain_step(pair, POWER_ON);
    if (!sweep_step(pair, s, &step))
        return false;
    for (size_t i = 0; i < sizeof sizes / sizeof sizes[0]; i++) {
        step = plain_step(pair, SET_VISIBLE);
        step.visible = sizes[i];
        if (!sweep_step(pair, s, &step) || !try_sectors(pair, s, &r, sizes[i]) ||
            !try_fills(pair, s, sizes[i]) || !try_longs(pair, s, &r, sizes[i]) || !try_repairs(pair, s, sizes[i]))
            return false;
    }
    return pair_finish(pair);
}

/* ---- Flipped bits --------------------------------------------------------------- */

/* Each bit of a sector and of its check bytes flips alone, and with the one before it. */
bool sweep_flips(struct pair *pair, struct statistics *s)
{
    static struct start start;
    struct random r = random_for(1, 6);

    pair_reset(pair, &r, SECTORS, AT_END);
    make_checks(pair->third[CHECK_AREA], pair->third[DISK], SECTORS);
    base_record(&r, pair->record, FILLING);
    keep_start(&start, pair);
    for (unsigned bit = 0; bit < SECTOR_BITS + 8 * SCT_CHECK_BYTES; bit++) {
        struct step flip = plain_step(pair, FLIP_BIT);

        flip.bit = (uint16_t)(bit == 0 ? SECTOR_BITS : bit - 1);
        go_to_start(pair, &start);
        if (!try_repair(pair, s, 0, bit))
            return false;
        go_to_start(pair, &start);
        if (!sweep_step(pair, s, &flip) || !try_repair(pair, s, 0, bit))
            return false;
    }
    return true;
}

/* ---- Sizes ---------------------------------------------------------------------- */

/* About the limit and the one before W-207; 8,388,608 sectors are 4 GiB. */
static const uint64_t sizes_tried[] = {
    1, 65535, 65536, 65537, 8388607, 8388608, 8388609,
    SCT_NATIVE_LIMIT - 1, SCT_NATIVE_LIMIT, SCT_NATIVE_LIMIT + 1
};

enum { SIZES_TRIED = sizeof sizes_tried / sizeof sizes_tried[0] };

static struct step power_on_of(const struct pair *pair, uint64_t sectors)
{
    struct step step = plain_step(pair, POWER_ON);

    step.length[DISK] = right_length(DISK, sectors);
    step.length[CHECK_AREA] = right_length(CHECK_AREA, sectors);
    return step;
}

/* An image of one entry, of a disk of so many sectors. */
static void make_entry(struct pair *pair, struct random *r, uint64_t native)
{
    random_entry(r, pair->image, 1, native, SCT_FORM_2);
    pair->used = SCT_ENTRY_BYTES;
}

/* A power-on with such a disk, from an entry of each size and from nothing; the record is saved, with V set to each size too. */
static bool try_size(struct pair *pair, struct statistics *s, struct random *r, uint64_t sectors)
{
    struct step step = power_on_of(pair, sectors);

    for (unsigned i = 0; i < SIZES_TRIED; i++) {
        make_entry(pair, r, sizes_tried[i]);
        step.used = pair->used;
        if (!sweep_as(pair, s, &step, POWER_ON) || !sweep_as(pair, s, &step, SAVE))
            return false;
        pair->used = step.used = 0;
        step.visible = sizes_tried[i];
        if (!sweep_as(pair, s, &step, POWER_ON) || !sweep_as(pair, s, &step, SAVE) ||
            !sweep_as(pair, s, &step, SET_VISIBLE) || !sweep_as(pair, s, &step, SAVE))
            return false;
    }
    return true;
}

/* The lengths within 2 of those of such a disk and its check area. */
static bool try_lengths_near(struct pair *pair, struct statistics *s, uint64_t sectors)
{
    const struct step right = power_on_of(pair, sectors);

    for (enum buffer b = DISK; b < BUFFERS; b++) {
        for (size_t more = 0; more <= 4; more++) {
            struct step step = right;

            step.length[b] = right.length[b] - 2 + more;
            if (!sweep_step(pair, s, &step))
                return false;
        }
    }
    return true;
}

/* The entries that get a disk are passed one that is 4 GiB too long. */
static bool try_wrapped(struct pair *pair, struct statistics *s)
{
    for (enum entry e = 0; e < ENTRIES; e++) {
        struct step step = step_of(pair, e);

        step.length[DISK] += (size_t)1 << 32;
        if (entry_has(e, DISK) && !sweep_step(pair, s, &step))
            return false;
    }
    return true;
}

bool sweep_sizes(struct pair *pair, struct statistics *s)
{
    struct random r = random_for(1, 9);

    for (enum placement p = 0; p < PLACEMENTS; p++) {
        pair_reset(pair, &r, SECTORS, p);
        base_record(&r, pair->record, FILLING);
        if (!try_wrapped(pair, s))
            return false;
        for (unsigned i = 0; i < SIZES_TRIED; i++)
            if (!try_size(pair, s, &r, sizes_tried[i]) || !try_lengths_near(pair, s, sizes_tried[i]))
                return false;
    }
    return true;
}

/* ---- Lengths -------------------------------------------------------------------- */

enum { LENGTH_CHOICES = 6 };

/* Mailbox and private area as they were before W-202. */
enum { OLD_MAILBOX = 528, OLD_PRIVATE_AREA = 2624 };

static size_t other_length(enum buffer b, size_t right)
{
    switch (b) {
    case IMAGE:        return SCT_ENTRY_BYTES;
    case CHECK_AREA:   return right + SCT_CHECK_BYTES;
    case MAILBOX:      return OLD_MAILBOX;
    case PRIVATE_AREA: return OLD_PRIVATE_AREA;
    default:           return right + SCT_SECTOR_BYTES;
    }
}

/* Choice 0 is right; choice 1 is NULL, as null_if_empty is set with it. */
static size_t choose_length(const struct step *step, enum buffer b, unsigned choice)
{
    size_t right = step->length[b];

    switch (choice) {
    case 0:  return right;
    case 1:
    case 2:  return 0;
    case 3:  return right - 1;
    case 4:  return right + 1;
    default: return other_length(b, right);
    }
}

/* The mixture with this number: one choice for each buffer of the entry. */
static struct step mixture(const struct pair *pair, enum entry entry, unsigned number)
{
    struct step step = step_of(pair, entry);

    step.length[IMAGE] = 2 * SCT_ENTRY_BYTES;
    for (enum buffer b = 0; b < BUFFERS; b++) {
        if (!entry_has(entry, b))
            continue;
        step.length[b] = choose_length(&step, b, number % LENGTH_CHOICES);
        step.null_if_empty |= number % LENGTH_CHOICES == 1;
        number /= LENGTH_CHOICES;
    }
    return step;
}

static unsigned mixtures(enum entry entry)
{
    unsigned count = 1;

    for (enum buffer b = 0; b < BUFFERS; b++)
        if (entry_has(entry, b))
            count *= LENGTH_CHOICES;
    return count;
}

/* Every mixture of lengths, with good and bad ports, stages, records, images. */
static bool try_lengths(struct pair *pair, struct statistics *s, const struct start *start, enum entry entry)
{
    static const uint32_t ports[] = { 0, 1, 2, 3, 4, 0x80000000 };
    static const uint64_t sizes[] = { 1, 0, SECTORS, SECTORS + 1, 0x100000001, UINT64_MAX };
    static const uint64_t lbas[] = { 0, VISIBLE - 1, VISIBLE, SECTORS, 0x100000000, UINT64_MAX };
    static const uint32_t forms[] = { 1, 2, 0, 3, 0x101, 0x80000002 };

    for (unsigned number = 0; number < mixtures(entry); number++) {
        for (unsigned i = 0; i < 6 * 3; i++) {
            struct step step;

            go_to_start(pair, start);
            pair->record[19] = i % 3 == 1;                              /* an unsound record */
            pair->image[i % 3 == 2 ? 0 : 544] ^= i % 3 == 0 ? 0 : 1;    /* an unreadable image */
            step = mixture(pair, entry, number);
            step.port = ports[i / 3];
            step.visible = sizes[i / 3];
            step.lba = lbas[i / 3];
            step.form = forms[i / 3];
            if (!sweep_step(pair, s, &step))
                return false;
        }
    }
    return true;
}

bool sweep_lengths(struct pair *pair, struct statistics *s)
{
    static struct start start;
    struct random r = random_for(1, 4);

    for (enum placement p = 0; p < PLACEMENTS; p++) {
        pair_reset(pair, &r, SECTORS, p);
        base_record(&r, pair->record, FILLING);
        random_entry(&r, pair->image, 1, SECTORS, p == LOOSE ? SCT_FORM_1 : SCT_FORM_2);
        pair->used = SCT_ENTRY_BYTES;
        keep_start(&start, pair);
        for (enum entry e = 0; e < ENTRIES; e++)
            if (!try_lengths(pair, s, &start, e))
                return false;
    }
    return true;
}
