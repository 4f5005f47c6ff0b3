#include "layout.h"

#include <string.h>

#include "bytes.h"
#include "sct_disk.h"

/* ---- Fields of the record ------------------------------------------------ */

/*
 * Every byte of the record is in one field. `place` is the field's place in
 * struct record_fields, NOWHERE if all sound records have the same bytes there.
 */
struct field { const char *name; uint16_t at, bytes, place; };

enum { NOWHERE = 0xFFFF, HISTORY_SIZE = 478 };

#define HELD(name, at, member) \
    { name, at, sizeof ((struct record_fields *)0)->member, offsetof(struct record_fields, member) }
#define FIXED(name, at, bytes) { name, at, bytes, NOWHERE }
#define SLOT(p, at)                                                                                 \
    HELD("port " #p " stage", (at), slot[p].stage),                                                 \
    HELD("port " #p " pending transfer", (at) + 1, slot[p].pending),                                \
    FIXED("port " #p " spare", (at) + 2, 6),                                                        \
    HELD("port " #p " fill first or LBA", (at) + 8, slot[p].first),                                 \
    HELD("port " #p " fill end", (at) + 16, slot[p].end)

static const struct field fields[] = {
    HELD("native size", 0, native), HELD("visible size", 8, visible), HELD("locked", 16, locked),
    HELD("Segment Initialized flag", 17, flag), HELD("fill running", 18, filling), FIXED("spare at 19", 19, 1),
    HELD("extended status code", 20, code), HELD("action", 22, action), HELD("function", 24, function),
    HELD("read timer", 26, read_timer), HELD("write timer", 28, write_timer),
    HELD("feature 1", 30, feature1), HELD("feature 2", 32, feature2),
    HELD("feature 1 kept", 34, kept1), HELD("feature 2 kept", 35, kept2), HELD("feature 3 kept", 36, kept3),
    FIXED("spare at 37", 37, 1), HELD("minutes", 38, minutes), HELD("temperature now", 40, now),
    HELD("cycle maximum", 41, cycle), HELD("life maximum", 42, life), FIXED("spare at 43", 43, 5),
    HELD("fill first", 48, first), HELD("fill next", 56, next), HELD("fill end", 64, end),
    SLOT(0, 72), SLOT(1, 96), SLOT(2, 120), SLOT(3, 144),
    FIXED("spare at 168", 168, 344),
    FIXED("table format", 512, 2), FIXED("table period", 514, 2), HELD("interval (feature 3)", 516, interval),
    FIXED("table limits", 518, 4), FIXED("table zeros", 522, 20), FIXED("history size", 542, 2),
    HELD("history index", 544, index), HELD("history", 546, history)
};

#define FIELD_COUNT (sizeof fields / sizeof fields[0])

/* The archive is for x86-64, where numbers have their low byte first in memory too. */

void decode_record(struct record_fields *f, const uint8_t *record)
{
    for (size_t i = 0; i < FIELD_COUNT; i++)
        if (fields[i].place != NOWHERE)
            memcpy((uint8_t *)f + fields[i].place, record + fields[i].at, fields[i].bytes);
}

/* The bytes that are the same in every table. */
static void encode_table_constants(uint8_t *table)
{
    static const uint8_t limits[4] = { 0x3C, 0x46, 0x05, 0xF6 };

    memset(table, 0, 34);
    put16(table, 2);
    put16(table + 2, 1);
    memcpy(table + 6, limits, 4);
    put16(table + 30, HISTORY_SIZE);
}

void encode_record(uint8_t *record, const struct record_fields *f)
{
    memset(record, 0, SCT_RECORD_BYTES);
    encode_table_constants(record + 512);
    for (size_t i = 0; i < FIELD_COUNT; i++)
        if (fields[i].place != NOWHERE)
            memcpy(record + fields[i].at, (const uint8_t *)f + fields[i].place, fields[i].bytes);
}

int pending_port(const struct record_fields *f)
{
    for (int p = 0; p < 4; p++)
        if (f->slot[p].pending != PENDING_NONE)
            return p;
    return -1;
}

/* ---- Differences by name ------------------------------------------------- */

const char *field_at(size_t offset)
{
    for (size_t i = 0; i < FIELD_COUNT; i++)
        if (fields[i].at <= offset && offset < (size_t)fields[i].at + fields[i].bytes)
            return fields[i].name;
    return "after the record";
}

static void print_field(FILE *out, const struct field *field, const char *name, const uint8_t *record,
                        size_t offset)
{
    if (field->bytes <= 8)
        fprintf(out, "    %s: %llu\n", name, (unsigned long long)get_bytes(record + field->at, field->bytes));
    else
        fprintf(out, "    %s: %02Xh at %zu of it\n", name, record[offset], offset - field->at);
}

unsigned print_record_difference(FILE *out, const char *name_a, const uint8_t *a,
                                 const char *name_b, const uint8_t *b)
{
    unsigned differences = 0;

    for (size_t i = 0; i < FIELD_COUNT; i++) {
        size_t offset = fields[i].at;
        size_t end = offset + fields[i].bytes;

        while (offset < end && a[offset] == b[offset])
            offset++;
        if (offset == end)
            continue;
        fprintf(out, "  record, %s:\n", fields[i].name);
        print_field(out, &fields[i], name_a, a, offset);
        print_field(out, &fields[i], name_b, b, offset);
        differences++;
    }
    return differences;
}

/* ---- Random records and entries ------------------------------------------ */

uint8_t random_reading(struct random *r)
{
    static const uint8_t limits[] = { 0x80, 0x80, 0x81, 0x7F, 0x00, 0x01, 0xFF, 0xFE, 0x05, 0xF6, 0x3C, 0x46 };

    return once_in(r, 2) ? PICK(r, limits) : (uint8_t)random64(r);
}

static uint16_t random_interval(struct random *r)
{
    if (once_in(r, 8))
        return (uint16_t)between(r, 1, 65535);
    return once_in(r, 8) ? 65535 : (uint16_t)between(r, 1, 4);
}

static uint16_t random_timer(struct random *r)
{
    static const uint16_t timers[] = { 0, 10, 11, 70, 65535 };

    return PICK(r, timers);
}

static void random_history(struct random *r, uint8_t *history)
{
    if (once_in(r, 2))
        memset(history, 0x80, HISTORY_SIZE);
    else
        random_bytes(r, history, HISTORY_SIZE);
}

static uint16_t random_index(struct random *r)
{
    static const uint16_t limits[] = { 477, 476, 475, 0, 1 };

    return once_in(r, 2) ? PICK(r, limits) : (uint16_t)below(r, HISTORY_SIZE);
}

/* A fill running, a transfer pending, or neither. */
static void random_activity(struct random *r, struct record_fields *f)
{
    uint64_t first = below(r, f->visible);
    uint64_t end = between(r, first + 1, f->visible);
    struct slot_fields *slot = &f->slot[below(r, 4)];

    switch (below(r, 5)) {
    case 0:
        f->filling = 1;
        f->code = 0xFFFF;
        f->first = once_in(r, 2) ? 0 : first;
        f->end = once_in(r, 2) ? f->visible : end;
        f->next = between(r, f->first, f->end - 1);
        break;
    case 1:
        slot->pending = PENDING_TABLE;
        break;
    case 2:
        slot->pending = PENDING_FILL;
        slot->first = first;
        slot->end = end;
        break;
    case 3:
        slot->pending = once_in(r, 2) ? PENDING_LONG_READ : PENDING_LONG_WRITE;
        slot->first = first;
        break;
    default:
        break;
    }
}

void random_record(struct random *r, uint8_t *record, uint64_t native)
{
    struct record_fields f;

    memset(&f, 0, sizeof f);
    f.native = native;
    f.visible = once_in(r, 3) ? native : between(r, 1, native);
    f.locked = once_in(r, 4);
    f.flag = once_in(r, 2);
    f.code = once_in(r, 2) ? 0 : (uint16_t)below(r, 0xFFFF);
    f.action = (uint16_t)random64(r);
    f.function = (uint16_t)random64(r);
    f.read_timer = random_timer(r);
    f.write_timer = random_timer(r);
    f.feature1 = (uint16_t)between(r, 1, 3);
    f.feature2 = (uint16_t)between(r, 1, 2);
    f.interval = random_interval(r);
    f.kept1 = once_in(r, 2);
    f.kept2 = once_in(r, 2);
    f.kept3 = once_in(r, 2);
    f.minutes = once_in(r, 2) ? (uint16_t)(f.interval - 1) : (uint16_t)below(r, f.interval);
    f.now = random_reading(r);
    f.cycle = random_reading(r);
    f.life = random_reading(r);
    for (int p = 0; p < 4; p++)
        f.slot[p].stage = (uint8_t)below(r, 3);
    f.index = random_index(r);
    random_history(r, f.history);
    random_activity(r, &f);
    encode_record(record, &f);
}

/* A number that some rule compares sector numbers with, or one next to it. */
static uint64_t limit_of_sectors(struct random *r, const struct record_fields *f)
{
    const uint64_t limits[] = { 0, f->native, f->visible, f->first, f->next, f->end, 65536, SCT_NATIVE_LIMIT };
    uint64_t limit = PICK(r, limits);

    return limit + below(r, 3) - 1;
}

/* Half of the time the one with the pending transfer, if there is one. */
static struct slot_fields *any_slot(struct random *r, struct record_fields *f)
{
    int port = pending_port(f);

    return port >= 0 && once_in(r, 2) ? &f->slot[port] : &f->slot[below(r, 4)];
}

void spoil_record(struct random *r, uint8_t *record)
{
    struct record_fields f;
    struct slot_fields *slot;

    decode_record(&f, record);
    slot = any_slot(r, &f);
    switch (below(r, 16)) {
    case 0:  f.native = limit_of_sectors(r, &f); break;
    case 1:  f.visible = limit_of_sectors(r, &f); break;
    case 2:  f.first = limit_of_sectors(r, &f); break;
    case 3:
    case 4:  f.next = limit_of_sectors(r, &f); break;
    case 5:  f.end = limit_of_sectors(r, &f); break;
    case 6:  slot->first = limit_of_sectors(r, &f); break;
    case 7:  slot->end = limit_of_sectors(r, &f); break;
    case 8:  slot->pending = (uint8_t)below(r, 7); break;
    case 9:  f.filling = (uint8_t)below(r, 3); break;
    case 10: f.code = (uint16_t)(0xFFFF - below(r, 2)); break;
    case 11: f.read_timer = (uint16_t)below(r, 12); break;
    case 12: f.write_timer = (uint16_t)below(r, 12); break;
    case 13: f.minutes = (uint16_t)(f.interval + below(r, 3) - 1); break;
    case 14: f.interval = (uint16_t)(f.minutes + below(r, 3) - 1); break;
    default: f.index = (uint16_t)between(r, 476, 479); break;
    }
    encode_record(record, &f);
}

void put_form(uint8_t *entry, uint32_t form, uint16_t read_timer, uint16_t write_timer)
{
    memset(entry + 25, 0, 5);
    if (form == SCT_FORM_1)
        return;
    entry[25] = 2;
    put16(entry + 26, read_timer);
    put16(entry + 28, write_timer);
}

/* Half of the time 70 and 70, from which an image can go back to form 1. */
static void random_form(struct random *r, uint8_t *entry, uint32_t form)
{
    bool as_at_first = once_in(r, 2);
    uint16_t read_timer = random_timer(r);
    uint16_t write_timer = random_timer(r);

    put_form(entry, form, as_at_first ? 70 : read_timer, as_at_first ? 70 : write_timer);
}

void random_entry(struct random *r, uint8_t *image, uint32_t number, uint64_t native, uint32_t form)
{
    uint8_t *body = image + (size_t)SCT_ENTRY_BYTES * (number - 1);
    uint8_t *trailer = body + 544;
    uint16_t interval = random_interval(r);

    memset(body, 0, SCT_ENTRY_BYTES);
    put64(body, native);
    put64(body + 8, once_in(r, 2) ? native : between(r, 1, native));
    body[16] = once_in(r, 2);
    body[17] = random_reading(r);
    put16(body + 18, (uint16_t)between(r, 1, 3));
    put16(body + 20, (uint16_t)between(r, 1, 2));
    put16(body + 22, interval);
    body[24] = (uint8_t)below(r, 8);
    random_form(r, body, form);
    encode_table_constants(body + 32);
    random_history(r, body + 66);
    put16(body + 36, interval);
    put16(body + 64, random_index(r));
    put32(trailer, 544);
    put32(trailer + 4, number == 1 ? 0xFFFFFFFFu : (uint32_t)(SCT_ENTRY_BYTES * (number - 1) - 16));
    put32(trailer + 8, number);
    memcpy(trailer + 12, "SCTE", 4);
}
