/*
 * reference.c - a plain reading of the scope paper, to test the archive
 * against, and to be read along with the paper.
 *
 * It has the archive's twelve entries (prefix ref_) over the archive's buffers,
 * and gives the same bytes. Each section quotes the sentences it follows; one
 * of a change request has the request's number before it. The offsets in the
 * record are those of docs/record-layout.md.
 *
 * Three of the papers' words have other names here: an "owed" transfer is a
 * pending transfer, a feature with a "mark" is persistent, and mending a sector
 * is repair. The paper's disk is, since W-202, two buffers: the sectors and the
 * check area.
 *
 * The entries are at the end, in the order of sct_disk.h. Each opens the
 * record into a struct, refuses in the paper's order, decides, and writes the
 * struct back.
 */
#include "reference.h"

#include <stdbool.h>
#include <string.h>

/*
 * Planted faults, to see whether a test finds them: -DPLANT=n builds fault n
 * in. Without PLANT there is none, and PLANTED(n) is 0.
 *
 *   n   fault
 *   1   a fill may start at V (a bound is off by one)
 *   2   Start + Count is added in 64 bits
 *   3   temperatures are compared unsigned
 *   4   a refused E1h keeps the pending transfer
 *   5   a feature's option (000Fh) is judged before its state (000Eh)
 *   6   a fill goes on after V was set
 *   7   another port may collect a pending transfer
 *   8   34h does not clear the flag
 *   9   setting feature 3 does not empty the history
 *  10   power-on keeps the history though the interval has changed
 *  11   a saved entry names the wrong place of the previous trailer
 *  12   work with n = 0 reports one sector
 *  13   Count is fetched from the mailbox again while serving
 *  14   a well-formed status read stops the fill
 *  15   the end of any fill from 0 sets the flag
 *  16   a missing sample does not count as a minute
 *  17   only the newest entry of an image is judged
 *  18   the port is judged before the lengths
 *  19   one spare byte of the record is not judged
 *  20   power-on does not clear the fill sector
 *  21   a feature set with option 0 stays persistent if it was
 *  22   a full image is answered before another disk's
 *  23   the history wraps one reading early
 *  24   only 32 bits of a sector's LBA are compared
 *  25   Start + Count above the last user LBA is refused (the rule before W-201)
 *  26   34h leaves the check bytes as they were
 *  27   the positions of a check are eight too high
 *  28   a check has no parity
 *  29   Error 40h comes before Error 10h
 *  30   a fill sets the check bytes of the first sector of each work only
 *  31   a read does not look at bits 13 to 15 of a check
 *  32   repair neither stops a fill nor drops a pending transfer
 *  33   repair flips a bit and leaves the flag
 *  34   repair judges its LBA by N
 *  35   repair does not look at bits 13 to 15 of a check
 *  36   repair reports 2 where bit 12 alone differs
 *  37   repair that reports 0 does not stop a fill
 *  38   repair that is refused for its LBA stops a fill
 *  39   E1h takes count 1, too, for a Long transfer
 *  40   Write Long stores the check of its data instead of what it is sent
 *  41   the LBA of a Long key is judged before its function
 *  42   Read Long of a sector whose check differs has Error 40h
 *  43   in a record the LBA of a pending Long transfer is not judged
 *  44   Write Long leaves the flag
 *  45   Read Long sends the check of the data instead of the stored one
 *  46   bytes of the request stay behind the check bytes that Read Long sends
 *  47   Write Long clears bits 13 to 15 of the check that it is sent
 *  48   the second sector of a request stays in a reply of one sector
 *  49   both timers of a new disk are 0 at power-on (the rule before W-203)
 *  50   a power-on from a saved entry leaves the write timer at 0
 *  51   a timer set to 0 is 70
 *  52   a save swaps the two timers
 *  53   a saved timer of 9 is in range
 *  54   an entry whose byte 25 is 3 is of form 2
 *  55   a chain may mix forms
 *  56   answer 9 is judged by the newest entry alone
 *  57   answer 9 is judged by the read timers alone
 *  58   an empty image starts with form 1
 *  59   a save writes an entry of form 2 behind those of form 1
 *  60   power-on restores the timers of the oldest entry
 *  61   both timers are 70 at power-on, whatever was saved (the rule before W-204)
 *  62   convert to form 2 makes the timers of form 1 0 and 0
 *  63   convert judges the image before the form asked for
 *  64   convert does not judge an image whose newest entry is of the form asked for
 *  65   convert to form 2 makes the timers of form 2 70 and 70
 *  66   convert leaves the newest entry as it was
 *  67   convert to form 1 leaves the bytes of the timers
 *  68   bytes 30 and 31 of an entry are not judged
 *  69   bytes 26 to 29 of an entry of form 1 are not judged
 *  70   convert judges the timers (9) before the image (6)
 *  71   only 8 bits of the form asked for are compared
 *  72   a timer of 0 is saved as 70
 *  73   byte 12 of the status sector, which no rule names, is what the slot held
 *  74   a fill whose sum is at fault names word 2
 *  75   a fill whose Start is at fault names word 6
 *  76   an E1h that the lock refuses has 255 in LBA Mid
 *  77   a status read that the lock refuses has 255 in LBA Mid
 *  78   a key that the lock refuses names word 0
 *  79   a feature's state at fault names word 4
 *  80   a timer's value at fault names word 2
 *  81   a fill whose Start and sum are both at fault names word 6
 *  82   a refusal that names word 0 is taken for none, so a wrong action is accepted
 *  83   an entry of a disk above 65,536 sectors is not readable (the limit before W-207)
 *  84   a disk above 65,536 sectors is answer 2 at power-on (the same)
 *  85   the record of a disk above 65,536 sectors is unsound (the same)
 *  86   the native limit is one too low
 *  87   the native limit is one too high
 *  88   a sector's offset on the disk has 32 bits, so that it wraps at 4 GiB
 *  89   a sector's offset on the disk is that of the low 16 bits of its LBA
 *  90   the offset of a sector's check bytes has 24 bits
 *  91   repair computes a sector's offset in 32 bits
 *  92   the length of a disk is compared in 32 bits
 *  93   power-on takes N from the low 32 bits of the disk's length
 *  94   V has 24 bits when it is set, so that 16,777,216 becomes 0
 *  95   V has 24 bits when it is saved
 *  96   the next sector of a fill has 24 bits, so that a fill to sector 16,777,215 does not end
 *  97   the end of a pattern fill has 24 bits
 *  98   a pending fill keeps 16 bits of its first sector
 *  99   a pending Long transfer keeps 16 bits of its LBA
 * 100   work counts in 16 bits what is left of a fill
 * 101   work reports 16 bits of the number that it wrote
 * 102   one work writes at most 65,536 sectors
 * 103   the status sector has 16 bits of the next LBA
 * 104   the end of a fill from 0 is compared with V in 16 bits
 * 105   a sector's LBA has 24 bits, as those of the largest disk fit in them
 * 106   the end of a fill from 0 is compared with 24 bits of V
 */
#ifdef PLANT
#define PLANTED(n) (PLANT == (n))
#else
#define PLANTED(n) 0
#endif

/* ======================================================================== */
/* Bytes                                                                    */
/* ======================================================================== */

/* "Multi-byte numbers have their low byte first." */

static inline uint16_t load16(const uint8_t *at)
{
    return (uint16_t)(at[0] | at[1] << 8);
}

static inline uint32_t load32(const uint8_t *at)
{
    return (uint32_t)at[0] | (uint32_t)at[1] << 8 | (uint32_t)at[2] << 16 | (uint32_t)at[3] << 24;
}

static inline uint64_t load64(const uint8_t *at)
{
    return (uint64_t)load32(at) | (uint64_t)load32(at + 4) << 32;
}

static inline void store16(uint8_t *at, uint16_t value)
{
    at[0] = (uint8_t)value;
    at[1] = (uint8_t)(value >> 8);
}

static inline void store32(uint8_t *at, uint32_t value)
{
    at[0] = (uint8_t)value;
    at[1] = (uint8_t)(value >> 8);
    at[2] = (uint8_t)(value >> 16);
    at[3] = (uint8_t)(value >> 24);
}

static inline void store64(uint8_t *at, uint64_t value)
{
    store32(at, (uint32_t)value);
    store32(at + 4, (uint32_t)(value >> 32));
}

/* Numbers of 1, 2 and 8 bytes, the widths of the record's fields. */

static inline uint64_t load(const uint8_t *at, size_t bytes)
{
    return bytes == 1 ? at[0] : bytes == 2 ? load16(at) : load64(at);
}

static inline void store(uint8_t *at, size_t bytes, uint64_t value)
{
    if (bytes == 1)
        at[0] = (uint8_t)value;
    else if (bytes == 2)
        store16(at, (uint16_t)value);
    else
        store64(at, value);
}

/* The number; where a fault is planted its low bits alone. */
static inline uint64_t narrowed(bool planted, unsigned bits, uint64_t number)
{
    return planted ? number & (((uint64_t)1 << bits) - 1) : number;
}

/* Eight bytes at a time, as the record has hundreds of spare bytes. */
static bool all_zero(const uint8_t *at, size_t count)
{
    uint64_t seen = 0;
    size_t i = 0;

    for (; i + 8 <= count; i += 8) {
        uint64_t eight;
        memcpy(&eight, at + i, 8);
        seen |= eight;
    }
    for (; i < count; i++)
        seen |= at[i];
    return seen == 0;
}

/* ======================================================================== */
/* The device                                                               */
/* ======================================================================== */

/*
 * "It holds the disk, for each port nothing, a request or a reply, and the
 * device: N, V, lock, flag, code, action, function, timers, features, marks,
 * temperatures, history, index, minutes, any fill (first, next, end, sector)
 * and owed transfer."
 *
 * The history's 478 bytes stay in the record, the fill's sector and the
 * slots' bytes in the private area: they are worked on in place.
 */

enum stage { EMPTY, HELD, ANSWERED, STAGES };

enum transfer { NO_TRANSFER, SEND_TABLE, RECEIVE_FILL_SECTOR, SEND_LONG, RECEIVE_LONG, TRANSFERS };

enum { READ_TIMER, WRITE_TIMER, TIMERS };

enum { WRITE_CACHE, REORDERING, LOG_INTERVAL, FEATURES };

struct port {
    uint8_t  stage;
    uint8_t  pending;           /* pending transfer of this port */
    uint64_t first, end;        /* of a pending fill; first is a Long transfer's LBA; else 0 */
};

struct device {
    uint64_t native, visible;
    uint8_t  locked;
    uint8_t  initialized;       /* the Segment Initialized flag */
    uint8_t  filling;
    uint64_t first, next, end;  /* of the running fill, else 0 */
    uint16_t code, action, function;
    uint16_t timer[TIMERS];
    uint16_t state[FEATURES];   /* state[LOG_INTERVAL] is in the table */
    uint8_t  persistent[FEATURES];
    uint16_t minutes;
    uint8_t  now, cycle_maximum, life_maximum;
    uint16_t index;             /* of the newest reading; is in the table */
    struct port port[SCT_PORTS];
};

#define CODE_DONE     0x0000u
#define CODE_STOPPED  0x0008u
#define CODE_RUNNING  0xFFFFu

#define DEFAULT_TIMER 70u       /* W-203: "Both error recovery timers shall be 70 (7 seconds) at power-on." */
#define DEFAULT_STATE 1u        /* "other states return to 1" */

/* Offsets in the record. */
enum {
    AT_NATIVE = 0, AT_VISIBLE = 8, AT_LOCKED = 16, AT_INITIALIZED = 17, AT_FILLING = 18,
    AT_CODE = 20, AT_ACTION = 22, AT_FUNCTION = 24, AT_TIMERS = 26, AT_STATES = 30,
    AT_PERSISTENT = 34, AT_MINUTES = 38, AT_NOW = 40, AT_CYCLE = 41, AT_LIFE = 42,
    AT_FIRST = 48, AT_NEXT = 56, AT_END = 64,
    AT_PORTS = 72, PORT_BYTES = 24, PORT_STAGE = 0, PORT_PENDING = 1, PORT_FIRST = 8, PORT_END = 16,
    AT_TABLE = 512
};

/* Offsets in the temperature table (document 001, Table 19). */
enum {
    TABLE_FORMAT = 0, TABLE_PERIOD = 2, TABLE_INTERVAL = 4, TABLE_LIMITS = 6, TABLE_ZEROS = 10,
    TABLE_SIZE = 30, TABLE_INDEX = 32, TABLE_HISTORY = 34, HISTORY_SIZE = 478
};

/*
 * The private area: "four slots of 528, then the fill sector". W-202:
 * "mailboxes and slots grow to 1,040 bytes, the private area to 4,672".
 */
#define SLOT(area, number)  ((area) + (size_t)SCT_MAILBOX_BYTES * (number))
#define FILL_SECTOR(area)   ((area) + (size_t)SCT_MAILBOX_BYTES * SCT_PORTS)

/*
 * Each number that record and struct both have: its offset in the record, its
 * name in the struct, whose width is the record's. This is a list for the
 * preprocessor because a table, walked at each call, doubles the cost of an
 * exchange, and the bench compares that cost with the archive's.
 */
#define EACH_FIELD(FIELD)                                                                           \
    FIELD(AT_NATIVE, native) FIELD(AT_VISIBLE, visible)                                             \
    FIELD(AT_LOCKED, locked) FIELD(AT_INITIALIZED, initialized) FIELD(AT_FILLING, filling)          \
    FIELD(AT_CODE, code) FIELD(AT_ACTION, action) FIELD(AT_FUNCTION, function)                      \
    FIELD(AT_TIMERS, timer[READ_TIMER]) FIELD(AT_TIMERS + 2, timer[WRITE_TIMER])                    \
    FIELD(AT_STATES, state[WRITE_CACHE]) FIELD(AT_STATES + 2, state[REORDERING])                    \
    FIELD(AT_TABLE + TABLE_INTERVAL, state[LOG_INTERVAL])                                           \
    FIELD(AT_PERSISTENT, persistent[WRITE_CACHE]) FIELD(AT_PERSISTENT + 1, persistent[REORDERING])  \
    FIELD(AT_PERSISTENT + 2, persistent[LOG_INTERVAL])                                              \
    FIELD(AT_MINUTES, minutes)                                                                      \
    FIELD(AT_NOW, now) FIELD(AT_CYCLE, cycle_maximum) FIELD(AT_LIFE, life_maximum)                  \
    FIELD(AT_FIRST, first) FIELD(AT_NEXT, next) FIELD(AT_END, end)                                  \
    FIELD(AT_TABLE + TABLE_INDEX, index)                                                            \
    EACH_PORT_FIELD(FIELD, 0) EACH_PORT_FIELD(FIELD, 1) EACH_PORT_FIELD(FIELD, 2) EACH_PORT_FIELD(FIELD, 3)

#define EACH_PORT_FIELD(FIELD, p)                                                                   \
    FIELD(AT_PORTS + PORT_BYTES * (p) + PORT_STAGE, port[p].stage)                                  \
    FIELD(AT_PORTS + PORT_BYTES * (p) + PORT_PENDING, port[p].pending)                              \
    FIELD(AT_PORTS + PORT_BYTES * (p) + PORT_FIRST, port[p].first)                                  \
    FIELD(AT_PORTS + PORT_BYTES * (p) + PORT_END, port[p].end)

static void read_device(struct device *d, const uint8_t *record)
{
#define READ(at, member) d->member = load(record + (at), sizeof d->member);
    EACH_FIELD(READ)
#undef READ
}

/* Writes the fields alone: spare bytes and the rest of the table stay. */
static void write_device(uint8_t *record, const struct device *d)
{
#define WRITE(at, member) store(record + (at), sizeof d->member, d->member);
    EACH_FIELD(WRITE)
#undef WRITE
}

/* ======================================================================== */
/* Values in range (records, image entries and keys share these)            */
/* ======================================================================== */

/*
 * "Disk: a lent run of 1 to 65,536 sectors". W-207: "Raise the native limit to
 * 16,777,216 sectors." It is read at three places, of which one may be planted
 * to have the old limit.
 */
static uint64_t native_limit(bool planted)
{
    if (planted)
        return 65536;
    return SCT_NATIVE_LIMIT - (PLANTED(86) ? 1 : 0) + (PLANTED(87) ? 1 : 0);
}

/* "Visible size V is 1 to N." */
static bool sizes_in_range(uint64_t native, uint64_t visible, uint64_t limit)
{
    return 1 <= visible && visible <= native && native <= limit;
}

/*
 * "Feature states: 1 (write cache) 1 to 3; 2 (reordering) 1 or 2; 3 (log
 * interval) 1 to 65,535 minutes."
 */
static bool state_in_range(int feature, uint16_t state)
{
    static const uint16_t highest[FEATURES] = { 3, 2, 65535 };

    return 1 <= state && state <= highest[feature];
}

static bool states_in_range(const uint16_t state[FEATURES])
{
    return state_in_range(WRITE_CACHE, state[WRITE_CACHE]) &&
           state_in_range(REORDERING, state[REORDERING]) &&
           state_in_range(LOG_INTERVAL, state[LOG_INTERVAL]);
}

/* "each timer is 0 or at least 10" */
static bool timer_in_range(uint16_t timer)
{
    return timer == 0 || timer >= 10;
}

/* ======================================================================== */
/* The temperature table                                                    */
/* ======================================================================== */

/*
 * "Table (document 001, Table 19): 0002h; period 1; interval; bytes 6-9 =
 * 3Ch, 46h, 05h, F6h; zeros; size 478 at 30; index at 32; history from 34."
 */

static const uint8_t table_limits[4] = { 0x3C, 0x46, 0x05, 0xF6 };

/* All but the interval, which is judged with the features. */
static bool table_holds(const uint8_t *table)
{
    return load16(table + TABLE_FORMAT) == 2 &&
           load16(table + TABLE_PERIOD) == 1 &&
           memcmp(table + TABLE_LIMITS, table_limits, sizeof table_limits) == 0 &&
           all_zero(table + TABLE_ZEROS, TABLE_SIZE - TABLE_ZEROS) &&
           load16(table + TABLE_SIZE) == HISTORY_SIZE &&
           load16(table + TABLE_INDEX) < HISTORY_SIZE;
}

static void write_table_constants(uint8_t *table)
{
    store16(table + TABLE_FORMAT, 2);
    store16(table + TABLE_PERIOD, 1);
    memcpy(table + TABLE_LIMITS, table_limits, sizeof table_limits);
    memset(table + TABLE_ZEROS, 0, TABLE_SIZE - TABLE_ZEROS);
    store16(table + TABLE_SIZE, HISTORY_SIZE);
}

/* "Bytes are two's complement; 80h means missing." */
#define MISSING 0x80u

/* "Empty history is all 80h, index 477, minutes 0" */
static void empty_history(struct device *d, uint8_t *table)
{
    memset(table + TABLE_HISTORY, MISSING, HISTORY_SIZE);
    d->index = HISTORY_SIZE - 1;
    d->minutes = 0;
}

/* "a reading is logged at index + 1, and 0 follows 477" */
static void log_reading(struct device *d, uint8_t *table, uint8_t reading)
{
    unsigned next = d->index + 1u;
    unsigned size = PLANTED(23) ? HISTORY_SIZE - 1 : HISTORY_SIZE;

    d->index = (uint16_t)(next < size ? next : 0);
    table[TABLE_HISTORY + d->index] = reading;
}

static int degrees(uint8_t byte)
{
    return byte < 0x80 || PLANTED(3) ? byte : byte - 0x100;
}

/* "A missing maximum takes the first real sample." */
static uint8_t higher(uint8_t maximum, uint8_t reading)
{
    return maximum == MISSING || degrees(reading) > degrees(maximum) ? reading : maximum;
}

/*
 * "One sample is one minute. A missing sample sets "now" missing and moves no
 * maximum. [..] When the minutes reach the interval, the sample (missing too)
 * is logged and the minutes restart."
 */
static void take_sample(struct device *d, uint8_t *table, uint8_t reading)
{
    d->now = reading;
    if (reading != MISSING) {
        d->cycle_maximum = higher(d->cycle_maximum, reading);
        d->life_maximum = higher(d->life_maximum, reading);
    } else if (PLANTED(16)) {
        return;
    }
    if (d->minutes + 1 >= d->state[LOG_INTERVAL]) {
        log_reading(d, table, reading);
        d->minutes = 0;
    } else {
        d->minutes++;
    }
}

/* ======================================================================== */
/* The check of a sector (W-202)                                            */
/* ======================================================================== */

/* Both buffers of the disk. */
struct disk {
    uint8_t *sectors;
    uint8_t *check_area;    /* "a lent check area, two bytes a sector" */
};

static uint8_t *sector_at(struct disk disk, uint64_t lba)
{
    uint64_t offset = narrowed(PLANTED(89), 16, lba) * SCT_SECTOR_BYTES;

    return disk.sectors + narrowed(PLANTED(88), 32, offset);
}

static uint8_t *check_at(struct disk disk, uint64_t lba)
{
    return disk.check_area + narrowed(PLANTED(90), 24, lba * SCT_CHECK_BYTES);
}

/*
 * "bits 0 to 11 are the exclusive or of the positions (8 times byte plus bit)
 * of all one bits, bit 12 is their parity, the rest 0."
 */
static uint16_t check_of(const uint8_t *sector)
{
    unsigned positions = 0, parity = 0;

    for (unsigned byte = 0; byte < SCT_SECTOR_BYTES; byte++) {
        for (unsigned bit = 0; bit < 8; bit++) {
            if ((sector[byte] >> bit & 1) == 0)
                continue;
            positions ^= 8 * byte + bit + (PLANTED(27) ? 8 : 0);
            parity ^= 1;
        }
    }
    return (uint16_t)((positions & 0xFFF) | (PLANTED(28) ? 0 : parity << 12));
}

/* What the check bytes and the right check differ in; 0: "check equal". */
static uint16_t check_difference(const uint8_t *sector, const uint8_t *check)
{
    return load16(check) ^ check_of(sector);
}

/* "a sector whose check differs": all 16 bits are compared. */
static bool check_differs(struct disk disk, uint64_t lba)
{
    uint16_t difference = check_difference(sector_at(disk, lba), check_at(disk, lba));

    return (difference & (PLANTED(31) ? 0x1FFF : 0xFFFF)) != 0;
}

/* ======================================================================== */
/* Sound records                                                            */
/* ======================================================================== */

/* "if a fill runs, first <= next < end <= V"; its fields are zero otherwise. */
static bool fill_sound(const struct device *d)
{
    if (d->filling)
        return d->first <= d->next && d->next < d->end && d->end <= d->visible;
    return d->first == 0 && d->next == 0 && d->end == 0;
}

/*
 * "an owed fill has first < end <= V"; W-202: "In a sound record an owed Long
 * transfer has its LBA below V."
 */
static bool pending_sound(const struct device *d, const struct port *port)
{
    switch (port->pending) {
    case RECEIVE_FILL_SECTOR:
        return port->first < port->end && port->end <= d->visible;
    case SEND_LONG:
    case RECEIVE_LONG:
        return (port->first < d->visible || PLANTED(43)) && port->end == 0;
    default:
        return port->pending < TRANSFERS && port->first == 0 && port->end == 0;
    }
}

/* "a fill and an owed transfer never coexist", nor do two transfers. */
static bool ports_sound(const struct device *d)
{
    unsigned busy = d->filling;

    for (unsigned p = 0; p < SCT_PORTS; p++) {
        if (d->port[p].stage >= STAGES || !pending_sound(d, &d->port[p]))
            return false;
        busy += d->port[p].pending != NO_TRANSFER;
    }
    return busy <= 1;
}

/*
 * "every stage, port, mark, flag and feature state has one of its named
 * values": the one-byte fields that are 0 or 1.
 */
static bool flags_sound(const struct device *d)
{
    return d->locked <= 1 && d->initialized <= 1 && d->filling <= 1 &&
           d->persistent[WRITE_CACHE] <= 1 && d->persistent[REORDERING] <= 1 &&
           d->persistent[LOG_INTERVAL] <= 1;
}

/* "spare bytes are zero" */
static bool spare_bytes_zero(const uint8_t *record)
{
    const uint8_t *rest = record + AT_PORTS + PORT_BYTES * SCT_PORTS;
    size_t count = (size_t)(record + AT_TABLE - rest);

    for (unsigned p = 0; p < SCT_PORTS; p++)
        if (!all_zero(record + AT_PORTS + PORT_BYTES * p + PORT_PENDING + 1, PORT_FIRST - PORT_PENDING - 1))
            return false;
    return record[AT_FILLING + 1] == 0 &&
           record[AT_PERSISTENT + FEATURES] == 0 &&
           all_zero(record + AT_LIFE + 1, AT_FIRST - AT_LIFE - 1) &&
           all_zero(rest, PLANTED(19) ? count - 1 : count);
}

/*
 * "A record is sound when: it has 1,024 bytes; 1 <= V <= N <= 65,536; [..] the
 * stored code is FFFFh exactly while a fill runs; each timer is 0 or at least
 * 10; the interval is 1 or more, minutes counted are below it, the history
 * index is at most 477". W-207: "Sound records and answer 2 take the new limit".
 */
static bool device_sound(const struct device *d, const uint8_t *record)
{
    return sizes_in_range(d->native, d->visible, native_limit(PLANTED(85))) &&
           flags_sound(d) &&
           fill_sound(d) &&
           ports_sound(d) &&
           (d->code == CODE_RUNNING) == (d->filling == 1) &&
           timer_in_range(d->timer[READ_TIMER]) &&
           timer_in_range(d->timer[WRITE_TIMER]) &&
           states_in_range(d->state) &&
           d->minutes < d->state[LOG_INTERVAL] &&
           table_holds(record + AT_TABLE) &&
           spare_bytes_zero(record);
}

/* Opens a record into d. False: it is unsound (answer 4). */
static bool open_record(struct device *d, const uint8_t *record, size_t length)
{
    if (length != SCT_RECORD_BYTES)
        return false;
    read_device(d, record);
    return device_sound(d, record);
}

/* ======================================================================== */
/* Fills, pending transfers and the flag                                    */
/* ======================================================================== */

static void clear_fill(struct device *d)
{
    d->filling = 0;
    d->first = d->next = d->end = 0;
}

static void start_fill(struct device *d, uint64_t first, uint64_t end)
{
    d->filling = 1;
    d->first = d->next = first;
    d->end = end;
    d->code = CODE_RUNNING;
}

static void clear_pending(struct port *port)
{
    port->pending = NO_TRANSFER;
    port->first = port->end = 0;
}

/*
 * "Every request but a well-formed status read first stops a running fill
 * (code 0008h) and drops an owed transfer [..]. Locking, unlocking and setting
 * V do the same as other requests."
 */
static void stop_and_drop(struct device *d)
{
    if (d->filling) {
        clear_fill(d);
        d->code = CODE_STOPPED;
    }
    for (unsigned p = 0; p < SCT_PORTS; p++)
        clear_pending(&d->port[p]);
}

/*
 * "A running fill stores FFFFh; its last sector stores 0000h. The Segment
 * Initialized flag is [..] set when a fill from 0 to the last user LBA ends."
 */
static void end_fill(struct device *d)
{
    uint64_t visible = narrowed(PLANTED(104), 16, narrowed(PLANTED(106), 24, d->visible));
    bool to_last = narrowed(PLANTED(104), 16, d->end) == visible;

    if (d->first == 0 && (to_last || PLANTED(15)))
        d->initialized = 1;
    d->code = CODE_DONE;
    clear_fill(d);
}

/* The two bytes in the check area are given by the caller. */
static void write_sector(struct device *d, struct disk disk, uint64_t lba, const uint8_t *sector, uint16_t check)
{
    memcpy(sector_at(disk, lba), sector, SCT_SECTOR_BYTES);
    store16(check_at(disk, lba), check);
    d->initialized = 0;     /* "cleared by any sector written" */
}

/*
 * "Work writes the fill's sector to the k places from next on and moves next
 * by k, where k is the lesser of n and end - next (0 with no fill); at end the
 * fill is over." W-202: "Every ordinary write sets them", the check bytes; all
 * sectors of a fill have the same.
 */
static uint32_t advance_fill(struct device *d, struct disk disk, const uint8_t *sector, uint32_t n)
{
    uint64_t left = narrowed(PLANTED(100), 16, d->end - d->next);
    uint32_t k = n < left ? n : (uint32_t)left;
    uint16_t check = k == 0 ? 0 : check_of(sector);

    if (PLANTED(102) && k > 65536)
        k = 65536;
    for (uint32_t i = 0; i < k; i++) {
        uint64_t lba = d->next + i;

        write_sector(d, disk, lba, sector, PLANTED(30) && i > 0 ? load16(check_at(disk, lba)) : check);
    }
    d->next = narrowed(PLANTED(96), 24, d->next + k);
    if (d->filling && d->next == d->end)
        end_fill(d);
    return k;
}

/* ======================================================================== */
/* Requests and replies                                                     */
/* ======================================================================== */

/*
 * "Bytes: 0/1 Features current/previous, 2/3 Sector Count, 4/5 LBA Low, 6/7
 * LBA Mid, 8/9 LBA High, 10 Device, 11 Command, 12 Status, 13 Error, 14 and 15
 * zero."
 */
enum {
    FEATURES_NOW = 0, COUNT_NOW = 2, LOW_NOW = 4, LOW_BEFORE = 5, MID_NOW = 6, MID_BEFORE = 7,
    HIGH_NOW = 8, HIGH_BEFORE = 9, COMMAND = 11, STATUS = 12, ERROR = 13
};

enum kind {
    STATUS_READ, KEY_WRITE, DATA_READ, DATA_WRITE, SECTOR_READ, SECTOR_WRITE, NO_SUCH_REQUEST
};

struct request {
    enum kind kind;
    uint16_t  count;
    uint64_t  lba;
};

/*
 * "Write E0h: key sector. Read E0h: status. E1h: data." and "All else, and E0h
 * with another count: Error 04h".
 */
static enum kind log_kind(uint8_t log, bool is_read, uint16_t count)
{
    if (log == 0xE1)
        return is_read ? DATA_READ : DATA_WRITE;
    if (log == 0xE0 && count == 1)
        return is_read ? STATUS_READ : KEY_WRITE;
    return NO_SUCH_REQUEST;
}

/*
 * "B0h, Features D5h (read log) or D6h (write log), LBA Mid 4Fh, High C2h [..]
 * Sector Count is 1": for B0h the previous bytes are ignored.
 */
static struct request smart_request(const uint8_t *registers)
{
    uint8_t feature = registers[FEATURES_NOW];
    struct request r = { NO_SUCH_REQUEST, registers[COUNT_NOW], 0 };

    if ((feature == 0xD5 || feature == 0xD6) &&
        registers[MID_NOW] == 0x4F && registers[HIGH_NOW] == 0xC2)
        r.kind = log_kind(registers[LOW_NOW], feature == 0xD5, r.count);
    return r;
}

/*
 * "or 2Fh (read) or 3Fh (write) with both LBA Mid bytes 0. LBA Low (current)
 * E0h or E1h. Sector Count is 1 (16 bits for 2Fh and 3Fh)."
 */
static struct request log_request(const uint8_t *registers)
{
    struct request r = { NO_SUCH_REQUEST, load16(registers + COUNT_NOW), 0 };

    if (registers[MID_NOW] == 0 && registers[MID_BEFORE] == 0)
        r.kind = log_kind(registers[LOW_NOW], registers[COMMAND] == 0x2F, r.count);
    return r;
}

/*
 * "24h and 34h: read or write one sector at the 48-bit LBA, previous bytes
 * giving bits 24 to 47 (document 004). Count (16 bits) [..]"
 */
static struct request sector_request(const uint8_t *registers)
{
    struct request r;

    r.kind = registers[COMMAND] == 0x24 ? SECTOR_READ : SECTOR_WRITE;
    r.count = load16(registers + COUNT_NOW);
    r.lba = (uint64_t)registers[LOW_NOW] |
            (uint64_t)registers[MID_NOW] << 8 |
            (uint64_t)registers[HIGH_NOW] << 16 |
            (uint64_t)registers[LOW_BEFORE] << 24 |
            (uint64_t)registers[MID_BEFORE] << 32 |
            (uint64_t)registers[HIGH_BEFORE] << 40;
    r.lba = narrowed(PLANTED(24), 32, r.lba);
    r.lba = narrowed(PLANTED(105), 24, r.lba);
    return r;
}

static struct request read_registers(const uint8_t *registers)
{
    static const struct request none = { NO_SUCH_REQUEST, 0, 0 };

    switch (registers[COMMAND]) {
    case 0xB0: return smart_request(registers);
    case 0x2F:
    case 0x3F: return log_request(registers);
    case 0x24:
    case 0x34: return sector_request(registers);
    default:   return none;
    }
}

#define ABORTED        0x04u
#define ID_NOT_FOUND   0x10u
#define UNCORRECTABLE  0x40u

struct reply {
    uint8_t  error;     /* 0: good */
    uint16_t value;     /* "in Sector Count (low) and LBA Low (high)" */
    uint8_t  mid;       /* "LBA Mid is 1 if a sector is owed"; W-206: a refused key's word */
    uint16_t data;      /* so many bytes of the slot's data are already the reply's */
};

static struct reply good(uint16_t value)
{
    return (struct reply){ 0, value, 0, 0 };
}

static struct reply good_with_data(uint16_t bytes)
{
    return (struct reply){ 0, 0, 0, bytes };
}

static struct reply good_with_transfer(void)
{
    return (struct reply){ 0, 0, 1, 0 };
}

/* W-202: "either key's reply has 2 in Sector Count and LBA Mid." */
static struct reply good_with_long_transfer(void)
{
    return (struct reply){ 0, 2, 2, 0 };
}

/* A refusal without an extended code. */
static struct reply refused(uint8_t error)
{
    return (struct reply){ error, 0, 0, 0 };
}

/*
 * "SCT refusals have Error 04h and the extended code in Sector Count (low) and
 * LBA Low (high)."
 */
static struct reply sct_refused(uint16_t code)
{
    return (struct reply){ ABORTED, code, 0, 0 };
}

/* The same, and the code is stored. */
static struct reply sct_refused_stored(struct device *d, uint16_t code)
{
    d->code = code;
    return sct_refused(code);
}

/* Leaves what should become zeros. */
static size_t planted_end(struct reply reply)
{
    if (PLANTED(46) && reply.data > SCT_SECTOR_BYTES)
        return reply.data;
    return PLANTED(48) && reply.data <= SCT_SECTOR_BYTES ? SCT_SECTOR_BYTES : SCT_DATA_BYTES;
}

/*
 * "Good: Status 50h, Error 0. Refused: Status 51h [..] In a reply every byte
 * not named is 0, and the sector is zeros unless data is returned."
 */
static void write_reply(uint8_t *slot, struct reply reply)
{
    memset(slot, 0, SCT_REGISTER_BYTES);
    slot[COUNT_NOW] = (uint8_t)reply.value;
    slot[LOW_NOW] = (uint8_t)(reply.value >> 8);
    slot[MID_NOW] = reply.mid;
    slot[STATUS] = reply.error ? 0x51 : 0x50;
    slot[ERROR] = reply.error;
    memset(slot + SCT_REGISTER_BYTES + reply.data, 0, planted_end(reply) - reply.data);
}

/* What one serve works on. */
struct service {
    struct device *device;
    uint8_t       *table;           /* the temperature table in the record */
    uint8_t       *slot;            /* the request, later the reply */
    uint8_t       *sector;          /* the first sector in the slot */
    uint8_t       *long_check;      /* the two bytes behind it, check bytes in a Long transfer */
    uint8_t       *fill_sector;
    struct disk    disk;
    struct port   *port;
    struct port    before;          /* the port as it was before the request */
};

/* ======================================================================== */
/* Keys                                                                     */
/* ======================================================================== */

/* Extended codes of refusals. */
enum {
    BAD_FUNCTION = 0x0001, BAD_RANGE = 0x0002, BAD_TRANSFER_COUNT = 0x0003,
    BAD_TIMER_FUNCTION = 0x0004, BAD_TIMER = 0x0005, BAD_READ_TIMER = 0x0006, BAD_WRITE_TIMER = 0x0007,
    BAD_LONG_FUNCTION = 0x000A, NO_TRANSFER_PENDING = 0x000B, BAD_FEATURE_FUNCTION = 0x000C, BAD_FEATURE = 0x000D,
    BAD_STATE = 0x000E, BAD_OPTION = 0x000F, BAD_ACTION = 0x0010, BAD_TABLE = 0x0011, LOCKED = 0x0012
};

enum { LONG = 1, FILL = 2, TIMER = 3, FEATURE = 4, TABLE = 5 }; /* actions */
enum { LONG_READ = 1, LONG_WRITE = 2 };                         /* functions */
enum { FILL_PATTERN = 1, FILL_SECTOR = 2 };
enum { TIMER_SET = 1, TIMER_RETURN = 2 };
enum { FEATURE_SET = 1, FEATURE_STATE = 2, FEATURE_OPTIONS = 3 };

/* "Start bytes 4-11, Count 12-19", "bytes 20-23 repeated 128 times"; W-202: "LBA in words 2 to 5". */
enum { KEY_LBA = 4, KEY_START = 4, KEY_COUNT = 12, KEY_PATTERN = 20, PATTERN_BYTES = 4 };

static uint16_t word(const uint8_t *key, int number)
{
    return load16(key + 2 * number);
}

/*
 * W-206: "The reading of a key sector shall yield, with a refusal, the word that
 * caused it: 0 action, 1 function, 2 to 4 those words, 2 for Start or a Long
 * LBA, 6 where the sum alone is at fault, 255 for the lock."
 */
struct refusal {
    uint16_t code;      /* 0: accepted */
    uint8_t  word;      /* 0 is the action, and does not mean "none" */
};

enum { SUM_WORD = 6, LOCK_WORD = 255 };

static const struct refusal accepted = { 0, 0 };

static struct refusal refuse(uint16_t code, uint8_t number)
{
    return (struct refusal){ code, number };
}

/* Each judge_ function gives the refusal, or accepted. */

/* W-202: "functions 1 (read) and 2 (write)", "function 000Ah, LBA 0002h after it". */
static struct refusal judge_long(const struct device *d, const uint8_t *key)
{
    uint16_t function = word(key, 1);
    bool outside = load64(key + KEY_LBA) >= d->visible;

    if (PLANTED(41) && outside)
        return refuse(BAD_RANGE, 2);
    if (function != LONG_READ && function != LONG_WRITE)
        return refuse(BAD_LONG_FUNCTION, 1);
    return outside ? refuse(BAD_RANGE, 2) : accepted;
}

/*
 * "Start + Count is a whole-number sum; it never wraps": so Count is compared
 * with the number of sectors from Start on. Start is not above the last.
 */
static bool sum_exceeds_visible(const struct device *d, uint64_t start, uint64_t count)
{
    if (PLANTED(2))
        return start + count > d->visible;
    if (PLANTED(25))
        return count > d->visible - 1 - start;
    return count > d->visible - start;
}

/*
 * "1 pattern, 2 sector; else 0001h". W-201: "Refuse when Start is above the
 * last user LBA, or when Count is not 0 and Start + Count exceeds the visible
 * size." "0002h keeps its place." Where Start is too large and Count is not 0, the
 * sum is too large as well: it is not "the sum alone".
 */
static struct refusal judge_fill(const struct device *d, const uint8_t *key)
{
    uint64_t last = d->visible - 1;
    uint64_t start = load64(key + KEY_START);
    uint64_t count = load64(key + KEY_COUNT);
    uint16_t function = word(key, 1);

    if (function != FILL_PATTERN && function != FILL_SECTOR)
        return refuse(BAD_FUNCTION, 1);
    if (start > (PLANTED(1) ? last + 1 : last))
        return refuse(BAD_RANGE, PLANTED(75) || (PLANTED(81) && count != 0) ? SUM_WORD : 2);
    if (count != 0 && sum_exceeds_visible(d, start, count))
        return refuse(BAD_RANGE, PLANTED(74) ? 2 : SUM_WORD);
    return accepted;
}

/*
 * "1 set, 2 return; else 0004h", "word 2 is 1 read or 2 write, else 0005h;
 * set: word 3 in 100 ms, 1 to 9 gives 0006h (read) or 0007h (write); 0 is off"
 */
static struct refusal judge_timer(const uint8_t *key)
{
    uint16_t function = word(key, 1);
    uint16_t which = word(key, 2);

    if (function != TIMER_SET && function != TIMER_RETURN)
        return refuse(BAD_TIMER_FUNCTION, 1);
    if (which != 1 && which != 2)
        return refuse(BAD_TIMER, 2);
    if (function == TIMER_SET && !timer_in_range(word(key, 3)))
        return refuse(which == 1 ? BAD_READ_TIMER : BAD_WRITE_TIMER, PLANTED(80) ? 2 : 3);
    return accepted;
}

/* "set only: word 3 invalid 000Eh, then word 4 other than 0 or 1 000Fh" */
static struct refusal judge_feature_set(int feature, const uint8_t *key)
{
    if (PLANTED(5) && word(key, 4) > 1)
        return refuse(BAD_OPTION, 4);
    if (!state_in_range(feature, word(key, 3)))
        return refuse(BAD_STATE, PLANTED(79) ? 4 : 3);
    if (word(key, 4) > 1)
        return refuse(BAD_OPTION, 4);
    return accepted;
}

/* "1 set, 2 state, 3 options; else 000Ch", "word 2 is 1 to 3, else 000Dh" */
static struct refusal judge_feature(const uint8_t *key)
{
    uint16_t function = word(key, 1);
    uint16_t feature = word(key, 2);

    if (function < FEATURE_SET || function > FEATURE_OPTIONS)
        return refuse(BAD_FEATURE_FUNCTION, 1);
    if (feature < 1 || feature > FEATURES)
        return refuse(BAD_FEATURE, 2);
    return function == FEATURE_SET ? judge_feature_set(feature - 1, key) : accepted;
}

/* "1; else 0001h", "word 2 is 2, else 0011h" */
static struct refusal judge_table(const uint8_t *key)
{
    if (word(key, 1) != 1)
        return refuse(BAD_FUNCTION, 1);
    return word(key, 2) == 2 ? accepted : refuse(BAD_TABLE, 2);
}

/* "any, locked: 0012h", "not 2 to 5: 0010h"; W-202: "01's check on actions becomes 1 to 5". */
static struct refusal judge_key(const struct device *d, const uint8_t *key)
{
    if (d->locked)
        return refuse(LOCKED, PLANTED(78) ? 0 : LOCK_WORD);
    switch (word(key, 0)) {
    case LONG:    return judge_long(d, key);
    case FILL:    return judge_fill(d, key);
    case TIMER:   return judge_timer(key);
    case FEATURE: return judge_feature(key);
    case TABLE:   return judge_table(key);
    default:      return refuse(BAD_ACTION, 0);
    }
}

static struct reply accept_long(struct port *port, const uint8_t *key)
{
    port->pending = word(key, 1) == LONG_READ ? SEND_LONG : RECEIVE_LONG;
    port->first = narrowed(PLANTED(99), 16, load64(key + KEY_LBA));
    return good_with_long_transfer();
}

/*
 * "Count 0 means up to the last user LBA." "Pattern fill starts at once: bytes
 * 20-23 repeated 128 times." Function 2 waits for its sector.
 */
static struct reply accept_fill(struct service *s)
{
    const uint8_t *key = s->sector;
    uint64_t start = load64(key + KEY_START);
    uint64_t count = load64(key + KEY_COUNT);
    uint64_t end = count == 0 ? s->device->visible : start + count;

    if (word(key, 1) == FILL_SECTOR) {
        s->port->pending = RECEIVE_FILL_SECTOR;
        s->port->first = narrowed(PLANTED(98), 16, start);
        s->port->end = end;
        return good_with_transfer();
    }
    for (unsigned i = 0; i < SCT_SECTOR_BYTES; i += PATTERN_BYTES)
        memcpy(s->fill_sector + i, key + KEY_PATTERN, PATTERN_BYTES);
    start_fill(s->device, start, narrowed(PLANTED(97), 24, end));
    return good(0);
}

static struct reply accept_timer(struct device *d, const uint8_t *key)
{
    uint16_t *timer = &d->timer[word(key, 2) == 1 ? READ_TIMER : WRITE_TIMER];

    if (word(key, 1) == TIMER_RETURN)
        return good(*timer);
    *timer = word(key, 3);
    if (PLANTED(51) && *timer == 0)
        *timer = DEFAULT_TIMER;
    return good(0);
}

/*
 * "The value asked for by timers 2 and feature 2 or 3 (the mark, 0 or 1)
 * stands in Sector Count (low) and LBA Low (high)". "Any set of feature 3
 * empties the temperature history."
 */
static struct reply accept_feature(struct service *s)
{
    const uint8_t *key = s->sector;
    struct device *d = s->device;
    int feature = word(key, 2) - 1;

    if (word(key, 1) == FEATURE_STATE)
        return good(d->state[feature]);
    if (word(key, 1) == FEATURE_OPTIONS)
        return good(d->persistent[feature]);
    d->state[feature] = word(key, 3);
    if (PLANTED(21))
        d->persistent[feature] |= (uint8_t)word(key, 4);
    else
        d->persistent[feature] = (uint8_t)word(key, 4);
    if (feature == LOG_INTERVAL) {
        if (PLANTED(9))
            d->minutes = 0;
        else
            empty_history(d, s->table);
    }
    return good(0);
}

static struct reply accept_table(struct port *port)
{
    port->pending = SEND_TABLE;
    return good_with_transfer();
}

/* "A refused key stores its code." W-206: "The key reply carries it", the word, "in LBA Mid"; it is not stored. */
static struct reply refuse_key(struct device *d, struct refusal refusal)
{
    struct reply reply = sct_refused_stored(d, refusal.code);

    reply.mid = refusal.word;
    return reply;
}

/*
 * "Words 0 and 1 are action and function; both are recorded from every key,
 * accepted or not." "An accepted key stores 0000h, a pattern fill FFFFh."
 */
static struct reply serve_key(struct service *s)
{
    struct device *d = s->device;
    const uint8_t *key = s->sector;
    struct refusal refusal = judge_key(d, key);

    d->action = word(key, 0);
    d->function = word(key, 1);
    if (PLANTED(82) ? refusal.word != 0 : refusal.code != 0)
        return refuse_key(d, refusal);
    d->code = CODE_DONE;
    switch (d->action) {
    case LONG:    return accept_long(s->port, key);
    case FILL:    return accept_fill(s);
    case TIMER:   return accept_timer(d, key);
    case FEATURE: return accept_feature(s);
    default:      return accept_table(s->port);
    }
}

/* ======================================================================== */
/* Status, data transfers, single sectors                                   */
/* ======================================================================== */

/*
 * "Table 11 of document 001: format 0002h; version 0001h at 2; spec 0001h at
 * 4; flag bit 0 at 6; state at 10 (0, or 5 with a fill); code 14; action 16;
 * function 18; LBA 40-47 the next sector, 0 with no fill; temperatures at 200
 * (now), 202 (this power cycle), 204 (life). All else 0."
 */
static void write_status(uint8_t *sector, const struct device *d)
{
    uint8_t held = sector[12];

    memset(sector, 0, SCT_SECTOR_BYTES);
    if (PLANTED(73))
        sector[12] = held;
    store16(sector, 2);
    store16(sector + 2, 1);
    store16(sector + 4, 1);
    sector[6] = d->initialized;
    sector[10] = d->filling ? 5 : 0;
    store16(sector + 14, d->code);
    store16(sector + 16, d->action);
    store16(sector + 18, d->function);
    store64(sector + 40, narrowed(PLANTED(103), 16, d->next));
    sector[200] = d->now;
    sector[202] = d->cycle_maximum;
    sector[204] = d->life_maximum;
}

/* Gives a word to a refusal by the lock that is not a key's. */
static struct reply planted_word(bool planted, struct reply reply)
{
    if (planted && reply.value == LOCKED)
        reply.mid = LOCK_WORD;
    return reply;
}

/* "A refused status read under the lock answers 0012h and stores nothing." It is no key, and names no word. */
static struct reply serve_status(struct service *s)
{
    if (s->device->locked)
        return planted_word(PLANTED(77), sct_refused(LOCKED));
    write_status(s->sector, s->device);
    return good_with_data(SCT_SECTOR_BYTES);
}

/* "A table is sent as it stands at the E1h read." */
static struct reply send_table(struct service *s)
{
    /* The fields of the table that the struct holds have not changed. */
    memcpy(s->sector, s->table, SCT_SECTOR_BYTES);
    return good_with_data(SCT_SECTOR_BYTES);
}

static struct reply receive_fill_sector(struct service *s)
{
    memcpy(s->fill_sector, s->sector, SCT_SECTOR_BYTES);
    start_fill(s->device, s->before.first, s->before.end);
    return good(0);
}

/*
 * W-202: "Read Long sends the two check bytes as stored, zeros behind". Error
 * 40h is a sector read's alone.
 */
static struct reply send_long(struct service *s)
{
    uint64_t lba = s->before.first;

    if (PLANTED(42) && check_differs(s->disk, lba))
        return refused(UNCORRECTABLE);
    memcpy(s->sector, sector_at(s->disk, lba), SCT_SECTOR_BYTES);
    memcpy(s->long_check, check_at(s->disk, lba), SCT_CHECK_BYTES);
    if (PLANTED(45))
        store16(s->long_check, check_of(s->sector));
    return good_with_data(SCT_SECTOR_BYTES + SCT_CHECK_BYTES);
}

/*
 * W-202: "Write Long stores what it is sent, without judging it"; "bytes behind
 * them", the check bytes, "are ignored on Write Long".
 */
static struct reply receive_long(struct service *s)
{
    uint16_t check = load16(s->long_check);
    uint8_t flag = s->device->initialized;

    if (PLANTED(40))
        check = check_of(s->sector);
    if (PLANTED(47))
        check &= 0x1FFF;
    write_sector(s->device, s->disk, s->before.first, s->sector, check);
    if (PLANTED(44))
        s->device->initialized = flag;
    return good(0);
}

/* Keeps what a refused E1h should have dropped. */
static void planted_keep(struct service *s)
{
    if (PLANTED(4))
        *s->port = s->before;
}

/*
 * The E1h that each transfer wants. W-202: "A long transfer is two sectors
 * [..]; E1h wants count 2 for it and 1 for the others."
 */
static const struct { enum kind kind; uint16_t count; } wanted_by[TRANSFERS] = {
    [NO_TRANSFER]         = { NO_SUCH_REQUEST, 0 },
    [SEND_TABLE]          = { DATA_READ, 1 },
    [RECEIVE_FILL_SECTOR] = { DATA_WRITE, 1 },
    [SEND_LONG]           = { DATA_READ, 2 },
    [RECEIVE_LONG]        = { DATA_WRITE, 2 }
};

/* "lock 0012h; no owed transfer of this port and direction 000Bh; count not 1 0003h." */
static uint16_t judge_transfer(const struct service *s, const struct request *r)
{
    unsigned pending = s->before.pending;

    if (s->device->locked)
        return LOCKED;
    if (wanted_by[pending].kind != r->kind)
        return NO_TRANSFER_PENDING;
    if (wanted_by[pending].count != r->count && !(PLANTED(39) && r->count == 1))
        return BAD_TRANSFER_COUNT;
    return 0;
}

/*
 * "E1h is judged: [..]. Each becomes the stored code. [..] A completed transfer
 * stores 0000h, or FFFFh where it starts a fill." The transfer has been dropped
 * by now in every case: "an E1h request judges that owed transfer as it was
 * before". W-206: "E1h replies keep 0" in LBA Mid.
 */
static struct reply serve_transfer(struct service *s, const struct request *r)
{
    uint16_t code = judge_transfer(s, r);

    if (code != 0) {
        planted_keep(s);
        return planted_word(PLANTED(76), sct_refused_stored(s->device, code));
    }
    s->device->code = CODE_DONE;
    switch (s->before.pending) {
    case SEND_TABLE:          return send_table(s);
    case RECEIVE_FILL_SECTOR: return receive_fill_sector(s);
    case SEND_LONG:           return send_long(s);
    default:                  return receive_long(s);
    }
}

/*
 * "Count (16 bits) other than 1: Error 04h. LBA at or above V: Error 10h.
 * Locked: Error 04h, before both." W-202: "a read of a sector whose check
 * differs has Error 40h, after the range check".
 */
static uint8_t judge_sector(const struct service *s, const struct request *r)
{
    const struct device *d = s->device;
    bool read = r->kind == SECTOR_READ;

    if (d->locked || r->count != 1)
        return ABORTED;
    if (PLANTED(29) && read && r->lba < d->native && check_differs(s->disk, r->lba))
        return UNCORRECTABLE;
    if (r->lba >= d->visible)
        return ID_NOT_FOUND;
    return read && check_differs(s->disk, r->lba) ? UNCORRECTABLE : 0;
}

static struct reply serve_sector(struct service *s, const struct request *r)
{
    uint8_t error = judge_sector(s, r);
    uint8_t flag = s->device->initialized;

    if (error != 0)
        return refused(error);
    if (r->kind == SECTOR_READ) {
        memcpy(s->sector, sector_at(s->disk, r->lba), SCT_SECTOR_BYTES);
        return good_with_data(SCT_SECTOR_BYTES);
    }
    write_sector(s->device, s->disk, r->lba, s->sector,
                 PLANTED(26) ? load16(check_at(s->disk, r->lba)) : check_of(s->sector));
    if (PLANTED(8))
        s->device->initialized = flag;
    return good(0);
}

static struct reply carry_out(struct service *s, const struct request *r)
{
    switch (r->kind) {
    case STATUS_READ:  return serve_status(s);
    case KEY_WRITE:    return serve_key(s);
    case DATA_READ:
    case DATA_WRITE:   return serve_transfer(s, r);
    case SECTOR_READ:
    case SECTOR_WRITE: return serve_sector(s, r);
    default:           return refused(ABORTED);
    }
}

/* The pending transfer that an E1h of this port is judged by. */
static struct port pending_before(const struct device *d, uint32_t port)
{
    if (PLANTED(7))
        for (unsigned p = 0; p < SCT_PORTS; p++)
            if (d->port[p].pending != NO_TRANSFER)
                return d->port[p];
    return d->port[port];
}

#if PLANTED(13)
static const uint8_t *planted_mailbox[SCT_PORTS];

static void planted_fetch_again(uint32_t port, uint8_t *sector)
{
    memcpy(sector + KEY_COUNT, planted_mailbox[port] + SCT_REGISTER_BYTES + KEY_COUNT, 8);
}
#endif

/* Serves the request in the port's slot and leaves the reply there. */
static void serve_slot(struct device *d, uint8_t *record, uint32_t port, uint8_t *area, struct disk disk)
{
    struct service s;
    struct request r;

    s.device = d;
    s.table = record + AT_TABLE;
    s.slot = SLOT(area, port);
    s.sector = s.slot + SCT_REGISTER_BYTES;
    s.long_check = s.sector + SCT_SECTOR_BYTES;
    s.fill_sector = FILL_SECTOR(area);
    s.disk = disk;
    s.port = &d->port[port];
    s.before = pending_before(d, port);
#if PLANTED(13)
    planted_fetch_again(port, s.sector);
#endif
    r = read_registers(s.slot);
    if (r.kind != STATUS_READ || PLANTED(14))
        stop_and_drop(d);
    write_reply(s.slot, carry_out(&s, &r));
}

/* ======================================================================== */
/* Repair (W-202)                                                           */
/* ======================================================================== */

/* The reports. */
enum { CHECK_EQUAL, BIT_FLIPPED, NOT_REPAIRED };

/* "bit 12 differs, 13 to 15 don't" */
static bool shows_one_bit(uint16_t difference)
{
    if (PLANTED(36) && difference == 0x1000)
        return false;
    return (difference & (PLANTED(35) ? 0x1000 : 0xF000)) == 0x1000;
}

/*
 * "An owner step reports 0 (check equal), 1 (bit 12 differs, 13 to 15 don't: it
 * flips the data bit at the differing position) or 2 (else); only 1 alters a
 * sector, and it clears the flag."
 */
static uint32_t repair_sector(struct device *d, uint8_t *sector, uint16_t difference)
{
    unsigned position = difference & 0xFFF;

    if (difference == 0)
        return CHECK_EQUAL;
    if (!shows_one_bit(difference))
        return NOT_REPAIRED;
    sector[position / 8] ^= (uint8_t)(1u << position % 8);
    if (!PLANTED(33))
        d->initialized = 0;
    return BIT_FLIPPED;
}

/* ======================================================================== */
/* Saved images                                                             */
/* ======================================================================== */

/*
 * "Entries of 560 bytes: 544 of body, a 16-byte trailer at the end. Body: N at
 * 0 and V at 8 (8 bytes each), flag 16, life maximum 17, features 1 to 3 at
 * 18, 20, 22, kept marks in bits 0 to 2 of byte 24, zeros to 31, then the
 * temperature table." W-204: "byte 25 is 2 and bytes 26 to 29 hold the read and
 * write timers"; what is then left of the zeros is 30 and 31.
 */
enum {
    BODY_NATIVE = 0, BODY_VISIBLE = 8, BODY_FLAG = 16, BODY_LIFE = 17, BODY_STATES = 18,
    BODY_PERSISTENT = 24, BODY_FORM = 25, BODY_TIMERS = 26, BODY_ZEROS = 30, BODY_TABLE = 32, BODY_BYTES = 544
};

/* W-204, byte 25: "Form 1 has byte 25 = 0", form 2: "byte 25 is 2". */
enum { FORM_1_BYTE = 0, FORM_2_BYTE = 2 };

/*
 * "Trailer: 544, the place of the previous trailer (FFFFFFFFh for the first),
 * the entry number from 1 (4 bytes each), then the letters SCTE."
 */
enum { TRAILER_BODY = 0, TRAILER_PREVIOUS = 4, TRAILER_NUMBER = 8, TRAILER_LETTERS = 12, TRAILER_BYTES = 16 };

/* "Trailer k stands at 560k - 16." */
static uint32_t trailer_place(uint32_t number)
{
    return SCT_ENTRY_BYTES * number - TRAILER_BYTES;
}

static uint32_t previous_place(uint32_t number)
{
    return number == 1 ? 0xFFFFFFFFu : trailer_place(number - 1);
}

static void read_states(uint16_t state[FEATURES], const uint8_t *body)
{
    for (int f = 0; f < FEATURES; f++)
        state[f] = load16(body + BODY_STATES + 2 * f);
}

/* SCT_FORM_1, SCT_FORM_2, or 0: no form has this byte 25. */
static uint32_t form_of(const uint8_t *body)
{
    if (body[BODY_FORM] == FORM_1_BYTE)
        return SCT_FORM_1;
    return body[BODY_FORM] == FORM_2_BYTE || (PLANTED(54) && body[BODY_FORM] == 3) ? SCT_FORM_2 : 0;
}

/* W-204: "Form 1 [..] means 70 and 70." */
static void read_timers(uint16_t timer[TIMERS], const uint8_t *body)
{
    for (int t = 0; t < TIMERS; t++)
        timer[t] = form_of(body) == SCT_FORM_1 ? DEFAULT_TIMER : load16(body + BODY_TIMERS + 2 * t);
}

/* W-204: "form 1 leaves the timers out", whose bytes are zero then. */
static void write_timers(uint8_t *body, uint32_t form, const uint16_t timer[TIMERS])
{
    body[BODY_FORM] = form == SCT_FORM_1 ? FORM_1_BYTE : FORM_2_BYTE;
    for (int t = 0; t < TIMERS; t++)
        store16(body + BODY_TIMERS + 2 * t, form == SCT_FORM_1 ? 0 : timer[t]);
}

/* W-204: "A saved timer of 1 to 9 is out of range." */
static bool saved_timer_in_range(uint16_t timer)
{
    return timer_in_range(timer) || (PLANTED(53) && timer == 9);
}

/* Bytes 25 to 29: one of the two forms, and its timers or the zeros in their place. */
static bool form_holds(const uint8_t *body)
{
    uint16_t timer[TIMERS];

    read_timers(timer, body);
    switch (form_of(body)) {
    case SCT_FORM_1: return all_zero(body + BODY_TIMERS, BODY_ZEROS - BODY_TIMERS) || PLANTED(69);
    case SCT_FORM_2: return saved_timer_in_range(timer[READ_TIMER]) && saved_timer_in_range(timer[WRITE_TIMER]);
    default:         return false;
    }
}

/*
 * "values in range, zeros zero, table interval equal to feature 3". W-207: "a
 * handler of the old limit answers 6 to an entry above 65,536, and an entry at
 * or below it is the same bytes in both."
 */
static bool body_holds(const uint8_t *body)
{
    uint16_t state[FEATURES];

    read_states(state, body);
    return sizes_in_range(load64(body + BODY_NATIVE), load64(body + BODY_VISIBLE), native_limit(PLANTED(83))) &&
           body[BODY_FLAG] <= 1 &&
           states_in_range(state) &&
           body[BODY_PERSISTENT] < 1u << FEATURES &&
           form_holds(body) &&
           (all_zero(body + BODY_ZEROS, BODY_TABLE - BODY_ZEROS) || PLANTED(68)) &&
           table_holds(body + BODY_TABLE) &&
           load16(body + BODY_TABLE + TABLE_INTERVAL) == state[LOG_INTERVAL];
}

static bool trailer_holds(const uint8_t *trailer, uint32_t number)
{
    return load32(trailer + TRAILER_BODY) == BODY_BYTES &&
           load32(trailer + TRAILER_PREVIOUS) == previous_place(number) &&
           load32(trailer + TRAILER_NUMBER) == number &&
           memcmp(trailer + TRAILER_LETTERS, "SCTE", 4) == 0;
}

/*
 * "Reading starts at the last trailer and follows the chain back; every entry
 * must hold". The places that a chain may name are fixed, so each entry's
 * trailer is looked for where the chain must lead.
 */
static bool chain_holds(const uint8_t *image, uint32_t entries)
{
    const uint8_t *newest = image + SCT_ENTRY_BYTES * (entries - 1);

    for (uint32_t number = entries; number >= 1; number--) {
        const uint8_t *body = image + SCT_ENTRY_BYTES * (number - 1);

        if (!trailer_holds(body + BODY_BYTES, number) || !body_holds(body))
            return false;
        /* "all entries have the same N" */
        if (load64(body + BODY_NATIVE) != load64(newest + BODY_NATIVE))
            return false;
        /* W-204: "A chain may not mix forms"; "a mixed chain is answer 6". */
        if (form_of(body) != form_of(newest) && !PLANTED(55))
            return false;
        if (PLANTED(17))
            break;
    }
    return true;
}

/* "The used length is a multiple of 560, at most 65,520". Length 0 is readable. */
static bool image_readable(const uint8_t *image, uint64_t used)
{
    if (used > SCT_IMAGE_LIMIT || used % SCT_ENTRY_BYTES != 0)
        return false;
    return used == 0 || chain_holds(image, (uint32_t)(used / SCT_ENTRY_BYTES));
}

/* The newest entry, or NULL if there is none. Only for readable images. */
static const uint8_t *newest_entry(const uint8_t *image, uint64_t used)
{
    return used == 0 ? NULL : image + (used - SCT_ENTRY_BYTES);
}

/* 6 or 7, or 0. */
static uint32_t judge_image(const uint8_t *image, uint64_t used, uint64_t native)
{
    const uint8_t *newest;

    if (!image_readable(image, used))
        return SCT_BAD_IMAGE;
    newest = newest_entry(image, used);
    if (newest != NULL && load64(newest + BODY_NATIVE) != native)
        return SCT_OTHER_DISK;
    return SCT_DONE;
}

/*
 * W-204: "a save keeps the form of the chain it extends (form 1 leaves the
 * timers out), and an empty image starts with form 2."
 */
static uint32_t form_to_save(const uint8_t *newest)
{
    if (newest == NULL)
        return PLANTED(58) ? SCT_FORM_1 : SCT_FORM_2;
    return PLANTED(59) ? SCT_FORM_2 : form_of(newest);
}

/* The timers that a save writes. */
static void timers_to_save(uint16_t timer[TIMERS], const struct device *d)
{
    for (int t = 0; t < TIMERS; t++) {
        timer[t] = d->timer[PLANTED(52) ? TIMERS - 1 - t : t];
        if (PLANTED(72) && timer[t] == 0)
            timer[t] = DEFAULT_TIMER;
    }
}

static void write_body(uint8_t *body, const struct device *d, const uint8_t *table, uint32_t form)
{
    uint16_t timer[TIMERS];

    timers_to_save(timer, d);
    store64(body + BODY_NATIVE, d->native);
    store64(body + BODY_VISIBLE, narrowed(PLANTED(95), 24, d->visible));
    body[BODY_FLAG] = d->initialized;
    body[BODY_LIFE] = d->life_maximum;
    body[BODY_PERSISTENT] = 0;
    for (int f = 0; f < FEATURES; f++) {
        store16(body + BODY_STATES + 2 * f, d->state[f]);
        body[BODY_PERSISTENT] |= (uint8_t)(d->persistent[f] << f);
    }
    write_timers(body, form, timer);
    memset(body + BODY_ZEROS, 0, BODY_TABLE - BODY_ZEROS);
    memcpy(body + BODY_TABLE, table, SCT_SECTOR_BYTES);
}

static void write_trailer(uint8_t *trailer, uint32_t number)
{
    uint32_t previous = previous_place(number);

    if (PLANTED(11) && number > 1)
        previous += TRAILER_BYTES;
    store32(trailer + TRAILER_BODY, BODY_BYTES);
    store32(trailer + TRAILER_PREVIOUS, previous);
    store32(trailer + TRAILER_NUMBER, number);
    memcpy(trailer + TRAILER_LETTERS, "SCTE", 4);
}

/* ======================================================================== */
/* The other form (W-204)                                                   */
/* ======================================================================== */

/*
 * "going back from timers other than 70 and 70 is answer 9": those of any entry,
 * for the whole image goes back.
 */
static bool timers_allow_form_1(const uint8_t *image, uint64_t used)
{
    uint16_t timer[TIMERS];

    for (uint64_t left = used / SCT_ENTRY_BYTES; left >= 1; left--) {
        read_timers(timer, image + SCT_ENTRY_BYTES * (left - 1));
        if (timer[READ_TIMER] != DEFAULT_TIMER || (timer[WRITE_TIMER] != DEFAULT_TIMER && !PLANTED(57)))
            return false;
        if (PLANTED(56))
            break;
    }
    return true;
}

/* "An image already of the form asked for stays": its timers are written as they were. */
static void convert_body(uint8_t *body, uint32_t form)
{
    bool had_timers = form_of(body) == SCT_FORM_2;
    uint16_t timer[TIMERS];

    if (PLANTED(67) && form == SCT_FORM_1) {
        body[BODY_FORM] = FORM_1_BYTE;
        return;
    }
    read_timers(timer, body);
    if (PLANTED(62) && !had_timers)
        timer[READ_TIMER] = timer[WRITE_TIMER] = 0;
    if (PLANTED(65) && had_timers)
        timer[READ_TIMER] = timer[WRITE_TIMER] = DEFAULT_TIMER;
    write_timers(body, form, timer);
}

/* ======================================================================== */
/* Power-on                                                                 */
/* ======================================================================== */

/*
 * "Power-on from length 0 gives V = N, no flag, missing temperatures,
 * defaults, empty history". "Unlocked, no fill, nothing owed, slots empty,
 * code, action and function 0".
 */
static void start_afresh(struct device *d, uint8_t *table, uint64_t native)
{
    memset(d, 0, sizeof *d);
    d->native = d->visible = native;
    d->now = d->cycle_maximum = d->life_maximum = MISSING;
    for (int t = 0; t < TIMERS; t++)
        d->timer[t] = PLANTED(49) ? 0 : DEFAULT_TIMER;
    for (int f = 0; f < FEATURES; f++)
        d->state[f] = DEFAULT_STATE;
    write_table_constants(table);
    empty_history(d, table);
}

/* "The history is kept if the interval after power-on equals the saved one". */
static void restore_history(struct device *d, uint8_t *table, const uint8_t *saved)
{
    if (d->state[LOG_INTERVAL] != load16(saved + TABLE_INTERVAL) && !PLANTED(10))
        return;
    memcpy(table + TABLE_HISTORY, saved + TABLE_HISTORY, HISTORY_SIZE);
    d->index = load16(saved + TABLE_INDEX);
}

/*
 * "otherwise the newest entry, with "now" and this cycle's maximum missing."
 * "Option 1 keeps a state over power; other states return to 1." "The flag is
 * believed as saved." W-204: "the read and write timers, which power-on then
 * restores".
 */
static void restore(struct device *d, uint8_t *table, const uint8_t *body)
{
    uint16_t state[FEATURES];

    d->visible = load64(body + BODY_VISIBLE);
    d->initialized = body[BODY_FLAG];
    d->life_maximum = body[BODY_LIFE];
    read_states(state, body);
    for (int f = 0; f < FEATURES; f++) {
        d->persistent[f] = body[BODY_PERSISTENT] >> f & 1;
        if (d->persistent[f])
            d->state[f] = state[f];
    }
    if (!PLANTED(61))
        read_timers(d->timer, body);
    if (PLANTED(50))
        d->timer[WRITE_TIMER] = 0;
    restore_history(d, table, body + BODY_TABLE);
}

/* "a lent run of 1 to 65,536 sectors of 512 bytes". W-207: "Sound records and answer 2 take the new limit". */
static bool disk_length_possible(size_t length)
{
    uint64_t sectors = length / SCT_SECTOR_BYTES;

    return length % SCT_SECTOR_BYTES == 0 && 1 <= sectors && sectors <= native_limit(PLANTED(84));
}

/* W-202: "a check area of wrong length is answer 2". */
static bool disk_lengths_right(const struct device *d, size_t disk_length, size_t check_area_length)
{
    uint64_t length = narrowed(PLANTED(92), 32, d->native * SCT_SECTOR_BYTES);

    return narrowed(PLANTED(92), 32, disk_length) == length && check_area_length == d->native * SCT_CHECK_BYTES;
}

/* ======================================================================== */
/* The entries                                                              */
/* ======================================================================== */

/*
 * "Order where several apply: 4, 2, 1, 5, 3, 6, 7, 8." W-204: "answer 9, after
 * 6". "A nonzero answer changes nothing anywhere; work then reports 0."
 */

/* The answers 1 and 3 of take, serve and give. */
static uint32_t judge_port(const struct device *d, uint32_t port, enum stage needed)
{
    if (port >= SCT_PORTS)
        return SCT_BAD_PORT;
    return d->port[port].stage == needed ? SCT_DONE : SCT_BAD_STAGE;
}

/* "copies the mailbox into the port's slot. Slot goes from empty to held." */
uint32_t REF(take)(uint8_t *device, size_t device_length, uint32_t port,
                   const uint8_t *mailbox, size_t mailbox_length,
                   uint8_t *area, size_t area_length)
{
    struct device d;
    uint32_t answer;

    if (!open_record(&d, device, device_length))
        return SCT_BAD_RECORD;
    if (PLANTED(18) && port >= SCT_PORTS)
        return SCT_BAD_PORT;
    if (mailbox_length != SCT_MAILBOX_BYTES || area_length != SCT_PRIVATE_BYTES)
        return SCT_BAD_LENGTH;
    answer = judge_port(&d, port, EMPTY);
    if (answer != SCT_DONE)
        return answer;
    memcpy(SLOT(area, port), mailbox, SCT_MAILBOX_BYTES);
#if PLANTED(13)
    planted_mailbox[port] = mailbox;
#endif
    d.port[port].stage = HELD;
    write_device(device, &d);
    return SCT_DONE;
}

/* "answers the held request from the slot alone and leaves the reply in the slot." */
uint32_t REF(serve)(uint8_t *device, size_t device_length, uint32_t port,
                    uint8_t *area, size_t area_length,
                    uint8_t *disk, size_t disk_length,
                    uint8_t *check_area, size_t check_area_length)
{
    struct device d;
    uint32_t answer;

    if (!open_record(&d, device, device_length))
        return SCT_BAD_RECORD;
    if (area_length != SCT_PRIVATE_BYTES || !disk_lengths_right(&d, disk_length, check_area_length))
        return SCT_BAD_LENGTH;
    answer = judge_port(&d, port, HELD);
    if (answer != SCT_DONE)
        return answer;
    serve_slot(&d, device, port, area, (struct disk){ disk, check_area });
    d.port[port].stage = ANSWERED;
    write_device(device, &d);
    return SCT_DONE;
}

/* "writes all 528 reply bytes to the mailbox", by W-202 1,040. "Answered to empty; the slot's bytes stay." */
uint32_t REF(give)(uint8_t *device, size_t device_length, uint32_t port,
                   uint8_t *mailbox, size_t mailbox_length,
                   const uint8_t *area, size_t area_length)
{
    struct device d;
    uint32_t answer;

    if (!open_record(&d, device, device_length))
        return SCT_BAD_RECORD;
    if (mailbox_length != SCT_MAILBOX_BYTES || area_length != SCT_PRIVATE_BYTES)
        return SCT_BAD_LENGTH;
    answer = judge_port(&d, port, ANSWERED);
    if (answer != SCT_DONE)
        return answer;
    memcpy(mailbox, SLOT(area, port), SCT_MAILBOX_BYTES);
    d.port[port].stage = EMPTY;
    write_device(device, &d);
    return SCT_DONE;
}

/*
 * "writes the next sectors of a running fill, as many as n and what is left
 * allow, and reports how many it wrote. None running, or n = 0: reports 0."
 */
uint64_t REF(work)(uint8_t *device, size_t device_length,
                   const uint8_t *area, size_t area_length,
                   uint8_t *disk, size_t disk_length,
                   uint8_t *check_area, size_t check_area_length, uint32_t n)
{
    struct device d;
    uint32_t sectors;

    if (!open_record(&d, device, device_length))
        return (uint64_t)SCT_BAD_RECORD << 32;
    if (area_length != SCT_PRIVATE_BYTES || !disk_lengths_right(&d, disk_length, check_area_length))
        return (uint64_t)SCT_BAD_LENGTH << 32;
    sectors = advance_fill(&d, (struct disk){ disk, check_area }, FILL_SECTOR(area), n);
    if (PLANTED(12) && n == 0)
        sectors = 1;
    write_device(device, &d);
    return (uint64_t)SCT_DONE << 32 | narrowed(PLANTED(101), 16, sectors);
}

static uint32_t set_lock(uint8_t *device, size_t device_length, uint8_t locked)
{
    struct device d;

    if (!open_record(&d, device, device_length))
        return SCT_BAD_RECORD;
    stop_and_drop(&d);
    d.locked = locked;
    write_device(device, &d);
    return SCT_DONE;
}

uint32_t REF(lock)(uint8_t *device, size_t device_length)
{
    return set_lock(device, device_length, 1);
}

uint32_t REF(unlock)(uint8_t *device, size_t device_length)
{
    return set_lock(device, device_length, 0);
}

/* The flag "is cleared [..] by a changed V". */
uint32_t REF(set_visible)(uint8_t *device, size_t device_length, uint64_t v)
{
    struct device d;

    if (!open_record(&d, device, device_length))
        return SCT_BAD_RECORD;
    if (v < 1 || v > d.native)
        return SCT_BAD_VALUE;
    if (!PLANTED(6))
        stop_and_drop(&d);
    if (v != d.visible)
        d.initialized = 0;
    d.visible = narrowed(PLANTED(94), 24, v);
    write_device(device, &d);
    return SCT_DONE;
}

uint32_t REF(sample)(uint8_t *device, size_t device_length, uint8_t reading)
{
    struct device d;

    if (!open_record(&d, device, device_length))
        return SCT_BAD_RECORD;
    take_sample(&d, device + AT_TABLE, reading);
    write_device(device, &d);
    return SCT_DONE;
}

/* Stops what a refused repair should leave. */
static void planted_stop(uint8_t *device, struct device *d)
{
    if (!PLANTED(38))
        return;
    stop_and_drop(d);
    write_device(device, d);
}

/*
 * W-202: "The step first stops a fill and drops an owed transfer, as setting V
 * does." "mending at or above V is answer 5, and a refused mending reports 0".
 */
uint64_t REF(repair)(uint8_t *device, size_t device_length,
                     uint8_t *disk, size_t disk_length,
                     const uint8_t *check_area, size_t check_area_length, uint64_t lba)
{
    struct device d;
    uint8_t *sector;
    uint16_t difference;
    uint32_t report;

    if (!open_record(&d, device, device_length))
        return (uint64_t)SCT_BAD_RECORD << 32;
    if (!disk_lengths_right(&d, disk_length, check_area_length))
        return (uint64_t)SCT_BAD_LENGTH << 32;
    if (lba >= (PLANTED(34) ? d.native : d.visible)) {
        planted_stop(device, &d);
        return (uint64_t)SCT_BAD_VALUE << 32;
    }
    sector = disk + narrowed(PLANTED(91), 32, lba * SCT_SECTOR_BYTES);
    difference = check_difference(sector, check_area + lba * SCT_CHECK_BYTES);
    if (!PLANTED(32) && !(PLANTED(37) && difference == 0))
        stop_and_drop(&d);
    report = repair_sector(&d, sector, difference);
    write_device(device, &d);
    return (uint64_t)SCT_DONE << 32 | report;
}

/* "image has 117 entries, or its buffer lacks 560 more bytes" */
static bool image_full(size_t image_length, uint64_t used)
{
    return used == SCT_IMAGE_LIMIT || image_length - used < SCT_ENTRY_BYTES;
}

/* "A save adds one entry behind the used length; other bytes stay." */
uint32_t REF(save)(const uint8_t *device, size_t device_length,
                   uint8_t *image, size_t image_length, uint64_t used)
{
    struct device d;
    uint32_t answer;
    uint8_t *entry;

    if (!open_record(&d, device, device_length))
        return SCT_BAD_RECORD;
    if (used > image_length)
        return SCT_BAD_LENGTH;
    answer = judge_image(image, used, d.native);
    if (PLANTED(22) && answer == SCT_OTHER_DISK && image_full(image_length, used))
        return SCT_IMAGE_FULL;
    if (answer != SCT_DONE)
        return answer;
    if (image_full(image_length, used))
        return SCT_IMAGE_FULL;
    entry = image + used;
    write_body(entry, &d, device + AT_TABLE, form_to_save(newest_entry(image, used)));
    write_trailer(entry + BODY_BYTES, (uint32_t)(used / SCT_ENTRY_BYTES) + 1);
    return SCT_DONE;
}

/* "private area all zeros" */
uint32_t REF(power_on)(uint8_t *device, size_t device_length,
                       uint8_t *area, size_t area_length,
                       const uint8_t *disk, size_t disk_length,
                       const uint8_t *check_area, size_t check_area_length,
                       const uint8_t *image, size_t image_length, uint64_t used)
{
    struct device d;
    uint64_t native = narrowed(PLANTED(93), 32, disk_length) / SCT_SECTOR_BYTES;
    const uint8_t *newest;
    uint32_t answer;

    (void)disk;             /* both are passed for their lengths */
    (void)check_area;
    if (device_length != SCT_RECORD_BYTES || area_length != SCT_PRIVATE_BYTES ||
        !disk_length_possible(disk_length) || check_area_length != native * SCT_CHECK_BYTES ||
        used > image_length)
        return SCT_BAD_LENGTH;
    answer = judge_image(image, used, native);
    if (answer != SCT_DONE)
        return answer;
    newest = newest_entry(image, used);
    memset(device, 0, AT_TABLE);
    start_afresh(&d, device + AT_TABLE, native);
    if (newest != NULL)
        restore(&d, device + AT_TABLE, newest);
    if (PLANTED(60) && newest != NULL)
        read_timers(d.timer, image);
    write_device(device, &d);
    memset(area, 0, PLANTED(20) ? SCT_MAILBOX_BYTES * SCT_PORTS : SCT_PRIVATE_BYTES);
    return SCT_DONE;
}

/* W-204: "a form asked for other than 1 or 2 is answer 5". */
static bool form_known(uint32_t form)
{
    if (PLANTED(71))
        form &= 0xFF;
    return form == SCT_FORM_1 || form == SCT_FORM_2;
}

/* What a planted fault of convert answers too early, or 0. */
static uint32_t planted_answer(const uint8_t *image, uint64_t used, uint32_t form)
{
    if (PLANTED(63) && !image_readable(image, used))
        return SCT_BAD_IMAGE;
    if (PLANTED(70) && form == SCT_FORM_1 && !timers_allow_form_1(image, used))
        return SCT_OTHER_TIMERS;
    return SCT_DONE;
}

/* Whether convert leaves an image that it should judge. */
static bool planted_trust(const uint8_t *image, uint64_t used, uint32_t form)
{
    return PLANTED(64) && used >= SCT_ENTRY_BYTES && form_of(newest_entry(image, used)) == form;
}

/* W-204: "Convert a whole image from form 1 to form 2 and back; going there and back gives the same bytes." */
uint32_t REF(convert)(uint8_t *image, size_t image_length, uint64_t used, uint32_t form)
{
    uint32_t early;

    if (used > image_length)
        return SCT_BAD_LENGTH;
    early = planted_answer(image, used, form);
    if (early != SCT_DONE)
        return early;
    if (!form_known(form))
        return SCT_BAD_VALUE;
    if (planted_trust(image, used, form))
        return SCT_DONE;
    if (!image_readable(image, used))
        return SCT_BAD_IMAGE;
    if (form == SCT_FORM_1 && !timers_allow_form_1(image, used))
        return SCT_OTHER_TIMERS;
    for (uint64_t at = 0; at + (PLANTED(66) ? SCT_ENTRY_BYTES : 0) < used; at += SCT_ENTRY_BYTES)
        convert_body(image + at, form);
    return SCT_DONE;
}
