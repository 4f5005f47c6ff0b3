/*
 * input.c - inputs for `trace` (W-208), written to standard output.
 *
 *   input wide SITUATION                  every sequence of 4 records of 26, from a situation (0 to 7)
 *   input narrow SITUATION                every sequence of 6 records of 10
 *   input codes                           every command, every feature and every count, in each situation
 *   input edges                           durations at the edges of their 4 bytes, four in a row
 *   input sums                            durations whose sums are 2^32 to 2^48
 *   input random SEED RECORDS STRAY       random groups of records, then STRAY bytes
 *   input bytes SEED RECORDS              records of any bytes
 *
 * `trace` starts once for an input, so each sequence begins with records that
 * lead to its situation, wherever the one before it has ended.
 */
#include <stdio.h>
#include <stdlib.h>
#include <string.h>

#include "bytes.h"
#include "random.h"

#define LENGTH(array) (sizeof(array) / sizeof((array)[0]))

enum { RECORD_BYTES = 7 };

enum { READ = 0xC8, READ_EXT = 0x25, WRITE = 0xCA, WRITE_EXT = 0x35, FLUSH = 0xE7, FLUSH_EXT = 0xEA,
       IDENTIFY = 0xEC, READ_SECTORS = 0x24, SET = 0xEF, LIMIT = 0x20, CHOICE = 0x21, WRITE_CACHE = 0x02 };

struct record {
    uint8_t  command, feature, count;
    uint32_t duration;
};

static void put(uint8_t command, uint8_t feature, uint8_t count, uint32_t duration)
{
    uint8_t bytes[RECORD_BYTES] = { command, feature, count };

    put32(bytes + 3, duration);
    fwrite(bytes, 1, sizeof bytes, stdout);
}

static void put_record(struct record r)
{
    put(r.command, r.feature, r.count, r.duration);
}

/* ---- Situations ---------------------------------------------------------------------- */

enum { DISABLED, ARMED, RUNNING, EXPIRED, STATES, SITUATIONS = 2 * STATES };

/*
 * From anywhere to a situation: one of the four states, with abort or continue
 * chosen. The limit is 10 ms, of which a running timer has run 4.
 */
static void lead_to(unsigned situation)
{
    unsigned state = situation % STATES;

    put(SET, LIMIT, 1, 0);
    put(SET, CHOICE, situation / STATES, 0);
    if (state == DISABLED)
        put(SET, LIMIT, 0, 0);
    if (state >= RUNNING)
        put(READ, 0, 0, state == RUNNING ? 4 : 10);
}

/* ---- Sequences ------------------------------------------------------------------------ */

/* Limits of 10 and 20 ms; 4 + 6, 6 + 4, 4 + 6 + 10 and 9 + 11 reach them exactly. */
static const struct record wide[] = {
    { SET, LIMIT, 0, 0 }, { SET, LIMIT, 0, 10 }, { SET, LIMIT, 1, 0 }, { SET, LIMIT, 1, 6 },
    { SET, LIMIT, 2, 4 }, { SET, LIMIT, 2, 10 },
    { SET, CHOICE, 0, 0 }, { SET, CHOICE, 0, 6 }, { SET, CHOICE, 1, 0 }, { SET, CHOICE, 1, 4 },
    { SET, CHOICE, 2, 0 }, { SET, CHOICE, 2, 6 },
    { READ, 0, 0, 0 }, { WRITE, 0, 0, 4 }, { READ_EXT, 0, 0, 6 }, { WRITE_EXT, 0, 0, 9 }, { READ, 0, 0, 10 },
    { WRITE, 0, 0, 11 },
    { FLUSH, 0, 0, 0 }, { FLUSH_EXT, 0, 0, 4 }, { FLUSH, 0, 0, 6 }, { FLUSH_EXT, 0, 0, 10 },
    { IDENTIFY, 0, 0, 0 }, { READ_SECTORS, 0, 0, 4 }, { SET, WRITE_CACHE, 0, 6 }, { IDENTIFY, 0, 0, 10 },
};

static const struct record narrow[] = {
    { SET, LIMIT, 0, 6 }, { SET, LIMIT, 1, 4 }, { SET, LIMIT, 2, 6 }, { SET, CHOICE, 0, 4 }, { SET, CHOICE, 1, 6 },
    { WRITE, 0, 0, 4 }, { READ_EXT, 0, 0, 6 }, { FLUSH, 0, 0, 4 }, { FLUSH_EXT, 0, 0, 6 }, { IDENTIFY, 0, 0, 6 },
};

/* Every sequence of this length, and so every shorter one: that is the beginning of a longer. */
static void put_sequences(const struct record *letters, size_t count, unsigned length, unsigned situation)
{
    size_t all = 1;

    for (unsigned i = 0; i < length; i++)
        all *= count;
    for (size_t number = 0; number < all; number++) {
        size_t rest = number;

        lead_to(situation);
        for (unsigned i = 0; i < length; i++, rest /= count)
            put_record(letters[rest % count]);
    }
}

static void put_wide(const uint64_t *numbers)
{
    put_sequences(wide, LENGTH(wide), 4, (unsigned)(numbers[0] % SITUATIONS));
}

static void put_narrow(const uint64_t *numbers)
{
    put_sequences(narrow, LENGTH(narrow), 6, (unsigned)(numbers[0] % SITUATIONS));
}

/* ---- Every code ------------------------------------------------------------------------ */

/*
 * What has become of a timer with this limit, disabled, armed, running from 4
 * ms on or expired, and of the choice: reads and writes up to the limit; again
 * after a flush; and once more after the timer was disabled and armed.
 */
static void show(uint32_t limit)
{
    put(READ, 0, 0, 0);
    put(WRITE, 0, 0, 5);
    put(READ_EXT, 0, 0, 1);
    put(WRITE_EXT, 0, 0, limit - 7);
    put(READ, 0, 0, 1);
    put(FLUSH, 0, 0, 0);
    put(READ, 0, 0, limit - 1);
    put(WRITE, 0, 0, 1);
    put(SET, LIMIT, 0, 0);
    put(READ, 0, 0, 3);
    put(SET, LIMIT, 1, 0);
    put(WRITE, 0, 0, 10);
}

static void try_code(uint8_t command, uint8_t feature, uint8_t count)
{
    static const uint32_t durations[] = { 0, 6 };
    bool arms = command == SET && feature == LIMIT && count > 0;

    for (unsigned situation = 0; situation < SITUATIONS; situation++)
        for (size_t i = 0; i < LENGTH(durations); i++) {
            lead_to(situation);
            put(command, feature, count, durations[i]);
            show(arms ? 10u * count : 10);
        }
}

static void put_codes(const uint64_t *numbers)
{
    (void)numbers;
    for (unsigned code = 0; code < 256; code++) {
        for (uint8_t count = 0; count < 3; count++) {
            try_code((uint8_t)code, 0, count);
            try_code((uint8_t)code, LIMIT, count);
            try_code((uint8_t)code, CHOICE, count);
            try_code(SET, (uint8_t)code, count);
        }
        try_code(SET, LIMIT, (uint8_t)code);
        try_code(SET, CHOICE, (uint8_t)code);
    }
}

/* ---- Long durations --------------------------------------------------------------------- */

static const uint32_t edges[] = {
    0, 1, 9, 2549, 2550, 2551, 65535, 65536, 0x1000000, 0x80000000, 0xFFFFFFF6, 0xFFFFFFFF,
};

/* One of these durations, by a digit of the number. */
static uint32_t edge(size_t number, unsigned place)
{
    for (; place > 0; place--)
        number /= LENGTH(edges);
    return edges[number % LENGTH(edges)];
}

/*
 * A read that starts the timer, a command of each kind, then a read and a flush,
 * each with every one of these durations. Among their sums are some that would
 * be below the limit if they had 32 bits, such as that of 9 and 2^32 - 1.
 */
static void put_edges(const uint64_t *numbers)
{
    static const struct record commands[] = {
        { IDENTIFY, 0, 0, 0 }, { WRITE, 0, 0, 0 }, { FLUSH, 0, 0, 0 }, { SET, CHOICE, 1, 0 }, { SET, CHOICE, 2, 0 },
        { SET, LIMIT, 1, 0 }, { SET, LIMIT, 255, 0 },
    };
    const size_t count = LENGTH(edges), all = count * count * count * count;

    (void)numbers;
    for (size_t i = 0; i < LENGTH(commands); i++)
        for (size_t number = 0; number < 2 * all; number++) {
            struct record second = commands[i];

            second.duration = edge(number, 1);
            put(SET, LIMIT, number < all ? 1 : 255, edge(number, 0));
            put(READ, 0, 0, edge(number, 0));
            put_record(second);
            put(READ, 0, 0, edge(number, 2));
            put(FLUSH, 0, 0, edge(number, 3));
        }
}

/*
 * The timer has run 5 of 10 ms; then come 2^bits ms with one command. In a
 * sum of so many bits or fewer the time run would be 5 ms again.
 */
static void put_sum(struct record command, unsigned bits)
{
    uint32_t records = (uint32_t)1 << (bits - 32);

    put(SET, LIMIT, 1, 0);
    put(READ, 0, 0, 5);
    command.duration = UINT32_MAX;
    for (uint32_t i = 0; i < records; i++)
        put_record(command);
    command.duration = records;
    put_record(command);
    put(READ, 0, 0, 0);
    put(FLUSH, 0, 0, 0);
}

static void put_sums(const uint64_t *numbers)
{
    static const struct record commands[] = { { IDENTIFY, 0, 0, 0 }, { WRITE, 0, 0, 0 }, { SET, CHOICE, 1, 0 } };

    (void)numbers;
    for (size_t i = 0; i < LENGTH(commands); i++)
        for (unsigned bits = 32; bits <= 48; bits++)
            put_sum(commands[i], bits);
}

/* ---- Random records, drawn one number to a statement: a seed must give the same everywhere --- */

/* What the records of a group have in common. */
struct group {
    uint64_t records;
    uint8_t  count;             /* of the limit that is mostly set */
    uint64_t longest;           /* duration */
    unsigned settings, flushes; /* one in so many */
};

static struct group any_group(struct random *r)
{
    static const uint64_t lengths[] = { 4, 40, 400, 4000 };
    static const unsigned settings[] = { 4, 8, 16, 60 }, flushes[] = { 2, 4, 8, 40 };
    struct group g;
    uint64_t limit;

    g.records = between(r, 1, PICK(r, lengths));
    g.count = (uint8_t)(once_in(r, 2) ? between(r, 1, 4) : between(r, 1, 255));
    limit = 10u * g.count;
    const uint64_t longest[] = { limit / 8, limit / 3, limit / 2, limit, limit + limit / 4, UINT32_MAX };
    g.longest = PICK(r, longest);
    g.settings = PICK(r, settings);
    g.flushes = PICK(r, flushes);
    return g;
}

/* Now and then the limit, or the end of the range. */
static uint32_t any_duration(struct random *r, const struct group *g)
{
    uint64_t duration = once_in(r, 30) ? 10u * g->count : once_in(r, 200) ? PICK(r, edges) : between(r, 0, g->longest);

    return (uint32_t)duration;
}

static struct record any_setting(struct random *r, const struct group *g)
{
    const uint8_t limits[] = { g->count, g->count, g->count, 0, 1 }, choices[] = { 0, 1, 0, 1, 2 };
    struct record setting = { SET, LIMIT, 0, 0 };
    uint64_t kind = below(r, 16);

    if (kind < 10)
        setting.feature = CHOICE;
    else if (kind == 10)
        setting.feature = (uint8_t)below(r, 256);
    setting.count = setting.feature == LIMIT ? PICK(r, limits) : PICK(r, choices);
    if (once_in(r, 12))
        setting.count = (uint8_t)below(r, 256);
    return setting;
}

static struct record any_record(struct random *r, const struct group *g)
{
    static const uint8_t timed[] = { READ, READ_EXT, WRITE, WRITE_EXT }, flushes[] = { FLUSH, FLUSH_EXT };
    struct record record = { 0, 0, 0, 0 };

    record.feature = (uint8_t)below(r, 256);
    record.count = (uint8_t)below(r, 256);
    if (once_in(r, g->settings))
        record = any_setting(r, g);
    else if (once_in(r, g->flushes))
        record.command = PICK(r, flushes);
    else if (once_in(r, 5))
        record.command = (uint8_t)below(r, 256);
    else
        record.command = PICK(r, timed);
    record.duration = any_duration(r, g);
    return record;
}

static void put_bytes_of(struct random *r, size_t count)
{
    uint8_t bytes[RECORD_BYTES];

    random_bytes(r, bytes, count);
    fwrite(bytes, 1, count, stdout);
}

/* Each group starts with its limit; the records of one in eight have any bytes. */
static void put_group(struct random *r, const struct group *g, uint64_t records)
{
    bool bytes = once_in(r, 8);

    put(SET, LIMIT, g->count, 0);
    for (uint64_t i = 1; i < records; i++) {
        if (bytes)
            put_bytes_of(r, RECORD_BYTES);
        else
            put_record(any_record(r, g));
    }
}

static void put_random(const uint64_t *numbers)
{
    struct random r = random_for(numbers[0], 0);

    for (uint64_t left = numbers[1]; left > 0;) {
        struct group g = any_group(&r);
        uint64_t records = g.records < left ? g.records : left;

        put_group(&r, &g, records);
        left -= records;
    }
    put_bytes_of(&r, numbers[2] % RECORD_BYTES);
}

static void put_any_bytes(const uint64_t *numbers)
{
    struct random r = random_for(numbers[0], 1);

    for (uint64_t i = 0; i < numbers[1]; i++)
        put_bytes_of(&r, RECORD_BYTES);
}

/* ---- The kinds --------------------------------------------------------------------------- */

enum { MOST_NUMBERS = 3 };

static const struct kind {
    const char *name;
    int numbers;
    void (*put)(const uint64_t *numbers);
} kinds[] = {
    { "wide", 1, put_wide }, { "narrow", 1, put_narrow }, { "codes", 0, put_codes }, { "edges", 0, put_edges },
    { "sums", 0, put_sums }, { "random", 3, put_random }, { "bytes", 2, put_any_bytes },
};

int main(int count, char **words)
{
    uint64_t numbers[MOST_NUMBERS];

    for (size_t i = 0; i < LENGTH(kinds); i++) {
        if (count != 2 + kinds[i].numbers || strcmp(words[1], kinds[i].name) != 0)
            continue;
        for (int n = 0; n < kinds[i].numbers; n++)
            numbers[n] = strtoull(words[2 + n], NULL, 10);
        kinds[i].put(numbers);
        return fflush(stdout) == 0 && !ferror(stdout) ? 0 : 2;
    }
    fprintf(stderr, "usage: see the head of input.c\n");
    return 2;
}
