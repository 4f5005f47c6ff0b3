/*
 * plain.c - `trace` (W-208) as a C programmer would write it: a timer of four
 * states, input and output in blocks. The program's speed is measured beside it,
 * and in the self-test it stands in the program's place.
 */
#define _POSIX_C_SOURCE 200809L
#include <stdbool.h>
#include <stdint.h>
#include <stdlib.h>
#include <string.h>
#include <unistd.h>

/*
 * Planted faults, to see whether a test finds them: -DPLANT=n builds fault n
 * in. Without PLANT there is none, and PLANTED(n) is 0.
 *
 *   n   fault
 *   1   a time run that is equal to the limit is done
 *   2   a read or write is judged without its own duration
 *   3   a flush is judged without its own duration
 *   4   the first read or write starts the timer as it ends
 *   5   time runs while the timer is armed
 *   6   each read or write starts the time anew
 *   7   a flush starts an armed timer
 *   8   another command's time does not run
 *   9   the time of EFh with another feature does not run
 *  10   the time of EFh with feature 21h does not run
 *  11   the time of a refused 21h does not run
 *  12   the sum of durations has 32 bits
 *  13   the sum has 40 bits, and the timer runs again where it wraps
 *  14   the sum has 48 bits, and the timer runs again where it wraps
 *  15   a duration has 24 bits
 *  16   a duration has its high byte first
 *  17   the limit is in ms
 *  18   the limit has 8 bits
 *  19   20h with 0 arms with 256 times 10 ms
 *  20   disabling resets the choice
 *  21   arming resets the choice
 *  22   disabling does not take hold of an expired timer
 *  23   arming a running timer lets it run on
 *  24   arming a running timer keeps the old limit
 *  25   arming does not take hold of an expired timer
 *  26   21h with 0 chooses continue, 1 abort
 *  27   21h is accepted while disabled
 *  28   21h while disabled is aborted, but chooses
 *  29   21h with 2 is accepted, as continue
 *  30   21h with a count above 1 is aborted, but chooses continue
 *  31   21h with a count above 127 is accepted (a signed byte)
 *  32   21h arms the timer
 *  33   21h is aborted while the timer is expired
 *  34   a choice made while the timer is expired does not take hold
 *  35   a refused 21h arms the timer
 *  36   EFh with another feature is aborted
 *  37   bit 7 of a feature is ignored
 *  38   20h and 21h with another command are settings too
 *  39   C8h is not timed
 *  40   25h is not timed
 *  41   CAh is not timed
 *  42   35h is not timed
 *  43   E7h is not timed
 *  44   EAh is not timed
 *  45   C9h and CBh are timed too
 *  46   24h and 34h are timed too
 *  47   E5h is taken for a flush
 *  48   EAh is taken for a write
 *  49   a late flush is aborted or continued as chosen
 *  50   a late flush is done
 *  51   another command is aborted or continued while the timer is expired
 *  52   a setting is aborted while the timer is expired
 *  53   an aborted command arms the timer
 *  54   a continued command arms the timer
 *  55   a timer that expires while another command runs is armed
 *  56   a flush that is done lets the timer run on
 *  57   a deferred flush leaves the timer expired
 *  58   a flush that is done disables the timer
 *  59   a flush arms a disabled timer
 *  60   a flush resets the choice
 *  61   continue is chosen at the start
 *  62   the timer is armed at the start
 *  63   an incomplete record prints nothing
 *  64   `cut` is printed where nothing is incomplete
 *  65   an incomplete record of 6 bytes is a record
 *  66   an incomplete record of 1 byte prints nothing
 *  67   the timer is lost between blocks
 *  68   the choice is lost between blocks
 *  69   the last record of a full block prints nothing
 *  70   after a full block an incomplete record prints nothing
 *  71   the input ends where a read brings less than a block
 */
#ifdef PLANT
#define PLANTED(n) (PLANT == (n))
#else
#define PLANTED(n) 0
#endif

/* ---- The timer ---------------------------------------------------------------------- */

enum state { DISABLED, ARMED, RUNNING, EXPIRED };

struct timer {
    enum state state;
    bool       continues;       /* continue is chosen, not abort */
    uint64_t   limit, run;      /* in ms */
};

enum word { DONE, ABORTED, CONTINUED, DEFERRED };

static void arm(struct timer *t)
{
    t->state = ARMED;
    t->run = 0;
}

/* Faults 13 and 14: the sum goes on after expiry and wraps. */
static void pass_in_bits(struct timer *t, uint64_t duration, unsigned bits)
{
    if (t->state < RUNNING)
        return;
    t->run = (t->run + duration) & (((uint64_t)1 << bits) - 1);
    t->state = t->run < t->limit ? RUNNING : EXPIRED;
}

/* Time runs while the timer does; how long it has been expired does not matter. */
static void pass(struct timer *t, uint64_t duration)
{
    if (PLANTED(13) || PLANTED(14)) {
        pass_in_bits(t, duration, PLANTED(13) ? 40 : 48);
        return;
    }
    if (t->state != RUNNING && !(PLANTED(5) && t->state == ARMED))
        return;
    t->run += duration;
    if (PLANTED(12))
        t->run = (uint32_t)t->run;
    if (PLANTED(1) ? t->run > t->limit : t->run >= t->limit)
        t->state = EXPIRED;
}

/* What becomes of a read or write that is late. */
static enum word late(const struct timer *t)
{
    return t->continues ? CONTINUED : ABORTED;
}

static enum word read_or_write(struct timer *t, uint64_t duration)
{
    bool was_expired = t->state == EXPIRED;

    if (PLANTED(6) && t->state == RUNNING)
        t->run = 0;
    if (PLANTED(4) && t->state == ARMED)
        duration = 0;
    if (t->state == ARMED)
        t->state = RUNNING;
    pass(t, duration);
    bool expired = PLANTED(2) ? was_expired : t->state == EXPIRED;
    if (expired && (t->continues ? PLANTED(54) : PLANTED(53)))
        arm(t);
    return expired ? late(t) : DONE;
}

static enum word flush(struct timer *t, uint64_t duration)
{
    if (PLANTED(7) && t->state == ARMED)
        t->state = RUNNING;
    pass(t, PLANTED(3) ? 0 : duration);
    bool expired = t->state == EXPIRED;
    if (PLANTED(60))
        t->continues = false;
    if (PLANTED(58) && !expired)
        t->state = DISABLED;
    if ((t->state != DISABLED || PLANTED(59)) && !(expired ? PLANTED(57) : PLANTED(56)))
        arm(t);
    if (PLANTED(49) && expired)
        return late(t);
    return expired && !PLANTED(50) ? DEFERRED : DONE;
}

/* ---- Settings ------------------------------------------------------------------------ */

static enum word set_limit(struct timer *t, uint8_t count)
{
    enum state old = t->state;

    if ((PLANTED(22) && count == 0 && old == EXPIRED) || (PLANTED(25) && count > 0 && old == EXPIRED))
        return DONE;
    if (count == 0 ? PLANTED(20) : PLANTED(21))
        t->continues = false;
    if (count == 0 && !PLANTED(19)) {
        t->state = DISABLED;
        return DONE;
    }
    if (!(PLANTED(24) && old == RUNNING))
        t->limit = PLANTED(17) ? count : 10u * count;
    if (PLANTED(18))
        t->limit = (uint8_t)t->limit;
    if (PLANTED(19) && count == 0)
        t->limit = 2560;
    if (!(PLANTED(23) && old == RUNNING))
        arm(t);
    return DONE;
}

static bool choice_refused(const struct timer *t, uint8_t count)
{
    if (PLANTED(33) && t->state == EXPIRED)
        return true;
    if (t->state == DISABLED)
        return !PLANTED(27) || count > 1;
    return count > 1 && !(PLANTED(29) && count == 2) && !(PLANTED(31) && count > 127);
}

static enum word set_choice(struct timer *t, uint8_t count)
{
    if (choice_refused(t, count)) {
        if (PLANTED(28) && t->state == DISABLED && count <= 1)
            t->continues = count == 1;
        if (PLANTED(30) && t->state != DISABLED)
            t->continues = true;
        if (PLANTED(35) && t->state != DISABLED)
            arm(t);
        return ABORTED;
    }
    if (!(PLANTED(34) && t->state == EXPIRED))
        t->continues = PLANTED(26) ? count == 0 : count != 0;
    if (PLANTED(32) && t->state != DISABLED)
        arm(t);
    return DONE;
}

static enum word set_features(struct timer *t, uint8_t feature, uint8_t count, uint64_t duration)
{
    bool choice = feature == 0x21;

    if ((PLANTED(9) && !choice && feature != 0x20) || (PLANTED(10) && choice) ||
        (PLANTED(11) && choice && choice_refused(t, count)))
        duration = 0;
    pass(t, duration);
    if (PLANTED(52) && t->state == EXPIRED)
        return ABORTED;
    if (PLANTED(37))
        feature &= 0x7F;
    if (feature == 0x20)
        return set_limit(t, count);
    if (feature == 0x21)
        return set_choice(t, count);
    return PLANTED(36) ? ABORTED : DONE;
}

/* ---- Records ------------------------------------------------------------------------- */

enum { READ_DMA = 0xC8, READ_DMA_EXT = 0x25, WRITE_DMA = 0xCA, WRITE_DMA_EXT = 0x35,
       FLUSH_CACHE = 0xE7, FLUSH_CACHE_EXT = 0xEA, SET_FEATURES = 0xEF, NOP = 0x00 };

static uint64_t duration_of(const uint8_t *at)
{
    if (PLANTED(16))
        return (uint32_t)at[0] << 24 | (uint32_t)at[1] << 16 | (uint32_t)at[2] << 8 | at[3];
    return at[0] | (uint32_t)at[1] << 8 | (uint32_t)at[2] << 16 | (PLANTED(15) ? 0 : (uint32_t)at[3] << 24);
}

/* The command, or what a fault takes it for. */
static uint8_t command_of(const uint8_t *record)
{
    uint8_t command = record[0];

    if ((PLANTED(39) && command == READ_DMA) || (PLANTED(40) && command == READ_DMA_EXT) ||
        (PLANTED(41) && command == WRITE_DMA) || (PLANTED(42) && command == WRITE_DMA_EXT) ||
        (PLANTED(43) && command == FLUSH_CACHE) || (PLANTED(44) && command == FLUSH_CACHE_EXT))
        return NOP;
    if ((PLANTED(45) && (command == 0xC9 || command == 0xCB)) ||
        (PLANTED(46) && (command == 0x24 || command == 0x34)) ||
        (PLANTED(48) && command == FLUSH_CACHE_EXT))
        return WRITE_DMA;
    if (PLANTED(47) && command == 0xE5)
        return FLUSH_CACHE;
    return command;
}

static enum word other_command(struct timer *t, const uint8_t *record, uint64_t duration)
{
    if (PLANTED(38) && (record[1] == 0x20 || record[1] == 0x21))
        return set_features(t, record[1], record[2], duration);
    bool running = t->state == RUNNING;
    pass(t, PLANTED(8) ? 0 : duration);
    if (PLANTED(55) && running && t->state == EXPIRED)
        arm(t);
    return PLANTED(51) && t->state == EXPIRED ? late(t) : DONE;
}

static enum word judge(struct timer *t, const uint8_t *record)
{
    uint64_t duration = duration_of(record + 3);

    switch (command_of(record)) {
    case READ_DMA: case READ_DMA_EXT: case WRITE_DMA: case WRITE_DMA_EXT:
        return read_or_write(t, duration);
    case FLUSH_CACHE: case FLUSH_CACHE_EXT:
        return flush(t, duration);
    case SET_FEATURES:
        return set_features(t, record[1], record[2], duration);
    default:
        return other_command(t, record, duration);
    }
}

/* ---- Blocks --------------------------------------------------------------------------- */

enum { RECORD_BYTES = 7, BLOCK_RECORDS = 8192, LONGEST_LINE = 10, COPIED = 16 };

/* Each line is copied with what is behind it, a length that does not vary; the next line is written over that. */
static const char    lines[][COPIED] = { "done\n", "aborted\n", "continued\n", "deferred\n" };
static const uint8_t line_bytes[] = { 5, 8, 10, 9 };

static uint8_t input[RECORD_BYTES * BLOCK_RECORDS];
static char    output[LONGEST_LINE * BLOCK_RECORDS + COPIED];

static void write_all(const char *from, size_t count)
{
    while (count > 0) {
        ssize_t written = write(STDOUT_FILENO, from, count);

        if (written <= 0)
            exit(1);
        from += written;
        count -= (size_t)written;
    }
}

/* Prints a word for each whole record in so many bytes; the rest comes to the front, and its length is returned. */
static size_t judge_block(struct timer *t, size_t count)
{
    char *to = output;
    size_t at = 0;

    for (; at + RECORD_BYTES <= count; at += RECORD_BYTES) {
        enum word word = judge(t, input + at);

        if (PLANTED(69) && at + RECORD_BYTES == sizeof input)
            continue;
        memcpy(to, lines[word], COPIED);
        to += line_bytes[word];
    }
    write_all(output, (size_t)(to - output));
    memmove(input, input + at, count - at);
    return count - at;
}

static bool no_cut = PLANTED(63);

/* Faults 67, 68 and 70: what is lost with a full block. */
static void lose(struct timer *t)
{
    if (PLANTED(67))
        t->state = DISABLED;
    if (PLANTED(68))
        t->continues = false;
    if (PLANTED(70))
        no_cut = true;
}

static void end_input(struct timer *t, size_t held)
{
    if (PLANTED(65) && held == RECORD_BYTES - 1)
        held = judge_block(t, RECORD_BYTES);
    if (no_cut || (PLANTED(66) && held == 1))
        return;
    if (held > 0 || PLANTED(64))
        write_all("cut\n", 4);
}

int main(void)
{
    struct timer t = { DISABLED, PLANTED(61), 0, 0 };
    size_t held = 0;            /* bytes of a record that a read has begun */
    ssize_t count;

    if (PLANTED(62))
        set_limit(&t, 1);
    while ((count = read(STDIN_FILENO, input + held, sizeof input - held)) > 0) {
        bool full = held + (size_t)count == sizeof input;

        held = judge_block(&t, held + (size_t)count);
        if (full)
            lose(&t);
        else if (PLANTED(71))
            break;
    }
    end_input(&t, held);
    return count < 0;
}
