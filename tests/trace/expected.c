/*
 * expected.c - what `trace` must print for the input on standard input, to be
 * read along with W-208, whose sentences are quoted.
 *
 * There is no timer with states here. For each record the sum of all durations
 * before it is known, and the sum up to its end; further which record armed the
 * timer last, which read or write was the first after that, the limit and the
 * choice. A timed command is judged by the difference of two sums.
 */
#include <stdbool.h>
#include <stdint.h>
#include <stdio.h>

#include "bytes.h"

enum { RECORD_BYTES = 7 };

/* "It reads records of 7 bytes: command, feature, count (a byte each) and duration in ms (4 bytes)." */
struct record {
    uint64_t number;            /* from 1 */
    uint8_t  command, feature, count;
    uint64_t before, end;       /* the sums of durations before it and up to its end */
};

/* "`trace` starts disabled with abort chosen." */
static uint64_t      limit;     /* in ms; 0 is disabled */
static bool          continues; /* whether continue is chosen */
static uint64_t      armed;     /* the number of the record that armed (or disabled) the timer last */
static struct record first;     /* if its number is higher: the first read or write after that */

/*
 * "The first timed read or write after arming starts it as it begins". "Expiry
 * while another command runs is seen at the next timed one": the sums have the
 * durations of all commands between.
 */
static uint64_t time_run(const struct record *r)
{
    return first.number > armed ? r->end - first.before : 0;
}

/* "Unless the timer is disabled, a timed command is done exactly if the time run at its end is below the limit". */
static bool in_time(const struct record *r)
{
    return limit == 0 || time_run(r) < limit;
}

/* "else [..] a read or write is aborted or continued as chosen." */
static const char *read_or_write(const struct record *r)
{
    if (first.number <= armed)
        first = *r;
    return in_time(r) ? "done" : continues ? "continued" : "aborted";
}

/*
 * "a completed flush stops and arms it again, unless it is disabled"; "else a
 * flush is deferred and arms the timer". So both arm; what is disabled stays so,
 * since its limit is 0.
 */
static const char *flush(const struct record *r)
{
    const char *word = in_time(r) ? "done" : "deferred";

    armed = r->number;
    return word;
}

/*
 * "SET FEATURES (EFh) with Features 20h and Sector Count 0 disables it; 1 to 255
 * arms it with that many times 10 ms." "A setting's own duration passes first,
 * then it takes hold; disabling keeps the choice."
 */
static const char *set_limit(const struct record *r)
{
    limit = 10u * r->count;
    armed = r->number;
    return "done";
}

/*
 * "Features 21h with 0 chooses abort, 1 choosing continue." "Refusals: feature
 * 21h while disabled, or a count above 1 with it, is aborted and changes nothing
 * but the time passed."
 */
static const char *set_choice(const struct record *r)
{
    if (limit == 0 || r->count > 1)
        return "aborted";
    continues = r->count == 1;
    return "done";
}

/*
 * "Timed commands are C8h, 25h, CAh, 35h, E7h and EAh; other commands pass time
 * but are never affected." "All else not refused below is done."
 */
static const char *word_for(const struct record *r)
{
    switch (r->command) {
    case 0xC8: case 0x25: case 0xCA: case 0x35:
        return read_or_write(r);
    case 0xE7: case 0xEA:
        return flush(r);
    case 0xEF:
        return r->feature == 0x20 ? set_limit(r) : r->feature == 0x21 ? set_choice(r) : "done";
    default:
        return "done";
    }
}

/* "It prints one word a line for each [..]; an incomplete last record prints `cut`." */
int main(void)
{
    uint8_t bytes[RECORD_BYTES];
    struct record r = { 0, 0, 0, 0, 0, 0 };
    size_t count;

    while ((count = fread(bytes, 1, RECORD_BYTES, stdin)) == RECORD_BYTES) {
        r.number++;
        r.command = bytes[0];
        r.feature = bytes[1];
        r.count = bytes[2];
        r.before = r.end;
        r.end += get_bytes(bytes + 3, 4);
        puts(word_for(&r));
    }
    if (count > 0)
        puts("cut");
    return 0;
}
