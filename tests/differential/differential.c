/*
 * differential.c - runs the same steps on the archive and on the reference and
 * compares every answer and every byte after each.
 *
 *   --short          sweeps and random lists, under a minute (the default)
 *   --long           the same, with many more lists and full sweeps
 *   --seed S         another seed
 *   --lists N        so many random lists
 *   --steps N        every list of so many steps
 *   --seconds N      random lists until this time is over
 *   --list I         only list I of the seed, in words
 *   --no-sweeps      only the random lists
 *
 * Ends with 0 if no difference was found, 1 if one was, 2 if it was called
 * wrongly.
 */
#define _POSIX_C_SOURCE 200809L

#include <stdlib.h>
#include <string.h>
#include <time.h>
#include <unistd.h>

#include "generate.h"
#include "statistics.h"
#include "sweep.h"
#include "watch.h"

struct options {
    uint64_t seed, lists, steps, seconds, only;
    bool     one_list, sweeps, thorough;
};

enum { SHORT_LISTS = 40000, LONG_LISTS = 500000, LIST_TIME_LIMIT = 120 };

/* ---- Where we are, in case a call does not return ----------------------------- */

static volatile uint64_t place_seed, place_list, place_step;    /* step 0: in the sweeps */

static void print_place(void)
{
    if (place_step == 0) {
        put_text(", in a sweep\n");
        return;
    }
    put_text(": --seed ");
    put_number(place_seed);
    put_text(" --list ");
    put_number(place_list);
    put_text(", step ");
    put_number(place_step);
    put_text("\n");
}

/* ---- Lists --------------------------------------------------------------------- */

static void print_outcome(const struct pair *pair, const struct step *step, uint64_t number,
                          const struct outcome *outcome)
{
    printf("%5llu  ", (unsigned long long)number);
    print_step(stdout, step, pair->sectors);
    if (step->entry == WORK)
        printf(" -> %u, %u sectors\n", outcome->answer, outcome->report);
    else if (step->entry == REPAIR)
        printf(" -> %u, report %u\n", outcome->answer, outcome->report);
    else if (step->entry < ENTRIES)
        printf(" -> %u\n", outcome->answer);
    else
        printf("\n");
}

static bool run_list(struct pair *pair, struct statistics *s, const struct options *o, uint64_t index, bool words)
{
    static struct list list;
    struct outcome outcome;
    struct step step;

    alarm(LIST_TIME_LIMIT);
    place_list = index;
    list_begin(&list, pair, o->seed, index);
    if (o->steps != 0)
        list.length = o->steps;
    if (words)
        printf("list %llu of seed %llu, of style %s: disk of %llu sectors, buffers %s\n",
               (unsigned long long)index, (unsigned long long)o->seed, style_name[list.style],
               (unsigned long long)pair->sectors, placement_name[pair->placement]);
    for (uint64_t number = 1; number <= list.length; number++) {
        place_step = number;
        list_next(&list, &step);
        if (!pair_step(pair, &step, &outcome)) {
            printf("%5llu  ", (unsigned long long)number);
            print_step(stdout, &step, pair->sectors);
            printf(" -> differs\n");
            return false;
        }
        if (words)
            print_outcome(pair, &step, number, &outcome);
        list.last_answer = outcome.answer;
        s->steps++;
        statistics_add(s, &step, &outcome);
    }
    s->lists++;
    alarm(0);
    return pair_finish(pair);
}

/* A list that failed is run again, in words. */
static bool list_passes(struct pair *pair, struct statistics *s, const struct options *o, uint64_t index)
{
    struct statistics unused;

    if (run_list(pair, s, o, index, o->one_list))
        return true;
    if (!o->one_list) {
        printf("\nthe steps of that list; again with --seed %llu --list %llu%s\n",
               (unsigned long long)o->seed, (unsigned long long)index, o->steps ? " and the same --steps" : "");
        memset(&unused, 0, sizeof unused);
        run_list(pair, &unused, o, index, true);
    }
    return false;
}

static double seconds_now(void)
{
    struct timespec t;

    clock_gettime(CLOCK_MONOTONIC, &t);
    return (double)t.tv_sec + (double)t.tv_nsec / 1e9;
}

static bool run_lists(struct pair *pair, struct statistics *s, const struct options *o)
{
    double end = seconds_now() + (double)o->seconds;

    if (o->one_list)
        return list_passes(pair, s, o, o->only);
    for (uint64_t i = 0; o->seconds != 0 ? seconds_now() < end : i < o->lists; i++)
        if (!list_passes(pair, s, o, i))
            return false;
    return true;
}

static bool run_sweeps(struct pair *pair, struct statistics *s, const struct options *o)
{
    if (!o->sweeps || o->one_list)
        return true;
    return sweep_keys(pair, s) && sweep_lengths(pair, s) && sweep_sizes(pair, s) && sweep_chain(pair, s) &&
           sweep_forms(pair, s) && sweep_addresses(pair, s) && sweep_flips(pair, s) &&
           sweep_images(pair, s, o->thorough) && sweep_records(pair, s, o->thorough);
}

/* ---- Options --------------------------------------------------------------------- */

static bool read_options(struct options *o, int count, char **words)
{
    *o = (struct options){ 1, SHORT_LISTS, 0, 0, 0, false, true, false };
    for (int i = 1; i < count; i++) {
        const char *word = words[i];
        bool has_number = i + 1 < count;
        uint64_t number = has_number ? strtoull(words[i + 1], NULL, 0) : 0;

        if (strcmp(word, "--short") == 0)
            continue;
        if (strcmp(word, "--long") == 0) {
            o->lists = LONG_LISTS;
            o->thorough = true;
            continue;
        }
        if (strcmp(word, "--no-sweeps") == 0) {
            o->sweeps = false;
            continue;
        }
        if (!has_number)
            return false;
        i++;
        if (strcmp(word, "--seed") == 0)
            o->seed = number;
        else if (strcmp(word, "--lists") == 0)
            o->lists = number;
        else if (strcmp(word, "--steps") == 0)
            o->steps = number;
        else if (strcmp(word, "--seconds") == 0)
            o->seconds = number;
        else if (strcmp(word, "--list") == 0)
            o->only = number, o->one_list = true;
        else
            return false;
    }
    return true;
}

int main(int count, char **words)
{
    static struct pair pair;
    static struct statistics statistics;
    struct options options;
    double start = seconds_now();
    bool same, rows_known;

    if (!read_options(&options, count, words)) {
        fprintf(stderr, "usage: %s [--short | --long] [--seed S] [--lists N] [--steps N] [--seconds N] "
                        "[--list I] [--no-sweeps]\n", words[0]);
        return 2;
    }
    place_seed = options.seed;
    watch_calls(print_place);
    pair_make(&pair, &archive, &reference);
    same = run_sweeps(&pair, &statistics, &options) && run_lists(&pair, &statistics, &options);
    rows_known = statistics_rows_known(&statistics);
    statistics_print(&statistics);
    printf("\n%s; seed %llu, %.1f seconds\n",
           !same ? "DIFFERENT" : rows_known ? "no difference" : "A KEY REFUSED WITH A CODE AND WORD OF NO ROW",
           (unsigned long long)options.seed, seconds_now() - start);
    return same && rows_known ? 0 : 1;
}
