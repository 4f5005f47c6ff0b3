/*
 * generate.h - random lists of steps.
 *
 * A list is made while it runs: when no step is left, the next few are planned
 * from the record that both sides left. Seed and index determine the list.
 */
#ifndef GENERATE_H
#define GENERATE_H

#include "pair.h"

enum style { MIXED, FILLS, TRANSFERS, HEAT, IMAGES, UNRULY, LENGTHS, RECORDS, STYLES };

extern const char *const style_name[STYLES];

enum { QUEUE = 256 };

struct list {
    struct random      random;
    const struct pair *pair;
    enum style         style;
    uint64_t           length;          /* steps of this list */
    uint32_t           last_answer;
    struct step        queue[QUEUE];
    unsigned           head, count;
};

/* Resets the pair for list `index` of `seed`. */
void list_begin(struct list *list, struct pair *pair, uint64_t seed, uint64_t index);

/* The next step. The caller sets last_answer to the answer of the one before. */
void list_next(struct list *list, struct step *step);

#endif
