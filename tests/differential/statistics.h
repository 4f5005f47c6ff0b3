/* statistics.h - what the run has tried, so that one can see that it left nothing out. */
#ifndef STATISTICS_H
#define STATISTICS_H

#include "pair.h"

enum { ANSWERS = 10, REPORTS = 3, CODES = 0x13, OUTCOMES = CODES + 3, KEY_ROWS = 19 };

struct statistics {
    uint64_t lists, steps, sweep_steps;
    uint64_t answers[ENTRIES][ANSWERS + 1];     /* the last one: a number that is no answer */
    uint64_t requests[REQUEST_KINDS][OUTCOMES]; /* by code; then Error 10h and 40h; then good */
    uint64_t refused_keys[KEY_ROWS + 1];        /* by row of the key table; the last one: a code and word of none */
    uint64_t repairs[REPORTS + 1];              /* by report; the last one: a number that is none */
    uint64_t fills_finished, sectors_written, images_restored, entries_saved;
};

void statistics_add(struct statistics *s, const struct step *step, const struct outcome *outcome);
void statistics_print(const struct statistics *s);

/* Whether every refused key had a code and word of the key table, which statistics.c states a second time. */
bool statistics_rows_known(const struct statistics *s);

#endif
