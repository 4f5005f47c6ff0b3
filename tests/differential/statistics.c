#include "statistics.h"

#include "request.h"

enum { PLAIN_REFUSAL = 0, NOT_FOUND = CODES, UNCORRECTABLE = CODES + 1, GOOD = CODES + 2 };

static unsigned outcome_of_reply(const uint8_t *reply)
{
    uint16_t code = reply_value(reply);

    if (reply[R_ERROR] == 0)
        return GOOD;
    if (reply[R_ERROR] == 0x10)
        return NOT_FOUND;
    if (reply[R_ERROR] == 0x40)
        return UNCORRECTABLE;
    return code < CODES ? code : PLAIN_REFUSAL;
}

enum { LOCKED = 0x0012 };

/* The key table's refusals, each with the word that W-206 gives it. The lock refuses keys of every kind. */
static const struct { const char *fault; enum request_kind kind; uint16_t code; uint8_t word; } key_rows[KEY_ROWS] = {
    { "lock", K_OTHER_KEY, LOCKED, 255 },
    { "action", K_OTHER_KEY, 0x0010, 0 },
    { "function", K_LONG, 0x000A, 1 },
    { "LBA", K_LONG, 0x0002, 2 },
    { "function", K_FILL_PATTERN, 0x0001, 1 },
    { "Start", K_FILL_PATTERN, 0x0002, 2 },
    { "sum", K_FILL_PATTERN, 0x0002, 6 },
    { "Start", K_FILL_SECTOR, 0x0002, 2 },
    { "sum", K_FILL_SECTOR, 0x0002, 6 },
    { "function", K_TIMER, 0x0004, 1 },
    { "timer", K_TIMER, 0x0005, 2 },
    { "value for reads", K_TIMER, 0x0006, 3 },
    { "value for writes", K_TIMER, 0x0007, 3 },
    { "function", K_FEATURE, 0x000C, 1 },
    { "feature", K_FEATURE, 0x000D, 2 },
    { "state", K_FEATURE, 0x000E, 3 },
    { "option", K_FEATURE, 0x000F, 4 },
    { "function", K_TABLE, 0x0001, 1 },
    { "table", K_TABLE, 0x0011, 2 }
};

static bool is_refused_key(const struct outcome *outcome)
{
    return K_LONG <= outcome->kind && outcome->kind <= K_OTHER_KEY && outcome->reply[R_ERROR] != 0;
}

static bool row_has(unsigned row, const struct outcome *outcome)
{
    return (key_rows[row].kind == outcome->kind || key_rows[row].code == LOCKED) &&
           key_rows[row].code == reply_value(outcome->reply) && key_rows[row].word == outcome->reply[R_MID];
}

static unsigned row_of_key(const struct outcome *outcome)
{
    unsigned row = 0;

    while (row < KEY_ROWS && !row_has(row, outcome))
        row++;
    return row;
}

void statistics_add(struct statistics *s, const struct step *step, const struct outcome *outcome)
{
    if (step->entry >= ENTRIES)
        return;
    s->answers[step->entry][outcome->answer < ANSWERS ? outcome->answer : ANSWERS]++;
    if (outcome->answer != SCT_DONE)
        return;
    switch (step->entry) {
    case SERVE:
        s->requests[outcome->kind][outcome_of_reply(outcome->reply)]++;
        if (is_refused_key(outcome))
            s->refused_keys[row_of_key(outcome)]++;
        break;
    case WORK:
        s->sectors_written += outcome->report;
        s->fills_finished += outcome->filled_before && !outcome->fills_after;
        break;
    case REPAIR:
        s->repairs[outcome->report < REPORTS ? outcome->report : REPORTS]++;
        break;
    case POWER_ON:
        s->images_restored += step->used != 0;
        break;
    case SAVE:
        s->entries_saved++;
        break;
    default:
        break;
    }
}

static void print_answers(const struct statistics *s)
{
    printf("\n%-10s", "answers");
    for (int a = 0; a < ANSWERS; a++)
        printf("%10d", a);
    printf("\n");
    for (int e = 0; e < ENTRIES; e++) {
        printf("%-10s", entry_name[e]);
        for (int a = 0; a < ANSWERS; a++)
            printf("%10llu", (unsigned long long)s->answers[e][a]);
        printf("\n");
    }
}

static void print_requests(const struct statistics *s)
{
    printf("\nrequests served (good; refused: 04h without a code, 10h, 40h, by extended code)\n");
    for (int k = 0; k < REQUEST_KINDS; k++) {
        printf("%-19s good %llu", kind_name[k], (unsigned long long)s->requests[k][GOOD]);
        if (s->requests[k][PLAIN_REFUSAL] != 0)
            printf(", 04h %llu", (unsigned long long)s->requests[k][PLAIN_REFUSAL]);
        if (s->requests[k][NOT_FOUND] != 0)
            printf(", 10h %llu", (unsigned long long)s->requests[k][NOT_FOUND]);
        if (s->requests[k][UNCORRECTABLE] != 0)
            printf(", 40h %llu", (unsigned long long)s->requests[k][UNCORRECTABLE]);
        for (int c = 1; c < CODES; c++)
            if (s->requests[k][c] != 0)
                printf(", %04Xh %llu", c, (unsigned long long)s->requests[k][c]);
        printf("\n");
    }
}

bool statistics_rows_known(const struct statistics *s)
{
    return s->refused_keys[KEY_ROWS] == 0;
}

static void print_refused_keys(const struct statistics *s)
{
    printf("\nkeys refused (by row of the key table: code, and the word in LBA Mid)\n");
    for (int i = 0; i < KEY_ROWS; i++)
        printf("%-19s %-17s %04Xh %3u %9llu\n", key_rows[i].code == LOCKED ? "any key" : kind_name[key_rows[i].kind],
               key_rows[i].fault, key_rows[i].code, key_rows[i].word, (unsigned long long)s->refused_keys[i]);
    printf("%-47s %9llu\n", "with a code and word of no row", (unsigned long long)s->refused_keys[KEY_ROWS]);
}

void statistics_print(const struct statistics *s)
{
    printf("lists %llu, steps %llu, steps of sweeps %llu\n", (unsigned long long)s->lists,
           (unsigned long long)s->steps, (unsigned long long)s->sweep_steps);
    printf("fills finished %llu, sectors filled %llu, entries saved %llu, images restored %llu\n",
           (unsigned long long)s->fills_finished, (unsigned long long)s->sectors_written,
           (unsigned long long)s->entries_saved, (unsigned long long)s->images_restored);
    printf("reads with Error 40h %llu, Long transfers read %llu, written %llu\n",
           (unsigned long long)s->requests[K_SECTOR_READ][UNCORRECTABLE],
           (unsigned long long)s->requests[K_LONG_READ][GOOD], (unsigned long long)s->requests[K_LONG_WRITE][GOOD]);
    printf("repairs that report 0 %llu, 1 %llu, 2 %llu\n", (unsigned long long)s->repairs[0],
           (unsigned long long)s->repairs[1], (unsigned long long)s->repairs[2]);
    print_answers(s);
    print_requests(s);
    print_refused_keys(s);
}
