/*
 * owner.c - what the owner of the disk does between two runs of smartctl.
 *
 *   owner FILE new              a new disk, its end hidden
 *   owner FILE sample C..       a minute for each C, degrees Celsius; - is a missing sample
 *   owner FILE fill N           a fill of the visible disk is asked for, and its first N sectors are written
 *   owner FILE table            the temperature table is asked for, and not yet collected
 *   owner FILE lock | unlock
 *   owner FILE again            saved; then power-on from what was saved
 */
#define _POSIX_C_SOURCE 200809L

#include <fcntl.h>
#include <stdio.h>
#include <stdlib.h>
#include <string.h>

#include "request.h"
#include "state.h"

static struct state s;

static uint32_t power_on(const uint8_t *image, size_t length)
{
    return sct_power_on(s.device, sizeof s.device, s.area, sizeof s.area, s.disk, sizeof s.disk,
                        s.check_area, sizeof s.check_area, image, length, length);
}

/* Sectors of zeros, whose check is zero too. */
static uint32_t new_disk(void)
{
    uint32_t answer;

    memset(&s, 0, sizeof s);
    answer = power_on(NULL, 0);
    return answer ? answer : sct_set_visible(s.device, sizeof s.device, VISIBLE);
}

static uint32_t sample(const char *celsius)
{
    uint8_t reading = strcmp(celsius, "-") == 0 ? 0x80 : (uint8_t)atoi(celsius);

    return sct_sample(s.device, sizeof s.device, reading);
}

static uint32_t fill(uint32_t sectors)
{
    uint8_t mailbox[SCT_MAILBOX_BYTES];
    uint32_t answer;

    build_fill(mailbox, SMART, 1, 0, 0, 0x4F4D4544);
    answer = handle(&s, mailbox);
    if (answer != SCT_DONE)
        return answer;
    return sct_work_answer(sct_work(s.device, sizeof s.device, s.area, sizeof s.area,
                                    s.disk, sizeof s.disk, s.check_area, sizeof s.check_area, sectors));
}

static uint32_t table(void)
{
    uint8_t mailbox[SCT_MAILBOX_BYTES];

    build_key(mailbox, SMART, 5, 1, 2, 0, 0);
    return handle(&s, mailbox);
}

static uint32_t again(void)
{
    uint8_t image[SCT_ENTRY_BYTES];
    uint32_t answer = sct_save(s.device, sizeof s.device, image, sizeof image, 0);

    return answer ? answer : power_on(image, sizeof image);
}

/* The step's answer, or -1 if there is no such step. */
static long carry_out(int words, char **word)
{
    long answer = 0;

    if (words == 1 && strcmp(word[0], "new") == 0)
        return new_disk();
    if (words == 1 && strcmp(word[0], "again") == 0)
        return again();
    if (words == 1 && strcmp(word[0], "table") == 0)
        return table();
    if (words == 1 && strcmp(word[0], "lock") == 0)
        return sct_lock(s.device, sizeof s.device);
    if (words == 1 && strcmp(word[0], "unlock") == 0)
        return sct_unlock(s.device, sizeof s.device);
    if (words == 2 && strcmp(word[0], "fill") == 0)
        return fill((uint32_t)atoi(word[1]));
    if (words < 2 || strcmp(word[0], "sample") != 0)
        return -1;
    for (int i = 1; i < words && answer == 0; i++)
        answer = sample(word[i]);
    return answer;
}

int main(int words, char **word)
{
    bool new;
    int file;
    long answer;

    if (words < 3) {
        fprintf(stderr, "owner: a file and a step are needed\n");
        return 2;
    }
    new = strcmp(word[2], "new") == 0;
    file = open(word[1], new ? O_RDWR | O_CREAT | O_TRUNC : O_RDWR, 0600);
    if (file < 0 || (!new && !read_state(file, &s))) {
        fprintf(stderr, "owner: %s can't be read\n", word[1]);
        return 2;
    }
    answer = carry_out(words - 2, word + 2);
    if (answer < 0) {
        fprintf(stderr, "owner: there is no step %s of that form\n", word[2]);
        return 2;
    }
    if (answer != SCT_DONE) {
        fprintf(stderr, "owner: %s: answer %ld\n", word[2], answer);
        return 1;
    }
    if (!write_state(file, &s)) {
        fprintf(stderr, "owner: %s can't be written\n", word[1]);
        return 2;
    }
    return 0;
}
