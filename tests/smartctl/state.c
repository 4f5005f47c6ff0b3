/*
 * state.c - the state file read and written, and one request handled (state.h).
 */
#define _POSIX_C_SOURCE 200809L

#include "state.h"

#include <sys/stat.h>
#include <unistd.h>

bool read_state(int file, struct state *state)
{
    struct stat about;

    return fstat(file, &about) == 0 && about.st_size == sizeof *state &&
           pread(file, state, sizeof *state, 0) == sizeof *state;
}

bool write_state(int file, const struct state *state)
{
    return pwrite(file, state, sizeof *state, 0) == sizeof *state;
}

uint32_t handle(struct state *s, uint8_t *mailbox)
{
    uint32_t answer = sct_take(s->device, sizeof s->device, 0, mailbox, SCT_MAILBOX_BYTES, s->area, sizeof s->area);

    if (answer == SCT_DONE)
        answer = sct_serve(s->device, sizeof s->device, 0, s->area, sizeof s->area, s->disk, sizeof s->disk,
                           s->check_area, sizeof s->check_area);
    if (answer == SCT_DONE)
        answer = sct_give(s->device, sizeof s->device, 0, mailbox, SCT_MAILBOX_BYTES, s->area, sizeof s->area);
    return answer;
}
