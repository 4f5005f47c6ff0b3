/*
 * state.h - the disk between two runs of smartctl: a file with record, private
 * area, disk and check area. smartctl is given the file's name as that of its
 * device.
 */
#ifndef SMARTCTL_STATE_H
#define SMARTCTL_STATE_H

#include <stdbool.h>

#include "sct_disk.h"

enum { NATIVE = 64, VISIBLE = 48 };   /* sectors */

struct state {
    uint8_t device[SCT_RECORD_BYTES];
    uint8_t area[SCT_PRIVATE_BYTES];
    uint8_t disk[NATIVE * SCT_SECTOR_BYTES];
    uint8_t check_area[NATIVE * SCT_CHECK_BYTES];
};

/* False where the file has another length or can't be read or written. */
bool read_state(int file, struct state *state);
bool write_state(int file, const struct state *state);

/* A request of port 0 is taken, served and given. The first answer that is not 0, or 0. */
uint32_t handle(struct state *state, uint8_t *mailbox);

#endif
