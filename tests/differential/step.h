/* step.h - one step of a list, and its words. */
#ifndef STEP_H
#define STEP_H

#include <stdbool.h>
#include <stddef.h>
#include <stdint.h>
#include <stdio.h>

#include "sct_disk.h"

/* The twelve entries, then what the harness itself may do between them. */
enum entry {
    POWER_ON, TAKE, SERVE, GIVE, WORK, LOCK, UNLOCK, SET_VISIBLE, SAMPLE, REPAIR, SAVE, CONVERT,
    ENTRIES,
    EDIT_IMAGE = ENTRIES,   /* one byte of the image changes */
    EDIT_RECORD,            /* one byte of the record changes */
    NEW_IMAGE,              /* another image, of `chain` random entries */
    NEW_RECORD,             /* another record: random, sound or nearly */
    USE_LENGTH,             /* the used length changes */
    FLIP_BIT,               /* one bit of a sector or of its check bytes changes */
    STEP_KINDS
};

/* From DISK on: those of the disk, of which each side keeps its own (pair.h). */
enum buffer { RECORD, PRIVATE_AREA, MAILBOX, IMAGE, DISK, CHECK_AREA, BUFFERS };

enum { SECTOR_BITS = 8 * SCT_SECTOR_BYTES };

struct step {
    enum entry entry;
    uint32_t   port;
    uint32_t   n;                       /* work */
    uint64_t   visible;                 /* set V */
    uint64_t   used;                    /* save, power-on, convert */
    bool       used_now;                /* use the length of that moment instead */
    uint8_t    reading;                 /* sample */
    uint64_t   lba;                     /* repair */
    uint32_t   form;                    /* convert, new image */
    size_t     length[BUFFERS];         /* as passed */
    bool       null_if_empty;           /* pass NULL where the length is 0 */
    uint8_t    mailbox[SCT_MAILBOX_BYTES];  /* what it holds at take or give */
    size_t     offset;                  /* edits; the sector, where a bit flips */
    uint8_t    value;
    uint16_t   bit;                     /* of the sector; from 4,096 on, of its check bytes */
    uint64_t   seed, native;            /* new image, new record */
    bool       spoilt;
    uint32_t   chain;
    uint32_t   foreign;                 /* new image: the entry of the other form, or 0 */
};

extern const char *const entry_name[STEP_KINDS];
extern const char *const buffer_name[BUFFERS];

/* True if the entry has this buffer as a parameter. */
bool entry_has(enum entry entry, enum buffer buffer);

/* True if the entry may change this buffer when it answers 0. */
bool entry_may_change(enum entry entry, enum buffer buffer);

/* The length that a buffer must have; 0 for the image, which may have any. */
size_t right_length(enum buffer buffer, uint64_t sectors);

/* The step in words, without a newline. `sectors` is the list's disk. */
void print_step(FILE *out, const struct step *step, uint64_t sectors);

/* What kind of request a slot holds, for statistics and for words. */
enum request_kind {
    K_STATUS, K_LONG, K_FILL_PATTERN, K_FILL_SECTOR, K_TIMER, K_FEATURE, K_TABLE, K_OTHER_KEY,
    K_DATA_READ, K_DATA_WRITE, K_LONG_READ, K_LONG_WRITE, K_SECTOR_READ, K_SECTOR_WRITE, K_OTHER, REQUEST_KINDS
};

extern const char *const kind_name[REQUEST_KINDS];

enum request_kind kind_of_request(const uint8_t *mailbox);

#endif
