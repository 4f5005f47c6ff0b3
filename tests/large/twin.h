/*
 * twin.h - the archive and the reference, each over its own disk, of up to one
 * sector more than the native limit.
 *
 * A step is called on both; its answer and report, the record, the private
 * area, the mailbox and the image are compared after it. The disks, with their
 * check areas, are memory that is reserved: they are compared over every byte
 * by disks_agree and disks_hold, which pass over the pages that neither side has
 * touched. The first difference is printed and ends the program with 1.
 */
#ifndef TWIN_H
#define TWIN_H

#include "arena.h"
#include "implementation.h"

enum { ENTRIES_ROOM = 4 };      /* of the image */

struct side {
    const struct implementation *code;
    struct arena disk, check_area;
    size_t  disk_length, check_length;      /* as passed */
    uint8_t record[SCT_RECORD_BYTES];
    uint8_t area[SCT_PRIVATE_BYTES];
    uint8_t mail[SCT_MAILBOX_BYTES];
    uint8_t image[ENTRIES_ROOM * SCT_ENTRY_BYTES];
};

struct twin {
    struct side side[2];        /* archive, reference */
    uint64_t    sectors;
    const char *sequence;
    const char *step;           /* the last one, with its number */
    uint64_t    number;
    uint64_t    steps;          /* of the sequence */
    uint64_t    exchanges, pages;   /* of all: what was tried, and compared */
};

extern struct twin twin;

/* Buffers of one side for disks of up to so many sectors. */
void side_make(struct side *side, const struct implementation *code, uint64_t sectors);

/* A disk of zeros of so many sectors, at the end of a page. */
void side_place(struct side *side, uint64_t sectors);

/* Makes both sides; once, before anything else. */
void twin_make(void);

/* Starts a sequence of this name with disks of zeros, so many sectors, and junk in all else. */
void begin(const char *name, uint64_t sectors);

/* From now on disks and check areas are passed with these lengths, which must not be above those of `begin`. */
void pass_lengths(size_t disk_length, size_t check_length);

/* ---- Steps ---------------------------------------------------------------- */

/* A step of one side, with its one number. The answer is in bits 32 to 63 for every entry. */
typedef uint64_t step(struct side *side, uint64_t number);

step do_power_on;       /* used length */
step do_take;           /* port; the mailbox is overwritten after it */
step do_serve;
step do_give;
step do_work;           /* n */
step do_lock;
step do_unlock;
step do_set_visible;    /* V */
step do_sample;         /* reading */
step do_repair;         /* LBA */
step do_save;           /* used length */

/* The step on both sides. */
uint64_t both(const char *name, step *call, uint64_t number);

#define BOTH(name, number) both(#name, do_##name, (number))

/* Take, serve and give, which must be done; `mail` has the request and gets the reply. */
void exchange(uint32_t port, uint8_t *mail);

/* ---- Disks ---------------------------------------------------------------- */

/* A sector that tells its LBA, the rest random. */
void sector_for(uint8_t *sector, uint64_t lba);

/* The harness writes these sectors and their check bytes, on both sides. */
void put_sectors(uint64_t first, uint64_t count, const uint8_t *sector, uint16_t check);

/* The harness flips this bit of a sector, on both sides. */
void flip(uint64_t lba, unsigned bit);

/* Both sides have these bytes at this place of the disk, and these check bytes at that place of the check area. */
void expect_at(uint64_t disk_place, const uint8_t *sector, uint64_t check_place, uint16_t check);

/* These sectors, so many as there are of them, and their check bytes are the same on both sides. */
void sectors_agree(uint64_t first, uint64_t count);

/* Every byte of the disks and check areas is the same on both sides. */
void disks_agree(void);

/*
 * From now on these sectors must hold this, by the sequence's own numbers; what
 * no must_hold names is zeros, and the later one decides.
 */
void must_hold(uint64_t first, uint64_t count, const uint8_t *sector, uint16_t check);

/* Every byte of the disks and check areas is what must_hold has said. */
void disks_hold(void);

/* ---- Failing -------------------------------------------------------------- */

/* Ends the program with the words where it was. */
void differ(const char *what);

void expect(const char *what, uint64_t got, uint64_t wanted);

#endif
