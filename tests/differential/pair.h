/*
 * pair.h - two implementations side by side.
 *
 * Each side has its own buffers. The bytes that both sides left in the last
 * step are kept once, here; a step passes each side a copy of them, calls, and
 * compares everything. The disk, with its check area, is too large for that:
 * each side keeps its own, and a third copy holds what may not have changed.
 * The comparison of a large disk's sectors is put off for some steps, but never
 * past a step that may change V.
 */
#ifndef PAIR_H
#define PAIR_H

#include "implementation.h"
#include "arena.h"
#include "random.h"
#include "step.h"

enum { IMAGE_ROOM = 70000 };    /* more than any readable image needs */

/*
 * The largest disk of a list. Steps are passed larger ones, too, up to the native
 * limit and one more, but none of them is written: power-on takes the length
 * alone, and the others refuse it. Large disks that are written are in large/.
 */
enum { TEST_SECTORS = 65536 };

struct side {
    const struct implementation *code;
    struct arena arena[BUFFERS];
    struct arena other[BUFFERS];    /* disk and check area, passed where the length is wrong */
    uint8_t     *passed[BUFFERS];
};

struct pair {
    struct side    side[2];
    uint8_t        record[SCT_RECORD_BYTES];
    uint8_t        area[SCT_PRIVATE_BYTES];
    uint8_t        image[IMAGE_ROOM];
    uint64_t       used;
    uint64_t       sectors;     /* of the list's disk */
    uint8_t       *third[BUFFERS];  /* disk and check area: the third copy */
    unsigned       put_off;     /* steps since a large disk was compared */
    enum placement placement;
    unsigned       shift;
};

struct outcome {
    uint32_t          answer;
    uint32_t          report;           /* of work and repair */
    bool              filled_before, fills_after;
    enum request_kind kind;             /* serve: the request */
    uint8_t           reply[SCT_REGISTER_BYTES];
};

/* Makes all buffers; once, before anything else. */
void pair_make(struct pair *pair, const struct implementation *a, const struct implementation *b);

/*
 * A disk of this size with random content, sound check bytes or, in a part of
 * the lists, damaged ones; empty image, junk in the record.
 */
void pair_reset(struct pair *pair, struct random *r, uint64_t sectors, enum placement placement);

/*
 * Runs a step on both sides. False if anything differs or was not allowed; the
 * differences are then printed.
 */
bool pair_step(struct pair *pair, const struct step *step, struct outcome *outcome);

/* Compares the disks if that was put off. To be called at the end of a list. */
bool pair_finish(struct pair *pair);

/* A step with its right lengths, everything else 0. */
struct step plain_step(const struct pair *pair, enum entry entry);

/* The other form of an image's entries. */
uint32_t other_form(uint32_t form);

/* A bit to flip, as struct step has it: of the data, of the check or of its bits that are always 0. */
unsigned random_bit(struct random *r);

/* Flips a bit of this sector, or from 4,096 on of its check bytes. */
void flip_bit(uint8_t *disk, uint8_t *check_area, uint64_t lba, unsigned bit);

#endif
