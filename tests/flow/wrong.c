/*
 * wrong.c - take and give, reduced to what they do with a mailbox, to test
 * .ci/check-flow: WRONG=0 is a right program, each other number a wrong one,
 * which the check must refuse with these words:
 *
 *   1: mailbox bytes used
 *   2: a called function uses the mailbox
 *   3: a byte may be loaded twice
 *   4: a loop may load a byte twice
 *   5: a byte may be loaded twice
 *   6: mailbox bytes stored through a plain value
 *   7: mailbox bytes in an address
 *   8: mailbox bytes used
 *   9: a mailbox pointer stored through a plain value
 *  10: a store through a mailbox pointer
 *  11: a load through a private-area pointer
 *  12: mailbox bytes stored on the stack
 *  13: mailbox bytes in the result
 *  14: a load through a mailbox pointer
 *  15: a load through a mailbox pointer
 *  16: a store through a private-area pointer
 *  17: a byte may be loaded twice
 *  18: a loop may load a byte twice
 *  19: no return
 *  20: mailbox bytes stored through a plain value
 */
#include "sct_disk.h"

enum { STAGES = 72, STAGE_BYTES = 24, COMMAND = 11, STATUS = 12 };

/* Not inlined, so that the mailbox is passed on. */
__attribute__((noinline)) static void copy(uint8_t *to, const uint8_t *from)
{
    for (size_t i = 0; i < SCT_MAILBOX_BYTES; i++)
        to[i] = from[i];
}

/* Where the code is proved not to come. */
static inline void unreached(void)
{
    __asm__ volatile("ud2");
    __builtin_unreachable();
}

/* Not inlined, so that no way returns from it. */
__attribute__((noinline)) static void never(void)
{
    unreached();
}

#define BLOCK(i) __builtin_memcpy(slot + 16 * (i), moved + 16 * (i), 16)
#define BLOCKS(i) BLOCK(i), BLOCK(i + 1), BLOCK(i + 2), BLOCK(i + 3), BLOCK(i + 4)

/*
 * Port 3: copied in a straight run, from an address that is the mailbox's own
 * or, for NULL, another one, as the archive has it.
 */
static inline void straight(uint8_t *slot, const uint8_t *mailbox)
{
    const uint8_t *moved = mailbox + ((size_t)(mailbox == NULL) << 12);

    BLOCKS(0), BLOCKS(5), BLOCKS(10), BLOCKS(15), BLOCKS(20), BLOCKS(25), BLOCKS(30);
    BLOCKS(35), BLOCKS(40), BLOCKS(45), BLOCKS(50), BLOCKS(55), BLOCKS(60);
    if (WRONG == 17)
        slot[2] = *(volatile const uint8_t *)(moved + 2);   /* Count, fetched again */
}

/* By steps that are not known: a step of 0 or 1 loads a byte again. */
static inline void by_steps(uint8_t *slot, const uint8_t *mailbox, const uint8_t *steps)
{
    const volatile uint8_t *moved = mailbox;

    for (size_t i = 0; i < SCT_PORTS; i++) {
        moved += steps[i];
        slot[2 * i] = moved[0];
        slot[2 * i + 1] = moved[1];
    }
}

uint32_t sct_take(uint8_t *device, size_t device_length,
                  uint32_t port,
                  const uint8_t *mailbox, size_t mailbox_length,
                  uint8_t *area, size_t area_length)
{
    uint8_t *slot = area + port * SCT_MAILBOX_BYTES;

    if (device_length != SCT_RECORD_BYTES)
        return SCT_BAD_RECORD;
    if (mailbox_length != SCT_MAILBOX_BYTES || area_length != SCT_PRIVATE_BYTES)
        return SCT_BAD_LENGTH;
    if (port >= SCT_PORTS)
        return SCT_BAD_PORT;
    if (WRONG == 0 && area == NULL)
        unreached();
    if (WRONG == 19 && area == NULL)
        never();                                    /* called */
    if (WRONG == 20 && area == NULL) {
        device[22] = mailbox[16];                   /* in the record, on the way to ud2 */
        unreached();
    }
    if (WRONG == 1 && mailbox[COMMAND] == 0)        /* judged in the mailbox */
        return SCT_BAD_STAGE;
    if (WRONG == 2) {
        copy(slot, mailbox);                        /* in a function of its own */
        return SCT_DONE;
    }
    if (WRONG == 18) {
        by_steps(slot, mailbox, device);
        return SCT_DONE;
    }
    if ((WRONG == 0 || WRONG == 17) && port == 3) {
        straight(slot, mailbox);
        return SCT_DONE;
    }
    for (size_t i = 0; i < SCT_MAILBOX_BYTES; i++) {
        slot[i] = mailbox[i];
        if (WRONG == 4)
            slot[i + 1] = mailbox[i + 1];           /* each byte in two rounds */
    }
    if (WRONG == 3)
        slot[2] = mailbox[2];                       /* Count, fetched again */
    if (WRONG == 5)
        for (size_t i = 0; i < SCT_MAILBOX_BYTES; i++)
            slot[i] = mailbox[i];                   /* the whole copy again */
    if (WRONG == 6)
        device[22] = mailbox[16];                   /* in the record */
    if (WRONG == 7)
        slot[mailbox[0]] = 0;                       /* as an address */
    if (WRONG == 8)
        slot[0] = (uint8_t)(mailbox[0] + 1);        /* in a sum */
    if (WRONG == 9)
        *(const uint8_t **)device = mailbox;        /* kept for later */
    if (WRONG == 10)
        *(uint8_t *)mailbox = 0;                    /* written */
    if (WRONG == 11 && slot[COMMAND] == 0)          /* judged at the taking */
        return SCT_BAD_STAGE;
    if (WRONG == 12) {
        volatile uint8_t kept = mailbox[0];         /* on the stack */

        (void)kept;
    }
    device[STAGES + STAGE_BYTES * port] = 1;
    return WRONG == 13 ? mailbox[0] : SCT_DONE;     /* as the answer */
}

uint32_t sct_give(uint8_t *device, size_t device_length,
                  uint32_t port,
                  uint8_t *mailbox, size_t mailbox_length,
                  const uint8_t *area, size_t area_length)
{
    const uint8_t *slot = area + port * SCT_MAILBOX_BYTES;

    if (device_length != SCT_RECORD_BYTES)
        return SCT_BAD_RECORD;
    if (mailbox_length != SCT_MAILBOX_BYTES || area_length != SCT_PRIVATE_BYTES)
        return SCT_BAD_LENGTH;
    if (port >= SCT_PORTS)
        return SCT_BAD_PORT;
    if (WRONG == 14 && mailbox[STATUS] != 0)        /* judged in the mailbox */
        return SCT_BAD_STAGE;
    for (size_t i = 0; i < SCT_MAILBOX_BYTES; i++)
        mailbox[i] = WRONG == 15 ? mailbox[i] | slot[i] : slot[i];
    if (WRONG == 16)
        *(uint8_t *)slot = 0;                       /* the slot's bytes do not stay */
    device[STAGES + STAGE_BYTES * port] = 0;
    return SCT_DONE;
}
