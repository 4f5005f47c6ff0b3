/*
 * sct_disk.h - one virtual ATA disk with SMART Command Transport (SCT), for a
 * system management handler. docs/interface.md describes its use.
 *
 * The caller owns all memory. The library has no state of its own, allocates
 * nothing and returns for every input. Of the C library it needs memset.
 *
 *   device      1,024 bytes: the device record. Opaque; power-on writes it
 *               first.
 *   area        4,672 bytes: the private area, with four request slots and the
 *               fill sector. Opaque; no core may see it.
 *   disk        1 to 16,777,216 sectors. Its length at power-on gives the native
 *               size N. The visible size V is 1 to N.
 *   check_area  two bytes for each of the N sectors, its check: bits 0 to 11
 *               are the exclusive or of the positions (8 times byte plus bit)
 *               of all one bits of the sector, bit 12 is their parity, the rest
 *               is 0; low byte first.
 *   mailbox     1,040 bytes, one for each port: 16 of registers, then two
 *               sectors, of which only Long Sector Access uses the second.
 *   image       any length. Its first `used` bytes are saved entries of 560, all
 *               of one form: form 1 has no recovery timers, form 2 has them.
 *
 * What the caller guarantees:
 *   - A pointer is valid for as many bytes as its length states. With length 0
 *     it may be NULL. No alignment is needed.
 *   - The buffers of one call do not overlap.
 *   - One call at a time over one record.
 *   - Nobody else writes record, private area, disk and check area, or the
 *     image during a call. The mailbox alone may be rewritten by others during
 *     the call: sct_take copies it once into the port's slot, and everything
 *     after goes by the slot; sct_give only writes it. No other function has a
 *     mailbox.
 *
 * All else is judged here: any port, number and length, and any bytes. Where
 * the answer is not 0, no byte of any buffer has changed.
 *
 * What the processor, the stack and memset must be (x86-64, 64-bit mode):
 *   - Calls follow the System V convention. Where the compiler has an attribute
 *     for it the prototypes carry it (SCT_CALL), so that a caller compiled with
 *     -mabi=ms calls rightly.
 *   - The stack pointer is a multiple of 16 at the call. Below it a call needs
 *     the larger of SCT_STACK_BYTES, and SCT_STACK_AT_MEMSET plus what memset
 *     uses; return addresses and the red zone are counted. Both are computed
 *     from the instructions; docs/performance.md has them by function.
 *   - The code uses the red zone, the 128 bytes below the stack pointer. So an
 *     interrupt or exception that is taken on the same stack during a call
 *     destroys the call: sct_take was seen to answer 4 on a sound record. Keep
 *     them off, or give them another stack (IST).
 *   - SSE is enabled (CR4.OSFXSR set, CR0.EM and CR0.TS clear). A call changes
 *     SSE registers; a handler that interrupts other code saves them. The code
 *     has no x87, MMX or AVX instruction.
 *   - memset is called by the System V convention too. With a memset of another
 *     convention power-on was seen to answer 0 and to leave the private area
 *     as it was; docs/interface.md shows how the archive gets one of its own.
 *   - A memset written in C must not be compiled into a call of itself: use
 *     -ffreestanding or -fno-builtin, and with gcc also
 *     -fno-tree-loop-distribute-patterns.
 */
#ifndef SCT_DISK_H
#define SCT_DISK_H

#include <stddef.h>
#include <stdint.h>

#ifdef __cplusplus
extern "C" {
#endif

/* The System V calling convention, also where the caller has another. */
#if defined(__x86_64__) && defined(__GNUC__)
#define SCT_CALL __attribute__((sysv_abi))
#else
#define SCT_CALL
#endif

/* ---- Sizes --------------------------------------------------------------- */

/*
 * SCT_SECTOR_BYTES, SCT_CHECK_BYTES and SCT_NATIVE_LIMIT are constants of 64
 * bits, so that a product with them does not wrap: a disk of 8 GiB has 2^33
 * bytes.
 */
#define SCT_PORTS            4u                 /* ports are 0 to 3 */
#define SCT_SECTOR_BYTES     UINT64_C(512)
#define SCT_CHECK_BYTES      UINT64_C(2)        /* of a sector, in the check area */
#define SCT_REGISTER_BYTES   16u
#define SCT_DATA_BYTES       1024u              /* two sectors */
#define SCT_MAILBOX_BYTES    1040u              /* registers, then data */
#define SCT_PRIVATE_BYTES    4672u              /* four slots, then the fill sector */
#define SCT_RECORD_BYTES     1024u
#define SCT_ENTRY_BYTES      560u               /* one saved entry */
#define SCT_ENTRIES_LIMIT    117u
#define SCT_IMAGE_LIMIT      65520u             /* 117 entries */
#define SCT_NATIVE_LIMIT     UINT64_C(16777216) /* sectors */
#define SCT_FORM_1           1u                 /* entries without timers */
#define SCT_FORM_2           2u                 /* with them */
#define SCT_STACK_BYTES      832u               /* of stack, for any call */
#define SCT_STACK_AT_MEMSET  664u               /* of these, in use where memset begins */

/* ---- Answers ------------------------------------------------------------- */

/* Where several apply, the first of 4, 2, 1, 5, 3, 6, 7, 8, 9 is given. */
enum sct_answer {
    SCT_DONE         = 0,
    SCT_BAD_PORT     = 1,  /* port above 3 */
    SCT_BAD_LENGTH   = 2,  /* a buffer is not of its size, or used exceeds it */
    SCT_BAD_STAGE    = 3,  /* the slot is not in the stage that the step needs */
    SCT_BAD_RECORD   = 4,  /* the record is unsound; so is one of another size */
    SCT_BAD_VALUE    = 5,  /* set V: V is 0 or above N; repair: the LBA is not below V;
                              convert: the form is not 1 or 2 */
    SCT_BAD_IMAGE    = 6,  /* the image, or its used length, is not readable */
    SCT_OTHER_DISK   = 7,  /* the newest entry is of a disk of another N */
    SCT_IMAGE_FULL   = 8,  /* the image has 117 entries, or no 560 bytes more */
    SCT_OTHER_TIMERS = 9   /* convert to form 1: an entry's timers are not 70 and 70 */
};

/* ---- A request: take, serve, give ---------------------------------------- */

/*
 * Copies the mailbox into the port's slot: empty becomes held.
 * Refusals: 4; 2 mailbox, private area; 1; 3 slot not empty.
 * Changes: the record, and this slot in the private area.
 */
uint32_t SCT_CALL sct_take(uint8_t *device, size_t device_length,
                           uint32_t port,
                           const uint8_t *mailbox, size_t mailbox_length,
                           uint8_t *area, size_t area_length);

/*
 * Carries out the request in the slot and leaves the reply there: held becomes
 * answered. A request that the disk refuses (Status 51h) is served: answer 0.
 * So is a sector read (24h) of a sector whose check bytes are not those of its
 * data: its reply has Error 40h and no data. Read Long sends the sector and its
 * check bytes as they are.
 * The reply to a key sector that is refused has in LBA Mid (byte 6) the word of
 * the key that was wrong; docs/refused-keys.md has the table with the codes:
 *   0    the action
 *   1    the function
 *   2    what is selected: timer, feature or table; or Start, or a Long LBA
 *   3    the value of a timer or of a feature
 *   4    the option
 *   6    Count: Start is good, and Start + Count exceeds V
 *   255  none: the disk is locked
 * Every other request that is refused has 0 there.
 * Refusals: 4; 2 private area, disk not N sectors, check area not 2 N bytes; 1;
 * 3 slot not held.
 * Changes: the record; this slot, and the fill sector where a fill begins; for
 * a sector write (34h) and Write Long one sector below V and its check bytes.
 */
uint32_t SCT_CALL sct_serve(uint8_t *device, size_t device_length,
                            uint32_t port,
                            uint8_t *area, size_t area_length,
                            uint8_t *disk, size_t disk_length,
                            uint8_t *check_area, size_t check_area_length);

/*
 * Writes the reply, all 1,040 bytes, to the mailbox: answered becomes empty.
 * Refusals: 4; 2 mailbox, private area; 1; 3 slot not answered.
 * Changes: the record and the mailbox.
 */
uint32_t SCT_CALL sct_give(uint8_t *device, size_t device_length,
                           uint32_t port,
                           uint8_t *mailbox, size_t mailbox_length,
                           const uint8_t *area, size_t area_length);

/* ---- The fill in the background ------------------------------------------ */

/*
 * Writes the next sectors of a running fill, as many as n and what is left
 * allow; with no fill none. The result has the answer in bits 32 to 63 and the
 * number of sectors written in bits 0 to 31 (0 where the answer is not 0).
 * Refusals: 4; 2 private area, disk not N sectors, check area not 2 N bytes.
 * Changes: the record, and the sectors written with their check bytes, all
 * below V.
 */
uint64_t SCT_CALL sct_work(uint8_t *device, size_t device_length,
                           const uint8_t *area, size_t area_length,
                           uint8_t *disk, size_t disk_length,
                           uint8_t *check_area, size_t check_area_length,
                           uint32_t n);

static inline uint32_t sct_work_answer(uint64_t result)
{
    return (uint32_t)(result >> 32);
}

static inline uint32_t sct_work_sectors(uint64_t result)
{
    return (uint32_t)(result & 0xFFFFFFFFu);
}

/* ---- Owner steps --------------------------------------------------------- */

/*
 * While the disk is locked every request is refused (Status 51h). Lock and
 * unlock stop a running fill and drop a pending transfer, also where the lock
 * stays as it was.
 * Refusals: 4.  Changes: the record.
 */
uint32_t SCT_CALL sct_lock(uint8_t *device, size_t device_length);
uint32_t SCT_CALL sct_unlock(uint8_t *device, size_t device_length);

/*
 * Sets the visible size V. Stops a running fill and drops a pending transfer,
 * also where V stays as it was.
 * Refusals: 4; 5.  Changes: the record.
 */
uint32_t SCT_CALL sct_set_visible(uint8_t *device, size_t device_length, uint64_t v);

/*
 * One temperature sample, once a minute: degrees Celsius in two's complement,
 * 80h where there is none.
 * Refusals: 4.  Changes: the record.
 */
uint32_t SCT_CALL sct_sample(uint8_t *device, size_t device_length, uint8_t reading);

/*
 * Compares the check of a sector below V with its check bytes, and flips a bit
 * back. The result has the answer in bits 32 to 63 and the report in bits 0 to
 * 31 (0 where the answer is not 0):
 *   0  they are equal
 *   1  they differ in bit 12 and not in bits 13 to 15, as after one flipped bit
 *      of the data: the bit at the position in which bits 0 to 11 differ was
 *      flipped, and the Segment Initialized flag cleared
 *   2  they differ otherwise: the sector stays as it was
 * Whatever the report, it stops a running fill and drops a pending transfer.
 * The lock does not matter.
 * Refusals: 4; 2 disk not N sectors, check area not 2 N bytes; 5.
 * Changes: the record; for report 1 one bit of the sector.
 */
uint64_t SCT_CALL sct_repair(uint8_t *device, size_t device_length,
                             uint8_t *disk, size_t disk_length,
                             const uint8_t *check_area, size_t check_area_length,
                             uint64_t lba);

static inline uint32_t sct_repair_answer(uint64_t result)
{
    return (uint32_t)(result >> 32);
}

static inline uint32_t sct_repair_report(uint64_t result)
{
    return (uint32_t)(result & 0xFFFFFFFFu);
}

/*
 * Adds one entry to the image, after its used length. After answer 0 the used
 * length is used + 560; it is not returned, and the caller keeps it. The entry
 * is of the form of those before it, and of form 2 where there is none; one of
 * form 1 leaves the timers out, whatever they are.
 * Refusals: 4; 2 used exceeds the image; 6; 7; 8.
 * Changes: the 560 bytes of the image from used on.
 */
uint32_t SCT_CALL sct_save(const uint8_t *device, size_t device_length,
                           uint8_t *image, size_t image_length, uint64_t used);

/*
 * Starts the device from the newest entry of the image; with used 0 as a new
 * disk, with V = N. Both error recovery timers are as an entry of form 2 has
 * them; from an entry of form 1 and with used 0 they are 70, 7 seconds, and a
 * setup tool that relied on 0, no limit, must set 0 itself.
 * What the record held is not judged. Of disk and check area only the lengths
 * are used: check bytes are neither judged nor computed.
 * Refusals: 2 record, private area, disk not 1 to 16,777,216 whole sectors,
 * check area not two bytes for each, used exceeds the image; 6; 7.
 * Changes: the record, and the private area, which becomes zeros.
 */
uint32_t SCT_CALL sct_power_on(uint8_t *device, size_t device_length,
                               uint8_t *area, size_t area_length,
                               const uint8_t *disk, size_t disk_length,
                               const uint8_t *check_area, size_t check_area_length,
                               const uint8_t *image, size_t image_length, uint64_t used);

/* ---- The form of an image ------------------------------------------------ */

/*
 * Converts all entries of the image to form 1 or form 2; entries of form 1 stand
 * for the timers 70 and 70. An image that is already of that form stays, and so
 * does an empty one, whose first entry will be of form 2. It is no step of a
 * device: there is no record.
 * Refusals: 2 used exceeds the image; 5; 6 entries of both forms too; 9.
 * Changes: bytes 25 to 29 of each entry below used.
 */
uint32_t SCT_CALL sct_convert(uint8_t *image, size_t image_length, uint64_t used, uint32_t form);

#ifdef __cplusplus
}
#endif

#endif /* SCT_DISK_H */
