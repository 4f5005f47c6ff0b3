/* request.h - builds requests in a mailbox, and reads replies. */
#ifndef TEST_REQUEST_H
#define TEST_REQUEST_H

#include <stdbool.h>
#include <stdint.h>

/* Bytes of the registers. */
enum {
    R_FEATURES = 0, R_COUNT = 2, R_LOW = 4, R_LOW_PREVIOUS = 5, R_MID = 6, R_MID_PREVIOUS = 7,
    R_HIGH = 8, R_HIGH_PREVIOUS = 9, R_DEVICE = 10, R_COMMAND = 11, R_STATUS = 12, R_ERROR = 13,
    R_SECTOR = 16, R_CHECK = 16 + 512       /* the data: a sector, then check bytes in a Long transfer */
};

/* The two command families: B0h, and 2Fh with 3Fh. */
enum form { SMART, LOG_EXT };

/* Each clears the mailbox first. */
void build_command(uint8_t *mailbox, uint8_t command);
void build_log(uint8_t *mailbox, enum form form, bool write, uint8_t log, uint16_t count);
void build_sector(uint8_t *mailbox, bool write, uint64_t lba, uint16_t count);
void build_key(uint8_t *mailbox, enum form form, uint16_t action, uint16_t function,
               uint16_t word2, uint16_t word3, uint16_t word4);
void build_fill(uint8_t *mailbox, enum form form, uint16_t function,
                uint64_t start, uint64_t count, uint32_t pattern);

/* Long Sector Access: function 1 reads, 2 writes. */
void build_long(uint8_t *mailbox, enum form form, uint16_t function, uint64_t lba);

#define build_status(mailbox, form)      build_log((mailbox), (form), false, 0xE0, 1)
#define build_data_read(mailbox, form)   build_log((mailbox), (form), false, 0xE1, 1)
#define build_data_write(mailbox, form)  build_log((mailbox), (form), true, 0xE1, 1)
#define build_long_read(mailbox, form)   build_log((mailbox), (form), false, 0xE1, 2)
#define build_long_write(mailbox, form)  build_log((mailbox), (form), true, 0xE1, 2)

/* The extended code or value of a reply: Sector Count and LBA Low. */
uint16_t reply_value(const uint8_t *mailbox);

#endif
