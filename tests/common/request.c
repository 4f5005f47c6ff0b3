#include "request.h"

#include <string.h>

#include "bytes.h"
#include "sct_disk.h"

void build_command(uint8_t *mailbox, uint8_t command)
{
    memset(mailbox, 0, SCT_MAILBOX_BYTES);
    mailbox[R_COMMAND] = command;
}

void build_log(uint8_t *mailbox, enum form form, bool write, uint8_t log, uint16_t count)
{
    if (form == SMART) {
        build_command(mailbox, 0xB0);
        mailbox[R_FEATURES] = write ? 0xD6 : 0xD5;
        mailbox[R_MID] = 0x4F;
        mailbox[R_HIGH] = 0xC2;
    } else {
        build_command(mailbox, write ? 0x3F : 0x2F);
    }
    mailbox[R_LOW] = log;
    put16(mailbox + R_COUNT, count);
}

void build_sector(uint8_t *mailbox, bool write, uint64_t lba, uint16_t count)
{
    build_command(mailbox, write ? 0x34 : 0x24);
    put16(mailbox + R_COUNT, count);
    mailbox[R_LOW] = (uint8_t)lba;
    mailbox[R_MID] = (uint8_t)(lba >> 8);
    mailbox[R_HIGH] = (uint8_t)(lba >> 16);
    mailbox[R_LOW_PREVIOUS] = (uint8_t)(lba >> 24);
    mailbox[R_MID_PREVIOUS] = (uint8_t)(lba >> 32);
    mailbox[R_HIGH_PREVIOUS] = (uint8_t)(lba >> 40);
}

void build_key(uint8_t *mailbox, enum form form, uint16_t action, uint16_t function,
               uint16_t word2, uint16_t word3, uint16_t word4)
{
    uint8_t *key = mailbox + R_SECTOR;

    build_log(mailbox, form, true, 0xE0, 1);
    put16(key, action);
    put16(key + 2, function);
    put16(key + 4, word2);
    put16(key + 6, word3);
    put16(key + 8, word4);
}

void build_fill(uint8_t *mailbox, enum form form, uint16_t function,
                uint64_t start, uint64_t count, uint32_t pattern)
{
    uint8_t *key = mailbox + R_SECTOR;

    build_key(mailbox, form, 2, function, 0, 0, 0);
    put64(key + 4, start);
    put64(key + 12, count);
    put32(key + 20, pattern);
}

void build_long(uint8_t *mailbox, enum form form, uint16_t function, uint64_t lba)
{
    build_key(mailbox, form, 1, function, 0, 0, 0);
    put64(mailbox + R_SECTOR + 4, lba);
}

uint16_t reply_value(const uint8_t *mailbox)
{
    return (uint16_t)(mailbox[R_COUNT] | mailbox[R_LOW] << 8);
}
