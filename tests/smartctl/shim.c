/*
 * shim.c - preloaded into smartctl, shows it the disk of a state file.
 *
 * `smartctl -d sat FILE` opens the file and asks it by ioctl (SG_IO) for SCSI
 * commands, of which ATA PASS-THROUGH (12) and (16) have the registers of an
 * ATA command. Such an ioctl on a state file ends here; every other one is the
 * kernel's. The registers become a mailbox, which the library answers (passed,
 * below) or the fixed table. docs/smartctl.md has the table in words.
 */
#define _GNU_SOURCE

#include <errno.h>
#include <fcntl.h>
#include <scsi/sg.h>
#include <stdarg.h>
#include <stdio.h>
#include <string.h>
#include <sys/ioctl.h>
#include <sys/syscall.h>
#include <unistd.h>

#include "bytes.h"
#include "request.h"
#include "state.h"

/* ---- What document 01 excludes: the fixed table -------------------------------- */

struct word { uint16_t number, value; };

static const struct word identify_words[] = {
    { 0, 0x0040 },                                  /* an ATA device */
    { 49, 0x0200 },                                 /* LBA, no DMA */
    { 60, VISIBLE }, { 100, VISIBLE },              /* capacity, for 28 and 48 bits */
    { 80, 0x0100 },                                 /* ATA8-ACS */
    { 82, 0x0001 }, { 85, 0x0001 },                 /* SMART: supported, enabled */
    { 83, 0x4400 }, { 86, 0x0400 },                 /* 48-bit addresses: supported, enabled */
    { 84, 0x4020 }, { 87, 0x4020 },                 /* general purpose logging: supported, enabled */
    { 206, 0x003D }                                 /* SCT with actions 2 to 5; action 1 is for the test bench */
};

/* Text in IDENTIFY data: padded with spaces, the two characters of a word exchanged. */
static void put_text(uint8_t *sector, unsigned first_word, unsigned words, const char *text)
{
    size_t length = strlen(text);

    for (size_t i = 0; i < 2 * words; i++)
        sector[2 * first_word + (i ^ 1)] = i < length ? (uint8_t)text[i] : ' ';
}

/* The last byte makes the sum of all bytes 0. */
static void put_sum(uint8_t *sector)
{
    uint8_t sum = 0;

    for (size_t i = 0; i < SCT_SECTOR_BYTES - 1; i++)
        sum = (uint8_t)(sum + sector[i]);
    sector[SCT_SECTOR_BYTES - 1] = (uint8_t)-sum;
}

static void identify(uint8_t *sector)
{
    for (size_t i = 0; i < sizeof identify_words / sizeof identify_words[0]; i++)
        put16(sector + 2 * identify_words[i].number, identify_words[i].value);
    put_text(sector, 10, 10, "00000001");
    put_text(sector, 23, 4, "1");
    put_text(sector, 27, 20, "SCT virtual disk");
    sector[510] = 0xA5;
    put_sum(sector);
}

/* SMART data and thresholds: revision 16, no attribute, no capability. */
static void no_attributes(uint8_t *sector)
{
    put16(sector, 16);
    put_sum(sector);
}

static void no_sector(uint8_t *sector)
{
    (void)sector;
}

enum { ANY = -1 };

struct row {
    int command, features;
    uint8_t status, error, count, mid, high;
    void (*put_sector)(uint8_t *sector);            /* which is zeros before */
};

static const struct row table[] = {
    { 0xEC, ANY,  0x50, 0x00, 0x00, 0x00, 0x00, identify },         /* IDENTIFY DEVICE */
    { 0xE5, ANY,  0x50, 0x00, 0xFF, 0x00, 0x00, no_sector },        /* CHECK POWER MODE: active or idle */
    { 0xB0, 0xD0, 0x50, 0x00, 0x00, 0x00, 0x00, no_attributes },    /* SMART READ DATA */
    { 0xB0, 0xD1, 0x50, 0x00, 0x00, 0x00, 0x00, no_attributes },    /* SMART READ THRESHOLDS */
    { 0xB0, 0xD8, 0x50, 0x00, 0x00, 0x00, 0x00, no_sector },        /* SMART ENABLE OPERATIONS */
    { 0xB0, 0xDA, 0x50, 0x00, 0x00, 0x4F, 0xC2, no_sector },        /* SMART RETURN STATUS: no failure foreseen */
    { ANY,  ANY,  0x51, 0x04, 0x00, 0x00, 0x00, no_sector }         /* all else: refused */
};

static void answer_from_table(uint8_t *mailbox)
{
    const struct row *row = table;

    while ((row->command != ANY && row->command != mailbox[R_COMMAND]) ||
           (row->features != ANY && row->features != mailbox[R_FEATURES]))
        row++;
    memset(mailbox, 0, SCT_MAILBOX_BYTES);
    mailbox[R_STATUS] = row->status;
    mailbox[R_ERROR] = row->error;
    mailbox[R_COUNT] = row->count;
    mailbox[R_MID] = row->mid;
    mailbox[R_HIGH] = row->high;
    row->put_sector(mailbox + R_SECTOR);
}

/* ---- What the library answers -------------------------------------------------- */

static bool passed(const uint8_t *mailbox)
{
    switch (mailbox[R_COMMAND]) {
    case 0xB0: return mailbox[R_FEATURES] == 0xD5 || mailbox[R_FEATURES] == 0xD6;
    case 0x2F: case 0x3F: case 0x24: case 0x34: return true;
    default: return false;
    }
}

/* smartctl has opened the file for reading alone, so it is opened again. */
static bool keep_state(int file, const struct state *state)
{
    char name[32];
    int again;
    bool kept;

    snprintf(name, sizeof name, "/proc/self/fd/%d", file);
    again = open(name, O_WRONLY);
    if (again < 0)
        return false;
    kept = write_state(again, state);
    return close(again) == 0 && kept;
}

/* False if the disk can't be asked. */
static bool answer_from_disk(int file, struct state *state, uint8_t *mailbox)
{
    uint32_t answer = handle(state, mailbox);

    if (answer != SCT_DONE)
        fprintf(stderr, "shim: a step answered %lu\n", (unsigned long)answer);
    else if (!keep_state(file, state))
        fprintf(stderr, "shim: the state can't be written\n");
    else
        return true;
    return false;
}

/* ---- SCSI around it ------------------------------------------------------------ */

enum { PASS_THROUGH_12 = 0xA1, PASS_THROUGH_16 = 0x85, CHECK_CONDITION = 0x02, DRIVER_SENSE = 0x08 };

static bool is_pass_through(const struct sg_io_hdr *io)
{
    return (io->cmd_len == 16 && io->cmdp[0] == PASS_THROUGH_16) ||
           (io->cmd_len == 12 && io->cmdp[0] == PASS_THROUGH_12);
}

/* A mailbox has two sectors of the data. */
static size_t data_length(const struct sg_io_hdr *io)
{
    return io->dxfer_len < SCT_DATA_BYTES ? io->dxfer_len : SCT_DATA_BYTES;
}

/* Five registers, then Device and Command. The longer block has a previous byte before each of the five. */
static void request_of(uint8_t *mailbox, const struct sg_io_hdr *io)
{
    bool longer = io->cmdp[0] == PASS_THROUGH_16;
    const uint8_t *block = io->cmdp + 3;

    memset(mailbox, 0, SCT_MAILBOX_BYTES);
    for (int i = 0; i < 5; i++) {
        if (longer)
            mailbox[2 * i + 1] = *block++;
        mailbox[2 * i] = *block++;
    }
    memcpy(mailbox + R_DEVICE, block, 2);
    if (io->dxfer_direction == SG_DXFER_TO_DEV)
        memcpy(mailbox + R_SECTOR, io->dxferp, data_length(io));
}

static void put_sense(struct sg_io_hdr *io, const uint8_t *sense, size_t length)
{
    io->sb_len_wr = (unsigned char)(length < io->mx_sb_len ? length : io->mx_sb_len);
    memcpy(io->sbp, sense, io->sb_len_wr);
    io->status = CHECK_CONDITION;
    io->masked_status = CHECK_CONDITION >> 1;
    io->driver_status = DRIVER_SENSE;
    io->info |= SG_INFO_CHECK;
}

/* A reply's registers as an ATA Status Return descriptor: after a refusal, and where they are asked for. */
static void put_registers(struct sg_io_hdr *io, const uint8_t *mailbox, bool failed)
{
    uint8_t sense[22] = { 0x72, failed ? 0x0B : 0x01, 0x00, failed ? 0x00 : 0x1D, 0, 0, 0, 14, 0x09, 12 };
    uint8_t *descriptor = sense + 8;

    descriptor[2] = io->cmdp[0] == PASS_THROUGH_16 && (io->cmdp[1] & 1);
    descriptor[3] = mailbox[R_ERROR];
    for (int i = 0; i < 4; i++) {
        descriptor[4 + 2 * i] = mailbox[R_COUNT + 2 * i + 1];
        descriptor[5 + 2 * i] = mailbox[R_COUNT + 2 * i];
    }
    descriptor[12] = mailbox[R_DEVICE];
    descriptor[13] = mailbox[R_STATUS];
    put_sense(io, sense, sizeof sense);
}

static void reply_with(struct sg_io_hdr *io, const uint8_t *mailbox)
{
    bool failed = mailbox[R_STATUS] & 1;
    bool asked = io->cmdp[2] & 0x20;

    if (io->dxfer_direction == SG_DXFER_FROM_DEV) {
        size_t sent = failed ? 0 : data_length(io);

        memcpy(io->dxferp, mailbox + R_SECTOR, sent);
        io->resid = (int)(io->dxfer_len - sent);
    }
    if (failed || asked)
        put_registers(io, mailbox, failed);
}

static int scsi_command(int file, struct state *state, struct sg_io_hdr *io)
{
    static const uint8_t not_known[8] = { 0x72, 0x05, 0x20 };
    uint8_t mailbox[SCT_MAILBOX_BYTES];

    io->status = io->masked_status = io->msg_status = io->sb_len_wr = 0;
    io->host_status = io->driver_status = 0;
    io->resid = 0;
    io->duration = io->info = 0;
    if (!is_pass_through(io)) {
        put_sense(io, not_known, sizeof not_known);
        return 0;
    }
    request_of(mailbox, io);
    if (!passed(mailbox)) {
        answer_from_table(mailbox);
    } else if (!answer_from_disk(file, state, mailbox)) {
        errno = EIO;
        return -1;
    }
    reply_with(io, mailbox);
    return 0;
}

/* Whether this is a SCSI command, with its data in one piece, for a state file; then the state is read. */
static bool is_for_disk(int file, unsigned long request, const struct sg_io_hdr *io, struct state *state)
{
    return request == SG_IO && io->interface_id == 'S' && io->iovec_count == 0 && read_state(file, state);
}

__attribute__((visibility("default"))) int ioctl(int file, unsigned long request, ...)
{
    struct state state;
    va_list rest;
    void *argument;

    va_start(rest, request);
    argument = va_arg(rest, void *);
    va_end(rest);
    if (is_for_disk(file, request, argument, &state))
        return scsi_command(file, &state, argument);
    return (int)syscall(SYS_ioctl, file, request, argument);
}
