#include "ask.h"

#include <string.h>

#include "bytes.h"
#include "request.h"
#include "twin.h"

static uint8_t mail[SCT_MAILBOX_BYTES];

void start(void)
{
    expect("answer of power-on", BOTH(power_on, 0), SCT_DONE);
}

void show(uint64_t visible)
{
    expect("answer of set V", BOTH(set_visible, visible), SCT_DONE);
}

void expect_work(uint32_t n, uint32_t sectors)
{
    expect("result of work", BOTH(work, n), sectors);
}

void expect_repair(uint64_t lba, uint32_t report)
{
    expect("result of repair", BOTH(repair, lba), report);
}

const struct record_fields *fields(void)
{
    static struct record_fields f;

    decode_record(&f, twin.side[0].record);
    return &f;
}

/* The reply has this Status, Error, value and LBA Mid; then data, and zeros behind it. */
static void expect_reply(uint8_t error, uint16_t value, uint8_t mid, const uint8_t *data, size_t bytes)
{
    uint8_t wanted[SCT_MAILBOX_BYTES] = { 0 };

    wanted[R_STATUS] = error == 0 ? 0x50 : 0x51;
    wanted[R_ERROR] = error;
    wanted[R_COUNT] = (uint8_t)value;
    wanted[R_LOW] = (uint8_t)(value >> 8);
    wanted[R_MID] = mid;
    if (bytes != 0)
        memcpy(wanted + R_SECTOR, data, bytes);
    expect("Error", mail[R_ERROR], error);
    expect("code or value", reply_value(mail), value);
    expect("LBA Mid", mail[R_MID], mid);
    if (memcmp(mail, wanted, sizeof mail) != 0)
        differ("the reply");
}

void expect_write(uint64_t lba, const uint8_t *sector, uint8_t error)
{
    build_sector(mail, true, lba, 1);
    memcpy(mail + R_SECTOR, sector, SCT_SECTOR_BYTES);
    exchange(0, mail);
    expect_reply(error, 0, 0, NULL, 0);
}

void expect_read(uint64_t lba, const uint8_t *sector, uint8_t error)
{
    build_sector(mail, false, lba, 1);
    exchange(1, mail);
    expect_reply(error, 0, 0, sector, error == 0 ? SCT_SECTOR_BYTES : 0);
}

/* A key that is refused with this code and word, or accepted with this value and LBA Mid. */
static void expect_key(uint16_t code, uint8_t word, uint16_t value, uint8_t mid)
{
    exchange(0, mail);
    if (code != 0)
        expect_reply(0x04, code, word, NULL, 0);
    else
        expect_reply(0, value, mid, NULL, 0);
}

void expect_long_key(uint16_t function, uint64_t lba, uint16_t code, uint8_t word)
{
    build_long(mail, SMART, function, lba);
    expect_key(code, word, 2, 2);
}

void expect_fill_key(uint16_t function, uint64_t first, uint64_t count, uint16_t code, uint8_t word)
{
    build_fill(mail, LOG_EXT, function, first, count, FILL_PATTERN);
    expect_key(code, word, 0, function == 2);
}

void pattern_sector(uint8_t *sector)
{
    for (unsigned i = 0; i < SCT_SECTOR_BYTES; i += 4)
        put32(sector + i, FILL_PATTERN);
}

void write_long(uint64_t lba, const uint8_t *sector, uint16_t check)
{
    expect_long_key(2, lba, 0, 0);
    expect("LBA of the pending transfer", fields()->slot[0].first, lba);
    build_long_write(mail, LOG_EXT);
    memcpy(mail + R_SECTOR, sector, SCT_SECTOR_BYTES);
    put16(mail + R_CHECK, check);
    exchange(0, mail);
    expect_reply(0, 0, 0, NULL, 0);
}

void expect_read_long(uint64_t lba, const uint8_t *sector, uint16_t check)
{
    uint8_t data[SCT_SECTOR_BYTES + SCT_CHECK_BYTES];

    memcpy(data, sector, SCT_SECTOR_BYTES);
    put16(data + SCT_SECTOR_BYTES, check);
    expect_long_key(1, lba, 0, 0);
    build_long_read(mail, SMART);
    exchange(0, mail);
    expect_reply(0, 0, 0, data, sizeof data);
}

void send_fill_sector(const uint8_t *sector)
{
    build_data_write(mail, SMART);
    memcpy(mail + R_SECTOR, sector, SCT_SECTOR_BYTES);
    exchange(0, mail);
    expect_reply(0, 0, 0, NULL, 0);
}

void expect_status(uint8_t state, uint16_t code, uint64_t next, uint8_t flag)
{
    build_status(mail, SMART);
    exchange(3, mail);
    expect("state", mail[R_SECTOR + 10], state);
    expect("stored code", get16(mail + R_SECTOR + 14), code);
    expect("next LBA", get64(mail + R_SECTOR + 40), next);
    expect("flag", mail[R_SECTOR + 6], flag);
}
