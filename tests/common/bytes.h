/* bytes.h - numbers with their low byte first, for the tests. */
#ifndef TEST_BYTES_H
#define TEST_BYTES_H

#include <stdint.h>

static inline uint64_t get_bytes(const uint8_t *at, unsigned count)
{
    uint64_t value = 0;

    for (unsigned i = count; i > 0; i--)
        value = value << 8 | at[i - 1];
    return value;
}

static inline void put_bytes(uint8_t *at, unsigned count, uint64_t value)
{
    for (unsigned i = 0; i < count; i++)
        at[i] = (uint8_t)(value >> 8 * i);
}

static inline uint16_t get16(const uint8_t *at) { return (uint16_t)get_bytes(at, 2); }
static inline uint64_t get64(const uint8_t *at) { return get_bytes(at, 8); }

static inline void put16(uint8_t *at, uint16_t value) { put_bytes(at, 2, value); }
static inline void put32(uint8_t *at, uint32_t value) { put_bytes(at, 4, value); }
static inline void put64(uint8_t *at, uint64_t value) { put_bytes(at, 8, value); }

#endif
