/* implementation.h - the twelve entries as a table, so that tests can run two. */
#ifndef TEST_IMPLEMENTATION_H
#define TEST_IMPLEMENTATION_H

#include "sct_disk.h"

struct implementation {
    const char *name;
    uint32_t (*power_on)(uint8_t *, size_t, uint8_t *, size_t, const uint8_t *, size_t,
                         const uint8_t *, size_t, const uint8_t *, size_t, uint64_t);
    uint32_t (*take)(uint8_t *, size_t, uint32_t, const uint8_t *, size_t, uint8_t *, size_t);
    uint32_t (*serve)(uint8_t *, size_t, uint32_t, uint8_t *, size_t, uint8_t *, size_t, uint8_t *, size_t);
    uint32_t (*give)(uint8_t *, size_t, uint32_t, uint8_t *, size_t, const uint8_t *, size_t);
    uint64_t (*work)(uint8_t *, size_t, const uint8_t *, size_t, uint8_t *, size_t, uint8_t *, size_t, uint32_t);
    uint32_t (*lock)(uint8_t *, size_t);
    uint32_t (*unlock)(uint8_t *, size_t);
    uint32_t (*set_visible)(uint8_t *, size_t, uint64_t);
    uint32_t (*sample)(uint8_t *, size_t, uint8_t);
    uint64_t (*repair)(uint8_t *, size_t, uint8_t *, size_t, const uint8_t *, size_t, uint64_t);
    uint32_t (*save)(const uint8_t *, size_t, uint8_t *, size_t, uint64_t);
    uint32_t (*convert)(uint8_t *, size_t, uint64_t, uint32_t);
};

extern const struct implementation archive;     /* sct_* */
extern const struct implementation reference;   /* ref_* */

#endif
