/*
 * reference.h - the reference implementation's entries.
 *
 * The same twelve entries as in sct_disk.h, with the prefix ref_ instead of sct_.
 * REF_PREFIX names another prefix, so that the file can be built a second time
 * in the place of the archive (that is how the tests are tested).
 */
#ifndef REFERENCE_H
#define REFERENCE_H

#include "sct_disk.h"

#ifndef REF_PREFIX
#define REF_PREFIX ref_
#endif

#define REF_JOIN_(prefix, name) prefix##name
#define REF_JOIN(prefix, name)  REF_JOIN_(prefix, name)
#define REF(name)               REF_JOIN(REF_PREFIX, name)

uint32_t REF(power_on)(uint8_t *device, size_t device_length,
                       uint8_t *area, size_t area_length,
                       const uint8_t *disk, size_t disk_length,
                       const uint8_t *check_area, size_t check_area_length,
                       const uint8_t *image, size_t image_length, uint64_t used);
uint32_t REF(take)(uint8_t *device, size_t device_length, uint32_t port,
                   const uint8_t *mailbox, size_t mailbox_length,
                   uint8_t *area, size_t area_length);
uint32_t REF(serve)(uint8_t *device, size_t device_length, uint32_t port,
                    uint8_t *area, size_t area_length,
                    uint8_t *disk, size_t disk_length,
                    uint8_t *check_area, size_t check_area_length);
uint32_t REF(give)(uint8_t *device, size_t device_length, uint32_t port,
                   uint8_t *mailbox, size_t mailbox_length,
                   const uint8_t *area, size_t area_length);
uint64_t REF(work)(uint8_t *device, size_t device_length,
                   const uint8_t *area, size_t area_length,
                   uint8_t *disk, size_t disk_length,
                   uint8_t *check_area, size_t check_area_length, uint32_t n);
uint32_t REF(lock)(uint8_t *device, size_t device_length);
uint32_t REF(unlock)(uint8_t *device, size_t device_length);
uint32_t REF(set_visible)(uint8_t *device, size_t device_length, uint64_t v);
uint32_t REF(sample)(uint8_t *device, size_t device_length, uint8_t reading);
uint64_t REF(repair)(uint8_t *device, size_t device_length,
                     uint8_t *disk, size_t disk_length,
                     const uint8_t *check_area, size_t check_area_length, uint64_t lba);
uint32_t REF(save)(const uint8_t *device, size_t device_length,
                   uint8_t *image, size_t image_length, uint64_t used);
uint32_t REF(convert)(uint8_t *image, size_t image_length, uint64_t used, uint32_t form);

#endif /* REFERENCE_H */
